"""A recording with a witness: `run --witness` before and after the program itself, with a script in its place."""

from __future__ import annotations

import json
import os
import tempfile
import unittest
from pathlib import Path
from unittest import mock

from landaudit_record.common.problems import USAGE, WANTING, Problem
from landaudit_record.recorder import listening, tracing, witness
from landaudit_record.recorder.listening import Running
from landaudit_record.recorder.tracing import Outcome

from .kept_logs import LOGS
from .test_cli import said
from .test_run import Untraced

#: Says that it listens, waits for the end of its input, and writes an event and a last line.
LISTENS = """#!/bin/sh
echo ready
cat > /dev/null
echo '{"witness":1,"by":"fexit","unheard":[]}' > "$2"
echo '{"hook":"sb_umount","pid":1,"tid":1,"answer":0}' >> "$2"
echo '{"end":true,"heard":1,"lost":0,"missed":0,"cut":0,"left":0}' >> "$2"
"""
REFUSES = """#!/bin/sh
echo 'landaudit-witness: this kernel refuses it' >&2
exit 4
"""


#: Says that it listens, waits for the end of its input, and writes that a process opened a program; the file is last.
RECORDS = """#!/bin/sh
echo ready
echo "$*" > "${0%/*}/words"
cat > /dev/null
for out; do :; done
echo '{"witness":1,"by":"fexit","unheard":[]}' > "$out"
echo '{"hook":"file_open","pid":7,"tid":7,"answer":0,"file":"1","flags":0,"rights":"rx","path":"/p","chain":@}' >> "$out"
echo '{"end":true,"heard":1,"lost":0,"missed":0,"cut":0,"left":0}' >> "$out"
""".replace("@", '[["8:1",9,0,"p","reg","o"],["8:1",2,0,"/","dir","mr"]]')


class Alone(unittest.TestCase):
    """`run --by witness`, `--pid` and `--cgroup`, with a script in the place of the witness."""

    def setUp(self) -> None:
        self.folder = Path(self.enterContext(tempfile.TemporaryDirectory())).resolve()
        self.out = self.folder / "rec"
        program = self.folder / "landaudit-witness"
        program.write_text(RECORDS)
        program.chmod(0o755)
        self.enterContext(mock.patch.object(witness, "find", return_value=program))
        self.enterContext(mock.patch.object(tracing, "adopt_orphans"))

    def words(self) -> str:
        """The words that the witness was given."""
        return (self.folder / "words").read_text().strip()

    def test_a_command_is_recorded_without_strace(self) -> None:
        with mock.patch.object(tracing, "version", side_effect=AssertionError):
            status, error = said("run", str(self.out), "--by", "witness", "--", "sh", "-c", "exit 3")
        self.assertEqual((status, self.words()), (3, f"--children {self.out}/witness.jsonl"))
        self.assertIn("4 records of 1 process on 2 objects", error)
        self.assertEqual(json.loads((self.out / "recording.json").read_text())["by"], "witness")
        self.assertEqual(json.loads((self.out / "converted.json").read_text())["holes"], {})

    def test_a_signal_that_ends_the_command(self) -> None:
        status, _ = said("run", str(self.out), "--by", "witness", "--", "sh", "-c", "kill -TERM $$")
        self.assertEqual(status, 128 + 15)

    def test_what_runs_is_recorded_for_a_while(self) -> None:
        status, error = said("run", str(self.out), "--pid", "1", "--pid", "2", "--for", "0.1")
        self.assertEqual((status, self.words()), (0, f"--pid 1 --pid 2 {self.out}/witness.jsonl"))
        self.assertIn("a process whose start was not heard", error)

    def test_a_cgroup(self) -> None:
        status, _ = said("run", str(self.out), "--cgroup", str(self.folder), "--for", "0.1")
        self.assertEqual((status, self.words()), (0, f"--cgroup {self.folder} {self.out}/witness.jsonl"))

    def test_another_mount_namespace_is_noticed(self) -> None:
        running = Running((os.getpid(),))
        self.assertFalse(running.is_elsewhere())
        with mock.patch.object(listening, "_namespace", side_effect=["mnt:[1]", "mnt:[2]"]):
            self.assertTrue(running.is_elsewhere())

    def test_what_does_not_go_together(self) -> None:
        for words in (
            ["--pid", "1", "--", "true"],
            ["--pid", "1", "--policy", "p.toml"],
            ["--cgroup", "/", "--watch", "/tmp"],
            ["--for", "1", "--", "true"],
            ["--by", "witness", "--witness", "--", "true"],
            ["--by", "witness", "--readlink", "--", "true"],
            ["--by", "witness"],
        ):
            with self.subTest(words):
                self.assertEqual((said("run", str(self.out), *words)[0], self.out.exists()), (USAGE, False))


class Beside(Untraced):
    def run_with(self, script: str) -> tuple[int, str]:
        """The status of a recording with a script as its witness, and what was said."""
        program = self.folder / "landaudit-witness"
        program.write_text(script)
        program.chmod(0o755)

        def trace(log: Path, command: list[str], **_: bool) -> Outcome:
            log.write_text((LOGS / "forks" / "strace.txt").read_text())
            return Outcome(0, True)

        with mock.patch.object(witness, "find", return_value=program), mock.patch.object(tracing, "run", trace):
            return said("run", str(self.out), "--witness", "--", "true")

    def test_what_was_asked_and_not_recorded_is_told(self) -> None:
        status, error = self.run_with(LISTENS)
        self.assertEqual(status, 0)
        self.assertIn("asked, not recorded: sb_umount", error)
        holes = json.loads((self.out / "converted.json").read_text())["holes"]
        self.assertEqual(holes["asked, not recorded: sb_umount"], 1)

    def test_a_witness_that_does_not_run_leaves_no_folder(self) -> None:
        status, error = self.run_with(REFUSES)
        self.assertEqual((status, self.out.exists()), (WANTING, False))
        self.assertIn("landaudit-witness does not run here", error)

    def test_no_witness_is_built(self) -> None:
        with mock.patch.object(witness, "BUILT", self.folder / "none"), mock.patch.dict("os.environ", PATH="/nothing"):
            with self.assertRaisesRegex(Problem, "is not built: run 'make witness'"):
                witness.find()

    def test_a_recording_without_events_has_no_witness(self) -> None:
        self.assertIsNone(witness.heard_beside(self.folder))
