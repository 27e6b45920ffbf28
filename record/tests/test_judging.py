"""landaudit beside the recorder: a part is judged while another is read, and whatever ends an audit leaves nothing."""

from __future__ import annotations

import os
import signal
import subprocess
import sys
import time
from contextlib import redirect_stderr, redirect_stdout
from io import StringIO
from pathlib import Path
from unittest import mock

from landaudit_record import cli
from landaudit_record.audit import together
from landaudit_record.common import progress
from landaudit_record.common.problems import WANTING
from landaudit_record.common.rights import alone
from landaudit_record.engine import landaudit, reading
from landaudit_record.recorder import converting
from landaudit_record.recorder.ports import Ports
from landaudit_record.recorder.writing import Limits

from .calling import called
from .kept_logs import KeptLogs

RECORD = Path(__file__).resolve().parents[1]
#: Says that it runs, does what a test has it do, and allows everything.
ALLOWING = """#!{python}
import os, sys, time
from pathlib import Path
sys.path.insert(0, {record!r})
from tests.recorded import allow_all
trace = Path(sys.argv[-1])
with open({started!r}, "a") as started:
    print(os.getpid(), trace.name, file=started)
def wait_for(path):
    while not Path(path).exists():
        time.sleep(0.01)
{does}
allow_all(sys.argv)
"""
#: Longer than any of these tests may take.
LONG = 60


class Terminal(StringIO):
    """What is written to a terminal."""

    def isatty(self) -> bool:
        return True


class Judging(KeptLogs):
    """A recording in parts, and a landaudit that does what a test wants."""

    def setUp(self) -> None:
        super().setUp()
        self.recording = self.folder("script")
        converting.convert(self.recording, Ports(), Limits(own=8))
        self.beside = Path(self._folder)
        self.program = self.beside / "landaudit"
        self.started = self.beside / "started"
        self.go = self.beside / "go"

    def landaudit(self, does: str = "") -> str:
        """A landaudit that does something before it answers."""
        words = {"python": sys.executable, "record": str(RECORD), "started": str(self.started), "does": does}
        self.program.write_text(ALLOWING.format(**words))
        self.program.chmod(0o755)
        return str(self.program)

    def runs(self, number: int) -> list[tuple[int, str]]:
        """The runs of landaudit, once there are so many: the process of each, and its trace."""
        end = time.monotonic() + LONG
        while time.monotonic() < end:
            lines = self.started.read_text().splitlines() if self.started.exists() else []
            if len(lines) >= number:
                return [(int(pid), trace) for pid, _, trace in (line.partition(" ") for line in lines)]
            time.sleep(0.01)
        self.fail(f"landaudit was not run {number} times")

    def assert_nothing_is_left(self) -> None:
        """No folder of the audit is there, and none of its processes."""
        self.assertEqual([path.name for path in self.recording.iterdir() if path.is_dir()], [])
        for pid, _ in self.runs(1):
            self.assertRaises(ProcessLookupError, os.kill, pid, 0)

    def test_the_next_part_is_judged_while_one_is_read(self) -> None:
        program = self.landaudit(f"if trace.name == 'trace-2.jsonl': wait_for({str(self.go)!r})")
        members = together.opened([str(self.recording)])
        with together.audits(members, Path(program), "audit", best_effort=True) as (auditing,):
            judged = auditing.judged(alone(5), None)
            self.assertEqual(next(judged).trace.name, "trace-1.jsonl")
            self.assertEqual({trace for _, trace in self.runs(2)}, {"trace-1.jsonl", "trace-2.jsonl"})
            self.go.touch()
            self.assertEqual([files.trace.name for files in judged], ["trace-2.jsonl"])
        self.assert_nothing_is_left()

    def test_a_terminal_shows_how_far_it_is(self) -> None:
        """And nothing of it stays: the last that is written clears the line. The first part has the first call alone: 13
        records for a script with an interpreter and a loader, and three descriptors."""
        program, terminal = self.landaudit(), Terminal()
        for module, name, value in ((reading, "BLOCK", 1), (progress, "EVERY", 0), (landaudit, "workers", lambda: 1)):
            self.enterContext(mock.patch.object(module, name, value))
        with redirect_stderr(terminal), redirect_stdout(StringIO()):
            cli.main(["audit", str(self.recording), "--as-recorded", "--landaudit", program])
        *shown, last = terminal.getvalue().split("\r\033[K")
        self.assertEqual(shown[:2], ["", "judging at ABI 1-5, part 1 of 2"])
        self.assertLess(shown.index("13 answers read"), shown.index("judging at ABI 1-5, part 2 of 2"))
        self.assertEqual(last, "")

    def test_a_fault_while_a_part_is_read_ends_what_is_judged(self) -> None:
        program = self.landaudit(f"if trace.name == 'trace-2.jsonl': wait_for({str(self.go)!r})")
        members = together.opened([str(self.recording)])
        with self.assertRaises(KeyboardInterrupt):
            with together.audits(members, Path(program), "audit", best_effort=True) as (auditing,):
                for _ in auditing.judged(alone(5), None):
                    self.runs(2)
                    raise KeyboardInterrupt
        self.assert_nothing_is_left()

    def test_signals_end_an_audit_and_leave_nothing(self) -> None:
        """Also if the tests are a background job of a shell: such a job ignores SIGINT, and so do its children."""
        self.addCleanup(signal.signal, signal.SIGINT, signal.signal(signal.SIGINT, signal.default_int_handler))
        for name, waits in {"SIGINT": "trace-1.jsonl", "SIGTERM": "trace-2.jsonl"}.items():
            self.started.unlink(missing_ok=True)
            program = self.landaudit(f"if trace.name == {waits!r}: wait_for({str(self.go)!r})")
            words = [sys.executable, RECORD / "landaudit-record", "audit", self.recording, "--as-recorded", "--landaudit",
                     program]
            audit = subprocess.Popen(words, stdout=subprocess.DEVNULL, stderr=subprocess.PIPE, text=True)
            number = signal.Signals[name]
            with self.subTest(name), audit:
                self.runs(2 if waits == "trace-2.jsonl" else 1)
                audit.send_signal(number)
                _, error = audit.communicate(timeout=LONG)
                self.assertEqual((audit.returncode, error), (128 + number, f"landaudit-record: ended by {name}\n"))
                self.assert_nothing_is_left()

    def test_one_that_dies_is_told_in_a_line(self) -> None:
        """One without memory says so itself, and one that the system kills for want of it says nothing."""
        faults = {
            "print('landaudit: no memory', file=sys.stderr), os._exit(4)": "landaudit: no memory",
            "os.kill(os.getpid(), 9)": "landaudit was killed: is there enough memory?",
            "os.abort()": "landaudit was ended by SIGABRT",
            "os._exit(7)": "landaudit ended with status 7",
            "print('error: unknown --json', file=sys.stderr), os._exit(2)":
                "error: unknown --json: use programs of one version",
        }
        where = f"tree {self.recording}/tree-2.jsonl, trace {self.recording}/trace-2.jsonl"
        for does, told in faults.items():
            program = self.landaudit(f"if trace.name == 'trace-2.jsonl': {does}")
            with self.subTest(told):
                words = ["audit", self.recording, "--as-recorded", "--landaudit", program]
                self.assertEqual(called(words), (WANTING, "", f"landaudit-record: {told} ({where})\n"))
                self.assert_nothing_is_left()
