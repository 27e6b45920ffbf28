"""A recording says that it is whole only when it is, and what is not whole is never audited as if it were."""

from __future__ import annotations

import errno
import json
import os
import signal
import subprocess
import sys
import unittest
from pathlib import Path
from unittest import mock

from landaudit_record.audit import auditor
from landaudit_record.common import finished
from landaudit_record.common.finished import CONVERTED, Converted, Size
from landaudit_record.common.problems import NOT_ALL_JUDGED, UNREADABLE, USAGE, Problem
from landaudit_record.recorder import converting, recordings
from landaudit_record.recorder.ports import Ports
from landaudit_record.recorder.writing import Limits, ListedTree, Recording

from .calling import called
from .kept_logs import KeptLogs
from .recorded import write_lines
from .stand_in import WIDE
from .stories import names

RECORD = Path(__file__).resolve().parents[1]
#: Answers that all is allowed, but not what a call may be otherwise.
ALLOWS = f"""#!/usr/bin/env python3
import sys
sys.path.insert(0, {str(RECORD)!r})
from tests.recorded import allow_all, missing_on, refused
allow_all(sys.argv, otherwise=refused(missing_on("/p", "truncate")))
"""


class Whole(KeptLogs):
    def setUp(self) -> None:
        super().setUp()
        self.recording = self.folder("forks")
        self.landaudit = Path(self._folder) / "landaudit"
        self.landaudit.write_text(ALLOWS)
        self.landaudit.chmod(0o755)

    def convert_it(self, limits: Limits = Limits()) -> Converted:
        return converting.convert(self.recording, Ports(), limits)

    def names(self) -> list[str]:
        return sorted(path.name for path in self.recording.iterdir())

    def audited(self, *words: str) -> tuple[int, str, str]:
        """The status of an audit, and what it wrote to standard output and standard error."""
        alone = [] if "--policy" in words else ["--as-recorded"]
        with mock.patch.dict(os.environ, COLUMNS=WIDE):
            return called(["audit", self.recording, "--landaudit", self.landaudit, *alone, *words])

    def test_one_part_has_the_files_of_one(self) -> None:
        done = self.convert_it()
        self.assertEqual(len(done.parts), 1)
        self.assertLessEqual({"tree.jsonl", "trace.jsonl", "unsaid.jsonl", CONVERTED}, set(self.names()))
        said = json.loads((self.recording / CONVERTED).read_text())
        records = len((self.recording / "trace.jsonl").read_text().splitlines())
        self.assertEqual((said["format"], said["records"], said["ended"]), (1, records, True))
        self.assertEqual([(part["records"], part["again"]) for part in said["parts"]], [(records, 0)])

    def test_a_conversion_in_parts_leaves_no_file_of_one_before(self) -> None:
        self.convert_it()
        in_parts = self.convert_it(Limits(own=20))
        self.assertGreater(len(in_parts.parts), 1)
        self.assertNotIn("trace.jsonl", self.names())
        self.assertIn("trace-2.jsonl", self.names())
        self.convert_it()
        self.assertEqual([name for name in self.names() if name.startswith("tr")], ["trace.jsonl", "tree.jsonl"])

    def test_what_a_recording_says_of_itself_is_read_back(self) -> None:
        done = self.convert_it(Limits(own=20))
        found = finished.opened(str(self.recording))
        self.assertEqual([part.again for part in found.parts], [part.again for part in done.parts])
        self.assertEqual((found.unsaid, found.missing), (done.unsaid, []))

    def test_an_interrupted_conversion_leaves_what_was_there(self) -> None:
        self.convert_it()
        before = {name: (self.recording / name).read_bytes() for name in self.names()}
        interrupted = mock.patch.object(Recording, "commit", side_effect=KeyboardInterrupt)
        with interrupted, self.assertRaises(KeyboardInterrupt):
            self.convert_it()
        self.assertEqual({name: (self.recording / name).read_bytes() for name in self.names()}, before)
        self.assertEqual(self.audited()[0], 0)

    def test_a_full_disk_leaves_what_was_there(self) -> None:
        full = OSError(errno.ENOSPC, os.strerror(errno.ENOSPC))
        with mock.patch.object(Recording, "finish", side_effect=full), self.assertRaises(OSError):
            self.convert_it()
        self.assertNotIn("trace.jsonl", self.names())
        self.assertEqual([name for name in self.names() if name.startswith(".")], [])

    def test_a_conversion_that_is_killed_says_nothing_and_the_next_one_clears_up(self) -> None:
        words = ("import os, signal, sys; sys.path.insert(0, sys.argv[1]); from pathlib import Path; "
                 "from landaudit_record.recorder import converting, writing; "
                 "from landaudit_record.recorder.ports import Ports; "
                 "writing.Recording.finish = lambda *_: os.kill(os.getpid(), signal.SIGKILL); "
                 "converting.convert(Path(sys.argv[2]), Ports())")
        run = subprocess.run([sys.executable, "-c", words, str(RECORD), str(self.recording)])
        self.assertEqual(run.returncode, -signal.SIGKILL)
        self.assertNotIn(CONVERTED, self.names())
        status, out, errors = self.audited()
        mending = f"was not converted to the end: run landaudit-record convert {self.recording}\n"
        self.assertEqual((status, out), (UNREADABLE, ""))
        self.assertTrue(errors.endswith(mending), errors)
        self.convert_it()
        self.assertEqual([name for name in self.names() if name.startswith(".")], [])

    def test_files_that_were_not_put_in_place_are_not_audited(self) -> None:
        self.convert_it(Limits(own=20))
        (self.recording / "trace-2.jsonl").unlink()
        with self.assertRaisesRegex(Problem, r"trace-2.jsonl is missing or has changed since the conversion: run"):
            finished.opened(str(self.recording))

    def test_a_trace_that_was_cut_later_is_not_audited(self) -> None:
        self.convert_it()
        trace = self.recording / "trace.jsonl"
        trace.write_bytes(b"".join(trace.read_bytes().splitlines(keepends=True)[:-1]))
        self.assertEqual(self.audited()[0], UNREADABLE)

    def test_apply_takes_one_trace_of_several(self) -> None:
        self.convert_it(Limits(own=20))
        policy = Path(self._folder) / "policy.toml"
        policy.write_text('[[layer]]\nhandled_access_net = ["bind_tcp"]\n')
        out, first = Path(self._folder) / "tried.jsonl", self.recording / "trace-1.jsonl"
        status, _, errors = called(["apply", policy, self.recording, "--out", out])
        told = f"parts: name one of its traces, such as {first}\n" in errors
        self.assertEqual((status, told), (USAGE, True), errors)
        self.assertEqual(called(["apply", policy, first, "--out", out])[0], 0)
        self.assertGreater(out.stat().st_size, first.stat().st_size)

    def test_what_is_said_in_no_known_way(self) -> None:
        self.convert_it()
        for text in ("", "[]", '{"format": 1}', '{"format": 7}', "{"):
            (self.recording / CONVERTED).write_text(text)
            with self.subTest(text), self.assertRaisesRegex(Problem, "run landaudit-record convert"):
                finished.opened(str(self.recording))

    def test_a_tracer_that_was_killed(self) -> None:
        about = json.loads((self.recording / recordings.ABOUT).read_text())
        (self.recording / recordings.ABOUT).write_text(json.dumps({**about, "ended": False}))
        self.convert_it()
        status, out, _ = self.audited()
        self.assertEqual(status, NOT_ALL_JUDGED)
        self.assertIn("and NOT ALL IS JUDGED (see the end)", out.splitlines()[1])
        self.assertTrue(out.splitlines()[-1].startswith("NOT ALL IS JUDGED: the recording is cut: the log"), out)

    def test_calls_that_could_not_be_recorded(self) -> None:
        with Recording(self.recording, ListedTree(names())) as recording:
            recording.write("start", 10, 1, nnp=True)
            for line in (2, 3):
                recording.leave_out("io_uring", line, 10, "io_uring_enter(3, 1)", asks=True)
            recording.leave_out("EEXIST before Landlock is asked", 4, 10, "mkdir")
            recording.finish(ended=True)
        self.assertEqual([line.get("asks") for line in self.lines(self.recording, "unsaid.jsonl")], [True, True, None])
        status, out, _ = self.audited()
        last = "NOT ALL IS JUDGED: 2 calls that a policy may refuse could not be recorded: io_uring (2)"
        self.assertEqual((status, out.splitlines()[-1]), (NOT_ALL_JUDGED, last))
        data = json.loads(self.audited("--json")[1])
        self.assertEqual(data["not_judged"], ["2 calls that a policy may refuse could not be recorded: io_uring (2)"])

    def test_a_call_that_may_be_refused(self) -> None:
        with Recording(self.recording, ListedTree(names())) as recording:
            recording.write("start", 10, 1, nnp=True)
            for more in ({}, {"otherwise": True}):
                recording.write("truncate", 10, 2, "ok", path="/p", unknown="made or there before", **more)
            recording.finish(ended=True)
        status, out, _ = self.audited()
        self.assertEqual(status, NOT_ALL_JUDGED)
        self.assertIn("1 allowed, 0 refused, 1 may be refused", out)

    def test_calls_that_were_not_traced_stand_beside_each_audit(self) -> None:
        said = "readlink(2) into other processes is not recorded (run --readlink)"
        about = json.loads((self.recording / recordings.ABOUT).read_text())
        for readlink in (False, True):
            with self.subTest(readlink=readlink):
                said_of_it = json.dumps({**about, "looks": True, "readlink": readlink})
                (self.recording / recordings.ABOUT).write_text(said_of_it)
                self.convert_it()
                status, out, _ = self.audited()
                self.assertEqual((status, f"note: {said}\n" in out), (0, not readlink))
                self.assertEqual(json.loads(self.audited("--json")[1])["not_traced"], [] if readlink else [said])

    def test_a_policy_with_scopes_is_told_of_calls_that_they_may_refuse(self) -> None:
        policy = Path(self._folder) / "policy.toml"
        policy.write_text('[[layer]]\nhandled_access_net = ["bind_tcp"]\nscoped = ["signal"]\n')
        with Recording(self.recording, ListedTree(names())) as recording:
            recording.write("start", 10, 1, nnp=True)
            recording.write("exec", 10, 1, "ok", path="/p")
            recording.leave_to_scope("signal", 2, 10, "kill(1, 0) = 0")
            recording.finish(ended=True)
        self.assertEqual(self.audited()[0], 0)
        status, out, _ = self.audited("--policy", str(policy))
        last = "NOT ALL IS JUDGED: 1 call that scoped = signal may refuse can't be judged: the target is not known"
        self.assertEqual((status, out.splitlines()[-1]), (NOT_ALL_JUDGED, last))

    def test_a_recording_by_hand_says_what_it_left_out(self) -> None:
        folder = Path(self._folder) / "by-hand"
        folder.mkdir()
        write_lines(folder / "tree.jsonl", [])
        write_lines(folder / "trace.jsonl", [{"op": "start", "pid": 1}])
        write_lines(folder / "unsaid.jsonl", [{"class": "swapon", "asks": True}, {"class": "splice"}])
        found = finished.opened(str(folder))
        self.assertEqual((dict(found.unsaid), dict(found.holes)), ({"swapon": 1, "splice": 1}, {"swapon": 1}))

    def test_a_folder_that_can_not_be_written(self) -> None:
        self.convert_it()
        before = self.names()
        made = auditor.tempfile.TemporaryDirectory

        def elsewhere(*, prefix: str, dir: Path | None = None) -> object:
            if dir is not None:
                raise OSError(errno.EROFS, os.strerror(errno.EROFS))
            return made(prefix=prefix)

        with mock.patch.object(auditor.tempfile, "TemporaryDirectory", elsewhere):
            status, out, errors = self.audited()
        self.assertEqual((status, self.names()), (0, before))
        self.assertIn("records:", out)
        self.assertIn("can't be written: the report and the tried trace are not kept\n", out)
        self.assertEqual(errors, "")


class Said(unittest.TestCase):
    def test_records_that_are_written_again_do_not_count(self) -> None:
        parts = (Size(100, 0, 9, 1), Size(90, 30, 9, 1))
        self.assertEqual(Converted(parts, 3, 12).records, 160)
