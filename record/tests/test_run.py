"""`landaudit-record run` before and after the program itself: folders, watched directories, signals."""

from __future__ import annotations

import os
import signal
import socket
import tempfile
import unittest
from pathlib import Path
from unittest import mock

from landaudit_record.commands.record import run
from landaudit_record.common import jsonl, stopping
from landaudit_record.recorder import recordings, tracing
from landaudit_record.recorder.tracing import Outcome

from .kept_logs import LOGS
from .test_cli import said


class Untraced(unittest.TestCase):
    """What `run` does around strace, which is not called."""

    def setUp(self) -> None:
        self.folder = Path(self.enterContext(tempfile.TemporaryDirectory())).resolve()
        self.out = self.folder / "rec"
        self.enterContext(mock.patch.object(tracing, "version", return_value="6.1"))
        self.enterContext(mock.patch.object(tracing, "may_trace"))


class Running(Untraced):

    def test_a_directory_that_is_not_there_leaves_no_folder(self) -> None:
        status, error = said("run", str(self.out), "--watch", str(self.folder / "nope"), "--", "ls")
        self.assertEqual((status, self.out.exists()), (2, False))
        self.assertIn("there is no such directory", error)

    def test_a_directory_that_cannot_be_read_is_an_error(self) -> None:
        with mock.patch.object(os, "access", side_effect=lambda path, _: str(path) != str(self.folder)):
            status, error = said("run", str(self.out), "--watch", str(self.folder), "--", "ls")
        self.assertEqual((status, self.out.exists()), (2, False))
        self.assertEqual(error, f"landaudit-record: --watch {self.folder}: it can't be read\n")

    def test_a_folder_is_not_made_with_the_directories_above_it(self) -> None:
        status, error = said("run", str(self.out / "deep"), "--", "ls")
        self.assertEqual((status, self.out.exists()), (2, False))
        self.assertEqual(error, f"landaudit-record: there is no directory {self.out} for deep: make it first\n")

    def listed(self, *words: str) -> list[str]:
        """The directories that a run lists before those in which the kernel makes objects, which each run lists."""
        with (mock.patch.object(recordings, "watch", side_effect=KeyboardInterrupt) as watch,
              mock.patch.object(run, "MADE_BY_KERNEL", (str(self.folder), "/no/such"))):
            said("run", str(self.out), *words, "--", "ls")
        *listed, made_by_kernel = watch.call_args.args[1]
        self.assertEqual(made_by_kernel, str(self.folder))
        return listed

    def test_the_root_is_listed_as_any_directory(self) -> None:
        here = os.getcwd()
        self.assertEqual(self.listed("--watch", "/"), ["/", here])
        self.assertEqual(self.listed("--watch", "/", "--watch", "."), ["/", here])
        self.addCleanup(os.chdir, here)
        os.chdir("/")
        self.assertEqual(self.listed(), ["/"])

    def test_a_working_directory_that_cannot_be_looked_at_is_told_and_not_taken_for_empty(self) -> None:
        with mock.patch.object(os, "getcwd", return_value="/closed"):
            self.assertEqual(self.listed(), ["/closed"])
        self.out.mkdir()
        with mock.patch.object(os, "scandir", side_effect=PermissionError):
            seen = recordings.watch(self.out, ["/closed"])
        self.assertEqual(seen.unread, ["/closed"])

    def test_a_working_directory_that_is_gone_is_an_error(self) -> None:
        with mock.patch.object(os, "getcwd", side_effect=FileNotFoundError):
            status, error = said("run", str(self.out), "--", "ls")
        self.assertEqual(status, 2)
        self.assertEqual(error, "landaudit-record: the working directory is gone: change to another one\n")

    def test_what_the_kernel_shows_of_itself_is_not_listed(self) -> None:
        for name in ("proc", "a b", "data"):
            (self.folder / name).mkdir()
            (self.folder / name / "in").touch()
        mounts = self.folder / "mountinfo"
        mounts.write_text(
            f"22 1 0:21 / {self.folder}/proc rw,nosuid shared:5 - proc proc rw,hidepid=2\n"
            f"23 1 0:22 / {self.folder}/a\\040b rw - cgroup2 none rw\n"
            f"24 1 8:1 / {self.folder}/data rw shared:1 master:2 - ext4 /dev/sda1 rw\n"
        )
        self.out.mkdir()
        seen = recordings.watch(self.out, [str(self.folder)], mounts)
        self.assertEqual(seen.of_kernel, [f"{self.folder}/proc", f"{self.folder}/a b"])
        paths = (line["path"] for _, line in jsonl.numbered(self.out / recordings.BEFORE))
        listed = {path.removeprefix(f"{self.folder}/") for path in paths}
        self.assertEqual(listed, {"proc", "a b", "data", "data/in", "mountinfo", "rec"})

    def test_a_run_that_ends_before_the_program_leaves_no_folder(self) -> None:
        with mock.patch.object(recordings, "watch", side_effect=KeyboardInterrupt):
            status, _ = said("run", str(self.out), "--", "ls")
        self.assertEqual((status, self.out.exists()), (130, False))

    def test_what_cannot_be_read_below_a_watched_directory_is_told(self) -> None:
        closed = self.folder / "closed"
        closed.mkdir()
        scandir = os.scandir

        def some(path: str) -> object:
            if path == str(closed):
                raise PermissionError
            return scandir(path)

        self.out.mkdir()
        with mock.patch.object(os, "scandir", side_effect=some):
            seen = recordings.watch(self.out, [str(self.folder)])
        self.assertEqual((seen.watched, seen.unread), ([str(self.folder)], [str(closed)]))
        listed = [line["path"] for _, line in jsonl.numbered(self.out / recordings.BEFORE)]
        self.assertIn(str(closed), listed)

    def test_a_recording_says_that_its_tracer_ended_by_itself(self) -> None:
        for ended in (True, False):
            with self.subTest(ended=ended):
                out = self.folder / str(ended)

                def traced(log: Path, command: list[str], *, readlink: bool) -> Outcome:
                    self.assertIs(recordings.read_about(log.parent).ended, False)
                    log.write_bytes((LOGS / "forks" / "strace.txt").read_bytes())
                    return Outcome(7, ended)

                with mock.patch.object(tracing, "run", side_effect=traced):
                    status, error = said("run", str(out), "--", "ls")
                self.assertEqual((status, recordings.read_about(out).ended), (7, ended))
                self.assertEqual("is not complete" in error, not ended)

    def test_a_recording_of_before_is_taken_to_be_whole(self) -> None:
        self.assertTrue(recordings.read_about(LOGS / "forks").ended)


class Given(unittest.TestCase):
    def test_the_descriptors_that_a_command_inherits(self) -> None:
        folder = Path(self.enterContext(tempfile.TemporaryDirectory())).resolve()
        (folder / "f").touch()
        kept, *given = os.pipe(), os.open(folder, os.O_PATH), os.open(folder / "f", os.O_RDWR)
        one, other = socket.socketpair()
        tcp = self.enterContext(socket.socket(socket.AF_INET6, socket.SOCK_STREAM))
        for number in (*given, kept[1], other.fileno(), tcp.fileno()):
            os.set_inheritable(number, True)
        found = recordings.given_descriptors()
        for number in (*kept, *given):
            self.addCleanup(os.close, number)
        self.addCleanup(one.close), self.addCleanup(other.close)
        directory = {"kind": "other", "path": str(folder), "tcp": None}
        file = {"kind": "reg", "path": f"{folder}/f", "tcp": None}
        self.assertEqual([found[str(number)] for number in given], [directory, file])
        self.assertEqual(found[str(kept[1])], {"kind": "other", "path": None, "tcp": None})
        self.assertEqual([found[str(it.fileno())]["tcp"] for it in (other, tcp)], [None, socket.AF_INET6])
        self.assertFalse({str(kept[0]), str(one.fileno())} & found.keys())

    def test_a_descriptor_of_what_is_not_at_its_path(self) -> None:
        folder = Path(self.enterContext(tempfile.TemporaryDirectory())).resolve()
        (folder / "f").touch()
        (folder / "new").touch()
        os.link(folder / "f", folder / "other")
        given = os.open(folder / "f", os.O_RDONLY)
        self.addCleanup(os.close, given)
        os.set_inheritable(given, True)
        self.assertNotIn("elsewhere", recordings.given_descriptors()[str(given)])
        os.replace(folder / "new", folder / "f")
        self.assertTrue(recordings.given_descriptors()[str(given)]["elsewhere"])


class Signals(unittest.TestCase):
    """Signals, which whoever starts the tests may have them ignore (nohup(1)): here each does what it does by default."""

    def setUp(self) -> None:
        for number in stopping.SIGNALS:
            self.addCleanup(signal.signal, number, signal.signal(number, signal.SIG_DFL))

    def test_a_signal_ends_a_command_in_order_and_only_once(self) -> None:
        def ended(_: object) -> int:
            os.kill(os.getpid(), signal.SIGTERM)
            raise AssertionError("the signal came too late")

        with mock.patch("landaudit_record.commands.record.convert.run", side_effect=ended) as convert:
            status, error = said("convert", "rec")
        self.assertEqual((status, error), (128 + signal.SIGTERM, "landaudit-record: ended by SIGTERM\n"))
        self.assertEqual(convert.call_count, 1)
        self.assertEqual([signal.getsignal(number) for number in stopping.SIGNALS], [signal.SIG_DFL] * 3)

    def test_a_second_signal_does_not_disturb_the_end(self) -> None:
        with self.assertRaises(stopping.Stopped) as raised, stopping.in_order():
            try:
                os.kill(os.getpid(), signal.SIGHUP)
            finally:
                os.kill(os.getpid(), signal.SIGTERM)
        self.assertEqual(stopping.number_of(raised.exception), signal.SIGHUP)

    def test_a_signal_that_is_ignored_stays_ignored(self) -> None:
        signal.signal(signal.SIGHUP, signal.SIG_IGN)
        with stopping.in_order():
            self.assertIs(signal.getsignal(signal.SIGHUP), signal.SIG_IGN)
            self.assertIsNot(signal.getsignal(signal.SIGTERM), signal.SIG_DFL)

    def test_an_interrupt_is_one(self) -> None:
        with mock.patch("landaudit_record.commands.record.convert.run", side_effect=KeyboardInterrupt):
            self.assertEqual(said("convert", "rec"), (130, "landaudit-record: ended by SIGINT\n"))
