"""The end of a wait of strace for a file server that it has stopped."""

from __future__ import annotations

import ctypes
import errno
import io
import tempfile
import time
import unittest
from dataclasses import replace
from pathlib import Path
from unittest import mock

from landaudit_record.common import jsonl
from landaudit_record.recorder import converting, freeing
from landaudit_record.recorder.freeing import Freeing
from landaudit_record.recorder.mounted import Mount

from . import test_run
from .test_cli import said
from .written_logs import FIRST

OLD, NEW = (Mount(place, f"0:{number}", "/", "fuse", ("rw",)) for place, number in (("/home", 40), ("/w/mounted", 41)))
MOUNTINFO = """\
22 1 0:21 / /proc rw,nosuid shared:5 - proc proc rw
46 29 0:43 / /a\\040b rw,nosuid,nodev,relatime shared:2 - fuse.sshfs host: rw,user_id=0,group_id=0
47 29 0:44 / /c rw shared:2 - fuseblk /dev/sdb1 rw
48 29 0:45 / /sys/fs/fuse/connections rw - fusectl none rw
"""


class FreeingTracers(unittest.TestCase):
    def setUp(self) -> None:
        self.enterContext(mock.patch.multiple(freeing, EVERY=0.01, PATIENCE=0.05))
        self.taking = self.enterContext(mock.patch.object(freeing, "take_away", return_value=True))
        mounted: dict[int | str, set[Mount]] = {"self": {OLD}, 8: {OLD, NEW}}
        self.enterContext(mock.patch.object(freeing, "served_to", side_effect=mounted.__getitem__))

    def taken(self, *waiting: str | None) -> list[str]:
        """What is taken away if the tracer is seen to wait so, again and again."""
        seen = [*waiting] * 20
        with mock.patch.object(Freeing, "_waiting", side_effect=lambda: seen.pop() if seen else None):
            with Freeing(7, lambda: [8]) as watching:
                while seen:
                    time.sleep(0.01)
        return watching.taken

    def test_a_tracer_that_waits_without_a_break_is_freed_of_what_was_mounted_in_the_run(self) -> None:
        self.assertIn("/w/mounted", self.taken("voluntary_ctxt_switches:\t5"))
        self.assertEqual({call.args[0] for call in self.taking.call_args_list}, {NEW})

    def test_what_cannot_be_taken_away_is_told_once(self) -> None:
        self.taking.return_value = False
        with mock.patch("sys.stderr", new_callable=io.StringIO) as error:
            self.assertEqual(self.taken("voluntary_ctxt_switches:\t5"), [])
        self.assertEqual(error.getvalue().count("strace waits for the file server of /w/mounted"), 1)

    def test_a_tracer_that_goes_on_is_left_alone(self) -> None:
        self.assertEqual(self.taken("voluntary_ctxt_switches:\t5", "voluntary_ctxt_switches:\t6"), [])
        self.assertEqual(self.taken("voluntary_ctxt_switches:\t5", None), [])


class Connections(unittest.TestCase):
    def test_which_file_systems_have_a_server(self) -> None:
        with mock.patch("builtins.open", mock.mock_open(read_data=MOUNTINFO)):
            found = freeing.served_to(7)
        self.assertEqual({(mount.place, mount.device) for mount in found}, {("/a b", "0:43"), ("/c", "0:44")})
        self.assertEqual(freeing.served_to(1 << 30), set())

    def test_a_connection_is_ended_by_its_file(self) -> None:
        folder = Path(self.enterContext(tempfile.TemporaryDirectory()))
        (folder / "41").mkdir()
        with mock.patch.object(freeing, "CONNECTIONS", folder):
            self.assertTrue(freeing.take_away(NEW))
            self.assertEqual((folder / "41" / "abort").read_text(), "1")
            self.assertFalse(freeing.take_away(replace(NEW, place=str(folder), device="0:42")))

    def test_where_connections_have_no_files_an_unmount_by_force_ends_them_also_in_use(self) -> None:
        with mock.patch.object(freeing, "CONNECTIONS", Path("/nothing")), mock.patch.object(ctypes, "CDLL") as libc:
            for failed, number, ends in ((0, 0, True), (-1, errno.EBUSY, True), (-1, errno.EPERM, False)):
                libc.return_value.umount2.return_value = failed
                with mock.patch.object(ctypes, "get_errno", return_value=number):
                    self.assertIs(freeing.take_away(NEW), ends)


class Told(unittest.TestCase):
    setUp = test_run.Running.setUp
    out: Path

    def test_what_was_taken_away_is_told_and_counted(self) -> None:
        def traced(log: Path, command: list[str], *, readlink: bool) -> test_run.Outcome:
            log.write_text(f"{FIRST}\n10  +++ exited with 0 +++\n")
            return test_run.Outcome(0, True, ("/w/mounted",))

        with mock.patch("landaudit_record.recorder.tracing.run", side_effect=traced):
            _, error = said("run", str(self.out), "--", "ls")
        self.assertIn("strace waited for the file server of /w/mounted", error)
        lines = [line for _, line in jsonl.numbered(self.out / "unsaid.jsonl")]
        counted = [(line["call"], line["asks"]) for line in lines if line["class"] == converting.TAKEN_AWAY]
        self.assertEqual(counted, [("/w/mounted", True)])
