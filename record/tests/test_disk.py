"""What is read of programs on a disk: any bytes are safe (elf(5), execve(2))."""

from __future__ import annotations

import os
import random
import subprocess
import tempfile
import time
import unittest
from pathlib import Path
from struct import pack
from unittest import mock

from landaudit_record.commands.record.run import CLOCK_OF_FILES
from landaudit_record.recorder import disk, mounted
from landaudit_record.recorder.modes import Mode

from .drawn import by_chance

LOADER = b"/lib/ld.so\0"


def elf(loader: bytes = LOADER, *, wide: bool = True, order: str = "<", kind: int = 3) -> bytes:
    """A file with one program header, which names a loader."""
    magic = b"\x7fELF" + bytes([2 if wide else 1, 1 if order == "<" else 2]) + bytes(10)
    if wide:
        head = pack(order + "HHIQQQIHHHHHH", 2, 62, 1, 0, 64, 0, 0, 64, 56, 1, 0, 0, 0)
        header = pack(order + "IIQQQQQQ", kind, 4, 120, 0, 0, len(loader), len(loader), 1)
    else:
        head = pack(order + "HHIIIIIHHHHHH", 2, 3, 1, 0, 52, 0, 0, 52, 32, 1, 0, 0, 0)
        header = pack(order + "IIIIIIII", kind, 84, 0, 0, len(loader), len(loader), 4, 1)
    return magic + head + header + loader


class Links(unittest.TestCase):
    def setUp(self) -> None:
        folder = self.enterContext(tempfile.TemporaryDirectory())
        self.one, self.other = Path(folder, "one"), Path(folder, "other")
        self.one.touch()

    def test_names_of_one_file(self) -> None:
        self.assertEqual(disk.look(str(self.one)), disk.Seen("reg"))
        os.link(self.one, self.other)
        self.assertEqual(disk.look(str(self.one)), disk.look(str(self.other)))
        self.assertIsNotNone(getattr(disk.look(str(self.one)), "inode"))

    def test_what_is_kept_is_read_again(self) -> None:
        os.link(self.one, self.other)
        kept = self.one.with_name("kept")
        seen = disk.Disk(0.0)
        seen.look(str(self.one))
        seen.keep(kept)
        self.assertEqual(disk.kept(kept, 0.0).look(str(self.one)), disk.look(str(self.one)))


class Modes(unittest.TestCase):
    """A mode says who was refused only if it was the same at the time of the call, and counts (inode(7), acl(5))."""

    def setUp(self) -> None:
        self.folder = Path(self.enterContext(tempfile.TemporaryDirectory())).resolve()
        self.file = self.folder / "file"
        self.file.touch(0o640)
        time.sleep(0.05)
        self.since = time.clock_gettime(CLOCK_OF_FILES)
        self.mounts = mounted.shown()

    def mode(self, path: Path) -> Mode | None:
        """What a recording that began at the set up finds out after the run."""
        return disk.Disk(self.since, mounts=self.mounts).mode(str(path))

    def test_what_the_run_did_not_change(self) -> None:
        self.assertEqual(self.mode(self.file), Mode(0o640, os.geteuid(), os.stat(self.file).st_gid))

    def test_what_the_run_changed(self) -> None:
        """chmod(2), a file that is put in the place of another one, and a directory on the way that is."""
        self.file.chmod(0o600)
        self.assertIsNone(self.mode(self.file))

    def test_what_the_run_put_there(self) -> None:
        self.file.rename(self.folder / "other")
        self.assertIsNone(self.mode(self.folder / "other"))

    def test_a_way_that_the_run_changed(self) -> None:
        (self.folder / "made").touch()
        self.assertIsNone(self.mode(self.file))

    def test_what_may_be_under_another_mount(self) -> None:
        for place in (self.folder, self.file, Path("/")):
            known = [*self.mounts, [str(place), "0:1", "/", "ramfs"]]
            self.assertIsNone(disk.Disk(self.since, mounts=known).mode(str(self.file)))
        known = [*self.mounts, [f"{self.file}2", "0:1", "/", "ramfs"]]
        self.assertIsNotNone(disk.Disk(self.since, mounts=known).mode(str(self.file)))

    def test_a_link(self) -> None:
        (self.folder / "link").symlink_to("file")
        self.assertIsNone(disk.mode(str(self.folder / "link")))

    def test_a_list_of_who_may_use_it(self) -> None:
        """posix_acl_xattr.h: user::rw-, user:65534:rw-, group::---, mask::rw-, other::---."""
        entries = ((1, 6, 2**32 - 1), (2, 6, 65534), (4, 0, 2**32 - 1), (16, 6, 2**32 - 1), (32, 0, 2**32 - 1))
        try:
            os.setxattr(self.file, "system.posix_acl_access", pack("<I", 2) + b"".join(pack("<HHI", *it) for it in entries))
        except OSError as error:
            self.skipTest(f"this file system has no ACLs: {error.strerror}")
        self.assertIsNone(disk.mode(str(self.file)))

    def test_what_a_server_decides(self) -> None:
        with mock.patch.object(disk, "_file_system", return_value=0x65735546):
            self.assertIsNone(disk.mode(str(self.file)))


@unittest.skipUnless(os.geteuid() == 0, "mounting takes privileges")
class Merged(unittest.TestCase):
    """overlayfs gives a file another birth time when it copies it, so nobody knows whether the run made it."""

    def test_a_file_that_is_copied_when_it_is_changed(self) -> None:
        folder = Path(self.enterContext(tempfile.TemporaryDirectory()))
        lower, upper, work, merged = (folder / name for name in ("lower", "upper", "work", "merged"))
        for one in (lower, upper, work, merged):
            one.mkdir()
        (lower / "file").write_text("there before")
        options = f"lowerdir={lower},upperdir={upper},workdir={work}"
        words = ["mount", "-t", "overlay", "-o", options, "none", merged]
        if subprocess.run(words, stderr=subprocess.DEVNULL, check=False).returncode:
            self.skipTest("this system does not mount overlayfs here")
        self.addCleanup(subprocess.run, ["umount", merged], check=True)
        since = time.time()
        time.sleep(0.1)
        self.assertEqual(disk.look(str(merged / "file"), since), disk.Seen("reg", new=False))
        (merged / "file").write_text("changed")
        (merged / "other").write_text("made")
        (upper / "beside").write_text("made")
        for name in ("file", "other"):
            self.assertEqual(disk.look(str(merged / name), since), disk.Seen("reg", new=None))
        self.assertEqual(disk.look(str(upper / "beside"), since), disk.Seen("reg", new=True))


class Interpreters(unittest.TestCase):
    def setUp(self) -> None:
        self.file = Path(self.enterContext(tempfile.TemporaryDirectory()), "program")

    def of(self, content: bytes) -> str | None:
        """What a file of some bytes is run by."""
        self.file.write_bytes(content)
        return disk.interpreter(str(self.file))

    def test_the_loader_of_each_width_and_order(self) -> None:
        for wide in (True, False):
            for order in ("<", ">"):
                with self.subTest(wide=wide, order=order):
                    self.assertEqual(self.of(elf(wide=wide, order=order)), "/lib/ld.so")

    def test_a_program_without_a_loader(self) -> None:
        self.assertIsNone(self.of(elf(kind=1)))

    def test_the_program_of_a_script(self) -> None:
        self.assertEqual(self.of(b"#! /bin/sh -e\necho"), "/bin/sh")
        self.assertEqual(self.of(b"#!/bin/\xff"), "/bin/\udcff")
        self.assertEqual(self.of(b"#!/bin/sh\0x"), "/bin/sh")
        for empty in (b"#!", b"#! \n", b"#!\0"):
            self.assertIsNone(self.of(empty))

    def test_a_file_that_ends_anywhere(self) -> None:
        whole = elf()
        for end in range(len(whole) - len(LOADER)):
            self.assertIsNone(self.of(whole[:end]))

    def test_a_table_that_is_in_no_file(self) -> None:
        far = bytearray(elf())
        far[32:40] = b"\xff" * 8
        self.assertIsNone(self.of(bytes(far)))
        long = bytearray(elf())
        long[64 + 32 : 64 + 40] = b"\xff" * 8
        self.assertEqual(self.of(bytes(long)), "/lib/ld.so")

    @by_chance(examples=200)
    def test_random_bytes(self, chance: random.Random) -> None:
        broken = bytearray(elf(wide=chance.random() < 0.5, order=chance.choice("<>")))
        for _ in range(chance.randrange(1, 12)):
            broken[chance.randrange(6, len(broken))] = chance.randrange(256)
        found = self.of(bytes(broken))
        self.assertTrue(found is None or "\0" not in found)

    def test_what_is_no_file(self) -> None:
        self.assertIsNone(disk.interpreter("/nothere"))
        self.assertIsNone(disk.interpreter("/a\0b"))
        self.assertFalse(disk.Disk(0.0).program("/dev/null", 1).known)

    def test_only_blanks_end_the_name_of_a_program(self) -> None:
        self.assertEqual(self.of(b"#! \t/bin/i \t-a b\n"), "/bin/i")
        self.assertEqual(self.of(b"#!/bin/i\r\n"), "/bin/i\r")
