"""landaudit-record pack and unpack: a recording comes back as it was, and an archive writes nothing elsewhere."""

from __future__ import annotations

import gzip
import io
import os
import shutil
import subprocess
import tarfile
import tempfile
import unittest
from pathlib import Path
from unittest import mock

from landaudit_record.recorder import packing

from .standing import called

FILES = {"trace.jsonl": b'{"op":"start","pid":1}\n' * 5000, "tree.jsonl": b"", "witness/events": os.urandom(100)}


class Packed(unittest.TestCase):
    def setUp(self) -> None:
        self.folder = Path(self.enterContext(tempfile.TemporaryDirectory()))
        self.recording = self.folder / "rec"
        for name, content in FILES.items():
            (self.recording / name).parent.mkdir(exist_ok=True, parents=True)
            (self.recording / name).write_bytes(content)

    def content(self, folder: Path) -> dict[str, bytes]:
        """All files of a folder."""
        return {str(path.relative_to(folder)): path.read_bytes() for path in folder.rglob("*") if path.is_file()}

    def refused(self, file: Path, *words: str) -> str:
        """Why a file is not unpacked: then there is nothing of it."""
        before = sorted(self.folder.rglob("*"))
        status, out, errors = called(["unpack", file, self.folder / "again", *words])
        self.assertEqual((status, out, len(errors.splitlines())), (3, "", 1), errors)
        self.assertEqual(sorted(self.folder.rglob("*")), before)
        return errors

    def archive(self, *members: tarfile.TarInfo) -> Path:
        """An archive of members, all of whose bytes are x."""
        file = self.folder / "bad.tar.gz"
        with tarfile.open(file, "w:gz", format=tarfile.PAX_FORMAT) as archive:
            for member in members:
                archive.addfile(member, io.BytesIO(b"x" * member.size))
        return file

    def test_a_recording_comes_back_as_it_was(self) -> None:
        for name, begins in (("a.tar.zst", b"\x28\xb5\x2f\xfd"), ("a.tar.gz", b"\x1f\x8b")):
            with self.subTest(name):
                if name.endswith("zst") and not shutil.which(packing.ZSTD):
                    self.skipTest("zstd is not there")
                file, again = self.folder / name, self.folder / f"of-{name}"
                self.assertEqual(called(["pack", self.recording, "-o", file])[0], 0)
                self.assertTrue(file.read_bytes().startswith(begins))
                self.assertLess(file.stat().st_size, 2000)
                self.assertEqual(called(["unpack", file, again])[0], 0)
                self.assertEqual(self.content(again), FILES)
                self.assertEqual(called(["pack", again, "-o", self.folder / f"2-{name}"])[0], 0)
                listed = subprocess.run(["tar", "-tf", file], capture_output=True, text=True, check=True).stdout
                self.assertEqual(listed.split(), sorted(FILES))

    def test_names_that_lead_elsewhere_are_not_written(self) -> None:
        for name in ("/etc/landaudit-test", "../out", "a/../../out", "", ".", "a/.."):
            with self.subTest(name):
                member = tarfile.TarInfo(name)
                member.size = 1
                self.assertIn("is not a file of a recording", self.refused(self.archive(member)))

    def test_only_files_are_written(self) -> None:
        for kind in (tarfile.SYMTYPE, tarfile.LNKTYPE, tarfile.CHRTYPE, tarfile.BLKTYPE, tarfile.FIFOTYPE):
            with self.subTest(kind):
                member = tarfile.TarInfo("tree.jsonl")
                member.type, member.linkname = kind, "/etc/passwd"
                self.assertIn("is not a file of a recording", self.refused(self.archive(member)))

    def test_a_name_comes_once(self) -> None:
        status, _, errors = called(["unpack", self.archive(*(tarfile.TarInfo("a"),) * 2), self.folder / "again"])
        self.assertNotEqual(status, 0)
        self.assertIn("File exists", errors)
        self.assertFalse((self.folder / "again").exists())

    def test_sizes_are_bounded(self) -> None:
        one, two = tarfile.TarInfo("a"), tarfile.TarInfo("b")
        one.size = two.size = 600
        file = self.archive(one, two)
        self.assertIn("more than 100,000 files or 1,000 bytes", self.refused(file, "--most-bytes", "1000"))
        self.assertEqual(called(["unpack", file, self.folder / "fits", "--most-bytes", "1200"])[0], 0)
        with mock.patch.object(packing, "MOST_FILES", 1):
            self.assertIn("more than 1 files", self.refused(file))

    def test_a_name_is_not_read_into_memory_if_it_is_too_long(self) -> None:
        member = tarfile.TarInfo("a" * (1 << 21))
        self.assertIn("too long", self.refused(self.archive(member)))

    def test_what_is_no_archive_or_only_half_of_one(self) -> None:
        whole = self.folder / "whole.tar.gz"
        called(["pack", self.recording, "-o", whole])
        data = whole.read_bytes()
        half = self.folder / "half"
        for bad in (b"", b"x" * 100, data[: len(data) // 2], gzip.compress(b"x" * 2000), b"\x28\xb5\x2f\xfd" + b"x" * 50):
            half.write_bytes(bad)
            self.assertIn("half", self.refused(half) + "half" * bad.startswith(b"\x28"))

    def test_nothing_is_left_of_a_file_that_could_not_be_written(self) -> None:
        before = sorted(self.folder.rglob("*"))
        with mock.patch.object(packing, "ZSTD", "landaudit-no-zstd"):
            status, _, errors = called(["pack", self.recording, "-o", self.folder / "a.tar.zst"])
        self.assertEqual(status, 3)
        self.assertIn("install it, or name a file that ends in .tar.gz", errors)
        self.assertEqual(called(["pack", self.folder / "none", "-o", self.folder / "a.tar.gz"])[0], 3)
        self.assertEqual(sorted(self.folder.rglob("*")), before)

    def test_a_folder_that_is_there_is_not_written_into(self) -> None:
        self.assertIn("is there already", called(["unpack", self.archive(), self.recording])[2])
        self.assertEqual(self.content(self.recording), FILES)
