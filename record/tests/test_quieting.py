"""The library that is preloaded into strace alone."""

from __future__ import annotations

import shutil
import subprocess
import tempfile
import unittest
from pathlib import Path
from unittest import mock

from landaudit_record.recorder import quieting, witness

TOP = Path(__file__).resolve().parents[2]
#: Says what strace's own look at a name finds: of a named file, of a symbolic link, and of what is not there.
LOOKS = """
#define _GNU_SOURCE
#include <stdio.h>
#include <sys/stat.h>
int main(int count, char **paths)
{
	struct stat64 status;
	for (int i = 1; i < count; i++) {
		int plain = stat64(paths[i], &status) ? -1 : (int)status.st_mode;
		printf("%o ", plain);
		plain = lstat64(paths[i], &status) ? -1 : (int)status.st_mode;
		printf("%o %lu\\n", plain, plain == -1 ? 0 : (unsigned long)status.st_ino);
	}
}
"""


class Quiet(unittest.TestCase):
    def setUp(self) -> None:
        self.folder = Path(self.enterContext(tempfile.TemporaryDirectory()))
        self.library = self.folder / quieting.LIBRARY
        self.library.touch()
        self.enterContext(mock.patch.object(witness, "BUILT", self.folder / witness.PROGRAM))

    def test_the_command_has_its_own_environment(self) -> None:
        for before, kept, preloaded in (
            ({}, "LD_PRELOAD", f"{self.library}"),
            ({"LD_PRELOAD": "own.so"}, "LD_PRELOAD=own.so", f"{self.library}:own.so"),
            ({"LD_PRELOAD": ""}, "LD_PRELOAD=", f"{self.library}"),
        ):
            with self.subTest(before):
                words, environment = quieting.quiet(["strace", "--", "ls"], {"A": "b", **before})
                self.assertEqual(words, ["strace", "-E", kept, "--", "ls"])
                self.assertEqual(environment, {"A": "b", "LD_PRELOAD": preloaded})

    def test_one_that_is_not_there_or_cannot_be_named_changes_nothing(self) -> None:
        given = (["strace", "--", "ls"], {"LD_PRELOAD": "own.so"})
        apart = self.folder / "a b"
        apart.mkdir()
        (apart / quieting.LIBRARY).touch()
        for built in (self.folder / "absent" / witness.PROGRAM, apart / witness.PROGRAM):
            with mock.patch.object(witness, "BUILT", built), mock.patch.object(shutil, "which", return_value=None):
                self.assertEqual(quieting.quiet(*given), given)

    def test_it_is_found_where_the_witness_is_installed(self) -> None:
        installed = self.folder / "usr" / "lib" / "landaudit" / quieting.LIBRARY
        installed.parent.mkdir(parents=True)
        installed.touch()
        program = self.folder / "usr" / "bin" / witness.PROGRAM
        absent = mock.patch.object(witness, "BUILT", self.folder / "absent" / witness.PROGRAM)
        with absent, mock.patch.object(shutil, "which", return_value=str(program)):
            self.assertEqual(quieting.find(), installed.resolve())

    @unittest.skipIf(shutil.which("cc") is None, "no C compiler is installed")
    def test_it_finds_what_the_kernel_finds(self) -> None:
        """Of open files, whose names the kernel remembers, and of names that are not there."""
        program, library = self.folder / "looks", self.folder / "quiet.so"
        (self.folder / "looks.c").write_text(LOOKS)
        flags = ["cc", "-O2", "-o"]
        subprocess.run([*flags, program, self.folder / "looks.c"], check=True)
        subprocess.run([*flags, library, "-shared", "-fPIC", TOP / "witness" / "quiet.c"], check=True)
        named, link = self.folder / "named (deleted)", self.folder / "link"
        named.touch(mode=0o640)
        link.symlink_to(named)
        with open(named, encoding="ascii"):
            words = [program, named, link, "/dev/null", self.folder, self.folder / "absent"]
            bare, quiet = (subprocess.run(words, env=env, capture_output=True, text=True, check=True).stdout
                           for env in ({}, {"LD_PRELOAD": str(library)}))
        self.assertEqual(quiet, bare)
        self.assertIn("37777777777 37777777777 0\n", bare)
