"""`pip install .` installs the recorder, without a network if setuptools and wheel are installed."""

from __future__ import annotations

import shutil
import subprocess
import sys
import tempfile
import unittest
from pathlib import Path

from landaudit_record import POLICIES, RECORDER, VERSION

from .places import TOP

#: What an installation needs of the tree.
SOURCES = ("pyproject.toml", "README.md", "record", "man")
#: This Python, and the system's. pip would fetch setuptools and wheel, which build the package, if they were not there.
PYTHONS = (sys.executable, "/usr/bin/python3")
WANTED = "import setuptools, wheel, pip, sys; assert sys.version_info >= (3, 11)"
#: A kept log of strace, which converts without strace.
LOG = TOP / "record" / "tests" / "logs" / "forks"


def builds(python: str) -> bool:
    """Whether a Python can build the package by itself."""
    return Path(python).exists() and subprocess.run([python, "-c", WANTED], capture_output=True).returncode == 0


PYTHON = next(filter(builds, PYTHONS), None)


@unittest.skipIf(PYTHON is None, f"none of {', '.join(PYTHONS)} has pip, setuptools and wheel")
class Installed(unittest.TestCase):
    folder: Path
    bin: Path

    @classmethod
    def setUpClass(cls) -> None:
        cls.folder = Path(cls.enterClassContext(tempfile.TemporaryDirectory()))
        cls.bin = cls.folder / "environment" / "bin"
        assert PYTHON is not None
        venv = [PYTHON, "-m", "venv", "--system-site-packages", "--without-pip"]
        subprocess.run([*venv, str(cls.bin.parent)], check=True)
        pip = [str(cls.bin / "python"), "-m", "pip", "install", "--quiet", "--no-build-isolation", "--no-index"]
        subprocess.run([*pip, str(cls._copy())], check=True, capture_output=True)

    @classmethod
    def _copy(cls) -> Path:
        """The sources in a folder of their own, so that the build leaves nothing in the tree."""
        copy = cls.folder / "sources"
        for name in SOURCES:
            if (TOP / name).is_dir():
                shutil.copytree(TOP / name, copy / name, ignore=shutil.ignore_patterns("tests", "__pycache__"))
            else:
                copy.mkdir(exist_ok=True)
                shutil.copy(TOP / name, copy)
        return copy

    def test_both_programs_run(self) -> None:
        for program in (RECORDER, POLICIES):
            run = subprocess.run([self.bin / program, "--version"], capture_output=True, text=True, check=True)
            self.assertEqual(run.stdout, f"{program} {VERSION}\n")

    def test_all_modules_are_there(self) -> None:
        site = next((self.bin.parent / "lib").glob("python*/site-packages/landaudit_record"))
        modules = (TOP / "record" / "landaudit_record").rglob("*.py")
        having = {str(path.relative_to(site)) for path in site.rglob("*.py")}
        self.assertEqual(having, {str(path.relative_to(TOP / "record" / "landaudit_record")) for path in modules})

    def test_a_log_converts(self) -> None:
        recording = Path(shutil.copytree(LOG, self.folder / "recording"))
        subprocess.run([self.bin / RECORDER, "convert", recording], check=True, capture_output=True)
        self.assertTrue((recording / "trace.jsonl").exists())

    def test_each_program_finds_the_other(self) -> None:
        """`landaudit-record run` runs landaudit-policy."""
        script = "import sys; sys.argv[0] = sys.argv[1]; import landaudit_record; print(landaudit_record.PROGRAMS)"
        words = [str(self.bin / "python"), "-c", script, str(self.bin / RECORDER)]
        run = subprocess.run(words, capture_output=True, text=True, check=True, cwd=self.folder)
        self.assertEqual(Path(run.stdout.strip()), self.bin.resolve())

    def test_manual_pages_are_there(self) -> None:
        for program in (RECORDER, POLICIES):
            self.assertTrue((self.bin.parent / "share" / "man" / "man1" / f"{program}.1").exists())


if __name__ == "__main__":
    unittest.main()
