"""Formats of binfmt_misc: what the kernel runs a file by because of how it begins, or of its name.

How a registered format is told, and whether Landlock is asked about its interpreter, was seen on a running kernel
(6.18); tests/live_formats.py repeats it.
"""

from __future__ import annotations

import tempfile
import unittest
from pathlib import Path
from typing import Any

from landaudit_record.common import jsonl
from landaudit_record.recorder import disk, formats
from landaudit_record.recorder.calls import programs
from landaudit_record.recorder.formats import Format

from .written_logs import DISK, WrittenLogs, told

EACCES = "-1 EACCES (Permission denied)"
TOY = b"TOYX a program\n"
MAGIC = "enabled\ninterpreter /w/runs\nflags: \noffset 2\nmagic 544f5958\nmask ffffffdf\n"
OPENED = "enabled\ninterpreter /w/runs\nflags: OCF\noffset 0\nmagic 544f5958\n"
EXTENSION = "enabled\ninterpreter /w/runs\nflags: P\nextension .toy\n"


class Registered(unittest.TestCase):
    def setUp(self) -> None:
        self.folder = Path(self.enterContext(tempfile.TemporaryDirectory()))
        (self.folder / "register").touch(0o200)
        (self.folder / "status").write_text("enabled\n")

    def one(self, text: str) -> Format:
        """The one format that is registered."""
        (self.folder / "toy").write_text(text)
        (only,) = formats.registered(self.folder) or ()
        return Format(**only)

    def test_what_the_kernel_tells_of_a_format(self) -> None:
        self.assertEqual(self.one(MAGIC), Format("toy", "/w/runs", offset=2, magic="544f5958", mask="ffffffdf"))
        self.assertEqual(self.one(OPENED), Format("toy", "/w/runs", opened=True, magic="544f5958"))
        self.assertEqual(self.one(EXTENSION), Format("toy", "/w/runs", extension="toy"))

    def test_formats_that_are_switched_off(self) -> None:
        (self.folder / "toy").write_text(MAGIC.replace("enabled", "disabled"))
        self.assertEqual(formats.registered(self.folder), [])
        (self.folder / "toy").write_text(MAGIC)
        (self.folder / "status").write_text("disabled\n")
        self.assertEqual(formats.registered(self.folder), [])

    def test_a_machine_on_which_they_can_not_be_read(self) -> None:
        self.assertIsNone(formats.registered(self.folder / "nothere"))

    def test_bytes_at_a_place_under_a_mask(self) -> None:
        of = self.one(MAGIC)
        self.assertTrue(of.is_of("", b"..TOYX"))
        self.assertTrue(of.is_of("", b"..TOYx.."))
        for other in (b"TOYX", b"..TOYY", b"..TOY", b""):
            self.assertFalse(of.is_of("", other))

    def test_what_is_behind_the_last_dot(self) -> None:
        of = self.one(EXTENSION)
        self.assertTrue(of.is_of("./a.b.toy", b""))
        for other in ("a.toy.b", "toy", "a.TOY", "a."):
            self.assertFalse(of.is_of(other, b""))


class Foreign(unittest.TestCase):
    def test_what_the_kernel_runs_by_itself(self) -> None:
        self.assertFalse(disk.is_foreign(b"#!/bin/sh\n"))
        self.assertFalse(disk.is_foreign(disk.head("/proc/self/exe")))

    def test_what_it_runs_by_a_format_alone(self) -> None:
        own = bytearray(disk.head("/proc/self/exe"))
        own[18:20] = b"\xff\x7f"
        for head in (TOY, bytes(own), b"MZ", b"\x7fELF", b""):
            with self.subTest(head[:8]):
                self.assertTrue(disk.is_foreign(head))

    def test_how_a_file_begins_is_kept(self) -> None:
        folder = Path(self.enterContext(tempfile.TemporaryDirectory()))
        (folder / "toy").write_bytes(TOY)
        seen = disk.Disk(0.0)
        self.assertEqual(self.heads(seen, folder / "toy"), (TOY, b""))
        seen.keep(folder / "objects.jsonl")
        (folder / "toy").unlink()
        kept = disk.kept(folder / "objects.jsonl", 0.0)
        self.assertEqual(self.heads(kept, folder / "toy"), (TOY, b""))

    def heads(self, seen: disk.Disk, toy: Path) -> tuple[bytes, bytes]:
        """How a file of a format begins, and what is kept of one that needs none."""
        return seen.program(str(toy), 1).head, seen.program(str(Path("/bin/sh").resolve()), 1).head


class Run(WrittenLogs):
    disk: list[jsonl.Record] = [
        *DISK,
        {"path": "/w/toy", "kind": "reg", "runs": True, "head": TOY.hex()},
        {"path": "/w/x.toy", "kind": "reg", "runs": True},
        {"path": "/w/to-toy", "kind": "reg", "runs": True, "interpreter": "/w/toy"},
        {"path": "/w/runs", "kind": "reg", "runs": True, "interpreter": "/w/loader"},
        *({"path": f"/w/s{number}", "kind": "reg", "runs": True, "interpreter": f"/w/s{number + 1}"} for number in range(1, 5)),
        {"path": "/w/s5", "kind": "reg", "runs": True, "interpreter": "/w/runs"},
    ]
    BY: dict[str, Any] = {"name": "toy", "interpreter": "/w/runs", "magic": "544f5958"}
    INTERPRETER = [("open", "/w/runs", "interpreter"), ("exec", "/w/runs", "interpreter")]
    LOADED = [("open", "/w/loader", "interpreter"), ("exec", "/w/loader", "interpreter")]

    def run_by(self, name: str, answer: str = "0") -> list[tuple[object, ...]]:
        """What the kernel opens and runs for a program beside itself."""
        trace = self.confined(f'execve("/w/{name}", ["x"], 0x1 /* 2 vars */) = {answer}')
        asked = told([record for record in trace if "path" in record], "op", "path", "role")
        self.assertEqual(asked[:2], [("open", f"/w/{name}", None), ("exec", f"/w/{name}", None)])
        return asked[2:]

    def test_an_interpreter_and_its_loader(self) -> None:
        self.formats = [self.BY]
        self.assertEqual(self.run_by("toy"), self.INTERPRETER + self.LOADED)
        self.assertEqual(self.run_by("toy", EACCES), self.INTERPRETER + self.LOADED)
        self.assertEqual(self.unsaid(), [])

    def test_an_interpreter_that_was_opened_when_the_format_was_registered(self) -> None:
        self.formats = [{**self.BY, "opened": True}]
        self.assertEqual(self.run_by("toy"), self.LOADED)
        self.assertEqual(self.unsaid(), [])

    def test_an_extension(self) -> None:
        self.formats = [{"name": "toy", "interpreter": "/w/runs", "extension": "toy"}]
        self.assertEqual(self.run_by("x.toy"), self.INTERPRETER + self.LOADED)

    def test_the_first_format_counts(self) -> None:
        other = {**self.BY, "interpreter": "/w/other"}
        self.formats = [self.BY, other]
        self.assertEqual(self.run_by("toy"), self.INTERPRETER + self.LOADED)

    def test_a_script_that_is_run_by_such_a_file(self) -> None:
        self.formats = [self.BY]
        script = [("open", "/w/toy", "interpreter"), ("exec", "/w/toy", "interpreter")]
        self.assertEqual(self.run_by("to-toy"), script + self.INTERPRETER + self.LOADED)

    def test_scripts_that_scripts_run(self) -> None:
        """Linux 6.18 runs five programs behind `#!`, and asks Landlock about the loader of the fifth."""
        scripts = [(op, f"/w/s{number}", "interpreter") for number in range(2, 6) for op in ("open", "exec")]
        self.assertEqual(self.run_by("s1"), scripts + self.INTERPRETER + self.LOADED)

    def test_a_format_that_is_not_known(self) -> None:
        for known in (None, [], [{**self.BY, "magic": "00"}]):
            with self.subTest(known):
                self.formats = known
                self.assertEqual(self.run_by("toy"), [])
                self.assertEqual(self.unsaid(), [(programs.UNKNOWN_FORMAT, True)])

    def test_a_file_that_the_kernel_does_not_run(self) -> None:
        self.assertEqual(self.run_by("toy", "-1 ENOEXEC (Exec format error)"), [])
        self.assertEqual(self.unsaid(), [])
