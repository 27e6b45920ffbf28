"""Where landaudit and landaudit-rules are looked for, and what landaudit-rules says if it is asked wrongly."""

from __future__ import annotations

import os
import sys
import tempfile
import unittest
from pathlib import Path
from unittest import mock

from landaudit_record.common.problems import UNREADABLE, WANTING, Problem
from landaudit_record.engine import landaudit, landaudit_rules


class Finding(unittest.TestCase):
    def setUp(self) -> None:
        self.folder = Path(self.enterContext(tempfile.TemporaryDirectory()))
        self.built = self.folder / "built" / "landaudit"
        self.beside = self.folder / "bin" / "landaudit"
        self.on_path = self.folder / "path" / "landaudit"
        for program in (self.built, self.beside, self.on_path):
            program.parent.mkdir()
        self.enterContext(mock.patch.object(landaudit, "BUILT", self.built))
        self.enterContext(mock.patch.object(landaudit_rules, "BUILT", self.built.with_name("rules")))
        self.enterContext(mock.patch.object(landaudit_rules, "_named", []))
        self.enterContext(mock.patch.object(sys, "argv", [str(self.folder / "bin" / "landaudit-record")]))
        self.enterContext(mock.patch.dict(os.environ, PATH=str(self.on_path.parent)))

    def make(self, *programs: Path) -> None:
        """Makes programs."""
        for program in programs:
            program.touch(0o755)

    def test_the_built_one_comes_first(self) -> None:
        self.make(self.built, self.beside, self.on_path)
        self.assertEqual(landaudit.find(None), self.built)

    def test_then_the_one_beside_landaudit_record(self) -> None:
        self.make(self.beside, self.on_path)
        self.assertEqual(landaudit.find(None), self.beside)

    def test_then_the_one_on_the_path(self) -> None:
        self.make(self.on_path)
        self.beside.mkdir()
        self.assertEqual(landaudit.find(None), self.on_path)

    def test_the_one_that_is_named_before_all(self) -> None:
        self.make(self.built, self.on_path)
        self.assertEqual(landaudit.find(str(self.on_path)), self.on_path)

    def test_none(self) -> None:
        with self.assertRaises(Problem) as fault:
            landaudit.find(None)
        self.assertEqual(fault.exception.status, WANTING)
        self.assertIn("run 'make landaudit'", str(fault.exception))

    def test_landaudit_rules_is_looked_for_at_the_same_places(self) -> None:
        built, beside, on_path = places = [
            self.built.with_name("rules"), *(one.with_name("landaudit-rules") for one in (self.beside, self.on_path))]
        self.make(*places)
        for program in (built, beside, on_path):
            self.assertEqual(landaudit_rules.find(), program)
            program.unlink()
        with self.assertRaises(Problem) as fault:
            landaudit_rules.find()
        self.assertEqual(fault.exception.status, WANTING)
        self.assertIn("landaudit-rules is not built: run 'make landaudit'", str(fault.exception))

    def test_landaudit_rules_beside_a_landaudit_that_is_named(self) -> None:
        rules = self.on_path.with_name("landaudit-rules")
        self.make(self.built, self.built.with_name("rules"), self.on_path, rules)
        landaudit.find(str(self.on_path))
        self.assertEqual(landaudit_rules.find(), rules)


@unittest.skipUnless(landaudit_rules.BUILT.exists(), f"{landaudit_rules.BUILT} is not built")
class Asking(unittest.TestCase):
    def line(self, root_is_file: str, *asked: str) -> str:
        members = (f',"{name}":[]' for name in asked or ("regions", "objects", "single", "gains", "moves"))
        return f'{{"files":[{root_is_file}],"ports":0{"".join(members)}}}'

    def test_a_comparison_has_to_say_what_it_asks(self) -> None:
        with self.assertRaises(Problem) as fault:
            landaudit_rules.ask(landaudit_rules.BUILT, [self.line("false", "regions", "objects", "gains", "moves")])
        self.assertEqual((fault.exception.status, str(fault.exception)), (UNREADABLE, "landaudit-rules: line 1: Field"))

    def test_an_input_that_does_not_read(self) -> None:
        with self.assertRaises(Problem) as fault:
            landaudit_rules.ask(landaudit_rules.BUILT, [self.line("false"), self.line("true")])
        self.assertEqual((fault.exception.status, str(fault.exception)), (UNREADABLE, "landaudit-rules: line 2: Field"))
