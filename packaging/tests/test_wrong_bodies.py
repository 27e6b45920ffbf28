"""docs/WRONG-BODIES.md names edits and tests that are there."""

from __future__ import annotations

import re
import unittest

from .places import TOP

DOCUMENT = (TOP / "docs" / "WRONG-BODIES.md").read_text(encoding="utf-8")
CRATES = TOP / "crates"
#: A crate, and what the page lists of its edits.
CRATE = re.compile(r"^- `(\w+)/must-fail/`: ((?:.|\n  )*)", re.MULTILINE)
#: A body that no contract refuses, and what fails.
ROW = re.compile(r"^\| .* \| (.*) \|$", re.MULTILINE)


class Bodies(unittest.TestCase):
    def test_each_edit_is_there(self) -> None:
        listed = CRATE.findall(DOCUMENT)
        self.assertGreater(len(listed), 10)
        for crate, text in listed:
            for name in re.findall(r"`(\w+)`", text):
                with self.subTest(crate, name=name):
                    self.assertTrue((CRATES / crate / "must-fail" / f"{name}.edit").exists())

    def test_each_test_is_there(self) -> None:
        sources = "".join(file.read_text(encoding="utf-8") for file in sorted((CRATES / "ll_tests").rglob("*.rt")))
        tests = [name for cell in ROW.findall(DOCUMENT) for name in re.findall(r"`(\w+_\w+)`", cell)]
        self.assertGreater(len(tests), 8)
        for name in tests:
            with self.subTest(name):
                self.assertRegex(sources, rf"\bfn {name}\b")


if __name__ == "__main__":
    unittest.main()
