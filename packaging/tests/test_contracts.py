"""docs/contracts.txt names contracts that are there, of the crates that docs/ASSURANCE.md speaks of."""

from __future__ import annotations

import re
import unittest

from .places import TOP

CRATES = TOP / "crates"
LISTED = (TOP / "docs" / "contracts.txt").read_text(encoding="utf-8")
ASSURANCE = (TOP / "docs" / "ASSURANCE.md").read_text(encoding="utf-8")
#: The names of each crate.
NAMES = {
    crate: rest.split()
    for crate, rest in re.findall(r"^(\w+):((?:.|\n    )*)", LISTED, re.MULTILINE)
}


class Contracts(unittest.TestCase):
    def test_each_crate_that_is_told_of_is_listed(self) -> None:
        told = re.findall(r"^\*\*((?:`ll_\w+`(?:, )?)+)", ASSURANCE, re.MULTILINE)
        self.assertEqual(set(NAMES), set(re.findall(r"`(\w+)`", " ".join(told))))

    def test_each_is_there(self) -> None:
        for crate, names in NAMES.items():
            sources = "".join(file.read_text(encoding="utf-8") for file in sorted((CRATES / crate / "src").rglob("*.rt")))
            for name in names:
                with self.subTest(crate, name=name):
                    *of, last = name.split("::")
                    self.assertRegex(sources, rf"\b(?:fn|struct|enum|trait) {last}\b")
                    for kind in of:
                        self.assertRegex(sources, rf"\bimpl(?:<[^>]*>)? (?:[\w<>, ']+ for )?{kind}\b")


if __name__ == "__main__":
    unittest.main()
