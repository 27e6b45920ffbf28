"""docs/ARCHITECTURE.md draws the way of one record through files and functions that are there."""

from __future__ import annotations

import re
import unittest

from .places import TOP

ARCHITECTURE = (TOP / "docs" / "ARCHITECTURE.md").read_text(encoding="utf-8")
#: The number of a hop, its file, and the functions there.
HOP = re.compile(r"^ ?(\d+)  (\S+\.rt) +((?:\w+, )*\w+)  ", re.MULTILINE)
HOPS = [(int(number), file, functions.split(", ")) for number, file, functions in HOP.findall(ARCHITECTURE)]


class Way(unittest.TestCase):
    def test_hops_are_numbered(self) -> None:
        self.assertIn(len(HOPS), range(10, 21))
        self.assertEqual([number for number, *_ in HOPS], list(range(1, len(HOPS) + 1)))

    def test_functions_are_where_the_way_goes(self) -> None:
        for number, file, functions in HOPS:
            with self.subTest(number, file=file):
                source = (TOP / "crates" / file).read_text(encoding="utf-8")
                for function in functions:
                    self.assertRegex(source, rf"\bfn {function}\b")


if __name__ == "__main__":
    unittest.main()
