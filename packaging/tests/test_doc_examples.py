"""The examples in the documentation of the crates are lines of tests, which are proved and run."""

from __future__ import annotations

import re
import textwrap
import unittest
from pathlib import Path

from .places import TOP

CRATES = TOP / "crates"
FENCE = "```"
DOCUMENTED = {
    "ll_audit/src/auditing.rt": 2,
    "ll_rules/src/check.rt": 1,
    "ll_shared/src/map.rt": 1,
    "ll_trace/src/trace.rt": 1,
    "ll_tree/src/tree.rt": 1,
}


def blocks(source: Path) -> list[str]:
    """The code in the doc comments of a source file, one text a block."""
    comments = [re.sub(r"^\s*/// ?", "", line) for line in source.read_text().splitlines() if re.match(r"\s*///", line)]
    return "\n".join(comments).split(FENCE)[1::2]


def lines_of_tests() -> str:
    """All tests of public functions, without what indents the bodies of their functions."""
    tests = CRATES.glob("ll_tests/src/tests/**/*.rt")
    return "\n".join(re.sub(r"^    ", "", file.read_text(), flags=re.M) for file in tests)


class DocExamples(unittest.TestCase):
    def test_each_example_is_part_of_a_test(self) -> None:
        tests = lines_of_tests()
        for source in sorted(CRATES.glob("*/src/**/*.rt")):
            for block in blocks(source):
                with self.subTest(source=str(source.relative_to(CRATES))):
                    self.assertIn(textwrap.dedent(block), tests)

    def test_the_functions_that_callers_need_first_have_examples(self) -> None:
        found = {name: len(blocks(CRATES / name)) for name in DOCUMENTED}
        self.assertEqual(found, DOCUMENTED)


if __name__ == "__main__":
    unittest.main()
