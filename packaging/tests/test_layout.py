"""No line of a proof, a contract or an attribute is too long to be read, and what `proof-lines` counts."""

from __future__ import annotations

import unittest
from collections.abc import Iterable, Iterator
from pathlib import Path

from .places import TOP, script

proof_lines = script("proof-lines")


def without_texts(lines: Iterable[tuple[int, str]]) -> Iterator[tuple[int, str]]:
    """Numbered lines, each without its texts, which can't be broken."""
    for number, line in lines:
        yield number, proof_lines.TEXT.sub('""', line)


def long_lines(file: Path, lines: Iterable[tuple[int, str]], most: int) -> list[str]:
    """The lines of a file that are longer than so many columns."""
    return [f"{file.relative_to(TOP)}:{number}" for number, line in without_texts(lines) if len(line) > most]


class Layout(unittest.TestCase):
    def test_lines_of_proofs_can_be_read(self) -> None:
        files = sorted(TOP.glob("crates/*/proofs/**/*.antt"))
        self.assertNotEqual(files, [])
        for file in files:
            lines = enumerate(file.read_text(encoding="utf-8").splitlines(), 1)
            self.assertEqual(long_lines(file, lines, proof_lines.PROOF), [])

    def test_lines_of_clauses_can_be_read(self) -> None:
        # A condition that comes with its proof (`{ .. } by { .. }`) is laid out on one line by `rt fmt`.
        files = sorted(TOP.glob("crates/*/src/**/*.rt"))
        self.assertNotEqual(files, [])
        seen = 0
        for file in files:
            lines = list(proof_lines.clauses(file.read_text(encoding="utf-8")))
            seen += len(lines)
            kept = [(number, line) for number, line in lines if " } by { " not in line]
            self.assertEqual(long_lines(file, kept, proof_lines.CLAUSE), [])
        self.assertGreater(seen, len(files))

    def test_attributes_can_be_read(self) -> None:
        # `rt fmt` joins the lines of an attribute.
        files = sorted(TOP.glob("crates/*/src/**/*.rt"))
        self.assertNotEqual(files, [])
        seen = 0
        for file in files:
            lines = list(enumerate(file.read_text(encoding="utf-8").splitlines(), 1))
            attributes = [(number, line) for number, line in lines if line.lstrip().startswith(("#[tactic", "#![tactic"))]
            seen += len(attributes)
            self.assertEqual(long_lines(file, attributes, proof_lines.PROOF), [])
        self.assertGreater(seen, 0)


class Counted(unittest.TestCase):
    def test_a_line_is_broken_at_spaces(self) -> None:
        self.assertEqual(proof_lines.broken("a" * 10, 10), 1)
        self.assertEqual(proof_lines.broken("", 10), 1)
        self.assertEqual(proof_lines.broken("aaaa bbbb cccc", 10), 2)
        # What follows is four columns further in, so that two words don't fit there.
        self.assertEqual(proof_lines.broken("aaaa bbbb cccc dddd", 10), 3)
        self.assertEqual(proof_lines.broken("a" * 30, 10), 1)

    def test_a_clause_goes_to_its_closing_brace(self) -> None:
        source = "\n".join(
            [
                "fn f() -> u8",
                "    ensures { result",
                "        ≡ 1 }",
                "{",
                '    g("}")',
                "}",
                "ghost use A.{b};",
                "    ghost kept = { λ a. a };",
            ]
        )
        self.assertEqual([number for number, _ in proof_lines.clauses(source)], [2, 3, 8])

    def test_files_are_counted_by_what_they_are(self) -> None:
        files = {
            "c/proofs/A.antt": f"a\n{'b ' * 100}\n",
            "c/src/a.rt": "fn f(a: u8)\n    requires { 0 < a }\n{\n}\n",
        }
        proofs, said = proof_lines.of_files(files)
        self.assertEqual((proofs.plain, proofs.laid_out), (2, 3))
        self.assertEqual((said.plain, said.laid_out), (1, 1))

