"""The manual pages are well formed, and agree with the documents."""

from __future__ import annotations

import json
import re
import shutil
import subprocess
import unittest
from collections.abc import Iterator
from pathlib import Path
from typing import Any

from landaudit_record.policy import policies

from .places import MAN, TOP, script

PAGES = sorted(MAN.iterdir())
EXAMPLE = TOP / "examples" / "first-path"

formats_page = script("formats-page")


def said(*words: str | Path) -> list[str]:
    """What a command prints to either output."""
    run = subprocess.run(words, stdout=subprocess.PIPE, stderr=subprocess.STDOUT, text=True, check=False)
    return run.stdout.splitlines()


def _members(schema: Any) -> Iterator[str]:
    """The names of members in a schema and in all that is in it."""
    if isinstance(schema, dict):
        yield from schema.get("properties", ())
        for inside in schema.values():
            yield from _members(inside)
    elif isinstance(schema, list):
        for inside in schema:
            yield from _members(inside)


def of_other_pages(line: str) -> bool:
    """Whether a line of mandoc's is about pages that this machine does not have, or about its index of them."""
    return "referenced manual not found" in line or "outdated mandoc.db" in line


class Form(unittest.TestCase):
    @unittest.skipUnless(shutil.which("mandoc"), "mandoc is not installed")
    def test_mandoc_finds_no_fault(self) -> None:
        for page in PAGES:
            with self.subTest(page.name):
                self.assertEqual([line for line in said("mandoc", "-T", "lint", page) if not of_other_pages(line)], [])

    @unittest.skipUnless(shutil.which("groff"), "groff is not installed")
    def test_groff_warns_of_nothing(self) -> None:
        for page in PAGES:
            with self.subTest(page.name):
                self.assertEqual(said("groff", "-mdoc", "-ww", "-z", "-Tutf8", page), [])


class Contents(unittest.TestCase):
    def test_the_page_of_formats_is_made_from_its_sources(self) -> None:
        date = formats_page.DATED.read_text(encoding="utf-8").partition("\n")[0]
        self.assertEqual(
            (MAN / "landaudit.5").read_text(encoding="utf-8"),
            formats_page.page(formats_page.source(), date),
            "a document or a schema was changed: run packaging/formats-page > man/landaudit.5",
        )

    def test_the_page_of_formats_has_each_document_and_each_member(self) -> None:
        page = (MAN / "landaudit.5").read_text(encoding="utf-8")
        for document in formats_page.DOCUMENTS[1:]:
            title = (TOP / "docs" / document).read_text(encoding="utf-8").partition("\n")[0]
            self.assertIn(f"\n.Sh {title.removeprefix('# ').upper()}\n", page)
        for title, name in formats_page.SCHEMAS.items():
            listed = re.split(rf"\n\.S[hs] {title}\n", page, maxsplit=1, flags=re.IGNORECASE)[1]
            members = set(re.findall(r"^\.It Cm (\w+)$", listed.partition("\n.S")[0], re.MULTILINE))
            schema = json.loads((TOP / "docs" / name).read_text(encoding="utf-8"))
            with self.subTest(title):
                self.assertEqual(members, set(_members(schema)))

    def test_the_groups_of_rules_are_listed(self) -> None:
        document = formats_page.source()
        rows = document.partition("| Group | ")[2].partition("\n\n")[0].splitlines()[2:]
        named = [name for row in rows for name in re.findall(r"`(\w+)`", row.split("|")[1])]
        self.assertEqual(sorted(named), policies.group_names())

    def test_the_example_is_the_first_of_the_examples(self) -> None:
        page = (MAN / "landaudit.1").read_text(encoding="utf-8")
        block = page.partition(".Bd -literal -offset indent\n")[2].partition(".Ed\n")[0]
        shown = re.split(r"^\$ .*\n", block, flags=re.MULTILINE)
        files = [(EXAMPLE / name).read_text(encoding="utf-8") for name in ("tree.jsonl", "trace.jsonl", "report.txt")]
        self.assertEqual(shown[1:], files)


class Made(unittest.TestCase):
    """Paragraphs, lists, tables and code of a document as mdoc, by mdoc(7)."""

    def made(self, document: str) -> list[str]:
        page = formats_page.page(document, ".Dd today")
        return page.partition(".Sh DESCRIPTION\n")[2].partition(".Sh SEE ALSO\n")[0].splitlines()

    def test_sections(self) -> None:
        self.assertEqual(
            self.made("# T\n\nOne.\n\nTwo.\n\n## A b\n\nThree.\n\n### C\n\nFour."),
            ["One.", ".Pp", "Two.", ".Sh A B", "Three.", ".Ss C", "Four."],
        )

    def test_what_the_other_page_has_is_left_out(self) -> None:
        self.assertEqual(self.made("## Statuses\n\nNo.\n\n### In it\n\nNo.\n\n## B\n\nYes."), [".Sh B", "Yes."])

    def test_words_with_code_stand_on_lines_of_their_own(self) -> None:
        self.assertEqual(
            self.made('A `b`, (`c d`) x`e`-y, `"f":-1` and open(2).'),
            ["A", ".Cm b ,", '.Cm ( "c d" )', ".No x Ns Cm e Ns \\-y,", ".Cm \\(dqf\\(dq:\\-1", "and", ".Xr open 2 ."],
        )

    def test_pages_of_programs_with_two_words(self) -> None:
        self.assertEqual(self.made("See landaudit-rules(1)."), ["See", ".Xr landaudit-rules 1 ."])

    def test_marks_that_mdoc_would_read(self) -> None:
        self.assertEqual(self.made("`.` and `Op` and `#!`."), [".Cm \\&.", "and", ".Cm \\&Op", "and", ".Cm #! ."])
        self.assertEqual(self.made("`a:`, `b c:`."), [".Cm a:\\& ,", '.Cm "b c:\\&" .'])

    def test_sentences_begin_lines(self) -> None:
        self.assertEqual(self.made("**A b.** C d. E."), ['.Sy "A b" .', "C d.", "E."])

    def test_a_list_and_code(self) -> None:
        self.assertEqual(
            self.made("- a\n- b\n\n    .c -d\n    e"),
            [".Bl -bullet", ".It", "a", ".It", "b", ".El", ".Bd -literal -offset indent", "\\&.c \\-d", "e", ".Ed"],
        )

    def test_an_item_of_several_lines(self) -> None:
        self.assertEqual(self.made("- a\n  b\n- c"), [".Bl -bullet", ".It", "a b", ".It", "c", ".El"])

    def test_links_to_what_the_page_has(self) -> None:
        self.assertEqual(
            formats_page._within('See [A.md](A.md) and ([FORMATS.md](FORMATS.md), "Lines").', {"A.md": "Of A"}),
            'See "Of A" and ("Lines").',
        )

    def test_tables(self) -> None:
        self.assertEqual(
            self.made("| Since | Names |\n|---|---|\n| 1 | `a`, b |"),
            [".Bl -tag -width Ds", ".It Since 1", ".Cm a ,", "b", ".El"],
        )
        self.assertEqual(
            self.made("| `op` | Has | Is |\n|---|---|---|\n| `x`, `y` | `a` | b |\n| `z` | | c |"),
            [".Bl -tag -width Ds", ".It Cm x , Cm y", "Has", ".Cm a .", "Is b.", ".It Cm z", "Is c.", ".El"],
        )


if __name__ == "__main__":
    unittest.main()
