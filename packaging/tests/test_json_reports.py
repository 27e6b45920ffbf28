"""The examples' reports as JSON say what their texts say, and the schema describes them."""

from __future__ import annotations

import json
import re
import unittest
from copy import deepcopy
from typing import Any

from .places import TOP
from .report_text import objects

try:
    from jsonschema import Draft202012Validator
except ImportError:
    Draft202012Validator = None

DATA = TOP / "examples"
SCHEMA = json.loads((TOP / "docs" / "report.schema.json").read_text(encoding="utf-8"))
NEEDS_LIBRARY = unittest.skipIf(Draft202012Validator is None, "jsonschema is not installed")
COMMAND = (TOP / "crates" / "ll_command" / "src" / "command.rt").read_text(encoding="utf-8")
INDEX = [json.loads(line) for line in (DATA / "index.jsonl").read_text(encoding="utf-8").splitlines()]

#: Keywords that say nothing of a value.
SAYING_NOTHING = {"$schema", "$defs", "title", "description"}

RECORD = {
    "line": 7,
    "pid": 300,
    "op": "rename",
    "answers": [
        {
            "abi": [1, 1],
            "answer": "refused",
            "error": "EXDEV",
            "layers": [
                {
                    "layer": 1,
                    "line": 6,
                    "objections": [
                        {"missing": ["refer"], "on": "/build/tmp"},
                        {"gains": ["write_file"], "object": "/src/main.c", "in": "/build/tmp"},
                    ],
                }
            ],
        },
        {"abi": [2, 5], "answer": "allowed"},
    ],
}
LAST = {"totals": [{"abi": 4, "records": 7, "allowed": 6, "refused": 1, "moot": 0}], "version": "0.2"}


def version() -> str:
    """What `landaudit --version` prints behind the name."""
    found = re.search(r'^pub const VERSION: &str = "(.+)";$', COMMAND, re.MULTILINE)
    assert found is not None
    return found[1]


def keywords(schema: dict[str, Any]) -> set[str]:
    """The keywords of a schema and of those inside."""
    inside = [*schema.get("$defs", {}).values(), *schema.get("properties", {}).values()]
    inside += [one for name in ("allOf", "anyOf", "oneOf") for one in schema.get(name, ())]
    inside += [schema[name] for name in ("items", "additionalProperties") if isinstance(schema.get(name), dict)]
    return set(schema).union(*map(keywords, inside))


def abis_of(example: dict[str, Any]) -> range:
    oldest, _, newest = str(example["abi"]).partition("-")
    return range(int(oldest), int(newest or oldest) + 1)


def changed(value: Any, way: list[str | int], to: Any) -> Any:
    """A copy of a value, in which the one at the end of a way is another; without it, if that is None."""
    copy = deepcopy(value)
    at = copy
    for step in way[:-1]:
        at = at[step]
    if to is None:
        del at[way[-1]]
    else:
        at[way[-1]] = to
    return copy


class Examples(unittest.TestCase):
    def test_each_report_says_what_its_text_says(self) -> None:
        for example in INDEX:
            with self.subTest(example["name"]):
                text = (DATA / example["explained"]).read_text(encoding="utf-8")
                lines = (DATA / example["json"]).read_text(encoding="utf-8").splitlines()
                wanted = objects(text, abis_of(example), version())
                self.assertEqual(len(lines), len(wanted))
                for line, value in zip(lines, wanted):
                    self.assertEqual(json.loads(line), value)

    def test_each_line_is_printed_without_spaces_in_the_order_of_the_documents(self) -> None:
        for example in INDEX:
            text = (DATA / example["explained"]).read_text(encoding="utf-8")
            printed = [
                json.dumps(value, separators=(",", ":"), ensure_ascii=False)
                for value in objects(text, abis_of(example), version())
            ]
            with self.subTest(example["name"]):
                self.assertEqual((DATA / example["json"]).read_text(encoding="utf-8").splitlines(), printed)

    @NEEDS_LIBRARY
    def test_the_schema_describes_each_line(self) -> None:
        schema = Draft202012Validator(SCHEMA)
        for example in INDEX:
            for line in (DATA / example["json"]).read_text(encoding="utf-8").splitlines():
                with self.subTest(example["name"], line=line):
                    self.assertTrue(schema.is_valid(json.loads(line)))


@NEEDS_LIBRARY
class Schema(unittest.TestCase):
    def test_it_describes_the_lines_of_the_documents(self) -> None:
        self.assertTrue(Draft202012Validator(SCHEMA).is_valid(RECORD))
        self.assertTrue(Draft202012Validator(SCHEMA).is_valid(LAST))

    def test_it_refuses_other_lines(self) -> None:
        schema = Draft202012Validator(SCHEMA)
        layer: list[str | int] = ["answers", 0, "layers", 0]
        for way, to in (
            (["line"], 0),
            (["line"], True),
            (["line"], "7"),
            (["pid"], -1),
            (["op"], "touch"),
            (["why"], "words"),
            (["answers"], []),
            (["answers"], None),
            (["answers", 0, "abi"], [1]),
            (["answers", 0, "abi"], [0, 1]),
            (["answers", 0, "answer"], "denied"),
            (["answers", 0, "answer"], "allowed"),
            (["answers", 0, "error"], "EIO"),
            (["answers", 0, "layers"], None),
            (["answers", 0, "why"], {"reason": "root"}),
            (["answers", 1, "why"], {"condition": "full"}),
            ([*layer, "layer"], 17),
            ([*layer, "line"], None),
            ([*layer, "objections"], []),
            ([*layer, "objections"], None),
            ([*layer, "objections", 0, "missing"], ["reefer"]),
            ([*layer, "objections", 0, "missing"], ["refer", "refer"]),
            ([*layer, "objections", 0, "on"], "build"),
            ([*layer, "objections", 0, "port"], 80),
            ([*layer, "objections", 1, "in"], None),
        ):
            with self.subTest(way=way, to=to):
                self.assertFalse(schema.is_valid(changed(RECORD, list(way), to)))
        for way, to in ((["version"], ""), (["version"], None), (["totals"], []), (["totals", 0, "moot"], None)):
            with self.subTest(way=way, to=to):
                self.assertFalse(schema.is_valid(changed(LAST, list(way), to)))


@NEEDS_LIBRARY
class Schemas(unittest.TestCase):
    """All schemas of docs/: what the library does not know in one it would leave unread."""

    def test_each_is_of_the_dialect_and_each_keyword_is_checked(self) -> None:
        for file in sorted((TOP / "docs").glob("*.schema.json")):
            with self.subTest(file.name):
                schema = json.loads(file.read_text(encoding="utf-8"))
                self.assertEqual(schema["$schema"], Draft202012Validator.META_SCHEMA["$id"])
                Draft202012Validator.check_schema(schema)
                self.assertLessEqual(keywords(schema), {*Draft202012Validator.VALIDATORS, *SAYING_NOTHING})

    def test_references_are_to_what_is_there(self) -> None:
        for file in sorted((TOP / "docs").glob("*.schema.json")):
            with self.subTest(file.name):
                text = file.read_text(encoding="utf-8")
                known = {"#", *(f"#/$defs/{name}" for name in json.loads(text)["$defs"])}
                self.assertLessEqual(set(re.findall(r'"\$ref": *"(.*?)"', text)), known)


class Words(unittest.TestCase):
    def test_each_condition_and_reason_but_one_is_in_an_example(self) -> None:
        texts = "".join((DATA / example["json"]).read_text(encoding="utf-8") for example in INDEX)
        for word, missing in (("condition", set()), ("reason", {"no_directory"})):
            with self.subTest(word):
                shown = set(re.findall(rf'"{word}":"(\w+)"', texts))
                known = {one["properties"][word]["const"] for one in SCHEMA["$defs"][word]["oneOf"]}
                self.assertEqual(known - shown, missing)
                self.assertLessEqual(shown, known)

    def test_the_documents_have_each_condition_and_reason(self) -> None:
        formats = (TOP / "docs" / "FORMATS.md").read_text(encoding="utf-8")
        section = formats.partition("## Explanations")[2].partition("\n## ")[0]
        for word in ("condition", "reason"):
            table = section.partition(f"| In JSON, `{word}` |\n|---|---|---|\n")[2].partition("\n\n")[0]
            rows = {row.split("|")[3].split("`")[1] for row in table.splitlines()}
            with self.subTest(word):
                self.assertEqual(rows, {one["properties"][word]["const"] for one in SCHEMA["$defs"][word]["oneOf"]})


if __name__ == "__main__":
    unittest.main()
