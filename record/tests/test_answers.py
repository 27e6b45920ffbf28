"""What landaudit answers, as values: the tables of docs/FORMATS.md, "Explanations", and the examples."""

from __future__ import annotations

import json
import re
import unittest
from collections import Counter
from collections.abc import Iterator
from pathlib import Path

from landaudit_record.common import options
from landaudit_record.common.problems import UNREADABLE, Problem
from landaudit_record.engine import reports
from landaudit_record.engine.answers import Answer, Closed, Gained, Kept, Missing, Mounting, Objection, as_data
from landaudit_record.engine.reports import Row

from .recorded import MOUNTING, Object, closed_on, failed, gained, kept_on, missing_on, moot, refused
from .worded import subject

TOP = Path(__file__).resolve().parents[2]
EXAMPLES = TOP / "examples"
FORMATS = (TOP / "docs" / "FORMATS.md").read_text(encoding="utf-8").partition("## Explanations")[2]
SCHEMA = json.loads((TOP / "docs" / "report.schema.json").read_text(encoding="utf-8"))["$defs"]
#: What stands in the tables for a member, and the member's value that is shown so.
SHOWN = {"N": 7, "RIGHTS": ["RIGHTS"], "PATH": "PATH"}
MEMBERS = {**dict.fromkeys(("abi", "rs", "fd", "port"), "N"), "rights": "RIGHTS",
           **dict.fromkeys(("path", "from", "to"), "PATH")}
#: Paths that hold what a text or a format could take for its own.
AWKWARD = ("/x on /y", "/x; read_file on /y", "/{path}", '/"quoted"\\', "/line\nfeed\r\t\x1b\x00",
           "/\u2028\u0085é\U0001f600\x7f")


def answer(said: Object) -> Answer:
    """An answer that is read from its object."""
    text = json.dumps([{"abi": [5, 5], **said}], ensure_ascii=False, separators=(",", ":"))
    ((abis, found),) = reports.not_allowed(b'"answers":%b}\n' % text.encode())
    assert abis == (5,)
    return found


def objections(*said: Object) -> tuple[Objection, ...]:
    """What the one layer objects to that refuses a record."""
    (layer,) = answer(refused(list(said))).layers
    return layer.objections


def rows(word: str) -> Iterator[tuple[str, list[str], str]]:
    """The rows of the table of conditions or of reasons: the word, its members, and what is said of the text."""
    table = FORMATS.partition(f"| In JSON, `{word}` |\n|---|---|---|\n")[2].partition("\n\n")[0]
    for row in table.splitlines():
        text, _, said = (cell.strip() for cell in row.strip("|").split("|"))
        name, *members = re.findall("`([^`]+)`", said)
        yield name, members, text


def about(members: list[str]) -> Object:
    """A value for each member, which is shown as the tables show it."""
    return {member: SHOWN[MEMBERS[member]] for member in members if member in MEMBERS}


class Objecting(unittest.TestCase):
    def test_each_kind(self) -> None:
        for said, expected, text in (
            (missing_on("/b/g", "write_file", "read_file"), Missing(("write_file", "read_file"), "/b/g"),
             "write_file, read_file on /b/g"),
            (kept_on("/b/g", "truncate", 5), Kept(("truncate",), "/b/g", 5), "truncate on /b/g, opened at line 5"),
            (gained("/a/f", "/b", "write_file", "execute"), Gained("/a/f", ("write_file", "execute"), "/b"),
             "/a/f would gain write_file, execute in /b"),
            (closed_on(80, "bind_tcp"), Closed(("bind_tcp",), 80), "bind_tcp on port 80"),
            (MOUNTING, Mounting(), "it handles rights for files"),
        ):
            with self.subTest(text):
                (found,) = objections(said)
                self.assertEqual((found, str(found), as_data(found)["text"]), (expected, text, text))

    def test_the_line_at_which_a_file_was_opened_makes_no_other_objection(self) -> None:
        found = [objections(kept_on("/b/g", "truncate", line))[0] for line in (5, 6)]
        self.assertEqual(found[0], found[1])
        self.assertEqual([as_data(one)["opened"] for one in found], [5, 6])
        self.assertEqual(answer(refused(kept_on("/a", "truncate", 5), kept_on("/a", "truncate", 6))).opened, (5, 6))

    def test_several_layers_and_several_objections_of_one(self) -> None:
        found = answer(refused([missing_on("/a", "refer"), gained("/a/f", "/b", "execute")], MOUNTING)).layers
        self.assertEqual([(layer.layer, layer.line) for layer in found], [(1, 101), (2, 102)])
        self.assertEqual(found[0].objections, (Missing(("refer",), "/a"), Gained("/a/f", ("execute",), "/b")))

    def test_any_path(self) -> None:
        for path in AWKWARD:
            with self.subTest(path):
                self.assertEqual(objections(missing_on(path, "execute")), (Missing(("execute",), path),))
                self.assertIn(path, str(answer(moot("absent", path=path)).reason))
                said = failed("EINVAL", "only_for_directories", rights=["read_dir"], path=path)
                self.assertIn(path, str(answer(said).condition))


class Conditions(unittest.TestCase):
    def test_each_has_the_text_of_the_documents(self) -> None:
        found = {word: (answer(failed("EINVAL", word, **about(members))).condition, text)
                 for word, members, text in rows("condition")}
        self.assertEqual(len(found), 10)
        self.assertEqual(str(found.pop("unhandled_on_ports")[0]), str(found["unhandled"][0]))
        for word, (condition, text) in found.items():
            with self.subTest(word):
                self.assertEqual(str(condition).replace("7", "N"), re.findall("`([^`]+)`", text)[0])

    def test_a_right_for_ports_has_no_name(self) -> None:
        found = answer(failed("EINVAL", "unknown", abi=4, rights=[])).condition
        self.assertEqual(str(found), "ABI 4 does not know a right for ports")

    def test_which_say_what_the_abi_does_not_have(self) -> None:
        of_abi = {word for word, members, _ in rows("condition")
                  if answer(failed("EINVAL", word, **about(members))).condition.of_abi}
        self.assertEqual(of_abi, {"unknown", "portless"})


class Reasons(unittest.TestCase):
    def test_each_has_the_text_of_the_documents(self) -> None:
        for word, members, text in rows("reason"):
            if "kind" not in members:
                with self.subTest(word):
                    found = answer(moot(word, **about(members))).reason
                    self.assertEqual(f"`{found}`".replace("7", "N"), text)

    def test_each_kind_has_its_words(self) -> None:
        (words,) = (row for row in FORMATS.splitlines() if row.startswith("| `PATH is KIND` |"))
        kinds = SCHEMA["reason"]["oneOf"][3]["properties"]["kind"]["enum"]
        told = [answer(moot("of_kind", path="/a", kind=kind)).reason.why for kind in kinds]
        self.assertEqual(told, [f"is {name}" for name in re.findall("`(a [^`]+)`", words)])

    def test_what_each_is_about(self) -> None:
        move = {"from": "/a", "to": "/a/b"}
        for said, at, why in (
            (moot("absent", path="/none"), "/none", "is not in the tree"),
            (moot("root"), "/", "stays where it is"),
            (moot("unopened", fd=3), "descriptor 3", "is not open"),
            (moot("held_already", rs=0), "ruleset 0", "is held already"),
            (moot("beneath_itself", **move), "/a -> /a/b", "would go beneath itself"),
            (moot("over_itself", **move), "/a -> /a/b", "would take the place of what it is in"),
            (moot("mixed", **move), "/a -> /a/b", "one is a directory, the other is not"),
            (moot("unsupported"), "-", "left out, as this ABI supports none of the rule's rights"),
        ):
            with self.subTest(why):
                found = answer(said).reason
                self.assertEqual((found.subject, found.why), (subject(at), why))

    def test_which_leave_the_record_out(self) -> None:
        left_out = {word for word, members, _ in rows("reason")
                    if answer(moot(word, **about(members), **({"kind": "reg"} if "kind" in members else {}))).left_out}
        self.assertEqual(left_out, {"unsupported", "unenforced"})


class Faults(unittest.TestCase):
    """What no table has is a Problem that says so, on one line."""

    def test_what_is_no_answer(self) -> None:
        layer = {"layer": 1, "line": 5}
        for said in (
            {"answer": "denied"},
            {"answer": "refused", "error": "EACCES"},
            {"answer": "refused", "layers": []},
            refused({"missing": ["execute"]}),
            refused({"missing": ["execute"], "on": 7}),
            refused({"mounting": False}),
            {"answer": "refused", "error": "EACCES", "layers": [layer | {"objections": [{}]}]},
            failed("EINVAL", "unheard"),
            failed("EINVAL", "unheld", descriptor=7),
            moot("unheard"),
            moot("of_kind", path="/a", kind="whiteout"),
            {"answer": "moot", "why": {"condition": "full"}},
        ):
            with self.subTest(said), self.assertRaises(Problem) as fault:
                answer(said)
            self.assertEqual(fault.exception.status, UNREADABLE)
            self.assertIn("use programs of one version", str(fault.exception))
            self.assertNotIn("\n", str(fault.exception))

    def test_a_report_without_explanations_has_no_reasons(self) -> None:
        with self.assertRaises(Problem):
            answer({"answer": "moot"}).reason
        with self.assertRaises(Problem):
            answer({"answer": "refused", "error": "EBADF", "layers": []}).condition


class WorkedExamples(unittest.TestCase):
    """The examples' reports as JSON say what their explained texts say, which are written by the same rules."""

    def test_each_value_has_the_text_of_the_report(self) -> None:
        told: Counter[str] = Counter()
        for entry in map(json.loads, (EXAMPLES / "index.jsonl").read_text(encoding="utf-8").splitlines()):
            for abi in options.abis(str(entry["abi"])):
                wanted = list(text_at(abi, (EXAMPLES / entry["explained"]).read_text(encoding="utf-8")))
                with self.subTest(entry["name"], abi=abi):
                    found = list(reports.rows(EXAMPLES / entry["json"], abi))
                    self.assertEqual([(row.line, row.pid, *text_of(row)) for row in found], wanted)
                    told.update(text_of(row)[0].partition(" ")[0] for row in found)
        self.assertEqual(set(told), {"allowed", "moot", "refused"})


def text_of(row: Row) -> tuple[str, ...]:
    """What the text of a report says of a record: the answer, and then the lines that explain it."""
    found = row.answer
    if found.allowed:
        return ("allowed",)
    if not found.refused:
        return ("moot", str(found.reason))
    head = f"refused {found.error} {','.join(str(layer.layer) for layer in found.layers) or '-'}"
    if not found.layers:
        return head, str(found.condition)
    return head, *(f"layer {layer.layer} (line {layer.line}): {'; '.join(map(str, layer.objections))}"
                   for layer in found.layers)


def text_at(abi: int, text: str) -> Iterator[tuple[int | str, ...]]:
    """What the text of a report says of each record at an ABI: docs/FORMATS.md, "Several versions"."""
    blocks = re.findall(r"^(\d+) (\d+) \w+ (.*)\n((?:    .*\n)*)", text, re.MULTILINE)
    for line, pid, words, behind in blocks:
        spans = re.findall(r"(?:(\d)(?:-(\d))? )?(allowed|moot|refused \S+ \S+)", words)
        (said,) = (one for first, last, one in spans if not first or int(first) <= abi <= int(last or first))
        lines, meant = [], True
        for one in behind.splitlines():
            heading = re.fullmatch(r"    abi (\d)(?:-(\d))?:", one)
            if heading:
                meant = int(heading[1]) <= abi <= int(heading[2] or heading[1])
            elif meant:
                lines.append(one[4:])
        yield int(line), int(pid), said, *lines
