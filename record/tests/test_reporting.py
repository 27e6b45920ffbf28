"""What lint and audit find, in formats that other programs read, by readers that we did not write where they are here.

`sarif-part.schema.json` is the part of SARIF that we write, by hand from the specification. The whole schema of OASIS
is in librust-serde-sarif-dev, which Debian 12 does not have: it is read where it is installed or unpacked (`libraries`).
"""

from __future__ import annotations

import contextlib
import html
import json
import os
import re
import shutil
import subprocess
import tempfile
import unittest
from collections import Counter
from collections.abc import Sequence
from pathlib import Path
from typing import Any
from unittest import mock
from urllib.parse import unquote

from landaudit_record import cli
from landaudit_record.audit.moot import Unasked
from landaudit_record.audit.summary import Accepted, Refusal, RefusingLayer, Summary
from landaudit_record.audit.warnings import OfPolicy, RuleRefused, RuleUnused
from landaudit_record.common.findings import DocumentPlaces, Finding, FindingKind, Level, Position, Report
from landaudit_record.common.numbered import Numbered
from landaudit_record.common.rights import NONE
from landaudit_record.common.wording import plain
from landaudit_record.engine.answers import ALLOWED, REFUSED, Answer, Closed, Condition, Missing, Refusing
from landaudit_record.engine.subjects import at
from landaudit_record.policy import policies
from landaudit_record.policy.cases import Case
from landaudit_record.policy.checking import Checked, CheckedCase
from landaudit_record.policy.deciding import Breach, Decision
from landaudit_record.policy.differing_layers import MountChanges
from landaudit_record.policy.differing_rows import (
    DifferenceRow, Gains, Moves, RightsInArea, RightsOnMoved, RightsOnPorts
)
from landaudit_record.policy.granting import Grant
from landaudit_record.policy.over_sets import SetQuestion
from landaudit_record.policy.regions import Area
from landaudit_record.policy.reviewing import Review
from landaudit_record.policy.widenings import Widening
from landaudit_record.summaries import reporting
from landaudit_record.summaries.reporting import audited, checked, compared, github, junit, markdown, sarif
from landaudit_record.summaries.reporting.audited import Audited

from . import libraries
from .calling import called
from .json_schema import Validator
from .stand_in import StandIn
from .test_page import HOSTILE

PART = Validator(json.loads(Path(__file__).with_name("sarif-part.schema.json").read_text(encoding="utf-8")))
#: The schema of OASIS, if it is here.
SARIF = sorted(libraries.CRATES.glob("serde-sarif-*/src/schema.json"))
#: The Python for which Debian's packages install their modules.
PYTHON = "/usr/bin/python3"
READ_JUNIT = """
import json, sys
from junitparser import JUnitXml
print(json.dumps([[suite.name, suite.tests, suite.failures, [
    [case.classname, case.name, [[type(one).__name__, one.type, one.message] for one in case.result]]
    for case in suite]]
    for suite in JUnitXml.fromstring(sys.stdin.buffer.read())]))
"""
POLICY = """# Names with ümlauts before a column.
[[layer]]
handled_access_fs = ["all"]
handled_access_net = ["all"]
  [[layer.path_beneath]]
allowed_access = ["read"]
parent = ["/usr", "/nö|such"] # here

[[layer.net_port]]
allowed_access = ["bind_tcp"]
port = [80, 80]
"""


def has(module: str) -> bool:
    """Whether Debian's Python has a module."""
    return Path(PYTHON).exists() and not subprocess.run(
        [PYTHON, "-c", f"import {module}"], stderr=subprocess.DEVNULL, check=False).returncode


def read_by(script: str, text: str) -> Any:
    """What a script prints as JSON of a text."""
    run = subprocess.run([PYTHON, "-c", script], input=text.encode(), stdout=subprocess.PIPE, check=True)
    return json.loads(run.stdout)


def policy_command(*words: object) -> tuple[int, str]:
    """The status of a subcommand of landaudit-policy, and what it prints."""
    status, out, _ = called(words, cli.POLICY)
    return status, out


def unescaped(text: str) -> str:
    """A text of an annotation, as actions/runner reads it."""
    for escape, one in (("%0D", "\r"), ("%0A", "\n"), ("%3A", ":"), ("%2C", ","), ("%25", "%")):
        text = text.replace(escape, one)
    return text


def annotations(text: str) -> list[tuple[str, dict[str, str], str]]:
    """The commands of a workflow in an output."""
    found = (re.fullmatch(r"::(\w+) ([^:]*)::(.*)", line) for line in text.splitlines())
    return [(one[1], {name: unescaped(value) for name, _, value in (it.partition("=") for it in one[2].split(","))},
             unescaped(one[3])) for one in found if one]


KIND = FindingKind("a-kind", "What it is.")


def hostile(level: Level = Level.ERROR, times: int | None = 1) -> Report:
    """A report in which all names are those of strangers."""
    names = (*HOSTILE, "|a|\\|b `c` **d** _e_ [f](http://g) www.h.i @j #1", "::error file=x::y",
             "100%0A,a:b\nc\x00\udc80")
    found = [Finding(KIND, level, name, f"why {name}", (name,), Position(Path(f"d/{name}".replace("\0", "")), 3, 2, 9),
                     times) for name in names]
    return Report("landaudit-record audit", names[0], names[-1], "nothing", found)


class OfLint(unittest.TestCase):
    def setUp(self) -> None:
        folder = Path(self.enterContext(tempfile.TemporaryDirectory()))
        self.enterContext(contextlib.chdir(folder))
        self.policy = Path("sandbox/p ö.toml")
        self.policy.parent.mkdir()
        self.policy.write_text(POLICY)

    def printed(self, chosen: str) -> str:
        status, out = policy_command("lint", self.policy, "--format", chosen)
        self.assertEqual(status, 1)
        return out

    def test_the_text_is_the_default(self) -> None:
        self.assertEqual(self.printed("text"), policy_command("lint", self.policy)[1])
        self.assertEqual(self.printed("json"), policy_command("lint", self.policy, "--json")[1])

    def test_sarif_has_the_region_of_each_remark(self) -> None:
        results = json.loads(self.printed("sarif"))["runs"][0]["results"]
        places = [one["locations"][0]["physicalLocation"] for one in results]
        self.assertEqual({unquote(it["artifactLocation"]["uri"]) for it in places}, {str(self.policy)})
        lines = POLICY.split("\n")
        marked = [lines[at["startLine"] - 1][at["startColumn"] - 1:at["endColumn"] - 1]
                  for at in (it["region"] for it in places)]
        self.assertEqual(marked, ['"/nö|such"] # here', "80, 80]"])
        self.assertEqual([(one["ruleId"], one["level"]) for one in results],
                         [("parent-missing", "warning"), ("rule-without-effect", "warning")])

    def test_json_by_its_schema(self) -> None:
        data, schema = json.loads(self.printed("json")), Validator.of("lint.schema.json")
        self.assertEqual((schema.faults(data), schema.undescribed(data)), ([], []))
        self.assertEqual([(it["line"], it["column"]) for it in data["remarks"]], [(7, 19), (11, 9)])

    def test_annotations_of_github_name_the_line(self) -> None:
        found = annotations(self.printed("github"))
        self.assertEqual([(level, about["file"], about["line"], about["col"]) for level, about, _ in found],
                         [("warning", str(self.policy), "7", "19"), ("warning", str(self.policy), "11", "9")])

    def test_a_policy_of_which_nothing_is_to_be_said(self) -> None:
        self.policy.write_text('[[layer]]\nhandled_access_fs = ["all"]\n')
        for chosen in ("sarif", "junit", "markdown", "github"):
            status, out = policy_command("lint", self.policy, "--format", chosen)
            self.assertEqual(status, 0)
            self.assertTrue(out)
            if chosen == "junit" and has("junitparser"):
                only = ["landaudit-policy lint", "nothing is found", []]
                self.assertEqual(read_by(READ_JUNIT, out)[0][1:], [1, 0, [only]])

    def test_a_policy_that_can_be_read_only_once(self) -> None:
        run = subprocess.run(["sh", "-c", f"cat '{self.policy}' | '{cli_path()}' lint /dev/stdin --format sarif"],
                             stdout=subprocess.PIPE, check=False)
        (first, *_) = json.loads(run.stdout)["runs"][0]["results"]
        self.assertEqual(first["locations"][0]["physicalLocation"], {"artifactLocation": {"uri": "file:///dev/stdin"}})


def cli_path() -> Path:
    """The script landaudit-policy."""
    return Path(cli.__file__).parents[1] / "landaudit-policy"


class OfAudit(StandIn):
    def printed(self, chosen: str, *words: object) -> str:
        status, out, _ = self.audited("audit", self.recording, "--policy", self.policy, "--format", chosen, *words,
                                      abi="1-3")
        self.assertEqual(status, 1)
        return out

    def test_a_refused_call_is_at_the_rule_that_lacks_a_right_or_at_the_layer(self) -> None:
        results = json.loads(self.printed("sarif"))["runs"][0]["results"]
        lines = [(one["message"]["text"], one["locations"][0]["physicalLocation"]["region"]["startLine"])
                 for one in results if one["level"] == "error"]
        self.assertEqual(lines, [
            ("exec /bin: refused with EACCES at ABI 1 by policy's 1: execute; by a process without a program", 1),
            ("open w /a: refused with EACCES at ABI 2-3 by policy's 1: write_file; by /bin", 3),
        ])

    def test_all_formats(self) -> None:
        for chosen, part in (("junit", "<failure"), ("markdown", "| error |"), ("github", "::error file=")):
            self.assertEqual(self.printed(chosen).count(part), 2, chosen)

    def test_many_kinds_are_groups_where_a_person_reads_them(self) -> None:
        with mock.patch("landaudit_record.summaries.summary_text.MOST_ROWS", 1):
            self.assertIn("<code>/a</code>", self.printed("markdown"))
            self.assertEqual(self.printed("sarif").count('"level": "error"'), 2)

    def test_what_is_accepted_is_no_finding(self) -> None:
        accepted = self.folder / "accepted.toml"
        accepted.write_text('[[accepted]]\ncall = "exec"\npath = "/bin"\nreason = "r"\n'
                            '[[accepted]]\ncall = "open r"\npath = "/gone"\nreason = "s"\n')
        results = json.loads(self.printed("sarif", "--accepted", accepted))["runs"][0]["results"]
        self.assertEqual([one["ruleId"] for one in results], ["refused", "accepted-no-longer-refused"])

    def test_a_tree_is_text(self) -> None:
        self.assertEqual(self.audited("audit", self.recording, "--tree", "--json")[0], 2)


class OfSummaries(unittest.TestCase):
    def test_what_is_not_sure_and_what_is_warned_of(self) -> None:
        """The status is 5 for the first two and 1 for a rule that is refused; a rule without a use changes none."""
        older, newest = Summary(4), Summary(5)
        layer = RefusingLayer(2, 1, (Missing(("read_file",), "/a"),))
        unsure = Refusal("open r", at("/a"), "EACCES", (layer,), None, "its kind")
        newest.unsure = {unsure: Counter({"-": 2})}
        newest.missing = ("a gap",)
        refused = RuleRefused(OfPolicy(1, Numbered("path_beneath", 1), "/f"), "EINVAL", Condition("rightless"))
        idle = RuleUnused(OfPolicy(1, "net_port 1", port=1), at("/b"), Unasked("absent"))
        for summary in (older, newest):
            summary.warnings = {refused: 1, idle: 1}
        report = audited.report(Audited(["rec"], None, [older, newest], [Accepted("open r", at("/gone"), "why not")]))
        self.assertEqual([(one.level.value, one.kind.name, one.message) for one in report.findings], [
            ("warning", "may-be-refused", "open r /a: may be refused with EACCES at ABI 5 by policy's 1: read_file "
             "(not known: its kind); by a process without a program (2 times)"),
            ("warning", "not-judged", "a gap: not judged"),
            ("error", "rule-refused", f"{refused}: at ABI 4-5"),
            ("note", "rule-not-used", f"{idle}: at ABI 4-5"),
            ("note", "accepted-no-longer-refused", "open r /gone: accepted, but no longer refused (why not)"),
        ])
        whole = {one.spot for one in report.findings if one.spot and not one.spot.line}
        self.assertEqual(whole, {Position(Path("rec"))})


class OfCheckAndDiff(unittest.TestCase):
    """At which rule of a policy a case or a difference is, worked out by hand."""

    def setUp(self) -> None:
        file = Path(self.enterContext(tempfile.TemporaryDirectory()), "p.toml")
        file.write_text(POLICY.replace('"/nö|such"', '"/a/b"'))
        self.policy = policies.read(file)

    def lines(self, report: Report) -> list[tuple[str, str, int | None]]:
        return [(one.level.value, one.kind.name, one.spot.line if one.spot else 0) for one in report.findings]

    def check(self, refused: bool, answer: Answer, *grants: Grant) -> Report:
        case = Case(refused, range(3, 6), "open r", "/usr/x", ())
        outcome = CheckedCase(case, {abi: answer for abi in case.abis}, grants)
        return checked.report(Checked(self.policy.path, Path("cases.toml"), [outcome], []), self.policy)

    def test_cases(self) -> None:
        passes = Grant(1, Numbered("path_beneath", 1), "/usr", ("read_file",))
        of_group = Grant(1, Numbered("path_beneath", 1, "base"), "/a", ("read_file",))
        lacks = Answer(REFUSED, "EACCES", (Refusing(1, None, (Missing(("execute",), "/usr/x"),)),))
        closed = Answer(REFUSED, "EACCES", (Refusing(1, None, (Closed(("connect_tcp",), 443),)),))
        for refused, answer, grants, wanted in (
            (True, Answer(ALLOWED), (passes,), ("error", "must-be-refused", 5)),
            (True, Answer(ALLOWED), (of_group,), ("error", "must-be-refused", 2)),
            (True, Answer(ALLOWED), (), ("error", "must-be-refused", None)),
            (True, lacks, (), ("passed", "must-be-refused", 5)),
            (False, lacks, (), ("error", "must-be-allowed", 5)),
            (False, closed, (), ("error", "must-be-allowed", 2)),
            (False, Answer(ALLOWED), (passes,), ("passed", "must-be-allowed", 5)),
        ):
            with self.subTest(wanted):
                report = self.check(refused, answer, *grants)
                self.assertEqual(self.lines(report), [wanted])
                self.assertTrue(report.findings[0].subject.endswith("open r /usr/x at ABI 3-5"))
                self.assertEqual(bool(report.findings[0].text), wanted[0] == "error")

    def test_questions(self) -> None:
        question = SetQuestion("nothing", ("execute",), (), NONE, ("/usr",), range(1, 6))
        breach = Breach(("execute",), Area("/usr"), (Grant(1, Numbered("path_beneath", 1), "/usr", ("execute",)),))
        for breaches, wanted in (((), ("passed", "must-not-pass", None)),
                                 (((range(1, 6), (breach,)),), ("error", "must-not-pass", 5))):
            found = Checked(self.policy.path, Path("c"), [], [Decision(question, breaches)])
            self.assertEqual(self.lines(checked.report(found, self.policy)), [wanted])

    def test_differences(self) -> None:
        for what, line in (
            (RightsInArea(("read_file",), Area("/usr/lib")), 5),
            (RightsInArea(("execute",), Area("/usr/lib")), None),
            (RightsInArea(("read_file",), Area("/a/c")), None),
            (RightsOnMoved(("read_dir",), 1, ("/a/b",), None), 5),
            (RightsOnPorts(("bind_tcp",), (80,), False), 9),
            (RightsOnPorts(("bind_tcp",), (80,), True), None),
            (Moves(("reg",), (), (), (Area("/a/b/c"),)), 5),
            (Gains(("read_file",), 1, "/usr", ()), 5),
            (MountChanges(), None),
        ):
            row = DifferenceRow(what, frozenset({1, 2, 4}))
            review = Review(Path("old.toml"), None, self.policy.path, range(1, 6), 7, (row,), (row,))
            with self.subTest(what):
                report = compared.report(review, self.policy)
                self.assertEqual(self.lines(report), [("error", "allows-more", line), ("note", "allows-less", None)])
                in_layer = isinstance(what, RightsOnMoved | Gains)
                other = ", where layer 1 of the other policy refuses it" if in_layer else ""
                self.assertEqual([one.text for one in report.findings],
                                 [f"passes at ABI 1-2, 4{other}", f"passes no more at ABI 1-2, 4{other}"])

    def test_what_is_accepted_and_not_there(self) -> None:
        one = Widening("a reason", frozenset({"read_file"}), ("/etc",))
        review = Review(Path("old.toml"), None, self.policy.path, range(1, 6), 7, (), (), (), (one,))
        self.assertEqual(self.lines(compared.report(review, self.policy)), [("note", "accepted-not-there", None)])


class Sarif(unittest.TestCase):
    def documents(self) -> Sequence[Any]:
        return [json.loads("\n".join(sarif.lines(report))) for report in (
            hostile(), hostile(Level.NOTE, None), Report("landaudit-policy lint", "p", "s", "holds", []))]

    def test_by_the_part_of_the_schema_that_is_written_here(self) -> None:
        for document in self.documents():
            self.assertEqual(PART.faults(document), [])
        self.assertTrue(PART.faults({"version": "2.1.0", "runs": [{}]}))

    @unittest.skipUnless(SARIF, "librust-serde-sarif-dev, which has the schema of OASIS, is not installed")
    def test_by_the_schema_of_oasis(self) -> None:
        for document in self.documents():
            self.assertEqual(Validator(json.loads(SARIF[0].read_text(encoding="utf-8"))).faults(document), [])
            document["runs"][0].pop("tool")
            self.assertTrue(Validator(json.loads(SARIF[0].read_text(encoding="utf-8"))).faults(document))

    def test_each_result_names_its_rule(self) -> None:
        """SARIF 2.1.0, 3.27.6 and 3.27.7."""
        for document in self.documents():
            run = document["runs"][0]
            for result in run["results"]:
                self.assertEqual(run["tool"]["driver"]["rules"][result["ruleIndex"]]["id"], result["ruleId"])

    def test_results_are_told_apart_and_stay_when_lines_move(self) -> None:
        prints = [one["partialFingerprints"]["primaryLocationLineHash"]
                  for one in self.documents()[0]["runs"][0]["results"]]
        self.assertEqual(len(set(prints)), len(prints))
        moved = Finding(KIND, Level.NOTE, "s", "t", ("i",), Position(Path("p"), 7))
        elsewhere = Finding(KIND, Level.NOTE, "s", "t", ("i",), Position(Path("p"), 9))
        self.assertEqual(moved.fingerprint, elsewhere.fingerprint)


class Junit(unittest.TestCase):
    @unittest.skipUnless(has("junitparser"), "Debian's python3-junitparser is not installed")
    def test_by_a_reader_of_others(self) -> None:
        report = hostile()
        ((name, tests, failures, cases),) = read_by(READ_JUNIT, "\n".join(junit.lines(report)))
        number = len(report.findings)
        self.assertEqual((tests, failures, len(cases)), (number, number, number))
        for (classname, case, ((result, level, why),)), name in zip(cases, HOSTILE):
            self.assertEqual((classname, case, result, level, why),
                             ("landaudit-record audit.a-kind", plain(name), "Failure", "error", plain(f"why {name}")))

    @unittest.skipUnless(shutil.which("xmllint"), "xmllint is not installed")
    def test_it_is_well_formed(self) -> None:
        for level in Level:
            text = "\n".join(junit.lines(hostile(level)))
            subprocess.run(["xmllint", "--noout", "-"], input=text.encode(), check=True)

    def test_notes_and_passed_tests_do_not_fail(self) -> None:
        for level, number in ((Level.ERROR, 1), (Level.WARNING, 1), (Level.NOTE, 0), (Level.PASSED, 0)):
            report = Report("c", "a", "s", "holds", [Finding(KIND, level, "subject", "text", ())])
            text = "\n".join(junit.lines(report))
            self.assertEqual((text.count("<failure"), text.count("<testcase")), (number, 1), level)


class Markdown(unittest.TestCase):
    @unittest.skipUnless(shutil.which("cmark-gfm"), "cmark-gfm is not installed")
    def test_each_name_is_a_cell_as_it_is(self) -> None:
        """GitHub's own renderer, with its tables and links; nothing of a name becomes an element."""
        report = hostile()
        run = subprocess.run(["cmark-gfm", "--unsafe", "-e", "table", "-e", "autolink", "-e", "strikethrough"],
                             input="\n".join(markdown.lines(report)).encode(), stdout=subprocess.PIPE, check=True)
        page = run.stdout.decode()
        self.assertEqual(set(re.findall(r"</?(\w+)", page)),
                         {"h3", "p", "table", "thead", "tbody", "tr", "th", "td", "code"})
        rows = [re.findall(r"<td[^>]*>(.*?)</td>", row) for row in page.split("<tr>")[2:]]
        names = [html.unescape(re.sub("</?code>", "", row[1])) for row in rows]
        self.assertEqual(names[:len(HOSTILE)], [plain(name) for name in HOSTILE])
        self.assertTrue(all(len(row) == 5 for row in rows))

    def test_more_findings_than_a_summary_holds(self) -> None:
        with mock.patch.object(markdown, "MOST", 2):
            lines = list(markdown.lines(hostile()))
        self.assertEqual(sum(line.startswith("| error") for line in lines), 2)
        self.assertIn(f"{len(hostile().findings) - 2} more findings", lines[-1])

    def test_a_command_that_helps(self) -> None:
        report = Report("c", "a", "s", "h", [Finding(KIND, Level.ERROR, "x", "y", ())], remedy=["do", "it's"])
        self.assertIn("What would help: <code>do 'it'\"'\"'s'</code>", "\n".join(markdown.lines(report)))


class Github(unittest.TestCase):
    def test_names_end_no_command_and_no_property(self) -> None:
        with mock.patch.object(github, "MOST", 100):
            text = "\n".join(github.lines(hostile()))
        found = annotations(text)
        self.assertEqual(len(found), len(hostile().findings))
        for (level, about, message), name in zip(found, HOSTILE):
            self.assertEqual((level, message), ("error", plain(f"{name}: why {name}")))
            self.assertEqual((about["line"], about["col"], about["endColumn"]), ("3", "2", "9"))

    def test_at_most_ten_of_a_level(self) -> None:
        for number, shown, last in ((10, 10, "s: t"), (11, 10, "2 more; another format has them all")):
            notes = [Finding(KIND, Level.NOTE, "s", "t", (str(it),)) for it in range(number)]
            report = Report("c", "a", "s", "h", notes)
            found = annotations("\n".join(github.lines(report)))
            self.assertEqual((len(found), found[-1][2], found[-1][0]), (shown, last, "notice"))


class Positions(unittest.TestCase):
    def test_a_file_is_named_from_the_working_directory(self) -> None:
        with tempfile.TemporaryDirectory() as folder, contextlib.chdir(folder):
            here = os.getcwd()
            for given, wanted in (("p", "p"), ("./a/../p", "p"), (f"{here}/a/p", "a/p"), ("/etc/p", "/etc/p")):
                self.assertEqual(Position(Path(given)).name, wanted)

    def test_what_is_not_in_the_file_is_at_what_contains_it(self) -> None:
        with tempfile.TemporaryDirectory() as folder:
            policy = Path(folder, "p.toml")
            policy.write_text(POLICY)
            places = DocumentPlaces(policy)
            rule = places.rule(1, Numbered("path_beneath", 1))
            self.assertEqual((places.layer(1).line, rule.line, places.layer(None).line), (2, 5, None))
            self.assertEqual(places.rule(1, Numbered("path_beneath", 3, "base")), places.layer(1))
            self.assertEqual(places.layer(2).line, None)
            self.assertEqual(DocumentPlaces(Path(folder)).layer(1), Position(Path(folder)))

    def test_formats(self) -> None:
        self.assertEqual(reporting.FORMATS, ("text", "json", "sarif", "junit", "markdown", "github"))
