"""The page of an audit: what it says is what the data say, and no name of a recording is ever more than text."""

from __future__ import annotations

import base64
import hashlib
import json
import re
import tempfile
import unittest
from collections import Counter
from pathlib import Path
from typing import Any
from urllib.parse import unquote

from landaudit_record.audit import by_abi, summary
from landaudit_record.audit.auditor import TriedPolicy
from landaudit_record.audit.moot import FAILED_TOO, Unasked
from landaudit_record.audit.summary import Accepted, Refusal, RefusingLayer, Summary
from landaudit_record.audit.warnings import OfLog
from landaudit_record.common import rights
from landaudit_record.common.trees import Tree, upwards
from landaudit_record.common.wording import quoted
from landaudit_record.engine.answers import Closed, Missing
from landaudit_record.engine.reading import NamedSubject
from landaudit_record.engine.subjects import Subject
from landaudit_record.policy import policies
from landaudit_record.summaries import page
from landaudit_record.summaries.page import icicle, matrix, recorded, tree
from landaudit_record.summaries.page.counting import Counts, Paths, asked
from landaudit_record.summaries.page.markup import element

from .pages import Element, read
from .recorded import records, write_lines
from .worded import subject

#: Names that would be markup, script, or another page, if they were not told as text.
HOSTILE = (
    "</script><script>document.title = 'broken'</script>",
    "<img src=x onerror=\"document.title = 'broken'\">",
    "\" onmouseover=\"document.title = 'broken'\" x='",
    "'><svg onload=alert(1)>",
    "<!-- ",
    "]]> &lt;b&gt; &amp; &#60;",
    "</td></tr></table></body></html>",
    "</style><style>body { display: none }</style>",
    "javascript:alert(1)",
    "\u202egnp.exe",
    "\u05d0\u05d1\u05d2",
    "\x00\x1b[31m\r\n\t\x7f\x85",
    "\udcff\udc80",
    "x" * 4096,
)
ABOUT = page.Title("rec", "policy.toml", False)
#: Elements that a page is made of, and the attributes that its elements may have.
ELEMENTS = {
    "", "html", "i", "head", "meta", "title", "style", "script", "body", "header", "h1", "h2", "p", "nav", "fieldset",
    "legend", "label", "input", "span", "ul", "li", "a", "main", "div", "b", "svg", "rect", "text", "section", "table",
    "thead", "tbody", "tr", "th", "td", "details", "summary", "code", "button", "footer", "article", "h3", "dl", "dt",
    "dd", "pre", "s",
}
ATTRIBUTES = {
    "lang", "charset", "http-equiv", "content", "name", "type", "class", "id", "value", "checked", "href", "for",
    "scope", "hidden", "autocomplete", "spellcheck", "role", "dir", "tabindex", "open", "aria-labelledby",
    "aria-label", "data-at", "colspan", "x", "y", "width", "height",
}


def refusal(place: str, call: str = "open r", error: str = "EACCES", right: str = "read_file") -> Refusal:
    """A kind of refused calls, by one layer of the policy."""
    return Refusal(call, Subject((place,)), error, (RefusingLayer(1, 1, (Missing((right,), place),)),), None)


READ, CUT = refusal("/a/f"), refusal("/b/g", "open w trunc", right="truncate")
CALL = Refusal("connect", subject("port 443"), "EACCES", (RefusingLayer(1, 1, (Closed(("connect_tcp",), 443),)),
                                                        RefusingLayer(2, None, (Closed(("connect_tcp",), 443),))), None)


def summed(abi: int, refused: dict[Refusal, Counter[str]], moot: dict[Unasked, Counter[Subject]] | None = None) -> Summary:
    """A summary with a hundred calls allowed."""
    found = Summary(abi, Counter(allowed=100), refusals=refused, moot=moot or {})
    found.verdicts["refused"] = sum(programs.total() for programs in refused.values())
    found.verdicts["moot"] = sum(at.total() for at in found.moot.values())
    return found


def three() -> list[Summary]:
    """Three ABIs, which refuse other calls, or not as often."""
    older = summed(2, {READ: Counter({"/bin/sort": 3})})
    middle = summed(3, {READ: Counter({"/bin/sort": 3}), CUT: Counter({"/bin/cut": 1234})})
    newer = summed(4, {CUT: Counter({"/bin/cut": 1234}), CALL: Counter({"/bin/nc": 2, "/bin/sort": 9})},
                   {Unasked("absent"): Counter({subject("/c"): 7, subject("/d"): 2})})
    older.warnings = {OfLog("a ruleset is refused"): 2}
    for one in (older, middle, newer):
        one.unsaid = Counter({"a call with no words": 4, "another <class>": 1})
        one.missing = ("2 calls could not be recorded",)
        one.untraced = ("readlink(2) is not recorded",)
        one.accepted = Counter({Accepted("ioctl", subject("/dev/null"), "shells ask"): one.abi})
        one.verdicts["refused"] += one.abi
    return [older, middle, newer]


def made(summaries: list[Summary], calls: Counter[NamedSubject] | None = None) -> Element:
    """The page of summaries, read."""
    return read(page.made(ABOUT, summaries, Paths(calls or Counter(), summaries)))


def number(text: str) -> int:
    return int(text.replace(",", ""))


class Data(unittest.TestCase):
    """The page against the data that --json prints."""

    def setUp(self) -> None:
        self.summaries = three()
        self.page = made(self.summaries)

    def data(self, abi: int) -> dict[str, Any]:
        (found,) = (one for one in self.summaries if one.abi == abi)
        return summary.as_data(found)

    def test_each_abi_shows_its_refusals(self) -> None:
        for abi in (2, 3, 4):
            wanted = [(one["times"], one["call"], one["place"], one["error"]) for one in self.data(abi)["refusals"]]
            rows = [(number(row["times"]), row["call"], row["place"], row["error"])
                    for row in self.page.said("refusals", abi)]
            with self.subTest(abi):
                self.assertTrue(wanted)
                self.assertEqual(sorted(rows), sorted(wanted))

    def test_the_newest_abi_has_the_most_frequent_first(self) -> None:
        self.assertEqual([row[0] for row in self.page.rows("refusals", 4)], ["1,234", "11"])

    def test_a_row_says_why_and_who(self) -> None:
        row = self.page.said("refusals", 4)[1]
        self.assertEqual([row[name] for name in ("why", "layers", "program")],
                         ["connect_tcp", "policy's 1, program's 2", "/bin/sort, /bin/nc"])

    def test_a_column_that_is_the_same_on_every_row_is_said_once(self) -> None:
        (table,) = self.page.all("table", "refusals")
        heads = [one.text(4) for one in table.all("th")]
        self.assertEqual(heads, ["times", "call", "place", "why", "layers", "program"])
        (section,) = (one for one in self.page.all("section") if one.attributes["id"] == "refused")
        self.assertEqual([one.text(4) for one in section.all("p", "once")], ["All: error EACCES"])

    def test_a_single_row_has_all_columns(self) -> None:
        shown = made([summed(5, {READ: Counter(a=1)})])
        (table,) = shown.all("table", "refusals")
        self.assertEqual([one.text(5) for one in table.all("th")],
                         ["times", "call", "place", "error", "why", "layers", "program"])

    def test_the_matrix_has_the_numbers_of_each_abi(self) -> None:
        steps = by_abi.as_data(by_abi.steps(self.summaries))
        rows = {row[0]: row[1:] for row in self.page.rows("matrix", 4)}
        for title, verdict in (("allowed", "allowed"), ("refused", "refused"), ("not asked (moot)", "moot")):
            self.assertEqual(rows[title], [f"{step[verdict]:,}" for step in steps])
        (head,) = self.page.all("table", "matrix")[0].all("thead")
        self.assertEqual([one.text(4) for one in head.all("th")],
                         ["ABILinux", "25.19+Debian 12", "36.2+", "46.7+Ubuntu 24.04"])
        self.assertEqual([one.attributes["for"] for one in head.all("label")], ["abi-2", "abi-3", "abi-4"])

    def test_kernels_and_releases_are_those_of_the_documents(self) -> None:
        lines = (Path(__file__).resolve().parents[2] / "docs" / "QUESTIONS.md").read_text(encoding="utf-8").splitlines()
        rows = [[cell.strip() for cell in line.split("|")[1:4]] for line in lines if line.startswith("| ")]
        told = {int(abi): (kernel, re.sub(r" \(.*\)", "", release)) for abi, kernel, release in rows if abi.isdecimal()}
        self.assertEqual(told, {abi: (of.linux, of.release) for abi, of in rights.ABIS.items()})

    def test_the_matrix_says_what_changes(self) -> None:
        steps = by_abi.as_data(by_abi.steps(self.summaries))
        rows = {row[0]: row[1:] for row in self.page.rows("matrix", 4)}
        for title, change in (("refused here and not before", "breaks"), ("refused no more", "refused_no_more")):
            for said, step in zip(rows[title][1:], steps[1:]):
                self.assertTrue(said.startswith(f"{len(step[change])} kind") if step[change] else said == "", said)
        self.assertIn("open r /a/f EACCES", rows["refused no more"][2])

    def test_the_matrix_counts_what_may_be_refused(self) -> None:
        found = summed(5, {READ: Counter(a=3)})
        found.unsure = {READ: Counter(a=2), CUT: Counter(a=4)}
        shown = made([found])
        rows = {row[0]: row[1:] for row in shown.rows("matrix", 5)}
        self.assertEqual((rows["read_file"], rows["truncate"]), (["3 2?"], ["4?"]))
        self.assertIn("12? calls that may be refused lack it", shown.text(5))
        self.assertNotIn("12?", self.page.text(4))

    def test_the_matrix_says_which_rights_are_lacking(self) -> None:
        rows = {row[0]: row[1:] for row in self.page.rows("matrix", 4)}
        nothing = matrix.NOT_HANDLED
        self.assertEqual({right: rows[right] for right in ("read_file", "truncate", "connect_tcp")},
                         {"read_file": ["3", "3", nothing], "truncate": [nothing, "1,234", "1,234"],
                          "connect_tcp": [nothing, nothing, "11"]})
        self.assertNotIn("execute", rows)

    def test_the_figures_of_the_chosen_abi(self) -> None:
        for abi in (2, 3, 4):
            shown = [one.text(abi) for one in self.page.all("div", "figures") if one.seen(abi)]
            of_abi = self.data(abi)
            with self.subTest(abi):
                self.assertEqual(shown, [
                    f"{of_abi['records']:,} records at ABI {abi}{of_abi['allowed']:,} allowed"
                    f"{of_abi['refused']:,} refused, {abi} of them accepted{of_abi['moot']:,} not asked (moot)"
                ])

    def test_what_is_accepted(self) -> None:
        for abi in (2, 3, 4):
            accepted = self.data(abi)["accepted"]
            wanted = [[str(one["times"]), one["call"], one["place"], one["reason"]] for one in accepted]
            self.assertEqual(self.page.rows("accepted", abi), wanted)

    def test_what_was_moot_at_the_newest_abi(self) -> None:
        wanted = [[str(one["times"]), one["why"], ", ".join(one["at"])] for one in self.data(4)["moot_because"]]
        self.assertEqual(self.page.rows("moot", 4), wanted)

    def test_what_was_not_recorded(self) -> None:
        wanted = [[str(times), name] for name, times in self.data(4)["unsaid"].items()]
        self.assertEqual(self.page.rows("unsaid", 4), wanted)
        (alarm,) = self.page.all("p", "alarm")
        self.assertEqual(alarm.text(4), f"Not all is judged. {self.data(4)['not_judged'][0]}")

    def test_what_was_not_traced(self) -> None:
        wanted = [f"{text}." for text in self.data(4)["not_traced"]]
        self.assertEqual([one.text(4) for one in self.page.all("p", "untraced")], wanted)

    def test_a_page_says_that_no_traced_call_is_left_out(self) -> None:
        text = made([summed(5, {})]).text(5)
        self.assertIn("Of the calls that were traced, none is left out.", text)
        self.assertNotIn("Of the calls that were traced", self.page.text(4))

    def test_warnings_are_those_of_the_chosen_abi(self) -> None:
        (warnings,) = self.page.all("ul", "warnings")
        self.assertEqual(warnings.text(2), "a ruleset is refused (2 times)")
        self.assertEqual(warnings.text(4), "")

    def test_the_newest_abi_is_chosen(self) -> None:
        buttons = [(one.attributes["value"], "checked" in one.attributes) for one in self.page.all("input")
                   if one.attributes["type"] == "radio"]
        self.assertEqual(buttons, [("2", False), ("3", False), ("4", True)])

    def test_nothing_is_refused(self) -> None:
        found = made([summed(5, {})])
        self.assertEqual(found.all("table", "refusals"), [])
        self.assertIn("Nothing is refused at ABI 5.", found.text(5))


class Hostile(unittest.TestCase):
    """Names that hold anything."""

    def setUp(self) -> None:
        found = summed(5, {refusal(f"/a/{name}"): Counter({f"/bin/{name}": 1}) for name in HOSTILE})
        found.warnings = dict.fromkeys(map(OfLog, HOSTILE), 1)
        found.moot = {Unasked(FAILED_TOO, error=name): Counter({Subject((name,)): 1}) for name in HOSTILE}
        found.unsaid = Counter(HOSTILE)
        found.missing = found.untraced = HOSTILE
        found.accepted = Counter({Accepted("open r", Subject((name,)), name): 1 for name in HOSTILE})
        calls: Counter[NamedSubject] = Counter({(f"/a/{name}",): 1 for name in HOSTILE})
        found.not_allowed["refused"] = calls
        self.summary = found
        told = [[(HOSTILE[0], name) for name in HOSTILE]]
        about = page.Title(HOSTILE[0], HOSTILE[1], True, HOSTILE, told)
        self.text = page.made(about, [found], Paths(calls, [found]), self.tried())
        self.page = read(self.text)

    def tried(self) -> TriedPolicy:
        """A policy with hostile names in it, and the files with such names."""
        file = Path(self.enterContext(tempfile.TemporaryDirectory())) / "P.toml"
        said = [f"# {name}\n" for name in HOSTILE if name.isprintable()]
        parents = ", ".join(quoted(f"/a/{name}") for name in HOSTILE if name.isprintable() and len(name) < 99)
        rule = f'[[layer.path_beneath]]\nallowed_access = ["execute"]\nparent = [{parents}]\n'
        file.write_text(f'{"".join(said)}[[layer]]\nhandled_access_fs = ["all"]\n{rule}', encoding="utf-8")
        kinds = {over: "dir" for name in HOSTILE for over in upwards(f"/a/{name}")}
        kinds |= {f"/a/{name}": "reg" for name in HOSTILE}
        tree = Tree(kinds, {"/a/javascript:alert(1)": HOSTILE[1]})
        return TriedPolicy(None, policies.read(file), None, tree, [])  # type: ignore[arg-type]

    def test_a_page_has_its_own_elements_and_attributes_alone(self) -> None:
        self.assertLessEqual({one.name for one in self.page.elements()}, ELEMENTS)
        self.assertLessEqual({name for one in self.page.elements() for name in one.attributes}, ATTRIBUTES)
        for name in ("html", "head", "body", "main", "script", "style"):
            self.assertEqual(len(self.page.all(name)), 1, name)

    def test_within_a_line_are_elements_of_lines_alone(self) -> None:
        """Else a browser would end the outer one (HTML, 3.2.5.2.5)."""
        for name in ("p", "span", "code", "b", "label", "button", "summary", "a"):
            inside = {one.name for outer in self.page.all(name) for one in outer.elements() if one is not outer}
            with self.subTest(name):
                self.assertLessEqual(inside, {"span", "b", "code", "svg", "rect", "text", "title", "input", "a"})

    def test_links_lead_to_the_page_itself(self) -> None:
        names = {one.attributes.get("id") for one in self.page.elements()}
        links = [one.attributes["href"] or "" for one in self.page.all("a")]
        self.assertGreater(len(links), len(HOSTILE))
        seen = re.compile(r"#(at=[\w%/.~-]*&?)?(find=[\w%/.~-]*)?", re.ASCII)
        for link in links:
            self.assertTrue(link[1:] in names or seen.fullmatch(link), link)

    def test_links_lead_to_the_places_that_they_name(self) -> None:
        directories = {f"/a/{name}" for name in HOSTILE if name.isprintable() and "/" not in name}
        links = [one for one in self.page.all("a") if "data-at" in one.attributes]
        for link in links:
            _, _, there = (link.attributes["href"] or "").partition("at=")
            self.assertEqual(unquote(there), link.attributes["data-at"])
        self.assertLessEqual(directories, {link.attributes["data-at"] for link in links})

    def test_names_are_told_as_they_are(self) -> None:
        places = [row["place"] for row in self.page.said("refusals", 5)]
        plain = [f"/a/{name}" for name in HOSTILE if name.isprintable()]
        self.assertGreater(len(plain), 9)
        self.assertLessEqual(set(plain), set(places))

    def test_what_a_screen_would_act_on_is_escaped(self) -> None:
        places = [row["place"] for row in self.page.said("refusals", 5)]
        for escaped in ("/a/\\u202egnp.exe", "/a/\\x00\\x1b[31m\\r\\n\\t\\x7f\\x85", "/a/\\udcff\\udc80"):
            self.assertIn(escaped, places)
        body = self.page.all("body")[0].text(5)
        self.assertEqual({letter for letter in body if not letter.isprintable()}, {"\n"})
        self.assertEqual(body.count("\n"), sum(one.text(5).count("\n") for one in self.page.all("pre")))
        self.text.encode()

    def test_a_long_name_has_a_box_of_its_own_that_keys_reach(self) -> None:
        boxes = [one for one in self.page.all("span", "long") if one.text(5) == "/a/" + "x" * 4096]
        self.assertTrue(boxes)
        self.assertEqual({one.attributes["tabindex"] for one in boxes}, {"0"})

    def test_every_kind_is_there(self) -> None:
        self.assertEqual(len(self.page.rows("refusals", 5)), len(HOSTILE))
        self.assertEqual(len(self.page.rows("unsaid", 5)), len(HOSTILE))
        self.assertEqual(len(self.page.rows("accepted", 5)), len(HOSTILE))

    def test_a_text_is_escaped_wherever_it_is_put(self) -> None:
        self.assertEqual(element("b", "<&\"'>", attributes={"id": "<\"'"}),
                         '<b id="&lt;&quot;&#x27;">&lt;&amp;&quot;&#x27;&gt;</b>')


class Recorded(unittest.TestCase):
    """What the page says of how a recording was made."""

    def written(self, **said: Any) -> Path:
        """A recording's folder that says something of itself."""
        folder = Path(self.enterContext(tempfile.TemporaryDirectory()))
        about = {"command": ["sort", "-o", "a b"], "directory": "/srv", "started": 1_000_000_000.5, "admin": False,
                 "nnp": False, "descriptors": {}, "kernel": "6.1.0", "euid": 1000}
        (folder / "recording.json").write_text(json.dumps({**about, **said}), encoding="utf-8")
        return folder

    def test_what_a_recording_says(self) -> None:
        (found,) = recorded.facts({"rec": self.written()})
        # date -u -d @1000000000 prints this time.
        self.assertEqual(found, [("command", "sort -o 'a b'"), ("in", "/srv"), ("when", "2001-09-09 01:46 UTC"),
                                 ("kernel", "Linux 6.1.0"), ("user", "number 1000")])
        shown = read(page.made(page.Title("rec", None, False, (), [found]), three(), Paths(Counter(), three())))
        self.assertEqual([one.text(4) for one in shown.all("dd")], [said for _, said in found])

    def test_who_recorded(self) -> None:
        for said, by in (({"strace": "6.1"}, "strace 6.1"), ({"by": "witness"}, "landaudit-witness")):
            (found,) = recorded.facts({"rec": self.written(**said)})
            self.assertIn(("by", by), found)

    def test_several_recordings_are_named(self) -> None:
        found = recorded.facts({"one": self.written(), "two": self.written(euid=0)})
        self.assertEqual([one[0] for one in found], [("recording", "one"), ("recording", "two")])
        self.assertEqual(found[1][-1], ("user", "root"))

    def test_what_says_nothing(self) -> None:
        for said in ({"started": 1e300}, {"other": 1}):
            self.assertEqual(recorded.facts({"rec": self.written(**said)}), [])
        self.assertEqual(recorded.facts({"rec": Path("/no/such/folder")}), [])


class OwnPolicy(unittest.TestCase):
    """What the page itself may do."""

    def setUp(self) -> None:
        self.page = made(three())
        (policy,) = (one.attributes["content"] for one in self.page.all("meta") if "http-equiv" in one.attributes)
        assert policy is not None
        self.policy = dict(part.strip().split(" ", 1) for part in policy.split(";"))

    def test_nothing_else_is_allowed(self) -> None:
        self.assertEqual({name: value for name, value in self.policy.items() if not value.startswith("'sha256-")},
                         {"default-src": "'none'", "base-uri": "'none'", "form-action": "'none'"})

    def test_style_and_script_are_the_pages_own(self) -> None:
        for name in ("style", "script"):
            (one,) = self.page.all(name)
            digest = base64.b64encode(hashlib.sha256("".join(map(str, one.inside)).encode()).digest()).decode()
            self.assertEqual(self.policy[f"{name}-src"], f"'sha256-{digest}'")

    def test_it_comes_before_style_and_script(self) -> None:
        (head,) = self.page.all("head")
        names = ["policy" if "http-equiv" in one.attributes else one.name for one in head.elements()]
        self.assertLess(names.index("policy"), min(names.index("style"), names.index("script")))

    def test_style_and_script_ask_for_nothing(self) -> None:
        for name in ("page.css", "page.js"):
            text = page.own(name)
            for word in ("url(", "@import", "fetch(", "innerHTML", "document.write", "eval(", "http:", "https:", "</"):
                with self.subTest(name, word=word):
                    self.assertNotIn(word, text)


class Counting(unittest.TestCase):
    """How many calls are at or below a path."""

    def test_calls_about_which_landlock_was_asked(self) -> None:
        trace = records(
            {"op": "open", "path": "/a/f", "fd": 3, "mode": "r", "kernel": "ok", "again": True},
            {"op": "open", "path": "/a/f", "fd": 3, "mode": "r", "kernel": "ok"},
            {"op": "open", "path": "/a/f", "fd": 3, "mode": "r", "kernel": "EACCES"},
            {"op": "open", "path": "/a/none", "fd": 3, "mode": "r", "kernel": "ENOENT"},
            {"op": "open", "path": "/a/~n~", "shown": "/a/n", "fd": 3, "mode": "w", "kernel": "ok"},
            {"op": "rename", "from": "/a/f", "to": "/b/~f~", "shown_to": "/b/f", "kernel": "ok"},
            {"op": "connect", "port": 443, "kernel": "ECONNREFUSED"},
            {"op": "close", "fd": 3, "kernel": "ok"},
        )
        with tempfile.TemporaryDirectory() as folder:
            file = write_lines(Path(folder) / "trace.jsonl", trace)
            found = asked([file, file])
        self.assertEqual(found, {("/a/f",): 4, ("/a/n",): 2, ("/a/f", "/b/f"): 2, 443: 2})

    def paths(self) -> Paths:
        """Opens of three files and moves: beside each other, to another directory, and onto itself."""
        calls: Counter[NamedSubject] = Counter({("/a/f",): 10, ("/a/d/g",): 4, ("/b",): 1, ("/a/f", "/a/h"): 3,
                                         ("/a/f", "/b/f"): 2, ("/a/f", "/a/f"): 5, 443: 6})
        older, newer = summed(4, {}), summed(5, {})
        older.not_allowed = {"refused": Counter({("/a/f", "/b/f"): 2}), "moot": Counter()}
        newer.not_allowed = {"refused": Counter({("/a/f",): 9, 443: 1}), "moot": Counter({("/a/d/g",): 3})}
        return Paths(calls, [older, newer])

    def test_a_call_counts_once_wherever_it_is_below(self) -> None:
        found = self.paths()
        wanted = {"/": 25, "/a": 24, "/a/f": 20, "/a/h": 3, "/a/d": 4, "/a/d/g": 4, "/b": 3, "/b/f": 2, "/c": 0,
                  "/a/f/x": 0}
        self.assertEqual({path: found.below(path).all for path in wanted}, wanted)

    def test_what_is_not_allowed(self) -> None:
        found = self.paths()
        self.assertEqual(found.below("/"), Counts(25, [2, 9], [0, 3]))
        self.assertEqual(found.below("/b"), Counts(3, [2, 0], [0, 0]))
        self.assertEqual(found.below("/a/d"), Counts(4, [0, 0], [0, 3]))
        self.assertEqual([found.below("/a").allowed(at) for at in (0, 1)], [22, 12])
        self.assertEqual((found.on(443), found.on(80)), (Counts(6, [0, 1], [0, 0]), Counts(0, [0, 0], [0, 0])))

    def test_a_path_of_very_many_names(self) -> None:
        deep = "/" + "/".join("d" * 2048)
        found = Paths(Counter({(deep,): 1, ("/d/x",): 1}), [summed(5, {})])
        self.assertEqual((found.below(deep).all, found.below("/d").all), (1, 2))
        self.assertLess(str(tree.tree([5], found.root)).count("<details"), 70)


class TreeOfPaths(unittest.TestCase):
    """The rows of the tree: their names and numbers."""

    def rows(self, found: Paths, abi: int = 5) -> list[list[str]]:
        """What each row says: its name, and what is allowed, refused and moot."""
        shown = read(tree.tree([4, 5], found.root))
        return [[cell.text(abi) for cell in row.inside if isinstance(cell, Element)]
                for row in shown.elements() if "row" in row.kinds and "heads" not in row.kinds]

    def paths(self, calls: Counter[NamedSubject], *refused: Counter[NamedSubject]) -> Paths:
        summaries = [summed(abi, {}) for abi in (4, 5)]
        for one, some in zip(summaries, refused):
            one.not_allowed["refused"] = some
        return Paths(calls, summaries)

    def test_ways_are_joined_and_names_without_refusals_are_one_row(self) -> None:
        calls: Counter[NamedSubject] = Counter(
            {("/usr/lib/x/one",): 2, ("/usr/lib/x/two",): 5, ("/usr/lib/x/three",): 1, ("/f",): 1}
        )
        found = self.paths(calls, Counter(), Counter({("/usr/lib/x/two",): 5}))
        self.assertEqual(self.rows(found), [
            ["/", "4", "5", "0"],
            ["usr/lib/x/", "3", "5", "0"],
            ["two", "0", "5", "0"],
            ["2 more names", "3", "0", "0"],
            ["1 more name", "1", "0", "0"],
        ])
        self.assertEqual([row[2] for row in self.rows(found, 4)], ["0"] * 5)

    def test_where_most_is_refused_comes_first(self) -> None:
        calls: Counter[NamedSubject] = Counter({("/a/f",): 50, ("/b/f",): 2, ("/c/f",): 9})
        found = self.paths(calls, Counter(), Counter({("/c/f",): 1, ("/b/f",): 2}))
        self.assertEqual([row[0] for row in self.rows(found) if row[0].endswith("/")], ["/", "b/", "c/", "a/"])

    def test_a_tree_has_a_bounded_number_of_rows(self) -> None:
        paths = [f"/d{one}/e{other}/f" for one in range(100) for other in range(100)]
        calls: Counter[NamedSubject] = Counter((path,) for path in paths)
        rows = self.rows(self.paths(calls, calls, calls))
        self.assertLess(len(rows), 2 * tree.MOST_ROWS)
        self.assertGreater(len(rows), tree.MOST_ROWS / 2)
        self.assertEqual(rows[0], ["/", "0", "10,000", "0"])
        self.assertIn(["100 names", "0", "100", "0"], rows)


class Icicle(unittest.TestCase):
    """The cells of the icicle: their widths, colours and links."""

    CALLS: Counter[NamedSubject] = Counter(
        {("/usr/lib/x/one",): 30, ("/usr/lib/x/two",): 10, ("/etc/f",): 59, ("/g",): 1}
    )

    def cells(self, refused: Counter[NamedSubject]) -> dict[str, dict[str, str]]:
        """What is known of the cell of each path."""
        summaries = [summed(abi, {}) for abi in (4, 5)]
        summaries[1].not_allowed["refused"] = refused
        found = read(icicle.icicle([4, 5], Paths(self.CALLS, summaries).root))
        cells = {}
        for link in found.all("a"):
            (box,) = link.all("svg")
            colours = {abi: [kind for one in link.all("rect") if one.seen(abi) for kind in one.kinds if kind[0] == "s"]
                       for abi in (4, 5)}
            cells[str(link.attributes["data-at"])] = {**{key: str(value) for key, value in box.attributes.items()},
                                                      "4": "".join(colours[4]), "5": "".join(colours[5])}
        return cells

    def test_width_is_calls(self) -> None:
        cells = self.cells(Counter())
        wanted = {"/": ("0.00%", "100.00%"), "/etc/f": ("0.00%", "59.00%"), "/usr/lib/x": ("59.00%", "40.00%"),
                  "/usr/lib/x/one": ("59.00%", "30.00%"), "/usr/lib/x/two": ("89.00%", "10.00%"),
                  "/g": ("99.00%", "1.00%")}
        for path, across in wanted.items():
            with self.subTest(path):
                self.assertEqual((cells[path]["x"], cells[path]["width"]), across)

    def test_colour_is_the_refused_share_of_the_chosen_abi(self) -> None:
        cells = self.cells(Counter({("/usr/lib/x/one",): 30, ("/etc/f",): 1}))
        steps = {path: (cell["4"], cell["5"]) for path, cell in cells.items()}
        self.assertEqual(steps["/usr/lib/x/one"], ("s0", "s4"))
        self.assertEqual(steps["/usr/lib/x"], ("s0", "s3"))
        self.assertEqual(steps["/etc/f"], ("s0", "s1"))
        self.assertEqual(steps["/g"], ("s0", "s0"))


class PolicyByLine(unittest.TestCase):
    """The lines of a policy, with the calls at or below the places of its rules."""

    POLICY = """[[layer]]
handled_access_fs = ["read_file", "write_file"]
handled_access_net = ["connect_tcp"]
[[layer.path_beneath]]
allowed_access = ["read_file"]
parent = ["/lib", "/never"]
[[layer.net_port]]
allowed_access = ["connect_tcp"]
port = 443
"""

    def shown(self, text: str = POLICY, summaries: list[Summary] | None = None) -> Element:
        """The page of an audit under a policy."""
        file = Path(self.enterContext(tempfile.TemporaryDirectory())) / "P.toml"
        file.write_text(text)
        policy = policies.read(file)
        listed = Tree({"/": "dir", "/usr": "dir", "/usr/lib": "dir", "/lib": "sym"}, {"/lib": "usr/lib"})
        found = summed(5, {})
        found.not_allowed["refused"] = Counter({("/usr/lib/x",): 3})
        calls: Counter[NamedSubject] = Counter({("/usr/lib/x",): 4, 443: 2})
        tried = TriedPolicy(None, policy, None, listed, [])  # type: ignore[arg-type]
        found_by_abi = summaries or [found]
        return read(page.made(ABOUT, found_by_abi, Paths(calls, found_by_abi), tried))

    def test_each_line_and_the_calls_of_each_place(self) -> None:
        shown = self.shown()
        rows = shown.rows("policy", 5)
        self.assertEqual([row[:2] for row in rows if row[0]],
                         [[str(number), line] for number, line in enumerate(self.POLICY.splitlines(), start=1)])
        self.assertEqual([row[1:] for row in rows if len(row) == 4], [
            ["/libleads to /usr/lib", "4", "1 3 refused"],
            ["/never", "0", "0"],
            ["port = 443", "2", "2"],
        ])

    def test_what_no_call_asked_for_is_struck_out(self) -> None:
        (table,) = self.shown().all("table", "policy")
        self.assertEqual([one.text(5) for one in table.all("s")], ["/never"])

    def test_rules_of_groups_come_behind_all_lines(self) -> None:
        shown = self.shown('[[layer]]\nhandled_access_fs = ["all"]\ninclude = "tmp"\n')
        rows = shown.rows("policy", 5)
        self.assertEqual([row[0] for row in rows[:3]], ["1", "2", "3"])
        self.assertIn(["", "tmp path_beneath 1: /tmp", "0", "0"], rows[3:])

    def test_the_matrix_says_what_an_abi_protects(self) -> None:
        summaries = [summed(abi, {READ: Counter({"a": 5})}) for abi in (1, 3, 4)]
        shown = self.shown(self.POLICY.replace('"write_file"', '"write_file", "truncate"', 1), summaries)
        rows = {row[0]: row[1:] for row in shown.rows("matrix", 4)}
        yes, dropped = matrix.PROTECTED, matrix.DROPPED
        wanted = {"read_file": ["5", "5", "5"], "write_file": [yes] * 3, "refer": [yes] * 3,
                  "truncate": [dropped, yes, yes], "connect_tcp": [dropped, dropped, yes], "execute": None}
        self.assertEqual({right: rows.get(right) for right in wanted}, wanted)
