"""The pages of landaudit-policy diff and check, read as a browser reads them; in a browser, where there is one."""

from __future__ import annotations

import tempfile
import unittest
from dataclasses import replace
from pathlib import Path

from landaudit_record.common.numbered import Numbered
from landaudit_record.common.rights import NEWEST_ABI
from landaudit_record.engine.answers import Answer, Missing, Refusing
from landaudit_record.policy.cases import ALL_ABIS, Case
from landaudit_record.policy.checking import Checked, CheckedCase
from landaudit_record.policy.deciding import Breach, Decision
from landaudit_record.policy.differing_layers import MountChanges, Room
from landaudit_record.policy.differing_rows import (
    DifferenceRow, Gains, Moves, RightsInArea, RightsOnMoved, RightsOnPorts
)
from landaudit_record.policy.granting import Grant
from landaudit_record.policy.over_sets import NOTHING, SetQuestion
from landaudit_record.policy.regions import Area, Region
from landaudit_record.policy.reviewing import EVERYTHING, Review
from landaudit_record.policy.widenings import Widening
from landaudit_record.summaries.page import checks, differences

from .chromium import CHROMIUM, browser
from .pages import Element, read
from .test_page import ATTRIBUTES, ELEMENTS, HOSTILE

EVERY = frozenset(ALL_ABIS)
WIDTHS = (400, 1280)


def review(name: str = "x") -> Review:
    """A comparison with an entry of each kind, and a name in each place that has names."""
    path = f"/{name}"
    more = tuple(DifferenceRow(what, abis) for what, abis in (
        (RightsInArea(("read_file",), Area(path, (f"{path}/in",))), EVERY),
        (RightsOnMoved(("refer",), 2, (path,), f"{path}/f"), frozenset({2, 3, 5})),
        (RightsOnPorts(("bind_tcp",), (80,), True), frozenset({4, 5})),
        (Moves(("dir",), (Area(path),), (), (Area("/b"),)), EVERY),
        (MountChanges(), EVERY),
    ))
    less = (DifferenceRow(Gains(("execute",), 1, "/b", (Region(path),)), EVERY), DifferenceRow(Room(1, 2), EVERY))
    one, gone = (Widening(name, frozenset({"read_file"}), (path,)) for _ in range(2))
    accepted = ((one, more[:1]),)
    return Review(Path(f"{name}.old"), None, Path(f"{name}.new"), ALL_ABIS, 9, more, less, accepted, (gone,))


def checked(name: str = "x") -> Checked:
    """A case that holds and one that does not, and questions, with a name in each place that has names."""
    path = f"/{name}"
    refused = Answer("refused", "EACCES", (Refusing(1, None, (Missing(("read_file",), path),)),))
    grant = Grant(1, Numbered("path_beneath", 1), path, ("write_file",))
    case = Case(True, ALL_ABIS, "open r", path, ())
    outcomes = [CheckedCase(case, dict.fromkeys(ALL_ABIS, refused), [grant]),
                CheckedCase(Case(False, ALL_ABIS, "exec", path, ()), dict.fromkeys(ALL_ABIS, refused), [])]
    question = SetQuestion(NOTHING, ("write",), (("write_file",),), frozenset({"truncate"}), (path,), ALL_ABIS)
    breach = Breach(("write_file",), Area(path), (grant,))
    decisions = [Decision(question, ()), Decision(question, ((range(1, 3), (breach,)),))]
    return Checked(Path(f"{name}.toml"), Path(f"{name}.cases"), outcomes, decisions)


class Pages(unittest.TestCase):
    def section(self, page: Element, name: str) -> Element:
        """A part of a page."""
        return next(one for one in page.all("section") if one.attributes["id"] == name)

    def test_what_differs(self) -> None:
        page = read(differences.made(review()))
        self.assertEqual(page.all("h1")[0].text(5), "x.new in place of x.old")
        more = self.section(page, "more").rows("differences", 5)
        self.assertEqual(more, [
            ["read_file", "under /x, but for /x/in", "", "1-5"],
            ["refer", "by the rules on /x, /x/f as a file, if these are moved or linked into one another", "layer 2", "2-3, 5"],
            ["bind_tcp", "on every port, but for port 80", "", "4-5"],
            ["moves of directories", "from under /x to under /b", "", "1-5"], ["mounts", "", "", "1-5"]])
        less = self.section(page, "less").said("differences", 5)
        self.assertEqual([one["what"] for one in less], [
            "execute", "1 more restriction of the program by itself: 1 of at most 16 layers are used, and not 2"])
        self.assertEqual(less[0]["place"], "perhaps by moves from under /x to under /b")
        self.assertEqual(self.section(page, "not-there").rows("differences", 5), [["read_file under /x", "x"]])
        figures = [one.text(5) for one in page.all("div", "figures")[0].inside if isinstance(one, Element)]
        self.assertEqual(figures, ["5 pass now", "1 pass and are accepted", "2 pass no more"])

    def test_no_old_policy(self) -> None:
        one = replace(review(), old=None, allowed=EVERYTHING, more=(), accepted=(), not_there=())
        page = read(differences.made(one))
        self.assertEqual([one.attributes["id"] for one in page.all("section")], ["less"])
        self.assertEqual(page.all("h1")[0].text(5), "x.new, without an old policy")

    def test_what_fails_and_what_holds(self) -> None:
        page = read(checks.made(checked()))
        self.assertEqual(self.section(page, "held").rows("checks", 5), [
            ["refused", "open r /x", "ABI 1-5: layer 1: read_file on /x"],
            ["nothing", "write under /x", "not asked: truncate, which ABI 1-2 does not know"]])
        self.assertEqual([card.text(5) for card in self.section(page, "failed").all("article")], [
            "allowed exec /xABI 1-5layer 1: read_file on /x",
            "nothing write under /xABI 1-2write_file under /xruleslayer 1: path_beneath 1 on /x grants write_file"
            "not askedtruncate, which ABI 1-2 does not know"])

    def test_names_are_text(self) -> None:
        for name in HOSTILE:
            for text in (differences.made(review(name)), checks.made(checked(name))):
                page = read(text)
                self.assertLessEqual({one.name for one in page.elements()}, ELEMENTS)
                self.assertLessEqual({name for one in page.elements() for name in one.attributes}, ATTRIBUTES)
                self.assertEqual([len(page.all(one)) for one in ("html", "script", "style", "main")], [1, 1, 1, 1])
                body = page.all("body")[0].text(NEWEST_ABI)
                self.assertEqual({letter for letter in body if not letter.isprintable()}, set())
                self.assertTrue(name in body or not name.isprintable(), name)


@unittest.skipIf(CHROMIUM is None, "chromium is not installed")
class Browsed(unittest.TestCase):
    def test_nothing_is_wider_than_the_window_and_nothing_is_at_fault(self) -> None:
        wider = "document.documentElement.scrollWidth - document.documentElement.clientWidth"
        with tempfile.TemporaryDirectory() as name, browser() as tab:
            for number, one in enumerate(("x", HOSTILE[0], HOSTILE[-1])):
                for kind, text in (("diff", differences.made(review(one))), ("check", checks.made(checked(one)))):
                    file = Path(name, f"{kind}{number}.html")
                    file.write_bytes(text.encode())
                    for width in WIDTHS:
                        tab.wide(width)
                        tab.open(file)
                        with self.subTest(kind, name=one[:9], width=width):
                            self.assertEqual((tab.says(wider), tab.faults), (0, []))
                            self.assertIs(tab.says("document.getElementById('at').checkVisibility()"), False)
