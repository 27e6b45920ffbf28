"""docs/ASSURANCE.md lists everything that the check of landaudit rests on, as the check itself names it."""

from __future__ import annotations

import re
import unittest

from .places import BUILT, TOP

#: What the check of landaudit printed, which `make landaudit` keeps.
CHECK = BUILT.parent / "check.txt"
TRUSTED = (TOP / "docs" / "ASSURANCE.md").read_text(encoding="utf-8").split("## What is trusted", 1)[1]
#: Its items, each by its words in bold.
ITEMS: dict[str, str] = {
    bold: " ".join(text.split())
    for bold, text in re.findall(r"^- \*\*(.*?)\*\*((?:[^\n]|\n  )*)", TRUSTED, re.MULTILINE)
}
SPAN = re.compile(r"`([^`\n]+)`")
#: The crates of this repository.
OWN = set(re.findall(r"^(\w+):", (TOP / "crates.txt").read_text(encoding="utf-8"), re.MULTILINE))

#: Lines of such a check, cut short.
LINES = """\
statements rayon: modules loaded=0 checked=0
library ll_tree: modules loaded=106 checked=0
statements std: modules loaded=317 checked=0
axioms libc: libc::heap::rattle_alloc, libc::heap::rattle_dealloc, ... (6 of the 128 declared)
axioms os: os::c::__xpg_strerror_r, os::c::rattle_errno (2 of the 22 declared)
axioms std: none reached of the 2 declared
crate landaudit: modules loaded=364 checked=937
logic=proved functions=9 axioms=8 cpu=x86-64-v2 native=nat,char,string logic-built=trusted statements=trusted
"""


def libraries(check: str) -> set[str]:
    """The libraries of the toolchain that a check reads."""
    return set(re.findall(r"^(?:library|statements) (\w+): modules ", check, re.MULTILINE)) - OWN


def axioms(check: str) -> dict[str, int]:
    """How many axioms a check reaches of each library, where it reaches some."""
    reached = re.findall(r"^axioms (\w+): .*\((\d+) of the \d+ declared\)$", check, re.MULTILINE)
    return {library: int(count) for library, count in reached}


def taken(check: str) -> set[str]:
    """What a check takes as others left it."""
    return set(re.findall(r" ([\w-]+)=trusted\b", check.splitlines()[-1]))


def said(check: str, name: str) -> str:
    """What a check's last line says under a name."""
    value = re.search(rf" {name}=(\S+)", check.splitlines()[-1])
    assert value is not None
    return str(value[1])


def item(words: str) -> str:
    """The text of the item whose bold words these are."""
    return next(text for bold, text in ITEMS.items() if words in bold)


class Words(unittest.TestCase):
    """What a check says is read from its lines."""

    def test_of_a_check(self) -> None:
        self.assertEqual(libraries(LINES), {"rayon", "std"})
        self.assertEqual(axioms(LINES), {"libc": 6, "os": 2})
        self.assertEqual(said(LINES, "axioms"), "8")
        self.assertEqual(taken(LINES), {"logic-built", "statements"})


class Assurance(unittest.TestCase):
    def listed(self) -> set[str]:
        return set(SPAN.findall(item("libraries of the toolchain")))

    def test_libraries_that_crates_name(self) -> None:
        """What the crates below landaudit stand on is listed, also before a check."""
        lines = (TOP / "crates.txt").read_text(encoding="utf-8").splitlines()
        stands = {name: below.split() for name, below in (line.split(":") for line in lines if not line.startswith("#"))}
        below, todo = set[str](), ["landaudit"]
        while todo:
            name = todo.pop()
            below.add(name)
            todo += [other for other in stands.get(name, []) if other not in below]
        self.assertLessEqual(below - OWN, self.listed())

    @unittest.skipUnless(CHECK.exists(), f"{CHECK} is not there: make landaudit keeps it")
    def test_the_check(self) -> None:
        check = CHECK.read_text(encoding="utf-8")
        self.assertIn("crate landaudit: ", check)
        self.assertEqual(self.listed(), libraries(check))
        counted = axioms(check)
        told = {library: int(count) for count, library in re.findall(r"(\d+) of [^()]*\(`(\w+)`\)", item("axioms"))}
        self.assertEqual(told, counted)
        self.assertEqual(str(sum(counted.values())), said(check, "axioms"))
        self.assertIn(f"{said(check, 'axioms')} axioms", ITEMS)
        self.assertIn(said(check, "cpu"), item("machine"))
        self.assertLessEqual(taken(check), set(SPAN.findall(item("The toolchain"))))
