"""Refused calls as a tree: drawn by hand from some places."""

from __future__ import annotations

import unittest
from collections import Counter
from io import BytesIO, TextIOWrapper
from unittest import mock

from landaudit_record.audit.summary import Refusal, RefusingLayer, Summary
from landaudit_record.common import layout
from landaudit_record.common.layout import Branches
from landaudit_record.engine.answers import Closed, Missing, Objection
from landaudit_record.engine.subjects import Subject, at, on_port
from landaudit_record.summaries import tree_text
from landaudit_record.summaries.summary_text import Style


def refusal(call: str, subject: Subject, why: Objection, error: str = "EACCES") -> Refusal:
    """A kind of calls that the first layer of a policy refuses."""
    return Refusal(call, subject, error, (RefusingLayer(1, 1, (why,)),), None)


def reads(place: str) -> Refusal:
    return refusal("open r", at(place), Missing(("read_file",), place))


def drawn(*refusals: tuple[Refusal, int], width: int = 100, each: bool = False, ascii_only: bool = False) -> list[str]:
    """The tree of some kinds of calls, without the empty line before it."""
    found = Summary(5)
    found.refusals = {one: Counter({"/bin/x": times}) for one, times in refusals}
    branches = Branches.of(TextIOWrapper(BytesIO(), "ascii")) if ascii_only else Branches()
    return list(tree_text.lines(found, Style(False, width, branches), each))[1:]


PLACES = ((reads("/etc/passwd"), 2), (reads("/home/me/web/css/a"), 1), (reads("/home/me/web/css/b"), 3),
          (reads("/home/me/web/x"), 1))


class Trees(unittest.TestCase):
    def test_names_below_their_directories_and_directories_alone_joined(self) -> None:
        self.assertEqual(drawn(*PLACES), [
            "refused, by place (4 kinds)",
            "  all: error EACCES, layers policy's 1",
            "  times  place             call    why",
            "      7  /",
            "      2  ├── etc/",
            "      2  │   └── passwd    open r  read_file",
            "      5  └── home/me/web/",
            "      4      ├── css/",
            "      1      │   ├── a     open r  read_file",
            "      3      │   └── b     open r  read_file",
            "      1      └── x         open r  read_file",
        ])

    def test_what_all_places_are_in_is_said_once(self) -> None:
        self.assertEqual(drawn(*PLACES[1:3])[3:], [
            "      4  /home/me/web/css/",
            "      1  ├── a              open r  read_file",
            "      3  └── b              open r  read_file",
        ])

    def test_several_calls_at_one_place_a_move_and_a_port(self) -> None:
        writes = refusal("open w", at("/d/f"), Missing(("write_file",), "/d/f"))
        moves = refusal("rename", at("/d/g", "/e/g"), Missing(("refer",), "/e"), "EXDEV")
        connects = refusal("connect", on_port(443), Closed(("connect_tcp",), 443))
        self.assertEqual(drawn((reads("/d/f"), 1), (writes, 1), (moves, 1), (connects, 4))[1:], [
            "  times  place          call            error   layers      why",
            "      3  /d/",
            "      2  ├── f          open r, open w  EACCES  policy's 1  read_file, write_file",
            "      1  └── g -> /e/g  rename          EXDEV   policy's 1  refer",
            "      4  port 443       connect         EACCES  policy's 1  connect_tcp",
        ])

    def test_a_directory_with_calls_of_its_own_is_not_joined(self) -> None:
        lists = refusal("open r", at("/d"), Missing(("read_dir",), "/d"))
        self.assertEqual(drawn((lists, 1), (reads("/d/f"), 1))[3:], [
            "      2  /d/    open r  read_dir",
            "      1  └── f  open r  read_file",
        ])

    def test_directories_with_few_calls_are_closed(self) -> None:
        with mock.patch.object(tree_text, "MOST_ROWS", 5):
            self.assertEqual(drawn(*PLACES)[3:], [
                "      7  /",
                "      2  ├── etc/          1 place",
                "      5  └── home/me/web/",
                "      4      ├── css/      2 places",
                "      1      └── x         open r    read_file",
                "  --all opens all directories",
            ])
            self.assertEqual(drawn(*PLACES, each=True), drawn(*PLACES, each=True, width=99))
            self.assertEqual(len(drawn(*PLACES, each=True)), 11)

    def test_fewer_columns_where_there_is_little_room(self) -> None:
        heads = {width: next(line for line in drawn(*PLACES, width=width)[1:] if "  place" in line).split()
                 for width in (60, 40, 29, 20)}
        self.assertEqual(heads[60], ["times", "place", "call", "why"])
        self.assertEqual(heads[40], ["times", "place", "why"])
        self.assertEqual((heads[29], heads[20]), (["times", "place"], ["place"]))
        for width in range(20, 60):
            self.assertLessEqual(max(map(layout.wide, drawn(*PLACES, width=width))), width)

    def test_lines_that_a_stream_can_encode(self) -> None:
        self.assertEqual(drawn(*PLACES[1:3], ascii_only=True)[4:], [
            "      1  |-- a              open r  read_file",
            "      3  `-- b              open r  read_file",
        ])

    def test_names_of_strangers(self) -> None:
        lines = drawn((reads("/d/\x1b[31m\n└── x\u202e"), 1), (reads("/d/e"), 1))
        self.assertTrue(all(line.isprintable() for line in lines))
        self.assertEqual(len(lines), 6)

    def test_a_very_deep_path(self) -> None:
        """Names behind the 64th are one name, so one directory has both."""
        self.assertEqual(len(drawn((reads("/d" * 1000), 1), (reads("/d" * 1000 + "/e"), 1))[3:]), 3)
