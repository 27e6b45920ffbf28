"""What a recording asks a policy: by traces and reports that are written here."""

from __future__ import annotations

import tempfile
import unittest
from collections.abc import Sequence
from pathlib import Path

from landaudit_record.common.jsonl import Record
from landaudit_record.common.problems import Problem
from landaudit_record.tighten.distilling import Distilling, LayeredCall, text

from .recorded import unexplained, write_lines, write_report

OF_POLICY: list[Record] = [
    {"op": "create", "rs": 1, "fs": ["read_file"], "net": [], "policy": {"layer": 1}},
    {"op": "restrict", "rs": 1, "policy": {"layer": 1}},
    {"op": "close_rs", "rs": 1, "policy": {"layer": 1}},
]
START: Record = {"op": "start"}
READ = ("open", "/f", "r", None, None)
WRITE = ("open", "/g", "w", None, None)


def opened(call: Sequence[object], fd: int) -> Record:
    """A record of an opening."""
    return {"op": "open", "path": call[1], "mode": call[2], "fd": fd}


class Distilled(unittest.TestCase):
    def asked(self, *records: Record, refused: Sequence[int] = ()) -> dict[LayeredCall, int]:
        """The questions of a trace, in which the records of some places, from 1, are refused and all others allowed."""
        lines = [{"pid": 10, **record} for record in records]
        with tempfile.TemporaryDirectory() as folder:
            trace = write_lines(Path(folder, "trace.jsonl"), lines)
            said = [unexplained("EACCES", 1) if at in refused else "allowed" for at in range(1, len(lines) + 1)]
            report = write_report(Path(folder, "report.jsonl"), lines, said)
            found = Distilling()
            found.follow(trace, report)
            return dict(found.questions)

    def test_calls_that_ask_the_same_are_one_question(self) -> None:
        found = self.asked(START, *OF_POLICY, opened(READ, 3), opened(READ, 4), {"op": "mount"})
        self.assertEqual(found, {LayeredCall((1,), (READ,)): 2, LayeredCall((1,), (("mount",),)): 1})

    def test_who_asks_and_by_which_number_makes_no_question(self) -> None:
        """Nor does the order of a record's members; a record counts as many calls as it stands for."""
        other = {**dict(reversed(opened(READ, 4).items())), "call": 9, "pid": 10}
        child: list[Record] = [{"op": "fork", "child": 11, "call": 3}, {"pid": 11, **opened(READ, 5), "call": 4}]
        often = {**opened(READ, 6), "stands_for": 5}
        found = self.asked(START, *OF_POLICY, {**opened(READ, 3), "call": 2}, *child, other, often)
        self.assertEqual(found, {LayeredCall((1,), (READ,)): 8})

    def test_a_report_on_another_trace(self) -> None:
        for other in ([{**START, "pid": 1}], [{**START, "pid": 10}] * 2):
            with self.subTest(other), tempfile.TemporaryDirectory() as folder:
                trace = write_lines(Path(folder, "trace.jsonl"), [{"op": "start", "pid": 10}, {"op": "exit", "pid": 10}])
                report = write_report(Path(folder, "report.jsonl"), other, ["allowed"] * len(other))
                with self.assertRaisesRegex(Problem, "is not a report on"):
                    Distilling().follow(trace, report)

    def test_before_the_policy_nothing_is_asked(self) -> None:
        self.assertEqual(self.asked(START, opened(WRITE, 3), *OF_POLICY, {"op": "ftruncate", "fd": 3}), {})

    def test_what_is_refused_asks_nothing_and_opens_nothing(self) -> None:
        used = {"op": "ftruncate", "fd": 3}
        self.assertEqual(self.asked(START, *OF_POLICY, opened(WRITE, 3), used, refused=(5, 6)), {})

    def test_a_descriptor_is_followed_to_what_opened_it(self) -> None:
        """By another number, in a child, and not by one that was opened again."""
        calls: list[Record] = [
            opened(WRITE, 3), {"op": "dup", "fd": 3, "to": 5}, {"op": "fork", "child": 11}, {"op": "close", "fd": 3},
            {"op": "adopt", "fd": 3, "kind": "reg"}, {"op": "ftruncate", "fd": 3},
            {"pid": 11, "op": "ftruncate", "fd": 3}, {"pid": 11, "op": "ftruncate", "fd": 5},
        ]
        used = LayeredCall((1,), (WRITE, ("ftruncate",)))
        self.assertEqual(self.asked(START, *OF_POLICY, *calls), {LayeredCall((1,), (WRITE,)): 1, used: 2})

    def test_a_descriptor_is_judged_by_the_layers_that_were_there_when_it_was_opened(self) -> None:
        own: list[Record] = [
            {"op": "create", "rs": 7, "fs": ["truncate"]},
            {"op": "add_path", "rs": 7, "path": "/g", "fs": ["truncate"]},
            {"op": "restrict", "rs": 7},
            {"op": "close_rs", "rs": 7},
        ]
        found = self.asked(START, *OF_POLICY, opened(WRITE, 3), *own, {"op": "ftruncate", "fd": 3}, opened(READ, 4))
        layer = (("create", ("truncate",), None), ("add_path", "/g", ("truncate",)))
        self.assertEqual(found, {LayeredCall((1,), (WRITE,)): 1, LayeredCall((1,), (WRITE, ("ftruncate",))): 1,
                                 LayeredCall((1, layer), (READ,)): 1})

    def test_what_a_part_begins_with_is_not_counted(self) -> None:
        found = self.asked(START, *OF_POLICY, {**opened(WRITE, 3), "again": True}, {"op": "ftruncate", "fd": 3})
        self.assertEqual(found, {LayeredCall((1,), (WRITE, ("ftruncate",))): 1})

    def test_what_a_question_is_about(self) -> None:
        calls = (("rename", "/a/f", "/b/g", None), ("connect", 80), ("mount",))
        about = [list(LayeredCall((1,), (call,)).about) for call in calls]
        self.assertEqual(about, [["/a/f", "/b/g"], [80], []])

    def test_a_call_as_a_line_has_it(self) -> None:
        self.assertEqual(text(WRITE, "fd", 9), '"op":"open","path":"/g","mode":"w","fd":9')
        created = '"op":"create","fs":["read_file"],"net":[],"rs":1'
        self.assertEqual(text(("create", ("read_file",), ()), "rs", 1), created)

    def test_a_policy_that_the_kernel_refuses(self) -> None:
        rule: Record = {"op": "add_path", "rs": 1, "path": "/f", "fs": ["read_dir"],
                        "policy": {"layer": 1, "rule": "path_beneath 2", "parent": "/f"}}
        with self.assertRaisesRegex(Problem, "layer 1, path_beneath 2, parent /f: the kernel refuses this rule"):
            self.asked(START, OF_POLICY[0], rule, refused=(3,))
        with self.assertRaisesRegex(Problem, "layer 1: the kernel refuses its restrict"):
            self.asked(START, *OF_POLICY, refused=(3,))
