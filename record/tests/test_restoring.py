"""What living processes are given once more: each record follows from docs/RECORDERS.md, "Parts of a recording"."""

from __future__ import annotations

import tempfile
import unittest
from pathlib import Path

from landaudit_record.audit import cutting
from landaudit_record.common import jsonl
from landaudit_record.common.jsonl import Record
from landaudit_record.common.restoring import FIRST_OF_CARRIERS, Living

from .recorded import write_lines

START: Record = {"op": "start", "pid": 10, "nnp": True, "admin": True}
FILE: Record = {"op": "open", "pid": 10, "path": "/a/f", "fd": 3, "mode": "w"}
RULESET: list[Record] = [
    {"op": "create", "pid": 10, "rs": 5, "fs": ["truncate"]},
    {"op": "add_path", "pid": 10, "rs": 5, "path": "/a", "fs": ["truncate"]},
]
CONFINED: list[Record] = [*RULESET, {"op": "restrict", "pid": 10, "rs": 5}, {"op": "close_rs", "pid": 10, "rs": 5}]
RUN: Record = {"op": "exec", "pid": 10, "path": "/bin", "kernel": "ok", "call": 7}


def again(*records: Record) -> list[Record]:
    """What is written again after some records, without the mark that all of it has."""
    living = Living()
    for record in records:
        living.follow_written(record)
    found = living.again()
    assert all(record["again"] is True for record in found)
    return [{name: value for name, value in record.items() if name != "again"} for record in found]


def ops(records: list[Record]) -> list[str]:
    return [record["op"] for record in records]


class Given(unittest.TestCase):
    def test_flags_and_what_was_not_run_yet(self) -> None:
        self.assertEqual(again(START), [{**START, "starting": True}])

    def test_what_was_closed_leaves_nothing(self) -> None:
        closed = {"op": "close", "pid": 10, "fd": 3}
        self.assertEqual(ops(again(START, FILE, closed, *RULESET, {"op": "close_rs", "pid": 10, "rs": 5})), ["start"])

    def test_who_has_ended_leaves_nothing(self) -> None:
        ended = [{"op": "fork", "pid": 10, "child": 11}, {"op": "exit", "pid": 10}]
        self.assertEqual(ops(again(START, FILE, *ended, {"op": "exit", "pid": 11})), [])

    def test_a_file_is_opened_between_the_same_layers(self) -> None:
        later = {**FILE, "fd": 4}
        found = again(START, FILE, *CONFINED, later)
        self.assertEqual(ops(found), ["start", "open", "create", "add_path", "restrict", "close_rs", "open"])
        self.assertEqual([record["fd"] for record in found if record["op"] == "open"], [3, 4])

    def test_a_layer_has_the_rules_that_it_had_then(self) -> None:
        held = [*RULESET, {"op": "restrict", "pid": 10, "rs": 5}, {**RULESET[1], "path": "/b"}]
        found = again(START, *held)
        rules = [record["path"] for record in found if record["op"] == "add_path"]
        self.assertEqual(rules, ["/a", "/b", "/a"])
        self.assertEqual([record["rs"] for record in found if record["op"] == "create"][0], 5)

    def test_programs_are_marked_where_they_were_run(self) -> None:
        found = again(START, FILE, RUN, {**FILE, "fd": 4}, {**RUN, "path": "/cc"})
        self.assertEqual([record.get("ran") for record in found], [
            None, [{"path": "/bin", "first": True}], [{"path": "/cc"}],
        ])
        self.assertNotIn("starting", found[0])

    def test_a_program_that_failed_and_the_loader_are_none(self) -> None:
        failed, loader = {**RUN, "kernel": "EACCES"}, {**RUN, "role": "interpreter"}
        self.assertEqual(again(START, failed, loader), [{**START, "starting": True}])

    def test_a_ruleset_that_two_hold_is_made_once_and_forked(self) -> None:
        found = again(START, *RULESET, {"op": "fork", "pid": 10, "child": 11})
        self.assertEqual(ops(found), ["start", "create", "add_path", "fork", "fork", "exit"])
        carrier = found[0]["pid"]
        self.assertGreaterEqual(carrier, FIRST_OF_CARRIERS)
        self.assertEqual({record["child"] for record in found if record["op"] == "fork"}, {10, 11})
        self.assertEqual({record["pid"] for record in found}, {carrier})

    def test_who_closed_it_closes_it_again(self) -> None:
        closed = {"op": "close_rs", "pid": 11, "rs": 5}
        found = again(START, *RULESET, {"op": "fork", "pid": 10, "child": 11}, closed, {**RUN, "pid": 11})
        self.assertEqual([record["pid"] for record in found if record["op"] == "close_rs"], [11])

    def test_a_duplicate_of_what_may_have_been_refused(self) -> None:
        """Where the file was not opened, the number stays what it was."""
        found = again(START, {"op": "adopt", "pid": 10, "fd": 1, "kind": "device"}, FILE,
                      {"op": "dup", "pid": 10, "fd": 3, "to": 1}, {"op": "close", "pid": 10, "fd": 3})
        self.assertEqual(ops(found), ["start", "open", "adopt", "dup", "close"])
        self.assertEqual((found[3]["fd"], found[3]["to"], found[4]["fd"]), (found[1]["fd"], 1, found[1]["fd"]))

    def test_a_number_that_was_open_already(self) -> None:
        """The second opening counts only where the first was not let through."""
        found = again(START, FILE, {**FILE, "path": "/b"})
        self.assertEqual(sorted(record["path"] for record in found if record["op"] == "open"), ["/a/f", "/b"])
        opened = {record["fd"]: record["path"] for record in found if record["op"] == "open"}
        self.assertEqual([opened[record["fd"]] for record in found if record["op"] == "dup"], ["/b", "/a/f"])


class Pieces(unittest.TestCase):
    TRACE = [{**START, "call": 1}, {**FILE, "call": 2}, {**RUN, "call": 3}, {**RUN, "role": "interpreter", "call": 3},
             {**FILE, "fd": 4, "call": 4}]

    def pieces(self, weights: dict[int, int], most: int) -> list[list[Record]]:
        with tempfile.TemporaryDirectory() as folder:
            trace = write_lines(Path(folder) / "trace.jsonl", self.TRACE)
            return [[record for _, record in jsonl.numbered(piece)]
                    for piece in cutting.cut(trace, Path(folder), weights, most)]

    def test_each_piece_has_a_file_of_its_own(self) -> None:
        """One may still be read when those of another part are written."""
        with tempfile.TemporaryDirectory() as folder:
            traces = [write_lines(Path(folder) / f"trace-{part}.jsonl", self.TRACE) for part in (1, 2)]
            pieces = [piece for trace in traces for piece in cutting.cut(trace, Path(folder), {3: 10}, 13)]
            self.assertEqual(len({*traces, *pieces}), 6)

    def test_one_piece_where_all_fits(self) -> None:
        self.assertEqual(self.pieces({}, 5), [self.TRACE])

    def test_a_piece_ends_between_calls_and_the_next_begins_with_what_there_is(self) -> None:
        first, second = self.pieces({3: 10}, 13)
        self.assertEqual(first + [record for record in second if "again" not in record], self.TRACE)
        self.assertEqual([record["op"] for record in second if "again" in record], ["start", "open"])
        self.assertEqual(second[1]["ran"], [{"path": "/bin", "first": True}])
