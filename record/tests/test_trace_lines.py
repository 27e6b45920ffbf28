"""The lines of a trace, by docs/FORMATS.md: each is one JSON object, and blank lines are skipped."""

from __future__ import annotations

import json
import tempfile
import unittest
from pathlib import Path
from typing import Any

from landaudit_record.common import trace_lines
from landaudit_record.common.operations import OPERATIONS
from landaudit_record.common.trace_lines import HEAD, body, closing, head, heads, line_of, opening, text_of, told, written


def whole(op: str, kernel: str | None = None, **members: Any) -> Any:
    """A written record as any reader has it."""
    return json.loads(written(op, 10, members, 7, kernel))


class Written(unittest.TestCase):
    def test_a_record(self) -> None:
        members = {"path": '/a"\n', "fd": 3, "mode": "r", "create": True, "trunc": False, "shown": None}
        self.assertEqual(whole("open", "EACCES", **members),
                         {"op": "open", "pid": 10, "path": '/a"\n', "fd": 3, "mode": "r", "create": True, "call": 7,
                          "kernel": "EACCES"})
        self.assertEqual(whole("create", rs=0, fs=["execute"]), {"op": "create", "pid": 10, "rs": 0, "fs": ["execute"],
                                                                 "call": 7})

    def test_an_ioctl_says_always_whose_command_it_is(self) -> None:
        for driver in (True, False):
            self.assertIs(whole("ioctl", fd=3, driver=driver)["driver"], driver)

    def test_a_close_is_written_as_any_record(self) -> None:
        self.assertEqual(closing(10, 3, 7), written("close", 10, {"fd": 3}, 7, None))

    def test_an_open_that_is_written_by_its_text_is_written_as_any_other(self) -> None:
        members = {"path": '/a"', "fd": 3, "mode": "r", "create": None, "trunc": True, "shown": "/b"}
        self.assertEqual(opening(10, text_of(members), 7), written("open", 10, members, 7, "ok"))

    def test_a_record_begins_with_its_operation_or_says_that_it_is_in_doubt(self) -> None:
        for op in OPERATIONS:
            line = written(op, 10, {"driver": True}, 7, None).encode()
            self.assertEqual(line[:HEAD], head(op))
            doubtful = written(op, 10, {"driver": True, "unknown": "kind", "otherwise": True}, 7, None).encode()
            self.assertTrue(doubtful.startswith(b'{"unknown":"kind","otherwise":true,"op":"%b"' % op.encode()))
            self.assertEqual(json.loads(doubtful), {**json.loads(line), "unknown": "kind", "otherwise": True})

    def test_a_beginning_tells_the_operation(self) -> None:
        self.assertEqual(len(heads(OPERATIONS)), len(OPERATIONS))

    def test_a_question(self) -> None:
        asked = line_of(10, body("rename", **{"from": "/é", "to": '/"', "exchange": True, "fs": ("a",)}))
        self.assertEqual(json.loads(asked),
                         {"pid": 10, "op": "rename", "from": "/é", "to": '/"', "exchange": True, "fs": ["a"]})


class Told(unittest.TestCase):
    def test_what_is_read(self) -> None:
        """Lines of some operations, with a mark, or written by others; no blank lines."""
        lines = ['{"op":"exit","pid":1}', '{"op":"nnp","pid":1}', "", " \t\r", '{"op":"mount","pid":1,"again":true}',
                 '{"pid":1,"op":"nnp"}', '{ "op": "mkdir"}', '{"op":"mkdir","pid":1}']
        with tempfile.TemporaryDirectory() as folder:
            trace = Path(folder, "trace.jsonl")
            trace.write_text("\n".join(lines))
            found = [number for number, _ in told(trace, heads({"exit"}), trace_lines.AGAIN)]
        self.assertEqual(found, [1, 5, 6, 7])
