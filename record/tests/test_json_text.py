"""JSON on several lines, as Python's own `json` writes it."""

from __future__ import annotations

import json
import unittest
from unittest import mock

from landaudit_record.common import json_text
from landaudit_record.common.json_text import Made, indented, pieces

VALUES: list[object] = [
    None, True, False, 0, -3, 1.5, "", 'a "name"\n\\ é \U0001f512 \ud800', [], {}, (), [[]], [{}], {"a": []}, {"a": {}},
    {"a": None, "b": [1, "x", {"c": (2, [3])}], 'd"': {"e": {"f": True}}}, [[1], [2, [3]], {"a": [{"b": 4}, {}]}],
]


class Indented(unittest.TestCase):
    def test_is_as_json_writes_it(self) -> None:
        for value in VALUES:
            self.assertEqual(indented(value), json.dumps(value, indent=2))
            for deep in range(4):
                self.assertEqual("".join(pieces(value, deep=deep)), json.dumps(value, indent=2), deep)

    def test_each_value_of_a_list_is_a_piece(self) -> None:
        self.assertIn('{\n      "b": 1\n    }', list(pieces({"a": [{"b": 1}, 2]})))


class MadeWhenWritten(unittest.TestCase):
    """A list of values that are made when they are written, by one process or by several."""

    def test_is_as_json_writes_the_values(self) -> None:
        for many in (0, 1, 4, 5):
            value = {"a": Made(lambda number: {"n": number, "to": [number]}, range(many)), "b": [1]}
            expected = json.dumps({"a": [{"n": number, "to": [number]} for number in range(many)], "b": [1]}, indent=2)
            self.assertEqual(indented(value), expected)
            for most in (1, 3):
                with mock.patch.object(json_text, "AT_ONCE", 2):
                    self.assertEqual("".join(pieces(value, most=most)), expected, (many, most))

    def test_what_fails_in_another_process_fails_here(self) -> None:
        with mock.patch.object(json_text, "AT_ONCE", 1), self.assertRaises(ZeroDivisionError):
            "".join(pieces([Made(lambda number: 1 // number, range(2))], most=2))
