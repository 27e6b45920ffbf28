"""Values as they are in a line of JSON."""

from __future__ import annotations

import json
import tempfile
import unittest
from pathlib import Path

from landaudit_record.common import jsonl


class Values(unittest.TestCase):
    def test_texts(self) -> None:
        self.assertEqual(jsonl.value('a"b\\c\n'), r'"a\"b\\c\n"')
        self.assertEqual(jsonl.value("é"), '"é"')

    def test_flags_and_numbers(self) -> None:
        told = [jsonl.value(of) for of in (1, True, 0, False, -2)]
        self.assertEqual(told, ["1", "true", "0", "false", "-2"])

    def test_lists(self) -> None:
        self.assertEqual(jsonl.value(["read", "b c"]), '["read","b c"]')


class Lines(unittest.TestCase):
    def test_a_record_is_what_json_says_of_it(self) -> None:
        record = {"path": '/é"\\\n', "new": None, "runs": True, "again": False, "fd": 3, "ran": [{"first": 0.5}]}
        for one in (record, {}, {'a"': "b"}):
            said = json.dumps(one, ensure_ascii=False, separators=(",", ":"))
            self.assertEqual(jsonl.line(one), said + "\n")


class Files(unittest.TestCase):
    def test_a_name_that_is_not_utf_8_is_read_back(self) -> None:
        records = [{"path": "/é"}, {"path": "/bad\udcff"}]
        with tempfile.TemporaryDirectory() as folder:
            file = Path(folder) / "names.jsonl"
            self.assertEqual(jsonl.write(file, records), 2)
            self.assertEqual(file.read_bytes(), '{"path":"/é"}\n{"path":"/bad\\udcff"}\n'.encode())
            self.assertEqual([record for _, record in jsonl.numbered(file)], records)
