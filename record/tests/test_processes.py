"""What a person is shown of a record."""

from __future__ import annotations

import unittest

from landaudit_record.engine.processes import shown_path


class ShownPaths(unittest.TestCase):
    def test_an_object_and_the_directory_over_it(self) -> None:
        record = {"op": "open", "path": "/d~2~/f", "shown": "/d/f"}
        self.assertEqual(shown_path(record, "/d~2~/f"), "/d/f")
        self.assertEqual(shown_path(record, "/d~2~"), "/d")

    def test_a_number_is_no_path(self) -> None:
        self.assertEqual(shown_path({"op": "dup", "fd": 3, "to": 4}, "/d"), "/d")
