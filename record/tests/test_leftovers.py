"""Files that a run makes by opening them to be cut, and leaves to the next run."""

from __future__ import annotations

import json
import tempfile
import unittest
from pathlib import Path

from landaudit_record.audit import leftovers
from landaudit_record.common.jsonl import Record

from .recorded import records, write_lines


def made(real: str, **members: object) -> Record:
    """An open that makes a file in /w and cuts it."""
    name = {"path": "/w/~new~", "shown": real, "create": True, "trunc": True}
    return {"op": "open", "fd": 3, "mode": "w", "kernel": "ok", **name, **members}


class Left(unittest.TestCase):
    def left(self, *calls: Record) -> set[str]:
        with tempfile.TemporaryDirectory() as folder:
            return leftovers.cut_files([write_lines(Path(folder, "trace.jsonl"), records(*calls))])

    def test_what_is_made_and_cut(self) -> None:
        self.assertEqual(self.left(made("/w/a"), made("/w/b", trunc=False), made("/w/c", create=False)), {"/w/a"})

    def test_what_could_not_be_made(self) -> None:
        self.assertEqual(self.left(made("/w/a", kernel="EACCES")), set())

    def test_what_is_removed_or_moved_away(self) -> None:
        unlink: Record = {"op": "unlink", "path": "/w/a", "kernel": "ok"}
        rename: Record = {"op": "rename", "from": "/w/b", "to": "/w/~new~", "shown_to": "/w/z", "kernel": "ok"}
        self.assertEqual(self.left(made("/w/a"), made("/w/b"), unlink, rename), set())
        self.assertEqual(self.left(made("/w/a"), unlink, made("/w/a")), {"/w/a"})

    def test_what_something_else_takes_the_place_of(self) -> None:
        rename: Record = {"op": "rename", "from": "/w/t", "to": "/w/a", "kernel": "ok"}
        self.assertEqual(self.left(made("/w/a"), made("/w/t", trunc=False), rename), set())

    def test_what_is_in_a_folder_that_moves(self) -> None:
        move: Record = {"op": "rename", "from": "/w/d", "to": "/w/e", "kernel": "ok"}
        self.assertEqual(self.left(made("/w/d/a"), made("/w/da"), move), {"/w/da"})

    def test_records_that_are_written_again_are_none(self) -> None:
        self.assertEqual(self.left(made("/w/a", again=True), made("/w/b")), {"/w/b"})

    def test_lines_as_landaudit_record_writes_them(self) -> None:
        lines = [made("/w/a"), made("/w/b"), {"op": "unlink", "path": "/w/b", "kernel": "ok"}, {"op": "exit"}]
        with tempfile.TemporaryDirectory() as folder:
            trace = Path(folder, "trace.jsonl")
            compact = (json.dumps({**line, "pid": 1}, separators=(",", ":")) for line in lines)
            trace.write_text("\n".join(compact) + "\n\n")
            self.assertEqual(leftovers.cut_files([trace]), {"/w/a"})
