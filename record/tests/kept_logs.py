"""Kept logs of small programs, converted in a folder of their own, for tests."""

from __future__ import annotations

import shutil
import tempfile
import unittest
from pathlib import Path
from typing import Any

from landaudit_record.commands.record import convert
from landaudit_record.common import jsonl
from landaudit_record.policy import policies
from landaudit_record.recorder import converting

LOGS = Path(__file__).parent / "logs"
WORK = "/tmp/story/w"
LOADER = "/usr/lib/x86_64-linux-gnu/ld-linux-x86-64.so.2"
#: What a trace needs beside the members that landaudit reads, which most tests are not about.
BESIDE = ("pid", "call", "kernel", "shown", "shown_to", "role")


class KeptLogs(unittest.TestCase):
    """A test on kept logs."""

    def setUp(self) -> None:
        self._folder = self.enterContext(tempfile.TemporaryDirectory())

    def convert(self, name: str) -> list[jsonl.Record]:
        """The trace of a kept log."""
        folder = self.folder(name)
        converting.convert(folder, convert.ports_of(policies.read(LOGS / "ports.toml")))
        return self.lines(folder, "trace.jsonl")

    def folder(self, name: str) -> Path:
        """A copy of a kept recording."""
        return Path(shutil.copytree(LOGS / name, Path(self._folder) / name, dirs_exist_ok=True))

    def lines(self, folder: Path, name: str) -> list[jsonl.Record]:
        """A file of a recording."""
        return [line for _, line in jsonl.numbered(folder / name)]

    def unsaid(self, name: str) -> list[str]:
        """The classes of what could not be said of a kept log, in their order."""
        return [line["class"] for line in self.lines(Path(self._folder) / name, "unsaid.jsonl")]

    def tree(self, name: str) -> dict[str, str]:
        """The kinds of the objects of a converted log."""
        return {line["path"]: line["kind"] for line in self.lines(Path(self._folder) / name, "tree.jsonl")}


def bare(record: jsonl.Record) -> dict[str, Any]:
    """A record as landaudit reads it, without its process."""
    return {name: value for name, value in record.items() if name not in BESIDE}


def ops(trace: list[jsonl.Record], *names: str) -> list[jsonl.Record]:
    """The records of some operations."""
    return [record for record in trace if record["op"] in names]
