"""Logs that a test writes line by line, converted over a small listed disk."""

from __future__ import annotations

import tempfile
import unittest
from dataclasses import replace
from pathlib import Path
from typing import Any

from landaudit_record.common import jsonl
from landaudit_record.common.finished import Converted
from landaudit_record.recorder import converting, recordings
from landaudit_record.recorder.ports import Ports

CWD = "-100 /* AT_FDCWD */</w>"
FIRST = '10  execve("/w/p", ["p"], 0x1 /* 2 vars */) = 0'
THREAD = "clone3({flags=0x3d0f00 /* CLONE_VM|CLONE_FS|CLONE_FILES|CLONE_SIGHAND|CLONE_THREAD */, exit_signal=0}, 88)"
CONFINED = (
    "landlock_create_ruleset({handled_access_fs=0x1}, 8, 0) = 9<anon_inode:[landlock-ruleset]>",
    "landlock_restrict_self(9<anon_inode:[landlock-ruleset]>, 0) = 0",
)
DISK: list[jsonl.Record] = [
    {"path": "/w", "kind": "dir"},
    {"path": "/w/d", "kind": "dir"},
    {"path": "/w/f", "kind": "reg"},
    {"path": "/w/g", "kind": "reg"},
    {"path": "/w/p", "kind": "reg", "runs": True},
    {"path": "/bin", "kind": "dir"},
    {"path": "/bin/sh", "kind": "reg", "runs": True, "interpreter": "/w/loader"},
    {"path": "/w/loader", "kind": "reg", "runs": True},
]


class WrittenLogs(unittest.TestCase):
    """A test on lines; a line without a thread's number is of the first process, 10.

    `readlink` says whether the recording was made with readlink(2), `hidepid` whether /proc has this option, which does
    not concern `hidepid_group`; `euid` is the user of the command; `formats` are those that binfmt_misc had,
    `descriptors` those that the command was given, `mounts` those of its namespace.
    """

    readlink = True
    hidepid = False
    hidepid_group: int | None = None
    euid: int | None = None
    formats: list[dict[str, Any]] | None = None
    disk = DISK
    descriptors: dict[str, dict[str, Any]] = {}
    mounts: list[list[str]] = []

    def setUp(self) -> None:
        self.out = Path(self.enterContext(tempfile.TemporaryDirectory()))

    def convert(self, *lines: str) -> list[jsonl.Record]:
        """The records that lines become, without those of the start and of the first program."""
        self.conversion(*lines)
        return [record for _, record in jsonl.numbered(self.out / "trace.jsonl") if record["call"] > 1]

    def confined(self, *lines: str) -> list[jsonl.Record]:
        """The records that lines become in a process that has put a layer on itself."""
        return [record for record in self.convert(*CONFINED, *lines) if record["call"] > 1 + len(CONFINED)]

    def conversion(self, *lines: str) -> Converted:
        """What the conversion of lines says of itself."""
        about = recordings.About(["p"], "/w", 0.0, False, True, self.descriptors, looks=True, readlink=self.readlink)
        about = replace(about, hidepid=self.hidepid, hidepid_group=self.hidepid_group, euid=self.euid)
        replace(about, formats=self.formats, mounts=self.mounts).write(self.out)
        jsonl.write(self.out / recordings.OBJECTS, self.disk)
        whole = [FIRST, *(line if line[:1].isdigit() else f"10  {line}" for line in lines)]
        (self.out / "strace.txt").write_text("".join(line + "\n" for line in whole), encoding="ascii")
        return converting.convert(self.out, self.ports())

    def ports(self) -> Ports:
        """What a policy says about ports."""
        return Ports()

    def unsaid(self) -> list[tuple[str, bool]]:
        """The classes of what was not said, each with whether the kernel may refuse it."""
        lines = jsonl.numbered(self.out / "unsaid.jsonl")
        return [(line["class"], line.get("asks", False)) for _, line in lines]

    def assert_hole(self, reason: str, *lines: str) -> None:
        """Lines become no record, and a call that the kernel may refuse."""
        self.assertEqual(self.convert(*lines), [])
        self.assertEqual(self.unsaid(), [(reason, True)])


def told(trace: list[jsonl.Record], *members: str) -> list[tuple[object, ...]]:
    """Some members of each record."""
    return [tuple(record.get(member) for member in members) for record in trace]
