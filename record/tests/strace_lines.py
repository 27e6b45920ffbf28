"""Lines of strace written in a test, converted over a small listed disk."""

from __future__ import annotations

import tempfile
import unittest
from pathlib import Path
from typing import Any

from landaudit_record.common import jsonl
from landaudit_record.recorder import converting, recordings
from landaudit_record.recorder.ports import Ports

from .kept_logs import bare

#: After it an error of the kernel may be Landlock's.
CONFINED = "landlock_restrict_self(9, 0) = 0"
CWD = "-100 /* AT_FDCWD */</w>"
DISK: list[jsonl.Record] = [
    {"path": "/w", "kind": "dir"},
    {"path": "/w/d", "kind": "dir"},
    {"path": "/w/d/in", "kind": "reg"},
    {"path": "/w/e", "kind": "dir"},
    {"path": "/w/closed", "kind": "dir", "mode": [0o700, 0, 0]},
    {"path": "/w/f", "kind": "reg"},
    {"path": "/w/p", "kind": "reg", "runs": True},
    {"path": "/w/text", "kind": "reg", "mode": [0o644, 0, 0]},
    {"path": "/w/to-d", "kind": "sym", "target": "d"},
    {"path": "/w/loop", "kind": "sym", "target": "loop"},
    {"path": "/w/secret", "kind": "reg", "mode": [0o600, 0, 0]},
    {"path": "/w/ours", "kind": "reg", "mode": [0o640, 0, 27]},
    {"path": "/w/theirs", "kind": "reg", "mode": [0o600, 7, 7]},
    {"path": "/w/hard-1", "kind": "reg", "inode": "1:7"},
    {"path": "/w/hard-2", "kind": "reg", "inode": "1:7"},
    {"path": "/proc", "kind": "dir"},
    {"path": "/proc/self/fd", "kind": "dir"},
    {"path": "/proc/self/fdinfo", "kind": "dir"},
    {"path": "/proc/self/fdinfo/0", "kind": "reg"},
    {"path": "/proc/self/task", "kind": "dir"},
    *({"path": f"/proc/self/{name}", "kind": "reg"} for name in ("environ", "maps", "mem")),
]


class StraceLines(unittest.TestCase):
    """A test on lines of strace. `/w` is the working directory; it is listed before the run where `watched` says so."""

    watched = False
    errata = 0
    uid: int | None = None
    euid: int | None = None
    mounts: list[list[str]] = []
    protected_hardlinks = False
    under_layer = False
    keeps_privileges = False

    def setUp(self) -> None:
        self.out = Path(self.enterContext(tempfile.TemporaryDirectory()))

    def convert(self, *calls: str) -> list[jsonl.Record]:
        """The records that calls become, without those of the start and of the first program."""
        about = recordings.About(["p"], "/w", 0.0, False, True, {}, errata=self.errata, uid=self.uid, euid=self.euid,
                                 mounts=self.mounts, protected_hardlinks=self.protected_hardlinks,
                                 confined=self.under_layer, keeps_privileges=self.keeps_privileges)
        if self.watched:
            about.watched.append("/w")
            jsonl.write(self.out / recordings.BEFORE, [line for line in DISK if line["path"].startswith("/w/")])
        about.write(self.out)
        jsonl.write(self.out / recordings.OBJECTS, DISK)
        lines = ['10  execve("/w/p", ["p"], 0x1 /* 2 vars */) = 0', *(f"10  {call}" for call in calls)]
        (self.out / "strace.txt").write_text("".join(line + "\n" for line in lines), encoding="ascii")
        converting.convert(self.out, Ports())
        return [record for _, record in jsonl.numbered(self.out / "trace.jsonl") if record["call"] > 1]

    def one(self, *calls: str) -> dict[str, Any]:
        """The first record that calls become, as landaudit reads it."""
        return bare(self.convert(*calls)[0])

    def unsaid(self) -> list[str]:
        """The classes of what could not be said, in their order."""
        return [line["class"] for _, line in jsonl.numbered(self.out / "unsaid.jsonl")]

    def tree(self) -> dict[str, str]:
        """The kinds of what is listed."""
        return {path: line["kind"] for path, line in self.listed().items()}

    def listed(self) -> dict[str, dict[str, Any]]:
        """What the tree says of each path, without the path."""
        lines = (line for _, line in jsonl.numbered(self.out / "tree.jsonl"))
        return {line["path"]: {key: value for key, value in line.items() if key != "path"} for line in lines}
