"""Whiteouts, as a kernel guards them that has mended erratum 4 of Landlock and one that has not.

What Linux 6.18 without that asks was tried on it; what it asks with it is in its source (security/landlock/fs.c and
errata/abi-1.h of Debian's linux-source-6.1, 6.1.192-2).
"""

from __future__ import annotations

from typing import Any

from .kept_logs import bare
from .strace_lines import CWD, StraceLines

MAKE = 'mknodat(-100 /* AT_FDCWD */</w>, "wh", 020666 /* S_IFCHR|0666 */, 0 /* makedev(0, 0) */) = 0'
LEAVE = f'renameat2({CWD}, "f", {CWD}, "e/g", 0x4 /* RENAME_WHITEOUT */) = 0'


class CharacterDevices(StraceLines):
    watched = True

    def records(self, *calls: str) -> list[dict[str, Any]]:
        return [bare(record) for record in self.convert(*calls)]

    def test_a_whiteout_that_is_made(self) -> None:
        self.assertEqual(self.records(MAKE), [{"op": "mknod", "path": "/w/wh~new~", "kind": "char"}])

    def test_a_rename_that_leaves_one(self) -> None:
        moved, removed = self.records(LEAVE, 'unlink("f") = 0')
        self.assertEqual(moved, {"op": "rename", "from": "/w/f", "to": "/w/e/g~new~"})
        self.assertEqual((removed["path"], self.tree()["/w/f~2~"]), ("/w/f~2~", "char"))

    def test_another_character_device(self) -> None:
        (made,) = self.records('mknod("null", 020666 /* S_IFCHR|0666 */, 0x103 /* makedev(0x1, 0x3) */) = 0')
        self.assertEqual(made["kind"], "char")


class Files(CharacterDevices):
    errata = 0b1111

    def test_a_whiteout_that_is_made(self) -> None:
        self.assertEqual(self.records(MAKE), [{"op": "mknod", "path": "/w/wh~new~", "kind": "reg"}])

    def test_a_rename_that_leaves_one(self) -> None:
        left, moved, removed = self.records(LEAVE, 'unlink("f") = 0')
        self.assertEqual(left, {"op": "mknod", "path": "/w/f~new~", "kind": "reg"})
        self.assertEqual(moved, {"op": "rename", "from": "/w/f", "to": "/w/e/g~new~"})
        self.assertEqual((removed["path"], self.tree()["/w/f~2~"]), ("/w/f~2~", "reg"))
