"""Formats of binfmt_misc: files that the kernel runs with an interpreter because of their first bytes or their names.

Each registered format is a file in the binfmt_misc file system, which has what the kernel knows of the format
(Documentation/admin-guide/binfmt-misc.rst in the kernel's source).
"""

from __future__ import annotations

from collections.abc import Sequence
from dataclasses import dataclass
from pathlib import Path
from typing import Any

REGISTERED = Path("/proc/sys/fs/binfmt_misc")
#: The files there that are no formats.
_CONTROLS = ("register", "status")
#: The kernel looks at this many bytes of a file (BINPRM_BUF_SIZE).
HEAD = 256


@dataclass(frozen=True)
class Format:
    """A format: its interpreter, and the extension or the bytes at a place of a file by which it is known.

    Of the bytes only the bits of the mask count. `opened` says that the interpreter was opened when the format was
    registered (flag F): then Landlock is not asked about it when a file is run.
    """

    name: str
    interpreter: str
    opened: bool = False
    extension: str | None = None
    offset: int = 0
    magic: str = ""
    mask: str = ""

    def is_of(self, called: str, head: bytes) -> bool:
        """Whether a file is of this format, by what it was called and how it begins."""
        if self.extension is not None:
            return _extension(called) == self.extension
        magic = bytes.fromhex(self.magic)
        mask = bytes.fromhex(self.mask) or b"\xff" * len(magic)
        there = head[self.offset : self.offset + len(magic)].ljust(len(magic), b"\0")
        return all((one ^ other) & bits == 0 for one, other, bits in zip(there, magic, mask))


def _extension(called: str) -> str | None:
    """What is behind the last dot of a path, as the kernel takes it."""
    _, dot, extension = called.rpartition(".")
    return extension if dot else None


def registered(folder: Path = REGISTERED) -> list[dict[str, Any]] | None:
    """The formats of this machine in the order in which the kernel tries them; None where they can't be read."""
    try:
        if (folder / "status").read_text(encoding="ascii").strip() != "enabled":
            return []
        files = [file for file in folder.iterdir() if file.name not in _CONTROLS]
        found = [_told(file.name, file.read_text(encoding="utf-8")) for file in files]
    except (OSError, UnicodeDecodeError):
        return None
    return [told for told in found if told is not None]


def _told(name: str, text: str) -> dict[str, Any] | None:
    """The format that a file describes; None if the format is disabled."""
    lines = text.splitlines()
    words = dict(line.split(" ", 1) for line in lines if " " in line)
    if lines[:1] != ["enabled"]:
        return None
    told: dict[str, Any] = {"name": name, "interpreter": words["interpreter"], "opened": "F" in words.get("flags:", "")}
    if "extension" in words:
        return told | {"extension": words["extension"].removeprefix(".")}
    return told | {"offset": int(words["offset"]), "magic": words["magic"], "mask": words.get("mask", "")}


def first_of(formats: Sequence[Format], called: str, head: bytes) -> Format | None:
    """The first format that matches a file, which the kernel uses."""
    return next((one for one in formats if one.is_of(called, head)), None)
