"""Reads the arguments of a call, which strace writes with numbers beside their names."""

from __future__ import annotations

import re
from dataclasses import dataclass, field
from functools import lru_cache

from .unwritten import CannotSay, NotUnderstood

_ESCAPE = re.compile(rb"\\(x[0-9a-f]{2}|[0-7]{1,3}|.)", re.DOTALL)
_LETTERS = {b"n": b"\n", b"t": b"\t", b"r": b"\r", b"v": b"\v", b"f": b"\f"}
_COMMENT = re.compile(r"\s*/\*.*?\*/")
#: Programs repeat themselves: the values of this many different arguments are kept.
KEPT = 16_384

_OUR_PID = re.compile(r"/\* (\d+) in strace's PID NS \*/")
_NUMBER = re.compile(r"\s*(-?0x[0-9a-f]+|-?\d+)")
_DESCRIPTOR = re.compile(r"(-?\d+)(?: /\*[^*]*\*/)?(?:<([^<>]*+(?:<[^<>]*+>[^<>]*+)*+)>(\(deleted\))?)?")
_DEVICE = re.compile(r"<(char|block) \d+:\d+>$")


@dataclass(slots=True)
class Descriptor:
    """A descriptor's number, and what strace says about it: a path, or a name such as `pipe:[1]`, and a device's kind.

    `path` is the path behind it, if it has one; `in_memory` says that strace shows a path for a file that has none
    (memfd_create(2)).
    """

    number: int
    behind: str | None
    device: str | None = None
    deleted: bool = False
    path: str | None = field(init=False)
    in_memory: bool = field(init=False)

    def __post_init__(self) -> None:
        self.path = self.behind if self.behind is not None and self.behind.startswith("/") else None
        self.in_memory = self.path is not None and is_in_memory(self.path)


def is_in_memory(path: str) -> bool:
    """Whether strace shows a path for a file that has none; the kernel allows opening it whatever the policy is."""
    return path.startswith("/memfd:")


def _unescaped(match: re.Match[bytes]) -> bytes:
    code = match[1]
    try:
        if code[:1] == b"x":
            return bytes([int(code[1:], 16)])
        if code[:1].isdigit():
            return bytes([int(code, 8) & 0xFF])
    except ValueError:
        raise NotUnderstood from None
    return _LETTERS.get(code, code)


def unescaped(text: str) -> str:
    """The name that an escaped text stands for; a byte that is not UTF-8 becomes a lone surrogate."""
    if "\\" not in text:
        return text
    return _bytes(text).decode("utf-8", "surrogateescape")


def _bytes(text: str) -> bytes:
    return _ESCAPE.sub(_unescaped, text.encode("latin-1"))


def raw(argument: str) -> bytes | None:
    """The bytes of a text in quotes; None if there is none."""
    quoted = len(argument) >= 2 and argument[0] == '"' and argument.endswith('"')
    return _bytes(argument[1:-1]) if quoted else None


@lru_cache(KEPT)
def text(argument: str) -> str | None:
    """A text in quotes; None if the call was given no text that could be read."""
    if len(argument) < 2 or argument[0] != '"' or not argument.endswith('"'):
        return None
    return unescaped(argument[1:-1])


def written(digits: str) -> int:
    """A number as C writes it: octal if it begins with 0."""
    try:
        return int(digits, 8) if digits.startswith("0") and digits.isdigit() else int(digits, 0)
    except ValueError:
        raise NotUnderstood from None


@lru_cache(KEPT)
def number(argument: str) -> int:
    """A number, or several joined by `|`, with names in comments beside them; NULL is 0."""
    total = 0
    for part in _COMMENT.sub("", argument).split("|"):
        digits = _NUMBER.match(part)
        if digits is None:
            if part.strip() != "NULL":
                raise NotUnderstood
            continue
        total |= written(digits[1])
    return total


def pid(argument: str) -> int:
    """The number by which the log names a process; the process that names it may know another number."""
    ours = _OUR_PID.search(argument)
    return int(ours[1]) if ours else number(argument)


@lru_cache(KEPT)
def descriptor(argument: str) -> Descriptor:
    """A descriptor with what it is open on."""
    match = _DESCRIPTOR.match(argument)
    if match is None:
        raise CannotSay("a descriptor that is not understood")
    behind, device = match[2], None
    if behind is not None:
        if behind[-1:] == ">" and (kind := _DEVICE.search(behind)):
            device, behind = kind[1], behind[: kind.start()]
        behind = unescaped(behind)
    return Descriptor(int(match[1]), behind, device, match[3] is not None)


def member(argument: str, name: str) -> str | None:
    """A member of a structure, as it is written there."""
    match = re.search(rf"[{{ ]{name}=", argument)
    if match is None:
        return None
    rest = argument[match.end() :]
    end = re.search(r"(?:, \w+=|\}|, \.\.\.)", _without_texts(rest))
    return rest[: end.start()] if end else rest


def _without_texts(argument: str) -> str:
    return re.sub(r'"(?:[^"\\]|\\.)*"', lambda text: "_" * len(text[0]), argument)
