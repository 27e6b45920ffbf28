"""The lines of a trace: how they are written, and what their first bytes and their members tell without decoding them.

A line begins with its operation if landaudit-record writes it, but for a record that may be another one.
"""

from __future__ import annotations

import re
from collections.abc import Iterable, Iterator, Mapping
from pathlib import Path
from typing import Any

from . import jsonl
from .operations import OPERATIONS

#: The first number of the descriptors that a recorder makes up.
FIRST_MADE_UP = 1_000_001
#: How much of a line tells its operation.
HEAD = len('{"op":"close",')
#: What a record only repeats, what belongs to a policy, and what says which programs were run.
AGAIN, POLICY, RAN = b'"again":true', b'"policy":', b'"ran":'
#: The members of a record that may be another one, and of what it would be then.
IN_DOUBT = ("unknown", "otherwise")
UNKNOWN, OTHERWISE = (f'"{name}":'.encode() for name in IN_DOUBT)
#: The end of a call that the kernel allowed, and the kernel's answer to another one.
LET_THROUGH, KERNEL = b'"kernel":"ok"}\n', b'"kernel":"'
#: A rule on a path.
ADDS = b'"op":"add_path"'
#: An open that makes a file, or that cuts it.
CREATES = (b'"create":true', b'"cuts":true')
#: The most frequent records that change what is kept.
CHANGES = re.compile(
    rb'\{"op":"(exit|fork|exec)","pid":([0-9]+)(?:,"child":([0-9]+)|,"path":"([^"\\]*)")?(,"role":"[a-z]+")?'
    rb',"call":[0-9]+(?:,"kernel":"ok")?\}\n'
)
#: Members in which records may differ that a summary counts as one: for an opening, its number too. If they are taken
#: out, a comma may be left before the end of the line (`ENDS`).
OWN = re.compile(rb'"(?:pid|call)":[0-9]+(?:,|(?=\}\s*\Z))')
OWN_OF_OPENING = re.compile(rb'"(?:pid|call|fd)":[0-9]+(?:,|(?=\}\s*\Z))')
ENDS = re.compile(rb",\s*\}\s*\Z")
#: How many records a line of a distilled recording stands for.
STANDS_FOR = re.compile(rb'"stands_for":([0-9]+)')
CALL = re.compile(rb'"call":\s*([0-9]+)')
FD = re.compile(rb'"fd":([0-9]+)')
COPIES = re.compile(rb'"fd":([0-9]+),"to":([0-9]+)')


def head(op: str) -> bytes:
    """How a line on an operation begins."""
    return f'{{"op":"{op}","pid":'[:HEAD].encode()


def heads(ops: Iterable[str]) -> frozenset[bytes]:
    """How lines on some operations begin."""
    return frozenset(map(head, ops))


_KNOWN = heads(OPERATIONS)


def told(trace: Path, some: frozenset[bytes], *marks: bytes) -> Iterator[tuple[int, jsonl.Record]]:
    """The records whose lines have one of some heads, or a mark, or that begin in another way, each with its line."""
    others, marked = _KNOWN - some, re.compile(b"|".join(marks)).search
    with open(trace, "rb") as lines:
        found = ((number, line) for number, line in enumerate(lines, start=1)
                 if line[:HEAD] not in others or (marks and marked(line)))
        yield from ((number, jsonl.read(trace, number, line)) for number, line in found if line.strip(jsonl.BLANKS))


def body(op: str, **members: object) -> str:
    """A record without its process."""
    return f'"op":"{op}"' + "".join(f',"{name}":{jsonl.value(of)}' for name, of in members.items())


def line_of(pid: int, record: str) -> str:
    """The line of a process's record as `body` writes it."""
    return f'{{"pid":{pid},{record}}}\n'


def written(op: str, pid: int, members: Mapping[str, Any], call: int, kernel: str | None) -> str:
    """A record of a call; members that are None or false are left out, but for the `driver` of an ioctl.

    A record that may be another one says so first, so that a reader tells at once that the others are not in doubt.
    """
    line = f'{{"op":"{op}","pid":{pid}'
    if "unknown" in members:
        marks = {name: members[name] for name in IN_DOUBT if name in members}
        line = f"{jsonl.value(marks)[:-1]},{line[1:]}"
        members = {name: of for name, of in members.items() if name not in marks}
    line += text_of(members)
    line += f',"call":{call}' if kernel is None else f',"call":{call},"kernel":"{kernel}"'
    return line + (',"driver":false}\n' if op == "ioctl" and members["driver"] is False else "}\n")


def text_of(members: Mapping[str, Any]) -> str:
    """Members as a line has them, each after a comma, without those that are None or false."""
    said = ""
    for name, value in members.items():
        if type(value) is str:
            said += f',"{name}":{jsonl.text(value)}'
        elif type(value) is int:
            said += f',"{name}":{value}'
        elif value is not None and value is not False:
            said += f',"{name}":{jsonl.value(value)}'
    return said


def opening(pid: int, said: str, call: int) -> str:
    """An open that the kernel allowed as `written` writes it; `said` is what `text_of` makes of its members."""
    return f'{{"op":"open","pid":{pid}{said},"call":{call},"kernel":"ok"}}\n'


def closing(pid: int, fd: int, call: int) -> str:
    """A close as `written` writes it: a third of a compiler's records are closes, and all of them are alike."""
    return f'{{"op":"close","pid":{pid},"fd":{fd},"call":{call}}}\n'
