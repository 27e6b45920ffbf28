"""The log of strace: its lines as calls, in the order in which the calls took effect.

A call that another process's line interrupts is written in two halves, "<unfinished ...>" and
"<... resumed>", which are put together here. Most calls take effect at their end: for example, nobody sees
a new number before. Those of AT_BEGINNING take effect at their beginning: close(2) frees its number at once,
and another thread may have it before the call has ended. So do those of OPENING that a signal ends. So a first
reading looks up the ends of these calls, and the children of all forks, since a child may run before its
parent's fork has ended.
"""

from __future__ import annotations

import gzip
import re
import sys
from collections.abc import Iterator, Mapping
from dataclasses import dataclass, field
from functools import lru_cache
from pathlib import Path
from typing import Any, TextIO

from ..common.problems import Problem
from . import values
from .unwritten import NotUnderstood
from .looks import DROPPED, Near

#: Calls that take effect at their beginning: they free numbers, or look up what a number stands for.
AT_BEGINNING = frozenset({"close", "close_range", "ftruncate", "ftruncate64", "ioctl"})
#: Calls that open files: they may wait, as for the writer of a pipe, after the kernel has asked Landlock. One that a
#: signal ends takes effect at its beginning: what is at its path at its end may be another object.
OPENING = frozenset({"open", "openat", "openat2", "creat"})
_MAY_BEGIN = AT_BEGINNING | OPENING
_INTERRUPTED = re.compile(r"\)\s*= (?:\?|-1 EINTR)(?: |$)")
#: The ends of the first half of a call; the second is for a thread that is not the leader and runs a program.
UNFINISHED = " <unfinished ...>"
_PID_CHANGED = re.compile(r" <pid changed to \d+ \.\.\.>$")
#: What strace may write for a close without an end, since its thread was ended.
_NO_END = ") = ?"
_DONE = ") = 0"

#: What strace writes if a thread was killed before its call: strace does not even learn which call.
_NOT_MADE = ("???(", "<... ???")
#: The first letters of what is no call: the end of a thread, a signal, the second half of a call, and the above.
_NO_CALL = frozenset("+-<?")
_RESUMED = re.compile(r"<\.\.\. (\w+) resumed>")
_NAME = re.compile(r"(\w+)\(")
_RESULT = r"\)\s*= (-?\d+|0x[0-9a-f]+|\?)(.*)"
_ENDING = re.compile(_RESULT)
_ERROR = re.compile(r" (E[A-Z0-9]+) ")
_SUPERSEDED = re.compile(r"superseded by execve in pid (\d+)")
_PIECE = re.compile(r'"[^"\\]*(?:\\.[^"\\]*)*"|/\*.*?\*/|<[^<>]*(?:<[^<>]*>[^<>]*)*>|[()\[\]{},]')
#: The form of most arguments: no brackets, and no comma in a text, a comment or a descriptor's path.
_USUAL_PARTS = (
    r'[^"/<>()\[\]{}]++',
    r'"[^"\\,]*+(?:\\[^,][^"\\,]*+)*+"',
    r"/\*[^*,]*+\*/",
    r"<[^<>,]*+(?:<[^<>,]*+>[^<>,]*+)*+>",
)
_USUAL_CALL = re.compile(rf"(\w+)\(((?:{'|'.join(_USUAL_PARTS)})*+){_RESULT}")
_FORKS = r"(?:clone3?|v?fork)"
#: A process of another PID namespace has one number there, and one by which the log names it.
_IN_OUR_NAMESPACE = re.compile(r" /\* (\d+) in strace's PID NS \*/")
_FORK = re.compile(
    rf"(\d+) +(?:{_FORKS}\(.*|<\.\.\. {_FORKS} resumed>.*)\)\s*= (\d+)(?:{_IN_OUR_NAMESPACE.pattern})?$"
)
_FORK_BEGINS = re.compile(rf"(\d+) +{_FORKS}\(.*<unfinished \.\.\.>$")
_BEGINS = re.compile(rf"(\d+) +({'|'.join(sorted(_MAY_BEGIN))})\(.* <unfinished \.\.\.>$")
_ENDS = re.compile(rf"(\d+) +<\.\.\. ({'|'.join(sorted(_MAY_BEGIN))}) resumed>(.*)$")
_MOVE_BEGINS = re.compile(r"(\d+) +f?chdir\(.* <unfinished \.\.\.>$")
_FLAGS = re.compile(r"flags=([^,}]+)")


class Arguments(dict[int, str]):
    """The arguments of a call by their positions, from 0; a missing one is a text that is not understood.

    A dict calls `__missing__` only for what it lacks, so that no function runs for each argument that is read.
    """

    __slots__ = ()

    def __missing__(self, _: int) -> str:
        raise NotUnderstood


@dataclass(slots=True, eq=False)
class Understood:
    """What a handler has found out from the text of a call: it is the same for all calls of this text."""

    of: Any = None


@dataclass(slots=True)
class Call:
    """A system call that took effect: its thread, where it began, its arguments as strace wrote them, its result.

    `end` is the line on which it ended; a call that takes effect at its beginning is told with the line of that.
    `value` is what the kernel returned (None where it returned nothing, as a call that is restarted),
    `error` the name of its error, `note` what strace says behind the result (the path of a descriptor).

    `closed` is the line on which the thread closes again what the call has just opened, 0 if nobody has looked for it:
    a handler that takes this next call along sets it to 0, and then it is not told.
    """

    line: int
    tid: int
    name: str
    arguments: Arguments
    value: int | None
    error: str | None
    note: str
    text: str
    end: int = 0
    understood: Understood = field(default_factory=Understood, compare=False)
    closed: int = field(default=0, compare=False)

    @property
    def ok(self) -> bool:
        return self.error is None and self.value is not None


@dataclass(slots=True)
class Ended:
    """A thread that ended; `dumped` says that its process left a core file, or should have left one (core(5)).

    `killed` says that SIGKILL ended it.
    """

    line: int
    tid: int
    dumped: bool = False
    killed: bool = False


@dataclass(slots=True)
class Superseded:
    """The leader of a process in which another thread runs a program: from here on, that thread has its number."""

    line: int
    tid: int
    by: int


@dataclass(slots=True)
class UnreadLine:
    """A line that strace did not write."""

    line: int
    tid: int
    text: str


Event = Call | Ended | Superseded | UnreadLine


@dataclass(frozen=True, slots=True)
class Birth:
    """A fork that made a thread: the line where it began, the thread that forks, the flags of its clone."""

    line: int
    maker: int
    flags: int


@dataclass
class Births:
    """For each new thread, the forks that made a thread of its number, the first one last.

    `ends` has the second halves of the calls that take effect at their beginning, by the lines of the calls. `moves`
    has for each thread the lines on which its calls began and ended that go to another directory, if other lines are
    between these.
    """

    forks: dict[int, list[Birth]] = field(default_factory=dict)
    ends: dict[int, str] = field(default_factory=dict)
    moves: dict[int, list[tuple[int, int]]] = field(default_factory=dict)

    def next(self, tid: int) -> Birth | None:
        """The fork that makes the next thread of this number."""
        made = self.forks.get(tid)
        return made.pop() if made else None


def open_log(path: Path) -> TextIO:
    """The log as text; strace writes only ASCII."""
    if path.suffix == ".gz":
        return gzip.open(path, "rt", encoding="latin-1", newline="\n")
    return open(path, encoding="latin-1", newline="\n")


def find_log(folder: Path) -> Path:
    """The log that a recording keeps, compressed or not."""
    for name in ("strace.txt", "strace.txt.gz"):
        if (folder / name).is_file():
            return folder / name
    raise Problem(f"{folder} has no strace.txt: name a folder that 'landaudit-record run' made")


def births(path: Path) -> Births:
    """The results of a first reading of a log: all forks, and the ends of calls that take effect at their beginning."""
    found = Births()
    forks, ends, moves = _Forks(found), _Ends(found), _Moves(found)
    with open_log(path) as lines:
        for number, line in enumerate(lines, start=1):
            if "clone" in line or "fork" in line:
                forks.read(number, line)
            if line[-5:] == "...>\n":
                ends.begin(number, line)
                moves.begin(number, line)
            elif (ends.wanted or moves.begun) and "resumed>" in line:
                ends.end(line)
                moves.end(number, line)
    for made in found.forks.values():
        made.reverse()
    return found


class _Ends:
    """The second halves of calls that take effect at their beginning; `wanted` has the first halves without one."""

    def __init__(self, found: Births) -> None:
        self._found = found
        self.wanted: dict[tuple[str, str], int] = {}

    def begin(self, number: int, line: str) -> None:
        """Follows a first half, if it is that of such a call."""
        if begins := _BEGINS.match(line):
            self.wanted[begins[1], begins[2]] = number

    def end(self, line: str) -> None:
        """Follows a second half, if it is that of such a call."""
        if ends := _ENDS.match(line):
            first = self.wanted.pop((ends[1], ends[2]), None)
            if first is not None and (ends[2] not in OPENING or _INTERRUPTED.match(ends[3])):
                self._found.ends[first] = sys.intern(ends[3])


class _Moves:
    """The calls that go to another directory and that other lines interrupt; `begun` has those that have not ended."""

    def __init__(self, found: Births) -> None:
        self._found = found
        self.begun: dict[str, int] = {}

    def begin(self, number: int, line: str) -> None:
        """Follows a first half, if it is that of such a call."""
        if begins := _MOVE_BEGINS.match(line):
            self.begun[begins[1]] = number

    def end(self, number: int, line: str) -> None:
        """Follows a second half, if it is that of such a call."""
        tid = line.partition(" ")[0]
        first = self.begun.pop(tid, None) if "chdir resumed>" in line else None
        if first is not None and line.endswith("= 0\n"):
            self._found.moves.setdefault(int(tid), []).append((first, number))


class _Forks:
    """The forks of a log, read line by line."""

    def __init__(self, found: Births) -> None:
        self._found = found
        self._begun: dict[int, tuple[int, int]] = {}

    def read(self, number: int, line: str) -> None:
        """Follows a line, if a fork begins or ends on it; a fork that can't be read makes no known thread."""
        try:
            self._read(number, line)
        except NotUnderstood:
            return

    def _read(self, number: int, line: str) -> None:
        if begins := _FORK_BEGINS.match(line):
            self._begun[int(begins[1])] = number, _clone_flags(line)
        elif ends := _FORK.match(line):
            maker, child = int(ends[1]), int(ends[3] or ends[2])
            here = number, _clone_flags(line)
            first, flags = self._begun.pop(maker, here) if "resumed>" in line else here
            self._found.forks.setdefault(child, []).append(Birth(first, maker, flags))


def _clone_flags(line: str) -> int:
    flags = _FLAGS.search(line)
    return values.number(flags[1]) if flags else 0


def events(path: Path, ends: Mapping[int, str] | None = None, near: Near | None = None) -> Iterator[Event]:
    """What a log says, in the order in which the calls took effect; `ends` is what `births` found.

    Calls that only look are left out, but for those of which `near` says that they may look into another process.
    """
    near = near or Near()
    _said.cache_clear()
    read, is_look = _StraceReader(ends or {}).read, near.is_look
    with open_log(path) as lines:
        for number, line in enumerate(lines, start=1):
            tid, space, text = line.removesuffix("\n").partition(" ")
            if not space or not tid.isdecimal():
                yield UnreadLine(number, 0, line.rstrip("\n"))
                continue
            text = text.lstrip(" ")
            if text[: text.find("(")] in DROPPED and not is_look(text):
                continue
            if text[:1] in _NO_CALL or text[-4:] == "...>":
                event = read(number, int(tid), text)
                if event is not None:
                    yield event
            elif (said := _said(text)) is not None:
                yield Call(number, int(tid), *said[0], text, number, said[1])
            else:
                yield UnreadLine(number, int(tid), text)


class _StraceReader:
    """Reads lines that are no whole calls: of each thread it keeps the first half of the call that has not ended."""

    def __init__(self, ends: Mapping[int, str]) -> None:
        self._ends = ends
        self._begun: dict[int, tuple[int, str]] = {}
        self._told: dict[int, str] = {}
        self._superseding: set[int] = set()

    def read(self, number: int, tid: int, text: str) -> Event | None:
        """What a line tells, if it tells something by itself."""
        if text[-4:] == "...>":
            first = text.removesuffix(UNFINISHED)
            if first is text:
                first = _PID_CHANGED.sub("", text)
            if first != text:
                return self._begins(number, tid, first)
        if text[:1] not in _NO_CALL:
            return _call(number, tid, text)
        if text.startswith("+++ "):
            return self._end(number, tid, text)
        if text.startswith("--- ") or text.startswith(_NOT_MADE):
            return None
        resumed = _RESUMED.match(text)
        return _call(number, tid, text) if resumed is None else self._resumes(number, tid, text, resumed)

    def _begins(self, number: int, tid: int, text: str) -> Event | None:
        """The first half of a call: the whole call, if it takes effect here."""
        end = self._ends.get(number, _NO_END if text.startswith("close(") else None)
        if end is None:
            self._begun[tid] = number, text
            return None
        self._told[tid] = text[: text.find("(")]
        return _call(number, tid, text + end)

    def _resumes(self, number: int, tid: int, text: str, resumed: re.Match[str]) -> Event | None:
        """The second half of a call, if the call did not take effect at its beginning."""
        if self._told.pop(tid, None) == resumed[1]:
            return None
        begun = self._begun.pop(tid, None)
        if begun is None or begun[1][: begun[1].find("(")] != resumed[1]:
            return None if resumed[1] in DROPPED else UnreadLine(number, tid, text)
        end = _DONE if tid in self._superseding else text[resumed.end() :]
        self._superseding.discard(tid)
        return _call(begun[0], tid, begun[1] + end, number)

    def _end(self, number: int, tid: int, text: str) -> Event:
        """The end of a thread, or of the leader of a process in which another thread runs a program.

        That exec has succeeded, whatever strace writes: the other threads end only when it can't fail any more.
        """
        self._told.pop(tid, None)
        superseded = _SUPERSEDED.search(text)
        if superseded is None:
            self._begun.pop(tid, None)
            return Ended(number, tid, "(core dumped)" in text, "killed by SIGKILL" in text)
        by = int(superseded[1])
        if by in self._begun:
            self._begun[tid] = self._begun.pop(by)
            self._superseding.add(tid)
        return Superseded(number, tid, by)


def _call(number: int, tid: int, text: str, end: int | None = None) -> Event:
    said = _said(text)
    if said is None:
        return UnreadLine(number, tid, text)
    return Call(number, tid, *said[0], text, number if end is None else end, said[1])


#: The parts of a call's text, as `Call` has them: name, arguments, value, error and note.
_Said = tuple[str, Arguments, int | None, str | None, str]


@lru_cache(values.KEPT)
def _said(text: str) -> tuple[_Said, Understood] | None:
    """The parts of a text, if it is the text of a call that ended."""
    parts = _parts(text)
    if parts is None:
        return None
    name, arguments, result, note = parts
    try:
        value = None if result == "?" else values.written(result)
    except NotUnderstood:
        return None
    ours = _IN_OUR_NAMESPACE.match(note)
    error = _ERROR.match(note) if value is None or value == -1 else None
    value = int(ours[1]) if ours is not None else value
    said = (name, Arguments(enumerate(arguments)), value, error[1] if error is not None else None, note)
    return said, Understood()


def _parts(text: str) -> tuple[str, list[str], str, str] | None:
    """The name of a call, its arguments, its result and the note after it."""
    if usual := _USUAL_CALL.match(text):
        arguments = [argument.strip() for argument in usual[2].split(",")] if usual[2] else []
        return usual[1], arguments, usual[3], usual[4]
    opening = _NAME.match(text)
    if opening is None:
        return None
    arguments, end = split_arguments(text, opening.end())
    ending = _ENDING.match(text, end)
    return (opening[1], arguments, ending[1], ending[2]) if ending is not None else None


def split_arguments(text: str, start: int) -> tuple[list[str], int]:
    """The arguments that begin at `start`, and the index of the bracket that closes them."""
    arguments: list[str] = []
    depth, begin = 0, start
    for piece in _PIECE.finditer(text, start):
        mark = piece[0]
        if mark in "([{":
            depth += 1
        elif mark in ")]}":
            if depth == 0:
                if begin < piece.start() or arguments:
                    arguments.append(text[begin : piece.start()].strip())
                return arguments, piece.start()
            depth -= 1
        elif mark == "," and depth == 0:
            arguments.append(text[begin : piece.start()].strip())
            begin = piece.end()
    return arguments, len(text)
