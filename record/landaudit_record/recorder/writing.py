"""What a conversion writes: the tree, the trace, and the calls that it could not write."""

from __future__ import annotations

import json
import re
import shutil
import tempfile
from collections import Counter
from collections.abc import Container, Iterable, Iterator, Mapping, Sequence
from dataclasses import dataclass
from functools import lru_cache
from pathlib import Path
from types import TracebackType
from typing import Any, Protocol, Self

from ..common import jsonl, trace_lines
from ..common.finished import CONVERTED, REACH, Converted, Part, Size, files_of_parts, numbered
from ..common.restoring import Living, Members
from ..common.trace_lines import FIRST_MADE_UP
from ..common.trees import ROOT, directory_of, upwards
from ..common.wording import is_utf8
from .names import OF_KIND, Node, join
from .unwritten import CannotSay as CannotSay
from .unwritten import NotUnderstood
from .values import KEPT

MOST_RECORDS = 1_000_000
MOST_PROCESSES = 65_536
MOST_OBJECTS = 65_536
#: The records of a policy of sixteen layers of 1,000 rules: no_new_privs, and for each layer its rules and three more.
POLICY_RECORDS = 1 + 16 * 1_003
POLICY_OBJECTS = 16 * 1_000
LONGEST_PATH = 4_096
TOO_LONG = f"a path of more than {LONGEST_PATH} bytes"
LONGEST_CALL = 200
DEEP = 100
"""For a path with more names than this, the directories above it are listed in steps of so many."""
ABSENT = "~new~"
IN_PROC = "/proc/"
"""Under this directory names change all the time, so none is kept."""
#: The beginning of the name of a folder in which a conversion writes until it is done.
UNDONE = ".converting-"
#: What a path must not have: an empty name, `.`, `..`, a NUL.
_NO_PATH = re.compile(r"/\.{0,2}(?:/|\Z)|\0")


class MetObjects(Protocol):
    """All objects that a run met, by their names at this moment and when the run began.

    `turns` counts how often a directory got or lost a name, which changes the names of what is beneath it; those in
    /proc, which come and go with each process, need not count.
    """

    root: Node
    turns: int

    def at(self, path: str) -> Node | None:
        """The object at a real path."""

    def at_start(self, path: str) -> Node | None:
        """The object that is at a path when the run begins, as far as that is known."""

    def further(self, node: Node) -> list[str]:
        """The other paths that an object has by other mounts when the run begins."""

    def bound(self, node: Node) -> list[Node]:
        """What a directory is at its other paths if it does not show the same there."""


class ListedTree:
    """The names under which a recording lists objects; an object that is moved or linked has several.

    An object's name is its path or, if another object has that, the path with a number after it. An object that existed
    when the run began has names of its own, and so has one on which the program itself puts a rule. Other objects that
    the run makes at one path share a name if they are of one kind: no rule is on them, so Landlock treats them alike.
    """

    def __init__(self, names: MetObjects) -> None:
        self._names = names
        self._owners: dict[str, Node | str] = {"/": names.root}
        self._given: dict[tuple[str, Node | str], str] = {}
        self._several: dict[Node, list[str]] = {}
        self._lines: dict[str, jsonl.Record] = {}
        self._places: dict[tuple[str, Node], str] = {}
        self._gaps: dict[str, str] = {}
        self._lost: dict[str, Node] = {}
        self._turns = 0
        #: Objects in whose place others may be, by their names here, each with its real path.
        self.doubted: dict[str, tuple[str, Node]] = {}
        #: What was listed since this was last emptied.
        self.fresh: list[str] = []

    def __contains__(self, path: str) -> bool:
        return path in self._lines

    def listed(self, path: str) -> jsonl.Record | None:
        """The line of an object by a name of it, None if no object has this name."""
        line = self._lines.get(path)
        return None if line is None else self._line(path, line)

    def __len__(self) -> int:
        """The number of objects, including the root."""
        return len(self._lines) + 1

    def place(self, real: str, node: Node) -> str:
        """Lists an object at a real path with the directories above it, and returns the name that it has there."""
        if self._turns != self._names.turns:
            self._turns = self._names.turns
            self._places.clear()
        text = self._places.get((real, node))
        if text is None:
            if real.count("/") > DEEP:
                self._list_over(real)
            self._list_start(node)
            for further in self._names.further(node):
                self._named(self._wanted(further), further, node)
            text = "/" if real == "/" else self._named(self._wanted(real), real, node)
            if not real.startswith(IN_PROC):
                self._places[real, node] = text
            if node.others:
                self._doubt(real, text, node)
        return text

    def _doubt(self, real: str, text: str, node: Node) -> None:
        """Notes that another object may be in the place of one; of another kind, it is another name of the same."""
        self.doubted[text] = real, node
        for other in node.others:
            if node.doubt == OF_KIND:
                other.ruled, other.first = True, other.first or node.first

    def rule(self, real: str, node: Node) -> str:
        """The name of an object on which the program puts a rule: from now on no other object has this name."""
        text = self.place(real, node)
        if node.shares:
            wanted = self._wanted(real)
            del self._given[wanted, node.kind]
            self._given[wanted, node] = text
            self._owners[text] = node
            self._several[node] = [text]
            node.ruled, node.first = True, text
            self._names.turns += 1
        return text

    def names_of(self, node: Node) -> list[str]:
        """The names that an object of its own has in the tree."""
        root = {self._names.root: ["/"]}
        return [name for one in (node, *self._names.bound(node)) for name in self._several.get(one, root.get(one, []))]

    def gap(self, over: str, names: Sequence[str]) -> str:
        """The name of what is missing in an object: a name that no object ever has, with the names after it.

        The root is never missing: a log that says so is damaged. Names are kept only for speed, at most KEPT of them.
        """
        if not names:
            raise NotUnderstood
        top = self._over(over, self._names.at(over))
        wanted = f"{top}/{names[0]}{ABSENT}"
        text = self._gaps.get(wanted)
        if text is None:
            text = wanted
            while self._names.at_start(text) is not None:
                text += ABSENT
            if len(self._gaps) == KEPT:
                self._gaps.clear()
            self._gaps[wanted] = checked_path(text)
        if len(names) == 1:
            return text
        behind = [name for name in names[1:] if name != ".."]
        return checked_path(text + join(behind or [ABSENT]))

    def _wanted(self, real: str) -> str:
        """The name that an object at a path has if no other one has it."""
        over, _, name = real.rpartition("/")
        directory = self._names.at(over)
        return f"{self._over(over, directory if directory is not None and directory.kind == 'dir' else None)}/{name}"

    def _over(self, real: str, node: Node | None) -> str:
        """The name of what is at a path, without the slash of the root; of what is gone by its path alone."""
        if real in ("", "/"):
            return ""
        return self.place(real, node or self._lost.setdefault(real, Node("dir")))

    def _list_over(self, real: str) -> None:
        """Lists some of the directories above a deep path, the upper ones first, so that no call lists all of them."""
        names = real.split("/")
        for count in range(DEEP, len(names) - 1, DEEP):
            over = "/".join(names[: count + 1])
            directory = self._names.at(over)
            self._over(over, directory if directory is not None and directory.kind == "dir" else None)

    def _list_start(self, node: Node) -> None:
        """Lists an object that existed when the run began by its path at that time, after the directories above it."""
        unlisted: list[tuple[str, Node]] = []
        over: Node | None = node
        while over is not None and over.start and over.start not in self._lines:
            unlisted.append((over.start, over))
            over = self._names.at_start(over.start.rpartition("/")[0] or "/")
        for path, one in reversed(unlisted):
            self._named(path, path, one)

    def _named(self, wanted: str, real: str, node: Node) -> str:
        """The name of an object, which is then listed; the wanted name if possible."""
        owner: Node | str = node.kind if node.shares else node
        text = self._given.get((wanted, owner))
        if text is None:
            text = self._given[wanted, owner] = checked_path(self._free(wanted, owner))
            self._owners[text] = owner
            if owner is node:
                self._several.setdefault(node, []).append(text)
                if node.first is None:
                    listed = [one.first for one in self._names.bound(node) if one.first is not None]
                    node.first = listed[0] if listed else text
        if text not in self._lines:
            self._list(text, real, node)
            for bound in self._names.bound(node):
                self._list_start(bound)
        return text

    def _free(self, wanted: str, owner: Node | str) -> str:
        """The wanted name, or that name with a number after it, which no other object has."""
        text, count = wanted, 1
        while not self._may_have(text, owner):
            count += 1
            text = f"{wanted}~{count}~"
        return text

    def _may_have(self, text: str, owner: Node | str) -> bool:
        at_start = self._names.at_start(text)
        if at_start is not None:
            return at_start is owner
        return text not in self._owners and not text.endswith(ABSENT)

    def _list(self, text: str, real: str, node: Node) -> None:
        line: jsonl.Record = {"path": text, "kind": node.kind}
        if node.target is not None and is_utf8(node.target):
            line["target"] = node.target
        if node.first not in (None, text):
            line["same"] = node.first
        if text != real:
            line["shown"] = real
        self._lines[text] = line
        self.fresh.append(text)

    def write(self, file: Path, chosen: Container[str]) -> int:
        """Writes chosen objects, directories before what is in them, and returns their number including the root."""
        lines = (self._line(text, line) for text, line in self._lines.items() if text in chosen)
        return 1 + jsonl.write(file, lines)

    def _line(self, text: str, line: jsonl.Record) -> jsonl.Record:
        """A line, with the mark of a name that was not there when the run began."""
        return line if self._names.at_start(text) is self._owners[text] else {**line, "made": True}


@dataclass(frozen=True)
class Limits:
    """How much a part holds before the next one begins, with room for a policy; `own` are records not written again.

    `own` is less than landaudit's limit: an audit needs memory for some parts only, whose answers several processes
    read while the next ones are judged.
    """

    records: int = MOST_RECORDS - POLICY_RECORDS
    processes: int = MOST_PROCESSES - 1
    objects: int = MOST_OBJECTS - POLICY_OBJECTS
    own: int = 250_000


LIMITS = Limits()
#: The records that are kept free for the last call of a part; a call has far fewer.
MOST_OF_A_CALL = 2_000
#: How many lines of a trace are kept, to be written at once.
LINES_KEPT = 500
_WITHOUT_PATH = frozenset({"start", "fork", "rename", "link"})
#: A record that waits for the rest of its call: operation, process, members, the kernel's answer, and the line.
_Waiting = tuple[str, int, Members, str | None, str]


class Recording:
    """The tree, the trace in its parts, and the calls that could not be written.

    The records of a call wait until the call is committed, so that no part ends within a call. All files have temporary
    names until the conversion is done, so that an earlier conversion stays whole.
    """

    def __init__(self, folder: Path, tree: ListedTree, limits: Limits = LIMITS) -> None:
        self._folder = folder
        self.tree = tree
        self._limits = limits
        for left in folder.glob(f"{UNDONE}*"):
            shutil.rmtree(left)
        self._undone = Path(tempfile.mkdtemp(prefix=UNDONE, dir=folder))
        self._unsaid = open(self._undone / "unsaid.jsonl", "w", encoding="utf-8")
        self._reach = open(self._undone / REACH, "w", encoding="utf-8")
        self.processes = 0
        self.unsaid: Counter[str] = Counter()
        self._holes: Counter[str] = Counter()
        self._scopes: Counter[str] = Counter()
        self._living = Living()
        #: The records of the call that is not committed yet.
        self.waiting: list[_Waiting] = []
        self._parts: list[_PartInMaking] = []
        self._before = self._again = self._in_part = self._most = 0
        self._begin_part()

    def __enter__(self) -> Self:
        return self

    def __exit__(self, kind: type[BaseException] | None, error: BaseException | None, at: TracebackType | None) -> None:
        self._trace.close()
        self._unsaid.close()
        self._reach.close()
        shutil.rmtree(self._undone)

    @property
    def records(self) -> int:
        """The number of records, including those of the call that is not committed yet."""
        return self.moment + len(self.waiting)

    def write(self, op: str, pid: int, call: int, kernel: str | None = None, **members: Any) -> None:
        """Adds a record to those of its call; members that are None or false are left out."""
        self.add(op, pid, call, kernel, members)

    def add(self, op: str, pid: int, call: int, kernel: str | None, members: Members) -> None:
        """Adds a record as `write` does, from members that do not change afterwards."""
        self.waiting.append((op, pid, members, kernel, trace_lines.written(op, pid, members, call, kernel)))

    def add_close(self, pid: int, call: int, fd: int) -> None:
        """Adds a close as `add` does."""
        self.waiting.append(("close", pid, {"fd": fd}, None, trace_lines.closing(pid, fd, call)))

    def add_open(self, pid: int, call: int, members: Members, said: str) -> None:
        """Adds an open that the kernel allowed as `add` does; `said` are its members by `trace_lines.text_of`."""
        self.waiting.append(("open", pid, members, "ok", trace_lines.opening(pid, said, call)))

    def close_last(self, pid: int, call: int, fd: int) -> None:
        """Adds and commits a close of a number that the program knows; it is the last record of its call."""
        if self.waiting:
            self.add_close(pid, call, fd)
            return
        self._keep(trace_lines.closing(pid, fd, call))
        if fd < FIRST_MADE_UP:
            self._living.closes(pid, fd)

    def open_last(self, pid: int, call: int, members: Members, said: str) -> None:
        """Adds and commits an open as `add_open` has it; it is the last record of its call."""
        if self.waiting:
            self.add_open(pid, call, members, said)
            return
        self._keep(trace_lines.opening(pid, said, call))
        path = members["path"]
        if path not in self._objects and path not in self._others:
            self._need(path)
        if members["fd"] < FIRST_MADE_UP:
            self._living.opens(pid, members)

    def open_briefly(self, pid: int, call: int, members: Members, said: str, closed: int) -> None:
        """Adds an open as `open_last` does, and the next call, the close of its number on the line `closed`."""
        if members["path"] not in self._objects or self.tree.fresh or self._in_part + 1 >= self._most:
            self.open_last(pid, call, members, said)
            self.close_last(pid, closed, members["fd"])
            return
        self._in_part += 2
        self._lines.append(trace_lines.opening(pid, said, call) + trace_lines.closing(pid, members["fd"], closed))
        if len(self._lines) > LINES_KEPT:
            self._write_lines()
        self._living.closes(pid, members["fd"])

    def _keep(self, line: str) -> None:
        """Keeps the line of a call that has one record."""
        if self._in_part >= self._most:
            self._end_part()
            self._begin_part()
        self._in_part += 1
        lines = self._lines
        lines.append(line)
        if len(lines) > LINES_KEPT:
            self._write_lines()
        if self.tree.fresh:
            self._list_fresh()

    def commit(self) -> None:
        """Keeps the records of a call, in one part."""
        call = self.waiting
        if not call:
            return
        if self._in_part >= self._most:
            self._end_part()
            self._begin_part()
        self._in_part += len(call)
        living, lines = self._living, self._lines
        for op, pid, members, kernel, line in call:
            lines.append(line)
            if op == "close":
                if (fd := members["fd"]) < FIRST_MADE_UP:
                    living.closes(pid, fd)
                continue
            path = members.get("path")
            if path is None:
                if op in _WITHOUT_PATH:
                    self._count(op, members)
            elif path not in self._objects and path not in self._others:
                self._need(path)
            if members.get("fd", 0) < FIRST_MADE_UP:
                living.follow(op, pid, members, kernel)
        call.clear()
        if len(lines) > LINES_KEPT:
            self._write_lines()
        if self.tree.fresh:
            self._list_fresh()

    def _write_lines(self) -> None:
        """Writes the records that were kept to be written at once."""
        self._trace.write("".join(self._lines))
        self._lines.clear()

    def drop(self) -> None:
        """Drops the records of a call that turns out not to be writable.

        Records that keep the numbers of the process right stay, such as the close of what a number stood for before.
        """
        self.waiting[:] = [waiting for waiting in self.waiting if not _is_judged(waiting)]

    def leave_out(
        self, reason: str, line: int, pid: int, call: str, *, asks: bool = False, reach: bool = False
    ) -> None:
        """Counts a call that could not be written; `asks` says that a policy may refuse it. One that is judged by what
        `reaches` wrote is only listed.
        """
        entry: jsonl.Record = {"line": line, "pid": pid, "class": reason, "call": call[:LONGEST_CALL]}
        if asks:
            entry["asks"] = True
        if reach:
            entry["reach"] = True
        else:
            self.unsaid[reason] += 1
            self._holes.update([reason] if asks else ())
        self._unsaid.write(jsonl.line(entry))

    def leave_to_scope(self, scope: str, line: int, pid: int, call: str) -> None:
        """Counts a call that only a policy may refuse which has a scope, and of which nobody knows whom it reaches."""
        self._scopes[scope] += 1
        self._unsaid.write(jsonl.line({"line": line, "pid": pid, "scope": scope, "call": call[:LONGEST_CALL]}))

    @property
    def moment(self) -> int:
        """The number of records before the present call."""
        return self._before + self._in_part - self._again

    def reaches(self, asks: str, pid: int, to: Iterable[int], line: int, call: str, **members: Any) -> None:
        """Writes that a call reaches other processes, or a socket that one of them made."""
        said = {"asks": asks, "pid": pid, "to": list(to), "after": self.moment, **members}
        self._reach.write(jsonl.line({**said, "line": line, "call": call[:LONGEST_CALL]}))

    def written(self) -> Iterator[jsonl.Record]:
        """The records so far, in their order and once each."""
        self.commit()
        self._write_lines()
        self._trace.flush()
        for part in [*(made.part for made in self._parts), self._part]:
            yield from (record for _, record in jsonl.numbered(part.trace) if "again" not in record)

    def left_out(self) -> Iterator[jsonl.Record]:
        """The calls that could not be written so far."""
        self._unsaid.flush()
        yield from (entry for _, entry in jsonl.numbered(self._undone / "unsaid.jsonl"))

    def reaching(self, asks: str) -> set[int]:
        """The processes that reached others so far."""
        self._reach.flush()
        return {said["pid"] for _, said in jsonl.numbered(self._undone / REACH) if said["asks"] == asks}

    def finish(
        self,
        ended: bool,
        further: Mapping[str, Sequence[str]] | None = None,
        untraced: Sequence[str] = (),
        too_large: Sequence[str] = (),
    ) -> Converted:
        """Puts all files in place, and says last that the recording is whole.

        `further` are the further names that objects have on which the program puts a rule: it is put on these too.
        `untraced` are the kinds of calls that were not traced, `too_large` directories that were to be listed.
        """
        self.commit()
        self._end_part()
        self._unsaid.close()
        self._reach.close()
        for part in self._parts:
            part.spread(further or {})
        sizes = tuple(part.finish(self.tree) for part in self._parts)
        counts = (self.unsaid, self._holes, self._scopes)
        done = Converted(sizes, self.processes, len(self.tree), *counts, ended, tuple(untraced), tuple(too_large))
        (self._folder / CONVERTED).unlink(missing_ok=True)
        for old in files_of_parts(self._folder):
            old.unlink()
        for made, place in zip(self._parts, numbered(self._folder, len(self._parts))):
            made.part.tree.replace(place.tree)
            made.part.trace.replace(place.trace)
        for name in ("unsaid.jsonl", REACH):
            (self._undone / name).replace(self._folder / name)
        done.write(self._folder)
        return done

    def _begin_part(self) -> None:
        """Begins a part, with what all living processes have."""
        self._part = Part(self._undone, len(self._parts) + 1)
        self._trace = open(self._part.trace, "w", encoding="utf-8")
        self._lines: list[str] = []
        self._objects: set[str] = set()
        self._others: set[str] = {ROOT}
        self._started = 0
        again = self._living.again()
        for record in again:
            self._trace.write(jsonl.line(record))
            self._need(record.get("path", "/"))
            self._started += record["op"] in ("start", "fork")
        self._before = self.moment
        self._again = self._in_part = len(again)
        self._most = min(self._limits.records - MOST_OF_A_CALL, self._again + self._limits.own)
        self._end_if_full()

    def _count(self, op: str, members: Members) -> None:
        """Counts a process that begins, and the objects that a move names."""
        if op in ("start", "fork"):
            self._started += 1
            self.processes += 1
            if self._started >= self._limits.processes:
                self._most = 0
        else:
            self._need(members["from"])
            self._need(members["to"])

    def _list_fresh(self) -> None:
        """Lists what the call had listed in the tree."""
        for path in self.tree.fresh:
            self._others.discard(path)
            self._need(path)
        self.tree.fresh.clear()

    def _need(self, path: str) -> None:
        """Lists an object in the tree of the part, if it is one, and the directories over it.

        Paths that are not objects are kept only for speed, so that they are not looked up each time: at most KEPT.
        """
        while path not in self._objects and path not in self._others:
            (self._objects if path in self.tree else self._others).add(path)
            path = directory_of(path)
        if len(self._others) > KEPT:
            self._others.clear()
            self._others.add(ROOT)
        self._end_if_full()

    def _end_if_full(self) -> None:
        """Ends the part with the present call if it has too many objects."""
        if len(self._objects) > self._limits.objects:
            self._most = 0

    def _end_part(self) -> None:
        self._list_fresh()
        self._write_lines()
        self._trace.close()
        self._parts.append(_PartInMaking(self._part, self._objects, self._in_part, self._again))


def _is_judged(waiting: _Waiting) -> bool:
    """Whether a record stands for a call that Landlock judges, or closes its number."""
    op, _, members, kernel, _ = waiting
    return kernel is not None or (op == "close" and int(members["fd"]) >= FIRST_MADE_UP)


@dataclass
class _PartInMaking:
    """A part whose trace is written: the objects that it needs, its records, and those of them written again."""

    part: Part
    objects: set[str]
    records: int
    again: int

    def spread(self, further: Mapping[str, Sequence[str]]) -> None:
        """Puts rules on further names of their objects: after a record, a copy for each name."""
        if not further:
            return
        beside = self.part.trace.with_suffix(".new")
        with open(self.part.trace, "rb") as lines, open(beside, "wb") as out:
            for line in lines:
                out.write(line)
                rule = json.loads(line) if trace_lines.ADDS in line else {}
                rule.pop("unknown", None)
                for name in further.get(rule.get("path", ""), ()) if "otherwise" not in rule else ():
                    self.records += 1
                    self.again += trace_lines.AGAIN in line
                    self.objects.update(over for over in upwards(name) if over != ROOT)
                    out.write(jsonl.line({**rule, "path": name}).encode())
        beside.replace(self.part.trace)

    def finish(self, tree: ListedTree) -> Size:
        """Writes the tree, and says how large the part is."""
        objects = tree.write(self.part.tree, self.objects)
        return Size(self.records, self.again, objects, self.part.trace.stat().st_size)


@lru_cache(KEPT)
def checked_path(path: str) -> str:
    """A path that landaudit reads (docs/FORMATS.md, "Paths")."""
    try:
        length = len(path.encode())
    except UnicodeEncodeError:
        raise CannotSay("a name that is not UTF-8") from None
    if length > LONGEST_PATH:
        raise CannotSay(TOO_LONG)
    if path != ROOT and (path[:1] != "/" or _NO_PATH.search(path)):
        raise CannotSay("a path that landaudit does not read")
    return path
