"""Reads a trace together with its report: each record with its answer, or only those that an audit shows.

Most records are allowed and change nothing that a summary needs. `Walk` goes over a trace and its report once, for all
ABIs of the report, and decodes only the lines of the other records. Those that a summary counts as one are counted by
their bytes (`Walk.counted`), and each kind is decoded once. The first bytes of a line show what to do with it. The
members of the most frequent records are read without decoding, if they are written as landaudit-record writes them.
"""

from __future__ import annotations

import json
import re
from array import array
from collections import Counter
from collections.abc import Iterator, Set
from dataclasses import dataclass
from functools import cached_property
from itertools import accumulate, compress, count, islice, zip_longest
from operator import itemgetter
from pathlib import Path
from typing import NamedTuple

from ..common import jsonl
from ..common.jsonl import Record
from ..common.operations import MOVES, OPERATIONS, PATH_CALLS, PORT_CALLS
from ..common.problems import Problem
from ..common.progress import Progress
from ..common.trace_lines import (
    AGAIN,
    CHANGES,
    COPIES,
    ENDS,
    FD,
    HEAD,
    KERNEL,
    LET_THROUGH,
    OTHERWISE,
    OWN,
    OWN_OF_OPENING,
    POLICY,
    STANDS_FOR,
    UNKNOWN,
    head,
)
from . import reports
from .answers import Answer, Answered
from .following import NOWHERE, Followed
from .processes import ProcessState, Processes, shown
from .subjects import NOTHING, Number, Subject

Judged = tuple[Record, Answer, ProcessState]
#: What a call is about by name: its path or both paths, as a person knows them, or its port.
NamedSubject = tuple[str, ...] | int

#: The kernel's answers to the calls on paths about which it asked Landlock.
ASKED_LANDLOCK = (None, "ok", "EACCES", "EPERM", "EXDEV")
_STATES = frozenset({"create", "restrict", "start", "fork", "exit", "exec"})
_RULES = frozenset({"add_path", "add_port"})
_OPENS = frozenset({"open", "adopt", "dup"})
#: The number of kinds of calls that `places` counts before it decodes them.
MOST_KINDS = 32_768
#: Files are read in blocks of lines of about this many bytes.
BLOCK = 1 << 18

#: What there is to do with a line, by its operation: what _READ has is known only when the line is taken apart.
_ON_PATH, _OPENS_NUMBER, _ON_PORT, _RULE, _STATE, _READ = 1, 2, 4, 8, 16, 32


def _to_do(op: str) -> int:
    families = {_ON_PATH: PATH_CALLS, _OPENS_NUMBER: _OPENS, _ON_PORT: PORT_CALLS, _RULE: _RULES, _STATE: _STATES}
    return sum(to_do for to_do, ops in families.items() if op in ops)


#: What a record would be if something else was there before the call. It is counted with the record before it.
_OTHERWISE = 64
#: A line that begins as no record that landaudit-record writes, if it is not in doubt.
_ODD = 128
_BEGINS = {head(op): _to_do(op) for op in OPERATIONS}


class _ToDos(dict[bytes, int]):
    """What there is to do with lines, by how they begin."""

    def __missing__(self, _: bytes) -> int:
        return _ODD


_to_do_of, _head_of = _ToDos(_BEGINS).__getitem__, itemgetter(slice(HEAD))
#: Of each number of what there is to do, whether it is on a path; and what is always to be taken apart.
_ARE_ON_PATH = bytes(int(to_do & _ON_PATH) for to_do in range(256))
_TAKEN = re.compile(b"[%c-\xff]" % _RULE)
_ASKED = tuple(f'{answer}"'.encode() for answer in ASKED_LANDLOCK if answer)
#: Operations on numbers, as the report has them.
_OPEN, _CLOSE, _ADOPT, _DUP = (b'"op":"%b"' % op for op in (b"open", b"close", b"adopt", b"dup"))
_ON_NUMBERS = frozenset(b'"op":"%b"' % op.encode() for op, of in OPERATIONS.items() if "fd" in of.numbers)
#: Where the number of the process begins in its member.
_PID = len('"pid":')
#: In answers, the line of the `restrict` that made a layer, and that of the record that opened a file.
_OF_LAYER, _OPENED = re.compile(rb'"line":([0-9]+)'), re.compile(rb'"opened":([0-9]+)')
_LINE, _WHERE_OPENED = b'"line":', b'"opened":'
#: The calls on one path, and members of a record that may name it, or that say more than the record.
_ON_ONE_PATH, _SAYING = PATH_CALLS - MOVES, frozenset({"policy", "shown", "unknown"})
#: What stands for a path; no path is like it.
ANY_PATH = "*"
_ANY_PATH = b'"%b"' % ANY_PATH.encode()
_PATH, _SHOWN = re.compile(rb'"path":("/[^"\\]*")'), b'"shown":'


def judged(trace: Path, report: Path, abi: int) -> Iterator[Judged]:
    """Each record, its answer at an ABI, and its process before the record. The process of a `start` is a new one."""
    processes = Processes()
    for found, row in zip_longest(jsonl.numbered(trace), reports.rows(report, abi)):
        if found is None or row is None or (found[0], found[1]["pid"]) != (row.line, row.pid):
            raise _other(trace, report)
        record = found[1]
        process = ProcessState() if record["op"] == "start" else processes.of(record["pid"])
        yield record, row.answer, process
        processes.follow(record, row.answer)


def _other(trace: Path, report: Path) -> Problem:
    return Problem(f"{report} is not a report on {trace}: audit it again")


@dataclass(frozen=True, slots=True)
class Told:
    """A record that some ABI does not allow, or that changes what is kept: its line, and its answers.

    `answered` has the answers that are not `allowed`, each with the ABIs that give it; `program` is what the process
    runs, None before its first program; `asked` says whether it is a call on a path that Landlock was asked about;
    `missed` are the ABIs at which its descriptor would be open if its open had been allowed; `confined` says that the
    process had a layer in the run.
    """

    line: int
    record: Record
    answered: tuple[Answered, ...]
    program: str | None
    asked: bool
    missed: frozenset[int]
    confined: bool

    @property
    def is_on_any_path(self) -> bool:
        """Whether `ANY_PATH` is what the call is about, and a path in its place is named nowhere else."""
        record = self.record
        return record["op"] in _ON_ONE_PATH and record["path"] == ANY_PATH and _SAYING.isdisjoint(record)

    @property
    def times(self) -> int:
        """How many records it stands for."""
        return int(self.record.get("stands_for", 1))


#: A line of a trace: its number, the line, what there is to do with it, the report's line on it, and whether some ABI
#: does not allow it.
_Said = tuple[int, bytes, int, bytes, bool]
#: The state of the process of a record before it: see Told.program, Told.missed and Told.confined.
_Standing = tuple[str | None, frozenset[int], bool]


class Alike(NamedTuple):
    """What records have in common that a summary counts as one: the state of their process, and their members and
    answers as trace and report have them, without what is their own.

    In the answers, a layer has the number in the tried policy (`policy`) in place of a line, and what was opened has
    its path as a person knows it (`shown`). There are no answers if all ABIs allow the records.
    """

    standing: _Standing
    members: bytes
    answers: bytes

    @property
    def path(self) -> bytes | None:
        """The path of calls on a path, in its quotes, if landaudit-record wrote them, nothing in it is escaped, and no
        other is shown in its place.
        """
        if not _BEGINS.get(self.members[:HEAD], _READ) & _ON_PATH or _SHOWN in self.members:
            return None
        found = _PATH.search(self.members)
        return None if found is None else found[1]

    def without(self, path: bytes) -> Alike:
        """The same with `ANY_PATH` in the place of a path."""
        return Alike(self.standing, self.members.replace(path, _ANY_PATH), self.answers.replace(path, _ANY_PATH))

    @property
    def alike(self) -> Alike:
        """What also those have in common whose files were opened at other lines."""
        opens = _WHERE_OPENED in self.answers
        return self._replace(answers=_OPENED.sub(b"", self.answers)) if opens else self

    def told(self, trace: Path, line: int) -> Told:
        """The record on a line of a trace, which is one of these, as far as all of them agree."""
        return _told(line, jsonl.read(trace, line, ENDS.sub(b"}", self.members)), self.answers, self.standing)


@dataclass(frozen=True, slots=True)
class Counted:
    """The kinds of a trace's records that some ABI does not allow, or that are of the tried policy: each with the line
    of the first and how many there are, in the order of these first ones. The other members are those of the walk.
    """

    trace: Path
    kinds: list[tuple[Alike, int, int]]
    records: int
    path_calls: int
    unsure: Counter[int]
    confines: bool


def _told(line: int, record: Record, answers: bytes, standing: _Standing) -> Told:
    """A record with the answers to it that are not `allowed`."""
    asked = record["op"] in PATH_CALLS and record.get("kernel") in ASKED_LANDLOCK
    program, missed, confined = standing
    return Told(line, record, reports.not_allowed(answers) if answers else (), program, asked, missed, confined)


class Walk:
    """One walk over a trace and its report over some ABIs.

    The records at the beginning of a part that only restore what processes had are read and not yielded. `records` and
    `path_calls` count the other records that were read, the latter those on paths about which Landlock was asked;
    `files` are both files. With `only_refused` the report has only the refused records: then moot records count as
    allowed, and no opening is missed. If the trace is `weighted`, a record stands for as many as it says.
    """

    def __init__(
        self, trace: Path, report: Path, abis: range, progress: Progress | None = None, *, only_refused: bool = False,
        weighted: bool = False
    ) -> None:
        self.files = trace, report
        self._whole = not only_refused
        self._weighted = weighted
        self._progress = progress
        self._abis = abis
        self._differs = reports.differing(abis, only_refused=only_refused)
        self._all, self._by_all = frozenset(abis), reports.by_all(abis)
        self._processes = Followed()
        self.records = 0
        self.path_calls = 0
        self.unsure: Counter[int] = Counter()
        self._again = self._careful = True
        self._together: list[_Said] = []
        self._paths: dict[int, bytes] = {}

    @property
    def confines(self) -> bool:
        """Whether a process asked for a layer."""
        return self._processes.confines

    @property
    def pids(self) -> Set[int]:
        """The processes that the trace starts or forks."""
        return self._processes.pids

    def __iter__(self) -> Iterator[tuple[Alike, int, bytes]]:
        """The kind of each record that some ABI does not allow, or that is of the tried policy; its number and line."""
        for said in self._lines():
            kind = self._kind(said)
            if kind is not None:
                yield kind, said[0], said[1]

    def counted(self) -> Counted:
        """The kinds of records that are not allowed under all ABIs, and of those of the tried policy."""
        first: dict[Alike, int] = {}
        found: list[tuple[Alike, int]] = []
        times: list[int] = []
        for kind, number, line in self:
            place = first.setdefault(kind.alike, len(found))
            if place == len(found):
                found.append((kind, number))
                times.append(0)
            times[place] += self.times(line)
        kinds = [(kind, number, many) for (kind, number), many in zip(found, times) if many]
        return Counted(self.files[0], kinds, self.records, self.path_calls, self.unsure, self.confines)

    def _lines(self) -> Iterator[_Said]:
        """Reads both files, and yields the lines to decode. A long recording spends most of the time here."""
        for first, lines, to_dos, answers in self._blocks():
            begin, many = 0, len(lines)
            to_dos += bytes([_ODD])
            while begin < many:
                end = begin + 1 if self._careful else max(begin + 1, to_dos.index(_ODD, begin))
                if self._careful or to_dos[begin] == _ODD:
                    yield from self._with_care(first + begin, lines[begin], to_dos[begin], answers[begin])
                else:
                    yield from self._plain(first + begin, lines[begin:end], to_dos[begin:end], answers[begin:end])
                begin = end
            if self._progress is not None:
                self._progress.show(first, "answers read")
        yield from self._united()

    def _plain(self, first: int, lines: list[bytes], to_dos: bytes, answers: list[bytes]) -> Iterator[_Said]:
        """Does as `_lines` with lines that each stand for one record, as nearly all do."""
        self.records += len(lines)
        on_paths = list(compress(lines, to_dos.translate(_ARE_ON_PATH)))
        others = [line for line in on_paths if not line.endswith(LET_THROUGH)]
        self.path_calls += len(on_paths) - len(others) + sum(map(_asked, others))
        differ, processes, behind = self._differs(answers), self._processes, 0
        told = {found.start() for found in _TAKEN.finditer(to_dos)}
        told.update(compress(count(), differ))
        for index in (*sorted(told), len(lines)):
            for between in range(behind, index) if processes.watched else ():
                if to_dos[between] & _OPENS_NUMBER and processes.watched:
                    yield first + between, lines[between], to_dos[between], answers[between], False
            if index < len(lines):
                yield first + index, lines[index], to_dos[index], answers[index], differ[index]
            behind = index + 1

    def _with_care(self, number: int, line: bytes, to_do: int, answer: bytes) -> Iterator[_Said]:
        """Does as `_lines` with a line that may be blank, written again, in doubt, or stand for several records."""
        if to_do == _ODD:
            if not line.strip(jsonl.BLANKS):
                return
            to_do = _OTHERWISE if OTHERWISE in line and UNKNOWN in line else _READ
        (differs,) = self._differs([answer])
        said = number, line, to_do, answer, differs
        if to_do != _OTHERWISE:
            yield from self._united()
        self._again = self._again and AGAIN in line
        if self._again:
            self._taken_apart(said)
        elif to_do == _OTHERWISE:
            self._together.append(said)
        else:
            times = self.times(line)
            self.records += times
            if to_do == _READ and UNKNOWN in line:
                self._together.append(said)
            else:
                self.path_calls += times if to_do & _ON_PATH and _asked(line) else 0
                if differs or to_do >= _RULE or (to_do & _OPENS_NUMBER and self._processes.watched):
                    yield said
        self._careful = self._again or self._weighted or bool(self._together)

    def _blocks(self) -> Iterator[tuple[int, list[bytes], bytes, list[bytes]]]:
        """Reads both files in blocks: the number of the first line, the lines, what there is to do with each, and the
        report's line on each, which is empty for a blank line and for a record that the report leaves out.
        """
        first = 1
        with open(self.files[0], "rb") as trace, open(self.files[1], "rb") as report:
            shown = None if self._whole else reports.Shown(report)
            while lines := trace.readlines(BLOCK):
                to_dos = bytes(map(_to_do_of, map(_head_of, lines)))
                if shown is not None:
                    answers = shown.block(first, len(lines))
                elif _ODD in to_dos:
                    answers = [report.readline() if line.strip(jsonl.BLANKS) else b"" for line in lines]
                else:
                    answers = list(islice(report, len(lines)))
                if len(answers) < len(lines):
                    raise _other(*self.files)
                yield first, lines, to_dos, answers
                first += len(lines)
            if not (report.readline() if shown is None else shown.line).startswith(reports.LAST):
                raise _other(*self.files)

    def _united(self) -> Iterator[_Said]:
        """A record that may be another one, and what it would be then, each with what is known of the call."""
        together, self._together = self._together, []
        if not together:
            return
        answers, unsure = reports.united([answer for *_, answer, _ in together], self._abis)
        times = self.times(together[0][1])
        self.unsure.update({abi: times for abi in unsure})
        for (number, line, to_do, answer, _), known in zip(together, answers):
            if known or to_do != _OTHERWISE:
                yield number, line, to_do, known or answer, bool(known)

    def times(self, line: bytes) -> int:
        """How many records a line stands for."""
        found = STANDS_FOR.search(line) if self._weighted else None
        return 1 if found is None else int(found[1])

    def _record(self, said: _Said) -> Record:
        number, line, _, answer, _ = said
        record = jsonl.read(self.files[0], number, line)
        pid = record.get("pid")
        if type(pid) is not int or not (answer.startswith(reports.head(number, pid)) or self._left_out(answer)):
            raise _other(*self.files)
        return record

    def _left_out(self, answer: bytes) -> bool:
        """Whether the report leaves a record out."""
        return not self._whole and not answer

    def _taken_apart(self, said: _Said) -> Told:
        """Decodes a record and its answer, and follows what they change."""
        record, processes = self._record(said), self._processes
        pid, fd = record["pid"], record.get("fd")
        missed = processes.missed(pid, fd) if isinstance(fd, int) else NOWHERE
        answers = self._members(said)[3] if said[-1] else b""
        told = _told(said[0], record, answers, (processes.program(pid), missed, processes.confined(pid)))
        not_allowed = frozenset(abi for abis, _ in told.answered for abi in abis) if self._whole else NOWHERE
        processes.follow(told.line, record, not_allowed)
        return told

    def _kind(self, said: _Said) -> Alike | None:
        """Follows what a record changes, and gives its kind if a summary counts it."""
        _, line, to_do, answer, differs = said
        if self._left_out(answer):
            if to_do >= _STATE and not self._changes(line):
                self._taken_apart(said)
            return None
        members = self._members(said)
        counts = differs or POLICY in line
        if not counts and to_do < _STATE:
            self._follow_opening(said, members)
            return None
        standing = None if to_do == _READ else self._standing(line, members, differs)
        if standing is None or (to_do >= _STATE and not self._changes(line)):
            told = self._taken_apart(said)
            self.path_calls += told.times if told.asked and to_do == _READ else 0
            counts = counts or "policy" in told.record
            standing = told.program, told.missed, told.confined
        if not counts:
            return None
        own = OWN_OF_OPENING if members[2] == _OPEN else OWN
        return Alike(standing, own.sub(b"", line), self._without_lines(members[3]) if differs else b"")

    def _without_lines(self, answers: bytes) -> bytes:
        """Answers that say the same without the trace: see `Alike`. In a report of refused records alone, which is asked
        where rules must be, paths stay those of the tree.
        """
        if self._whole and _WHERE_OPENED in answers:
            answers = _OPENED.sub(self._with_path, answers)
        return _OF_LAYER.sub(self._of_policy, answers) if _LINE in answers else answers

    def _of_policy(self, line: re.Match[bytes]) -> bytes:
        number = self._processes.policy_of(int(line[1]))
        return b'"policy":null' if number is None else b'"policy":%d' % number

    @cached_property
    def _offsets(self) -> array[int]:
        """Where each line of the trace begins: only refused calls on open files are asked for it."""
        with open(self.files[0], "rb") as trace:
            return array("Q", accumulate(map(len, trace), initial=0))

    def _with_path(self, opened: re.Match[bytes]) -> bytes:
        """The line of the record that opened a file, with the path to show for the file."""
        line = int(opened[1])
        if line not in self._paths:
            with open(self.files[0], "rb") as trace:
                trace.seek(self._offsets[line - 1])
                path = shown(jsonl.read(self.files[0], line, trace.readline()), "path")
            self._paths[line] = b"" if path is None else b',"shown":' + json.dumps(path).encode()
        return opened[0] + self._paths[line]

    def _follow_opening(self, said: _Said, members: list[bytes]) -> None:
        """Follows the opening of a number that may have been missed."""
        if self._processes.misses(_pid(members)) and self._standing(said[1], members, False) is None:
            self._taken_apart(said)

    def _members(self, said: _Said) -> list[bytes]:
        """The members of the report's line on a record: its number, process and operation, and the answers."""
        members = reports.split(said[3])
        if members[0] != b'{"line":%d' % said[0] or len(members) < 4:
            raise _other(*self.files)
        return members

    def _standing(self, line: bytes, members: list[bytes], differs: bool) -> _Standing | None:
        """The state of a record's process before the record; follows what the record does to numbers. The record is not
        decoded for this; None if it is not written as landaudit-record writes it.
        """
        processes, (_, member, op, answers) = self._processes, members
        if member + b"," not in line and member + b"}" not in line:
            return None
        pid, missed = _pid(members), NOWHERE
        if op in _ON_NUMBERS and self._whole:
            found = (COPIES if op == _DUP else FD).search(line)
            if found is None:
                return None
            missed = processes.missed(pid, int(found[1]))
            if op == _OPEN:
                processes.miss(pid, int(found[1]), self._abis_of_others(answers) if differs else NOWHERE)
            elif op == _DUP:
                processes.miss(pid, int(found[2]), missed)
            elif op == _CLOSE or op == _ADOPT:
                processes.miss(pid, int(found[1]), NOWHERE)
        return processes.program(pid), missed, processes.confined(pid)

    def _abis_of_others(self, answers: bytes) -> frozenset[int]:
        """The ABIs that do not allow a record; most records get one answer by all ABIs."""
        return self._all if answers.startswith(self._by_all) else reports.abis_of_others(answers)

    def _changes(self, line: bytes) -> bool:
        """Follows what a record changes, if it is a frequent one and is written as landaudit-record writes it."""
        found = CHANGES.fullmatch(line)
        if found is None:
            return False
        op, pid, child, path, role = found.groups()
        match op:
            case b"exit":
                self._processes.end(int(pid))
            case b"fork":
                self._processes.fork(int(pid), int(child))
            case b"exec" if role is None:
                self._processes.run(int(pid), path.decode())
        return True


def _pid(members: list[bytes]) -> int:
    """The process of a record, from the members of the report's line."""
    return int(members[1][_PID:])


def _asked(line: bytes) -> bool:
    """Whether the kernel asked Landlock about a call that landaudit-record wrote, by the kernel's answer."""
    at = line.rfind(KERNEL)
    return at < 0 or line.startswith(_ASKED, at + len(KERNEL))


def place_of(record: Record) -> NamedSubject | None:
    """The paths or port that Landlock was asked about; None for other calls, and if Landlock was not asked."""
    if record["op"] in PATH_CALLS and record.get("kernel") in ASKED_LANDLOCK:
        return tuple(str(shown(record, member)) for member in OPERATIONS[record["op"]].paths)
    return int(record["port"]) if record["op"] in PORT_CALLS else None


def places(trace: Path) -> Counter[NamedSubject]:
    """How many calls of a trace are about each path or port, in the order of the first ones.

    Those that a part of a recording only writes again do not count.
    """
    found: Counter[NamedSubject] = Counter()
    first: dict[bytes, tuple[int, bytes]] = {}
    times: Counter[bytes] = Counter()

    def count() -> None:
        for kind, (number, line) in first.items():
            record = jsonl.read(trace, number, line)
            place = None if record.get("again") is True else place_of(record)
            if place is not None:
                found[place] += times[kind]

    with open(trace, "rb") as lines:
        for number, line in enumerate(lines, start=1):
            if not _BEGINS.get(line[:HEAD], _READ) & (_ON_PATH | _ON_PORT | _READ) or not line.strip(jsonl.BLANKS):
                continue
            kind = OWN_OF_OPENING.sub(b"", line)
            if kind not in first:
                if len(first) == MOST_KINDS:
                    count()
                    first.clear()
                    times.clear()
                first[kind] = number, line
            times[kind] += 1 if (said := STANDS_FOR.search(line)) is None else int(said[1])
    count()
    return found


def subject_of(record: Record, opened: str | None = None) -> Subject:
    """What a call is about: its path or paths, its port, or what its descriptor is open on, if that is known."""
    if "from" in record:
        return Subject((str(shown(record, "from")), str(shown(record, "to"))))
    if "port" in record:
        return Subject(port=record["port"])
    path = shown(record, "path")
    if path is None and "fd" in record and opened is None:
        return Subject(number=Number("descriptor", record["fd"]))
    path = path or opened
    return Subject((path,)) if path else NOTHING
