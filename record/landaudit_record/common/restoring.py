"""What the living processes of a trace have, and the records that give it to them again at the beginning of a part.

Landlock judges a call by the layers of its process, and a call on a descriptor by the layers that the process had when
it opened the descriptor. So a process is described by the steps by which it, or a process that it was forked from, got
its layers, and a descriptor by its opening and the step before that. Processes that were forked from one another share
steps, and a ruleset that several of them hold is one ruleset. So the steps form a tree; a carrier walks along each
branch and forks where the branch divides. landaudit's answers are not known here, so no call is assumed to have been
allowed: the calls of the run are repeated, in their order.
"""

from __future__ import annotations

from collections.abc import Callable, Iterable, Mapping
from dataclasses import dataclass, field
from typing import Any

from .jsonl import Record
from .operations import OPERATIONS

Members = Mapping[str, Any]
#: The first number of the processes, descriptors and rulesets that only carriers have: Linux has none so high.
FIRST_OF_CARRIERS = 1 << 40
#: Members that landaudit does not read but that are repeated: the real path.
_SHOWN = ("shown", "shown_to")


@dataclass(slots=True, eq=False)
class Ruleset:
    """A ruleset: its number, what it handles (members of its `create`), and its rules, as records without a process."""

    rs: int
    handled: Record
    rules: list[Record] = field(default_factory=list)


@dataclass(frozen=True, slots=True)
class Started:
    """A process that exists when the trace begins, with the members of its `start`."""

    members: Record


@dataclass(frozen=True, slots=True)
class Promised:
    """The process set no_new_privs."""


@dataclass(frozen=True, slots=True)
class Ran:
    """A program was run; `first` says that it was the first one of a process that the recording starts."""

    path: str
    first: bool


@dataclass(frozen=True, slots=True)
class Made:
    """A ruleset was made."""

    ruleset: Ruleset


@dataclass(frozen=True, slots=True)
class Confined:
    """A layer was made from a ruleset with the first `rules` of its rules."""

    ruleset: Ruleset
    rules: int


@dataclass(slots=True, eq=False)
class Step:
    """An event that decides the answers to later calls, and the step before it."""

    did: Started | Promised | Ran | Made | Confined
    before: Step | None


@dataclass(slots=True, eq=False)
class Opened:
    """The opening of a descriptor: the members of its `open` or `adopt`, and the last step before it.

    What is adopted is never refused, so it is `certain`.
    """

    members: Members
    step: Step
    certain: bool

    @property
    def record(self) -> Record:
        """The record without process and number."""
        return _of("adopt" if self.certain else "open", self.members)

    def like(self, other: Opened) -> bool:
        """Whether both get the same answer."""
        return self.step is other.step and self.record == other.record


#: What a number may be open on: the last of these openings that was allowed.
Openings = tuple[Opened, ...]


@dataclass(slots=True, eq=False)
class State:
    """What a process has; `starting` says that the recording starts it and that it has run no program yet."""

    step: Step
    starting: bool = False
    promised: bool = False
    descriptors: dict[int, Openings] = field(default_factory=dict)
    rulesets: dict[int, Ruleset] = field(default_factory=dict)

    def forked(self) -> State:
        return State(self.step, False, self.promised, dict(self.descriptors), dict(self.rulesets))

    def take(self, did: Promised | Ran | Made | Confined) -> None:
        """Takes a step."""
        self.step = Step(did, self.step)


class Living:
    """The living processes, followed record by record."""

    def __init__(self) -> None:
        self._by_pid: dict[int, State] = {}

    def follow(self, op: str, pid: int, members: Members, kernel: str | None = None) -> None:
        """Follows a record of the trace; the record of an unknown process changes nothing."""
        change = _CHANGES.get(op)
        if change is not None:
            living = self._by_pid.get(pid)
            if living is not None:
                change(living, op, members)
        elif op in ("start", "fork", "exit", "exec"):
            self._follow_process(op, pid, members, kernel)

    def closes(self, pid: int, fd: int) -> None:
        """Follows a close as `follow` does."""
        living = self._by_pid.get(pid)
        if living is not None:
            living.descriptors.pop(fd, None)

    def opens(self, pid: int, members: Members) -> None:
        """Follows an open as `follow` does."""
        living = self._by_pid.get(pid)
        if living is not None:
            _open(living, "open", members)

    def _follow_process(self, op: str, pid: int, members: Members, kernel: str | None) -> None:
        """Follows the beginning or the end of a process, or a program that it runs."""
        living = self._by_pid.get(pid)
        if op == "start":
            given = {name: True for name in OPERATIONS["start"].optional if members.get(name)}
            self._by_pid[pid] = State(Step(Started(given), None), True, "nnp" in given)
        elif living is None:
            return
        elif op == "fork":
            self._by_pid[members["child"]] = living.forked()
        elif op == "exit":
            del self._by_pid[pid]
        elif kernel in (None, "ok") and members.get("role") is None and "otherwise" not in members:
            living.take(Ran(members["path"], living.starting))
            living.starting = False

    def follow_written(self, record: Record) -> None:
        """Follows a record as a trace has it, also one that is written again."""
        self.follow(record["op"], record["pid"], record, record.get("kernel"))
        living = self._by_pid.get(record.get("child", record["pid"]))
        if living is None or "again" not in record:
            return
        if record["op"] == "start" or "starting" in record:
            living.starting = "starting" in record
        for ran in record.get("ran", ()):
            living.take(Ran(ran["path"], "first" in ran))

    def of(self, pid: int) -> State | None:
        """What a process has now, None if it is not known."""
        return self._by_pid.get(pid)

    def again(self) -> list[Record]:
        """The records that give each living process what it has, in a trace that begins with them."""
        return again(self._by_pid)


def again(states: Mapping[int, State]) -> list[Record]:
    """The records that give some processes what they have, in a trace that begins with them."""
    return _Again(states).records()


def _of(op: str, members: Members) -> Record:
    """A record without its process and numbers, with those of its members that are set."""
    names = OPERATIONS[op].decides + _SHOWN
    return {"op": op, **{name: members[name] for name in names if members.get(name) not in (None, False)}}


def _open(living: State, _: str, members: Members) -> None:
    fd, opened = members["fd"], Opened(members, living.step, False)
    if fd in living.descriptors:
        _put_below(living.descriptors, fd, opened)
    else:
        living.descriptors[fd] = (opened,)


def _adopt(living: State, _: str, members: Members) -> None:
    _put_below(living.descriptors, members["fd"], Opened(members, living.step, True))


def _close(living: State, _: str, members: Members) -> None:
    living.descriptors.pop(members["fd"], None)


def _put_below(descriptors: dict[int, Openings], fd: int, opened: Opened) -> None:
    """Opens a number: if it is open already the call is moot, so earlier openings come first."""
    there = descriptors.get(fd, ())
    if not any(one.certain for one in there):
        descriptors[fd] = (opened, *there)


def _duplicate(living: State, _: str, members: Members) -> None:
    """Opens a number as a duplicate of another: if that is not open, the number stays as it is."""
    descriptors, fd, to = living.descriptors, members["fd"], members["to"]
    above = descriptors.get(fd, ())
    if fd == to or not above:
        return
    if above[0].certain:
        descriptors[to] = above
        return
    below = tuple(one for one in descriptors.get(to, ()) if not any(one.like(other) for other in above))
    descriptors[to] = below + above


def _confine(living: State, op: str, members: Members) -> None:
    """Follows no_new_privs and the calls on rulesets."""
    if op == "nnp":
        if not living.promised:
            living.promised = True
            living.take(Promised())
        return
    rs = members["rs"]
    ruleset = living.rulesets.get(rs)
    if op == "create":
        if ruleset is None:
            living.rulesets[rs] = made = Ruleset(rs, _of("create", members))
            living.take(Made(made))
    elif ruleset is None:
        return
    elif op == "close_rs":
        del living.rulesets[rs]
    elif op == "restrict":
        living.take(Confined(ruleset, len(ruleset.rules)))
    else:
        ruleset.rules.append(_of(op, members))


def _openings(living: State) -> dict[Opened, int | None]:
    """What must be opened for a process, each with the number under which it may be opened directly, if any."""
    found: dict[Opened, int | None] = {}
    for fd, openings in living.descriptors.items():
        for opened in openings:
            if not opened.certain:
                found.setdefault(opened, fd if len(openings) == 1 else None)
    return found


#: How each operation changes its process.
_CHANGES: dict[str, Callable[[State, str, Members], None]] = {
    "open": _open,
    "close": _close,
    "adopt": _adopt,
    "dup": _duplicate,
    **dict.fromkeys(("nnp", "create", "add_path", "add_port", "close_rs", "restrict"), _confine),
}


@dataclass(slots=True, eq=False)
class _Carrier:
    """A process that walks along the steps: its number, what it opened for others, and the rulesets that it holds."""

    pid: int
    opened: dict[Opened, int] = field(default_factory=dict)
    rulesets: dict[int, Ruleset] = field(default_factory=dict)


#: A carrier that is before a step, and the processes that come after the step.
_Branch = tuple[_Carrier, Step, list[int]]


class _Again:
    """The records that are written again for some processes."""

    def __init__(self, by_pid: Mapping[int, State]) -> None:
        self._by_pid = by_pid
        self._records: list[Record] = []
        self._last: dict[int, Record] = {}
        self._number = FIRST_OF_CARRIERS
        self._after: dict[Step, dict[Step, list[int]]] = {}
        self._openings = {pid: _openings(living) for pid, living in by_pid.items()}

    def records(self) -> list[Record]:
        """All records, those of one started process after those of another."""
        branches = [(_Carrier(self._pid_for(pids)), step, pids) for step, pids in self._roots().items()]
        branches.reverse()
        while branches:
            branches.extend(reversed(self._walk(*branches.pop())))
        return self._records

    def _roots(self) -> dict[Step, list[int]]:
        """The first steps, each with the processes that come after it; those after every other step are kept."""
        roots: dict[Step, list[int]] = {}
        for pid, living in self._by_pid.items():
            step = living.step
            while step.before is not None:
                self._after.setdefault(step.before, {}).setdefault(step, []).append(pid)
                step = step.before
            roots.setdefault(step, []).append(pid)
        return roots

    def _pid_for(self, pids: list[int]) -> int:
        """The carrier of some processes: a process that is alone carries itself."""
        return pids[0] if len(pids) == 1 else self._made_up()

    def _made_up(self) -> int:
        self._number += 1
        return self._number - 1

    def _say(self, pid: int, record: Record) -> Record:
        said = {"op": record["op"], "pid": pid, **{name: value for name, value in record.items() if name != "op"}}
        said["again"] = True
        self._records.append(said)
        self._last[pid] = said
        return said

    def _walk(self, carrier: _Carrier, step: Step, pids: list[int]) -> list[_Branch]:
        """Takes steps up to the next one where processes divide or one of them stops; returns the branches from it."""
        while True:
            self._take(carrier, step, pids)
            here = [pid for pid in pids if self._by_pid[pid].step is step]
            further = self._after.get(step, {})
            if len(here) + len(further) > 1:
                return self._part(carrier, step, here, further)
            self._open_at(carrier, step, pids)
            if here:
                self._finish(carrier, here[0])
                return []
            (step,) = further

    def _part(self, carrier: _Carrier, step: Step, here: list[int], further: dict[Step, list[int]]) -> list[_Branch]:
        """Forks a carrier for each process that stays and for each step that comes next."""
        branches: list[_Branch] = []
        for pid in here:
            child = self._fork(carrier, pid, [pid])
            self._open_at(child, step, [pid])
            self._finish(child, pid)
        for after, pids in further.items():
            child = self._fork(carrier, self._pid_for(pids), pids)
            self._open_at(child, step, pids)
            branches.append((child, after, pids))
        self._say(carrier.pid, {"op": "exit"})
        return branches

    def _fork(self, carrier: _Carrier, pid: int, pids: list[int]) -> _Carrier:
        """A carrier of its own for some processes, without what none of them needs."""
        self._last[pid] = self._say(carrier.pid, {"op": "fork", "child": pid})
        child = _Carrier(pid, dict(carrier.opened), dict(carrier.rulesets))
        needed = {opened for one in pids for opened in self._openings[one]}
        for opened in [opened for opened in child.opened if opened not in needed]:
            self._say(pid, {"op": "close", "fd": child.opened.pop(opened)})
        for ruleset in [ruleset for ruleset in child.rulesets.values() if not self._is_held(ruleset, pids)]:
            self._say(pid, {"op": "close_rs", "rs": ruleset.rs})
            del child.rulesets[ruleset.rs]
        return child

    def _is_held(self, ruleset: Ruleset, pids: Iterable[int]) -> bool:
        return any(self._by_pid[pid].rulesets.get(ruleset.rs) is ruleset for pid in pids)

    def _take(self, carrier: _Carrier, step: Step, pids: list[int]) -> None:
        """Takes a step."""
        match step.did:
            case Started(members=members):
                self._say(carrier.pid, {"op": "start", **members})
            case Promised():
                self._say(carrier.pid, {"op": "nnp"})
            case Ran(path=path, first=first):
                ran: Record = {"path": path, "first": True} if first else {"path": path}
                self._last[carrier.pid].setdefault("ran", []).append(ran)
            case Made(ruleset=ruleset) if self._is_held(ruleset, pids):
                self._fill(carrier, ruleset.rs, ruleset, len(ruleset.rules))
                carrier.rulesets[ruleset.rs] = ruleset
            case Confined(ruleset=ruleset, rules=rules):
                rs = self._made_up()
                self._fill(carrier, rs, ruleset, rules)
                self._say(carrier.pid, {"op": "restrict", "rs": rs})
                self._say(carrier.pid, {"op": "close_rs", "rs": rs})

    def _fill(self, carrier: _Carrier, rs: int, ruleset: Ruleset, rules: int) -> None:
        self._say(carrier.pid, {**ruleset.handled, "rs": rs})
        for rule in ruleset.rules[:rules]:
            self._say(carrier.pid, {**rule, "rs": rs})

    def _open_at(self, carrier: _Carrier, step: Step, pids: list[int]) -> None:
        """Opens what processes have open since this step; for a process alone, under its own number if possible."""
        for pid in pids:
            for opened, number in self._openings[pid].items():
                if opened.step is step and opened not in carrier.opened:
                    fd = self._made_up() if number is None or carrier.pid != pid else number
                    carrier.opened[opened] = fd
                    self._say(carrier.pid, {**opened.record, "fd": fd})

    def _finish(self, carrier: _Carrier, pid: int) -> None:
        """Gives a process its numbers, and closes what carriers opened."""
        living = self._by_pid[pid]
        if living.starting:
            self._last[pid]["starting"] = True
        for fd, openings in living.descriptors.items():
            for opened in openings:
                if opened.certain:
                    self._say(pid, {**opened.record, "fd": fd})
                elif carrier.opened[opened] != fd:
                    self._say(pid, {"op": "dup", "fd": carrier.opened[opened], "to": fd})
        for fd in carrier.opened.values():
            if fd >= FIRST_OF_CARRIERS:
                self._say(pid, {"op": "close", "fd": fd})
