"""Tries a policy on a recording: writes its records into a trace before programs are run.

The records say what landaudit-policy confine does before it runs a program:
no_new_privs is set, then each layer's ruleset is made, filled, and restricts
the process.
"""

from __future__ import annotations

import difflib
import shutil
from collections import Counter
from collections.abc import Container, Iterator, Mapping, Sequence
from dataclasses import dataclass, field
from functools import partial
from itertools import islice, takewhile
from pathlib import Path
from typing import Any, BinaryIO, NamedTuple

from ..common import apart, jsonl
from ..common.jsonl import Record
from ..common.operations import MAKING, MOVES, OPERATIONS
from ..common.problems import Problem
from ..common.resolving import NOWHERE, LinkLoop, Walked
from ..common.rights import Rights
from ..common.trace_lines import AGAIN, CREATES, HEAD, IN_DOUBT, STANDS_FOR, heads
from ..common.trees import Tree, upwards
from ..common.wording import some_of
from ..engine.processes import program_run
from . import parents
from .fitting import FittedLayer
from .parents import Parent
from .policies import Policy

MOST_PROGRAMS_SHOWN = 8
MOST_RECORDS = 1_000_000
MOST_LINES_OF_A_CALL = 1_000
#: The beginnings of lines that are not about programs, processes and rulesets.
_TELL_NOTHING = heads(OPERATIONS.keys() - {"start", "exec", "exit", "create"})
#: The operations that take an object from a name, and those that give it one; an open may do so too.
_TAKING = ("rename", "unlink", "rmdir")
_GIVING = (MAKING | MOVES) - {"open"}


class Handled(NamedTuple):
    """The rights that a recorded ruleset handles: for files, and for the network."""

    fs: Rights
    net: Rights

    @classmethod
    def of(cls, record: Record) -> Handled:
        """Those of a `create`."""
        return cls(frozenset(record.get("fs", ())), frozenset(record.get("net", ())))


@dataclass(frozen=True)
class Plan:
    """Where a policy goes in a trace.

    `before` has the lines before which it goes, each with the process; `behind` has the lines after which it goes,
    since they repeat for a process what it had when it ran a program. `rs` is a ruleset number that the trace never
    uses, `lines` the number of its lines, and `programs` the programs that it runs. `own` has what its rulesets handle.
    Before a named program, `gone` has the names that the trace takes from objects, or gives to others in their place,
    before it runs, and `all_gone` all of these. `put` has how often it gives a name at a real path or moves what is there,
    `put_before` the paths at which it does so before it runs the program for the first time.
    """

    before: dict[int, int]
    rs: int
    lines: int
    behind: dict[int, list[int]] = field(default_factory=dict)
    programs: frozenset[str] = frozenset()
    own: frozenset[Handled] = frozenset()
    gone: frozenset[str] = frozenset()
    all_gone: frozenset[str] = frozenset()
    put: Mapping[str, int] = field(default_factory=dict)
    put_before: frozenset[str] = frozenset()

    @property
    def times(self) -> int:
        """How often the policy goes in."""
        return len(self.before) + sum(map(len, self.behind.values()))

    def records(self, inserted: list[Record]) -> int:
        """How many records the trace has with the policy's."""
        return self.lines + self.times * len(inserted)


class _Planning:
    """A walk over a trace that finds where a policy goes; it does not parse lines on which nothing depends.

    `_starting` has the processes that the recording starts and that have run no program yet. `_last` has the last
    lines, in which the walk looks for the earlier records of a system call: those of the present block and of the one
    before it, up to the present one; the first of them has the number `_first`.
    """

    def __init__(self, trace: Path, tree: Tree, program: str | None) -> None:
        self._trace = trace
        self._tree = tree
        self._program = program
        self._named = None if program is None else _paths_of(program, tree)
        self._skipped = _TELL_NOTHING if program is None else _TELL_NOTHING - heads({*_TAKING, *_GIVING})
        self._starting: set[int] = set()
        self._last: list[bytes] = []
        self._first = 1
        self._programs: set[str] = set()
        self._before: dict[int, int] = {}
        self._behind: dict[int, list[int]] = {}
        self._rs = 0
        self._own: set[Handled] = set()
        self._all_gone: set[str] = set()
        self._gone: frozenset[str] = frozenset()
        self._put = Counter[str]()
        self._put_before: frozenset[str] | None = None

    def found(self) -> Plan:
        """Where the policy goes."""
        known, are_again, before = 0, True, list[bytes]()
        with open(self._trace, "rb") as lines:
            while block := list(islice(lines, MOST_LINES_OF_A_CALL)):
                self._first, self._last = known + 1 - len(before), before + block
                again = sum(1 for _ in takewhile(lambda line: AGAIN in line, block)) if are_again else 0
                are_again = again == len(block)
                for index in [index for index, line in enumerate(block)
                              if line[:HEAD] not in self._skipped or index < again or self._may_create(line)]:
                    if block[index].strip(jsonl.BLANKS):
                        self._take(known + index + 1, block[index])
                known, before = known + len(block), block
        return Plan(self._before, self._rs + 1, known, self._behind, frozenset(self._programs), frozenset(self._own),
                    self._gone, frozenset(self._all_gone), self._put, self._put_before or frozenset())

    def _may_create(self, line: bytes) -> bool:
        """Whether a line may be an open that makes a file, if that counts."""
        return self._named is not None and CREATES[0] in line

    def _take(self, number: int, line: bytes) -> None:
        record = jsonl.read(self._trace, number, line)
        pid = _number(self._trace, number, record, "pid")
        if "rs" in record:
            self._rs = max(self._rs, _number(self._trace, number, record, "rs"))
        about = record.get("child", pid)
        if record.get("op") in _TAKING and record.get("kernel") == "ok" and self._named is not None:
            taken = (record[end] for end in ("path", "from", "to") if end in record)
            self._all_gone.update(path for path in taken if path in self._tree.kinds)
        if self._named is not None and record.get("kernel") == "ok":
            self._put.update(_given(record))
        if record.get("op") == "create":
            self._own.add(Handled.of(record))
        if (record.get("op") == "start" and "again" not in record) or "starting" in record:
            self._starting.add(about)
        elif record.get("op") == "exit":
            self._starting.discard(pid)
        for ran in record.get("ran", ()):
            if "first" in ran if self._named is None else self._is_named(ran["path"]):
                self._behind.setdefault(number, []).append(about)
                self._begins()
        path = program_run(record)
        if path is not None:
            self._programs.add(self._tree.real(path))
            if pid in self._starting if self._named is None else self._is_named(path):
                self._before[self._first_line(number, pid, record.get("call"))] = pid
                self._begins()
            self._starting.discard(pid)

    def _begins(self) -> None:
        """Notes what the trace has taken and given when the policy goes in."""
        self._gone = frozenset(self._all_gone)
        if self._put_before is None:
            self._put_before = frozenset(self._put)

    def _is_named(self, path: str) -> bool:
        real = self._tree.real(path)
        return self._named is not None and (real in self._named or _last_name(real) == self._program)

    def _first_line(self, first: int, pid: int, call: Any) -> int:
        """The line of the first record of a system call, given the line of its last record.

        The records that start a process come before its first call, even if they share its number.
        """
        earliest = max(first - MOST_LINES_OF_A_CALL, self._first)
        for number in range(first - 1, earliest - 1, -1) if call is not None else ():
            line = self._last[number - self._first]
            if not line.strip(jsonl.BLANKS):
                continue
            record = jsonl.read(self._trace, number, line)
            if record.get("op") == "fork" and record.get("child") == pid:
                break
            if record.get("pid") == pid:
                if record.get("op") in ("start", "adopt") or record.get("call") != call:
                    break
                first = number
        return first


def _given(record: Record) -> dict[str, int]:
    """The real paths at which a record gives an object a name, or takes it to give it another one; twice if it is not
    known, or an exchange.
    """
    if record["op"] not in _GIVING and not record.get("create"):
        return {}
    names = [("to", "shown_to")] if record["op"] in MOVES else [("path", "shown")]
    names += [("from", "shown")] if record["op"] == "rename" else []
    times = 2 if record.get("exchange") or any(one in record for one in IN_DOUBT) else 1
    return {record.get(shown) or record[name]: times for name, shown in names}


def plan(trace: Path, tree: Tree, program: str | None) -> Plan:
    """Where a policy goes in a trace.

    It goes before the first program of each starting process or, if a program
    is named, before each run of that program: before the first of the records
    that stand for the system call.
    """
    return plans([trace], tree, program)[0]


def plans(traces: Sequence[Path], tree: Tree, program: str | None, most: int = 1) -> list[Plan]:
    """Where a policy goes in the traces of a recording's parts, as `plan` says; a Problem if it goes nowhere.

    At most some processes read the parts at once.
    """
    found = list(apart.each((partial(places, trace, tree, program) for trace in traces), most))
    if not any(one.times for one in found):
        raise Problem(_nowhere(traces[0], program, sorted(set().union(*(one.programs for one in found)))))
    return found


def places(trace: Path, tree: Tree, program: str | None) -> Plan:
    """Where a policy goes in a trace, if it goes anywhere."""
    return _Planning(trace, tree, program).found()


def _number(trace: Path, line: int, record: Record, member: str) -> int:
    value = record.get(member)
    if type(value) is not int:
        raise Problem(f"{trace} line {line} is not a record: its {member} is not a number")
    return value


def _paths_of(program: str, tree: Tree) -> set[str]:
    """The paths that a program's name stands for: a link of that name leads to the file that is run."""
    names = [program] if "/" in program else [path for path in tree.targets if _last_name(path) == program]
    return {_led(tree, name, f"--program {program}", whole=True).path for name in names}


def _last_name(path: str) -> str:
    return path.rpartition("/")[2]


def _nowhere(trace: Path, program: str | None, programs: list[str]) -> str:
    """The message that a policy has no place in a trace, and what to do."""
    if not programs:
        return f"{trace} runs no program (it has no exec record): there is nowhere to put the policy"
    if program is None:
        return f"no process that {trace} starts runs a program itself: name one with --program, such as {programs[0]}"
    near = difflib.get_close_matches(program, [*map(_last_name, programs), *programs], n=1)
    meant = f", did you mean {near[0]}?" if near else ":"
    shown = ", ".join(programs[:MOST_PROGRAMS_SHOWN])
    left = len(programs) - MOST_PROGRAMS_SHOWN
    return f"{trace} never runs {program}{meant} it runs {shown}{f' and {left} more' if left > 0 else ''}"


def not_known(policy: Policy, tree: Tree) -> tuple[str, ...]:
    """The parents for which it is not known where they led when the run began, each once."""
    return tuple(dict.fromkeys(it.written for it in parents.each(policy, tree) if it.led.unknown is not None))


def moved(policy: Policy, tree: Tree, plans: Sequence[Plan], *, in_order: bool = True) -> tuple[str, ...]:
    """The parents at which another object may be when a named program begins than when the run does, each once: the run
    takes what is there, or is on the way to it, from its name before. If the calls are not in their order, it may do so
    whenever it does.

    A sandboxer that runs the program puts the rule on the other one.
    """
    gone = _gone(plans) if in_order else set[str]().union(*(one.all_gone for one in plans))
    ways = ((it.written, (it.written, it.led.path, *it.led.links)) for it in parents.each(policy, tree))
    return tuple(dict.fromkeys(written for written, way in ways if any(not gone.isdisjoint(upwards(on)) for on in way)))


def _gone(plans: Sequence[Plan]) -> set[str]:
    """The names that the parts of a trace take from objects before the named program runs for the last time."""
    gone, earlier = set[str](), set[str]()
    for one in plans:
        gone |= one.gone | earlier if one.times else set()
        earlier |= one.all_gone
    return gone


def made_before(tree: Tree, plans: Sequence[Plan]) -> frozenset[str]:
    """What the run makes before a named program begins, and neither moves nor puts another object in its place: a
    sandboxer that runs the program can put a rule on it.
    """
    first = next((number for number, one in enumerate(plans) if one.times), 0)
    before = {path for one in plans[:first] for path in one.put} | plans[first].put_before
    put = sum((Counter(one.put) for one in plans), Counter[str]())
    gone = _gone(plans)
    return frozenset(path for path in before if tree.put.get(path) == path and tree.kinds[path] != "sym" and all(
        put[tree.real(over)] == (over in tree.made) and over not in gone for over in upwards(path)))


def notes_on_way(parent: Parent) -> Iterator[str]:
    """Notes on a parent that leads elsewhere than its name says, by links of this disk, or that leads nowhere."""
    led = parent.led
    if led.blocked is not None and led.unknown is None:
        yield f"{parent.place}: no rule, since {led.blocked} was no directory when the run began"
    elif led.now:
        yield f"{parent.place}: the recording does not have {some_of(led.now)}: on this disk it leads to {led.path}"


def _led(tree: Tree, path: str, place: str, *, whole: bool = False) -> Walked:
    """Where a path leads when the run begins; with `whole`, at some time of the run."""
    try:
        return tree.walked(path, whole=whole)
    except LinkLoop as loop:
        raise Problem(f"{place}: {path} is a loop of symbolic links in the tree: name another path") from loop


def records(
    policy: Policy, layers: tuple[FittedLayer, ...], tree: Tree, rs: int, there: Container[str] = ()
) -> list[Record]:
    """A policy's records for one process, without a pid. The member `policy` of each names its part of the policy.

    `there` are objects that the run makes, and that are there when the policy goes in.
    """
    made: list[Record] = [{"op": "nnp", "policy": {}}]
    for layer in layers:
        made.extend(_of_layer(policy, layer, tree, rs, there))
    return made


def _of_layer(
    policy: Policy, layer: FittedLayer, tree: Tree, rs: int, there: Container[str]
) -> Iterator[Record]:
    origin: dict[str, Any] = {"layer": layer.number}
    yield {"op": "create", "rs": rs, "fs": layer.handled_fs, "net": layer.handled_net, "policy": origin}
    for rule in layer.path_rules:
        for parent in rule.parents:
            led = _led(tree, parent, f"{policy.path}: layer {layer.number}, {rule.place}, parent")
            path = led.path if led.is_sure or led.path not in tree.kinds else NOWHERE
            rights = rule.on(tree.kind(path))
            if not rights or (rule.group is not None and not (tree.is_there_before(path) or path in there)):
                continue
            of_rule: dict[str, Any] = {**origin, "rule": str(rule.place), "parent": parent}
            for name, about in _on(tree, path, there):
                yield {
                    "op": "add_path",
                    "rs": rs,
                    "path": name,
                    "fs": rights,
                    "policy": {**of_rule, **about},
                }
    for port_rule in layer.port_rules:
        for port in port_rule.ports:
            of_rule = {**origin, "rule": str(port_rule.place), "port": port}
            yield {"op": "add_port", "rs": rs, "port": port, "net": port_rule.on_port, "policy": of_rule}
    yield {"op": "restrict", "rs": rs, "policy": origin}
    yield {"op": "close_rs", "rs": rs, "policy": origin}


def _on(tree: Tree, path: str, there: Container[str]) -> Iterator[tuple[str, dict[str, Any]]]:
    """The names on which the records of a rule are, each with further members for the record.

    A rule is on an object, so it has a record for each name of the object. An object that the run makes has no rule,
    since nobody can open it before the run: the record is on a name that no object has, and moot, and `made` names the
    directory to grant on. If the run later puts another object at the path, `replaced` names that directory.
    """
    if path in there:
        yield path, {}
        return
    made = next((over for over in upwards(path) if over in tree.made), None)
    if made is None and path not in tree.kinds:
        made = tree.put.get(path)
    if made is not None:
        yield NOWHERE, {"made": tree.before(made)}
        return
    for name in tree.names(path):
        yield name, {"replaced": tree.before(tree.put[path])} if name == path and tree.is_replaced(path) else {}


def write(trace: Path, places: Plan, inserted: list[Record], out: BinaryIO) -> None:
    """Writes a trace with records inserted by a plan; the trace's own lines do not change.

    What goes before a record of a distilled recording stands for as many calls as that.
    """
    total = places.records(inserted)
    if total > MOST_RECORDS:
        raise Problem(f"with the policy put in {places.times} times {trace} has {total:,} records, and landaudit "
                      f"reads {MOST_RECORDS:,}: name another program with --program, or record less")
    at = 0
    with open(trace, "rb") as lines:
        for number in sorted({*places.before, *places.behind}):
            out.writelines(islice(lines, number - 1 - at))
            pid, line = places.before.get(number), next(lines, b"")
            if pid is not None:
                found = STANDS_FOR.search(line)
                often = {} if found is None else {"stands_for": int(found[1])}
                out.writelines(jsonl.line({**record, "pid": pid, **often}).encode() for record in inserted)
            out.write(line)
            for again in places.behind.get(number, ()):
                out.writelines(jsonl.line({**record, "pid": again, "again": True}).encode() for record in inserted)
            at = number
        shutil.copyfileobj(lines, out)
