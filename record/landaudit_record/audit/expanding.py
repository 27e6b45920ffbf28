"""Reads distilled recordings as recordings: for each, writes a tree and a trace that ask what it asks.

The trace is as a part of a recording (`restoring`): it begins with records that give each process its layers, its programs
and its descriptors, and that no audit counts. Then each process asks its calls, each once; the member `stands_for` of a
record says how many it stands for, 0 for one that only prepares another. What changes a process is asked by one that
ends then: a fork of it or, where a policy may be put before it (`applying`), a process of its own.
"""

from __future__ import annotations

import json
import shutil
import tempfile
import weakref
from collections import Counter
from collections.abc import Iterable, Iterator, Mapping, Sequence
from dataclasses import dataclass, field
from itertools import count
from pathlib import Path
from typing import Any

from ..common import finished, jsonl, restoring, trace_lines
from ..common.finished import Finished
from ..common.jsonl import Record
from ..common.operations import OPERATIONS, RULESET_CALLS
from ..common.problems import Problem
from ..common.restoring import FIRST_OF_CARRIERS, Confined, Opened, Promised, Ran, Ruleset, Started, State, Step
from ..common.trace_lines import FIRST_MADE_UP
from ..common.trees import upwards
from ..engine.processes import program_run
from . import distilled, surroundings
from .distilled import DistilledCall, DistilledProcess, DistilledSection

#: The most objects and records of a part, with room for those of a policy; landaudit reads some more.
MOST_OBJECTS, MOST_RECORDS = 60_000, 500_000
#: The number of the first process that asks: the numbers below are of processes that only prepare others.
FIRST_ASKER = 2 * FIRST_OF_CARRIERS
#: The number of the trace's last call in which nothing is asked.
_NO_CALL = 0


class _Scratch:
    """A folder that is removed when no recording in it is in use any more, or when the program ends."""

    def __init__(self) -> None:
        self.folder = Path(tempfile.mkdtemp(prefix="landaudit-distilled-"))
        weakref.finalize(self, shutil.rmtree, self.folder, ignore_errors=True)


def opened(name: str) -> list[tuple[str, Finished]]:
    """The recording in a folder, or those in a distilled file, each with a name."""
    path = Path(name)
    if not distilled.is_distilled(path):
        return [(name, finished.opened(name))]
    sections = distilled.read(path)
    names = [name] if len(sections) == 1 else [f"{name} ({number})" for number in range(1, len(sections) + 1)]
    try:
        return [(one, _finished(section)) for one, section in zip(names, sections)]
    except (KeyError, TypeError, ValueError, AttributeError, IndexError, RecursionError) as error:
        raise Problem(f"{name} is not what landaudit-record distill writes: {error!r}") from error


def _finished(section: DistilledSection) -> Finished:
    """A section as a recording in a folder of its own."""
    scratch = _Scratch()
    folder, facts = scratch.folder, distilled.facts(section)
    kept = [json.loads(line) for line in section.lines]
    if facts["machine"] is not None:
        surroundings.write(folder, facts["machine"], _before(kept))
    tree = sorted((line for line in kept if "path" in line), key=lambda line: str(line["path"]).split("/"))
    numbers = [line["number"] for line in kept if "number" in line]
    pieces = list(_pieces(section.calls, tree))
    parts = finished.numbered(folder, len(pieces))
    for part, (calls, objects) in zip(parts, pieces):
        jsonl.write(part.tree, objects)
        _Trace(calls, numbers).write(part.trace)
    left = frozenset(line["left"] for line in kept if "left" in line)
    unsaid, holes, scopes = (Counter[str](facts[name]) for name in ("unsaid", "holes", "scopes"))
    return Finished(folder, tuple(parts), unsaid, holes, facts["ended"] is True, scopes, tuple(facts["untraced"]),
                    too_large=tuple(facts["too_large"]), left=left, scratch=scratch)


def _before(kept: Iterable[Record]) -> Iterator[Record]:
    """What was there when the run began, as a recording keeps it."""
    for line in kept:
        if "before" in line:
            target = {"target": line["target"]} if "target" in line else {}
            yield {"path": line["before"], "kind": line.get("kind"), **target}


def _pieces(
    calls: Mapping[DistilledCall, int], tree: Sequence[Record]
) -> Iterator[tuple[dict[DistilledCall, int], Sequence[Record]]]:
    """The calls for each part, with the objects that it lists: all of them if there is one part alone."""
    ordered = dict(sorted(calls.items()))
    if len(tree) <= MOST_OBJECTS and sum(_lines_of(asked) for asked in ordered) <= MOST_RECORDS:
        yield ordered, tree
        return
    known = {str(line["path"]): line for line in tree}
    some: dict[DistilledCall, int] = {}
    named: set[str] = set()
    weight = 0
    for asked, times in ordered.items():
        paths = {over for path in _named(asked) for over in upwards(path)} & known.keys()
        if some and (len(named | paths) > MOST_OBJECTS or weight + _lines_of(asked) > MOST_RECORDS):
            yield some, [line for path, line in known.items() if path in named]
            some, named, weight = {}, set(), 0
        some[asked] = times
        named |= paths
        weight += _lines_of(asked)
    yield some, [line for path, line in known.items() if path in named]


def _lines_of(asked: DistilledCall) -> int:
    """About how many lines a call has in a trace, with what prepares it."""
    return 4 + 3 * asked.records.count('"op":')


def _named(asked: DistilledCall) -> Iterator[str]:
    """The paths that a call names, its openings, and the layers of its process."""
    found = [json.loads(asked.records), *map(json.loads, asked.process.steps)]
    while found:
        value = found.pop()
        if isinstance(value, list):
            found += value
        elif isinstance(value, dict):
            yield from (value[name] for name in ("path", "from", "to", "ran") if isinstance(value.get(name), str))
            found += [inner for inner in value.values() if isinstance(inner, list)]


@dataclass
class _Asker:
    """A process that asks: its number, what it has, and the numbers under which it has openings."""

    pid: int
    state: State
    way: list[Step]
    numbers: dict[str, int] = field(default_factory=dict)


class _Trace:
    """The trace of some calls."""

    def __init__(self, calls: Mapping[DistilledCall, int], numbers: Sequence[int]) -> None:
        self._calls = calls
        self._numbers = numbers
        self._steps: dict[tuple[str, ...], Step] = {}
        self._opened: dict[tuple[str, Step], Opened] = {}
        self._states: dict[int, State] = {}
        self._askers: dict[DistilledProcess, _Asker] = {}
        self._pids = count(FIRST_ASKER)
        self._fds = count(FIRST_MADE_UP)
        self._call = _NO_CALL
        self._body: list[str] = []

    def write(self, path: Path) -> None:
        """Writes the trace."""
        for pid in self._numbers:
            self._say("start", pid, {}, 0)
            self._say("exit", pid, {}, 0)
        for asked, times in self._calls.items():
            self._ask(asked, times)
        with open(path, "w", encoding="utf-8") as out:
            out.writelines(map(jsonl.line, restoring.again(self._states)))
            out.writelines(self._body)

    def _ask(self, asked: DistilledCall, times: int) -> None:
        """Asks a call."""
        records = json.loads(asked.records)
        runs = any(program_run(record) is not None for record in records)
        self._call += 1
        if runs and asked.process.starting:
            self._say_all(self._made(asked.process), records, times)
            return
        asker = self._askers.get(asked.process) or self._made(asked.process)
        self._askers[asked.process] = asker
        self._prepare(asker, records)
        if runs or any(record["op"] in RULESET_CALLS for record in records):
            child = _Asker(next(self._pids), asker.state, asker.way, asker.numbers)
            self._say("fork", asker.pid, {"child": child.pid}, 0)
            self._say_all(child, records, times)
            self._say("exit", child.pid, {}, 0)
        else:
            self._say_all(asker, records, times)

    def _made(self, process: DistilledProcess) -> _Asker:
        """A process that has taken the steps of another one."""
        way: list[Step] = []
        for number in range(1, len(process.steps) + 1):
            way.append(self._step(process.steps[:number], way[-1] if way else None))
        asker = _Asker(next(self._pids), State(way[-1], process.starting), way)
        self._states[asker.pid] = asker.state
        return asker

    def _step(self, steps: tuple[str, ...], before: Step | None) -> Step:
        """The last of some steps; processes that begin alike share their steps."""
        known = self._steps.get(steps)
        if known is None:
            self._steps[steps] = known = Step(_did(json.loads(steps[-1])), before)
        return known

    def _prepare(self, asker: _Asker, records: Sequence[Record]) -> None:
        """Opens for a process what descriptors of a call are open on; an opening onto it needs a number of its own."""
        for record in records:
            outside = [one for one in record.get("on", ()) if "op" in one]
            if not outside:
                continue
            key = _key(record, len(asker.numbers) if record["op"] == "open" else None)
            record["number"] = key
            if key not in asker.numbers:
                asker.numbers[key] = next(self._fds)
                asker.state.descriptors[asker.numbers[key]] = tuple(self._opening(asker, one) for one in outside)

    def _opening(self, asker: _Asker, record: Record) -> Opened:
        """An opening between the same steps of a process."""
        step = asker.way[-1 - record.get("ago", 0)]
        key = distilled.text(record), step
        members = {name: value for name, value in record.items() if name not in ("op", "ago")}
        return self._opened.setdefault(key, Opened(members, step, record["op"] == "adopt"))

    def _say_all(self, asker: _Asker, records: Sequence[Record], times: int) -> None:
        """Writes the records of a call."""
        opened: list[int] = []
        for record in records:
            members = {name: of for name, of in record.items() if name not in ("op", "kernel", "on", "of", "number")}
            if "fd" in OPERATIONS[record["op"]].numbers:
                members["fd"] = self._number(asker, record, opened)
            if record["op"] == "open":
                opened.append(members["fd"])
            if "of" in record:
                self._say("create", asker.pid, {**record["of"], "rs": record["rs"]}, 0)
            self._say(record["op"], asker.pid, members, times, record.get("kernel"))

    def _number(self, asker: _Asker, record: Record, opened: Sequence[int]) -> int:
        """The number of a descriptor: of an opening of the same call, of one before, or a new one."""
        for one in record.get("on", ()):
            if "fd" in one:
                return opened[int(one["fd"])]
        return asker.numbers[record["number"]] if "number" in record else next(self._fds)

    def _say(self, op: str, pid: int, members: Mapping[str, Any], times: int, kernel: str | None = None) -> None:
        about = {name: value for name, value in members.items() if name != "op"}
        self._body.append(trace_lines.written(op, pid, {**about, "stands_for": times}, self._call, kernel))


def _key(record: Record, own: int | None) -> str:
    """What tells the numbers of a process apart: what they are open on, and for what they are."""
    return distilled.text([record["on"], own])


def _did(step: Record) -> Started | Promised | Ran | Confined:
    """A step, from a file."""
    if "ran" in step:
        return Ran(str(step["ran"]), "first" in step)
    if "layer" in step:
        handled, *rules = step["layer"]
        ruleset = Ruleset(0, handled, rules)
        return Confined(ruleset, len(rules))
    return Promised() if "start" not in step else Started({name: True for name in ("nnp", "admin") if step.get(name)})
