"""Calls of a recording that reach other processes, and the layers that refuse them: `reach` decides.

The calls are in `reach.jsonl` (docs/RECORDERS.md, "Other processes"). The layers of each process follow from the trace:
from its forks, from the restrictions that the program makes itself, and from the places of a policy that is tried.
"""

from __future__ import annotations

import re
from bisect import bisect_right
from collections import Counter
from collections.abc import Iterator, Mapping, Sequence
from dataclasses import dataclass
from pathlib import Path

from ..common import jsonl
from ..common.finished import REACH, Finished, Part
from ..common.jsonl import Record
from ..common.operations import OPERATIONS
from ..common.problems import Problem
from ..common.reach import ABSTRACT, PTRACE, SIGNAL, Domain, ProcessLayer, refusing
from ..common.trace_lines import AGAIN, HEAD, heads
from ..engine.answers import Objection, Scoped, Tracing
from ..engine.processes import program_run
from ..engine.subjects import at
from .auditor import TriedPolicy
from .summary import Refusal, RefusingLayer, Summary

#: What a call is called if its system call is not named.
_CALLS = {SIGNAL: SIGNAL, ABSTRACT: "connect", PTRACE: PTRACE}
_SYSTEM_CALL = re.compile(r"([a-z][a-z0-9_]*)\(")
#: What is outside of the recording, and a process of it that has run no program.
OUTSIDE, NAMELESS = "another process", "a process without a program"
_TELL_NOTHING = heads(OPERATIONS.keys() - {"start", "fork", "exec", "create", "close_rs", "restrict"})


@dataclass(frozen=True)
class Reach:
    """A call that reaches processes `to`, or a socket that the only one of these made behind record `since`.

    Both moments are numbers of records of the trace that come before. A process that the trace does not have is outside
    of the recording, and so are sockets of nobody.
    """

    asked: str
    pid: int
    to: tuple[int, ...]
    after: int
    since: int
    error: str
    call: str
    name: str | None


def read(folder: Path) -> Iterator[Reach]:
    """The calls of a recording that reach other processes."""
    file = folder / REACH
    for number, said in jsonl.numbered(file) if file.exists() else ():
        try:
            asked, after, instead = said["asks"], int(said["after"]), _CALLS[said["asks"]]
            named = _SYSTEM_CALL.match(str(said.get("call", "")))
            yield Reach(asked, int(said["pid"]), tuple(map(int, said["to"])), after, int(said.get("since", after)),
                        str(said.get("error", "EPERM")), instead if named is None else named[1], said.get("name"))
        except (KeyError, TypeError, ValueError) as error:
            raise Problem(f"{file} line {number} does not say who reaches whom: docs/RECORDERS.md") from error


@dataclass(frozen=True)
class _State:
    """What a process has behind a record of the trace."""

    after: int
    domain: Domain
    program: str | None


class Domains:
    """The layers and the program of each process of a recording, at each record of its trace."""

    def __init__(self, recording: Finished, tried: TriedPolicy | None, *, best_effort: bool) -> None:
        self._drops = best_effort
        self._policy = tried.policy.layers if tried is not None else ()
        self._states: dict[int, list[_State]] = {}
        #: The rulesets that each process holds, by its own numbers.
        self._held: dict[int, dict[int, Record]] = {}
        behind = 0
        for number, part in enumerate(recording.parts):
            behind = self._follow(part, behind, tried.places[number].before if tried is not None else {})

    def at(self, pid: int, after: int) -> Domain:
        """The layers of a process; none if it is outside of the recording."""
        state = self._state(pid, after)
        return () if state is None else state.domain

    def name(self, pid: int, after: int) -> str:
        """What a process is to a person: its program."""
        state = self._state(pid, after)
        return OUTSIDE if state is None else state.program or NAMELESS

    def program(self, pid: int, after: int) -> str | None:
        """The program of a process, if it has run one."""
        state = self._state(pid, after)
        return None if state is None else state.program

    def _state(self, pid: int, after: int) -> _State | None:
        states = self._states.get(pid, [])
        at = bisect_right(states, after, key=lambda state: state.after)
        return states[at - 1] if at else None

    def _follow(self, part: Part, behind: int, places: Mapping[int, int]) -> int:
        """Follows a part behind so many records, which it may begin by writing some again; gives how many there are."""
        again = True
        with open(part.trace, "rb") as lines:
            for number, line in enumerate(lines, start=1):
                again = again and AGAIN in line
                if again:
                    continue
                behind += 1
                if number in places:
                    layers = tuple(
                        ProcessLayer(of.handled_access_fs.rights | of.handled_access_net.rights, of.scoped, of.number)
                        for of in self._policy
                    )
                    self._add(places[number], behind, layers=layers)
                if line[:HEAD] not in _TELL_NOTHING and line.strip(jsonl.BLANKS):
                    self._take(jsonl.read(part.trace, number, line), behind)
        return behind

    def _take(self, record: Record, behind: int) -> None:
        pid = record.get("pid", 0)
        match record.get("op"):
            case "start":
                self._states.setdefault(pid, []).append(_State(behind, (), None))
                self._held[pid] = {}
            case "fork":
                state = self._state(pid, behind)
                inherited = _State(behind, *((state.domain, state.program) if state is not None else ((), None)))
                self._states.setdefault(record["child"], []).append(inherited)
                self._held[record["child"]] = dict(self._held.get(pid, {}))
            case "exec":
                self._add(pid, behind, program=program_run(record))
            case "create" if record.get("kernel", "ok") == "ok":
                self._held.setdefault(pid, {})[record["rs"]] = record
            case "close_rs":
                self._held.get(pid, {}).pop(record["rs"], None)
            case "restrict" if record.get("kernel", "ok") == "ok":
                made = self._held.get(pid, {}).get(record["rs"], {})
                rights = frozenset([*made.get("fs", ()), *made.get("net", ())])
                layer = ProcessLayer(rights, tuple(made.get("scoped", ())), drops=self._drops)
                self._add(pid, behind, layers=(layer,))

    def _add(self, pid: int, behind: int, *, layers: Domain = (), program: str | None = None) -> None:
        """A process gets layers, or runs a program."""
        state = self._state(pid, behind)
        if state is not None and (layers or program is not None):
            self._states[pid].append(_State(behind, (*state.domain, *layers), program or state.program))


def tell(summaries: Sequence[Summary], recording: Finished, tried: TriedPolicy | None, *, best_effort: bool) -> None:
    """Counts in the summaries of a recording what its calls that reach others are refused at their ABIs."""
    reaches = list(read(recording.folder))
    if not reaches:
        return
    domains = Domains(recording, tried, best_effort=best_effort)
    for reach in reaches:
        caller = domains.at(reach.pid, reach.after)
        others = [domains.at(pid, reach.since) for pid in reach.to] or [()]
        for summary in summaries if caller else ():
            layers = refusing(reach.asked, caller, others, summary.abi)
            if layers:
                refusal = _refusal(reach, caller, layers, summary.abi, _whom(reach, domains))
                program = domains.program(reach.pid, reach.after) or "-"
                summary.refusals.setdefault(refusal, Counter())[program] += 1
                summary.verdicts["refused"] += 1


def _whom(reach: Reach, domains: Domains) -> str:
    """What a call reaches, to a person: a name that it names, or the programs of the processes."""
    if reach.name is not None:
        return reach.name
    return ", ".join(dict.fromkeys(domains.name(pid, reach.since) for pid in reach.to)) or OUTSIDE


def _refusal(reach: Reach, caller: Domain, layers: Domain, abi: int, whom: str) -> Refusal:
    """A call as a kind of refused calls."""
    objection: Objection = Tracing(whom) if reach.asked == PTRACE else Scoped(reach.asked, whom)
    told = tuple(RefusingLayer(_number(caller, layer, abi), layer.policy, (objection,)) for layer in layers)
    return Refusal(reach.call, at(whom), reach.error, told, None)


def _number(domain: Domain, layer: ProcessLayer, abi: int) -> int | None:
    """The number of a layer as landaudit counts; one that has only scopes has none."""
    if not layer.is_numbered(abi):
        return None
    return sum(one.is_numbered(abi) for one in domain[: domain.index(layer) + 1])
