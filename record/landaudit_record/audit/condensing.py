"""Distills a recording: what each call asks a policy, and of its process what decides the answer.

Landlock answers a call by the layers of its process, and a call on a descriptor also by the layers that were there when
it was opened. Where a policy is put in depends on the programs that were run. So calls are one if their records say the
same, if their processes took the same steps (`restoring`), and if their descriptors were opened alike. Calls that ask a
policy nothing, as of descriptors that are closed, are left out.
"""

from __future__ import annotations

import re
from collections import Counter
from collections.abc import Iterator
from itertools import chain
from pathlib import Path

from ..common import jsonl
from ..common.finished import REACH, Finished
from ..common.jsonl import Record
from ..common.operations import JUDGED, RULESET_CALLS
from ..common.problems import Problem
from ..common.reach import PTRACE
from ..common.restoring import Confined, Living, Opened, Promised, Ran, Started, State, Step
from ..recorder.calls.ptrace import INTO_ANOTHER
from . import leftovers, surroundings
from .distilled import DistilledCall, DistilledProcess, DistilledSection, text

#: Members of a record that say nothing of what it asks.
_OF_RUN = frozenset({"op", "pid", "call", "fd", "rs", "again", "ran", "starting", "policy", "stands_for"})
_ASKING = JUDGED | RULESET_CALLS
_DIGITS = re.compile("[0-9]+")


def section(recording: Finished) -> DistilledSection:
    """What is kept of a recording."""
    condensing = Condensing()
    for part in recording.parts:
        condensing.follow(part.trace)
    kept = {text(line) for part in recording.parts for _, line in jsonl.numbered(part.tree)}
    kept |= {text({"before": line["path"], **{name: line[name] for name in ("kind", "target") if line.get(name)}})
             for line in chain(surroundings.lines_of(recording.folder), surroundings.links_of(recording.folder))}
    kept |= {text({"left": path}) for path in leftovers.of(recording)}
    return DistilledSection(_facts(recording), kept | condensing.numbers(kept), condensing.calls)


def _facts(recording: Finished) -> str:
    """What could not be recorded, or is not kept of it, and on which machine it was made."""
    reaching = _reaching(recording.folder)
    looks = Counter({INTO_ANOTHER: reaching.pop(PTRACE, 0)})
    found = {"holes": recording.holes + looks, "scopes": recording.scopes + reaching, "unsaid": recording.unsaid + looks}
    counts = {name: dict(sorted(of.items())) for name, of in found.items()}
    lists = {name: sorted(getattr(recording, name)) for name in ("too_large", "untraced")}
    said = {"ended": recording.ended, "machine": surroundings.machine_of(recording.folder)}
    return text({**counts, **lists, **said})


def _reaching(folder: Path) -> Counter[str]:
    """The calls that reach other processes, by what they ask: whom they reach is not kept, so none is judged."""
    file = folder / REACH
    return Counter(str(said.get("asks")) for _, said in (jsonl.numbered(file) if file.exists() else ()))


class Condensing:
    """Follows the parts of a recording, and counts its calls."""

    def __init__(self) -> None:
        self.calls: Counter[DistilledCall] = Counter()
        self._pids: set[int] = set()
        self._steps: dict[Step, tuple[str, ...]] = {}
        self._living = Living()
        self._call: tuple[int, int] | None = None
        self._process: DistilledProcess | None = None
        self._records: list[Record] = []
        self._opened: dict[Opened, int] = {}

    def follow(self, trace: Path) -> None:
        """Follows a part: all processes begin in it."""
        self._living = Living()
        for number, record in jsonl.numbered(trace):
            try:
                self._follow(number, record)
            except (KeyError, TypeError) as error:
                raise Problem(f"{trace} line {number} is not a record: {error!r}") from error
        self._end()
        self._steps.clear()

    def _follow(self, number: int, record: Record) -> None:
        pid = record["pid"]
        call = pid, record.get("call", -number)
        if call != self._call:
            self._end()
            self._call = call
        self._pids.add(pid)
        if record["op"] in _ASKING and "again" not in record:
            self._ask(record)
        self._living.follow_written(record)
        if record["op"] == "open" and self._records:
            self._note_opened(pid, record)

    def _end(self) -> None:
        """Counts the call that has ended."""
        if self._process is not None:
            self.calls[DistilledCall(text(self._records), self._process)] += 1
        self._process = None
        self._records = []
        self._opened = {}

    def _ask(self, record: Record) -> None:
        """Takes a record, if the policy may be asked about it."""
        state = self._living.of(record["pid"])
        if state is None:
            raise TypeError(f"process {record['pid']} did not start")
        about = {name: value for name, value in record.items() if name not in _OF_RUN}
        asked = {**{name: about.pop(name) for name in ("path", "from", "to", "port") if name in about},
                 "op": record["op"], **about}
        if "rs" in record:
            asked["rs"] = record["rs"]
            held = state.rulesets.get(record["rs"]) if record["op"] != "create" else None
            asked.update({"of": held.handled} if held is not None else {})
        if "fd" in record:
            on = list(self._openings(state, record["fd"]))
            if record["op"] != "open" and (not on or on[0].get("op") == "adopt" and len(on) == 1):
                return
            asked.update({"on": on} if on else {})
        if self._process is None:
            self._process = DistilledProcess(self._steps_to(state.step), state.starting)
        self._records.append(asked)

    def _openings(self, state: State, fd: int) -> Iterator[Record]:
        """What a number may be open on: an opening of this call by its place among these, others as records; `ago` is
        how many steps its process has taken since.
        """
        here = len(self._steps_to(state.step))
        for opened in state.descriptors.get(fd, ()):
            number = self._opened.get(opened)
            if number is not None:
                yield {"fd": number}
            else:
                ago = here - len(self._steps_to(opened.step))
                yield opened.record | ({"ago": ago} if ago else {})

    def _note_opened(self, pid: int, record: Record) -> None:
        """Notes the opening of a call, by its place among the openings of this call."""
        state = self._living.of(pid)
        number = sum(one["op"] == "open" for one in self._records) - 1
        for opened in () if state is None else state.descriptors.get(record["fd"], ()):
            if opened.members is record:
                self._opened[opened] = number

    def _steps_to(self, step: Step | None) -> tuple[str, ...]:
        """The steps of a process that decide answers, each as text."""
        known = None if step is None else self._steps.get(step)
        if known is not None:
            return known
        way: list[Step] = []
        while step is not None and step not in self._steps:
            way.append(step)
            step = step.before
        steps = () if step is None else self._steps[step]
        for one in reversed(way):
            said = _step(one)
            steps = steps if said is None else (*steps, text(said))
            self._steps[one] = steps
        return steps

    def numbers(self, kept: set[str]) -> set[str]:
        """Lines with the numbers of processes that are in names, by which `suggest` knows names that will differ."""
        named = {int(digits) for line in (*kept, *(asked.records for asked in self.calls))
                 for digits in _DIGITS.findall(line)}
        return {text({"number": pid}) for pid in self._pids & named}


def _step(step: Step) -> Record | None:
    """A step, None for one on which no answer depends."""
    match step.did:
        case Started(members=members):
            return {"start": True, **members}
        case Promised():
            return {"nnp": True}
        case Ran(path=path, first=first):
            return {"ran": path, **({"first": True} if first else {})}
        case Confined(ruleset=ruleset, rules=rules):
            return {"layer": [ruleset.handled, *ruleset.rules[:rules]]}
    return None
