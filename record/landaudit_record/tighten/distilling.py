"""What the calls of a recording ask a policy: each question once, with how many calls ask it.

Landlock answers a call by the layers of its process and by what the call names, and a call on a descriptor by the
layers that the process had when it opened the descriptor. So, to try a policy that grants less, it is enough to ask one
call of each group that agrees in these, each by itself: the new policy refuses none of them exactly if it refuses no
call of the whole recording that passed before. Proof: take the first call of the recording that it would refuse. Until
then, everything went as before, so the call's layers, and what its descriptor is open on, are those of a question here.
The new policy may let a move or link pass that was refused, if the object would have gained rights that are no longer
granted: nothing that follows depends on such a call.
"""

from __future__ import annotations

import json
from collections import Counter
from collections.abc import Iterator
from dataclasses import dataclass, field
from pathlib import Path
from typing import Any, NamedTuple

from ..common import jsonl
from ..common.jsonl import Record
from ..common.operations import DESCRIPTOR_CALLS, JUDGED, OPERATIONS
from ..common.problems import Problem
from ..common.trace_lines import ENDS, FD, OWN_OF_OPENING, POLICY, body
from ..engine import reports
from ..engine.processes import of_policy

#: Members as the report has them.
_PID, _OP = b'"pid":%d', b'"op":"%b"'
_ASKING, _ON_DESCRIPTORS = (frozenset(_OP % op.encode() for op in ops) for ops in (JUDGED, DESCRIPTOR_CALLS))
_START, _OPEN, _CLOSE, _EXIT = (_OP % op for op in (b"start", b"open", b"close", b"exit"))

BareCall = tuple[Any, ...]
"""A call without its process and its number: its operation, and then the members that decide the answer."""

Enforced = int | tuple[BareCall, ...]
"""A layer: one of the policy by its number, or one of the program by the calls that made it."""

EnforcedLayers = tuple[Enforced, ...]


class LayeredCall(NamedTuple):
    """What a policy is asked: layers, the oldest first, and a call, or two if the first opens what the second uses."""

    domain: EnforcedLayers
    calls: tuple[BareCall, ...]

    @property
    def about(self) -> Iterator[str | int]:
        """The paths and ports that the calls name."""
        for op, *values in self.calls:
            yield from values[: len(OPERATIONS[op].paths + OPERATIONS[op].ports)]


@dataclass(slots=True)
class _HeldRuleset:
    """A ruleset that processes hold, with its calls so far or, if it is the policy's, the number of its layer."""

    made: list[BareCall]
    of_policy: int | None

    @property
    def layer(self) -> Enforced:
        return tuple(self.made) if self.of_policy is None else self.of_policy


@dataclass(slots=True)
class _Asked:
    """A question, what one record counts, and how often it was asked. A domain asks no call.

    `then` has what is asked next under the same layers, by a record without what is its own: of a domain its calls, of
    an opening the calls on what it opened.
    """

    question: LayeredCall
    weight: int = 0
    times: int = 0
    then: dict[bytes, _Asked] = field(default_factory=dict)


@dataclass(slots=True)
class _AskingProcess:
    """What a process has: its layers, what is asked under these if the policy has one of them, its rulesets by number,
    and for each descriptor the question that opened it.
    """

    domain: EnforcedLayers = ()
    asks: _Asked | None = None
    rulesets: dict[int, _HeldRuleset] = field(default_factory=dict)
    opened: dict[int, _Asked | None] = field(default_factory=dict)

    def forked(self) -> _AskingProcess:
        return _AskingProcess(self.domain, self.asks, dict(self.rulesets), dict(self.opened))


class Distilling:
    """Follows a trace with its report, and counts the questions that the policy was asked and let pass.

    Of records that differ only in their processes, in the numbers of their calls and in those of their descriptors, the
    first that asks something is decoded for all.
    """

    def __init__(self) -> None:
        self._counted: list[_Asked] = []
        self._domains: dict[EnforcedLayers, _Asked] = {}
        self._by_pid: dict[bytes, _AskingProcess] = {}

    @property
    def questions(self) -> Counter[LayeredCall]:
        """How many calls asked each question."""
        found: Counter[LayeredCall] = Counter()
        for asked in self._counted:
            found[asked.question] += asked.times
        return found

    def follow(self, trace: Path, report: Path) -> None:
        """Reads a trace with a report on one ABI without explanations. What is refused or moot changes nothing."""
        with open(trace, "rb") as lines, open(report, "rb") as answers:
            for number, line in enumerate(lines, start=1):
                if not line.strip(jsonl.BLANKS):
                    continue
                answer = next(answers, b"")
                members = reports.split(answer)
                if len(members) < 4 or members[0] != b'{"line":%d' % number:
                    raise _other(trace, report)
                _, pid, op, _ = members
                begins = b"{%b,%b" % (op, pid)
                if not line.startswith(begins + b","):
                    line = _as_written(jsonl.read(trace, number, line))
                    if not line.startswith((begins + b",", begins + b"}")):
                        raise _other(trace, report)
                if answer.endswith(reports.ENDS_ALLOWED):
                    self._take(op, pid, line)
                elif POLICY in line and reports.HAS_REFUSED in answer:
                    raise _refused(_decoded(line))
        self._by_pid.clear()

    def _take(self, op: bytes, pid: bytes, line: bytes) -> None:
        """Reads a record of a process that is allowed; operation and process are members as the report has them."""
        if op == _START:
            self._by_pid[pid] = _AskingProcess()
            return
        process = self._by_pid[pid]
        if op == _CLOSE:
            process.opened.pop(_descriptor(line), None)
        elif op in _ON_DESCRIPTORS:
            self._ask(process.opened.get(_descriptor(line)), line)
        elif op in _ASKING:
            asked = self._ask(process.asks, line)
            if op == _OPEN:
                process.opened[_descriptor(line)] = asked
        elif op == _EXIT:
            del self._by_pid[pid]
        else:
            self._change(process, _decoded(line))

    def _ask(self, before: _Asked | None, line: bytes) -> _Asked | None:
        """Counts a question, if the policy is asked; the records that begin a part only repeat what there was."""
        if before is None:
            return None
        members = OWN_OF_OPENING.sub(b"", line)
        asked = before.then.get(members)
        if asked is None:
            record, (domain, calls) = _decoded(members), before.question
            weight = 0 if "again" in record else record.get("stands_for", 1)
            asked = before.then[members] = _Asked(LayeredCall(domain, (*calls, call_of(record))), weight)
            self._counted += [asked] if weight else []
        asked.times += asked.weight
        return asked

    def _change(self, process: _AskingProcess, record: Record) -> None:
        """What a record that asks nothing changes."""
        match record["op"]:
            case "fork":
                self._by_pid[_PID % record["child"]] = process.forked()
            case "adopt":
                process.opened[record["fd"]] = None
            case "dup":
                process.opened[record["to"]] = process.opened.get(record["fd"])
            case "create":
                origin = of_policy(record)
                made = _HeldRuleset([call_of(record)], origin["layer"] if origin else None)
                process.rulesets[record["rs"]] = made
            case "add_path" | "add_port":
                process.rulesets[record["rs"]].made.append(call_of(record))
            case "restrict":
                self._restrict(process, process.rulesets[record["rs"]].layer)
            case "close_rs":
                process.rulesets.pop(record["rs"], None)

    def _restrict(self, process: _AskingProcess, layer: Enforced) -> None:
        """A process gets a layer. What processes ask under equal layers is the same."""
        process.domain = domain = (*process.domain, layer)
        if any(type(one) is int for one in domain):
            process.asks = self._domains.setdefault(domain, _Asked(LayeredCall(domain, ())))


def _other(trace: Path, report: Path) -> Problem:
    return Problem(f"{report} is not a report on {trace}: use programs of one version")


def _as_written(record: Record) -> bytes:
    """A record as landaudit-record writes it, with its process at the beginning."""
    return jsonl.line_bytes({"op": record["op"], "pid": record["pid"], **record})


def _descriptor(line: bytes) -> int:
    """The number of a record's descriptor."""
    found = FD.search(line)
    return int(_decoded(line)["fd"] if found is None else found[1])


def _decoded(members: bytes) -> Record:
    """The record of a line, from which members may have been taken out."""
    found: Record = json.loads(ENDS.sub(b"}", members).decode())
    return found


def _refused(record: Record) -> Problem:
    """The problem that the kernel refuses one of the policy's own calls."""
    origin = record["policy"]
    where = ", ".join([f"layer {origin['layer']}", *([origin["rule"]] if "rule" in origin else [])])
    if record["op"] == "add_path":
        return Problem(f"{where}, parent {origin['parent']}: the kernel refuses this rule: it has rights for "
                       "directories only, and the parent is not a directory: give this parent a rule of its own, with "
                       "a group or with rights for files")
    return Problem(f"{where}: the kernel refuses its {record['op']}, since the program has too many layers of its own: "
                   "try a policy with fewer layers")


def call_of(record: Record) -> BareCall:
    """A record with only the members that its answer depends on."""
    op = record["op"]
    return (op, *[tuple(value) if type(value) is list else value for value in map(record.get, OPERATIONS[op].decides)])


def text(call: BareCall, member: str, number: int) -> str:
    """A call as the end of a line, after its process, with the number of its descriptor or its ruleset."""
    op, *values = call
    named = {name: value for name, value in zip(OPERATIONS[op].decides, values) if value is not None}
    return body(op, **named, **{member: number})
