"""The system calls of a recording that the kernel judged, with landaudit's answers to them."""

from __future__ import annotations

from collections.abc import Iterable, Iterator
from dataclasses import dataclass, replace
from itertools import groupby
from typing import Any

from ..common.jsonl import Record
from ..common.operations import RULESET_CALLS
from ..common.rights import FS, NET
from ..engine.answers import MOOT, Answer
from ..engine.processes import RulesetLayer
from ..engine.reading import Judged


@dataclass(frozen=True)
class ByKernel:
    """What a process has by the kernel's answers but not by landaudit's, perhaps from the process that forked it.

    `newer` says that it has a ruleset with rights newer than the ABI, `layer` that it has a layer.
    """

    newer: bool = False
    layer: bool = False


NOTHING_MORE = ByKernel()


@dataclass(frozen=True)
class JudgedCall:
    """One system call: the records that stand for it, and landaudit's answers to them.

    `domain` is the domain of the process by landaudit's answers; `by_kernel` is what only the kernel gave it.
    `otherwise` has the answers if all that the recording does not know was otherwise, `own` the answer of Landlock
    alone if a witness heard it.
    """

    records: tuple[Record, ...]
    answers: tuple[Answer, ...]
    domain: tuple[RulesetLayer, ...]
    by_kernel: ByKernel
    otherwise: tuple[Answer, ...] = ()
    own: str | None = None

    @property
    def other(self) -> JudgedCall | None:
        """The call as it is if what the recording does not know was otherwise; None if nothing is unknown."""
        return replace(self, answers=self.otherwise, otherwise=()) if self.otherwise else None

    @property
    def number(self) -> Any:
        """The line of the kept log on which the call began."""
        return self.records[0].get("call")

    @property
    def kernel(self) -> str:
        """What the kernel answered, or Landlock alone if that is known: `ok`, or the name of an error."""
        if self.own is not None:
            return self.own
        return next((str(record["kernel"]) for record in self.records if record["kernel"] != "ok"), "ok")

    @property
    def op(self) -> str:
        """The operation of the call: exec for an exec, whatever the kernel opens for it, else that of its record."""
        return "exec" if any(record["op"] == "exec" for record in self.records) else str(self.records[0]["op"])

    @property
    def record(self) -> Record:
        """The record that shows the call: for an exec, the record of the program itself."""
        return next(record for record in self.records if record["op"] == self.op)

    @property
    def answer(self) -> Answer:
        """landaudit's answer to the whole call: the first refusal, else an answer that allows it, else moot."""
        refused = next((answer for answer in self.answers if answer.refused), None)
        allowed = next((answer for answer in self.answers if answer.allowed), None)
        return refused or allowed or self.answers[0]

    @property
    def partly_moot(self) -> bool:
        """Whether some record is moot."""
        return any(answer.verdict == MOOT for answer in self.answers)

    @property
    def confined(self) -> bool:
        """Whether the process was under a layer, by landaudit's answers or by the kernel's."""
        return bool(self.domain) or self.by_kernel.layer


def newer_rights(record: Record, abi: int) -> list[str]:
    """The rights that a `create` names and an ABI does not know."""
    unknown_fs = set(record.get("fs", ())) - FS.known(abi)
    unknown_net = set(record.get("net", ())) - NET.known(abi)
    return sorted(unknown_fs | unknown_net)


class _Diverged:
    """The processes to which the kernel gave something that landaudit refused."""

    def __init__(self, abi: int) -> None:
        self._abi = abi
        self._by_pid: dict[int, ByKernel] = {}

    def of(self, pid: int) -> ByKernel:
        """What a process has only by the kernel's answers."""
        return self._by_pid.get(pid, NOTHING_MORE)

    def follow(self, record: Record, answer: Answer) -> None:
        """Follows a record: a ruleset or a layer that only the kernel gave, and forks."""
        pid = record["pid"]
        by_kernel = self.of(pid)
        kernel_alone = record.get("kernel") == "ok" and not answer.allowed
        match record["op"]:
            case "start" | "exit":
                self._by_pid.pop(pid, None)
            case "fork" if by_kernel != NOTHING_MORE:
                self._by_pid[record["child"]] = by_kernel
            case "create" if kernel_alone and newer_rights(record, self._abi):
                self._by_pid[pid] = replace(by_kernel, newer=True)
            case "restrict" if kernel_alone:
                self._by_pid[pid] = replace(by_kernel, layer=True)


def judged_calls(judged: Iterable[Judged], abi: int) -> Iterator[JudgedCall]:
    """The calls to compare: those on rulesets, and all others of a process that is under a layer."""
    apart = _Diverged(abi)
    for (pid, _), together in groupby(judged, key=lambda found: (found[0]["pid"], found[0].get("call"))):
        by_kernel = apart.of(pid)
        records: list[Record] = []
        answers: list[Answer] = []
        domain: tuple[RulesetLayer, ...] = ()
        otherwise: dict[int, Answer] = {}
        for record, answer, process in together:
            if "otherwise" in record:
                _note_other(otherwise, len(answers) - 1, answers[-1], answer)
            elif "kernel" in record:
                domain = domain if records else process.domain
                records.append(record)
                answers.append(answer)
            apart.follow(record, answer)
        if records:
            others = tuple(otherwise.get(number, answer) for number, answer in enumerate(answers)) if otherwise else ()
            call = JudgedCall(tuple(records), tuple(answers), domain, by_kernel, others)
            if call.confined or call.op in RULESET_CALLS:
                yield call


def _note_other(otherwise: dict[int, Answer], number: int, answer: Answer, other: Answer) -> None:
    """Keeps of the answers to what a record would be otherwise one that differs from the answer to the record.

    One by which the call is allowed comes before one by which it is moot.
    """
    kept = otherwise.get(number)
    if kept is None or _difference(answer, other) > _difference(answer, kept):
        otherwise[number] = other


def _difference(answer: Answer, other: Answer) -> tuple[bool, bool]:
    return other.refused != answer.refused, other.allowed
