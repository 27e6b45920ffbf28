"""Asks landaudit about calls that no program made.

A made-up process confines itself and then asks its questions. A question is one or several records, such as the open of
a device and an ioctl on it. As many processes as landaudit reads are put into one trace, and the answers come trace by
trace.
"""

from __future__ import annotations

import json
import tempfile
from collections.abc import Iterable, Iterator, Mapping, Sequence
from dataclasses import dataclass, replace
from pathlib import Path
from typing import Generic, TypeVar

from ..common.jsonl import Record
from ..common.problems import Problem
from ..common.trace_lines import body, line_of
from . import landaudit, reports
from .answers import REFUSED, Answer

MOST_RECORDS = 900_000
"""The most records that a trace gets; landaudit reads some more."""

MOST_PROCESSES = 60_000
MOST_QUESTIONS = 200_000
"""The most questions of one process; others with the same layers ask the rest."""

Key = TypeVar("Key")
Said = TypeVar("Said")
#: How a rule on a path begins.
_ADDS = body("add_path")


@dataclass(frozen=True)
class Trial(Generic[Key]):
    """A made-up process: the records by which it confines itself, and its questions, by what they are known as.

    Records are written as `trace_lines.body` writes them.
    """

    own: Sequence[str]
    questions: Sequence[tuple[Key, Sequence[str]]]

    @property
    def records(self) -> Iterator[str]:
        """All records of the process."""
        yield body("start", nnp=True)
        yield from self.own
        for _, question in self.questions:
            yield from question

    def pieces(self) -> Iterator[Trial[Key]]:
        """The same in processes that have as many questions as one may have."""
        for first in range(0, len(self.questions), MOST_QUESTIONS):
            yield replace(self, questions=self.questions[first : first + MOST_QUESTIONS])


@dataclass
class Asker:
    """Asks at some ABIs, about the objects of a tree; `audits` is how many traces were judged.

    At best effort rulesets lose the rights that an ABI does not have.
    """

    program: Path
    abis: range
    tree: Path
    best_effort: bool = True
    audits: int = 0

    def answers(self, trials: Iterable[Trial[Key]]) -> Iterator[tuple[Key, Mapping[int, tuple[Answer, ...]]]]:
        """Each question, with the answers to its records at each ABI, and why.

        If the kernel would refuse a record by which a process confines itself, that is a Problem.
        """
        for some, report in self.reports(trials, explain=True):
            rows = zip(*(reports.rows(report, abi) for abi in self.abis))
            for trial in some:
                _next(rows)
                for record in trial.own:
                    _see_own(record, [row.answer for row in _next(rows)])
                for key, question in trial.questions:
                    by_abi = zip(*(_next(rows) for _ in question))
                    yield key, {abi: tuple(row.answer for row in of) for abi, of in zip(self.abis, by_abi)}

    def verdicts(self, trials: Iterable[Trial[Key]]) -> Iterator[tuple[Key, Mapping[str, frozenset[int]]]]:
        """Each question, with the ABIs that give each answer to its last record.

        A rule on a path may be refused: it is not in force there. If another record by which a process confines itself
        is, that is a Problem.
        """
        for some, report in self.reports(trials):
            verdicts = reports.verdicts(report)
            for trial in some:
                _next(verdicts)
                for record in trial.own:
                    if _next(verdicts)[REFUSED] and not record.startswith(_ADDS):
                        raise Problem(f"the policy can't be tried: landaudit refuses {{{record}}}")
                for key, question in trial.questions:
                    yield key, [_next(verdicts) for _ in question][-1]

    def refused(self, trials: Iterable[Trial[Key]]) -> Iterator[Key]:
        """The questions whose last record some ABI refuses."""
        for some, report in self.reports(trials, only_refused=True):
            decided, line = {}, 0
            for trial in some:
                line += 1 + len(trial.own)
                for key, question in trial.questions:
                    line += len(question)
                    decided[line] = key
            yield from (decided[number] for number in reports.numbers(report) if number in decided)

    def reports(
        self, trials: Iterable[Trial[Key]], *, explain: bool = False, only_refused: bool = False
    ) -> Iterator[tuple[Sequence[Trial[Key]], Path]]:
        """The processes of each trace, in its order, with the report on it. The next trace's takes its place."""
        with tempfile.TemporaryDirectory(prefix="landaudit-") as folder:
            trace, report = Path(folder, "trace.jsonl"), Path(folder, "report.jsonl")
            for some in _for_traces(piece for trial in trials for piece in trial.pieces()):
                with open(trace, "w", encoding="utf-8") as out:
                    for pid, trial in enumerate(some, start=1):
                        out.writelines(line_of(pid, record) for record in trial.records)
                self.audits += 1
                landaudit.audit(self.program, self.abis, self.tree, trace, report, best_effort=self.best_effort,
                                explain=explain, only_refused=only_refused)
                yield some, report


def _for_traces(trials: Iterable[Trial[Key]]) -> Iterator[list[Trial[Key]]]:
    """Processes in groups that landaudit reads at once."""
    some: list[Trial[Key]] = []
    records = 0
    for trial in trials:
        more = 1 + len(trial.own) + sum(len(question) for _, question in trial.questions)
        if some and (records + more > MOST_RECORDS or len(some) == MOST_PROCESSES):
            yield some
            some, records = [], 0
        some.append(trial)
        records += more
    if some:
        yield some


def _next(records: Iterator[Said]) -> Said:
    """What is said of the next record."""
    said = next(records, None)
    if said is None:
        raise Problem("landaudit's report is cut: use landaudit and landaudit-policy of one version")
    return said


def _see_own(record: str, answers: Sequence[Answer]) -> None:
    """Checks that no ABI refuses a policy's own record."""
    for answer in answers:
        if answer.refused:
            made: Record = json.loads(f"{{{record}}}")
            origin = made.get("policy", {})
            layer = f"layer {origin['layer']}" if "layer" in origin else "the policy"
            rule = f", {origin['rule']}" if "rule" in origin else ""
            raise Problem(f"{layer}{rule}: the kernel refuses it with {answer.error}: {answer.condition}")
