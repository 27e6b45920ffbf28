"""What changes from one ABI of a range to the next: which calls break there first, and which are no longer refused."""

from __future__ import annotations

from collections import Counter
from collections.abc import Sequence
from dataclasses import dataclass
from typing import Any, NamedTuple

from ..engine.answers import UNSURE
from ..engine.subjects import Subject
from .summary import Refusal, Summary
from .warnings import Warned


class VisibleRefusal(NamedTuple):
    """Refused calls that look the same to a program, whichever layer refuses them and why."""

    call: str
    subject: Subject
    error: str


@dataclass(frozen=True)
class AbiStep:
    """An ABI, compared with the one before it in the range.

    `breaks` are the kinds that are refused here and not there, all of them at the oldest ABI: the earliest first, since
    there the program breaks, then the most frequent. `no_more` are those whose calls were refused there and are not
    here, by whatever error. `warnings` are those that the newest ABI does not have.
    """

    abi: int
    verdicts: Counter[str]
    breaks: tuple[VisibleRefusal, ...]
    no_more: tuple[VisibleRefusal, ...]
    warnings: tuple[Warned, ...]


def of_range(judged: Sequence[Summary], abis: range) -> list[Summary]:
    """The summaries of a range by those that landaudit was asked for: a later ABI has the rights of the newest."""
    later = (judged[-1].at(abi) for abi in abis if abi > judged[-1].abi)
    return [*(summary for summary in judged if summary.abi in abis), *later]


def steps(summaries: Sequence[Summary]) -> list[AbiStep]:
    """The ABIs of a range, by the summary of each, the oldest first."""
    newest = summaries[-1].warnings
    found: list[AbiStep] = []
    refusals: list[tuple[Refusal, Counter[str]]] = []
    before: dict[VisibleRefusal, int] = {}
    for summary in summaries:
        breaks: list[VisibleRefusal] = []
        no_more: list[VisibleRefusal] = []
        if refusals != (refusals := list(summary.refusals.items())):
            kinds = _kinds(summary)
            new = [item for item in kinds.items() if item[0] not in before]
            breaks = [kind for kind, _ in [*new[:1], *sorted(new[1:], key=lambda item: -item[1])]]
            gone = Counter({kind: times for kind, times in before.items() if kind not in kinds})
            refused = {kind[:2] for kind in kinds} if gone else set()
            no_more = [kind for kind, _ in gone.most_common() if kind[:2] not in refused]
            before = kinds
        warnings = tuple(warning for warning in summary.warnings if warning not in newest)
        found.append(AbiStep(summary.abi, summary.verdicts, tuple(breaks), tuple(no_more), warnings))
    return found


def _kinds(summary: Summary) -> dict[VisibleRefusal, int]:
    """The kinds of an audit's refused calls, in the order of the trace, with how many there are of each."""
    found: dict[VisibleRefusal, int] = {}
    for refusal, programs in summary.refusals.items():
        kind = VisibleRefusal(refusal.call, refusal.subject, refusal.error)
        found[kind] = found.get(kind, 0) + sum(programs.values())
    return found


def as_data(found: Sequence[AbiStep]) -> list[dict[str, Any]]:
    """The ABIs as data for programs; the keys stay."""
    return [
        {
            "abi": step.abi,
            "records": step.verdicts.total(),
            "allowed": step.verdicts["allowed"],
            "refused": step.verdicts["refused"],
            "moot": step.verdicts["moot"],
            "unsure": step.verdicts[UNSURE],
            "breaks": [_kind_data(kind) for kind in step.breaks],
            "refused_no_more": [_kind_data(kind) for kind in step.no_more],
            "more_warnings": list(map(str, step.warnings)),
        }
        for step in found
    ]


def _kind_data(kind: VisibleRefusal) -> dict[str, str]:
    return {"call": kind.call, "place": str(kind.subject), "error": kind.error}
