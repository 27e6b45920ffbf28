"""A comparison written out: for a person, and as data."""

from __future__ import annotations

from collections.abc import Iterator
from typing import Any

from ..common.operations import call_text
from ..engine.answers import Answer
from ..engine.processes import shown
from .comparing import Class, Difference, Tally
from .kernel_calls import JudgedCall

NEWER_NOTE = "a program that asks for newer rights must be recorded at this ABI to be compared at it"


def lines(tally: Tally, title: str) -> Iterator[str]:
    """The lines for a person, each without its line feed."""
    yield title
    yield f"{tally.calls:>9,}  calls on rulesets or under a layer"
    yield f"{tally.agreed:>9,}  agree, {_percent(tally)} %"
    yield f"{tally.moot:>9,}  of these, moot (Landlock is not asked)"
    if tally.differences:
        yield ""
        yield "differences by class"
    for because, count in tally.differences.most_common():
        yield f"{count:>9,}  {because.value}"
        yield f"           {_example(tally.examples[because])}"
    if Class.NEWER in tally.differences:
        yield f"note: {NEWER_NOTE}"


def _percent(tally: Tally) -> str:
    """The share that agrees, rounded down, so that 100 means all calls."""
    thousandths = 100_000 * tally.agreed // tally.calls
    return f"{thousandths // 1000}.{thousandths % 1000:03}"


def _example(difference: Difference) -> str:
    call = difference.call
    what = f"{call_text(call.record)} {place(call)}"
    return f"line {call.number}: {what}: landaudit {told(call.answer)}, kernel {call.kernel}"


def place(call: JudgedCall) -> str:
    """What a call is about: its path or paths, its port, else its descriptor."""
    record = call.record
    if "from" in record:
        return f"{shown(record, 'from')} -> {shown(record, 'to')}"
    path = shown(record, "path")
    if path is not None:
        return path
    return next((f"{member} {record[member]}" for member in ("port", "fd", "rs") if member in record), "-")


def told(answer: Answer) -> str:
    """An answer in the words of a report."""
    if not answer.refused:
        return answer.verdict
    return f"{answer.verdict} {answer.error} {','.join(str(layer.layer) for layer in answer.layers) or '-'}"


def as_data(tally: Tally, abi: int) -> dict[str, Any]:
    """The comparison as data for programs; its keys stay."""
    return {
        "abi": abi,
        "calls": tally.calls,
        "agree": tally.agreed,
        "percent": float(_percent(tally)),
        "moot": tally.moot,
        "calls_by_op": dict(tally.by_op.most_common()),
        "differences": [
            {
                "class": because.value,
                "named": because.named,
                "times": count,
                "example": difference_data(tally.examples[because]),
            }
            for because, count in tally.differences.most_common()
        ],
    }


def difference_data(difference: Difference) -> dict[str, Any]:
    """One difference as data."""
    call = difference.call
    return {
        "class": difference.because.value,
        "call": call.number,
        "pid": call.record["pid"],
        "op": call.op,
        "place": place(call),
        "landaudit": call.answer.verdict,
        "error": call.answer.error,
        "layers": [layer.layer for layer in call.answer.layers],
        "kernel": call.kernel,
        "records": list(call.records),
    }
