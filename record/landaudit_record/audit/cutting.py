"""Cuts a trace that would be too long with the records of a policy in it."""

from __future__ import annotations

from collections.abc import Iterator, Mapping
from pathlib import Path

from ..common import jsonl
from ..common.jsonl import Record
from ..common.problems import Problem
from ..common.restoring import Living

#: The largest weight of a piece. landaudit reads more: the rest is for the records that restore living processes.
MOST = 700_000


def cut(trace: Path, folder: Path, weights: Mapping[int, int], most: int = MOST) -> Iterator[Path]:
    """Pieces of a trace, each a trace of its own that begins with what all living processes have.

    A record has the weight 1, or the one that is given for its line. A piece ends between two system calls, before it
    would be too heavy. Each piece has a file of its own.
    """
    living = Living()
    pieces = 0
    again: list[Record] = []
    calls = _calls(trace)
    call = next(calls, None)
    while call is not None:
        piece = folder / f"{trace.stem}-piece-{pieces}.jsonl"
        with open(piece, "w", encoding="utf-8") as out:
            out.writelines(map(jsonl.line, again))
            weight = len(again)
            while call is not None and (weight == len(again) or weight + _weight(call, weights) <= most):
                weight += _weight(call, weights)
                for _, record in call:
                    out.write(jsonl.line(record))
                    living.follow_written(record)
                call = next(calls, None)
        yield piece
        pieces += 1
        again = living.again()
        if len(again) > most:
            raise Problem(f"{trace} has too many processes at a time for a policy: name another program with --program")


def _calls(trace: Path) -> Iterator[list[tuple[int, Record]]]:
    """The records of each system call, with their lines; the records at the beginning of a part are one group too."""
    together: list[tuple[int, Record]] = []
    for number, record in jsonl.numbered(trace):
        if together and not _is_one_call(together[-1][1], record):
            yield together
            together = []
        together.append((number, record))
    if together:
        yield together


def _is_one_call(before: Record, record: Record) -> bool:
    if "again" in record:
        return True
    return "call" in record and before.get("call") == record["call"]


def _weight(call: list[tuple[int, Record]], weights: Mapping[int, int]) -> int:
    return sum(weights.get(number, 1) for number, _ in call)
