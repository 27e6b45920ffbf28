"""Refusals that the author of a policy knows and accepts, listed in the policy's file or in a separate one.

    [[accepted]]
    call = "ioctl"
    path = "/dev/null"
    reason = "every shell asks whether its output is a terminal"

The call and its path or port are those that the summary of an audit shows.
"""

from __future__ import annotations

from collections.abc import Iterable, Iterator, Mapping, Sequence
from pathlib import Path
from typing import Any

from ..common.documents import DocumentPlace, check_keys, text
from ..common.variables import NOTHING_GIVEN, Given
from ..engine.subjects import NOTHING, Subject
from ..policy import policies
from ..policy.policies import read_port
from .summary import Accepted, Summary


def read(path: Path, given: Given = NOTHING_GIVEN, *, only: bool = True) -> list[Accepted]:
    """What a file accepts; any error in it is a Problem. With `only`, the file may contain nothing else."""
    return [_accepted(table, place) for table, place in policies.accepted(path, given, only=only)]


def _accepted(table: Mapping[str, Any], place: DocumentPlace) -> Accepted:
    check_keys(table, ("call", "path", "from", "to", "port", "reason"), place)
    call, reason = " ".join(text(table, "call", place).split()), text(table, "reason", place)
    given = [key for key in ("path", "from", "port") if key in table]
    if len(given) > 1 or ("from" in table) != ("to" in table):
        place.fault("give at most one place: a path, from and to, or a port")
    if "from" in table:
        return Accepted(call, Subject((text(table, "from", place), text(table, "to", place))), reason)
    if "port" in table:
        return Accepted(call, Subject(port=read_port(table["port"], place / "port")), reason)
    return Accepted(call, Subject((text(table, "path", place),)) if given else NOTHING, reason)


def set_apart(known: Sequence[Accepted], summaries: Iterable[Summary]) -> Iterator[Accepted]:
    """Moves the accepted refusals of summaries from `refusals` to `accepted`, and yields those that occur in none."""
    by_kind = {(one.call, one.subject): one for one in known}
    occurred: set[Accepted] = set()
    for summary in summaries if known else ():
        for refusal in list(summary.refusals):
            one = by_kind.get((refusal.call, refusal.subject))
            if one is not None:
                summary.accepted[one] += summary.refusals.pop(refusal).total()
                occurred.add(one)
        for refusal in list(summary.unsure):
            one = by_kind.get((refusal.call, refusal.subject))
            if one is not None:
                del summary.unsure[refusal]
                occurred.add(one)
    yield from (one for one in known if one not in occurred)
