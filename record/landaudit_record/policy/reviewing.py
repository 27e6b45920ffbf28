"""A new policy compared with an old one, or with none, as values: what differs, and what of it is accepted."""

from __future__ import annotations

from collections.abc import Sequence
from dataclasses import dataclass
from pathlib import Path

from ..common.rights import FS, NET, SCOPES, judged
from . import differing, differing_rows
from .differing import Differing
from .differing_layers import Abis, Room
from .differing_rows import DifferenceRow
from .policies import Access, Layer, Policy
from .widenings import Widening

#: What is allowed before a policy, where there is no old one.
NOTHING, EVERYTHING = "nothing", "everything"


@dataclass(frozen=True)
class Review:
    """What a new policy lets pass and the old one refuses (`more`), and the reverse (`less`).

    Without an old policy, `old` is None and `allowed` says what is allowed before. `accepted` has what is accepted of
    what would else be in `more`, `not_there` what is accepted and does not differ.
    """

    old: Path | None
    allowed: str | None
    new: Path
    abis: range
    tried: int
    more: tuple[DifferenceRow, ...]
    less: tuple[DifferenceRow, ...]
    accepted: tuple[tuple[Widening, tuple[DifferenceRow, ...]], ...] = ()
    not_there: tuple[Widening, ...] = ()

    @property
    def differs(self) -> bool:
        """Whether anything differs, accepted or not."""
        return bool(self.more or self.less or self.accepted)


def before(allowed: str) -> Policy:
    """A policy that stands for none: it refuses everything, or nothing."""
    if allowed == EVERYTHING:
        return Policy(Path(), ())
    fs, net = (Access(grouped=family.groups["all"]) for family in (FS, NET))
    return Policy(Path(), (Layer(1, fs, net, (), (), SCOPES),))


def review(
    old: Policy, new: Policy, abis: range, accepted: Sequence[Widening] = (), allowed: str | None = None
) -> Review:
    """Compares two policies; `allowed` says that the old one is made up by `before`, and so how many layers it has."""
    found = differing.differences(old, new, abis)
    if allowed is not None:
        for side in (found.more, found.less):
            for room in [subject for subject in side if isinstance(subject, Room)]:
                del side[room]
    taken = {one: {subject: at for subject, at in found.more.items() if one.covers(subject, found.regions)}
             for one in accepted}
    more = {subject: at for subject, at in found.more.items() if not any(subject in of for of in taken.values())}
    told: set[Differing] = set()
    rows: list[tuple[Widening, tuple[DifferenceRow, ...]]] = []
    for one, subjects in taken.items():
        first: dict[Differing, Abis] = {subject: at for subject, at in subjects.items() if subject not in told}
        told |= first.keys()
        rows += [(one, differing_rows.rows(first, found))] if first else []
    return Review(
        None if allowed else old.path, allowed, new.path, judged(abis), found.tried, differing_rows.rows(more, found),
        differing_rows.rows(found.less, found), tuple(rows), tuple(one for one, of in taken.items() if not of))
