"""Questions about all objects at once, in a file of cases: which rights may pass nowhere in an area.

    [[nothing]]
    rights = ["write"]
    under = "/etc"
    [[never]]
    both = ["write_file", "execute"]
    [[only]]
    rights = ["execute"]
    under = ["/usr", "/opt/app"]

Nothing of these rights passes at or under `/etc`; nowhere do both pass; a right passes only at or under these paths. A
right that is named counts at each ABI: where no layer handles it, it passes. A group is those that an ABI knows.
"""

from __future__ import annotations

import argparse
from collections.abc import Iterator, Mapping
from dataclasses import dataclass
from typing import Any

from ..common import options, resolving
from ..common.documents import DocumentPlace, check_keys, listed, one_or_several, tables
from ..common.numbered import Numbered
from ..common.resolving import DISK, LinkLoop
from ..common.rights import FS, NEWEST_ABI, OLDEST_ABI, Rights, judged
from ..common.trees import ROOT, upwards
from ..common.wording import span
from .policies import read_access, read_parent

ALL_ABIS = range(OLDEST_ABI, NEWEST_ABI + 1)
NOTHING, NEVER, ONLY = "nothing", "never", "only"
KINDS = (NOTHING, NEVER, ONLY)
_BOTH = 2
#: What a question is about: rights that may not pass together, each by itself if there is one.
Together = tuple[str, ...]


@dataclass(frozen=True)
class SetQuestion:
    """A question: what may not pass on an object, at or under some paths or, of `only`, elsewhere, at some ABIs.

    `asked` has rights that may not pass together, `grouped` those that are asked only where an ABI knows them.
    `elsewhere` has other paths at which mounts show what is under its paths; of `only`, these are elsewhere too.
    `only_later` says that each ABI that it is about is later than the newest that is judged.
    """

    kind: str
    words: tuple[str, ...]
    asked: tuple[Together, ...]
    grouped: Rights
    under: tuple[str, ...]
    abis: range
    elsewhere: tuple[str, ...] = ()
    only_later: bool = False

    @property
    def text(self) -> str:
        """The question in words."""
        words = (" and " if self.kind == NEVER else ", ").join(self.words)
        where = "" if self.kind == NEVER and self.under == (ROOT,) else f" under {', '.join(self.under)}"
        return f"{words}{where}"

    def is_about(self, path: str) -> bool:
        """Whether it is about the objects at a path."""
        if self.kind == ONLY:
            return not any(one in self.under for one in upwards(path))
        return any(one in self.under or one in self.elsewhere for one in upwards(path))

    def asked_at(self, abi: int) -> tuple[Together, ...]:
        """What is asked at an ABI."""
        left = self.grouped - FS.known(abi)
        return tuple(rights for rights in self.asked if left.isdisjoint(rights))

    def left_out(self, abi: int) -> list[str]:
        """The rights that are not asked at an ABI, since it does not know them."""
        return FS.ordered(self.grouped - FS.known(abi))


def read(document: Mapping[str, Any], place: DocumentPlace) -> Iterator[SetQuestion]:
    """The questions of a file of cases."""
    for kind in KINDS:
        for number, table in enumerate(tables(document.get(kind, []), kind, place), start=1):
            yield _QuestionReader(kind, table, place / Numbered(kind, number)).question()


@dataclass(frozen=True)
class _QuestionReader:
    """Reads one question."""

    kind: str
    table: Mapping[str, Any]
    place: DocumentPlace

    def question(self) -> SetQuestion:
        """The question."""
        key = "both" if self.kind == NEVER else "rights"
        check_keys(self.table, (key, "under", "abi"), self.place)
        for needed in (key,) if self.kind == NEVER else (key, "under"):
            if needed not in self.table:
                self.place.fault(f"{needed} is missing")
        access = read_access(self.table[key], FS, self.place / key)
        rights = tuple(FS.ordered(access.rights))
        if self.kind == NEVER and (len(rights) != _BOTH or not FS.since.keys() >= set(self.table[key])):
            (self.place / key).fault(f"must be two rights, of {listed(FS.since)}")
        if not rights:
            (self.place / key).fault(f"is empty: name at least one right: {listed(FS.words())}")
        asked = (rights,) if self.kind == NEVER else tuple((right,) for right in rights)
        under = one_or_several(self.table.get("under", ROOT), self._path, self.place / "under")
        grouped = access.rights - access.outright
        abis = abis_of(self.table, self.place)
        return SetQuestion(self.kind, tuple(self.table[key]), asked, grouped, under, judged(abis),
                           only_later=are_later(abis))

    def _path(self, value: Any, place: DocumentPlace) -> str:
        """A path without links, as the kernel walks it on this machine."""
        path = read_parent(value, place)
        try:
            led = resolving.walked(path, DISK)
        except LinkLoop:
            place.fault(f"{path} is a loop of symbolic links: name another path")
        if led.blocked is not None:
            place.fault(f"{led.blocked} is no directory on this machine, so {path} leads nowhere")
        if led.unknown is not None:
            place.fault(f"not known where {path} leads: name what it leads to")
        return led.path


def abis_of(table: Mapping[str, Any], place: DocumentPlace) -> range:
    """The ABIs that a table is about: those of its `abi`, or all."""
    try:
        return options.abis(str(table.get("abi", span(ALL_ABIS))))
    except argparse.ArgumentTypeError as error:
        (place / "abi").fault(str(error))


def are_later(abis: range) -> bool:
    """Whether ABIs are all later than the newest that is judged, so that they have scopes."""
    return abis[0] > NEWEST_ABI
