"""What two policies differ in, as it is told: differences that are alike are one row of a text, of data or of a page."""

from __future__ import annotations

from collections import defaultdict
from collections.abc import Iterator, Mapping
from dataclasses import dataclass

from ..common.rights import FILE_RIGHTS, FS, NET
from .anywhere import Chain, Gain
from .differing import Differences, Differing, RightAt
from .differing_layers import Abis, MountChanges, Room, Unscoped
from .moving import Move
from .regions import Area, Region, Regions, areas


@dataclass(frozen=True)
class RightsInArea:
    """Rights for files that pass in an area, as paths are named."""

    rights: tuple[str, ...]
    area: Area


@dataclass(frozen=True)
class RightsOnMoved:
    """Rights that pass by rules on objects once these are moved or linked, and that a layer refuses there.

    Without objects they pass everywhere.
    """

    rights: tuple[str, ...]
    layer: int
    directories: tuple[str, ...]
    file: str | None


@dataclass(frozen=True)
class RightsOnPorts:
    """Rights that pass on some ports or, with `every`, on each port but these."""

    rights: tuple[str, ...]
    ports: tuple[int, ...]
    every: bool


@dataclass(frozen=True)
class Moves:
    """Moves of objects of some kinds: of those in areas and of some paths themselves, to under other areas."""

    kinds: tuple[str, ...]
    sources: tuple[Area, ...]
    themselves: tuple[str, ...]
    to: tuple[Area, ...]


@dataclass(frozen=True)
class Gains:
    """Moves to under a directory that may pass and give rights, which a layer refuses elsewhere."""

    rights: tuple[str, ...]
    layer: int
    directory: str
    sources: tuple[Region, ...]


What = RightsInArea | RightsOnMoved | RightsOnPorts | Moves | Gains | MountChanges | Unscoped | Room


@dataclass(frozen=True)
class DifferenceRow:
    """What passes under one policy alone, and the ABIs at which it does."""

    what: What
    abis: Abis


def rows(differing: Mapping[Differing, Abis], found: Differences) -> tuple[DifferenceRow, ...]:
    """What one policy alone lets pass, the oldest ABIs first."""
    by_abis: defaultdict[Abis, list[Differing]] = defaultdict(list)
    for subject, at in differing.items():
        by_abis[at].append(subject)
    in_order = sorted(by_abis.items(), key=lambda it: sorted(it[0]))
    return tuple(
        DifferenceRow(what, at) for at, subjects in in_order for what in _together(subjects, found.regions, at)
    )


def _together(subjects: list[Differing], regions: Regions, abis: Abis) -> Iterator[What]:
    """What differs at the same ABIs, by kinds of differences."""
    rights = [subject for subject in subjects if isinstance(subject, RightAt)]
    yield from _rights(rights, regions, abis)
    yield from _objects([subject for subject in subjects if isinstance(subject, Chain)])
    yield from _ports(rights, regions)
    yield from _moves([subject for subject in subjects if isinstance(subject, Move)], regions)
    yield from _gains([subject for subject in subjects if isinstance(subject, Gain)])
    yield from (subject for subject in subjects if isinstance(subject, (MountChanges, Unscoped, Room)))


def _rights(subjects: list[RightAt], regions: Regions, abis: Abis) -> Iterator[RightsInArea]:
    """Rights for files, those of the same areas together."""
    by_right: defaultdict[str, set[Region]] = defaultdict(set)
    for subject in subjects:
        if subject.region is not None:
            by_right[subject.right].add(subject.region)
    by_area: defaultdict[Area, list[str]] = defaultdict(list)
    for right in FS.ordered(by_right):
        for area in areas(regions, by_right[right], of_files=right in FILE_RIGHTS, abis=abis):
            by_area[area].append(right)
    yield from (RightsInArea(tuple(rights), area) for area, rights in by_area.items())


def _objects(chains: list[Chain]) -> Iterator[RightsOnMoved]:
    """Rights that pass once objects are moved or linked, those by the same rules together, and each without rules."""
    by_objects: defaultdict[tuple[int, tuple[str, ...], str | None], list[str]] = defaultdict(list)
    for chain in chains:
        by_objects[chain.layer, chain.directories, chain.file].append(chain.right)
    for (layer, directories, file), rights in by_objects.items():
        together = [tuple(rights)] if directories or file is not None else [(right,) for right in rights]
        yield from (RightsOnMoved(each, layer, directories, file) for each in together)


def _ports(subjects: list[RightAt], regions: Regions) -> Iterator[RightsOnPorts]:
    """Rights for ports, those of the same ports together."""
    by_right: defaultdict[str, set[int | None]] = defaultdict(set)
    for subject in subjects:
        if subject.right in NET.since:
            by_right[subject.right].add(subject.port)
    by_ports: defaultdict[tuple[tuple[int, ...], bool], list[str]] = defaultdict(list)
    for right in NET.ordered(by_right):
        every = None in by_right[right]
        named = (port for tried, ports in regions.tried_ports.items() if (tried in by_right[right]) != every
                 for port in ports)
        by_ports[tuple(sorted(named)), every].append(right)
    yield from (RightsOnPorts(tuple(rights), ports, every) for (ports, every), rights in by_ports.items())


def _moves(moves: list[Move], regions: Regions) -> Iterator[Moves]:
    """Moves of the same kinds, from the same places to the same places, together."""
    kinds: defaultdict[tuple[str, bool, str], list[str]] = defaultdict(list)
    for move in moves:
        kinds[move.source, move.itself, move.to].append(move.kind)
    sources: defaultdict[tuple[str, tuple[str, ...]], set[tuple[str, bool]]] = defaultdict(set)
    for (source, itself, to), of in kinds.items():
        sources[to, tuple(of)].add((source, itself))
    targets: defaultdict[tuple[frozenset[tuple[str, bool]], tuple[str, ...]], set[Region]] = defaultdict(set)
    for (to, of_kinds), places in sources.items():
        targets[frozenset(places), of_kinds].add(Region(to))
    for (places_from, of_kinds), to_regions in targets.items():
        beneath = {Region(path) for path, itself in places_from if not itself}
        themselves = sorted(path for path, itself in places_from if itself)
        yield Moves(of_kinds, tuple(areas(regions, beneath, of_files=False)), tuple(themselves),
                    tuple(areas(regions, to_regions, of_files=False)))


def _gains(gains: list[Gain]) -> Iterator[Gains]:
    """Moves that may pass by what objects gain, those of the same rules together."""
    by_rules: defaultdict[tuple[int, str, tuple[Region, ...]], list[str]] = defaultdict(list)
    for gain in gains:
        by_rules[gain.layer, gain.directory, gain.sources].append(gain.right)
    yield from (Gains(tuple(rights), *rules) for rules, rights in by_rules.items())
