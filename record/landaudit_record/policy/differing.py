"""What one policy lets pass and another refuses, on every tree that has objects at the paths which the policies name.

There each object has that name alone; `anywhere` says what else passes once objects are moved or linked, and which
mounts, scopes and further layers do.

landaudit-rules decides in which regions (`regions`) each right passes, and on which ports: a set of rights passes if
each of them does. So it does for moves between regions (`moving`).
"""

from __future__ import annotations

from collections import defaultdict
from collections.abc import Iterator, Mapping
from dataclasses import dataclass, field
from itertools import chain

from ..common.rights import FILE_RIGHTS, FS, NET, NEWEST_ABI, REFER, alone, judged
from ..engine import landaudit_rules
from . import anywhere, fitting, moving, sides
from .anywhere import Chain, Direction, Gain
from .differing_layers import Abis, OfLayers
from .moving import Move
from .policies import Policy
from .regions import Region, Regions
from .ruling import REGIONS, Comparison, ComparisonAnswer, Objects, Passing, RuledObjects, Ruling
from .sides import OF_OPENED, OPENING, Sides

_NONE: Abis = frozenset()


@dataclass(frozen=True)
class RightAt:
    """A right in a region, or on a port and those like it; without both, on each port without a rule."""

    right: str
    region: Region | None = None
    port: int | None = None

    @property
    def as_file(self) -> str | None:
        """The path that is a file here, if one with a rule is."""
        return self.region.path if self.region is not None and self.region.as_file else None


Differing = RightAt | Move | OfLayers | Chain | Gain


@dataclass
class Differences:
    """What one policy lets pass and another refuses, with the ABIs at which it does; how many calls were compared."""

    regions: Regions
    more: dict[Differing, Abis] = field(default_factory=dict)
    less: dict[Differing, Abis] = field(default_factory=dict)
    tried: int = 0

    def add(self, subject: RightAt | Move, abi: int, is_new: bool) -> None:
        """Notes an ABI at which one policy alone lets a call pass, the new one or the old one."""
        if subject.as_file is None or not self.regions.is_directory(subject.as_file, abi):
            found = self.more if is_new else self.less
            found[subject] = found.get(subject, _NONE) | {abi}


def differences(old: Policy, new: Policy, abis: range) -> Differences:
    """All differences of two policies at some ABIs. Later ones than the newest that is judged are judged as that."""
    found = _differences(old, new, judged(abis))
    if NEWEST_ABI in abis and any(map(fitting.refer_by_scopes, (old, new))):
        earlier = _differences(old, new, alone(NEWEST_ABI), scopes=False)
        for here, there in ((found.more, earlier.more), (found.less, earlier.less)):
            here.update((subject, here.get(subject, _NONE) | at) for subject, at in there.items())
    return found


def _differences(old: Policy, new: Policy, abis: range, *, scopes: bool = True) -> Differences:
    """All differences; with `scopes`, the newest ABI that is judged is one that has them."""
    regions = Regions.of((old, new), scopes=scopes)
    objects = RuledObjects.of(regions.ruled)
    ruling = Ruling(landaudit_rules.find(), objects)
    both = [sides.at(regions, objects, abi) for abi in abis]
    asked = [_asked(of, objects, regions) for of in both]
    turned = [of.turned() for of in both]
    directions = Direction(new, old, both, objects.named), Direction(old, new, turned, objects.named)
    ruling.ask(chain(*(one.values() for one in asked), *map(anywhere.asked_first, directions)))
    found = Differences(regions, tried=_tried(objects, regions))
    for of, comparisons in zip(both, asked):
        answers = {about: ruling.answer(one) for about, one in comparisons.items()}
        for right, is_new in _rights(objects, regions, answers):
            found.add(right, of.abi, is_new)
        for move, is_new in moving.differing(objects, answers[_ALL]):
            found.add(move, of.abi, is_new)
    for direction, differing in zip(directions, (found.more, found.less)):
        direction.named, direction.moved = _named(objects, differing), _moved_to(differing)
    anywhere.tell(ruling, directions)
    for direction, differing in zip(directions, (found.more, found.less)):
        differing.update(direction.found.items())
    return found


def _named(objects: RuledObjects, differing: Mapping[Differing, Abis]) -> dict[int, dict[str, Objects]]:
    """The objects on which rights differ, by ABIs and rights."""
    found = defaultdict[int, defaultdict[str, set[int]]](lambda: defaultdict(set))
    for subject, abis in differing.items():
        if isinstance(subject, RightAt) and subject.region is not None:
            for abi in abis:
                found[abi][subject.right].add(objects.number(subject.region))
    return {abi: {right: frozenset(on) for right, on in of.items()} for abi, of in found.items()}


def _moved_to(differing: Mapping[Differing, Abis]) -> Mapping[str, Abis]:
    """The paths to under which moves differ, with the ABIs at which they do."""
    found: dict[str, Abis] = {}
    for subject, abis in differing.items():
        if isinstance(subject, Move):
            found[subject.to] = found.get(subject.to, _NONE) | abis
    return found


# ---- what landaudit-rules answers

_ALL = "all"
"""What is asked of all rights together."""


def _asked(of: Sides, objects: RuledObjects, regions: Regions) -> dict[str, Comparison]:
    """What is asked: of each right, in which regions it passes, and of all, which moves do, and what on a port of each
    group; one more port stands for those without a rule."""
    of_all = Comparison(of.old, of.new, parents=objects.parents, ports=len(regions.numbered_ports),
                        moves=frozenset(moving.MAKING.values()))
    of_each = (right for right in FS.since if right != REFER)
    return {_ALL: of_all, **{right: of.on_both(right, {REGIONS}, objects.parents) for right in of_each}}


def _tried(objects: RuledObjects, regions: Regions) -> int:
    """How many calls are compared: with each right for files in each region, but REFER, and each for ports on each port;
    and moves of each kind from each region, and of each path with a rule, to each region."""
    files = objects.files.count(True)
    directories = objects.files.count(False)
    of_files = (len(FS.since) - 1) * directories + len(FILE_RIGHTS) * files
    moves = len(moving.MAKING) * (directories + files) * directories
    return of_files + moves + len(NET.since) * len(regions.numbered_ports)


def _rights(
    objects: RuledObjects, regions: Regions, answers: Mapping[str, ComparisonAnswer]
) -> Iterator[tuple[RightAt, bool]]:
    """Each right in each region and on each port where one policy alone lets it pass, and whether the new one does."""
    named, ports = objects.named, regions.numbered_ports
    for right in FS.since:
        if right != REFER:
            for number, is_new in _alone(answers[right].regions):
                region = named[number]
                if (not region.as_file or right in FILE_RIGHTS) and _can_be_told(right, number, answers):
                    yield RightAt(right, region), is_new
    for right, passing in answers[_ALL].ports.items():
        yield from ((RightAt(right, port=ports[number]), is_new) for number, is_new in _alone(passing))


def _can_be_told(right: str, number: int, answers: Mapping[str, ComparisonAnswer]) -> bool:
    """Whether a right can be told from a call: OF_OPENED is asked of what both policies let be opened."""
    return right != OF_OPENED or any(number in answers[opening].regions.both for opening in OPENING)


def _alone(passing: Passing) -> Iterator[tuple[int, bool]]:
    """Where a right passes under one policy alone, in order, and whether that is the new one."""
    yield from ((number, number in passing.new) for number in sorted(passing.old | passing.new))

