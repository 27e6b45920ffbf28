"""What a new policy lets pass that an old one refuses once objects are moved or linked: decided over objects, not paths.

A rule stays with its object, wherever that is. So an object may come to be under any of the directories that policies
have rules on, and have any name. landaudit-rules decides what passes (`ruling`); each path with a rule is two objects
for it, a directory and a file. What differs at the paths as they are named is left out of what it is asked, so that
only the rest is told.
"""

from __future__ import annotations

from collections.abc import Collection, Iterable, Iterator, Mapping, Sequence
from dataclasses import dataclass, field
from functools import cached_property

from ..common.rights import FILE_RIGHTS, FS, NONE, REFER, SCOPES
from .differing_layers import Abis, MountChanges, Room, Unscoped
from .moving import MAKING
from .policies import Policy
from .regions import Region
from .ruling import CHAINS, GAINS, NOTHING, Comparison, Layers, Numbers, Objects, Ruled, Ruling
from .sides import OF_OPENED, Gone, Sides, united

_NOTHING: Abis = frozenset()


@dataclass(frozen=True)
class Chain:
    """A right that passes by rules on some directories, one in the other, and perhaps on a file in them.

    Without either it passes everywhere. `layer` is the layer of the other policy that refuses it there.
    """

    right: str
    layer: int
    directories: tuple[str, ...]
    file: str | None = None


@dataclass(frozen=True)
class Gain:
    """Moves that may pass to under a directory, from what some rules are on if there are such.

    There a layer of the other policy grants the right, which the object gains by the move in no layer of this one.
    """

    right: str
    layer: int
    directory: str
    sources: tuple[Region, ...]


FoundAnywhere = Chain | Gain | MountChanges | Unscoped | Room


@dataclass
class Direction:
    """One policy and another, the old one of `sides`, and what is found that passes under the one alone.

    `named` are the rights that differ at each ABI as paths are named, with the objects on which they do, and `moved`
    the paths to under which moves do, with the ABIs. `kinds` are the rights at each ABI to make objects of the kinds
    that can be moved to other directories.
    """

    one: Policy
    other: Policy
    sides: Sequence[Sides]
    objects: Sequence[Region]
    named: Mapping[int, Gone] = field(default_factory=dict)
    moved: Mapping[str, Abis] = field(default_factory=dict)
    kinds: Mapping[int, Collection[str]] = field(default_factory=dict)
    found: dict[FoundAnywhere, Abis] = field(default_factory=dict)
    _paths: dict[Numbers, tuple[tuple[str, ...], str | None]] = field(default_factory=dict)

    def add(self, one: FoundAnywhere, abi: int) -> None:
        """Adds an ABI at which something was found."""
        self.found[one] = self.found.get(one, _NOTHING) | {abi}

    def add_chain(self, right: str, layer: int, chain: Numbers, abi: int) -> None:
        """Adds a chain by the numbers of its objects; many rights and ABIs have the same chain."""
        paths = self._paths.get(chain)
        if paths is None:
            on = self.on(chain)
            file = next((one.path for one in on if one.as_file), None)
            paths = self._paths[chain] = tuple(one.path for one in on if not one.as_file), file
        self.add(Chain(right, layer, *paths), abi)

    def on(self, chain: Iterable[int]) -> list[Region]:
        """What a chain is of besides the root."""
        return [self.objects[number] for number in sorted(set(chain)) if number != 0]


def asked_first(of: Direction) -> list[Comparison]:
    """What is asked before it is known what differs as paths are named."""
    return [*(sides.moved(making) for sides in of.sides for making in MAKING.values()),
            *(comparison for _, comparison in _of_layers(of))]


def tell(ruling: Ruling, directions: Sequence[Direction]) -> None:
    """Finds what passes beside what differs as paths are named. What is asked of all directions is asked together."""
    for of in directions:
        of.kinds = _movable(ruling, of)
    gained = [comparison for of in directions for *_, comparison in _gained(of)]
    beyond = [_Beyond(of, sides, of.named.get(sides.abi, {})) for of in directions for sides in of.sides]
    while beyond:
        ruling.ask([*gained, *(comparison for one in beyond for comparison in one.comparisons)])
        beyond = [further for one in beyond for further in one.told(ruling)]
    for of in directions:
        _tell_gains(ruling, of)
        _tell_layers(ruling, of)


# ---- what passes on objects


@dataclass(frozen=True)
class _Beyond:
    """What passes on objects at an ABI beside what is gone."""

    of: Direction
    sides: Sides
    gone: Gone

    @cached_property
    def comparisons(self) -> list[Comparison]:
        """What is asked of each right."""
        return [self.sides.beyond(rights, self.gone) for rights in self.sides.asked]

    def told(self, ruling: Ruling) -> Iterator[_Beyond]:
        """Tells each object by which alone something passes, else those by which it does together. What is asked then
        is what passes without the former."""
        alone: dict[str, Objects] = {}
        for (right, *_), comparison in zip(self.sides.asked, self.comparisons):
            answer = ruling.answer(comparison)
            for layer, single, chain in zip(self.sides.old, answer.single, answer.chains):
                if 0 in single:
                    if right in self._everywhere:
                        self.of.add_chain(right, layer.number, (), self.sides.abi)
                elif chain is not None:
                    for told in _alone(single) or [chain]:
                        self.of.add_chain(right, layer.number, told, self.sides.abi)
                    alone[right] = alone.get(right, NOTHING).union(single)
        if any(alone.values()):
            yield _Beyond(self.of, self.sides, united(self.gone, alone))

    @cached_property
    def _everywhere(self) -> Collection[str]:
        """The rights that are told where they pass everywhere; any other differs there as paths are named."""
        by_moves = any(self.sides.abi in abis for abis in self.of.moved.values())
        return {OF_OPENED, REFER} if self.of.kinds[self.sides.abi] and not by_moves else {OF_OPENED}


def _alone(single: Numbers) -> list[Numbers]:
    """Objects by themselves; a path that is there as a directory isn't told as a file too."""
    return [(number,) for number in single if number % 2 == 1 or number - 1 not in single]


# ---- what may pass of moves


def _movable(ruling: Ruling, of: Direction) -> dict[int, Collection[str]]:
    """The rights at each ABI to make objects of the kinds that the new policy lets be moved to other directories."""
    return {sides.abi: [making for making in MAKING.values()
                        if ruling.answer(sides.moved(making)).chains[0] is not None] for sides in of.sides}


def _gained(of: Direction) -> Iterator[tuple[Sides, str, Comparison]]:
    """What is asked of the rights that objects may gain by moves of the kinds that can be moved."""
    for sides in of.sides:
        if kinds := of.kinds[sides.abi]:
            for right in FS.since if MAKING["dir"] in kinds else FS.ordered(FILE_RIGHTS):
                yield sides, right, sides.on_both(right, {CHAINS, GAINS})


def _tell_gains(ruling: Ruling, of: Direction) -> None:
    """Tells what objects may gain of rights that pass nowhere else."""
    for sides, right, comparison in _gained(of):
        answer = ruling.answer(comparison)
        for layer, gain, chain in zip(sides.old, answer.gains, answer.chains):
            if gain is not None and chain is None:
                to, sources = of.objects[gain.directory].path, tuple(of.on(gain.chain))
                if sides.abi not in of.moved.get(to, _NOTHING):
                    of.add(Gain(right, layer.number, to, sources), sides.abi)


# ---- mounts, scopes, and the number of layers


def _of_layers(of: Direction) -> list[tuple[int, Comparison]]:
    """What is asked of the layers at each ABI: a kernel may know scopes or not."""
    return [(it.abi, Comparison(_scoped(of.other, it.old, scopes=scopes), _scoped(of.one, it.new, scopes=scopes)))
            for it in of.sides for scopes in (False, True)]


def _tell_layers(ruling: Ruling, of: Direction) -> None:
    """Tells restrictions that are lost, and layers that are left for the program's own."""
    for abi, comparison in _of_layers(of):
        answer = ruling.answer(comparison)
        if answer.spare_layers:
            of.add(Room(len(comparison.new), len(comparison.old)), abi)
        for lost in sorted(answer.lost):
            of.add(Unscoped(lost) if lost in SCOPES else MountChanges(), abi)


def _scoped(policy: Policy, layers: Layers, *, scopes: bool) -> Layers:
    """The layers that are in force, without their rules, on a kernel that knows scopes or one that doesn't.

    `layers` are those that handle some right.
    """
    handled = {layer.number: layer.handled for layer in layers}
    return tuple(Ruled(layer.number, handled.get(layer.number, NONE), (), frozenset(layer.scoped) if scopes else NONE)
                 for layer in policy.layers if layer.number in handled or (scopes and layer.scoped))
