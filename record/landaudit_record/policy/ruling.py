"""Asks landaudit-rules what two policies let pass (landaudit-rules(1)), with rules on objects by number.

Where a right passes depends on what each layer says of this right alone (`granting`, of `ll_policy`). So a comparison
about a right does not name it: it is the same for all rights of which layers say the same, at whatever ABI.
"""

from __future__ import annotations

import json
from collections.abc import Iterable, Mapping, Sequence
from dataclasses import dataclass, field
from functools import cache, cached_property
from pathlib import Path
from typing import Any, NamedTuple

from ..common.rights import FS, NET, NONE, REFER, Rights
from ..common.trees import ROOT, upwards
from ..engine import landaudit_rules
from .regions import Region, as_named

Numbers = tuple[int, ...]
Objects = frozenset[int]
NOTHING: Objects = frozenset()
Parents = tuple[str, ...]
Files = tuple[tuple[str, int], ...]


@dataclass(frozen=True)
class RuledObjects:
    """The objects that comparisons are about: the root, and each path with a rule as a directory and as a file."""

    paths: Mapping[str, int]
    _beneath: dict[Parents, tuple[Numbers, Files]] = field(default_factory=dict, compare=False)

    @classmethod
    def of(cls, paths: Iterable[str]) -> RuledObjects:
        """The objects of paths, of which none is the root."""
        return cls({path: number for number, path in enumerate(paths)})

    def directory(self, path: str) -> int:
        """The number of a path as a directory."""
        return 0 if path == ROOT else 2 * self.paths[path] + 1

    def file(self, path: str) -> int:
        """The number of a path as a file."""
        return 2 * self.paths[path] + 2

    def number(self, region: Region) -> int:
        """The number of what a region is of."""
        return self.file(region.path) if region.as_file else self.directory(region.path)

    def beneath(self, parents: Parents) -> tuple[Numbers, Files]:
        """The numbers of the parents of a rule as directories, and of those that may be files with their paths."""
        if parents not in self._beneath:
            named = [(parent, as_named(parent)) for parent in dict.fromkeys(parents)]
            files = tuple((path, self.file(path)) for parent, path in named if not parent.endswith("/") and path != ROOT)
            self._beneath[parents] = tuple(self.directory(path) for _, path in named), files
        return self._beneath[parents]

    @cached_property
    def files(self) -> list[bool]:
        """Which objects are files, by number."""
        return [False, *(as_file for _ in self.paths for as_file in (False, True))]

    @cached_property
    def parents(self) -> Numbers:
        """The number of what each object after the root is in: the nearest path above it, as a directory."""
        over = (next((up for up in list(upwards(path))[1:] if up in self.paths), ROOT) for path in self.paths)
        return tuple(number for path in over for number in 2 * [self.directory(path)])

    @cached_property
    def named(self) -> list[Region]:
        """The objects by number."""
        return [Region(ROOT), *(Region(path, as_file) for path in self.paths for as_file in (False, True))]


# ---- what layers say


@dataclass(frozen=True)
class RuleOnObjects:
    """What a rule grants on objects by their numbers."""

    rights: Rights
    objects: Numbers


@dataclass(frozen=True)
class RuleOnPorts:
    """What a rule grants on ports by their numbers."""

    rights: Rights
    ports: Numbers


class Granting(NamedTuple):
    """What a layer says of one right: whether it handles it, and the objects on which its rules grant it."""

    handles: bool
    on: Objects = NOTHING

    def less(self, gone: Objects) -> Granting:
        """The same without a grant on some objects."""
        return Granting(self.handles, self.on - gone)

    def record(self) -> dict[str, Any]:
        """A layer that says this of the right that is asked about."""
        rules = [{"objects": sorted(self.on), "fs": [_ASKED]}] if self.on else []
        return {"fs": [_ASKED] if self.handles else [], "object_rules": rules}


@dataclass(frozen=True)
class Ruled:
    """A layer of a policy at an ABI: what it handles, its rules on objects and on ports, and its scopes."""

    number: int
    handled: Rights
    rules: tuple[RuleOnObjects, ...]
    scoped: frozenset[str] = frozenset()
    handled_net: Rights = NONE
    port_rules: tuple[RuleOnPorts, ...] = ()

    @cached_property
    def of(self) -> Mapping[str, Granting]:
        """What it says of each right for files. As in the kernel, `refer` is handled with any other right."""
        handled = self.handled | {REFER} if self.handled else NONE
        return {right: Granting(right in handled, NOTHING.union(
            *(rule.objects for rule in self.rules if right in rule.rights))) for right in FS.since}

    def record(self) -> dict[str, Any]:
        """The layer as a comparison has it."""
        return {
            "fs": _names(self.handled),
            "object_rules": [{"objects": rule.objects, "fs": _names(rule.rights)} for rule in self.rules],
            "net": NET.ordered(self.handled_net),
            "port_rules": [{"ports": rule.ports, "net": NET.ordered(rule.rights)} for rule in self.port_rules],
            **{scope: True for scope in sorted(self.scoped)},
        }


Layers = tuple[Ruled, ...]
Grantings = tuple[Granting, ...]

#: The name of the right that is asked about; it is the first in an answer.
_ASKED = next(iter(FS.since))
#: What is asked of a right.
PARTS = REGIONS, CHAINS, SINGLE, GAINS = "regions", "objects", "single", "gains"


@cache
def _names(rights: Rights) -> list[str]:
    """The names of rights for files, in order."""
    return FS.ordered(rights)


# ---- what is asked, and what is answered


@dataclass(frozen=True)
class Comparison:
    """Two policies by their layers, and what is asked of them: on which of so many ports rights pass, and which moves of
    objects that these rights make, by what each object is in; or, by what layers say of one right, `parts` of where
    it passes: in which regions, on which objects together and by themselves, and by which moves it is gained."""

    old: Layers | Grantings
    new: Layers | Grantings
    parts: frozenset[str] = frozenset()
    parents: Numbers = ()
    ports: int = 0
    moves: Rights = NONE

    def line(self, objects: RuledObjects) -> str:
        """The comparison as a line of JSON."""
        asked = {part: [_ASKED] if part in self.parts else [] for part in PARTS}
        sides = {name: [layer.record() for layer in side] for name, side in (("old", self.old), ("new", self.new))}
        about = {"files": objects.files, "parents": self.parents, "ports": self.ports, "moves": _names(self.moves)}
        return json.dumps({**about, **asked, **sides}, separators=(",", ":"))


@dataclass(frozen=True)
class Into:
    """A directory into which objects may be moved under the new layers alone, and on what these are."""

    directory: int
    chain: Numbers


@dataclass(frozen=True)
class Moved:
    """What may be moved to a region under one policy alone: objects in the regions of directories, and with rules."""

    to: int
    is_new: bool
    beneath: Numbers
    themselves: Numbers


@dataclass(frozen=True)
class Passing:
    """Where a right passes under both policies, and where under one alone: regions or ports by their numbers."""

    both: frozenset[int]
    new: frozenset[int]
    old: frozenset[int]


@dataclass(frozen=True)
class ComparisonAnswer:
    """What landaudit-rules found of the right that was asked about: where it passes and, for each old layer by its
    index, what passes once objects are moved; on which ports each right passes; and for each kind of objects the moves
    that pass under one policy alone. Of what is about files it is only what was asked."""

    regions: Passing
    chains: list[Numbers | None]
    single: list[Numbers]
    gains: list[Into | None]
    ports: Mapping[str, Passing]
    moves: list[list[Moved]]
    lost: frozenset[str]
    spare_layers: int

    @classmethod
    def read(cls, found: Mapping[str, Any]) -> ComparisonAnswer:
        """The answer on a line."""
        regions, chains, single, gains = (found[part][0] for part in PARTS)
        return cls(
            _passing(regions),
            [None if one is None else tuple(one) for one in chains],
            [tuple(one) for one in single],
            [None if one is None else Into(one["directory"], tuple(one["chain"])) for one in gains],
            dict(zip(NET.since, map(_passing, found["ports"]))),
            [_moved(by_region) for by_region in found["moves"]],
            frozenset(name for name, layer in found["lost"].items() if layer is not None),
            found["spare_layers"],
        )


def _moved(by_region: Sequence[Mapping[str, Mapping[str, list[int]]] | None]) -> list[Moved]:
    """The moves of objects of a kind, where one policy lets some be moved to a region."""
    return [Moved(to, policy == "new", tuple(movers["beneath"]), tuple(movers["themselves"]))
            for to, moved in enumerate(by_region) if moved is not None for policy, movers in moved.items()]


def _passing(found: Mapping[str, list[int]]) -> Passing:
    """Where a right passes."""
    return Passing(*(frozenset(found[policies]) for policies in ("both", "new", "old")))


@dataclass(frozen=True)
class Ruling:
    """The answers to comparisons over some objects; each is asked once."""

    program: Path
    objects: RuledObjects
    _known: dict[Comparison, ComparisonAnswer] = field(default_factory=dict)

    def ask(self, comparisons: Iterable[Comparison]) -> None:
        """Asks what is not known, all together."""
        asked = [one for one in dict.fromkeys(comparisons) if one not in self._known]
        found = landaudit_rules.ask(self.program, [one.line(self.objects) for one in asked])
        self._known.update((one, ComparisonAnswer.read(values[0])) for one, values in zip(asked, found))

    def answer(self, asked: Comparison) -> ComparisonAnswer:
        """The answer to a comparison that was asked."""
        return self._known[asked]
