"""Answers questions about all objects at once, by the regions of a policy's rules.

A right passes on an object if each layer that handles it has a rule that grants it there or on a directory above. So
one path stands for all that have the same rules on or above them (`regions`). Each path with a rule, and each that a
question names, is an object to landaudit-rules that has all of these rules, which then says on which of them a right
passes. A path at which this machine has nothing counts as a directory: a file there would get no further right.
"""

from __future__ import annotations

from collections import defaultdict
from collections.abc import Collection, Iterable, Iterator, Mapping, Sequence
from dataclasses import dataclass, replace

from ..common.problems import Problem
from ..common.resolving import NOWHERE
from ..common.rights import FILE_RIGHTS, FS, NONE, REFER, Rights
from ..common.trees import ROOT, directory_of, upwards
from ..engine import landaudit_rules
from ..recorder import disk
from . import called, fitting, parents
from .fitting import FittedLayer
from .granting import Grant
from .over_sets import ALL_ABIS, NEVER, SetQuestion, Together
from .parents import Names
from .policies import Policy
from .regions import Area, Region, Regions, areas, as_named
from .ruling import SINGLE, Comparison, Granting, Layers, Ruled, RuledObjects, RuleOnObjects, Ruling

_EVERYTHING = Granting(True)
"""A layer that refuses a right everywhere: where other layers let it pass, they let more pass."""


@dataclass(frozen=True)
class Breach:
    """Rights that pass in an area, together if there are several, and the rules on it or above it that grant them."""

    rights: tuple[str, ...]
    area: Area
    grants: tuple[Grant, ...]

    def __str__(self) -> str:
        return f"{', '.join(self.rights)} {self.area}"


@dataclass(frozen=True)
class Decision:
    """A question with all that passes although it may not, by neighbouring ABIs at which the same does."""

    question: SetQuestion
    breaches: tuple[tuple[range, tuple[Breach, ...]], ...]

    @property
    def holds(self) -> bool:
        """Whether nothing passes that may not."""
        return not self.breaches


def decisions(policy: Policy, questions: Sequence[SetQuestion]) -> list[Decision]:
    """The decisions on questions. The policy's parents are what they lead to on this machine."""
    if not fitting.refer_by_scopes(policy):
        return _decisions(policy, questions, scopes=True)
    found: dict[int, Decision] = {}
    for later in (False, True):
        some = {number: one for number, one in enumerate(questions) if one.only_later == later}
        found.update(zip(some, _decisions(policy, list(some.values()), scopes=later)))
    return [found[number] for number in range(len(questions))]


def _decisions(policy: Policy, questions: Sequence[SetQuestion], *, scopes: bool) -> list[Decision]:
    """The decisions on some of them; without `scopes`, a layer that has these alone refuses nothing."""
    if not questions:
        return []
    policy = parents.by_all_mounts(policy)
    questions = [replace(one, elsewhere=parents.elsewhere(one.under)) for one in questions]
    rules = [rule for layer in policy.layers for rule in layer.path_beneath]
    several: Sequence[Sequence[str]] = parents.shown_twice() if any(one.kind == NEVER for one in questions) else ()
    named = {as_named(parent) for rule in rules for parent in rule.parents}.union(*several)
    named = named.union(*((*one.under, *one.elsewhere) for one in questions))
    places = _Places.of(sorted((named | {ROOT}) - {NOWHERE}))
    policy = parents.under_all_names(policy, places.kinds)
    names = parents.by_object(places.kinds) if any(one.kind == NEVER for one in questions) else {}
    several = [*several, *(paths for paths in names.values() if len(paths) > 1)]
    called.ask_at_each([policy], ALL_ABIS)
    by_abi = {abi: [_Granting.of(layer, policy, places) for layer in fitting.fit(policy, abi, scopes=scopes)[0]]
              for abi in ALL_ABIS}
    asked = list(dict.fromkeys((abi, rights) for one in questions for abi in one.abis
                               for together in one.asked_at(abi)
                               for rights in (together, *((right,) for right in together if several))))
    objects = RuledObjects.of([path for path in places.kinds if path != ROOT])
    ruled = {abi: _on_objects(layers, objects) for abi, layers in by_abi.items()}
    about = {(abi, rights): _question(ruled[abi], rights) for abi, rights in asked}
    ruling = Ruling(landaudit_rules.find(), objects)
    ruling.ask(about.values())
    regions = objects.named
    passing = {of: frozenset(regions[number].path for number in ruling.answer(question).single[0])
               for of, question in about.items()}
    breaches = ({abi: _breaches(one, abi, by_abi[abi], places, passing, names) for abi in one.abis} for one in questions)
    return [Decision(one, tuple(_together(found))) for one, found in zip(questions, breaches)]


# ---- what there may be


@dataclass(frozen=True)
class _Places:
    """Paths in order, the root first, each with the kind of what this machine has there."""

    kinds: Mapping[str, str | None]

    @classmethod
    def of(cls, paths: Iterable[str]) -> _Places:
        """The paths at which something may be: nothing can be in what is no directory."""
        return cls({path: _kind(path) for path in paths if path == ROOT or _kind_above(path) == "dir"})

    def is_file(self, path: str) -> bool:
        """Whether this machine has something else than a directory at a path."""
        return self.kinds.get(path) not in ("dir", None)

    def named(self, differing: Collection[str], *, of_files: bool) -> tuple[str, ...]:
        """The paths that are to be named: of files, those that are not as what is around them."""
        return tuple(path for path in self.kinds if not self.is_file(path) or (
            of_files and (path in differing) != (self._around(path) in differing)))

    def region(self, path: str) -> str:
        """The path that stands for a path."""
        return next(over for over in upwards(path) if over in self.kinds)

    def _around(self, path: str) -> str:
        """The path that stands for what is around a file."""
        return self.region(directory_of(path))


def _kind(path: str) -> str | None:
    """The kind of what this machine has at a path; a link there leads elsewhere for each process."""
    seen = disk.look(path)
    return None if seen is None or seen.kind == "sym" else seen.kind


def _kind_above(path: str) -> str | None:
    """The kind of the nearest object above a path that this machine has."""
    return next((kind for over in upwards(directory_of(path)) if (kind := _kind(over)) is not None), "dir")


# ---- a policy at an ABI


@dataclass(frozen=True)
class _Granting:
    """A layer at an ABI, and what its rules grant by the paths that they are on."""

    number: int
    handled: Rights
    on: Mapping[str, Sequence[Grant]]

    @classmethod
    def of(cls, layer: FittedLayer, policy: Policy, places: _Places) -> _Granting:
        """A layer; a rule that the kernel refuses on this machine is a Problem."""
        found: dict[str, list[Grant]] = {}
        for rule in layer.path_rules:
            for parent in rule.parents:
                path = as_named(parent)
                is_file = places.is_file(path)
                if is_file and not FILE_RIGHTS.issuperset(rule.on("reg")):
                    raise Problem(f"{policy.path}: layer {layer.number}, {rule.place}: the kernel refuses it with "
                                  f"EINVAL: {path} is not a directory")
                rights = rule.on("reg") if is_file else rule.on_directory
                found.setdefault(path, []).append(Grant(layer.number, rule.place, path, tuple(rights)))
        handled = frozenset(layer.handled_fs)
        return cls(layer.number, handled | {REFER} if handled else NONE, found)

    def grants(self, path: str) -> Iterator[Grant]:
        """What the rules on a path and above it grant there."""
        yield from (grant for over in upwards(path) for grant in self.on.get(over, ()))


def _on_objects(layers: Sequence[_Granting], objects: RuledObjects) -> Layers:
    """Layers with what they grant on each object."""
    paths = [ROOT, *objects.paths]
    return tuple(Ruled(layer.number, layer.handled, tuple(
        RuleOnObjects(NONE.union(*(grant.rights for grant in layer.grants(path))), (objects.directory(path),))
        for path in paths
    )) for layer in layers)


def _question(layers: Layers, rights: Together) -> Comparison:
    """What landaudit-rules is asked about a right, or about several together."""
    together = tuple(layer.of[right] for right in rights for layer in layers)
    return Comparison((_EVERYTHING,), together, frozenset({SINGLE}))


# ---- what passes, in as few areas as there are


PassingPaths = Mapping[tuple[int, Together], frozenset[str]]
"""The paths on which rights pass together at an ABI."""


def _breaches(
    question: SetQuestion, abi: int, layers: Sequence[_Granting], places: _Places, passing: PassingPaths, names: Names
) -> tuple[Breach, ...]:
    """All that passes at an ABI although a question says that it does not."""
    by_area: defaultdict[Area, list[str]] = defaultdict(list)
    for rights in question.asked_at(abi):
        of_files = FILE_RIGHTS.issuperset(rights)
        differing = {path for path in passing[abi, rights]
                     if question.is_about(path) and (of_files or not places.is_file(path))}
        paths = places.named(differing, of_files=of_files)
        regions = {Region(path) for path in paths if path in differing}
        for area in areas(Regions(paths, ()), regions, of_files=False):
            by_area[replace(area, as_file=places.is_file(area.path))] += rights
    if question.kind == NEVER:
        for path, right in _by_several_paths(question, abi, places, passing, names):
            by_area[Area(path, as_file=places.is_file(path))].append(right)
    return tuple(Breach(tuple(rights), area, tuple(_grants(layers, area.path, rights)))
                 for area, rights in by_area.items())


def _by_several_paths(
    question: SetQuestion, abi: int, places: _Places, passing: PassingPaths, names: Names
) -> Iterator[tuple[str, str]]:
    """Rights of which each passes on another path of an object, where mounts show it or by a hard link, with these paths."""
    (both,) = question.asked
    found: dict[tuple[str, str], None] = {}
    of_files = FILE_RIGHTS.issuperset(both)
    for path in places.kinds if (abi, both[:1]) in passing else ():
        for there in parents.places(path, names)[1:] if of_files or not places.is_file(path) else ():
            regions = places.region(path), places.region(there)
            if not any(map(question.is_about, (path, there))) or not passing[abi, both].isdisjoint(regions):
                continue
            for first, second in (both, both[::-1]):
                if regions[0] in passing[abi, (first,)] and regions[1] in passing[abi, (second,)]:
                    found |= {(path, first): None, (there, second): None}
    yield from (one for one in found if not any((over, one[1]) in found for over in list(upwards(one[0]))[1:]))


def _grants(layers: Sequence[_Granting], path: str, rights: Sequence[str]) -> Iterator[Grant]:
    """The rules that grant rights on a path."""
    for layer in layers:
        for grant in layer.grants(path):
            if granted := FS.ordered(set(rights) & set(grant.rights) & layer.handled):
                yield Grant(grant.layer, grant.rule, grant.on, tuple(granted))


def _together(by_abi: Mapping[int, tuple[Breach, ...]]) -> Iterator[tuple[range, tuple[Breach, ...]]]:
    """Neighbouring ABIs at which the same passes, without those at which nothing does."""
    first: int | None = None
    for abi, found in by_abi.items():
        first = abi if first is None else first
        if by_abi.get(abi + 1) != found:
            if found:
                yield range(first, abi + 1), found
            first = None
