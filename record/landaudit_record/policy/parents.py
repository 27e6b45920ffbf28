"""The parents of a policy's rules: where each leads, and the names that an object has besides."""

from __future__ import annotations

import os
import stat
from collections import Counter
from collections.abc import Callable, Iterable, Iterator, Mapping, Sequence
from dataclasses import dataclass, field, replace
from functools import cache

from ..common.problems import Problem
from ..common.resolving import NOWHERE, ROOT, KnownObjects, LinkLoop, Met, Walked, is_of_process, walked
from ..common.trees import upwards
from ..recorder import mounted
from .policies import PathRule, Policy


#: Device and inode of an object, and its path if another name of that inode may be another object.
_Identity = tuple[int, int, str | None]
Names = Mapping[_Identity, Sequence[str]]


@dataclass(frozen=True)
class Parent:
    """A parent of a rule, with the number of its layer, and where it leads; a group's rule has the group."""

    layer: int
    rule: PathRule
    written: str
    led: Walked

    @property
    def place(self) -> str:
        """The rule and the parent, in words."""
        return f"layer {self.layer}, {self.rule.place}, parent {self.written}"


@dataclass(frozen=True)
class Seen:
    """Objects that are looked at once: at each path is what was there then."""

    known: KnownObjects
    _met: dict[str, Met | None] = field(default_factory=dict)

    def at(self, path: str) -> Met | None:
        """What was at a path whose directories are no links; None if that is not known."""
        if path not in self._met:
            self._met[path] = self.known.at(path)
        return self._met[path]


def each(policy: Policy, known: KnownObjects) -> Iterator[Parent]:
    """Each parent of a policy's rules, and where it leads; a loop of links is a Problem."""
    for layer in policy.layers:
        for rule in layer.path_beneath:
            for written in rule.parents:
                try:
                    led = walked(written, known)
                except LinkLoop as loop:
                    place = f"{policy.path}: layer {layer.number}, {rule.place}, parent"
                    raise Problem(f"{place}: {written} is a loop of symbolic links: name another path") from loop
                yield Parent(layer.number, rule, written, led)


def followed(policy: Policy, found: Iterable[Parent]) -> Policy:
    """The policy with what its parents lead to, as `each` found: a rule is on an object, and not on a link to it.

    A parent that the kernel can't open is on no object. One that can only be a directory keeps a slash at its end.
    """
    leads = {parent.written: _followed(parent.led) for parent in found}
    return _with_parents(policy, lambda rule: tuple(leads[written] for written in rule.parents))


def _followed(led: Walked) -> str:
    if led.blocked is not None:
        return NOWHERE
    return led.path + "/" if led.only_directory and led.path != ROOT else led.path


def under_all_names(policy: Policy, paths: Iterable[str]) -> Policy:
    """The policy with each rule under all names that its object has among some paths of this disk.

    A file has several names by hard links, and a directory by bind mounts. The policy's parents are as `followed` has
    them, and there is no link on the way of a path.
    """
    names = by_object(paths)
    identity = cache(_identity)

    def all_names(rule: PathRule) -> tuple[str, ...]:
        others = (name for parent in rule.parents if (of := identity(parent)) for name in names.get(of, ()))
        written = {parent.rstrip("/") for parent in rule.parents}
        return (*rule.parents, *dict.fromkeys(name for name in others if name.rstrip("/") not in written))

    return _with_parents(policy, all_names)


def by_all_mounts(policy: Policy) -> Policy:
    """The policy with each rule under all names that its object has by mounts of this machine (bind mounts)."""
    def all_names(rule: PathRule) -> tuple[str, ...]:
        there = (parent for parent in rule.parents if _identity(parent) is not None)
        others = (name for parent in there for name in shown_at(parent.rstrip("/") or ROOT))
        return (*rule.parents, *dict.fromkeys(name for name in others if name not in rule.parents))

    return _with_parents(policy, all_names)


def by_object(paths: Iterable[str]) -> dict[_Identity, list[str]]:
    """Some paths of this disk by the objects that they lead to; there is no link on the way of one."""
    names: dict[_Identity, list[str]] = {}
    for path in dict.fromkeys(paths):
        if (of := _identity(path)) is not None:
            names.setdefault(of, []).append(path)
    return names


def places(path: str, names: Names) -> tuple[str, ...]:
    """A path, and the others of its object: those by mounts of this machine, and those among the names of objects."""
    of = _identity(path)
    return tuple(dict.fromkeys((path, *shown_at(path), *(names.get(of, ()) if of is not None else ()))))


def shown_at(path: str) -> list[str]:
    """All other paths at which mounts of this machine show an object."""
    return _places().shown_at(path)


def elsewhere(paths: Sequence[str]) -> tuple[str, ...]:
    """Where else mounts of this machine show what is at or under some paths."""
    found = dict.fromkeys(place for path in paths if path != ROOT for place in _places().shown_beneath(path))
    return tuple(place for place in found if not any(over in paths for over in upwards(place)))


def shown_twice() -> list[tuple[str, str]]:
    """Pairs of paths at which mounts of this machine show one object."""
    return _places().pairs()


def with_other_names(policy: Policy, paths: Iterable[str], *, among_paths: bool = False) -> list[str]:
    """The parents that are files with names (hard links) beside those of the policy and of some paths.

    With `among_paths`, the paths that are such files instead. Paths by which mounts show one name count as one name.
    """
    written = dict.fromkeys(it.rstrip("/") or ROOT for layer in policy.layers for rule in layer.path_beneath
                            for it in rule.parents)
    further = dict.fromkeys(paths)
    identities = {path: _identity(path) for path in written | further}
    known = Counter({_places().entry(path): of for path, of in identities.items()}.values())
    return [path for path in (further if among_paths else written)
            if (of := identities[path]) is not None and _links(path) > known[of]]


def has_names_beside(path: str, names: Iterable[str]) -> bool:
    """Whether an object of this disk has names (hard links) beside some of its names."""
    return _links(path) > len({_places().entry(name) for name in names})


def has_other_names(path: str) -> bool:
    """Whether a path leads to a file of this disk that has further names (hard links)."""
    try:
        return _links(os.path.realpath(path)) > 1
    except (OSError, ValueError):
        return False


def _links(path: str) -> int:
    """How many names an object has; a directory has one."""
    status = os.lstat(path)
    return 1 if stat.S_ISDIR(status.st_mode) else status.st_nlink


def _identity(path: str) -> _Identity | None:
    """What tells an object from all others of this disk; at some paths there is another one for each process."""
    place = path.rstrip("/") or ROOT
    if is_of_process(place):
        return None
    try:
        status = os.lstat(place)
    except (OSError, ValueError):
        return None
    return status.st_dev, status.st_ino, place if _links(place) > 1 and _places().splits_links(place) else None


@cache
def _places() -> mounted.MountPlaces:
    """What is mounted on this machine."""
    return mounted.MountPlaces((it.place, it.device, it.root, it.kind) for it in mounted.mounts() if not it.hidden)


def _with_parents(policy: Policy, parents_of: Callable[[PathRule], tuple[str, ...]]) -> Policy:
    """The policy with other parents."""
    def changed(rule: PathRule) -> PathRule:
        parents = parents_of(rule)
        return rule if parents == rule.parents else replace(rule, parents=parents)

    return replace(policy, layers=tuple(
        replace(layer, path_beneath=tuple(map(changed, layer.path_beneath))) for layer in policy.layers))
