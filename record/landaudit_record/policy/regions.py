"""The regions of two policies.

A policy's answer depends on a path only through the rules on the path and above it. So one path stands for all paths
that have the same rules on or above them (`regions_stand_for_their_objects`, a law of `ll_policy`): the root stands for
all paths that have only its rules, and each path with a rule stands for everything beneath it that has no other rule.

A path with a rule may be a directory. As a file, it has a rule with other rights, since a file can't have all of them,
and nothing is beneath it.
"""

from __future__ import annotations

from collections import defaultdict
from collections.abc import Iterable, Iterator, Mapping, Sequence
from dataclasses import dataclass, replace
from functools import cache, cached_property

from ..common.rights import FILE_RIGHTS, NEWEST_ABI, NONE, OLDEST_ABI, Rights
from ..common.trees import ROOT, Tree, upwards
from . import called, fitting
from .fitting import FittedLayer
from .policies import HIGHEST_PORT, Access, Layer, PathRule, Policy

ALL_ABIS = range(OLDEST_ABI, NEWEST_ABI + 1)


@dataclass(frozen=True)
class Regions:
    """The paths and ports that two policies have rules on.

    The root is the first path, whether it has a rule or not, and each path comes after all paths above it. The ports
    are in groups: on those of one group, each layer of both policies grants the same. `directories` has paths with ABIs
    at which they must be directories: on a file, the kernel refuses a rule there, so that a policy is not in force.
    `fitted` has the layers of each policy by ABI.
    """

    paths: tuple[str, ...]
    ports: tuple[tuple[int, ...], ...]
    directories: frozenset[tuple[str, int]] = frozenset()
    fitted: tuple[Mapping[int, Sequence[FittedLayer]], ...] = ()

    @classmethod
    def of(cls, policies: Sequence[Policy], *, scopes: bool = True) -> Regions:
        """The regions of policies together, with their layers as `fit` gives them."""
        layers = [layer for policy in policies for layer in policy.layers]
        rules = [rule for layer in layers for rule in layer.path_beneath]
        paths = {as_named(parent) for rule in rules for parent in rule.parents}
        together = list(map(_together, policies))
        called.ask_at_each(together, ALL_ABIS)
        fitted = tuple({abi: fitting.fit(policy, abi, scopes=scopes)[0] for abi in ALL_ABIS} for policy in together)
        return cls(tuple(sorted(paths | {ROOT})), _ports_alike(layers), frozenset(_directories(fitted)), fitted)

    @property
    def ruled(self) -> tuple[str, ...]:
        """The paths except the root, which may be files and may be moved."""
        return self.paths[1:]

    @property
    def numbered_ports(self) -> tuple[int | None, ...]:
        """A port of each group, and None for all ports without a rule, if there are any."""
        ruled = sum(map(len, self.ports))
        return (*self.tried_ports, None) if ruled <= HIGHEST_PORT else tuple(self.tried_ports)

    @cached_property
    def tried_ports(self) -> Mapping[int, tuple[int, ...]]:
        """A port of each group, which stands for all of its group."""
        return {ports[0]: ports for ports in self.ports}

    def is_directory(self, path: str, abi: int) -> bool:
        """Whether a path must be a directory at an ABI."""
        return (path, abi) in self.directories

    def may_be_file(self, path: str, abis: Iterable[int]) -> bool:
        """Whether a path may be a file at one of some ABIs."""
        return path != ROOT and not all(self.is_directory(path, abi) for abi in abis)

    def above(self, path: str) -> str | None:
        """The region that contains a path's region, None for the root."""
        return self._above[path]

    @cached_property
    def _above(self) -> Mapping[str, str | None]:
        known = frozenset(self.paths)
        return {path: next((over for over in list(upwards(path))[1:] if over in known), None) for path in self.paths}


def _together(policy: Policy) -> Policy:
    """The policy with one rule for all parents of rules that allow the same in a layer."""
    return replace(policy, layers=tuple(
        replace(layer, path_beneath=tuple(_united(layer.path_beneath))) for layer in policy.layers))


def _united(rules: Iterable[PathRule]) -> Iterator[PathRule]:
    """One rule for all parents of rules that allow the same."""
    alike: defaultdict[tuple[Access, str | None], list[PathRule]] = defaultdict(list)
    for rule in rules:
        alike[rule.allowed_access, rule.group].append(rule)
    for each in alike.values():
        yield replace(each[0], parents=tuple(parent for rule in each for parent in rule.parents))


def _ports_alike(layers: Sequence[Layer]) -> tuple[tuple[int, ...], ...]:
    """The ports that layers have rules on, those together on which each of them grants the same rights."""
    granted: defaultdict[int, dict[int, Rights]] = defaultdict(dict)
    for number, layer in enumerate(layers):
        for rule in layer.net_port:
            rights = rule.allowed_access.rights
            for port in rule.ports:
                granted[port][number] = granted[port].get(number, NONE) | rights
    alike: defaultdict[tuple[tuple[int, Rights], ...], list[int]] = defaultdict(list)
    for port in sorted(granted):
        alike[tuple(granted[port].items())].append(port)
    return tuple(map(tuple, alike.values()))


def _directories(fitted: Iterable[Mapping[int, Sequence[FittedLayer]]]) -> Iterator[tuple[str, int]]:
    """The paths that must be directories, with the ABIs at which they must: of a file, a rule asks for other rights."""
    for abi in ALL_ABIS:
        for rule in (rule for by_abi in fitted for layer in by_abi[abi] for rule in layer.path_rules):
            if not FILE_RIGHTS.issuperset(rule.on("reg")):
                yield from ((as_named(parent), abi) for parent in rule.parents if not parent.endswith("/"))


@cache
def as_named(path: str) -> str:
    """A path as a policy names it, without doubled slashes, `.` and `..`. No link is followed, on any tree."""
    return Tree().resolved(path)


@dataclass(frozen=True)
class Region:
    """Where a right or a move differs: at everything under a path, or at the path itself as a file."""

    path: str
    as_file: bool = False


@dataclass(frozen=True)
class Area:
    """A set of objects: all at and under a path, but for all at and under others; or a path itself, as a file.

    `but_for_files` are paths inside that are not meant if they are files.
    """

    path: str
    but_for: tuple[str, ...] = ()
    but_for_files: tuple[str, ...] = ()
    as_file: bool = False

    def __str__(self) -> str:
        if self.as_file:
            return f"on {self.path} as a file"
        out = [*self.but_for, *(f"{path} as a file" for path in self.but_for_files)]
        return f"under {self.path}, but for {', '.join(out)}" if out else f"under {self.path}"


def areas(
    regions: Regions, differing: set[Region], of_files: bool, abis: Iterable[int] = ALL_ABIS
) -> Iterator[Area]:
    """A set of regions as few areas.

    `of_files` says that files were asked about too: then a path inside is named that does not differ as a file and may
    be one at some of the ABIs.
    """
    under = {region.path for region in differing if not region.as_file}
    alone = {region.path for region in differing if region.as_file}
    over = {path: regions.above(path) for path in regions.paths}
    top = {path: path for path in under if over[path] not in under}
    for path in regions.paths:
        if path in under and path not in top:
            top[path] = top[over[path] or ROOT]
    inside, out = defaultdict[str, list[str]](list), defaultdict[str, list[str]](list)
    for path in regions.paths:
        if path in top:
            inside[top[path]].append(path)
        elif (around := over[path]) in top:
            out[top[around]].append(path)
    for first, paths in inside.items():
        may_be = (path for path in paths if path not in alone and regions.may_be_file(path, abis))
        yield Area(first, tuple(out[first]), tuple(may_be) if of_files else ())
    if of_files:
        yield from (Area(path, as_file=True) for path in sorted(alone - under))
