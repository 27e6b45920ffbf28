"""Groups of rules instead of single rules, as a person writes them: the groups that contain several paths."""

from __future__ import annotations

from collections.abc import Iterable, Mapping, Sequence
from dataclasses import dataclass

from ..common.rights import FILE_RIGHTS, Rights
from ..common.trees import Tree, upwards
from ..policy import policies
from ..policy.policies import PathRule
from . import missing_rights
from .missing_rights import OnPaths, Wanted

#: The fewest asked paths that a group must have, besides those of the groups before it.
FEWEST = 2
#: The group that comes before all others.
FIRST = "base"


@dataclass(frozen=True)
class Styled:
    """The groups for a layer, each with how many calls need it, and what is still lacking with them."""

    groups: Mapping[str, int]
    left: Wanted


def with_groups(wanted: Wanted, handled: Rights, trees: Sequence[Tree]) -> Styled:
    """The groups that have what is lacking; those that have most of it come first."""
    groups: dict[str, int] = {}
    left = wanted.paths
    names = [name for name in policies.group_names() if name != FIRST]
    granted = {name: _granted(policies.group_rules(name, handled), trees) for name in (FIRST, *names)}
    waiting = [FIRST, *sorted(names, key=lambda name: -len(_covered(left, granted[name])))]
    for name in waiting:
        covered = _covered(left, granted[name])
        if len({spot.path for spot in wanted.spots if spot.place in covered}) >= FEWEST:
            groups[name] = missing_rights.number_of(
                calls for rights in covered.values() for calls in rights.values()
            )
            left = _without(left, covered)
    return Styled(groups, Wanted(left, wanted.spots, wanted.ports))


def _granted(rules: Iterable[PathRule], trees: Sequence[Tree]) -> dict[str, set[str]]:
    """The rights that rules grant on paths of the recordings, by path."""
    found: dict[str, set[str]] = {}
    for rule in rules:
        for parent in rule.parents:
            for tree in trees:
                path = tree.resolved(parent, before_run=True)
                if tree.is_there_before(path):
                    rights = rule.allowed_access.rights
                    found.setdefault(path, set()).update(rights if tree.is_dir(path) else rights & FILE_RIGHTS)
    return found


def _covered(paths: OnPaths, granted: Mapping[str, set[str]]) -> OnPaths:
    """The part of some wants that is granted on the path or above it."""
    found: OnPaths = {}
    for path, rights in paths.items():
        here = set[str]().union(*(granted.get(over, ()) for over in upwards(path)))
        if here & rights.keys():
            missing_rights.unite(found, {path: {right: calls for right, calls in rights.items() if right in here}})
    return found


def _without(paths: OnPaths, covered: OnPaths) -> OnPaths:
    """Wants without those that are covered."""
    left = {path: {right: calls for right, calls in rights.items() if right not in covered.get(path, {})}
            for path, rights in paths.items()}
    return {path: rights for path, rights in left.items() if rights}
