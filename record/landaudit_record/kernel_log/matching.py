"""The layers and rules of a policy that denials are about.

The kernel names the youngest layer that refuses a call, by a number that only this run has, and lists the rights that
this layer lacks. The parents of the policy lead where they lead on this machine, and the paths of a log are real ones.
"""

from __future__ import annotations

import os
from collections import Counter
from collections.abc import Iterable, Iterator, Mapping, Sequence
from dataclasses import dataclass, field, replace
from functools import cache
from itertools import combinations

from ..common.numbered import Numbered
from ..common.rights import FS, NET
from ..common.trees import upwards
from ..engine.answers import Closed, Missing, Mounting, Objection, Scoped, Tracing, Unplaced
from ..policy.policies import Layer, PathRule, Policy, PortRule
from .denials import Denial, DeniedAccess, Log, LoggedDomain, Maker


@dataclass(frozen=True)
class RuleAbove:
    """A rule on a path or above it, or on a port, which grants other rights there: its layer, name and place."""

    layer: int
    rule: Numbered
    place: str
    rights: tuple[str, ...]


@dataclass(frozen=True)
class Matched:
    """What is known of a policy's part in a log: the layer of each domain.

    A domain that is none of the policy's layers has none. Those that no layer fits, although it refuses some of their
    denials, are `unlike`. The policy's file was `changed` last at that time, in seconds since 1970.
    """

    policy: Policy
    layers: Mapping[str, int] = field(default_factory=dict)
    unlike: tuple[str, ...] = ()
    changed: float = 0.0

    def layer_of(self, domain: str) -> Layer | None:
        """The layer of the policy that a domain is."""
        number = self.layers.get(domain)
        return next((layer for layer in self.policy.layers if layer.number == number), None)

    def is_granted_now(self, access: DeniedAccess) -> bool:
        """Whether the layer of the policy, as it is now, has what the layer of the log lacked."""
        layer = self.layer_of(access.domain)
        return layer is not None and not refuses(layer, access.objection)

    def is_made(self, access: DeniedAccess, milliseconds: int) -> bool:
        """Whether the layer has a rule on the very path of a later denial: then another object came there."""
        layer, objection = self.layer_of(access.domain), access.objection
        if layer is None or not isinstance(objection, Missing) or milliseconds < 1000 * self.changed:
            return False
        return not refuses(layer, objection) and refuses(_without_rules_on(layer, objection.path), objection)

    def is_granted_since(self, denial: Denial) -> bool:
        """Whether the policy, as it is now, grants all that was denied, but for what came to a rule's path later."""
        time = denial.stamp.milliseconds
        return all(self.is_granted_now(it) and not self.is_made(it, time) for it in denial.accesses)

    def rules_above(self, access: DeniedAccess) -> Iterator[RuleAbove]:
        """The rules of the layer of a denial that are on its object or port, or above it."""
        layer = self.layer_of(access.domain)
        if layer is not None:
            yield from _rules_above(layer, access.objection)


def match(log: Log, policy: Policy) -> Matched:
    """Finds the layer of each domain.

    A process gets its layers in their order, and their domains have ascending numbers. Of all ways to give its domains
    ascending layers that handle what the domains refused, the one counts by which most denials are those of the
    youngest layer that refuses them. Rules are compared by path, so that by itself a denial may seem to be of another
    layer: an object that the program made, or put there, has not the rule that is on its path.
    """
    objections: dict[str, Counter[Objection]] = {}
    for denial in log.denials:
        for access in denial.accesses:
            objections.setdefault(access.domain, Counter())[access.objection] += 1
    votes = {domain: _votes(policy, some) for domain, some in objections.items()}
    layers: dict[str, int] = {}
    unlike: list[str] = []
    for domains in _by_process(log, objections):
        found = _best(policy, domains, objections, votes)
        layers.update(found)
        unlike += [domain for domain in domains if domain not in found and votes[domain]]
    return Matched(policy, layers, tuple(unlike), policy.path.stat().st_mtime)


def _votes(policy: Policy, objections: Counter[Objection]) -> Counter[int]:
    """For how many denials each layer is the youngest that refuses; of ptrace(2), all layers refuse the same."""
    found: Counter[int] = Counter()
    for objection, times in objections.items():
        layer = None if isinstance(objection, Tracing) else youngest(policy, objection)
        if layer is not None:
            found[layer] += times
    return found


def _by_process(log: Log, refused: Iterable[str]) -> Iterator[list[str]]:
    """The domains that each process made, the oldest first; a domain of which that is not known is alone.

    Once all domains of a process have ended, its pid may be that of another process.
    """
    groups: list[list[LoggedDomain]] = []
    newest: dict[Maker, list[LoggedDomain]] = {}
    for domain in sorted((log.domains[number] for number in refused), key=lambda it: int(it.number, 16)):
        group = None if domain.maker is None else newest.get(domain.maker)
        if group is None or all(it.ended is not None and it.ended < domain.first for it in group):
            group = []
            groups.append(group)
            if domain.maker is not None:
                newest[domain.maker] = group
        group.append(domain)
    yield from ([domain.number for domain in group] for group in groups)


def _best(
    policy: Policy,
    domains: Sequence[str],
    objections: Mapping[str, Iterable[Objection]],
    votes: Mapping[str, Counter[int]],
) -> dict[str, int]:
    """The layers of the domains of a process; without one if nothing speaks for it, or as much for another."""
    best: list[tuple[int, ...]] = []
    most = 1
    for numbers in combinations(range(1, len(policy.layers) + 1), len(domains)):
        ways = list(zip(domains, numbers))
        if not all(_handles_all(policy.layers[number - 1], objections[domain]) for domain, number in ways):
            continue
        score = sum(votes[domain][number] for domain, number in ways)
        if score > most:
            best, most = [], score
        if score == most:
            best.append(numbers)
    alike = (index for index in range(len(domains)) if len({numbers[index] for numbers in best}) == 1)
    return {domains[index]: best[0][index] for index in alike}


def _handles_all(layer: Layer, objections: Iterable[Objection]) -> bool:
    """Whether a layer restricts all that some objections are about, whatever its rules are.

    Of a right that no policy here can name, that is not known.
    """
    fs, net = layer.handled_access_fs.rights, layer.handled_access_net.rights
    for objection in objections:
        match objection:
            case Missing(rights=rights) | Unplaced(rights=rights):
                handles = bool(fs) and set(rights) & FS.since.keys() <= fs | {"refer"}
            case Closed(rights=rights):
                handles = set(rights) & NET.since.keys() <= net
            case _:
                handles = refuses(layer, objection)
        if not handles:
            return False
    return True


def youngest(policy: Policy, objection: Objection) -> int | None:
    """The number of the youngest layer that objects so; None if none does."""
    return next((layer.number for layer in reversed(policy.layers) if refuses(layer, objection)), None)


def refuses(layer: Layer, objection: Objection) -> bool:
    """Whether a layer has an objection: it lacks each of the rights, or it restricts what the objection is about."""
    match objection:
        case Missing(rights=rights, path=path):
            return all(_lacks(layer, path, right) for right in rights)
        case Closed(rights=rights, port=port):
            granted = {right for rule in layer.net_port if port in rule.ports for right in rule.allowed_access.rights}
            return set(rights) <= layer.handled_access_net.rights - granted
        case Mounting():
            return bool(layer.handled_access_fs.rights)
        case Scoped(scope=scope):
            return scope in layer.scoped
        case Tracing():
            return True
    return False


def _lacks(layer: Layer, path: str, right: str) -> bool:
    """Whether a layer handles a right and does not grant it on a path. Each layer for files restricts `refer`."""
    handled = layer.handled_access_fs.rights
    if right not in handled:
        return right == "refer" and bool(handled)
    over = set(upwards(path))
    return not any(right in rule.allowed_access.rights and over & _real(rule) for rule in layer.path_beneath)


def _without_rules_on(layer: Layer, path: str) -> Layer:
    """A layer without its rules on one path."""
    return replace(layer, path_beneath=tuple(rule for rule in layer.path_beneath if path not in _real(rule)))


@cache
def _real(rule: PathRule) -> frozenset[str]:
    """Where the parents of a rule lead on this machine."""
    return frozenset(os.path.realpath(parent) for parent in rule.parents)


def _rules_above(layer: Layer, objection: Objection) -> Iterator[RuleAbove]:
    match objection:
        case Missing(path=path):
            over = set(upwards(path))
            for rule in layer.path_beneath:
                for parent in rule.parents:
                    if os.path.realpath(parent) in over:
                        rights = FS.ordered(rule.allowed_access.rights & layer.handled_access_fs.rights)
                        yield RuleAbove(layer.number, rule.place, parent, tuple(rights))
        case Closed(port=port):
            yield from _on_port(layer, layer.net_port, port)


def _on_port(layer: Layer, rules: Iterable[PortRule], port: int) -> Iterator[RuleAbove]:
    for rule in rules:
        if port in rule.ports:
            rights = NET.ordered(rule.allowed_access.rights & layer.handled_access_net.rights)
            yield RuleAbove(layer.number, rule.place, f"port {port}", tuple(rights))
