"""Which rule of a policy a finding belongs to: the one that is closest above a path, or is on a port."""

from __future__ import annotations

from collections.abc import Callable, Collection, Iterator, Sequence
from dataclasses import dataclass

from ...common.findings import DocumentPlaces, Position
from ...common.trees import ROOT, upwards
from ...engine.answers import Closed, Gained, Kept, Missing, Objection
from ...policy.policies import PathRule, Policy, PortRule


def as_written(parent: str) -> str:
    """A parent that leads where it is written."""
    return parent.rstrip("/") or ROOT


@dataclass(frozen=True)
class _RuleOfLayer:
    """A rule of a layer on an object or a port."""

    layer: int
    rule: PathRule | PortRule
    on: str | int


class Rules:
    """The rules of a policy; `leads` says to which path a parent leads."""

    def __init__(self, policy: Policy, leads: Callable[[str], str] = as_written) -> None:
        self.places = DocumentPlaces(policy.path)
        self._by_object: dict[str | int, list[_RuleOfLayer]] = {}
        for one in _each(policy, leads):
            self._by_object.setdefault(one.on, []).append(one)

    def over(self, path: str, layer: int | None = None, rights: Collection[str] = ()) -> Position | None:
        """The rule closest above a path, in one layer or in any; with rights, one that grants one of them."""
        return next((spot for on in upwards(path) if (spot := self._on(on, layer, rights))), None)

    def on_port(self, port: int, layer: int | None = None, rights: Collection[str] = ()) -> Position | None:
        """The rule on a port."""
        return self._on(port, layer, rights)

    def _on(self, on: str | int, layer: int | None, rights: Collection[str]) -> Position | None:
        for one in self._by_object.get(on, ()):
            if layer in (None, one.layer) and (not rights or one.rule.allowed_access.rights & set(rights)):
                return self.places.rule(one.layer, one.rule.place)
        return None


def _each(policy: Policy, leads: Callable[[str], str]) -> Iterator[_RuleOfLayer]:
    """The policy's own rules; those of groups are in no line of it."""
    for layer in policy.layers:
        for rule in layer.path_beneath:
            if rule.group is None:
                yield from (_RuleOfLayer(layer.number, rule, leads(parent)) for parent in rule.parents)
        for port_rule in layer.net_port:
            yield from (_RuleOfLayer(layer.number, port_rule, port) for port in port_rule.ports)


def lacking(rules: Rules, layer: int | None, objections: Sequence[Objection]) -> Position:
    """The rule of a layer that lacks what the layer first objects to, or the layer."""
    match objections[0] if objections else None:
        case Missing(path=path) | Kept(path=path) | Gained(directory=path) if path.startswith(ROOT):
            found = rules.over(path, layer)
        case Closed(port=port):
            found = rules.on_port(port, layer)
        case _:
            found = None
    return found or rules.places.layer(layer)
