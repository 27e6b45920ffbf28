"""A policy at one ABI, at best effort, as landaudit-rules says: rights that the ABI does not have are dropped.

The kernel's documentation advises this, and libraries do it. A program that asks an
older kernel for a right that it does not know gets EINVAL, and no layer.
"""

from __future__ import annotations

from collections.abc import Sequence
from dataclasses import dataclass, replace

from ..common.numbered import Numbered
from ..common.rights import FS, NET, NEWEST_ABI, REFER, Family
from . import called
from .called import Calls
from .policies import Access, Layer, PathRule, Policy, PortRule


@dataclass(frozen=True)
class FittedPathRule:
    """What a rule asks for on its parents: `on_directory` on a directory, `on_file` on what is none.

    `group` is the group of rules that the rule belongs to, if any: its parents that are missing are left out without a
    note. A rule that asks for nothing is left out, too.
    """

    place: Numbered
    parents: tuple[str, ...]
    on_directory: list[str]
    on_file: list[str]
    group: str | None = None

    def on(self, kind: str | None) -> list[str]:
        """The rights that the rule asks for on an object of a kind; None is an object that is not listed."""
        return self.on_directory if kind in ("dir", None) else self.on_file


@dataclass(frozen=True)
class FittedPortRule:
    """What a rule grants on its ports."""

    place: Numbered
    ports: tuple[int, ...]
    on_port: list[str]


@dataclass(frozen=True)
class FittedLayer:
    """A layer with only rights that the ABI knows. The number is the one in the policy."""

    number: int
    handled_fs: list[str]
    handled_net: list[str]
    path_rules: tuple[FittedPathRule, ...]
    port_rules: tuple[FittedPortRule, ...]
    scoped: tuple[str, ...] = ()


def fit(policy: Policy, abi: int, *, scopes: bool = True) -> tuple[tuple[FittedLayer, ...], list[str]]:
    """A policy's layers as an ABI judges them, and a note for each right that was dropped although the policy names it.

    If a layer handles rights for files, the kernel takes `refer` for handled by all layers, also by those of ports or
    scopes alone (`landlock_get_fs_access_mask`). With `scopes`, the newest ABI that is judged stands for later ones,
    which have scopes.
    """
    layers, notes = _dropped(policy, abi)
    if not any(layer.handled_fs for layer in layers):
        return layers, notes
    known = {layer.number: layer for layer in layers}
    fitted = (known.get(layer.number, _bare(layer)) for layer in policy.layers
              if layer.number in known or (layer.scoped and scopes and abi >= NEWEST_ABI))
    return tuple(it if it.handled_fs else replace(it, handled_fs=[REFER]) for it in fitted), notes


def refer_by_scopes(policy: Policy) -> bool:
    """Whether a layer of scopes alone refuses `refer`: the newest ABI that is judged does not know it, but later ones do."""
    layers = policy.layers
    return any(layer.scoped and not layer.handles_rights for layer in layers) and any(
        layer.handled_access_fs.rights for layer in layers)


def stands_for(policy: Policy, newer: int, older: int, *, scopes: bool = True) -> bool:
    """Whether a policy at a newer ABI is, at best effort, what it is at an older one (a law of `ll_enforcing`).

    It is not if it has a layer more, or one to which `refer` was given at one of the two.
    """
    here, there = (fit(policy, abi, scopes=scopes)[0] for abi in (older, newer))
    left = [(layer.number, FS.known(older).intersection(layer.handled_fs)) for layer in there]
    return [(layer.number, frozenset(layer.handled_fs)) for layer in here] == left


def _dropped(policy: Policy, abi: int) -> tuple[tuple[FittedLayer, ...], list[str]]:
    """A policy's layers with only what an ABI knows, and the notes of `fit`."""
    called.ask([policy], abi)
    notes: list[str] = []
    layers = tuple(fitted for layer in policy.layers if (fitted := _layer(layer, abi, notes)) is not None)
    return layers, notes


def _bare(layer: Layer) -> FittedLayer:
    """A layer that handles no right."""
    return FittedLayer(layer.number, [], [], (), ())


def in_force(policy: Policy, abi: int) -> tuple[list[FittedLayer], list[str]]:
    """The layers that a policy is at an ABI, with their scopes or with scopes alone, and notes as `fit` gives."""
    layers, notes = _dropped(policy, abi)
    fitted = {layer.number: layer for layer in layers}
    found = []
    for layer in policy.layers:
        scoped = layer.scoped_at(abi)
        if layer.scoped and not scoped:
            notes.append(f"layer {layer.number}: ABI {abi} does not know scopes: dropped")
        if layer.number in fitted or scoped:
            found.append(replace(fitted.get(layer.number, _bare(layer)), scoped=scoped))
    return found, notes


def _layer(layer: Layer, abi: int, notes: list[str]) -> FittedLayer | None:
    """A layer without the rights that the ABI does not have, or None if it then handles no right."""
    where, calls = f"layer {layer.number}", called.of_layer(layer, abi)
    _note_dropped(layer.handled_access_fs, FS, calls.fs, f"{where}, handled_access_fs", abi, notes)
    _note_dropped(layer.handled_access_net, NET, calls.net, f"{where}, handled_access_net", abi, notes)
    if not calls.fs and not calls.net:
        if layer.handles_rights or not layer.scoped:
            notes.append(f"{where} is left out: ABI {abi} knows nothing that it handles")
        return None
    return FittedLayer(
        layer.number,
        calls.fs,
        calls.net,
        tuple(fitted for rule in layer.path_beneath if (fitted := _path_rule(rule, layer, calls, abi, notes))),
        tuple(port for rule in layer.net_port if (port := _port_rule(rule, layer, calls, abi, notes))),
    )


def _path_rule(rule: PathRule, layer: Layer, calls: Calls, abi: int, notes: list[str]) -> FittedPathRule | None:
    on_directory, on_file = calls.of(rule)
    if rule.group is None:
        _note_rule(rule, FS, on_directory, layer, abi, notes)
    return FittedPathRule(rule.place, rule.parents, on_directory, on_file, rule.group) if on_directory else None


def _port_rule(rule: PortRule, layer: Layer, calls: Calls, abi: int, notes: list[str]) -> FittedPortRule | None:
    (on_port,) = calls.of(rule)
    _note_rule(rule, NET, on_port, layer, abi, notes)
    return FittedPortRule(rule.place, rule.ports, on_port) if on_port else None


def _note_rule(
    rule: PathRule | PortRule, family: Family, left: Sequence[str], layer: Layer, abi: int, notes: list[str]
) -> None:
    """Notes what is dropped of a rule, and whether all of it is."""
    if left and rule.allowed_access.outright.issubset(left):
        return
    where = f"layer {layer.number}, {rule.place}"
    _note_dropped(rule.allowed_access, family, left, where, abi, notes)
    if not left:
        notes.append(f"{where} is left out: ABI {abi} knows nothing that it allows")


def _note_dropped(
    access: Access, family: Family, left: Sequence[str], where: str, abi: int, notes: list[str]
) -> None:
    """Notes the rights that a list names and the ABI does not know."""
    if dropped := family.ordered(access.outright.difference(left)):
        notes.append(f"{where}: ABI {abi} does not know {', '.join(dropped)}: dropped")
