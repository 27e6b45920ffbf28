"""A policy as one layer, for forms that have no more: what it handles, and what each path and port gets.

What such a form can't say is a `Loss`. What stands in its place is wider: it grants each right wherever the policy
does, also once objects are moved or linked. For each right the rules of one of the policy's layers count, and where
the policy lets a right pass, that layer grants it. A move that the policy lets pass gains no right in any layer, so it
gains none in the one layer: a right that this grants at the new place, the layer of the right grants at the old one.
"""

from __future__ import annotations

import os
import stat
from collections.abc import Iterable, Iterator, Mapping, Sequence
from dataclasses import dataclass, field, replace

from ...common.documents import listed
from ...common.numbered import Numbered
from ...common.problems import Problem
from ...common.resolving import DISK, walked
from ...common.rights import FILE_RIGHTS, FS, LATEST_ABI, NET, NONE, REFER, SCOPES, Rights
from ..confining import NOT_THERE
from ..fitting import FittedLayer, FittedPathRule, in_force
from ..policies import Policy
from . import Loss

ROOT = "/"


@dataclass(frozen=True)
class OnPath:
    """What a rule of a layer grants on an object, or the layer by not handling it.

    `real`, the object's path without links but those of a process, tells what is beneath what.
    """

    layer: int
    rule: Numbered | None
    path: str
    real: str
    is_directory: bool
    rights: Rights

    @property
    def place(self) -> str:
        """The rule's place in the policy."""
        return f"layer {self.layer}, {self.rule or 'handled_access_fs'}"

    def is_beneath(self, other: OnPath) -> bool:
        """Whether it is the other object, or beneath it."""
        return other.real == ROOT or self.real == other.real or self.real.startswith(other.real + ROOT)


@dataclass(frozen=True)
class OnPort:
    """What a rule of a layer grants on a port."""

    layer: int
    rule: Numbered
    port: int
    rights: Rights


@dataclass
class Flat:
    """A policy as one layer, what of it is lost, and notes on what is left out."""

    fs: Rights = NONE
    net: Rights = NONE
    scoped: tuple[str, ...] = ()
    paths: list[OnPath] = field(default_factory=list)
    ports: list[OnPort] = field(default_factory=list)
    losses: list[Loss] = field(default_factory=list)
    notes: list[str] = field(default_factory=list)


def flat(policy: Policy, form: str, *, with_missing: bool) -> Flat:
    """A policy as one layer; parents that are missing on this machine are taken as directories, or left out.

    A rule that the kernel refuses here is a Problem.
    """
    found = Flat()
    layers, _ = in_force(policy, LATEST_ABI)
    on_paths = {layer.number: list(_paths(policy, layer, found.notes, with_missing)) for layer in layers}
    chosen = _chosen(layers, on_paths, form, found.losses)
    for layer in layers:
        here = frozenset(right for right, number in chosen.items() if number == layer.number)
        found.fs |= frozenset(layer.handled_fs)
        found.net |= frozenset(layer.handled_net)
        found.paths += [replace(on, rights=rights) for on in on_paths[layer.number] if (rights := on.rights & here)]
        found.ports += [replace(on, rights=rights) for on in _ports(layer) if (rights := on.rights & here)]
    found.scoped = tuple(scope for scope in SCOPES if scope in policy.scoped)
    if len(layers) > 1 and not found.losses:
        found.notes.append(f"{form} has one layer: the {len(layers)} layers of the policy are joined to it")
    return found


def _paths(policy: Policy, layer: FittedLayer, notes: list[str], with_missing: bool) -> Iterator[OnPath]:
    """What the rules of a layer grant on each object that is there."""
    for rule in layer.path_rules:
        place = f"layer {layer.number}, {rule.place}"
        for parent in dict.fromkeys(rule.parents):
            try:
                is_directory = stat.S_ISDIR(os.stat(parent).st_mode)
            except OSError as error:
                if error.errno not in NOT_THERE:
                    raise Problem(f"{policy.path}: {place}, parent {parent}: {error.strerror}") from error
                is_directory = True
                if not with_missing:
                    notes += [] if rule.group else [f"{place}: no rule on {parent}: {error.strerror}"]
                    continue
            rights = frozenset(rule.on_directory) if is_directory else _on_file(policy, rule, parent)
            if rights:
                yield OnPath(layer.number, rule.place, parent, walked(parent, DISK).path, is_directory, rights)


def _on_file(policy: Policy, rule: FittedPathRule, parent: str) -> Rights:
    """What a rule grants on what is no directory."""
    rights = frozenset(rule.on_file)
    if not rights <= FILE_RIGHTS:
        raise Problem(f"{policy.path}: {rule.place}: {parent} is not a directory, and only directories have "
                      f"{listed(FS.ordered(rights - FILE_RIGHTS))}: leave these out, or name a group")
    return rights


def _ports(layer: FittedLayer) -> Iterator[OnPort]:
    for rule in layer.port_rules:
        for port in dict.fromkeys(rule.ports):
            yield OnPort(layer.number, rule.place, port, frozenset(rule.on_port))


def _handling(layers: Sequence[FittedLayer], right: str) -> list[FittedLayer]:
    """The layers that restrict a right; if one handles a right for files, all restrict `refer`."""
    if right == REFER and any(layer.handled_fs for layer in layers):
        return [*layers]
    return [layer for layer in layers if right in (*layer.handled_fs, *layer.handled_net)]


def _chosen(
    layers: Sequence[FittedLayer], on_paths: Mapping[int, Sequence[OnPath]], form: str, losses: list[Loss]
) -> dict[str, int]:
    """For each right the number of the layer whose rules count."""
    found: dict[str, int] = {}
    lost: dict[tuple[int, int], list[str]] = {}
    for right in (*FS.since, *NET.since):
        among = _handling(layers, right)
        for best in among[-1:]:
            narrow = [one for one in among if all(_is_narrower(one, other, right, on_paths) for other in among)]
            found[right] = (narrow[-1] if narrow else best).number
            for other in among:
                if other.number != found[right] and not _grants_nothing(right, found[right], on_paths, layers):
                    lost.setdefault((other.number, found[right]), []).append(right)
    losses += [Loss(f"layer {number}", f"{form} has one layer",
                    f"for {listed(rights)} the rules of layer {other} count alone")
               for (number, other), rights in sorted(lost.items())]
    return found


def _is_narrower(one: FittedLayer, other: FittedLayer, right: str, on_paths: Mapping[int, Sequence[OnPath]]) -> bool:
    """Whether a layer grants a right only where another one does, as paths are named."""
    theirs = [on for on in on_paths[other.number] if right in on.rights]
    their_ports = _ports_of(other, right)
    return _ports_of(one, right) <= their_ports and all(
        any(mine.is_beneath(their) for their in theirs) for mine in on_paths[one.number] if right in mine.rights)


def _ports_of(layer: FittedLayer, right: str) -> frozenset[int]:
    return frozenset(on.port for on in _ports(layer) if right in on.rights)


def _grants_nothing(
    right: str, number: int, on_paths: Mapping[int, Sequence[OnPath]], layers: Iterable[FittedLayer]
) -> bool:
    """Whether a layer grants a right nowhere: then the others can't refuse any more of it."""
    on_ports = any(_ports_of(layer, right) for layer in layers if layer.number == number)
    return not on_ports and not any(right in on.rights for on in on_paths[number])
