"""Differences that a reviewer accepts: what a new policy may let pass although the old one refuses it.

    [[accepted]]
    rights = ["read_file", "read_dir"]
    under = "/etc/ssl"
    reason = "certificates are read since version 2"
"""

from __future__ import annotations

from collections.abc import Mapping
from dataclasses import dataclass
from pathlib import Path
from typing import Any

from ..common import resolving
from ..common.documents import DocumentPlace, check_keys, listed, one_or_several, text, unknown
from ..common.resolving import DISK, LinkLoop
from ..common.rights import FS, NET, NONE, SCOPES, Rights
from ..common.trees import ROOT, upwards
from ..common.variables import NOTHING_GIVEN, Given
from .anywhere import Chain, Gain
from .differing import Differing, RightAt
from .differing_layers import MountChanges, Room, Unscoped
from .moving import Move
from . import policies
from .policies import read_parent, read_port
from .regions import Regions

MOUNTS, LAYERS = "mounts", "layers"
CHANGES = (MOUNTS, LAYERS, *SCOPES)
#: The keys of what is accepted, besides its reason: one of these sets.
FORMS = (("rights", "under"), ("rights", "port"), ("rights",), ("from", "to"), ("change",))


@dataclass(frozen=True)
class Widening:
    """What is accepted, and why: rights at and under paths, rights on ports, moves, or a change without a place.

    Rights for ports are accepted on each port if `ports` is None.
    """

    reason: str
    rights: Rights = NONE
    under: tuple[str, ...] = ()
    ports: frozenset[int] | None = None
    sources: tuple[str, ...] = ()
    to: tuple[str, ...] = ()
    change: str | None = None

    def __str__(self) -> str:
        if self.change is not None:
            return self.change
        if self.to:
            return f"moves from under {', '.join(self.sources)} to under {', '.join(self.to)}"
        rights = ", ".join([*FS.ordered(self.rights), *NET.ordered(self.rights)])
        if self.under:
            return f"{rights} under {', '.join(self.under)}"
        return f"{rights} on {'every port' if self.ports is None else f'port {listed(map(str, sorted(self.ports)))}'}"

    def covers(self, subject: Differing, regions: Regions) -> bool:
        """Whether the whole of a difference is accepted."""
        match subject:
            case RightAt(right, region, port):
                here = self._covers_port(port, regions) if region is None else _within((region.path,), self.under)
                return right in self.rights and here
            case Chain(right, _, directories, file):
                objects = (*directories, *([] if file is None else [file]))
                return right in self.rights and _within(objects or (ROOT,), self.under)
            case Gain(right, _, directory, _):
                return right in self.rights and _within((directory,), self.under)
            case Move(_, source, _, to):
                return _within((source,), self.sources) and _within((to,), self.to)
            case Unscoped(scope):
                return self.change == scope
            case MountChanges():
                return self.change == MOUNTS
            case Room():
                return self.change == LAYERS

    def _covers_port(self, port: int | None, regions: Regions) -> bool:
        """Whether a port and those that it stands for are accepted; None is each port without a rule."""
        return self.ports is None or (port is not None and self.ports.issuperset(regions.tried_ports[port]))


def _within(paths: tuple[str, ...], areas: tuple[str, ...]) -> bool:
    """Whether each path is at or under one of some others."""
    return all(any(area in upwards(path) for area in areas) for path in paths)


def read(path: Path, given: Given = NOTHING_GIVEN) -> tuple[Widening, ...]:
    """What a file accepts; any error in it is a Problem."""
    return tuple(_widening(table, place) for table, place in policies.accepted(path, given, only=True))


def _widening(table: Mapping[str, Any], place: DocumentPlace) -> Widening:
    keys = tuple(dict.fromkeys(key for form in FORMS for key in form))
    check_keys(table, (*keys, "reason"), place)
    reason, form = text(table, "reason", place), tuple(key for key in keys if key in table)
    if form not in FORMS:
        place.fault("give rights and under (a path), rights for ports and perhaps port, from and to, or change")
    of_paths = {key: one_or_several(table[key], _path, place / key) for key in form if key in ("under", "from", "to")}
    rights = _rights(table["rights"], form, place / "rights") if "rights" in form else NONE
    ports = frozenset(one_or_several(table["port"], read_port, place / "port")) if "port" in form else None
    change = table.get("change")
    if "change" in form and change not in CHANGES:
        (place / "change").fault(f"unknown change {unknown(str(change), CHANGES)}")
    return Widening(reason, rights, of_paths.get("under", ()), ports, of_paths.get("from", ()), of_paths.get("to", ()),
                    change)


def _rights(value: Any, form: tuple[str, ...], place: DocumentPlace) -> Rights:
    """Rights for files where there is a path, else for ports."""
    family = FS if "under" in form else NET
    words = value if isinstance(value, list) and value else []
    wrong = next((word for word in words if not isinstance(word, str) or word not in family.words()), None)
    if wrong is not None or not words:
        place.fault(f"must be a list of rights {family.what}, of {listed(family.words())}")
    return NONE.union(*(family.groups.get(word, frozenset({word})) for word in words))


def _path(value: Any, place: DocumentPlace) -> str:
    """A path, by what it leads to on this machine: policies are compared by that."""
    path = read_parent(value, place)
    try:
        return resolving.walked(path, DISK).path
    except LinkLoop:
        place.fault(f"{path} is a loop of symbolic links: name another path")
