"""A policy as its author writes it: a TOML file with the names of Landlock's own structures.

A policy has layers; a layer says what it handles, and has rules:

    [[layer]]
    handled_access_fs = ["all"]
    handled_access_net = ["connect_tcp"]
    [[layer.path_beneath]]
    allowed_access = ["read", "execute"]
    parent = ["/usr", "/lib"]
    [[layer.net_port]]
    allowed_access = ["connect_tcp"]
    port = [443]

A list of rights has rights by name and groups (`all`, `read`, `write`,
`execute`). A right that a rule names must be handled by its layer, since the
kernel refuses the whole rule otherwise; a group in a rule stands for those of
its rights that the layer handles.

`include` names groups of rules, each a TOML file in `groups`: at the top for all
layers, in a layer, or in a `[[layer.path_beneath]]` instead of everything else.
Their rights count as groups of rights do, and missing paths are left out without
a note, since one group is for many machines. A name that begins with `./`, `../`
or `/` is that of a group of one's own: a file, as seen from the one that includes it.

Texts may have variables (`variables`).
"""

from __future__ import annotations

import re
from collections.abc import Callable, Iterator, Mapping, Sequence
from dataclasses import dataclass, field, replace
from functools import cache
from pathlib import Path
from typing import Any, TypeVar

from ..common import variables
from ..common.documents import DocumentPlace, check_keys, listed, one_or_several, tables, unknown
from ..common.numbered import Numbered
from ..common.rights import ABI_OF_SCOPES, FS, NET, NEWER, NEWEST_ABI, NONE, SCOPES, Family, Rights
from ..common.variables import NOTHING_GIVEN, Filled, Given

ACCEPTED = "accepted"
"""A key that is not part of the policy: refusals, or differences, that are known and accepted."""

MOST_LAYERS = 16
HIGHEST_PORT = 65535
GROUPS = Path(__file__).resolve().parent / "groups"
"""The folder with the groups of rules."""

LONGEST_PATH = 4096

_CONSTANT = re.compile(r"LANDLOCK_ACCESS_(?:FS|NET)_")
"""How the names of rights begin in the kernel's header."""

T = TypeVar("T")


@dataclass(frozen=True)
class Access:
    """Rights as a policy lists them: those named outright, and those that groups stand for."""

    outright: Rights = NONE
    grouped: Rights = NONE

    @property
    def rights(self) -> Rights:
        """All of them."""
        return self.outright | self.grouped


@dataclass(frozen=True)
class PathRule:
    """A rule under each of some paths. `place` names it; `group` is the group of rules that it is of, if any."""

    place: Numbered
    allowed_access: Access
    parents: tuple[str, ...]
    group: str | None = None


@dataclass(frozen=True)
class PortRule:
    """A rule on each of some TCP ports. `place` names it."""

    place: Numbered
    allowed_access: Access
    ports: tuple[int, ...]


@dataclass(frozen=True)
class Layer:
    """One layer: what it handles, its rules, and its scopes (ABI 6).

    Layers are numbered from 1.
    """

    number: int
    handled_access_fs: Access
    handled_access_net: Access
    path_beneath: tuple[PathRule, ...]
    net_port: tuple[PortRule, ...]
    scoped: tuple[str, ...] = ()

    @property
    def rules(self) -> tuple[PathRule | PortRule, ...]:
        """All its rules, those on paths first."""
        return *self.path_beneath, *self.net_port

    @property
    def name(self) -> Numbered:
        """Its name in the policy."""
        return Numbered("layer", self.number)

    @property
    def handles_rights(self) -> bool:
        """Whether it handles a right; a layer may have scopes alone."""
        return bool(self.handled_access_fs.rights or self.handled_access_net.rights)

    def with_only(self, rule: PathRule | PortRule | None) -> Layer:
        """The layer with one rule alone, or with none."""
        return replace(self, path_beneath=(rule,) if isinstance(rule, PathRule) else (),
                       net_port=(rule,) if isinstance(rule, PortRule) else ())

    def scoped_at(self, abi: int) -> tuple[str, ...]:
        """The scopes that it has at an ABI."""
        return self.scoped if abi >= ABI_OF_SCOPES else ()


@dataclass(frozen=True)
class Policy:
    """A policy's layers, the oldest first, and the file that they were read from.

    `defaults` are the values that the file gives its variables, `written` its parents and ports that have variables, by
    their values.
    """

    path: Path
    layers: tuple[Layer, ...]
    defaults: Mapping[str, str] = field(default_factory=dict, compare=False)
    written: Mapping[str | int, str] = field(default_factory=dict, compare=False)

    @property
    def scoped(self) -> tuple[str, ...]:
        """The scopes that some layer has."""
        return tuple(scope for scope in SCOPES if any(scope in layer.scoped for layer in self.layers))


def read(path: Path, given: Given = NOTHING_GIVEN) -> Policy:
    """The policy in a file; any error in it is a Problem that names its position and says what would be right."""
    filled = variables.read(path, given)
    return _PolicyReading(filled, given).policy(DocumentPlace(path))


def accepted(path: Path, given: Given, *, only: bool) -> Iterator[tuple[Mapping[str, Any], DocumentPlace]]:
    """The tables of a file that say what is accepted. With `only`, the file may contain nothing else."""
    document, place = variables.read(path, given).table, DocumentPlace(path)
    if only:
        check_keys(document, (ACCEPTED,), place)
    found = tables(document.get(ACCEPTED, []), ACCEPTED, place)
    yield from ((table, place / Numbered(ACCEPTED, number)) for number, table in enumerate(found, start=1))


@dataclass(frozen=True)
class Group:
    """A group of rules, in a layer that handles all rights."""

    name: str
    rules: tuple[PathRule, ...]

    def in_layer(self, handled: Rights) -> Iterator[PathRule]:
        """The rules with those of their rights that a layer handles."""
        for rule in self.rules:
            if rights := rule.allowed_access.rights & handled:
                yield replace(rule, allowed_access=Access(grouped=rights))


@dataclass(frozen=True)
class _PolicyReading:
    """Reads a policy from a document, and the groups that it includes."""

    filled: Filled
    given: Given

    def policy(self, place: DocumentPlace) -> Policy:
        """The policy."""
        document = self.filled.table
        check_keys(document, ("layer", "include", variables.KEY, ACCEPTED), place)
        included = self._included(document, place)
        found = tables(document.get("layer", []), "layer", place)
        if not found:
            place.fault("no layer: write one as [[layer]] with handled_access_fs")
        if len(found) > MOST_LAYERS:
            place.fault(f"{len(found)} layers: the kernel takes at most {MOST_LAYERS}")
        layers = (self._layer(it, number, included, place / Numbered("layer", number))
                  for number, it in enumerate(found, start=1))
        return Policy(place.path, tuple(layers), self.filled.defaults, self.filled.written)

    def _layer(self, table: Mapping[str, Any], number: int, included: Sequence[Group], place: DocumentPlace) -> Layer:
        """A layer, with the rules of the groups that its policy includes after its own."""
        keys = ("handled_access_fs", "handled_access_net", "include", "path_beneath", "net_port", "scoped")
        check_keys(table, keys, place)
        fs = read_access(table.get("handled_access_fs", []), FS, place / "handled_access_fs")
        net = read_access(table.get("handled_access_net", []), NET, place / "handled_access_net")
        scoped = _scopes(table.get("scoped", []), place / "scoped")
        if not fs.rights and not net.rights and not scoped:
            place.fault('handles nothing: give handled_access_fs or handled_access_net rights, as ["all"]')
        named = [*included, *self._included(table, place)]

        def path_rule(it: Mapping[str, Any], name: Numbered, at: DocumentPlace) -> PathRule | None:
            """A rule; None if it only includes groups."""
            if "include" not in it:
                return _path_rule(it, name, fs.rights, at)
            check_keys(it, ("include",), at)
            named.extend(self._included(it, at))
            return None

        paths = _rules(table, "path_beneath", place, path_rule)
        ports = _rules(table, "net_port", place, lambda it, name, at: _port_rule(it, name, net.rights, at))
        groups = {group.name: group for group in named}
        of_groups = (rule for group in groups.values() for rule in group.in_layer(fs.rights))
        return Layer(number, fs, net, (*filter(None, paths), *of_groups), ports, scoped)

    def _included(self, table: Mapping[str, Any], place: DocumentPlace) -> tuple[Group, ...]:
        """The groups of rules that a table includes."""
        return one_or_several(table["include"], self._group, place / "include") if "include" in table else ()

    def _group(self, value: Any, place: DocumentPlace) -> Group:
        """A group of rules by its name, or one's own by its file."""
        if isinstance(value, str) and value.startswith(variables.OWN_GROUP):
            file = place.path.parent / value
            return _group_in(variables.read(file, self.given, self.filled.defaults), value, DocumentPlace(file))
        names = group_names()
        if value not in names:
            place.fault(f"unknown group of rules {unknown(str(value), names)}; a file is written as ./site.toml")
        return _group(value)


def group_names() -> list[str]:
    """The names of all groups of rules that are installed."""
    return sorted(path.stem for path in GROUPS.glob("*.toml"))


def group_rules(name: str, handled: Rights) -> Iterator[PathRule]:
    """The rules of a group that is installed, with those of their rights that a layer handles."""
    return _group(name).in_layer(handled)


@cache
def _group(name: str) -> Group:
    """A group that is installed."""
    place = DocumentPlace(GROUPS / f"{name}.toml")
    return _group_in(variables.read(place.path, NOTHING_GIVEN), name, place)


def _group_in(filled: Filled, name: str, place: DocumentPlace) -> Group:
    """The group of a file."""
    check_keys(filled.table, ("path_beneath",), place, all_needed=True)
    handled = FS.groups["all"]
    rules = _rules(filled.table, "path_beneath", place, lambda it, rule, at: _path_rule(it, rule, handled, at))
    return Group(name, tuple(replace(rule, place=replace(rule.place, group=name), group=name) for rule in rules))


def _scopes(value: Any, place: DocumentPlace) -> tuple[str, ...]:
    """The scopes of a layer, by the names of the kernel's constants (landlock_create_ruleset(2))."""
    if not isinstance(value, list):
        place.fault(f"must be a list of scopes, of {listed(SCOPES)}")
    for number, word in enumerate(value):
        if word not in SCOPES:
            place.at(number).fault(f"unknown scope {unknown(str(word), SCOPES)}")
    return tuple(value)


def _rules(
    layer: Mapping[str, Any],
    kind: str,
    place: DocumentPlace,
    rule: Callable[[Mapping[str, Any], Numbered, DocumentPlace], T],
) -> tuple[T, ...]:
    """The rules of one kind, each named by the kind and its number from 1."""
    found = tables(layer.get(kind, []), f"layer.{kind}", place)
    names = (Numbered(kind, number) for number in range(1, len(found) + 1))
    return tuple(rule(table, name, place / name) for name, table in zip(names, found))


def _path_rule(table: Mapping[str, Any], name: Numbered, handled: Rights, place: DocumentPlace) -> PathRule:
    check_keys(table, ("allowed_access", "parent"), place, all_needed=True)
    access = _allowed(table["allowed_access"], FS, handled, "handled_access_fs", place / "allowed_access")
    return PathRule(name, access, one_or_several(table["parent"], read_parent, place / "parent"))


def _port_rule(table: Mapping[str, Any], name: Numbered, handled: Rights, place: DocumentPlace) -> PortRule:
    check_keys(table, ("allowed_access", "port"), place, all_needed=True)
    access = _allowed(table["allowed_access"], NET, handled, "handled_access_net", place / "allowed_access")
    return PortRule(name, access, one_or_several(table["port"], read_port, place / "port"))


def _allowed(value: Any, family: Family, handled: Rights, handled_key: str, place: DocumentPlace) -> Access:
    """What a rule allows. A right that is named and not handled would make the kernel refuse the rule."""
    access = read_access(value, family, place)
    if not access.rights:
        place.fault(f"is empty: name at least one right {family.what}: {listed(family.words())}")
    unhandled = family.ordered(access.outright - handled)
    if unhandled:
        place.fault(f"the layer does not handle {listed(unhandled)}: name it in {handled_key}, or leave it out here")
    if not access.rights & handled:
        place.fault(f"the layer handles none of these: it handles {listed(family.ordered(handled)) or 'nothing'}")
    return access


def read_access(value: Any, family: Family, place: DocumentPlace) -> Access:
    """A list of rights and groups of rights."""
    if not isinstance(value, list):
        place.fault(f"must be a list of rights {family.what}, of {listed(family.words())}")
    outright: set[str] = set()
    grouped: set[str] = set()
    for number, word in enumerate(value):
        if not isinstance(word, str):
            place.at(number).fault(f"{word!r} is not the name of a right: use {listed(family.words())}")
        elif word in family.groups:
            grouped |= family.groups[word]
        elif word in family.since:
            outright.add(word)
        else:
            place.at(number).fault(_no_right(word, family))
    return Access(frozenset(outright), frozenset(grouped))


def _no_right(word: str, family: Family) -> str:
    """What is wrong with a word that is no right: it may be one of a newer ABI, or a name in the kernel's header."""
    named = _CONSTANT.sub("", word).lower()
    if named in family.since:
        return f"{word!r} is written {named!r} here"
    if named in NEWER:
        return f"{word!r} is a right of a newer ABI than {NEWEST_ABI}, the newest that is judged here: leave it out"
    return f"unknown right {family.what} {unknown(word, family.words())}"


def read_parent(value: Any, place: DocumentPlace) -> str:
    """An absolute path."""
    if not isinstance(value, str):
        place.fault(f"{value!r} is not a path: write it as a text, as \"/usr\"")
    if not value.startswith("/"):
        place.fault(f"{value!r} is not absolute: begin it with /")
    if "\0" in value:
        place.fault(f"{value!r} has a NUL character")
    if len(value.encode()) > LONGEST_PATH:
        place.fault(f"the path is longer than {LONGEST_PATH} bytes")
    return value


def read_port(value: Any, place: DocumentPlace) -> int:
    """The number of a TCP port."""
    if type(value) is not int or not 0 <= value <= HIGHEST_PORT:
        place.fault(f"{value!r} is not a port: write a number from 0 to {HIGHEST_PORT}")
    return value
