"""The configuration format of landlockconfig, TOML or JSON, written from memory of its first releases (2025).

A file has `abi`, `[[variable]]` (a name with one or several values), `[[ruleset]]`, `[[path_beneath]]` and
`[[net_port]]`. In JSON, names of keys are written without underscores (`pathBeneath`). A word such as
`abi.read_execute` stands for rights of the ABI that the file names; on a file, for those of them that files can have.
"""

from __future__ import annotations

import itertools
import json
import re
from collections.abc import Callable, Iterable, Iterator, Mapping, Sequence
from dataclasses import dataclass
from pathlib import Path
from typing import Any, TypeVar

from ...common import documents
from ...common.comments import Comments
from ...common.documents import JSON, DocumentPlace, listed, one_or_several, tables, unknown
from ...common.numbered import Numbered
from ...common.problems import Problem
from ...common.rights import ABI_OF_SCOPES, FS, LATEST_ABI, NET, NEWEST_ABI, NONE, OLDEST_ABI, SCOPES, Family, Rights
from ...common.wording import plain, quoted
from ..policies import HIGHEST_PORT, Access, Layer, Policy
from . import Exported, Imported, flat, head, path_fault, path_rules, port_rules
from .flat import Flat

VERSION = "of 2025, from memory"
NAME = "landlockconfig"
_VARIABLE = re.compile(r"\$\{([^}]*)\}")
T = TypeVar("T")


def _groups(abi: int) -> Mapping[str, Rights]:
    """The rights that the words for files stand for at an ABI."""
    known = FS.known(min(abi, NEWEST_ABI))
    return {
        "abi.all": known,
        "abi.read_execute": frozenset({"execute", "read_file", "read_dir"}),
        "abi.read_write": known - {"execute"},
    }


def read(path: Path) -> Imported:
    """The policy of a file."""
    if path.suffix == JSON:
        return _ConfigReader(_json(path), DocumentPlace(path), _camel).imported()
    return _ConfigReader(documents.read(path), DocumentPlace(path), str).imported()


def _json(path: Path) -> Mapping[str, Any]:
    """The object in a file."""
    try:
        found = json.loads(documents.text_of(path), object_pairs_hook=_once)
    except (ValueError, RecursionError) as error:
        raise Problem(f"{path}: not JSON: {error}") from error
    if not isinstance(found, dict):
        raise Problem(f"{path}: is no object of JSON")
    return found


def _once(pairs: Sequence[tuple[str, Any]]) -> dict[str, Any]:
    """An object, in which no key is there twice."""
    found = dict(pairs)
    if len(found) < len(pairs):
        twice = next(key for key, _ in pairs if sum(one == key for one, _ in pairs) > 1)
        raise ValueError(f"the key {twice!r} is there twice")
    return found


def _camel(key: str) -> str:
    """A key as JSON writes it."""
    first, *others = key.split("_")
    return first + "".join(word.capitalize() for word in others)


@dataclass
class _ConfigReader:
    """Reads a document; `key` gives a key as the document writes it."""

    document: Mapping[str, Any]
    place: DocumentPlace
    key: Callable[[str], str]
    abi: int = 0

    def imported(self) -> Imported:
        """The policy. Several rulesets are a Problem: whether they are one layer or several is not known."""
        self._keys(self.document, ("abi", "variable", "ruleset", "path_beneath", "net_port"), self.place)
        self.abi = self._abi()
        variables = dict(self._variables())
        rulesets = list(self._tables("ruleset"))
        if len(rulesets) != 1:
            self.place.fault(f"{len(rulesets)} rulesets: one is read, since it is not known which layers others make")
        layer = self._layer(*rulesets[0], variables)
        said = [f"from {self.place.path}, which is of {NAME} ({VERSION})"]
        if self.abi:
            said.append(f"its words abi.all, abi.read_execute and abi.read_write are those of ABI {self.abi}; "
                        "abi.read_write is taken as all rights but execute")
        return Imported(Policy(self.place.path, (layer,)), Comments(said))

    def _abi(self) -> int:
        """The ABI of the file, 0 if it names none."""
        abi = self.document.get("abi", 0)
        if "abi" in self.document and (type(abi) is not int or not OLDEST_ABI <= abi <= LATEST_ABI):
            self.place.at("abi").fault(f"{abi!r} is not an ABI that is known here: a number from {OLDEST_ABI} to {LATEST_ABI}")
        return int(abi)

    def _keys(self, table: Mapping[str, Any], known: Sequence[str], place: DocumentPlace) -> None:
        documents.check_keys(table, tuple(map(self.key, known)), place)

    def _tables(self, name: str) -> Iterator[tuple[Mapping[str, Any], DocumentPlace]]:
        """The tables of a name, each with its place."""
        key = self.key(name)
        for number, table in enumerate(tables(self.document.get(key, []), key, self.place), start=1):
            yield table, self.place / Numbered(key, number)

    def _variables(self) -> Iterator[tuple[str, tuple[str, ...]]]:
        """The values of each variable."""
        seen: set[str] = set()
        for table, place in self._tables("variable"):
            documents.check_keys(table, ("name", "literal"), place, all_needed=True)
            name = table["name"]
            if not isinstance(name, str) or name in seen:
                place.at("name").fault(f"{name!r} is no name, or is there twice")
            seen.add(name)
            yield name, one_or_several(table["literal"], self._literal, place / "literal")

    def _literal(self, value: Any, place: DocumentPlace) -> str:
        if not isinstance(value, str) or "${" in value:
            place.fault(f"{value!r} is no text without variables")
        return str(value)

    def _layer(self, table: Mapping[str, Any], place: DocumentPlace, variables: Mapping[str, tuple[str, ...]]) -> Layer:
        self._keys(table, ("handled_access_fs", "handled_access_net", "scoped"), place)
        fs = self._handled(table, "handled_access_fs", FS, place)
        net = self._handled(table, "handled_access_net", NET, place)
        scoped = self._scoped(table.get("scoped", []), place / "scoped") if "scoped" in table else ()
        if not (fs or net or scoped):
            place.fault("handles nothing")
        paths = [(access, parent) for rule, at in self._tables("path_beneath")
                 for access, parent in self._path_rule(rule, fs, variables, at)]
        ports = [(access, port) for rule, at in self._tables("net_port")
                 for access, port in self._port_rule(rule, net, at)]
        return Layer(1, _as_access(fs, FS), _as_access(net, NET), path_rules(paths), port_rules(ports), scoped)

    def _handled(self, table: Mapping[str, Any], name: str, family: Family, place: DocumentPlace) -> Rights:
        """The rights that the ruleset handles."""
        key = self.key(name)
        if key not in table:
            return NONE
        words = self._list(table[key], place / key, lambda value, at: (value, at))
        return NONE.union(*(self._rights(value, family, at) for value, at in words))

    def _rights(self, word: Any, family: Family, place: DocumentPlace) -> Rights:
        """The rights that a word stands for: a right by its name, or several of the file's ABI."""
        groups = _groups(self.abi) if family is FS else {"abi.all": NET.known(min(self.abi, NEWEST_ABI))}
        if not isinstance(word, str):
            place.fault(f"{word!r} is not the name of a right")
        if word in groups:
            if not self.abi:
                place.fault(f"{word!r} needs an ABI, which the file does not name: write abi = {NEWEST_ABI} first")
            return groups[word]
        if word not in family.since:
            place.fault(f"unknown right {family.what} {unknown(word, [*groups, *family.since])}")
        return frozenset({word})

    def _scoped(self, value: Any, place: DocumentPlace) -> tuple[str, ...]:
        words = self._list(value, place, self._scope)
        return tuple(scope for scope in SCOPES if any(scope in some for some in words))

    def _scope(self, word: Any, place: DocumentPlace) -> tuple[str, ...]:
        if word == "abi.all":
            if not self.abi:
                place.fault("'abi.all' needs an ABI, which the file does not name")
            return SCOPES if self.abi >= ABI_OF_SCOPES else ()
        if word not in SCOPES:
            place.fault(f"unknown scope {unknown(str(word), ['abi.all', *SCOPES])}")
        return (word,)

    def _path_rule(
        self, table: Mapping[str, Any], handled: Rights, variables: Mapping[str, tuple[str, ...]], place: DocumentPlace
    ) -> Iterator[tuple[Access, str]]:
        key = self.key("allowed_access")
        documents.check_keys(table, (key, "parent"), place, all_needed=True)
        access = self._allowed(table[key], FS, handled, place / key)
        several = one_or_several(table["parent"], lambda value, at: _expanded(value, variables, at), place / "parent")
        for parents in several:
            yield from ((access, parent) for parent in parents)

    def _port_rule(
        self, table: Mapping[str, Any], handled: Rights, place: DocumentPlace
    ) -> Iterator[tuple[Access, int]]:
        key = self.key("allowed_access")
        documents.check_keys(table, (key, "port"), place, all_needed=True)
        access = self._allowed(table[key], NET, handled, place / key)
        yield from ((access, port) for port in one_or_several(table["port"], _port, place / "port"))

    def _allowed(self, value: Any, family: Family, handled: Rights, place: DocumentPlace) -> Access:
        """What a rule allows: rights by name must be handled, and a word for several stands for those that are."""
        outright, grouped = NONE, NONE
        for word, at in self._list(value, place, lambda one, at: (one, at)):
            rights = self._rights(word, family, at)
            if word in family.since and not rights <= handled:
                at.fault(f"the ruleset does not handle {word}, so the kernel refuses the rule")
            outright, grouped = (outright | rights, grouped) if word in family.since else (outright, grouped | rights)
        if not (outright | grouped) & handled:
            place.fault(f"the ruleset handles none of it: it handles {listed(family.ordered(handled)) or 'nothing'}")
        return Access(outright, grouped & handled)

    def _list(self, value: Any, place: DocumentPlace, one: Callable[[Any, DocumentPlace], T]) -> tuple[T, ...]:
        """The items of a list, each with its place."""
        if not isinstance(value, list) or not value:
            place.fault("must be a list that is not empty")
        return tuple(one(item, place.at(number)) for number, item in enumerate(value))


def _as_access(rights: Rights, family: Family) -> Access:
    """What a layer handles: `all` if it is all that there is."""
    return Access(grouped=rights) if rights == family.groups["all"] else Access(rights)


def _expanded(value: Any, variables: Mapping[str, tuple[str, ...]], place: DocumentPlace) -> list[str]:
    """A parent under each value of each variable in it."""
    if not isinstance(value, str):
        place.fault(f"{value!r} is not a path")
    names = list(dict.fromkeys(_VARIABLE.findall(value)))
    for name in names:
        if name not in variables:
            place.fault(f"unknown variable {unknown(name, variables)}")
    found = []
    for values in itertools.product(*(variables[name] for name in names)):
        chosen = dict(zip(names, values))
        path = _VARIABLE.sub(lambda use: str(chosen[use[1]]), str(value))
        if (wrong := path_fault(path)) is not None:
            place.fault(wrong)
        found.append(path)
    return found


def _port(value: Any, place: DocumentPlace) -> int:
    if type(value) is not int or not 0 <= value <= HIGHEST_PORT:
        place.fault(f"{value!r} is not a port: a number from 0 to {HIGHEST_PORT}")
    return int(value)


def written(policy: Policy, comments: Comments, _: bool) -> Exported:
    """The policy as TOML, with rights by their names, since words such as `abi.all` depend on the ABI."""
    found = flat.flat(policy, NAME, with_missing=True)
    said = [*head(policy, comments, NAME, f"({VERSION})"), "Rights are those for the paths of this machine.",
            *(f"wider than the policy: {loss}" for loss in found.losses)]
    of_layers = (text for layer in policy.layers for text in comments.on_layer(layer.number))
    lines = [*_comments(said), "", *_comments(of_layers)]
    lines.append("[[ruleset]]")
    for key, rights in (("handled_access_fs", FS.ordered(found.fs)), ("handled_access_net", NET.ordered(found.net)),
                        ("scoped", found.scoped)):
        lines += [f"{key} = {_written(rights)}"] if rights else []
    return Exported([*lines, *_rules(policy, found, comments)], found.losses, found.notes)


def _rules(policy: Policy, found: Flat, comments: Comments) -> Iterator[str]:
    """The rules; a parent has no variables, and how the characters `${` are written otherwise is not known."""
    for on in found.paths:
        if "${" in on.path:
            raise Problem(f"{policy.path}: {on.place}: {NAME} can't name {on.path!r}, since ${{ begins a variable")
    for (layer, rule, rights), paths in itertools.groupby(found.paths, lambda on: (on.layer, on.rule, on.rights)):
        yield from ("", *_comments(comments.on_rule(layer, rule)), "[[path_beneath]]")
        yield f"allowed_access = {_written(FS.ordered(rights))}"
        yield f"parent = {_written([on.path for on in paths])}"
    for (layer, rule, rights), ports in itertools.groupby(found.ports, lambda on: (on.layer, on.rule, on.rights)):
        yield from ("", *_comments(comments.on_rule(layer, rule)), "[[net_port]]")
        yield f"allowed_access = {_written(NET.ordered(rights))}"
        yield f"port = [{', '.join(str(on.port) for on in ports)}]"


def _comments(texts: Iterable[str]) -> Iterator[str]:
    yield from (f"# {plain(text)}".rstrip() for text in texts)


def _written(words: Iterable[str]) -> str:
    return f"[{', '.join(map(quoted, words))}]"
