"""The listed file tree: its objects, their names and kinds, and the targets of symbolic links."""

from __future__ import annotations

import re
import sys
from collections.abc import Iterable, Iterator, Sequence
from dataclasses import dataclass, field
from functools import cached_property
from pathlib import Path

from . import jsonl, resolving
from .problems import Problem
from .resolving import LinkLoop as LinkLoop
from .resolving import NOTHING, KnownObjects, Met, NothingElse, Walked
from .resolving import ROOT as ROOT
from .resolving import directory_of as directory_of
from .resolving import joined as joined

#: How a line of a tree begins that landaudit-record writes, if nothing in the path is escaped; and the whole line of
#: most objects, which have one name of ASCII and no target.
_PATH = re.compile(rb'\{"path":"([^"\\]*)",')
_MOST = re.compile(rb'\{"path":"([ !#-\[\]-~]*)","kind":"([a-z]+)"\}\n')


def upwards(path: str) -> Iterator[str]:
    """A path, and each directory above it up to the root."""
    while path != ROOT:
        yield path
        path = path.rpartition("/")[0] or ROOT
    yield ROOT


@dataclass(frozen=True)
class Tree:
    """The kind of each listed path, and the target of each symbolic link whose line has it.

    `made` has the paths at which nothing was when the run began; `first` maps each further name of an object to its
    first name, `others` a first name to the further ones, and `shown` a listed name to the real path if that differs.
    `beside` says what is known of the objects that are not listed.
    """

    kinds: dict[str, str] = field(default_factory=lambda: {ROOT: "dir"})
    targets: dict[str, str] = field(default_factory=dict)
    made: set[str] = field(default_factory=set)
    first: dict[str, str] = field(default_factory=dict)
    others: dict[str, list[str]] = field(default_factory=dict)
    shown: dict[str, str] = field(default_factory=dict)
    beside: KnownObjects = field(default_factory=NothingElse)

    def kind(self, path: str) -> str | None:
        """The kind of the object at a path, None if there is none."""
        return self.kinds.get(path)

    def is_there_before(self, path: str) -> bool:
        """Whether an object is at a path when the run begins."""
        return path in self.kinds and not any(over in self.made for over in upwards(path))

    def is_dir(self, path: str) -> bool:
        """Whether a directory is at a path."""
        return self.kinds.get(path) == "dir"

    def names(self, path: str) -> list[str]:
        """All names of the object that a path names, the first one first."""
        first = self.first.get(path, path)
        return [first, *self.others.get(first, ())]

    def real(self, path: str) -> str:
        """The real path of a name of the tree."""
        return self.shown.get(path, path)

    def before(self, path: str) -> str:
        """The name by which a path could be opened before the run.

        This is the first name of its object if that existed, else that of the directory above it.
        """
        first = self.first.get(path, path)
        while first in self.made:
            path = directory_of(path)
            first = self.first.get(path, path)
        return first

    @cached_property
    def put(self) -> dict[str, str]:
        """The real paths at which the run puts an object, each with the name of the first one that is listed."""
        return {self.real(name): name for name in reversed(self.kinds) if name in self.made}

    def is_replaced(self, path: str) -> bool:
        """Whether an object is at a path when the run begins, and another one later."""
        return path in self.put and path in self.kinds and path not in self.made

    def resolved(self, path: str, *, before_run: bool = False) -> str:
        """Where a path leads; links that the run makes do not exist before the run."""
        return self.walked(path, whole=not before_run).path

    def walked(self, path: str, *, whole: bool = False) -> Walked:
        """Where a path leads when the run begins, or with `whole` at some time of it, and what of that is not known."""
        return resolving.walked(path, _Whole(self)) if whole else resolving.walked(path, self)

    def at(self, path: str) -> Met | None:
        """What is at a path when the run begins."""
        if path in self.kinds and path not in self.made:
            return Met(self.kinds[path], self.targets.get(path))
        if path in self.put or any(over in self.made for over in upwards(path)):
            return NOTHING
        return self.beside.at(path)


@dataclass(frozen=True)
class _Whole:
    """The objects that a tree lists, also those that the run makes."""

    tree: Tree

    def at(self, path: str) -> Met | None:
        """What is at a path at some time of the run."""
        kind = self.tree.kind(path)
        return self.tree.beside.at(path) if kind is None else Met(kind, self.tree.targets.get(path))


@dataclass(frozen=True)
class _Together:
    """What is known beside one or another of several trees."""

    each: Sequence[KnownObjects]

    def at(self, path: str) -> Met | None:
        """What the first one that knows says of a path."""
        return next((met for one in self.each if (met := one.at(path)) is not None), None)


def read(*paths: Path, beside: KnownObjects = NothingElse()) -> Tree:
    """The tree in a file, or in the files of all parts of a recording.

    `beside` says what is known of the objects that it does not list. A line without a path or a kind is a Problem;
    landaudit looks at the rest.
    """
    tree = Tree(beside=beside)
    for path in paths:
        for number, line in jsonl.lines(path):
            most = _MOST.fullmatch(line)
            if most is not None:
                tree.kinds.setdefault(most[1].decode(), sys.intern(most[2].decode()))
            elif line.strip(jsonl.BLANKS):
                _list(tree, path, number, jsonl.read(path, number, line))
    return tree


def _list(tree: Tree, path: Path, number: int, entry: jsonl.Record) -> None:
    """Adds the object on a line."""
    listed, kind, target = entry.get("path"), entry.get("kind"), entry.get("target")
    if not isinstance(listed, str) or not isinstance(kind, str):
        raise Problem(f"{path} line {number} lists no object: it needs a path and a kind")
    if listed not in tree.kinds:
        tree.kinds[listed] = kind
        if kind == "sym" and isinstance(target, str):
            tree.targets[listed] = target
        _note_names(tree, listed, entry)


def paths(file: Path) -> Iterator[str]:
    """The paths that the lines of a tree are about."""
    for number, line in jsonl.lines(file):
        found = _PATH.match(line)
        if found is not None:
            yield found[1].decode()
        elif line.strip(jsonl.BLANKS):
            yield str(jsonl.read(file, number, line)["path"])


def united(trees: Iterable[Tree]) -> Tree:
    """The objects of several recordings; if two of them differ about a path, the last one counts."""
    each = list(trees)
    found = Tree(beside=_Together([tree.beside for tree in each]))
    for tree in each:
        found.kinds.update(tree.kinds)
        found.targets.update(tree.targets)
        found.made.update(tree.made)
        found.first.update(tree.first)
        found.shown.update(tree.shown)
    for name, first in found.first.items():
        found.others.setdefault(first, []).append(name)
    return found


def _note_names(tree: Tree, listed: str, entry: jsonl.Record) -> None:
    """Adds what a line says about the object's names."""
    first, shown = entry.get("same"), entry.get("shown")
    if entry.get("made") is True:
        tree.made.add(listed)
    if isinstance(first, str):
        tree.first[listed] = first
        tree.others.setdefault(first, []).append(listed)
    if isinstance(shown, str):
        tree.shown[listed] = shown
