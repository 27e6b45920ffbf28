"""Calls that the kernel refuses by file modes, whatever the policy (inode(7), path_resolution(7), credentials(7))."""

from __future__ import annotations

import stat
from collections.abc import Callable, Iterator, Mapping
from dataclasses import dataclass, replace
from typing import Any

from ..common.operations import MAKING, REMOVING, USING
from ..common.trees import ROOT, directory_of, upwards

READ, WRITE, RUN = 4, 2, 1
ROOT_USER = 0
_OF_MODE = {"r": READ, "w": WRITE, "rw": READ | WRITE}


@dataclass(frozen=True, slots=True)
class Mode:
    """The mode of an object, and its owner and group."""

    bits: int
    uid: int
    gid: int


@dataclass(frozen=True, slots=True)
class Credentials:
    """The user and groups of a process without privileges."""

    uid: int
    groups: frozenset[int]

    def may(self, mode: Mode | None, wanted: int) -> bool:
        """Whether a mode allows what it wants; if nothing is known of an object, it may."""
        if mode is None:
            return True
        shift = 6 if mode.uid == self.uid else 3 if mode.gid in self.groups else 0
        return mode.bits >> shift & wanted == wanted


@dataclass(frozen=True, slots=True)
class User:
    """As whom a process asks for files; `overrides` says that it has privileges by which modes do not count for it.

    If it is not `known`, nothing is: neither which user it is, nor with which privileges.
    """

    uid: int
    gid: int
    groups: frozenset[int]
    overrides: bool
    known: bool = True

    @property
    def asker(self) -> Credentials | None:
        """The user and groups, if modes count for them."""
        counts = self.known and not self.overrides
        return Credentials(self.uid, self.groups | {self.gid}) if counts else None

    def become(self, uid: int) -> User:
        """The same as another user: root's privileges come and go with the number 0 (capabilities(7))."""
        overrides = uid == ROOT_USER or (self.overrides and self.uid != ROOT_USER)
        return replace(self, uid=uid, overrides=overrides)

    def running(self) -> User:
        """The same after an exec, which leaves privileges to root alone (capabilities(7))."""
        overrides = self.uid == ROOT_USER
        return self if overrides is self.overrides else replace(self, overrides=overrides)


#: Of a process of which nothing is known.
NOBODY_KNOWN = User(0, 0, frozenset(), True, known=False)


def refuse(
    asker: Credentials, mode_of: Callable[[str], Mode | None], op: str, members: Mapping[str, Any], runs: bool
) -> bool:
    """Whether modes refuse a call on paths; `runs` says that a file is opened to be run."""
    for path, wanted in _wanted(op, members, runs):
        if not asker.may(mode_of(path), wanted) or not let_through(asker, mode_of, path):
            return True
    return False


def forbid_link(asker: Credentials, mode: Mode | None, kind: str) -> bool:
    """Whether nobody but its owner and root may link an object (proc_sys_fs(5), `protected_hardlinks`): a regular file
    only if who links it may read and write it, and does not get a program that runs as another user or group by it.

    Nobody knows who owns a symbolic link; on file systems that have these, its owner may link it.
    """
    if kind == "sym" or mode is None or asker.uid in (mode.uid, ROOT_USER):
        return kind == "sym" and asker.uid != ROOT_USER
    runs_as_group = stat.S_ISGID | stat.S_IXGRP
    runs_as_other = mode.bits & stat.S_ISUID or mode.bits & runs_as_group == runs_as_group
    return kind != "reg" or bool(runs_as_other) or not asker.may(mode, READ | WRITE)


def let_through(asker: Credentials, mode_of: Callable[[str], Mode | None], path: str) -> bool:
    """Whether modes let a path lead to its last name."""
    return path == ROOT or all(asker.may(mode_of(over), RUN) for over in upwards(directory_of(path)))


def _wanted(op: str, members: Mapping[str, Any], runs: bool) -> Iterator[tuple[str, int]]:
    """The objects that a call looks at, each with the access that its mode must allow."""
    path: str | None = members.get("shown") or members.get("path") or members.get("from")
    target: str | None = members.get("shown_to") or members.get("to")
    if path and op in USING and not members.get("create"):
        yield path, RUN if runs else _OF_MODE.get(members.get("mode", ""), WRITE)
    elif path and op in MAKING | REMOVING:
        yield directory_of(path), WRITE | RUN
    if target:
        yield directory_of(target), WRITE | RUN
