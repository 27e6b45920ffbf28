"""Where a path leads: symbolic links, `.` and `..` as the kernel walks them (path_resolution(7)).

All commands that judge a policy resolve its parents by `walked`. They differ in what they know of the objects on the
way: a recording's tree and what it kept (`surroundings`), or the disk of this machine. `confine`, and the code that
`export` prints, open the parents, so that the kernel resolves them.
"""

from __future__ import annotations

import errno
import os
import re
import stat
from dataclasses import dataclass, field
from typing import Protocol


ROOT = "/"
MOST_LINKS = 40
#: A path that no object has, for a rule that is on no object.
NOWHERE = "/~new~"
#: The links of a process to what it has, and paths that go on from them (proc(5)).
_LINKS = r"(/task/[0-9]+)?/(exe|cwd|root|(fd|ns|map_files)/[^/]+)(/.*)?"
_BY_PROCESS = re.compile(rf"/proc/(self|thread-self|[0-9]+){_LINKS}")
#: What is another object for each process, so that only the process that a policy confines knows which.
_OF_A_PROCESS = re.compile(rf"/proc/((self|thread-self)(/.*)?|[0-9]+{_LINKS})")
#: The errors by which the kernel says that nothing is at a path.
_ABSENT = (errno.ENOENT, errno.ENOTDIR)


class LinkLoop(Exception):
    """A path leads through more symbolic links than the kernel follows."""


def is_of_process(path: str) -> bool:
    """Whether a path without other links is that of another object for each process (proc(5))."""
    return _OF_A_PROCESS.fullmatch(path) is not None


def directory_of(path: str) -> str:
    """The directory that an object is in; the root is in itself."""
    return path.rpartition("/")[0] or ROOT


def joined(directory: str, name: str) -> str:
    """The path of a name in a directory."""
    return directory + name if directory == ROOT else f"{directory}/{name}"


@dataclass(frozen=True)
class Met:
    """What is at a path: its kind, None if nothing is there, and the target of a link.

    `now` says that it is what this disk has now, which need not be what a recording met.
    """

    kind: str | None
    target: str | None = None
    now: bool = False


NOTHING = Met(None)
DIRECTORY = Met("dir")


class KnownObjects(Protocol):
    """What is known of the objects on the way of a path."""

    def at(self, path: str) -> Met | None:
        """What is at a path whose directories are no links; None if that is not known."""


@dataclass(frozen=True)
class NothingElse:
    """No object: what a tree does not list is not there."""

    def at(self, path: str) -> Met | None:
        """Nothing."""
        return NOTHING


@dataclass(frozen=True)
class ThisDisk:
    """The objects that this machine has now."""

    def at(self, path: str) -> Met | None:
        """What is at a path; not known if it can't be seen, or differs from process to process."""
        if is_of_process(path):
            return None
        try:
            mode = os.lstat(path).st_mode
            if stat.S_ISLNK(mode):
                return Met("sym", os.readlink(path), now=True)
        except OSError as error:
            return Met(None, now=True) if error.errno in _ABSENT else None
        except ValueError:
            return NOTHING
        return Met("dir" if stat.S_ISDIR(mode) else "reg", now=True)


DISK = ThisDisk()


@dataclass(frozen=True)
class Walked:
    """Where a path leads.

    `unknown` is the first path on the way where it is not known what is there, `blocked` the first one that is no
    directory although the path goes on from it: then the kernel opens nothing. `now` has the links on the way that were
    looked up on this disk, `links` has all of them. `only_directory` says that the path leads to nothing but a
    directory, as one that ends with a slash.
    """

    path: str
    unknown: str | None = None
    blocked: str | None = None
    now: tuple[str, ...] = ()
    only_directory: bool = False
    links: tuple[str, ...] = field(default=(), compare=False)

    @property
    def is_sure(self) -> bool:
        """Whether the path is known to be where the kernel gets."""
        return self.unknown is None and self.blocked is None

    @property
    def varies(self) -> bool:
        """Whether it goes by a link of a process, so that its name does not tell the object."""
        return self.unknown is not None and _BY_PROCESS.fullmatch(self.path) is not None


def walked(path: str, known: KnownObjects) -> Walked:
    """An absolute path without symbolic links, `.`, `..` and doubled slashes, as the kernel walks it.

    What follows an object that is not known, or that is not there, stays as it is written.
    """
    todo = path.split("/")[::-1]
    only_directory = todo[0] in ("", ".", "..")
    here, at = ROOT, DIRECTORY
    unknown: str | None = None
    blocked: str | None = None
    now: list[str] = []
    links: list[str] = []
    while todo:
        name = todo.pop()
        if _ends(at, name):
            blocked = blocked or here
        if name in ("", "."):
            continue
        if name == "..":
            here, at = directory_of(here), DIRECTORY if blocked is None else NOTHING
            continue
        there = joined(here, name)
        found = known.at(there) if at.kind == "dir" else NOTHING
        unknown = unknown or (there if found is None or (found.kind == "sym" and found.target is None) else None)
        if found is None or found.target is None:
            here, at = there, found or DIRECTORY
            continue
        links.append(there)
        if len(links) > MOST_LINKS:
            raise LinkLoop(path)
        now += [there] if found.now else []
        here = ROOT if found.target.startswith("/") else here
        todo.extend(found.target.split("/")[::-1])
    return Walked(here, unknown, blocked, tuple(now), only_directory, tuple(links))


def _ends(at: Met, name: str) -> bool:
    """Whether a path can't go on by a name from what it has come to; where nothing is, names lead to nothing."""
    return at.kind != "dir" and (name == ".." or (name in ("", ".") and at.kind is not None))
