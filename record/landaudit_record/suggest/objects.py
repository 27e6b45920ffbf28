"""Counts the objects under a directory: those on this disk, and those of recordings that this disk does not have."""

from __future__ import annotations

import os
import stat
from collections.abc import Iterator, Sequence
from dataclasses import dataclass

from ..common.rights import FILE_RIGHTS
from ..common.trees import ROOT, Tree, directory_of, upwards

#: The most objects that a disk counts as.
WITHOUT_END = 10_000_000
#: Directories that are not counted, since they change all the time or have no end, and what they count as: each as more
#: than all that is counted in it.
UNCOUNTED = {ROOT: 10 * WITHOUT_END, "/proc": WITHOUT_END, "/sys": WITHOUT_END}
_DEVICES = ("char", "block")


@dataclass
class Count:
    """Numbers of objects by the rights that apply to them; devices are files too."""

    files: int = 0
    directories: int = 0
    devices: int = 0

    def add(self, other: Count) -> None:
        """Adds the numbers of others."""
        self.files += other.files
        self.directories += other.directories
        self.devices += other.devices

    def of(self, right: str) -> int:
        """The number of objects that a right applies to."""
        match kind_of(right):
            case "devices":
                return self.devices
            case "files":
                return self.files
        return self.directories


def kind_of(right: str) -> str:
    """The kind of objects that a right applies to, as `Count` names it."""
    return "devices" if right == "ioctl_dev" else "files" if right in FILE_RIGHTS else "directories"


class CountedObjects:
    """The objects under directories; each directory is counted once, and its count is kept."""

    def __init__(self, trees: Sequence[Tree]) -> None:
        self._found: dict[str, Count] = {}
        self._counts: dict[str, Count] = {}
        self._elsewhere: dict[str, Count] = {}
        listed = {path: kind for tree in trees for path, kind in tree.kinds.items() if path not in tree.made}
        inside: dict[str, Count] = {}
        for path, kind in listed.items():
            if not os.path.lexists(path):
                for place, counts in ((path, self._elsewhere), (directory_of(path), inside)):
                    counts.setdefault(place, Count()).add(_single(kind))
        for directory, count in inside.items():
            for over in upwards(directory):
                self._elsewhere.setdefault(over, Count()).add(count)

    def under(self, path: str) -> Count:
        """What is at a path and under it."""
        if path in UNCOUNTED:
            return Count(*[UNCOUNTED[path]] * 3)
        if path not in self._found:
            self._found[path] = found = Count()
            found.add(self._on_disk(path))
            found.add(self._elsewhere.get(path, Count()))
        return self._found[path]

    def _on_disk(self, path: str) -> Count:
        """Counts what is on the disk, each directory after those in it."""
        if path not in self._counts:
            self._counts[path] = _alone(path)
            for directory, entries in reversed(list(self._walk(path))):
                count = Count(directories=1)
                for entry in entries:
                    count.add(self._counts[entry.path] if _is_directory(entry) else _of_entry(entry))
                self._counts[directory] = count
        return self._counts[path]

    def _walk(self, top: str) -> Iterator[tuple[str, list[os.DirEntry[str]]]]:
        """Each directory that is not counted yet, with its contents, before the directories in it."""
        waiting, seen = [top] if os.path.isdir(top) else [], 0
        while waiting:
            directory = waiting.pop()
            entries = _entries(directory) if seen < WITHOUT_END else []
            seen += len(entries)
            yield directory, entries
            waiting += [it.path for it in entries if _is_directory(it) and it.path not in self._counts]


def _entries(directory: str) -> list[os.DirEntry[str]]:
    """The contents of a directory; nothing if it can't be read."""
    try:
        with os.scandir(directory) as entries:
            return list(entries)
    except OSError:
        return []


def _is_directory(entry: os.DirEntry[str]) -> bool:
    return entry.is_dir(follow_symlinks=False)


def _of_entry(entry: os.DirEntry[str]) -> Count:
    """The count of an entry that is not a directory; a rule is never on a link."""
    if entry.is_symlink():
        return Count()
    return Count(files=1) if entry.is_file(follow_symlinks=False) else _alone(entry.path)


def _alone(path: str) -> Count:
    """What is at a path, without what is under it; nothing if it can't be seen."""
    try:
        mode = os.lstat(path).st_mode
    except (OSError, ValueError):
        return Count()
    return _single("sym" if stat.S_ISLNK(mode) else "char" if stat.S_ISCHR(mode) or stat.S_ISBLK(mode) else "reg")


def _single(kind: str) -> Count:
    """One object of a kind, as trees name it."""
    match kind:
        case "dir":
            return Count(directories=1)
        case "sym":
            return Count()
    return Count(files=1, devices=int(kind in _DEVICES))
