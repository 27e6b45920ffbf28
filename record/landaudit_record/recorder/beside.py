"""Looks at the disk beside a run: strace writes its log, and what the log leads to is looked at meanwhile.

strace writes the beginning of a call before the kernel carries it out. So a call that begins in the log after a look
came after it, and what was seen is what was there before. Where the log leads to a directory for the first time, the
directory is listed, and so is known before most calls that change it.

Nothing here waits for a process of the run: what is in a file system of a process (FUSE) or was mounted during the run
is not looked at, and only regular files are opened.
"""

from __future__ import annotations

import ctypes
import math
import os
import re
import select
import threading
import time
from collections.abc import Mapping, Sequence
from contextlib import closing, suppress
from dataclasses import dataclass, replace
from itertools import islice
from pathlib import Path

from . import disk
from .disk import Observed, Program, Seen
from .formats import Format
from .unwritten import NotUnderstood
from .mounted import MOUNTS, mounts
from .names import MOST_LINKS
from .values import is_in_memory, unescaped

#: The least time between two readings of the log, in seconds: many lines are read together.
PAUSE = 0.001
#: How much of the log is read at once.
BLOCK = 1 << 20
#: Directories with more names than this are not listed; what the log leads to in them is looked at name by name.
MOST_NAMES = 20_000
#: A program, its interpreters, and the loader of the last one.
MOST_READ = 7
#: The time to wait for more of the log, in milliseconds, and for the end of a look, in seconds.
_NOT_FOR_LONG, _PATIENCE = 100, 5.0
#: How the types of file systems begin that processes serve (/proc/self/mountinfo, fuse(4), autofs(5)).
_SERVED = ("fuse", "autofs")
PROC = "/proc"
_IN_MODIFY = 2
#: A directory's descriptor with its path, before a path that may lead on from there.
_BASE = rb"(?:(-?\d+)(?: /\*[^*\n]*\*/)?(?:<([^<>\n]*)>)?(?:\(deleted\))?, )?"
_HERE = b"-100"
_TEXT = rb'"((?:[^"\\\n]|\\.)*)"'
_ANY_TEXT = rb'"(?:[^"\\\n]|\\.)*"'
#: The first path of a call, the second one of a move or link, and a program that is run.
_FIRST = re.compile(rb"\n\d+ +\w+\(" + _BASE + _TEXT)
_SECOND = re.compile(rb"\n\d+ +(?:rename|link|symlink)(?:at2?)?\([^\"\n]*" + _ANY_TEXT + rb", " + _BASE + _TEXT)
_RUN = re.compile(rb"\n(\d+) +execve(?:at)?\(" + _BASE + _TEXT)
#: How paths begin that may lead to a program that is in memory alone.
_BY_NUMBER = ("/proc/self/fd/", "/dev/fd/")

#: The number and the path of the directory from which a path leads on, as far as the log has them, and the path.
_Led = tuple[bytes, bytes, bytes]


@dataclass(frozen=True, slots=True)
class _Look:
    """What was seen at a path, and how long the log was afterwards."""

    seen: Seen | None
    at: int


@dataclass(frozen=True, slots=True)
class _Listing:
    """The names of a directory with what is there, and how long the log was afterwards."""

    names: Mapping[str, os.DirEntry[str]]
    at: int

    def looks(self, name: str) -> list[_Look]:
        """What the listing says of a name: nothing where it does not say what is there."""
        entry = self.names.get(name)
        if entry is None:
            return [_Look(None, self.at)]
        kinds = {"reg": entry.is_file(follow_symlinks=False), "dir": entry.is_dir(follow_symlinks=False)}
        return [_Look(Seen(kind, new=None), self.at) for kind, is_so in kinds.items() if is_so]


@dataclass(frozen=True, slots=True)
class _ReadFile:
    """What a file said about how it is run, where the log runs it, and how long the log was after the file was read.

    While the `state` of the file is the same, the file says the same.
    """

    program: Program
    run: int
    at: int
    state: tuple[int, ...] | None


class WatchedMounts:
    """What is mounted, and what of it is not looked at."""

    def __init__(self, file: Path = MOUNTS) -> None:
        self._of = file
        self._file = open(file, "rb")
        self._changes = select.poll()
        self._changes.register(self._file, select.POLLERR | select.POLLPRI)
        self._first = frozenset(mount.place for mount in mounts(file))
        self._closed = self._not_looked_at()

    def _not_looked_at(self) -> tuple[str, ...]:
        """What a process serves, and what the run mounts."""
        found = mounts(self._of)
        closed = (one.place for one in found if one.kind.startswith(_SERVED) or one.place not in self._first)
        return PROC, *closed

    def closes(self, path: str) -> bool:
        """Whether a path is where nothing is looked at."""
        if self._changes.poll(0):
            self._closed = self._not_looked_at()
        return any(path == top or path.startswith(f"{top.rstrip('/')}/") for top in self._closed)

    def close(self) -> None:
        """Stops listening for mounts."""
        self._file.close()


class _Growth:
    """Waits until a file grows (inotify(7))."""

    def __init__(self, file: Path) -> None:
        libc = ctypes.CDLL(None, use_errno=True)
        self._fd = libc.inotify_init1(os.O_NONBLOCK | os.O_CLOEXEC)
        self._events = select.poll()
        if self._fd >= 0 and libc.inotify_add_watch(self._fd, os.fsencode(file), _IN_MODIFY) >= 0:
            self._events.register(self._fd, select.POLLIN)

    def wait(self) -> None:
        """Waits, but not for long, so that the end of the run is noticed too."""
        if self._events.poll(_NOT_FOR_LONG):
            os.read(self._fd, BLOCK)

    def close(self) -> None:
        """Stops waiting."""
        if self._fd >= 0:
            os.close(self._fd)


class LogFollower:
    """Follows the log of a run in a thread of its own, from `start` to `stop`, which writes what was seen.

    `directory` is where the command starts, `since` when the run began, `watched` are directories that were listed
    before it.
    """

    def __init__(
        self, log: Path, directory: str, since: float, watched: Sequence[str], formats: Sequence[Format] = ()
    ) -> None:
        self._log = log
        self._here = directory
        self._since = since
        self._watched = tuple(f"{top.rstrip('/')}/" for top in watched)
        self._formats = formats
        self._looks: dict[str, list[_Look]] = {}
        self._in_watched: dict[str, Seen | None] = {}
        self._listings: dict[str, _Listing | None] = {}
        self._reads: dict[str, list[_ReadFile]] = {}
        self._real: dict[str, str] = {}
        self._led: set[_Led] = set()
        self._run_until = 0
        self._waiting: list[str] = []
        self._mounts = WatchedMounts()
        self._at = 0
        self._until = math.inf
        self._stops = threading.Event()
        self._thread = threading.Thread(target=self._follow, daemon=True)

    def start(self) -> None:
        """Begins to follow."""
        self._thread.start()

    def is_up_to_date(self) -> bool:
        """Whether all that the log has now was read, and all to which it leads was looked at."""
        return self._at == self._length() and not self._waiting

    def stop(self, file: Path) -> None:
        """Ends where the log ends, and writes what was seen; nothing, if a file system does not answer."""
        self._until = time.monotonic() + _PATIENCE
        self._stops.set()
        self._thread.join(2 * _PATIENCE)
        if self._thread.is_alive():
            return
        self._mounts.close()
        if self._log.exists():
            disk.write_beside(file, *self._told())

    def _follow(self) -> None:
        """Reads the log as it grows."""
        while not self._log.exists():
            if self._stops.wait(PAUSE) and not self._log.exists():
                return
        growth = _Growth(self._log)
        with open(self._log, "rb") as lines, closing(growth):
            text, at = b"", 0
            while time.monotonic() < self._until:
                stops = self._stops.is_set()
                if more := lines.read(BLOCK):
                    text += more
                    self._read(at, text)
                    ends = text.rfind(b"\n") + 1
                    text, at = text[ends:], at + ends
                    self._at = lines.tell()
                elif self._waiting:
                    self._lead(self._waiting[-1])
                    self._waiting.pop()
                elif stops:
                    return
                else:
                    growth.wait()
                    time.sleep(PAUSE)

    def _read(self, at: int, text: bytes) -> None:
        """Reads the programs that a piece of the log runs, and keeps what else it leads to, to be looked at next.

        The piece begins at a place of the log. What it leads to last comes first, since a look is of use if it is soon.
        """
        text = b"\n" + text
        for run in _RUN.finditer(text) if b"execve" in text else ():
            if at + run.start() >= self._run_until:
                self._run_until = at + run.start() + 1
                with suppress(NotUnderstood):
                    self._read_run(int(run[1]), self._joined(*run.groups()[1:]), at + run.start())
        met: dict[_Led, None] = dict.fromkeys(_FIRST.findall(text))
        met.update(dict.fromkeys(_SECOND.findall(text)))
        new = [led for led in met if led not in self._led]
        self._led.update(new)
        for led in reversed(new):
            with suppress(NotUnderstood):
                self._waiting.append(self._joined(*led))

    def _joined(self, number: bytes | None, base: bytes | None, path: bytes) -> str:
        """An absolute path. If the log does not name the working directory of a call, the last one that it named is
        taken; if that is the wrong one, the look is of no use.
        """
        directory = unescaped((base or b"").decode("latin-1"))
        if number == _HERE and directory.startswith("/"):
            self._here = directory
        return os.path.join(directory or self._here, unescaped(path.decode("latin-1")))

    def _lead(self, path: str) -> None:
        """Looks at all names on the way of a path."""
        here, left, followed = "/", path.split("/")[::-1], 0
        while left and followed < MOST_LINKS:
            name = left.pop()
            if name in ("", "."):
                continue
            if name == "..":
                here = here.rpartition("/")[0] or "/"
                continue
            seen = self._look(here, name)
            if seen is None or (seen.kind not in ("dir", "sym") and left):
                return
            if seen.kind == "sym" and seen.target is not None:
                followed += 1
                left.extend(seen.target.split("/")[::-1])
                here = "/" if seen.target.startswith("/") else here
            else:
                here = f"{here.rstrip('/')}/{name}"

    def _look(self, directory: str, name: str) -> Seen | None:
        """Looks at a name in a directory, which is listed before; each name once."""
        path = f"{directory.rstrip('/')}/{name}"
        if path.startswith(self._watched):
            if path not in self._in_watched and not self._mounts.closes(path):
                self._in_watched[path] = disk.look(path)
            return self._in_watched.get(path)
        looks = self._looks.get(path)
        if looks is None:
            if self._mounts.closes(path):
                return None
            listing = self._list(directory)
            looks = self._looks[path] = [] if listing is None else listing.looks(name)
            looks.append(_Look(disk.look(path, self._since), self._length()))
        return looks[-1].seen

    def _list(self, directory: str) -> _Listing | None:
        """Lists a directory, once; None if it can't be listed or is too large."""
        if directory not in self._listings:
            self._listings[directory] = None
            with suppress(OSError), os.scandir(directory) as entries:
                some = {entry.name: entry for entry in islice(entries, MOST_NAMES + 1)}
                if len(some) <= MOST_NAMES:
                    self._listings[directory] = _Listing(some, self._length())
        return self._listings[directory]

    def _length(self) -> int:
        """How long the log is: the calls that begin there come later."""
        return os.stat(self._log).st_size

    def _read_run(self, tid: int, path: str, run: int) -> None:
        """Reads how a program says that it is run; one that is in memory alone (memfd_create(2)) from the process."""
        if not is_in_memory(path) and not path.startswith(_BY_NUMBER):
            self._read_program(path, run)
            return
        own = f"/proc/{tid}/exe"
        with suppress(OSError):
            name = os.readlink(own).removesuffix(" (deleted)")
            if is_in_memory(name):
                read = replace(disk.program_at(own, self._formats), until=0)
                self._reads.setdefault(name, []).append(_ReadFile(read, run, self._length(), None))
                self._read_program(read.interpreter or "/", run)

    def _read_program(self, path: str, run: int) -> None:
        """Reads how a file says that it is run, and the files by which it is run, unless they are as they were."""
        for _ in range(MOST_READ):
            if "\0" in path or self._mounts.closes(path):
                return
            path = self._real.get(path) or os.path.realpath(path)
            reads = self._reads.setdefault(path, [])
            state = _state(path)
            if not reads or state is None or reads[-1].state != state:
                program = disk.program(path, self._formats)
                program = program if _state(path) == state else replace(program, known=False)
                reads.append(_ReadFile(program, run, self._length(), state))
            interpreter = reads[-1].program.interpreter
            if interpreter is None:
                return
            if interpreter not in self._real:
                self._real[interpreter] = os.path.realpath(interpreter)
            path = interpreter

    def _told(self) -> tuple[dict[str, Observed], dict[str, list[Program]]]:
        """What was seen, with lines of the log."""
        places = {look.at for looks in self._looks.values() for look in looks}
        places |= {place for reads in self._reads.values() for read in reads for place in (read.at, read.run)}
        begun = _lines_begun(self._log, sorted(places))
        seen = {path: _observed(looks, begun) for path, looks in self._looks.items()}
        programs = {
            path: [replace(read.program, first=begun[read.run] + 1, until=begun[read.at]) for read in reads]
            for path, reads in self._reads.items()
        }
        return seen, programs


def _state(path: str) -> tuple[int, ...] | None:
    """What changes with a file's content (inode(7))."""
    try:
        status = os.lstat(path)
    except (OSError, ValueError):
        return None
    return status.st_dev, status.st_ino, status.st_size, status.st_mtime_ns, status.st_ctime_ns


def _observed(looks: Sequence[_Look], begun: Mapping[int, int]) -> Observed:
    """What the first look at a path saw, with what the last one says more about the same object."""
    first, last = looks[0], looks[-1]
    seen = first.seen
    if seen is not None and last.seen is not None and last.seen.kind == seen.kind:
        seen = replace(last.seen, target=seen.target)
    return Observed(seen, begun[first.at])


def _lines_begun(log: Path, places: Sequence[int]) -> dict[int, int]:
    """How many lines of a log begin before each of some places, which are in ascending order."""
    found: dict[int, int] = {}
    lines = at = 0
    last = b"\n"
    with open(log, "rb") as text:
        for place in places:
            while at < place and (piece := text.read(min(BLOCK, place - at))):
                lines += piece.count(b"\n")
                at += len(piece)
                last = piece[-1:]
            found[place] = lines + (last != b"\n")
    return found
