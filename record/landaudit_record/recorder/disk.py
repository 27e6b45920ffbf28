"""What is on the disk after the run, kept with the recording so that it can be converted anywhere and later."""

from __future__ import annotations

import ctypes
import os
import re
import stat
from collections.abc import Container, Mapping, Sequence
from dataclasses import dataclass, replace
from functools import cache
from itertools import chain
from pathlib import Path
from struct import Struct
from sys import maxsize
from typing import BinaryIO

from ..common import jsonl
from ..common.trees import upwards
from . import mounted
from .formats import HEAD, Format, first_of
from .modes import Mode

_KINDS = {
    stat.S_IFDIR: "dir",
    stat.S_IFREG: "reg",
    stat.S_IFLNK: "sym",
    stat.S_IFCHR: "char",
    stat.S_IFBLK: "block",
    stat.S_IFIFO: "fifo",
    stat.S_IFSOCK: "sock",
}
_BLANKS = re.compile(rb"[ \t]+")
_AT_FDCWD = -100
_AT_SYMLINK_NOFOLLOW = 0x100
_STATX_BTIME = 0x800
_STATX_SIZE = 256
_STATX_BTIME_AT = 80
_STATFS_SIZE = 256
_WORD = ctypes.sizeof(ctypes.c_long)
_OVERLAYFS_SUPER_MAGIC = 0x794C7630
#: File systems of which a server says who may use what, not the kernel by modes: FUSE, NFS, SMB, 9P, Ceph, AFS, Coda
#: (statfs(2), linux/magic.h).
_SERVED = frozenset({0x65735546, 0x6969, 0xFF534D42, 0xFE534D42, 0x517B, 0x01021997, 0x00C36400, 0x5346414F, 0x6B414653,
                     0x73757245})
#: The names under which objects have lists of who may use them, besides their modes (acl(5), nfs4_acl(5)).
_LISTS = frozenset({"system.posix_acl_access", "system.nfs4_acl", "system.richacl"})
#: A character device 0:0: which kind it is for Landlock the kernel says (docs/SEMANTICS.md, "Whiteouts").
WHITEOUT = "whiteout"


@dataclass(frozen=True, slots=True)
class Seen:
    """An object: its kind, a link's target, whether it was made after the run began, and whether a file may be run.

    `new` is None if the file system keeps no birth times. `inode` is set if the object has several names (hard links):
    names with the same `inode` are one object.
    """

    kind: str
    target: str | None = None
    new: bool | None = False
    runs: bool = False
    inode: str | None = None


#: The line of the log until which calls may have come before what was seen after the run: every line.
AFTER = maxsize


@dataclass(frozen=True, slots=True)
class Observed:
    """What was seen at a path, nothing or an object.

    `until` is the last line of the log that had begun by then: calls that began on later lines came after it.
    """

    seen: Seen | None
    until: int = AFTER


@dataclass(frozen=True, slots=True)
class Program:
    """How a file says that it is run: by which interpreter or loader, and how it begins if a format may run it.

    It was read for runs from the line `first` of the log on; `until` is as in `Observed`. If it could not be read then,
    it is not `known`. `runs` says whether its mode then let anybody run it.
    """

    interpreter: str | None = None
    head: bytes = b""
    known: bool = True
    first: int = 0
    until: int = AFTER
    runs: bool = True


def kind_of(mode: int, device: int) -> str:
    """The kind of an object by its mode and the number of its device."""
    kind = _KINDS.get(stat.S_IFMT(mode), "reg")
    return WHITEOUT if kind == "char" and device == 0 else kind


def look(path: str, since: float = 0.0) -> Seen | None:
    """The object at a path, without following a link at its end."""
    try:
        status = os.lstat(path)
        target = os.readlink(path) if stat.S_ISLNK(status.st_mode) else None
    except (OSError, ValueError):
        return None
    kind = kind_of(status.st_mode, status.st_rdev)
    linked = status.st_nlink > 1 and kind != "dir"
    inode = f"{status.st_dev}:{status.st_ino}" if linked else None
    runs = kind == "reg" and status.st_mode & 0o111 != 0
    return Seen(kind, target, _is_new(path, since), runs, inode)


def _is_new(path: str, since: float) -> bool | None:
    """Whether an object was made after a time, if its file system says so; nothing is newer than no time.

    What overlayfs shows may have been there before: it copies an object to its upper layer when that is first changed.
    """
    born = _born(path) if since else 0.0
    if born is None or not since or born < since:
        return None if born is None else False
    return None if _is_merged(os.path.dirname(path)) else True


def mode(path: str) -> Mode | None:
    """The mode of the object at a path, if it alone says who may use the object."""
    try:
        status = os.lstat(path)
        lists = _LISTS.intersection(os.listxattr(path, follow_symlinks=False))
    except (OSError, ValueError):
        return None
    if lists or _file_system(path) in _SERVED or stat.S_ISLNK(status.st_mode):
        return None
    return Mode(stat.S_IMODE(status.st_mode), status.st_uid, status.st_gid)


def is_as_before(path: str, since: float) -> bool:
    """Whether the object at a path has not been changed, moved or put there since a time (inode(7), ctime)."""
    try:
        return os.lstat(path).st_ctime < since
    except (OSError, ValueError):
        return False


def _born(path: str) -> float | None:
    """When an object was made, if its file system says so (statx(2))."""
    buffer = ctypes.create_string_buffer(_STATX_SIZE)
    name = os.fsencode(path)
    if _libc().statx(_AT_FDCWD, name, _AT_SYMLINK_NOFOLLOW, _STATX_BTIME, buffer) != 0:
        return None
    mask = int.from_bytes(buffer.raw[:4], "little")
    if not mask & _STATX_BTIME:
        return None
    seconds = int.from_bytes(buffer.raw[_STATX_BTIME_AT : _STATX_BTIME_AT + 8], "little", signed=True)
    nanoseconds = int.from_bytes(buffer.raw[_STATX_BTIME_AT + 8 : _STATX_BTIME_AT + 12], "little")
    return seconds + nanoseconds / 1e9


def _is_merged(directory: str) -> bool:
    """Whether a directory is in an overlayfs."""
    return _file_system(directory) == _OVERLAYFS_SUPER_MAGIC


def _file_system(path: str) -> int | None:
    """The number of the type of the file system of what a path leads to (statfs(2))."""
    buffer = ctypes.create_string_buffer(_STATFS_SIZE)
    found = _libc().statfs(os.fsencode(path), buffer) == 0
    return int.from_bytes(buffer.raw[:_WORD], "little") if found else None


@cache
def _libc() -> ctypes.CDLL:
    return ctypes.CDLL(None, use_errno=True)


#: So many programs may run one another behind `#!` until one is a program of the machine, which may have a loader:
#: with one more the kernel says ELOOP (tried on 6.18).
MOST_INTERPRETERS = 5


def interpreter(path: str) -> str | None:
    """The interpreter of a file: the program after `#!`, or the loader that an ELF file names (PT_INTERP)."""
    try:
        with open(path, "rb") as program:
            head = program.read(HEAD)
            if head.startswith(b"#!"):
                return _after_mark(head)
            layout = _LAYOUTS.get(head[:6])
            return _loader(program, head, layout) if layout is not None else None
    except (OSError, ValueError):
        return None


def _after_mark(head: bytes) -> str | None:
    """The program after `#!`, as the kernel reads it: only blanks and tabs end its name, not a carriage return."""
    words = _BLANKS.split(head[2:].split(b"\n", 1)[0].strip(b" \t"), maxsplit=1)
    return _text(words[0])


def program(path: str, formats: Sequence[Format]) -> Program:
    """How a file says that it is run, if it is a regular file that can be read."""
    bits = _mode_bits(path)
    return replace(program_at(path, formats), runs=bits & 0o111 != 0) if stat.S_ISREG(bits) else Program(known=False)


def program_at(path: str, formats: Sequence[Format]) -> Program:
    """How what a path leads to says that it is run, if it can be read."""
    begins = head(path)
    by_format = is_foreign(begins) or first_of(formats, "", begins) is not None
    return Program(interpreter(path), begins if by_format else b"") if begins else Program(known=False)


def _mode_bits(path: str) -> int:
    try:
        return os.lstat(path).st_mode
    except (OSError, ValueError):
        return 0


def head(path: str) -> bytes:
    """How a file begins; nothing of one that can't be read."""
    try:
        with open(path, "rb") as program:
            return program.read(HEAD)
    except (OSError, ValueError):
        return b""


#: What runs beside programs of a machine's own: the older ones of a family (elf.h has the numbers).
_COMPATIBLE = {62: {3, 6}, 183: {40}, 21: {20}, 43: {2, 18}}
_MACHINE_AT = 18


def is_foreign(head: bytes) -> bool:
    """Whether a file is neither a script nor a program of this machine: only a format lets the kernel run it."""
    if head.startswith(b"#!"):
        return False
    machine = _machine(head)
    return machine is None or machine not in _own_machines()


def _machine(head: bytes) -> int | None:
    """The machine that an ELF file is for."""
    if head[:6] not in _LAYOUTS or len(head) < _MACHINE_AT + 2:
        return None
    return int.from_bytes(head[_MACHINE_AT : _MACHINE_AT + 2], "little" if head[5] == 1 else "big")


@cache
def _own_machines() -> set[int | None]:
    own = _machine(head("/proc/self/exe"))
    return {own} | _COMPATIBLE.get(own or 0, set())


def _text(written: bytes) -> str | None:
    """A path that a file names, which ends at a NUL."""
    return os.fsdecode(written.split(b"\0", 1)[0]) or None


@dataclass(frozen=True)
class _Layout:
    """The layout of ELF files of a width and a byte order (elf(5)).

    In the file's header, `table` is the offset of the table of program headers, and `counts` their size and number. A
    program header has a type, an offset in the file, and a length.
    """

    table: Struct
    table_at: int
    counts: Struct
    counts_at: int
    header: Struct


_PT_INTERP = 3
_LONGEST_INTERPRETER = 4096
_LAYOUTS = {
    b"\x7fELF" + bytes([width, order]): layout
    for order, sign in ((1, "<"), (2, ">"))
    for width, layout in (
        (1, _Layout(Struct(sign + "I"), 28, Struct(sign + "HH"), 42, Struct(sign + "II8xI12x"))),
        (2, _Layout(Struct(sign + "Q"), 32, Struct(sign + "HH"), 54, Struct(sign + "I4xQ16xQ16x"))),
    )
}


def _loader(program: BinaryIO, head: bytes, layout: _Layout) -> str | None:
    """The loader of an ELF file, by its program headers, if it names one; the kernel does not run a malformed file."""
    if len(head) < layout.counts_at + layout.counts.size:
        return None
    (table,) = layout.table.unpack_from(head, layout.table_at)
    entry, number = layout.counts.unpack_from(head, layout.counts_at)
    if entry != layout.header.size:
        return None
    headers = _read(program, table, entry * number)
    for kind, place, length in layout.header.iter_unpack(headers[: len(headers) // entry * entry]):
        if kind == _PT_INTERP:
            return _text(_read(program, place, min(length, _LONGEST_INTERPRETER)))
    return None


def _read(program: BinaryIO, place: int, length: int) -> bytes:
    """The bytes at an offset of a file; nothing for an offset that no file can have."""
    if place > maxsize:
        return b""
    program.seek(place)
    return program.read(length)


class Disk:
    """The disk as a recording sees it: each answer is kept and used again.

    `seen` and `programs` have what was seen while the run went on; what they lack is looked up now, after the run, or
    is what `kept` and `after` have of that time. `mounts` are those of the beginning of the run.
    """

    def __init__(
        self,
        since: float,
        kept: Mapping[str, Seen] | None = None,
        after: Mapping[str, Program] | None = None,
        modes: Mapping[str, Mode] | None = None,
        *,
        formats: Sequence[Format] = (),
        seen: Mapping[str, Observed] | None = None,
        programs: Mapping[str, list[Program]] | None = None,
        mounts: Sequence[Sequence[str]] = (),
    ) -> None:
        self._since = since
        self._live = kept is None
        self._observed = {path: Observed(one) for path, one in (kept or {}).items()} | dict(seen or {})
        self._programs = dict(programs or {})
        self._after = dict(after or {})
        self._modes: dict[str, Mode | None] = dict(modes or {})
        self._mounts = mounts
        self._as_before: dict[str, bool] = {}
        self._mounted: tuple[str, ...] | None = None
        self.formats = formats

    def observed(self, path: str) -> Observed:
        """What was seen at a path."""
        found = self._observed.get(path)
        if found is None:
            found = self._observed[path] = Observed(look(path, self._since) if self._live else None)
        return found

    def look(self, path: str) -> Seen | None:
        """The object that was seen at a path."""
        return self.observed(path).seen

    def program(self, path: str, line: int) -> Program:
        """How the file at a path said that it is run when it was run on a line of the log."""
        found = [one for one in self._programs.get(path, ()) if one.first <= line]
        if found:
            return found[-1]
        if path not in self._after:
            self.observed(path)
            self._after[path] = program(path, self.formats) if self._live else Program(known=False)
        return self._after[path]

    def mode(self, path: str) -> Mode | None:
        """The mode of the object at a path, if it is known to have been the same during the whole run."""
        self.look(path)
        if path not in self._modes:
            self._modes[path] = mode(path) if self._live and self._stayed(path) else None
        return self._modes[path]

    def _stayed(self, path: str) -> bool:
        """Whether a path has led to one object since the run began, which has not been changed either."""
        return not f"{path}/".startswith(self._mounted_since()) and all(map(self._is_as_before, upwards(path)))

    def _is_as_before(self, path: str) -> bool:
        if path not in self._as_before:
            self._as_before[path] = is_as_before(path, self._since)
        return self._as_before[path]

    def _mounted_since(self) -> tuple[str, ...]:
        """Where other file systems are mounted than when the run began."""
        if self._mounted is None:
            before = {tuple(one) for one in self._mounts}
            changed = before ^ {tuple(one) for one in mounted.shown()}
            self._mounted = tuple(f"{place.rstrip('/')}/" for place, *_ in changed)
        return self._mounted

    def keep(self, file: Path) -> None:
        """Writes the kept answers, for a later conversion."""
        seen = (_seen_line(path, of) for path, of in self._observed.items())
        objects = (self._with_more(line) for line in seen if line["kind"] is not None or "until" in line)
        programs = (_program_line(path, one) for path, found in self._programs.items() for one in found)
        jsonl.write(file, chain(objects, programs))

    def _with_more(self, line: jsonl.Record) -> jsonl.Record:
        """The line of an object with its mode, and how it is run, if these are known."""
        path = line["path"]
        if (of := self._modes.get(path)) is not None:
            line["mode"] = [of.bits, of.uid, of.gid]
        after = self._after.get(path)
        return line if after is None else line | _how_run(after)


def _seen_line(path: str, of: Observed) -> jsonl.Record:
    """The line of what was seen at a path."""
    line: jsonl.Record = {"path": path, "kind": None if of.seen is None else of.seen.kind}
    if of.until != AFTER:
        line["until"] = of.until
    if (seen := of.seen) is not None:
        more = {"target": seen.target, "runs": seen.runs or None, "inode": seen.inode}
        line |= {name: value for name, value in more.items() if value is not None}
        line |= {"new": seen.new} if seen.new is not False else {}
    return line


def _program_line(path: str, one: Program) -> jsonl.Record:
    """The line of how a file was run."""
    runs = {} if one.runs else {"runs": False}
    return {"program": path, "first": one.first, "until": one.until, **_how_run(one), **runs}


def _how_run(one: Program) -> jsonl.Record:
    line: jsonl.Record = {} if one.known else {"known": False}
    line |= {} if one.interpreter is None else {"interpreter": one.interpreter}
    return line | ({"head": one.head.hex()} if one.head else {})


def _program_of(line: jsonl.Record) -> Program:
    head = bytes.fromhex(line.get("head", ""))
    told = (line.get("interpreter"), head, line.get("known", True))
    if "program" in line:
        return Program(*told, line["first"], line["until"], line.get("runs", True))
    return Program(*told, runs=line.get("runs", False))


def write_beside(file: Path, seen: Mapping[str, Observed], programs: Mapping[str, list[Program]]) -> None:
    """Writes what was seen while the run went on."""
    objects = (_seen_line(path, of) for path, of in seen.items())
    runs = (_program_line(path, one) for path, found in programs.items() for one in found)
    jsonl.write(file, chain(objects, runs))


def kept(
    file: Path,
    since: float,
    formats: Sequence[Format] = (),
    beside: Path | None = None,
    mounts: Sequence[Sequence[str]] = (),
) -> Disk:
    """The disk as an earlier conversion kept it. Where there was none, it is this machine's, and what was seen `beside`
    the run comes before it.
    """
    live = not file.is_file()
    lines = [line for _, line in jsonl.numbered(file)] if not live else []
    if live and beside is not None and beside.is_file():
        lines = [line for _, line in jsonl.numbered(beside)]
    after: dict[str, Seen] = {}
    seen: dict[str, Observed] = {}
    modes: dict[str, Mode] = {}
    programs: dict[str, list[Program]] = {}
    for line in lines:
        if "program" in line:
            programs.setdefault(line["program"], []).append(_program_of(line))
            continue
        path = line["path"]
        if "until" in line:
            seen[path] = Observed(_seen_of(line), line["until"])
        elif (one := _seen_of(line)) is not None:
            after[path] = one
        if "mode" in line:
            modes[path] = Mode(*line["mode"])
    run_after = {line["path"]: _program_of(line) for line in lines if line.get("kind") == "reg" and not live}
    known = None if live else after
    return Disk(since, known, run_after, modes, formats=formats, seen=seen, programs=programs, mounts=mounts)


def _seen_of(line: jsonl.Record) -> Seen | None:
    """What a line says was seen."""
    if line["kind"] is None:
        return None
    return Seen(line["kind"], line.get("target"), line.get("new", False), line.get("runs", False), line.get("inode"))


def list_below(
    top: str, limit: int, unread: list[str], without: Container[str] = ()
) -> list[tuple[str, Seen]] | None:
    """Everything in a directory and below it, or None if there is more than the limit.

    Directories that can't be read are added to `unread`; what is below those of `without` is not listed.
    """
    found: list[tuple[str, Seen]] = []
    directories = [top]
    while directories:
        directory = directories.pop()
        try:
            with os.scandir(directory) as entries:
                for entry in entries:
                    seen = look(entry.path)
                    if seen is None:
                        continue
                    found.append((entry.path, seen))
                    if len(found) > limit:
                        return None
                    if seen.kind == "dir" and entry.path not in without:
                        directories.append(entry.path)
        except OSError:
            unread.append(directory)
    return found
