"""A recording's folder: how it was made, and which objects existed before the run."""

from __future__ import annotations

import ctypes
import errno
import json
import os
import socket
import stat
from dataclasses import asdict, dataclass, field
from pathlib import Path
from typing import Any

from ..common import jsonl
from ..common.finished import LOOKING, READING_LINKS, SIGNALS
from ..common.problems import Problem
from . import disk, mounted
from .disk import Seen
from .formats import Format
from .modes import NOBODY_KNOWN, ROOT_USER, User

ABOUT = "recording.json"
#: A ruleset, as the target of its descriptor in /proc (proc(5)).
RULESET = "anon_inode:[landlock-ruleset]"
BEFORE = "before.jsonl"
OBJECTS = "objects.jsonl"
BESIDE = "beside.jsonl"
POLICY = "policy.toml"
MOST_WATCHED = 100_000
CAP_SYS_ADMIN = 21
#: By what a recording may be made.
STRACE, WITNESS = "strace", "witness"
_SYS_LANDLOCK_CREATE_RULESET = 444
_LANDLOCK_CREATE_RULESET_ERRATA = 2
_PR_GET_SECUREBITS = 27


@dataclass
class About:
    """How a recording was made.

    `started` is the time at which the run began (seconds since 1970), `watched` the directories that were listed before
    it, `unlisted` those below them whose contents were not, `descriptors` those that the command was given, each with
    the kind as which a trace adopts it, its path, and the family of a TCP socket; `admin` and `nnp` are what the first
    process had, `errata` the errata of Landlock that the kernel has fixed, the first as bit 0. `uid` and `groups` are
    those of the command, `uid` only if the command has no privilege that overrides file modes; `euid` is the user in
    any case.
    `ended` says that the tracer ended by itself, so that the log is complete; it is set after the run. `looks` says
    that calls which only look at an object and calls which send signals were traced, `readlink` that calls which read
    links were traced. `formats` are those that binfmt_misc had, None if they are not known; `hidepid` says that /proc
    is mounted with this option (proc(5)), which does not concern `hidepid_group`, and `taken` has the places of file
    systems that were taken from their servers during the run. `too_large` are directories that were to be listed and
    hold too many objects. `machine` tells the machine from others, "" if it is not known. `mounts` are those of the
    command's namespace when the run began, each with its place, its device, the directory of the file system that it
    shows, and its type. `protected_hardlinks` is what the kernel's setting of this name was. `confined` says that the
    command was under a layer from the beginning, `keeps_privileges` that changes of users leave it what they would not.
    `by` is the recorder: STRACE or WITNESS.
    """

    command: list[str]
    directory: str
    started: float
    admin: bool
    nnp: bool
    descriptors: dict[str, dict[str, Any]]
    watched: list[str] = field(default_factory=list)
    unlisted: list[str] = field(default_factory=list)
    strace: str = ""
    kernel: str = ""
    ended: bool = True
    errata: int = 0
    uid: int | None = None
    groups: list[int] = field(default_factory=list)
    looks: bool = False
    readlink: bool = False
    formats: list[dict[str, Any]] | None = None
    hidepid: bool = False
    hidepid_group: int | None = None
    euid: int | None = None
    taken: list[str] = field(default_factory=list)
    too_large: list[str] = field(default_factory=list)
    machine: str = ""
    by: str = STRACE
    mounts: list[list[str]] = field(default_factory=list)
    protected_hardlinks: bool = False
    confined: bool = False
    keeps_privileges: bool = False

    @property
    def untraced(self) -> tuple[str, ...]:
        """The kinds of calls that were not traced, of those that not every recording has."""
        named = ((LOOKING, self.looks), (READING_LINKS, self.readlink), (SIGNALS, self.looks))
        return tuple(name for name, traced in named if not traced)

    @property
    def registered(self) -> list[Format]:
        """The formats of files that are run by an interpreter, as far as they are known."""
        return [Format(**told) for told in self.formats or ()]

    @property
    def whiteouts(self) -> str:
        """The kind of object as which the kernel guards whiteouts; by erratum 4, they are character devices."""
        return "reg" if self.errata & 8 else "char"

    @property
    def user(self) -> User:
        """As whom the command asks for files; the privileges of a user that is not root may outlast an exec."""
        if self.keeps_privileges or (self.uid is None and self.euid != ROOT_USER):
            return NOBODY_KNOWN
        gid, *groups = self.groups or [ROOT_USER]
        return User(self.uid or ROOT_USER, gid, frozenset(groups), overrides=self.uid is None)

    def write(self, folder: Path) -> None:
        (folder / ABOUT).write_text(json.dumps(asdict(self), indent=2) + "\n", encoding="utf-8")


def read_about(folder: Path) -> About:
    """How the recording in a folder was made."""
    file = folder / ABOUT
    try:
        return About(**json.loads(file.read_text(encoding="utf-8")))
    except OSError as error:
        raise Problem(f"cannot read {file}: name a folder that 'landaudit-record run' made") from error
    except (ValueError, TypeError) as error:
        raise Problem(f"{file} is not what 'landaudit-record run' writes: {error}") from error


def policy_of(folder: Path) -> Path | None:
    """The policy under which a recording was made, if it was made with `run --policy`."""
    file = folder / POLICY
    try:
        return file if file.is_file() else None
    except OSError as error:
        raise Problem(f"cannot read {file}: {error.strerror}") from error


def given_descriptors() -> dict[str, dict[str, Any]]:
    """The descriptors that a command inherits, each with its kind and path, and the family of a TCP socket.

    `elsewhere` says that a file or directory is not what its path names: it is in another mount namespace, or another
    one has been put in its place. Of a ruleset nothing is known, so it has no family.
    """
    found: dict[str, dict[str, Any]] = {}
    for number in sorted(map(int, os.listdir("/proc/self/fd"))):
        try:
            if not os.get_inheritable(number):
                continue
            status = os.fstat(number)
            path = os.readlink(f"/proc/self/fd/{number}")
        except OSError:
            continue
        kinds = {stat.S_IFREG: "reg", stat.S_IFCHR: "device", stat.S_IFBLK: "device"}
        kind = kinds.get(stat.S_IFMT(status.st_mode), "other")
        given: dict[str, Any] = {"kind": kind, "path": path if path.startswith("/") else None}
        if given["path"] is not None and _is_elsewhere(path, status):
            given["elsewhere"] = True
        tcp = _tcp(number) if stat.S_ISSOCK(status.st_mode) else None
        found[str(number)] = given if path == RULESET else {**given, "tcp": tcp}
    return found


def _is_elsewhere(path: str, opened: os.stat_result) -> bool:
    """Whether an open file or directory that has a name is not at its path."""
    is_either = stat.S_ISREG(opened.st_mode) or stat.S_ISDIR(opened.st_mode)
    try:
        return is_either and opened.st_nlink > 0 and not os.path.samestat(os.lstat(path), opened)
    except OSError as error:
        return error.errno != errno.EACCES


def _tcp(number: int) -> int | None:
    """The family of a TCP socket over IPv4 or IPv6; None for any other socket."""
    with socket.socket(fileno=os.dup(number)) as one:
        is_tcp = one.type == socket.SOCK_STREAM and one.proto == socket.IPPROTO_TCP
        return int(one.family) if is_tcp and one.family in (socket.AF_INET, socket.AF_INET6) else None


def errata() -> int:
    """The errata of Landlock that this kernel has fixed, as bits; 0 if it does not say."""
    libc = ctypes.CDLL(None, use_errno=True)
    mended: int = libc.syscall(_SYS_LANDLOCK_CREATE_RULESET, None, 0, _LANDLOCK_CREATE_RULESET_ERRATA)
    return max(0, mended)


def hides_processes(mounts: Path = mounted.MOUNTS) -> tuple[bool, int | None]:
    """Whether /proc is mounted so that the directory of a process is not visible to all (proc(5), `hidepid`), and the
    group to which all are visible nevertheless, if there is one."""
    places = [mount.options for mount in mounted.mounts(mounts) if mount.place == "/proc"]
    options = dict(option.partition("=")[::2] for option in (places[-1] if places else ()))
    hides = options.get("hidepid", "off") not in ("0", "off")
    has_group = hides and options["hidepid"] not in ("4", "ptraceable")
    return hides, int(options.get("gid", ROOT_USER)) if has_group else None


def protects_hardlinks(setting: Path = Path("/proc/sys/fs/protected_hardlinks")) -> bool:
    """Whether the kernel lets nobody link what others own and what is not safe (proc_sys_fs(5))."""
    try:
        return setting.read_text(encoding="ascii").strip() == "1"
    except OSError:
        return False


def is_admin() -> bool:
    """Whether this process has CAP_SYS_ADMIN."""
    return bool(_capabilities() >> CAP_SYS_ADMIN & 1)


def user() -> int | None:
    """The number of this process's user, if the process has no capability; with one, file modes may not apply."""
    return None if _capabilities() else os.geteuid()


def keeps_privileges() -> bool:
    """Whether this process has secure bits, by which a change of user may leave privileges (capabilities(7))."""
    bits: int = ctypes.CDLL(None).prctl(_PR_GET_SECUREBITS, *[ctypes.c_ulong(0)] * 4)
    return bits != 0


def _capabilities() -> int:
    """The effective capabilities of this process, as bits (proc(5), capabilities(7))."""
    with open("/proc/self/status", encoding="ascii") as lines:
        effective = next(line for line in lines if line.startswith("CapEff:"))
    return int(effective.split()[1], 16)


@dataclass
class Watched:
    """Directories before a run: those that were listed, those with too many objects, those that can't be read, and
    those in which the kernel shows what it has, which changes by itself (proc(5), sysfs(5), cgroups(7))."""

    watched: list[str] = field(default_factory=list)
    too_large: list[str] = field(default_factory=list)
    unread: list[str] = field(default_factory=list)
    of_kernel: list[str] = field(default_factory=list)


def watch(folder: Path, directories: list[str], mounts: Path = mounted.MOUNTS) -> Watched:
    """Lists directories before a run."""
    listed: dict[str, Seen] = {}
    seen = Watched(of_kernel=mounted.of_kernel(mounted.mounts(mounts)))
    for directory in directories:
        found = disk.list_below(directory, MOST_WATCHED, seen.unread, seen.of_kernel)
        if found is None:
            seen.too_large.append(directory)
        else:
            listed.update(found)
            seen.watched.append(directory)
    jsonl.write(folder / BEFORE, (_line(path, one) for path, one in listed.items()))
    return seen


def _line(path: str, seen: Seen) -> jsonl.Record:
    line: jsonl.Record = {"path": path, "kind": seen.kind, "target": seen.target}
    return line if seen.inode is None else {**line, "inode": seen.inode}


def read_before(folder: Path) -> dict[str, Seen]:
    """What was in the watched directories before the run."""
    file = folder / BEFORE
    if not file.is_file():
        return {}
    lines = (line for _, line in jsonl.numbered(file))
    return {line["path"]: Seen(line["kind"], line.get("target"), inode=line.get("inode")) for line in lines}
