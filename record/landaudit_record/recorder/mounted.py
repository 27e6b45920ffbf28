"""What is mounted (proc(5), mountinfo), and which paths lead to one object because a file system is mounted twice."""

from __future__ import annotations

from collections import Counter
from collections.abc import Iterable, Sequence
from contextlib import suppress
from dataclasses import dataclass, replace
from pathlib import Path

from .values import unescaped

PROC = "/proc"
MOUNTS = Path("/proc/self/mountinfo")
#: File systems in which the kernel shows what it has.
OF_KERNEL = frozenset(
    """
    autofs binfmt_misc bpf cgroup cgroup2 configfs debugfs efivarfs fusectl hugetlbfs mqueue nsfs proc pstore rpc_pipefs
    securityfs selinuxfs sysfs tracefs
    """.split()
)
#: Those of them in which no open makes a file: what is there is made by the kernel alone, or by mkdir(2).
WITHOUT_MAKING = OF_KERNEL & frozenset("cgroup cgroup2 configfs debugfs proc securityfs sysfs tracefs".split())
#: The file system that shows several directories as one.
MERGED = "overlay"
#: The type that one has here if it keeps an index of hard links (index=on), with which a file's names are one object,
#: and where its module says whether it does if the options of a mount say nothing.
INDEXED = "overlay.index"
INDEX_DEFAULT = Path("/sys/module/overlay/parameters/index")
#: File systems that a process serves; the type may say which (`fuse.sshfs`).
SERVED = ("fuse", "fuseblk")


@dataclass(frozen=True, slots=True)
class Mount:
    """A mount: where it is, the number of its file system's device, the directory of the file system that is mounted,
    the file system's type, and its options; its number, and that of the mount that it is in. If it is `hidden`, another
    one is mounted over it, or over a directory on the way to it, and no path leads to it."""

    place: str
    device: str
    root: str
    kind: str
    options: tuple[str, ...]
    number: str = ""
    within: str = ""
    hidden: bool = False


def mounts(file: Path = MOUNTS, index_default: Path = INDEX_DEFAULT) -> list[Mount]:
    """All mounts of a process, those of this one if no file of another one is named."""
    with open(file, encoding="latin-1") as lines:
        found = [_mount(line.split(" ")) for line in lines.read().split("\n") if " - " in line]
    hidden = _hidden(found)
    found = [replace(one, hidden=one.number in hidden) for one in found]
    return [replace(one, kind=INDEXED) if _has_index(one, index_default) else one for one in found]


def shown() -> list[list[str]]:
    """The mounts of this process to which paths lead, as `MountPlaces` takes them."""
    return [[it.place, it.device, it.root, it.kind] for it in mounts() if not it.hidden]


def _hidden(found: Sequence[Mount]) -> set[str]:
    """The numbers of the mounts to which no path leads: those on a directory below one that another mount of the same
    parent is over, with all that is mounted in them, and those at whose root another one is mounted."""
    inside: dict[str, list[Mount]] = {}
    for mount in found:
        inside.setdefault(mount.within, []).append(mount)
    hidden: set[str] = set()
    left: list[Mount] = []
    for beside in inside.values():
        over = tuple(f"{one.place}/" for one in beside if one.place != "/")
        left += (one for one in beside if one.place.startswith(over))
    while left:
        mount = left.pop()
        if mount.number not in hidden:
            hidden.add(mount.number)
            left += inside.get(mount.number, ())
    places = {mount.number: mount.place for mount in found}
    return hidden | {mount.within for mount in found if places.get(mount.within) == mount.place}


def _mount(fields: list[str]) -> Mount:
    """A line's mount; the escapes of a name stand for its bytes."""
    root, place = (_name(field) for field in fields[3:5])
    kind, options = fields[fields.index("-") + 1], tuple(fields[-1].split(","))
    return Mount(place, fields[2], root, kind, options, number=fields[0], within=fields[1])


def _has_index(mount: Mount, default: Path) -> bool:
    """Whether a mount is an overlayfs with an index; its options say so only where the default is another one."""
    if mount.kind != MERGED or "index=off" in mount.options:
        return False
    with suppress(OSError):
        return "index=on" in mount.options or default.read_text(encoding="ascii").strip() == "Y"
    return False


def _name(field: str) -> str:
    return unescaped(field if "\\" in field else field.encode("latin-1").decode("utf-8", "surrogateescape"))


def of_kernel(among: Iterable[Mount]) -> list[str]:
    """Where the kernel shows what it has."""
    return [mount.place for mount in among if mount.kind in OF_KERNEL]


def served(among: Iterable[Mount]) -> set[Mount]:
    """The mounts of file systems that a process serves."""
    return {mount for mount in among if _is_served(mount.kind)}


def _is_served(kind: str) -> bool:
    return kind.partition(".")[0] in SERVED


class MountPlaces:
    """The mounts of a run when it began, each with its place, its device, what of the file system it shows, its type.

    `procs` are the places of proc(5) file systems beside /proc; `are_several` says that a file system is mounted at
    several places.
    """

    def __init__(self, mounts: Iterable[Sequence[str]] = ()) -> None:
        of_type = {place: (device, root, kind) for place, device, root, kind in mounts}
        self._at = {place: (device, root) for place, (device, root, _) in of_type.items()}
        self._split = {place for place, (_, _, kind) in of_type.items() if kind == MERGED or _is_served(kind)}
        self._fixed = {place for place, (_, _, kind) in of_type.items() if kind in WITHOUT_MAKING}
        self.procs = tuple(place for place, (_, _, kind) in of_type.items() if kind == "proc" and place != PROC)
        several = Counter(device for device, _ in self._at.values())
        self._several = {device for device, number in several.items() if number > 1}
        self.are_several = bool(self._several)

    def splits_links(self, path: str) -> bool:
        """Whether the names of a file are, for all that is known, objects apart though they have one inode's number.

        So they are on an overlayfs without an index, and on one that a process serves by paths (seen on Linux 6.18).
        """
        return bool(self._split) and self._of(path) in self._split

    def makes_files(self, path: str) -> bool:
        """Whether an open may make a file at a path (open(2), O_CREAT)."""
        return not self._fixed or self._of(path) not in self._fixed

    def _of(self, path: str) -> str:
        """The place of the mount that a path is in."""
        while path not in self._at and path != "/":
            path = path.rpartition("/")[0] or "/"
        return path

    def in_proc(self, path: str) -> str:
        """A path in a proc(5) file system by the name that it has in /proc; any other path as it is."""
        place = next((place for place in self.procs if path.startswith(f"{place}/")), None)
        return path if place is None else PROC + path[len(place) :]

    def is_in_further_proc(self, names: Sequence[str]) -> bool:
        """Whether the names of a directory lead into a proc(5) file system that is not the one at /proc."""
        path = f"/{'/'.join(names)}/" if self.procs else ""
        return any(path.startswith(f"{place}/") for place in self.procs)

    def are_one(self, one: str, other: str) -> bool | None:
        """Whether two paths are in one mount; None if the mounts are not known."""
        return self._of(one) == self._of(other) if self._at else None

    def others(self, path: str) -> list[str]:
        """The other paths of an object, which it has by other mounts of its file system (mount(2), MS_BIND).

        A directory that does not show the same at all of them, because other mounts are below it, has none.
        """
        found = self.shown_at(path)
        return found if found and len({self._below(one) for one in (path, *found)}) == 1 else []

    def _below(self, path: str) -> frozenset[tuple[str, tuple[str, str]]]:
        """What is mounted below a path, each with the rest of its place."""
        top = f"{path.rstrip('/')}/"
        return frozenset((at[len(top) :], what) for at, what in self._at.items() if at.startswith(top) and at != "/")

    def entry(self, path: str) -> tuple[str, str]:
        """The device of a path's file system and the path there, which are one wherever mounts show it."""
        here = self._of(path)
        device, root = self._at.get(here, ("", ""))
        return device, _beneath(root, _inside(here, path) or "")

    def shown_at(self, path: str) -> list[str]:
        """All other paths of an object by mounts, whatever is mounted below it there: a rule on it is on each."""
        if not self._several:
            return []
        here, (device, inner) = self._of(path), self.entry(path)
        if device not in self._several:
            return []
        found: list[str] = []
        for place, (on, shown) in self._at.items():
            rest = _inside(shown, inner) if on == device and place != here else None
            if rest is not None and self._of(_beneath(place, rest)) == place:
                found.append(_beneath(place, rest))
        return found

    def shown_beneath(self, path: str) -> list[str]:
        """All other paths by mounts at which an object is, or some of what is beneath it."""
        found: list[str] = []
        for top in (path, *(place for place in self._at if _inside(path, place))) if self._several else ():
            found += self.shown_at(top)
            here, (device, inner) = self._of(top), self.entry(top)
            found += (place for place, (on, shown) in self._at.items()
                      if on == device and place != here and _inside(inner, shown))
        return list(dict.fromkeys(found))

    def pairs(self) -> list[tuple[str, str]]:
        """Pairs of paths at which two mounts of a file system show one object, each pair with all that is beneath."""
        found: list[tuple[str, str]] = []
        for one, (device, root) in self._at.items() if self._several else ():
            for other, (on, shown) in self._at.items():
                rest = _inside(shown, root) if on == device and other != one else None
                if rest is not None and self._of(_beneath(other, rest)) == other:
                    found.append((one, _beneath(other, rest)))
        return found


def _inside(top: str, path: str) -> str | None:
    """The rest of a path below a directory; None if it is not there."""
    if top == "/" or path == top or path.startswith(f"{top}/"):
        return path[len(top) :].strip("/")
    return None


def _beneath(top: str, rest: str) -> str:
    return f"{top.rstrip('/')}/{rest}" if rest else top
