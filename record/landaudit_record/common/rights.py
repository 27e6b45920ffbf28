"""Landlock's access rights: their names, the ABI that introduced each, and named groups of rights."""

from __future__ import annotations

from collections.abc import Callable, Iterable, Mapping
from dataclasses import dataclass
from typing import NamedTuple


class Version(NamedTuple):
    """An ABI: the Linux that brought it, a release of a distribution that has it (or none), and what it added."""

    linux: str
    release: str
    adds: str


#: Landlock's ABIs (landlock(7)); docs/QUESTIONS.md has the same table.
ABIS: Mapping[int, Version] = {
    1: Version("5.13", "Ubuntu 22.04", "rights for files"),
    2: Version("5.19", "Debian 12", "refer"),
    3: Version("6.2", "", "truncate"),
    4: Version("6.7", "Ubuntu 24.04", "TCP ports"),
    5: Version("6.10", "", "ioctl_dev"),
    6: Version("6.12", "Debian 13", "scopes"),
    7: Version("6.15", "", "logging"),
}
#: The oldest and the latest ABI that are known here, and the newest that adds a right, which is the last that landaudit
#: knows: its answers hold for later ones, too.
OLDEST_ABI, LATEST_ABI = min(ABIS), max(ABIS)
NEWEST_ABI = 5
#: The first ABIs that have ports and scopes, and the first whose kernels log what Landlock refuses.
ABI_OF_PORTS, ABI_OF_SCOPES, ABI_OF_LOG = 4, 6, 7

Rights = frozenset[str]
NONE: Rights = frozenset()
#: The right that is denied on all objects as soon as a layer handles a right for files.
REFER = "refer"
#: What a layer can keep from the processes outside it (ABI 6), in the order of the kernel's bits.
SCOPES = ("abstract_unix_socket", "signal")


def alone(abi: int) -> range:
    """The range that is one ABI."""
    return range(abi, abi + 1)


def steps(abis: range, are_alike: Callable[[int, int], bool]) -> list[range]:
    """The ABIs of a range in steps, the oldest first: in a step, each is alike to the newest."""
    found = [alone(abis[-1])]
    for abi in reversed(abis[:-1]):
        if are_alike(abi, found[0][-1]):
            found[0] = range(abi, found[0].stop)
        else:
            found.insert(0, alone(abi))
    return found


def judged_as(abi: int) -> int:
    """The ABI whose rights an ABI has: one that adds none is judged as the newest that does."""
    return min(abi, NEWEST_ABI)


def judged(abis: range) -> range:
    """The ABIs at which landaudit is asked for a range."""
    return range(judged_as(abis[0]), judged_as(abis[-1]) + 1)


def versions(abis: Iterable[int] = ABIS) -> str:
    """ABIs with the kernels and releases that have them, for a person."""
    each = ((abi, ABIS[abi]) for abi in abis)
    return ", ".join(f"{abi}: Linux {of.linux}{f' ({of.release})' if of.release else ''}" for abi, of in each)


@dataclass(frozen=True)
class Family:
    """The rights for files, or those for the network.

    `since` has each right's first ABI, in the order of the kernel's bits;
    `groups` has sets of rights with one name, as libraries have them.
    """

    what: str
    since: Mapping[str, int]
    groups: Mapping[str, Rights]

    def known(self, abi: int) -> Rights:
        """The rights that an ABI knows."""
        return frozenset(right for right, first in self.since.items() if first <= abi)

    def bit(self, right: str) -> int:
        """The number of the bit that the kernel has for a right, from 0."""
        return list(self.since).index(right)

    def words(self) -> list[str]:
        """Every name that a policy may use: the groups, then the rights."""
        return [*self.groups, *(right for right in self.since if right not in self.groups)]

    def ordered(self, rights: Iterable[str]) -> list[str]:
        """Rights in the order of the kernel's bits."""
        wanted = set(rights)
        return [right for right in self.since if right in wanted]


_FS_SINCE = {
    "execute": 1,
    "write_file": 1,
    "read_file": 1,
    "read_dir": 1,
    "remove_dir": 1,
    "remove_file": 1,
    "make_char": 1,
    "make_dir": 1,
    "make_reg": 1,
    "make_sock": 1,
    "make_fifo": 1,
    "make_block": 1,
    "make_sym": 1,
    "refer": 2,
    "truncate": 3,
    "ioctl_dev": 5,
}
# Rights of newer ABIs, which nothing here judges.
NEWER = ("resolve_unix",)
_NET_SINCE = {"bind_tcp": 4, "connect_tcp": 4}
_READ = frozenset({"read_file", "read_dir"})
_EXECUTE = frozenset({"execute"})

FS = Family(
    what="for files",
    since=_FS_SINCE,
    groups={
        "all": frozenset(_FS_SINCE),
        "read": _READ,
        "write": frozenset(_FS_SINCE) - _READ - _EXECUTE,
        "execute": _EXECUTE,
    },
)
NET = Family(what="for TCP ports", since=_NET_SINCE, groups={"all": frozenset(_NET_SINCE)})

# The rights that apply to objects other than directories.
FILE_RIGHTS: Rights = frozenset({"execute", "write_file", "read_file", "truncate", "ioctl_dev"})
