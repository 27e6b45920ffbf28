"""What two policies differ in that no path or port shows: mounts, their scopes, and the number of their layers.

A program that starts under a policy is under all of its layers. So all that counts is which scopes some layer has, and
how many of the layers that a process may have (landlock(7)) are left for the program's own.
"""

from __future__ import annotations

from dataclasses import dataclass

from .policies import MOST_LAYERS

Abis = frozenset[int]

_OF_SCOPE = {
    "abstract_unix_socket": "connections to abstract UNIX sockets of processes that it does not confine",
    "signal": "signals to processes that it does not confine",
}


@dataclass(frozen=True)
class MountChanges:
    """Changes of what is mounted, which each layer refuses that handles a right for files."""

    def __str__(self) -> str:
        return "mounts"


@dataclass(frozen=True)
class Unscoped:
    """What a scope refuses that only the other policy has."""

    scope: str

    def __str__(self) -> str:
        return f"{_OF_SCOPE[self.scope]} (no scope; from ABI 6 on)"


@dataclass(frozen=True)
class Room:
    """Layers that are left for the program's own, since a policy has fewer than the other one."""

    used: int
    other: int

    def __str__(self) -> str:
        more = self.other - self.used
        times = "1 more restriction" if more == 1 else f"{more} more restrictions"
        return (f"{times} of the program by itself: {self.used} of at most {MOST_LAYERS} layers are used, "
                f"and not {self.other}")


OfLayers = MountChanges | Unscoped | Room
