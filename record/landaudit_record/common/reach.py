"""Whether a process may reach another one: by the scopes of its layers (ABI 6), and by the rule on ptrace.

docs/SEMANTICS.md, "Other processes", defines it: a process or a socket is under a layer or outside of it. A layer is
one object here for each restriction, so that two layers with the same rules are two, and a fork hands on the same ones.
"""

from __future__ import annotations

from collections.abc import Sequence
from dataclasses import dataclass

from .rights import ABI_OF_SCOPES, FS, NET, Rights

#: What is asked about: a signal, a connection to an abstract UNIX socket, and a look into a process.
SIGNAL, ABSTRACT, PTRACE = "signal", "abstract_unix_socket", "ptrace"


@dataclass(frozen=True, eq=False)
class ProcessLayer:
    """A layer that a process has put on itself: the rights that its ruleset handles, and its scopes.

    `policy` is its number in the tried policy, None if it is the program's own. At best effort (`drops`) its ruleset
    lost what an ABI does not know, and else there was none.
    """

    rights: Rights
    scoped: Sequence[str] = ()
    policy: int | None = None
    drops: bool = True

    def handles(self, abi: int) -> bool:
        """Whether it is a layer by its rights."""
        known = FS.known(abi) | NET.known(abi)
        return bool(self.rights & known) and (self._can_be_made() if self.drops else self.rights <= known)

    def is_there(self, abi: int) -> bool:
        """Whether there is such a layer at an ABI."""
        return self.handles(abi) or (abi >= ABI_OF_SCOPES and bool(self.scoped) and not self.rights)

    def is_numbered(self, abi: int) -> bool:
        """Whether landaudit counts it: one of the program's own may have lost all of its rights, and is one then."""
        return self.handles(abi) or (self.drops and self.policy is None and bool(self.rights) and self._can_be_made())

    def _can_be_made(self) -> bool:
        """Whether some ABI knows all of its rights: best effort drops no others."""
        return self.rights <= FS.since.keys() | NET.since.keys()

    def keeps(self, asked: str, abi: int) -> bool:
        """Whether it keeps what is outside of it out of reach."""
        return self.is_there(abi) and (asked == PTRACE or (abi >= ABI_OF_SCOPES and asked in self.scoped))


#: The layers of a process, the oldest first.
Domain = tuple[ProcessLayer, ...]


def refusing(asked: str, caller: Domain, others: Sequence[Domain], abi: int) -> Domain:
    """The layers of a process by which it may not reach processes or sockets under other layers: those that keep it in
    and that one of these is not under. Nothing is under a layer that is outside of the recording.
    """
    return tuple(layer for layer in caller
                 if layer.keeps(asked, abi) and any(layer not in other for other in others))
