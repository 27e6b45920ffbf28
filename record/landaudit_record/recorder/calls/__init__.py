"""What each system call becomes in the trace: one function for each, by its name."""

from __future__ import annotations

from collections.abc import Mapping

from ..scene import Handler
from . import descriptors, files, inexpressible, landlock, mounts, moves, opening, programs, ptrace, scopes, users

HANDLERS: Mapping[str, Handler] = {
    **inexpressible.HANDLERS,
    **descriptors.HANDLERS,
    **files.HANDLERS,
    **landlock.HANDLERS,
    **mounts.HANDLERS,
    **moves.HANDLERS,
    **opening.HANDLERS,
    **ptrace.HANDLERS,
    **programs.HANDLERS,
    **scopes.HANDLERS,
    **users.HANDLERS,
    **{name: mounts.from_a_place(opening.HANDLERS[name], base) for name, (base, _) in opening.GIVEN.items()},
}
