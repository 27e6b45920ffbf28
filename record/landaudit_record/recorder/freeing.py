"""Frees strace where it waits for a file server (FUSE) that it has stopped itself.

strace looks at a file without a name that a process has open, to see whether its name is gone. If a traced process
serves the file system, strace may have stopped it, and both wait for ever: no signal ends either of them. Only the end
of the connection between the kernel and the server does (Documentation/filesystems/fuse.rst in the kernel's source).
"""

from __future__ import annotations

import ctypes
import errno
import os
import signal
import sys
import threading
from collections.abc import Callable
from pathlib import Path
from typing import Self

from .. import RECORDER
from .mounted import Mount, mounts, served

#: The function of the kernel in which a process waits for a file server (fs/fuse/dev.c).
WAITS = "request_wait_answer"
CONNECTIONS = Path("/sys/fs/fuse/connections")
MNT_FORCE = 1
ASK = "ask root to end the connection (umount --force, or /sys/fs/fuse/connections/N/abort)"
#: How long strace may wait for a server without a break, and the time between two looks at it, in seconds.
PATIENCE = 5.0
EVERY = 1.0


def take_away(mount: Mount) -> bool:
    """Ends the connection to the server of a mount, and says whether that could be done."""
    try:
        (CONNECTIONS / mount.device.partition(":")[2] / "abort").write_text("1", encoding="ascii")
    except OSError:
        return _end_by_unmounting(mount.place)
    return True


def _end_by_unmounting(place: str) -> bool:
    """Ends a connection as umount(2) does with MNT_FORCE, before it looks whether the file system is still used."""
    failed = ctypes.CDLL(None, use_errno=True).umount2(os.fsencode(place), MNT_FORCE)
    return not failed or ctypes.get_errno() == errno.EBUSY


def served_to(pid: int | str) -> set[Mount]:
    """The mounts of a process whose file systems have a server."""
    try:
        return served(mounts(Path(f"/proc/{pid}/mountinfo")))
    except OSError:
        return set()


class Freeing:
    """Looks at the tracer now and then, and takes away what a traced process serves if the tracer waits for it.

    A file system that was mounted before the run has a server that is not traced, so it is left alone. `taken` has the
    places of those that were taken away.
    """

    def __init__(self, tracer: int, traced: Callable[[], list[int]]) -> None:
        self.taken: list[str] = []
        self._tracer = tracer
        self._traced = traced
        self._told: set[Mount] = set()
        self._before = served_to("self")
        self._over = threading.Event()
        self._thread = threading.Thread(target=self._look, daemon=True)

    def __enter__(self) -> Self:
        self._thread.start()
        return self

    def __exit__(self, *_: object) -> None:
        self._over.set()
        self._thread.join()

    def _look(self) -> None:
        signal.pthread_sigmask(signal.SIG_BLOCK, signal.valid_signals())
        waits, since = None, 0.0
        while not self._over.wait(EVERY):
            now = self._waiting()
            since = since + EVERY if now is not None and now == waits else 0.0
            waits = now
            if since >= PATIENCE:
                self._take_away()
                since = 0.0

    def _waiting(self) -> str | None:
        """How often the tracer has waited before, if it waits for a file server now."""
        process = Path(f"/proc/{self._tracer}")
        try:
            if (process / "wchan").read_text(encoding="ascii") != WAITS:
                return None
            lines = (process / "status").read_text(encoding="utf-8", errors="replace").splitlines()
        except OSError:
            return None
        return next((line for line in lines if line.startswith("voluntary_ctxt_switches")), None)

    def _take_away(self) -> None:
        new = set().union(*map(served_to, self._traced())) - self._before
        for mount in sorted(new, key=lambda mount: mount.place):
            if take_away(mount):
                self.taken.append(mount.place)
            elif mount not in self._told:
                self._told.add(mount)
                print(f"{RECORDER}: strace waits for the file server of {mount.place}: {ASK}", file=sys.stderr)
