"""Records by the witness alone: a command that is started, or what runs already."""

from __future__ import annotations

import contextlib
import os
import signal
from collections.abc import Iterator
from contextlib import contextmanager
from dataclasses import dataclass
from pathlib import Path

from ..common.stopping import SIGNALS
from . import tracing
from .tracing import Outcome
from .witness import Witness


@dataclass(frozen=True)
class Running:
    """What runs already and is recorded: processes with their descendants, and the processes of a cgroup."""

    processes: tuple[int, ...] = ()
    cgroup: Path | None = None

    @property
    def options(self) -> list[str]:
        """The options of the witness."""
        of_cgroup = [] if self.cgroup is None else ["--cgroup", str(self.cgroup)]
        return [word for process in self.processes for word in ("--pid", str(process))] + of_cgroup

    def is_elsewhere(self) -> bool:
        """Whether a process is in another mount namespace than this one, where paths lead elsewhere."""
        processes = list(self.processes)
        for file in self.cgroup.rglob("cgroup.procs") if self.cgroup is not None else ():
            with contextlib.suppress(OSError):
                processes += map(int, file.read_text(encoding="ascii").split())
        own = _namespace(os.getpid())
        return any(_namespace(process) not in (None, own) for process in processes)


def _namespace(process: int) -> str | None:
    """The mount namespace of a process; None if it has ended."""
    try:
        return os.readlink(f"/proc/{process}/ns/mnt")
    except OSError:
        return None


def run(listening: Witness, command: list[str]) -> Outcome:
    """Runs a command that a witness hears, and waits for the end of all that it starts.

    Signals go where `tracing.run` sends them.
    """
    tracing.adopt_orphans()
    passing = tracing.SignalForwarder()
    with passing.installed():
        first = os.posix_spawnp(command[0], command, os.environ)
        passing.reached = lambda: _started(listening)
        status = _wait(listening, first)
    return Outcome(status if status >= 0 else 128 - status, True)


def _started(listening: Witness) -> list[int]:
    """The processes that this one started, and what they left to it."""
    return [process for process in tracing.processes("PPid", os.getpid()) if process != listening.pid]


def _wait(listening: Witness, first: int) -> int:
    """Waits for the end of all that was started; returns the status of the first process."""
    status = 0
    while _started(listening):
        process, ended = os.waitpid(-1, 0)
        if process == first:
            status = os.waitstatus_to_exitcode(ended)
        elif process == listening.pid:
            listening.has_ended(os.waitstatus_to_exitcode(ended))
    return status


def listen(listening: Witness, seconds: float | None) -> Outcome:
    """Waits until what a witness hears has ended, for so long, or for a signal that asks for the end."""
    with _ending(listening):
        listening.wait(seconds)
    return Outcome(0, True)


@contextmanager
def _ending(listening: Witness) -> Iterator[None]:
    """Ends a witness at a signal that asks for the end."""
    before = {number: signal.signal(number, lambda *_: listening.stop()) for number in (signal.SIGINT, *SIGNALS)}
    try:
        yield
    finally:
        for number, handler in before.items():
            signal.signal(number, handler)
