"""The program landaudit: finds it and runs it. `reports` reads what it writes."""

from __future__ import annotations

import os
import shutil
import signal
import subprocess
import sys
from collections.abc import Sequence
from pathlib import Path

from ..common.problems import UNREADABLE, USAGE, WANTING, Problem
from ..common.wording import span
from . import landaudit_rules

MOST_WORKERS = 64
#: landaudit's large texts are given back to the system at once: glibc keeps what is below a threshold, which it raises
#: by itself unless it is set (mallopt(3)). An audit of a million records then takes 50 MB less.
_MEMORY = {"MALLOC_MMAP_THRESHOLD_": str(128 * 1024)}
BUILT = Path(__file__).resolve().parents[3] / "crates" / "landaudit" / "out" / "landaudit"


def find(named: str | None) -> Path:
    """The program that is named, else the one that `make landaudit` built, the installed one, or the one on PATH.

    An installed landaudit-record has landaudit beside it.
    """
    if named is not None:
        if os.access(named, os.X_OK) and Path(named).is_file():
            landaudit_rules.look_beside(Path(named))
            return Path(named)
        raise Problem(f"{named} is not a program: give --landaudit the path of landaudit", WANTING)
    for program in (BUILT, Path(sys.argv[0]).parent / "landaudit"):
        if os.access(program, os.X_OK) and program.is_file():
            return program
    found = shutil.which("landaudit")
    if found is None:
        raise Problem("landaudit is not built: run 'make landaudit', or give its path with --landaudit", WANTING)
    return Path(found)


def workers() -> int:
    """How many threads judge: as many as there are processors to use."""
    return min(len(os.sched_getaffinity(0)), MOST_WORKERS)


class Run:
    """A run of landaudit, which writes its report to a file while other work is done."""

    def __init__(self, command: Sequence[str], report: Path, about: str) -> None:
        self._about = about
        with open(report, "wb") as out:
            try:
                self._process = subprocess.Popen(
                    command, stdout=out, stderr=subprocess.PIPE, env={**_MEMORY, **os.environ}
                )
            except OSError as error:
                raise Problem(f"cannot run {command[0]}: {error.strerror}", WANTING) from error

    def status(self) -> int:
        """Waits for the end: 0, or 1 if some ABI refuses something. A fault of the run is a Problem."""
        try:
            _, said = self._process.communicate()
        except BaseException:
            self.stop()
            raise
        status = self._process.returncode
        if status in (0, 1):
            return status
        lines = said.decode(errors="replace").strip().splitlines() or [_ended(status)]
        others = ": use programs of one version" if status == USAGE else ""
        raise Problem(f"{lines[0]}{others} ({self._about})", status if status in (UNREADABLE, WANTING) else WANTING)

    def stop(self) -> None:
        """Ends it, if it has not ended."""
        with self._process:
            self._process.kill()


def _ended(status: int) -> str:
    """How a run of landaudit ended that printed no message."""
    if status == -signal.SIGKILL:
        return "landaudit was killed: is there enough memory?"
    by_signal = f"was ended by {signal.Signals(-status).name}" if status < 0 else f"ended with status {status}"
    return f"landaudit {by_signal}"


def start(
    program: Path,
    abis: range,
    tree: Path,
    trace: Path,
    report: Path,
    *,
    best_effort: bool,
    explain: bool = True,
    only_refused: bool = False,
    at_once: int = 1,
) -> Run:
    """Starts landaudit once for all ABIs of a range; its report, as JSON, is with explanations or without, and of all
    records or only of those that some ABI refuses. `at_once` is how many of these runs share the processors.

    At best effort rulesets lose the rights that an ABI does not have; else they are judged as they were recorded.
    """
    command = [str(program), "--abi", span(abis), "--json", *(["--best-effort"] if best_effort else [])]
    command += [*(["--explain"] if explain else []), *(["--refused"] if only_refused else [])]
    command += ["--workers", str(max(1, workers() // at_once)), str(tree), str(trace)]
    return Run(command, report, f"tree {tree}, trace {trace}")


def audit(
    program: Path,
    abis: range,
    tree: Path,
    trace: Path,
    report: Path,
    *,
    best_effort: bool,
    explain: bool = True,
    only_refused: bool = False,
) -> int:
    """Runs landaudit as `start` says, to its end."""
    return start(
        program, abis, tree, trace, report, best_effort=best_effort, explain=explain, only_refused=only_refused
    ).status()
