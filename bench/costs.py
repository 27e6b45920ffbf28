"""What a run of a program takes: for the scripts beside this one."""

from __future__ import annotations

import os
import subprocess
import sys
import time
from collections.abc import Sequence
from dataclasses import dataclass
from pathlib import Path
from typing import IO

KIB = 1024


@dataclass(frozen=True)
class Cost:
    """Seconds on the clock, seconds on all processors, and the most memory in MiB."""

    seconds: float
    processor_seconds: float
    peak: float

    def least(self, other: Cost) -> Cost:
        """The least of both, each figure by itself."""
        return Cost(
            min(self.seconds, other.seconds),
            min(self.processor_seconds, other.processor_seconds),
            min(self.peak, other.peak),
        )


def audit(program: Path, options: Sequence[str], files: Path, report: Path) -> Cost:
    """Audits the trace of a folder once, with these options, and writes the report. The system takes the memory of this
    process for the program's until the program begins, so a peak says nothing if this process has more."""
    words = [str(program), *options, str(files / "tree.jsonl"), str(files / "trace.jsonl")]
    with open(report, "wb") as out:
        return run(words, out, (0, 1))


def run(words: Sequence[str], out: IO[bytes] | int, statuses: Sequence[int], folder: Path | None = None) -> Cost:
    """Runs a program once, which must end with one of these statuses."""
    began = time.monotonic()
    child = subprocess.Popen(words, stdout=out, cwd=folder)
    _, status, usage = os.wait4(child.pid, 0)
    seconds = time.monotonic() - began
    child.returncode = os.waitstatus_to_exitcode(status)
    if child.returncode not in statuses:
        sys.exit(f"{words[0]} ended with status {child.returncode}")
    return Cost(seconds, usage.ru_utime + usage.ru_stime, usage.ru_maxrss / KIB)
