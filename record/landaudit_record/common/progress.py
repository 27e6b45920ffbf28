"""Shows the progress of a long task, only on a terminal."""

from __future__ import annotations

import sys
import time
from types import TracebackType
from typing import Self

EVERY = 0.5


class Progress:
    """A line on standard error that is overwritten: a count, or the name of a task without one."""

    def __init__(self, what: str = "") -> None:
        self._what = what
        self._shows = sys.stderr.isatty()
        self._next = time.monotonic() + EVERY
        self._shown = False

    def __enter__(self) -> Self:
        return self

    def show(self, count: int, what: str = "") -> None:
        """Shows the count, if it was not shown for a while."""
        if self._shows and time.monotonic() >= self._next:
            self._next = time.monotonic() + EVERY
            self._write(f"{count:,} {what or self._what}")

    def say(self, text: str) -> None:
        """Shows the current task, until something else is shown."""
        if self._shows:
            self._write(text)

    def _write(self, text: str) -> None:
        self._shown = True
        print(f"\r\033[K{text}", end="", file=sys.stderr, flush=True)

    def __exit__(self, kind: type[BaseException] | None, error: BaseException | None, at: TracebackType | None) -> None:
        if self._shown:
            print("\r\033[K", end="", file=sys.stderr, flush=True)
