"""Standard output and standard error, where they are closed, full, or can't encode a name."""

from __future__ import annotations

import contextlib
import io
import os
import sys
from collections.abc import Iterator

from .problems import WANTING, Problem


def make_whole() -> None:
    """Gives the program streams in place of closed ones, and lets streams escape what their encoding lacks.

    Python has None for a stream that is closed when it starts. The first file that is opened would then get its number,
    and the output of a command that is started.
    """
    for name, how in (("stdout", os.O_RDONLY), ("stderr", os.O_WRONLY)):
        stream = getattr(sys, name)
        if stream is None:
            setattr(sys, name, open(os.open(os.devnull, how), "w", encoding="utf-8"))
        elif isinstance(stream, io.TextIOWrapper) and stream.errors == "strict":
            stream.reconfigure(errors="backslashreplace")


@contextlib.contextmanager
def written() -> Iterator[None]:
    """Sees to it that all that is printed is written: a Problem says that it can't be, and why."""
    try:
        yield
    finally:
        try:
            sys.stdout.flush()
        except BrokenPipeError:
            raise
        except OSError as error:
            give_up()
            raise Problem(f"standard output: {error.strerror}", WANTING) from error


def give_up() -> None:
    """Drops what could not be written to standard output: Python would try again when it ends."""
    with contextlib.suppress(OSError, ValueError):
        os.dup2(os.open(os.devnull, os.O_WRONLY), sys.stdout.fileno())
