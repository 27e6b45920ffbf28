"""Keeps strace from asking file servers (FUSE) about files that lost their names while they are open.

strace may have stopped such a server, and would wait for it for ever. A small library (witness/quiet.c), which is
preloaded into strace alone, answers by what the kernel remembers. Where it is not installed, `freeing` ends the wait.
"""

from __future__ import annotations

import os
import shutil
from collections.abc import Mapping
from pathlib import Path

from . import witness

LIBRARY = "landaudit-quiet.so"
PRELOAD = "LD_PRELOAD"
#: What separates libraries in the variable (ld.so(8)): a path that has one can't be named.
_SEPARATORS = " :"


def find() -> Path | None:
    """The library that `make witness` built, or the one that is installed with the witness."""
    found = shutil.which(witness.PROGRAM)
    installed = [] if found is None else [Path(found).resolve().parents[1] / "lib" / "landaudit" / LIBRARY]
    return next((path for path in (witness.BUILT.with_name(LIBRARY), *installed) if path.is_file()), None)


def quiet(words: list[str], environment: Mapping[str, str]) -> tuple[list[str], dict[str, str]]:
    """A command line of strace and its environment, with the library in strace alone, if it is there."""
    library, before = find(), environment.get(PRELOAD)
    if library is None or any(separator in str(library) for separator in _SEPARATORS):
        return words, dict(environment)
    kept = PRELOAD if before is None else f"{PRELOAD}={before}"
    preloaded = f"{library}:{before}" if before else str(library)
    return [words[0], "-E", kept, *words[1:]], {**environment, PRELOAD: preloaded}
