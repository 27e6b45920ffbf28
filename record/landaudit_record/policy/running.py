"""What execve(2) opens to run a file of this machine: the file, the programs that run it, and the loader."""

from __future__ import annotations

import os
from collections.abc import Iterator
from dataclasses import dataclass

from ..common import resolving
from ..common.resolving import DISK, LinkLoop
from ..recorder import disk, formats
from ..recorder.disk import MOST_INTERPRETERS
from ..recorder.formats import Format


@dataclass(frozen=True)
class Running:
    """The files about which the kernel asks Landlock, the first of which is run; and why there may be others, if there
    may be.
    """

    files: tuple[str, ...]
    unknown: str | None = None


class _NotKnown(Exception):
    """What runs a file is not known."""


def running(path: str, called: str, registered: list[Format] | None) -> Running:
    """What the kernel opens to run what is at a path without links, by the name by which it is called.

    `registered` are the formats of binfmt_misc, None if they are not known.
    """
    files = [path]
    try:
        files.extend(_interpreters(path, called, registered))
    except _NotKnown as reason:
        return Running(tuple(files), str(reason))
    return Running(tuple(files))


def _interpreters(path: str, called: str, registered: list[Format] | None) -> Iterator[str]:
    """What runs a file, one after another: a program of a script may be a script itself."""
    for _ in range(MOST_INTERPRETERS + 1):
        begins = _beginning(path)
        of = formats.first_of(registered or (), called, begins)
        if of is None and disk.is_foreign(begins):
            if registered is None:
                raise _NotKnown(f"{path} is run by a format of binfmt_misc or not at all, and they can't be read here")
            return
        named = disk.interpreter(path) if of is None else of.interpreter
        if named is None:
            return
        path, called = _led_to(named, path), named
        if of is None or not of.opened:
            yield path
        if of is None and not begins.startswith(b"#!"):
            return
    raise _NotKnown(f"{path} is run by more programs than the kernel follows (ELOOP)")


def _beginning(path: str) -> bytes:
    """How a file that is run begins."""
    begins = disk.head(path) if os.path.isfile(path) else b""
    if not begins and not (os.path.isfile(path) and os.access(path, os.R_OK)):
        raise _NotKnown(f"{path} can't be read on this machine")
    return begins


def _led_to(named: str, by: str) -> str:
    """Where the path of an interpreter leads that a file or its format names."""
    if not named.startswith("/"):
        raise _NotKnown(f"{by} names {named}, which is looked up from the working directory of the caller")
    try:
        led = resolving.walked(named, DISK)
    except LinkLoop as loop:
        raise _NotKnown(f"{by} names {named}, which is a loop of symbolic links") from loop
    if not led.is_sure or led.only_directory or not os.path.isfile(led.path):
        raise _NotKnown(f"{by} names {named}, which is no file that is known on this machine")
    return led.path
