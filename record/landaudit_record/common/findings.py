"""What a command found, as values, and where in the file of a policy or of cases each finding belongs.

The formats of this folder print these values; the text for a person on a terminal is not made of them.
"""

from __future__ import annotations

import hashlib
import os
from collections.abc import Sequence
from dataclasses import dataclass
from enum import Enum
from functools import cached_property
from pathlib import Path

from . import outline
from .documents import text_of
from .numbered import Numbered
from .wording import counted


class Level(Enum):
    """How much a finding matters: each error and each warning makes the exit status another one than 0."""

    ERROR = "error"
    WARNING = "warning"
    NOTE = "note"
    PASSED = "passed"


@dataclass(frozen=True)
class FindingKind:
    """A kind of findings: its name, which stays from version to version, and what it means, in a sentence."""

    name: str
    about: str


@dataclass(frozen=True)
class Position:
    """A place in a file: a line, and the column at which something begins and the one after its end, from 1.

    Without a line it is the whole file.
    """

    file: Path
    line: int | None = None
    column: int = 1
    end: int | None = None

    @property
    def name(self) -> str:
        """The file as seen from the working directory, if it is below that, and else its whole path."""
        name = os.path.normpath(self.file)
        here = os.path.relpath(name)
        return name if here.startswith("..") else here


@dataclass(frozen=True)
class Finding:
    """One finding: what it is about, what is said of that, and how many calls it stands for, if it is about calls.

    `identity` are the values that tell it from others of its kind; they stay when lines of the file move.
    """

    kind: FindingKind
    level: Level
    subject: str
    text: str
    identity: tuple[str, ...]
    spot: Position | None = None
    times: int | None = None

    @property
    def message(self) -> str:
        """The subject and the text, and how many calls there are if they are several."""
        times = f" ({counted(self.times, 'time')})" if self.times and self.times > 1 else ""
        return (f"{self.subject}: {self.text}" if self.text else self.subject) + times

    @property
    def fingerprint(self) -> str:
        """A short name for the kind and the identity."""
        whole = "\0".join((self.kind.name, *self.identity))
        return hashlib.sha256(whole.encode("utf-8", "surrogatepass")).hexdigest()[:16]


@dataclass(frozen=True)
class Report:
    """The findings of a command: its words, what it was about, a sentence on all of it, and what holds if it finds
    nothing. `groups` are the same in fewer findings, where there would be too many to be read; `remedy` is a command
    that says what would help.
    """

    command: str
    about: str
    summary: str
    holds: str
    findings: Sequence[Finding]
    groups: Sequence[Finding] | None = None
    remedy: Sequence[str] = ()

    @property
    def open(self) -> list[Finding]:
        """The findings that are no passed tests, the gravest first."""
        return _open(self.findings)

    @property
    def few(self) -> list[Finding]:
        """The same in groups."""
        return _open(self.findings if self.groups is None else self.groups)


def _open(findings: Sequence[Finding]) -> list[Finding]:
    order = list(Level)
    return sorted((one for one in findings if one.level is not Level.PASSED), key=lambda one: order.index(one.level))


class DocumentPlaces:
    """Where the parts of a document are in its file; of what is no regular file, nothing more is known."""

    def __init__(self, file: Path) -> None:
        self.file = file

    @cached_property
    def _outline(self) -> outline.Outline:
        return outline.of(text_of(self.file)) if self.file.is_file() else outline.Outline("")

    def at(self, *path: str | int) -> Position:
        """What some steps lead to, or the closest thing that contains it: from its beginning to the end of its line."""
        found = self._outline.line_and_column(path, of_key=False)
        if found is None:
            return Position(self.file)
        line, column = found
        text = self._outline.text.split("\n")[line - 1]
        return Position(self.file, line, column, len(text.rstrip()) + 1)

    def layer(self, number: int | None) -> Position:
        """A layer by its number, from 1; the whole file if there is none."""
        return Position(self.file) if number is None else self.at("layer", number - 1)

    def rule(self, layer: int, rule: Numbered, *member: str | int) -> Position:
        """A rule, or a value of it by its key and, of several, its number from 0; of a group's rule, its layer."""
        return self.at("layer", layer - 1, *rule.steps, *member) if rule.group is None else self.layer(layer)
