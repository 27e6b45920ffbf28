"""Reads TOML documents that people write, and says where an error is and what would be right."""

from __future__ import annotations

import difflib
import tomllib
from collections.abc import Callable, Iterable, Mapping
from dataclasses import dataclass
from pathlib import Path
from typing import Any, NoReturn, TypeVar

from . import json_outline, outline
from .numbered import Numbered
from .problems import Problem

JSON = ".json"
"""How the name of a file ends that is JSON; others are TOML."""

BYTE_ORDER_MARK = "\N{ZERO WIDTH NO-BREAK SPACE}"

T = TypeVar("T")


@dataclass(frozen=True)
class DocumentPlace:
    """A position in a document, so that an error can name it: its steps, each a key or one of several tables.

    `within` is a key of the table there, or the number of an item of the list there, from 0.
    """

    path: Path
    steps: tuple[str | Numbered, ...] = ()
    within: str | int | None = None

    def __truediv__(self, step: str | Numbered) -> DocumentPlace:
        return DocumentPlace(self.path, (*self.steps, step))

    def at(self, within: str | int) -> DocumentPlace:
        """The position of a key, or of an item, of what is here."""
        return DocumentPlace(self.path, self.steps, within)

    def fault(self, text: str) -> NoReturn:
        """Raises the Problem that this position has an error."""
        where = ", ".join(map(str, self.steps))
        said = f"{self.path}: {where}: {text}" if where else f"{self.path}: {text}"
        raise Problem(said + self._in_file())

    def _in_file(self) -> str:
        """The line and the column, as `tomllib` names them; of JSON, if the file's name says so."""
        path: list[str | int] = []
        for step in self.steps:
            path += list(step.steps) if isinstance(step, Numbered) else [step]
        path += [] if self.within is None else [self.within]
        outlined = json_outline.of if self.path.suffix == JSON else outline.of
        found = outlined(text_of(self.path)).line_and_column(tuple(path), of_key=isinstance(self.within, str))
        return "" if found is None else f" (at line {found[0]}, column {found[1]})"


def text_of(path: Path) -> str:
    """The text of a file, with line feeds alone at the ends of its lines; one that can't be read is a Problem."""
    try:
        text = path.read_bytes().decode()
    except OSError as error:
        raise Problem(f"cannot read {path}: {error.strerror}") from error
    except UnicodeDecodeError as error:
        raise Problem(f"{path}: not {'JSON' if path.suffix == JSON else 'TOML'}: {error}") from error
    return text.replace("\r\n", "\n")


def read(path: Path) -> Mapping[str, Any]:
    """The document in a file; a file that can't be read, or is not TOML, is a Problem."""
    text = text_of(path)
    if text.startswith(BYTE_ORDER_MARK):
        raise Problem(f"{path}: begins with a byte order mark, which TOML does not have: save it as UTF-8 without one")
    if (line := outline.long_key(text)) is not None:
        raise Problem(f"{path}: line {line}: a key has more than {outline.MOST_PARTS} parts")
    try:
        return tomllib.loads(text)
    except (ValueError, RecursionError) as error:
        raise Problem(f"{path}: not TOML: {error}") from error


def one_or_several(value: Any, one: Callable[[Any, DocumentPlace], T], place: DocumentPlace) -> tuple[T, ...]:
    """One value, or several in a list."""
    if not isinstance(value, list):
        return (one(value, place),)
    if not value:
        place.fault("is empty: give one or several")
    return tuple(one(item, place.at(number)) for number, item in enumerate(value))


def tables(value: Any, key: str, place: DocumentPlace) -> list[Mapping[str, Any]]:
    """The tables under a key."""
    if not isinstance(value, list) or not all(isinstance(item, dict) for item in value):
        place.at(key.rpartition(".")[2]).fault(f"{key} must be tables: write each as [[{key}]]")
    return value


def check_keys(
    table: Mapping[str, Any], known: tuple[str, ...], place: DocumentPlace, all_needed: bool = False
) -> None:
    """Checks that a table has only known keys and, if all are needed, each of them."""
    for key in table:
        if key not in known:
            place.at(key).fault(f"unknown key {unknown(key, known)}")
    for key in known if all_needed else ():
        if key not in table:
            place.fault(f"{key} is missing")


def text(table: Mapping[str, Any], key: str, place: DocumentPlace) -> str:
    """The text of a key that must be there."""
    value = table.get(key)
    if value is None:
        place.fault(f"{key} is missing")
    if not isinstance(value, str) or not value.strip():
        (place / key).fault(f"{value!r} is not a text: write it in quotes")
    return value


def unknown(word: str, known: Iterable[str]) -> str:
    """An unknown word with what would be right: a similar name, if there is one, and all names."""
    names = list(known)
    near = difflib.get_close_matches(word, names, n=1)
    meant = f", did you mean {near[0]!r}?" if near else ":"
    return f"{word!r}{meant} use {listed(names)}"


def listed(words: Iterable[str]) -> str:
    """Words, one after another."""
    return ", ".join(words)
