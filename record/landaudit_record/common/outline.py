"""Where the tables, keys and values of a TOML document are in its text, and its comments.

`tomllib` says what a document means and not where. The text is one that it has read, so it has no faults: its strings,
comments, brackets and keys are all that has to be told apart.
"""

from __future__ import annotations

import re
import tomllib
from collections.abc import Iterator
from dataclasses import dataclass, field
from typing import NamedTuple

Path = tuple[str | int, ...]
"""The keys that lead to a part of a document, and the numbers, from 0, of tables and items of lists among them."""

_TOKEN = re.compile(
    r'''(?P<blank>[ \t]+) | (?P<line>\r?\n) | (?P<comment>\#[^\n]*)
    | (?P<text>"""(?:\\.|[^\\])*?"{3,5} | \'\'\'.*?\'{3,5} | "(?:\\.|[^"\\\n])*" | '[^'\n]*')
    | (?P<mark>[][{}=,.]) | (?P<word>[^][{}=,.\#"'\s]+)''',
    re.VERBOSE | re.DOTALL,
)
_PART = r"""(?:[A-Za-z0-9_-]++|"(?:\\.|[^"\\\n])*+"|'[^'\n]*+')"""
MOST_PARTS = 64
"""The most parts of a dotted key: `tomllib` takes a time that grows with the square of their number."""

_LONG_KEY = re.compile(rf"""(?<![\\\w"'-]){_PART}(?:[ \t]*+\.[ \t]*+{_PART}){{{MOST_PARTS}}}""", re.ASCII)


class _Token(NamedTuple):
    kind: str
    text: str
    offset: int


@dataclass
class Outline:
    """A document's text, where each key and each value in it begins, and the comments with the tables they are of.

    A comment belongs to the table that follows it or contains it; at the top, to the whole document if a blank line or
    a key follows.
    """

    text: str
    keys: dict[Path, int] = field(default_factory=dict)
    values: dict[Path, int] = field(default_factory=dict)
    comments: list[tuple[Path, str]] = field(default_factory=list)

    def line_and_column(self, path: Path, *, of_key: bool) -> tuple[int, int] | None:
        """The line and the column, from 1, of what a path leads to, or of what contains that."""
        places = self.keys if of_key else self.values
        while path:
            offset = places.get(path, self.keys.get(path))
            if offset is not None:
                return self.text.count("\n", 0, offset) + 1, offset - self.text.rfind("\n", 0, offset)
            path = path[:-1]
        return None


def of(text: str) -> Outline:
    """The outline of a document."""
    walk = _TokenWalk(text)
    walk.statements()
    return walk.found


def long_key(text: str) -> int | None:
    """The line of a key with too many parts, in a text that need not be TOML."""
    if _LONG_KEY.search(text) is None:
        return None
    parts = 0
    for token in _tokens(text):
        match token.kind:
            case "word" | "text":
                parts += 1
            case "line" | "comment":
                parts = 0
            case "mark" if token.text != ".":
                parts = 0
        if parts > MOST_PARTS:
            return text.count("\n", 0, token.offset) + 1
    return None


def end_of_text(text: str, offset: int) -> int | None:
    """Where the text ends that begins at an offset; None if no text begins there."""
    found = _TOKEN.match(text, offset)
    return found.end() if found is not None and found.lastgroup == "text" else None


def _tokens(text: str) -> Iterator[_Token]:
    """The tokens of a text, without blanks."""
    for found in _TOKEN.finditer(text):
        kind = found.lastgroup
        if kind is not None and kind != "blank":
            yield _Token(kind, found[0], found.start())


class _TokenWalk:
    """A walk over the tokens of a document."""

    def __init__(self, text: str) -> None:
        self.found = Outline(text)
        self._tokens = [*_tokens(text), _Token("end", "", len(text))]
        self._at = 0
        self._table: Path = ()
        self._tables: dict[Path, int] = {}
        self._waiting: list[str] = []

    def _next(self) -> _Token:
        token = self._tokens[self._at]
        self._at += 1
        return token

    @property
    def _kind(self) -> str:
        """The kind of the token that is next; of a mark, the mark."""
        token = self._tokens[self._at]
        return token.text if token.kind == "mark" else token.kind

    def statements(self) -> None:
        """The whole document, a statement or a comment or an empty line after the other."""
        while self._kind != "end":
            match self._kind:
                case "line":
                    self._next()
                    if not self._table:
                        self._take_waiting()
                case "comment":
                    self._waiting.append(_said(self._next()))
                    self._end_of_line()
                case "[":
                    self._header()
                    self._take_waiting()
                    self._end_of_line()
                case _:
                    self._take_waiting()
                    self._pair(self._table)
                    self._end_of_line()
        self._take_waiting()

    def _take_waiting(self) -> None:
        """The comments so far belong to the table that is read now."""
        self.found.comments += [(self._table, text) for text in self._waiting]
        self._waiting = []

    def _end_of_line(self) -> None:
        """The rest of a line, which may be a comment."""
        if self._kind == "comment":
            self.found.comments.append((self._table, _said(self._next())))
        if self._kind == "line":
            self._next()

    def _header(self) -> None:
        """A table's header, as [a.b] or [[a.b]]."""
        first = self._next()
        is_listed = self._kind == "["
        if is_listed:
            self._next()
        *over, last = self._parts()
        path: Path = ()
        for part in over:
            path = self._newest((*path, part))
        path = (*path, last)
        if is_listed:
            self._next()
            self._tables[path] = self._tables.get(path, -1) + 1
        self._next()
        self._table = self._newest(path)
        self.found.keys[self._table] = first.offset

    def _newest(self, path: Path) -> Path:
        """A table, or of several under one name the last so far."""
        return (*path, self._tables[path]) if path in self._tables else path

    def _parts(self) -> list[str]:
        """The parts of a key."""
        parts = [_name(self._next())]
        while self._kind == ".":
            self._next()
            parts.append(_name(self._next()))
        return parts

    def _pair(self, table: Path) -> None:
        """A key and its value."""
        offset = self._tokens[self._at].offset
        path = table
        for part in self._parts():
            path = (*path, part)
            self.found.keys.setdefault(path, offset)
        self._next()
        self._value(path)

    def _value(self, path: Path) -> None:
        """A list, a table on one line, or anything else."""
        first = self._next()
        self.found.values[path] = first.offset
        if first.text == "[":
            self._between()
            number = 0
            while self._kind != "]":
                self._value((*path, number))
                number += 1
                self._between()
            self._next()
        elif first.text == "{":
            self._between()
            while self._kind != "}":
                self._pair(path)
                self._between()
            self._next()
        else:
            while self._kind in ("word", "."):
                self._next()

    def _between(self) -> None:
        """Commas, comments and ends of lines between items."""
        while self._kind in (",", "line", "comment"):
            token = self._next()
            if token.kind == "comment":
                self.found.comments.append((self._table, _said(token)))


def _said(token: _Token) -> str:
    """What a comment says."""
    return token.text[1:].strip()


def _name(token: _Token) -> str:
    """The part of a key that a token writes."""
    if token.kind == "word":
        return token.text
    return str(tomllib.loads(f"name = {token.text}")["name"])
