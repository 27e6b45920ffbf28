"""Text that fits a width: sentences folded at blanks, long names shortened in the middle, tables without wrapped lines.

Names are not trusted: a printed name is on one line, runs from left to right, and has the width that was computed.
"""

from __future__ import annotations

import os
import shlex
import shutil
import unicodedata
from collections import Counter
from collections.abc import Callable, Collection, Iterator, Sequence
from dataclasses import dataclass, replace
from itertools import product
from typing import TextIO

from .wording import MOST_NAMES, plain

ELLIPSIS = "…"
#: The width of lines without a terminal, and on a terminal that is too narrow.
WIDTH = 80
LEAST_WIDTH = 20
#: The fewest characters of a shortened column; a table in which that is too wide has a line for each cell.
LEAST_COLUMN = 14
#: The characters that a path beside fixed words keeps while there is room; one of several paths keeps fewer.
LEAST_PATH = 7
_LEAST_OF_SEVERAL = 5
#: The short name of a directory that is said once before a table, and the least width of such a directory.
SHORT = "$D"
LEAST_DIRECTORY = 10
_MARGIN = "  "
_BETWEEN = "  "
_NATURAL = 1 << 30
#: The most lines of a long cell in a table with a line for each cell.
_STACKED = 3
#: The share of the beginning in a shortened text: the end of a path says more.
_HEAD = 0.3

#: The text of a cell for a given width.
Cell = Callable[[int], str]


@dataclass(frozen=True)
class Branches:
    """The lines of a tree before a name that others follow, and before the last one; each with those of what is in it.
    """

    other: tuple[str, str] = ("├── ", "│   ")
    last: tuple[str, str] = ("└── ", "    ")

    @classmethod
    def of(cls, stream: TextIO) -> Branches:
        """Lines in characters that a stream can encode."""
        drawn = cls()
        whole = "".join((*drawn.other, *drawn.last))
        return drawn if encodable(whole, stream) == whole else cls(("|-- ", "|   "), ("`-- ", "    "))


def width_of(stream: TextIO) -> int:
    """The width of lines on a stream: that of its terminal, or COLUMNS."""
    asked = stream.isatty() or "COLUMNS" in os.environ
    return max(LEAST_WIDTH, shutil.get_terminal_size((WIDTH, 0)).columns) if asked else WIDTH


def encodable(line: str, stream: TextIO) -> str:
    """A line in the characters that a stream can encode, with a question mark for each other one."""
    encoding = stream.encoding or "utf-8"
    return line.encode(encoding, "replace").decode(encoding)


def wide(text: str) -> int:
    """The most columns that a text can take."""
    return len(text) if text.isascii() else sum(map(_wide, text))


def _wide(character: str) -> int:
    return 2 if unicodedata.east_asian_width(character) in "WF" else 1


def shortened(text: str, width: int, *, head: float = _HEAD) -> str:
    """A text with an ellipsis for its middle if it does not fit; `head` is the share of its beginning."""
    if wide(text) <= width:
        return text
    before = _beginning(text, int((width - 1) * head))
    behind = _beginning(text[::-1], width - 1 - wide(before))[::-1]
    return before + ELLIPSIS + behind


def _beginning(text: str, width: int) -> str:
    """As much of the beginning of a text as fits."""
    taken, end = 0, 0
    for end, one in enumerate(text):
        taken += _wide(one)
        if taken > width:
            return text[:end]
    return text


def folded(text: str, width: int) -> list[str]:
    """A sentence on lines that fit, indented after the first; a word that does not fit on a line is shortened."""
    found: list[str] = []
    for word in plain(text).split():
        if found and wide(found[-1]) + 1 + wide(word) <= width:
            found[-1] += f" {word}"
        else:
            indent = _MARGIN if found else ""
            found.append(indent + shortened(word, width - len(indent)))
    return found


def command(words: Sequence[str], width: int) -> list[str]:
    """A shell command, continued over lines; a word in quotes stays whole, however long it is."""
    lines = [""]
    for word in map(shlex.quote, words):
        if lines[-1] and wide(f"{lines[-1]} {word} \\") > width:
            lines[-1] += " \\"
            lines.append(word)
        else:
            lines[-1] += f" {word}" if lines[-1] else word
        while wide(lines[-1]) > width and "'" not in word:
            lines[-1:] = [lines[-1][: width - 1] + "\\", lines[-1][width - 1:]]
    return lines


def words(text: str, *, head: float = _HEAD) -> Cell:
    """A cell with a text."""
    shown = plain(text)
    return lambda width: shortened(shown, width, head=head)


@dataclass(frozen=True)
class OfPaths:
    """A cell that is made of paths, and is made again once a directory of them has a shorter name."""

    paths: Sequence[str]
    made: Callable[[Sequence[str]], Cell]

    def __call__(self, width: int) -> str:
        return self.made(self.paths)(width)


def within(cell: Cell, directory: str) -> Cell:
    """A cell with a short name for a directory of its paths."""
    if not isinstance(cell, OfPaths):
        return cell
    paths = (SHORT + path.removeprefix(directory) if f"{path}/".startswith(f"{directory}/") else path
             for path in cell.paths)
    return OfPaths(list(paths), cell.made)


def behind(said: str, path: str) -> Cell:
    """A cell with some fixed words and a path after them."""
    return OfPaths([path], lambda paths: lambda width: _behind(said, plain(paths[0]), width))


def _behind(said: str, shown: str, width: int) -> str:
    return shortened(said + shortened(shown, max(LEAST_PATH, width - wide(said))), width, head=0.7)


def parts(texts: Sequence[str], between: str, *, head: float = _HEAD) -> Cell:
    """A cell with several paths or other texts, each of which is shortened."""
    return OfPaths(texts, lambda texts: lambda width: _parts([plain(text) for text in texts], between, width, head))


def _parts(shown: Sequence[str], between: str, width: int, head: float) -> str:
    widths = shared([wide(text) for text in shown], width - len(between) * (len(shown) - 1))
    some = between.join(shortened(text, max(1, room), head=head) for text, room in zip(shown, widths))
    return shortened(some, width, head=head)


def branch(before: str, name: str) -> Cell:
    """A cell with a name in a tree, of which the lines before it stay."""
    shown = plain(name)
    return lambda width: shortened(before + shortened(shown, max(1, width - wide(before))), width)


@dataclass(frozen=True)
class Lack:
    """Words, what links them to a path, and the path; without a path the words are all."""

    words: tuple[str, ...]
    link: str = ""
    path: str = ""

    @property
    def said(self) -> str:
        """All but the path."""
        return plain(", ".join(self.words)) + self.link

    @property
    def whole(self) -> str:
        return self.said + plain(self.path)


def bare(texts: Sequence[Lack], between: str = "; ") -> str:
    """What is lacking, without paths."""
    return between.join(dict.fromkeys(plain(", ".join(text.words)) for text in texts))


def lacks(texts: Sequence[Lack], between: str = "; ") -> Cell:
    """A cell with what is lacking: whole, else with shorter paths, else without them, else with fewer words."""

    def of(paths: Sequence[str]) -> Cell:
        shown = [replace(text, path=path) for text, path in zip(texts, paths)]
        return lambda width: _lacks(shown, between, width)

    return OfPaths([text.path for text in texts], of)


def _lacks(texts: Sequence[Lack], between: str, width: int) -> str:
    whole = between.join(text.whole for text in texts)
    pathless = bare(texts, between)
    if wide(whole) <= width:
        return whole
    paths = [wide(plain(text.path)) for text in texts]
    least = LEAST_PATH if len(texts) == 1 else _LEAST_OF_SEVERAL
    room = width - sum(wide(text.said) for text in texts) - len(between) * (len(texts) - 1)
    rooms = shared(paths, room)
    if room >= 0 and all(given >= min(path, least) for path, given in zip(paths, rooms)):
        return between.join(text.said + _end_of(plain(text.path), given) for text, given in zip(texts, rooms))
    if wide(pathless) <= width:
        return pathless
    if len(texts) == 1:
        listed = texts[0].words
        for number in range(len(listed) - 1, 0, -1):
            told = f"{plain(', '.join(listed[:number]))} +{len(listed) - number}"
            if wide(told) <= width:
                return told
    return shortened(pathless, width, head=0.7)


def _end_of(path: str, width: int) -> str:
    """A path that fits: if there is little room, its end takes all of it."""
    return shortened(path, width, head=_HEAD if width >= LEAST_COLUMN else 0)


def names(texts: Sequence[str], *, said: str = "", brief: Callable[[str], str] | None = None) -> Cell:
    """A cell with some of many names after a few words: fewer names, or shorter forms, if there is little room."""
    whole = [plain(text) for text in texts]
    forms = [whole, *([list(dict.fromkeys(plain(brief(text)) for text in texts))] if brief else [])]

    def some(width: int) -> str:
        for shown, more in product(forms, (" and {:,} more", " +{:,}")):
            for number in range(min(MOST_NAMES, len(shown)), 0, -1):
                left = len(shown) - number
                told = said + ", ".join(shown[:number]) + (more.format(left) if left else "")
                if wide(told) <= width:
                    return told
        rest = f" +{len(forms[-1]) - 1:,}" if len(forms[-1]) > 1 else ""
        return shortened(behind(said, forms[-1][0])(width - len(rest)) + rest, width) if whole else ""

    return some


def shared(wanted: Sequence[int], room: int) -> list[int]:
    """Divides the room: each gets what it wants or, if that is too much, those that want most get equal parts."""
    given = [0] * len(wanted)
    left = sorted(range(len(wanted)), key=lambda index: wanted[index])
    while left:
        index = left.pop(0)
        given[index] = min(wanted[index], max(0, room) // (len(left) + 1))
        room -= given[index]
    return given


@dataclass(frozen=True)
class Column:
    """A column: a number flush right, or a text, which may be shortened; columns with `less` are shortened first.

    `once` says that where all rows have the same, and the table is too wide, it is said once before it; a row with `-`
    has none of it, in which case `none` is said too, and is as the others if it is given. If the table is so narrow
    that other columns are shortened, `instead` is said before it in place of the column. A column that is shortened
    keeps the width `least`, while the others have room.
    """

    head: str
    number: bool = False
    short: bool = False
    less: bool = False
    once: bool = False
    none: str = ""
    instead: Cell | None = None
    least: int = 0


def table(columns: Sequence[Column], rows: Sequence[Sequence[Cell]], width: int) -> Iterator[str]:
    """Rows under the names of their columns, or, if that does not fit, a line for each cell."""
    if _total(_natural(columns, rows)) > width:
        alike = {index: said for index, column in enumerate(columns) if (said := _alike(column, index, rows))}
        if alike:
            said = ", ".join(f"{columns[index].head} {text}" for index, text in alike.items())
            yield from (_MARGIN + line for line in folded(f"all: {said}", width - len(_MARGIN)))
            columns, rows = _without(columns, rows, alike)
    if _total(_natural(columns, rows)) > width and (directory := _directory(rows)):
        shorter = list(_body(columns, [[within(cell, directory) for cell in row] for row in rows], width))
        if any(SHORT in line for line in shorter):
            yield _MARGIN + shortened(f"{SHORT} is {plain(directory)}", width - len(_MARGIN))
            yield from shorter
            return
    yield from _body(columns, rows, width)


def _body(columns: Sequence[Column], rows: Sequence[Sequence[Cell]], width: int) -> Iterator[str]:
    """The rows, with what is said before them in place of columns that do not fit."""
    left_out = [index for index, column in enumerate(columns) if column.instead is not None]
    if left_out and _is_tight(columns, rows, width):
        fewer = _without(columns, rows, left_out)
        if _widths(*fewer, width) is not None:
            for index in left_out:
                instead = columns[index].instead
                assert instead is not None
                yield _MARGIN + instead(width - len(_MARGIN))
            columns, rows = fewer
    widths = _widths(columns, rows, width)
    yield from _stacked(columns, rows, width) if widths is None else _flat(columns, rows, widths)


def fits(columns: Sequence[Column], rows: Sequence[Sequence[Cell]], width: int) -> bool:
    """Whether each row of a table is one line."""
    return _widths(columns, rows, width) is not None


def _directory(rows: Sequence[Sequence[Cell]]) -> str | None:
    """The directory of several paths whose short name saves most, if there is one."""
    paths = Counter(path for row in rows for cell in row if isinstance(cell, OfPaths) for path in cell.paths)
    uses = Counter[str]()
    for path, times in paths.items():
        while len(path) >= LEAST_DIRECTORY and path.startswith("/"):
            uses[path] += times
            path = path.rpartition("/")[0]
    saved = {path: times * (len(path) - len(SHORT)) for path, times in uses.items() if times > 1}
    return max(saved, key=lambda path: (saved[path], path)) if saved else None


def _without(
    columns: Sequence[Column], rows: Sequence[Sequence[Cell]], some: Collection[int]
) -> tuple[Sequence[Column], Sequence[Sequence[Cell]]]:
    """A table without some of its columns."""
    return ([column for index, column in enumerate(columns) if index not in some],
            [[cell for index, cell in enumerate(row) if index not in some] for row in rows])


def _is_tight(columns: Sequence[Column], rows: Sequence[Sequence[Cell]], width: int) -> bool:
    """Whether columns of more weight are shortened even if those of less weight have their least width."""
    widths, wanted = _widths(columns, rows, width), _natural(columns, rows)
    return widths is None or any(
        given < natural for column, given, natural in zip(columns, widths, wanted) if not column.less
    )


def _alike(column: Column, index: int, rows: Sequence[Sequence[Cell]]) -> str:
    """The text that all rows have in a `once` column, if they have the same."""
    found = {row[index](_NATURAL) for row in rows} if column.once else set()
    said = found - {"-"} if column.none else found
    return said.pop() + (column.none if "-" in found and column.none else "") if len(said) == 1 else ""


def _natural(columns: Sequence[Column], rows: Sequence[Sequence[Cell]]) -> list[int]:
    """The width of each column if nothing is shortened."""
    return [max(len(column.head), *(wide(row[index](_NATURAL)) for row in rows), 0)
            for index, column in enumerate(columns)]


def _total(widths: Sequence[int]) -> int:
    return len(_MARGIN) + sum(widths) + len(_BETWEEN) * (len(widths) - 1)


def _widths(columns: Sequence[Column], rows: Sequence[Sequence[Cell]], width: int) -> list[int] | None:
    """The width of each column; None if the table can't be so narrow."""
    widths = _natural(columns, rows)
    for less in (True, False):
        short = [index for index, column in enumerate(columns) if column.short and column.less == less]
        room = width - _total(widths) + sum(widths[index] for index in short)
        room = max(room, sum(min(widths[index], LEAST_COLUMN) for index in short))
        given = dict(zip(short, shared([widths[index] for index in short], room)))
        for index in short:
            others = [other for other in short if other != index]
            left = room - min(widths[index], columns[index].least)
            if given[index] < room - left and left >= sum(min(widths[other], LEAST_COLUMN) for other in others):
                given = {index: room - left, **dict(zip(others, shared([widths[other] for other in others], left)))}
        for index in short:
            widths[index] = given[index]
    return widths if _total(widths) <= width else None


def _flat(columns: Sequence[Column], rows: Sequence[Sequence[Cell]], widths: Sequence[int]) -> Iterator[str]:
    heads = [words(column.head) for column in columns]
    for row in (heads, *rows):
        shown = [(column, cell(room), room) for column, cell, room in zip(columns, row, widths)]
        cells = [_filled(text, room, right=column.number) for column, text, room in shown]
        yield (_MARGIN + _BETWEEN.join(cells)).rstrip()


def _filled(text: str, room: int, *, right: bool) -> str:
    blanks = " " * (room - wide(text))
    return blanks + text if right else text + blanks


def _stacked(columns: Sequence[Column], rows: Sequence[Sequence[Cell]], width: int) -> Iterator[str]:
    """Some lines for each cell, with a dash before the first one of a row."""
    for row in rows:
        mark = "- "
        for column, cell in zip(columns, row):
            for line in _told(column.head, cell, width - len(mark)):
                yield mark + line
                mark = _MARGIN


def _told(head: str, cell: Cell, width: int) -> list[str]:
    """A cell after its heading: words on several lines, a name on one."""
    said = f"{head}: "
    text = cell(max(1, _STACKED * (width - len(_MARGIN)) - len(said)))
    if " " in text:
        return folded(said + text, width)
    return [said + cell(max(1, width - len(said)))] if text else []
