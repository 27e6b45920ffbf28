"""Words for a person: counted things, and texts that are on one line.

Names are not trusted: what is printed of them goes through `plain`, or through `quoted` where a file is printed.
"""

from __future__ import annotations

import json
import unicodedata
from collections.abc import Iterable, Sequence

#: The number of names that are printed of many.
MOST_NAMES = 3
#: Unicode's names of the directions of letters and digits that a terminal may draw from right to left.
_RIGHT_TO_LEFT = frozenset({"R", "AL", "AN"})
#: The highest character that has an escape of four digits.
_FOUR_DIGITS = 0xFFFF


def counted(number: int, thing: str) -> str:
    """A number of things, as `1 call` or `2,000 calls`."""
    return f"{number} {thing}" if number == 1 else f"{number:,} {thing}s"


def some_of(names: Sequence[str], most: int = MOST_NAMES, between: str = ", ") -> str:
    """The first names, and how many are left."""
    left = len(names) - most
    return between.join(names[:most]) + (f" and {left:,} more" if left > 0 else "")


def span(numbers: range) -> str:
    """A range, such as `2-5`, or `2` if it has one number."""
    return str(numbers[0]) if len(numbers) == 1 else f"{numbers[0]}-{numbers[-1]}"


def runs(numbers: Iterable[int]) -> list[range]:
    """Numbers in order, neighbours as one range."""
    found: list[range] = []
    for number in sorted(numbers):
        if found and found[-1].stop == number:
            found[-1] = range(found[-1].start, number + 1)
        else:
            found.append(range(number, number + 1))
    return found


def spans(numbers: Iterable[int]) -> str:
    """Numbers in order, neighbours together, such as `1-3, 5`."""
    return ", ".join(map(span, runs(numbers)))


def printable(text: str) -> str:
    """A text on one line, with an escape for each character that a terminal would interpret."""
    return text if text.isprintable() else "".join(one if one.isprintable() else _escape(one) for one in text)


def is_utf8(text: str) -> bool:
    """Whether a text can be written as UTF-8; names with other bytes, and some texts of JSON, can't."""
    return text.isascii() or not any("\ud800" <= letter <= "\udfff" for letter in text)


def plain(text: str) -> str:
    """A text on one line, with an escape for each character that a terminal acts on or draws from right to left."""
    shown = printable(text)
    if shown.isascii():
        return shown
    return "".join(_escape(one) if unicodedata.bidirectional(one) in _RIGHT_TO_LEFT else one for one in shown)


def _escape(character: str) -> str:
    """A character by its number, as Python writes it."""
    return character.encode("unicode_escape").decode()


def quoted(text: str) -> str:
    """A text in double quotes, as TOML and YAML have it, with an escape for each character that is not printable."""
    return "".join(one if one.isprintable() else _numbered(one) for one in json.dumps(text, ensure_ascii=False))


def _numbered(character: str) -> str:
    """A character by its number, as TOML and YAML write it."""
    code = ord(character)
    return f"\\u{code:04x}" if code <= _FOUR_DIGITS else f"\\U{code:08x}"
