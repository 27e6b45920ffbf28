"""JSON for people: each member and each value on a line of its own, as `json.dumps` with `indent=2` writes it.

That function is written in Python where it indents, and makes a list of all pieces of a text: a page of 20 MB takes
seconds and 150 MB. Here the text of each value is put together by itself, and that of a large one comes in pieces, of
which several processes make those of a long list.
"""

from __future__ import annotations

import json
from collections.abc import Callable, Iterator, Sequence
from dataclasses import dataclass
from functools import partial
from typing import Any

from . import apart

#: How many values of a list are made at once.
AT_ONCE = 8_000
_encode: Callable[[Any], str] = json.JSONEncoder().encode
#: The function by which an encoder writes a text (the stubs of mypy do not have it).
_text: Callable[[str], str] = getattr(json.encoder, "encode_basestring_ascii")


@dataclass(frozen=True)
class Made(Sequence[Any]):
    """Values that are made of others when they are read: written as a list."""

    make: Callable[[Any], Any]
    of: Sequence[Any]

    def __len__(self) -> int:
        return len(self.of)

    def __getitem__(self, index: Any) -> Any:
        return Made(self.make, self.of[index]) if isinstance(index, slice) else self.make(self.of[index])


def indented(value: Any, end: str = "\n") -> str:
    """A value as text; `end` is what its last line begins with. The names of members are texts."""
    if isinstance(value, str):
        return _text(value)
    if type(value) is int:
        return str(value)
    inner = end + "  "
    if value and isinstance(value, dict):
        members = [f"{_text(name)}: {of if type(of) is int else _text(of) if type(of) is str else indented(of, inner)}"
                   for name, of in value.items()]
        return f"{{{inner}{f',{inner}'.join(members)}{end}}}"
    if value and isinstance(value, (list, tuple)):
        values = [_text(of) if type(of) is str else indented(of, inner) for of in value]
        return f"[{inner}{f',{inner}'.join(values)}{end}]"
    if isinstance(value, Made):
        return indented([*value], end)
    return "null" if value is None else _encode(value)


def pieces(value: Any, end: str = "\n", *, deep: int = 2, most: int = 1) -> Iterator[str]:
    """The same text in pieces: the members of an object, and the values in the lists that it has. At most some
    processes at once make the values of a list that are to be made.
    """
    if deep and value and isinstance(value, Made):
        yield from _made(value, end, most)
        return
    if not deep or not value or not isinstance(value, (dict, list)):
        yield indented(value, end)
        return
    inner = end + "  "
    before = inner
    yield "{" if isinstance(value, dict) else "["
    for name, of in value.items() if isinstance(value, dict) else (("", of) for of in value):
        yield before + (f"{_text(name)}: " if isinstance(value, dict) else "")
        yield from pieces(of, inner, deep=deep - 1, most=most)
        before = f",{inner}"
    yield end + ("}" if isinstance(value, dict) else "]")


def _made(value: Made, end: str, most: int) -> Iterator[str]:
    """The text of a list in pieces of many values."""
    begins, inner = range(0, len(value), AT_ONCE), end + "  "
    works = (partial(_joined, value[begin : begin + AT_ONCE], inner) for begin in begins)
    before = "["
    for text in apart.each(works, most if len(begins) > 1 else 1):
        yield f"{before}{inner}{text}"
        before = ","
    yield f"{end}]"


def _joined(some: Made, inner: str) -> str:
    """The texts of some values of a list."""
    return f",{inner}".join([indented(one, inner) for one in some])
