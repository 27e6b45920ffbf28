"""JSON Lines: one JSON object a line, read and written as landaudit reads them."""

from __future__ import annotations

import json
from collections.abc import Callable, Iterable, Iterator
from pathlib import Path
from typing import Any

from .problems import Problem

Record = dict[str, Any]
#: What a line may have that is skipped.
BLANKS = b" \t\r\n"

_encode = json.JSONEncoder(ensure_ascii=False, separators=(",", ":")).encode
_encode_escaped = json.JSONEncoder(separators=(",", ":")).encode
#: A text as JSON: the function by which an encoder writes it (the stubs of mypy do not have it).
text: Callable[[str], str] = getattr(json.encoder, "encode_basestring")


def numbered(path: Path) -> Iterator[tuple[int, Record]]:
    """The objects of a file with the numbers of their lines, from 1. Blank lines count and are skipped."""
    for number, line in lines(path):
        if line.strip(BLANKS):
            yield number, read(path, number, line)


def lines(path: Path) -> Iterator[tuple[int, bytes]]:
    """The lines of a file with their numbers, from 1."""
    try:
        with open(path, "rb") as file:
            yield from enumerate(file, start=1)
    except OSError as error:
        raise Problem(f"cannot read {path}: {error.strerror}") from error


def read(path: Path, number: int, line: bytes) -> Record:
    """The object that is on a line of a file."""
    try:
        value = json.loads(line.decode())
    except ValueError as error:
        raise Problem(f"{path} line {number} is not JSON: {error}") from error
    if not isinstance(value, dict):
        raise Problem(f"{path} line {number} is not a JSON object")
    return value


def value(of: Any) -> str:
    """A value as JSON: a text, a number or a flag, as most members are, without setting up an encoder for it."""
    if isinstance(of, str):
        return text(of)
    if of is True:
        return "true"
    return str(of) if type(of) is int else _encode(of)


def line(record: Record) -> str:
    """A record as a line, with its line feed; only what is no text, number or flag needs an encoder to be set up."""
    said = []
    for name, of in record.items():
        if type(of) is int:
            said.append(f"{text(name)}:{of}")
        elif type(of) is str:
            said.append(f"{text(name)}:{text(of)}")
        else:
            said.append(f"{text(name)}:{'true' if of is True else _encode(of)}")
    return f"{{{','.join(said)}}}\n"


def line_bytes(record: Record) -> bytes:
    """A record's line as bytes; a name that is not UTF-8 is written by escapes, from which it is read back."""
    try:
        return line(record).encode()
    except UnicodeEncodeError:
        return _encode_escaped(record).encode() + b"\n"


def write(path: Path, records: Iterable[Record]) -> int:
    """Writes records, one a line, and says how many there were."""
    count = 0
    with open(path, "wb") as out:
        for record in records:
            out.write(line_bytes(record))
            count += 1
    return count
