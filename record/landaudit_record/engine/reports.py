"""Reads landaudit's report: docs/FORMATS.md, "The report as JSON".

Each line is an object, without spaces and with its members in one order. So the meaning of most lines is known from
their bytes, and only the others are decoded.
"""

from __future__ import annotations

import json
import re
from collections.abc import Callable, Iterator, Mapping, Sequence
from dataclasses import dataclass
from functools import lru_cache
from itertools import repeat
from operator import not_
from pathlib import Path
from types import TracebackType
from typing import Any, BinaryIO, NamedTuple

from ..common.problems import Problem
from .answers import (
    ALLOWED,
    CONDITIONS,
    KINDS,
    MOOT,
    REASONS,
    REFUSED,
    UNSURE,
    Answer,
    Answered,
    Closed,
    Condition,
    Gained,
    Kept,
    Missing,
    Mounting,
    Objection,
    Reason,
    Refusing,
)

#: How the last line begins.
LAST = b'{"totals":'
_BEGINS, _PID = b'{"line":', b'"pid":'
_VERDICT = b'"answer":"%b"'
#: How the line of a record ends that a single ABI allows, and what is in the line of one that it refuses.
ENDS_ALLOWED, HAS_REFUSED = _VERDICT % ALLOWED.encode() + b"}]}\n", _VERDICT % REFUSED.encode()
_ANSWER = re.compile(rb'"abi":\[([0-9]+),([0-9]+)\],"answer":"([a-z]+)"')
_ALLOWED = ALLOWED.encode()
_PLAIN = Answer(ALLOWED)
#: How the rest of a line begins that has the answers.
_ANSWERS = '"answers":'
_decoded = json.JSONDecoder().raw_decode


class Row(NamedTuple):
    """What a report says of a record at one ABI: the record's line, its process, and the answer."""

    line: int
    pid: int
    answer: Answer


def head(line: int, pid: int) -> bytes:
    """How the line of a record begins."""
    return b'{"line":%d,"pid":%d,' % (line, pid)


def by_all(abis: range) -> bytes:
    """How the answers to a record begin that all ABIs of a range answer alike."""
    return b'"answers":[{"abi":[%d,%d],' % (abis[0], abis[-1])


def differing(abis: range, *, only_refused: bool) -> Callable[[Sequence[bytes]], list[bool]]:
    """Whether each of some lines says that some ABI of a range does not allow a record; a report of refused records
    alone has no other lines.
    """
    if only_refused:
        return lambda lines: list(map(bool, lines))
    allowed = by_all(abis) + ENDS_ALLOWED
    return lambda lines: list(map(not_, map(bytes.endswith, lines, repeat(allowed))))


def split(line: bytes) -> list[bytes]:
    """A record's line at its first commas: its number, process and operation, and the rest, which has the answers."""
    return line.split(b",", 3)


class Shown:
    """The lines of a report that leaves out records, beside a walk over the records."""

    def __init__(self, lines: BinaryIO) -> None:
        self._lines = lines
        self._next()

    def _next(self) -> None:
        self.line = self._lines.readline()
        number = self.line.partition(b",")[0].removeprefix(_BEGINS)
        self._number = int(number) if number.isdigit() else None

    def block(self, first: int, many: int) -> list[bytes]:
        """The lines on this many records from a first one; nothing for one that is left out. Blocks follow blocks."""
        found = [b""] * many
        while self._number is not None and first <= self._number < first + many:
            found[self._number - first] = self.line
            self._next()
        return found


def rows(report: Path, abi: int) -> Iterator[Row]:
    """The answers of an ABI, in the order of the report."""
    with open(report, "rb") as lines:
        for line in lines:
            if line.startswith(LAST):
                return
            with _Reading(line):
                number, pid, _, answers = split(line)
                yield Row(int(number.removeprefix(_BEGINS)), int(pid.removeprefix(_PID)), _at(abi, answers))


def united(lines: Sequence[bytes], abis: range) -> tuple[list[bytes], frozenset[int]]:
    """The lines on a record that may be another one, and on what it would be then, so that they say what is known; and
    the ABIs at which a call may be refused.

    If all of them are refused at an ABI, so is the record. If only some are, these are `unsure` there, and the others
    say nothing. A line that the report leaves out is empty.
    """
    with _Reading(b"".join(lines)):
        read = [json.loads(line) if line else None for line in lines]
        by_abi = [{abi: said for said in one["answers"] for abi in _abis(said)} if one else {} for one in read]
    unsure: set[int] = set()
    for abi in abis:
        refused = [abi in said and said[abi]["answer"] == REFUSED for said in by_abi]
        some = any(refused) and not all(refused)
        unsure.update([abi] if some else ())
        for number, said in enumerate(by_abi):
            if abi in said:
                said[abi] = _known(said[abi], some=some, first=number == 0) | {"abi": [abi, abi]}
    return [_written(one, said) for one, said in zip(read, by_abi)], frozenset(unsure)


def _known(said: Mapping[str, Any], *, some: bool, first: bool) -> dict[str, Any]:
    """What is known of a call by an answer to the first record of it, or to another one; `some` of them are refused."""
    if some and said["answer"] == REFUSED:
        return {**said, "answer": UNSURE}
    return dict(said) if first and not some else {"answer": ALLOWED}


def _written(one: Mapping[str, Any] | None, answers: Mapping[int, Any]) -> bytes:
    """The line of a record with some answers, as landaudit writes it; no line if all are `allowed`."""
    if one is None or all(said["answer"] == ALLOWED for said in answers.values()):
        return b""
    return json.dumps({**one, "answers": list(answers.values())}, separators=(",", ":")).encode() + b"\n"


def numbers(report: Path) -> Iterator[int]:
    """The numbers of the records that a report shows."""
    with open(report, "rb") as lines:
        for line in lines:
            if not line.startswith(LAST):
                with _Reading(line):
                    number, _, _, _ = split(line)
                    yield int(number.removeprefix(_BEGINS))


def not_allowed(answers: bytes) -> tuple[Answered, ...]:
    """The answers that are not `allowed`, each with the ABIs that give it; from the rest of a line that has them."""
    with _Reading(answers):
        return tuple([(_each(*said["abi"]), _answer(said)) for said in _members(answers) if said["answer"] != ALLOWED])


def abis_of_others(answers: bytes) -> frozenset[int]:
    """The ABIs whose answer is not `allowed`, from the rest of a line that has the answers, without decoding it.

    No text in it can look like a member: there, quotes are escaped.
    """
    return _spans(tuple((said[1], said[2]) for said in _ANSWER.finditer(answers) if said[3] != _ALLOWED))


@lru_cache(1_024)
def _spans(some: tuple[tuple[bytes, bytes], ...]) -> frozenset[int]:
    return frozenset(abi for oldest, newest in some for abi in range(int(oldest), int(newest) + 1))


def verdicts(report: Path) -> Iterator[Mapping[str, frozenset[int]]]:
    """The ABIs that give each answer to a record, in the order of the report."""
    with open(report, "rb") as lines:
        for line in lines:
            if line.startswith(LAST):
                return
            yield abis_by_verdict(split(line)[-1])


@lru_cache(1_024)
def abis_by_verdict(answers: bytes) -> Mapping[str, frozenset[int]]:
    """The ABIs that give each answer, whatever their reasons are; from the rest of a line that has the answers."""
    found: dict[str, frozenset[int]] = {verdict: frozenset() for verdict in (ALLOWED, MOOT, REFUSED)}
    with _Reading(answers):
        for said in _members(answers):
            found[said["answer"]] = found.get(said["answer"], frozenset()) | frozenset(_abis(said))
    return found


@dataclass(slots=True)
class _Reading:
    """What landaudit does not write is a Problem."""

    line: bytes

    def __enter__(self) -> None:
        """Nothing is to be done before a line is read."""

    def __exit__(self, kind: type[BaseException] | None, error: BaseException | None, at: TracebackType | None) -> None:
        if isinstance(error, (ValueError, LookupError, TypeError)):
            shown = repr(self.line.decode(errors="replace").strip())
            raise Problem(f"landaudit's report can't be read at {shown}: use programs of one version") from error


def _members(answers: bytes) -> list[Any]:
    """The objects of the answers, from the rest of a line, which also ends the line's object."""
    text = answers.decode(errors="surrogatepass")
    found, end = _decoded(text, len(_ANSWERS))
    if not text.startswith(_ANSWERS) or text[end:].rstrip() != "}" or not isinstance(found, list):
        raise ValueError("no answers")
    return found


def _abis(said: Mapping[str, Any]) -> range:
    oldest, newest = said["abi"]
    return range(oldest, newest + 1)


@lru_cache(256)
def _each(oldest: int, newest: int) -> tuple[int, ...]:
    """All ABIs from one to another, as one value however many answers have them."""
    return tuple(range(oldest, newest + 1))


@lru_cache(1_024)
def _at(abi: int, answers: bytes) -> Answer:
    """What an ABI answers, from the rest of a line that has the answers."""
    for said in _members(answers):
        if abi in _abis(said):
            return _answer(said)
    raise LookupError(abi)


def _answer(said: Mapping[str, Any]) -> Answer:
    """An answer, from its object."""
    verdict = said["answer"]
    if verdict == ALLOWED:
        return _PLAIN
    if verdict == MOOT:
        return Answer(MOOT, why=_reason(said["why"]) if "why" in said else None)
    if verdict not in (REFUSED, UNSURE) or type(said["error"]) is not str:
        raise ValueError("no answer")
    why = _condition(said["why"]) if "why" in said else None
    return Answer(verdict, said["error"], tuple(map(_layer, said["layers"])), why)


def _layer(said: Mapping[str, Any]) -> Refusing:
    """A layer that refuses, with all that it objects to if landaudit was asked why."""
    objections = tuple(map(_objection, said.get("objections", ())))
    return Refusing(said["layer"], said.get("line"), objections, said.get("policy"))


def _objection(said: Mapping[str, Any]) -> Objection:
    """What a layer objects to, from its object."""
    match said:
        case {"missing": [str(right)], "on": str(path), "opened": int(line)}:
            return Kept((right,), str(said.get("shown", path)), line)
        case {"missing": [*rights], "on": str(path)}:
            return Missing(tuple(rights), path)
        case {"closed": [*rights], "port": int(port)}:
            return Closed(tuple(rights), port)
        case {"gains": [*rights], "object": str(path), "in": str(directory)}:
            return Gained(path, tuple(rights), directory)
        case {"mounting": True}:
            return Mounting()
    raise ValueError("no objection")


def _condition(said: Mapping[str, Any]) -> Condition:
    """A condition, from its object; the values in its text are the members of the same names."""
    about = dict(said)
    word, rights = about.pop("condition"), tuple(about.pop("rights", ()))
    if word not in CONDITIONS:
        raise ValueError("no condition")
    return Condition(word, rights=rights, **about)


def _reason(said: Mapping[str, Any]) -> Reason:
    """A reason, from its object; of a move, the object that moves is `from` there."""
    about = dict(said)
    word, moved = about.pop("reason"), about.pop("from", None)
    if word not in REASONS or about.get("kind", "reg") not in KINDS:
        raise ValueError("no reason")
    return Reason(word, moved=moved, **about)
