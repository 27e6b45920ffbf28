"""The events of a log, read by a process of its own while this one makes records of them.

A fifth of a conversion's time is the reading of lines. It needs nothing of what earlier calls changed, but for one
thing: whether relative paths may lead through /proc. Calls that only look are left out unless they do. So if a call
changes that, the log is read again, up to that call as before.
"""

from __future__ import annotations

import os
from array import array
from collections.abc import Generator, Iterator, Mapping
from dataclasses import astuple, replace
from functools import partial
from pathlib import Path
from typing import Any

from ..common import apart
from . import strace_log, values
from .looks import Near
from .strace_log import OPENING, Arguments, Call, Ended, Event, Superseded, UnreadLine

#: A log with fewer bytes is read by this process.
LEAST = 1_000_000
#: How many events are sent at once.
AT_ONCE = 1_000
#: What is sent of each event, as numbers of this type: its line, its thread, the line of its end, the number of its
#: text, and what `Call` has as `closed`. The number of a text is inverted when the text is sent for the first time; an
#: event that is no call has `_NO_CALL`.
_FIGURE, _FIGURES, _NO_CALL = "q", 5, -1 << 32
_OTHERS = {kind.__name__: kind for kind in (Ended, Superseded, UnreadLine)}
#: The figures of some events as bytes, and what else is sent of each event that is no call or whose text is new.
_Piece = tuple[bytes, list[Any]]


def events(path: Path, ends: Mapping[int, str], near: Near) -> Generator[Event, None, None]:
    """What a log says, as `strace_log.events` tells it. Lines of one text may be told by the same `Call`, so what it says
    of its line counts until the next event.
    """
    if path.stat().st_size < LEAST or len(os.sched_getaffinity(0)) == 1:
        yield from strace_log.events(path, ends, near)
        return
    relative = near.relative
    taken = yield from _received(_sent(path, ends, near, 0), near)
    if near.relative is not relative:
        yield from _received(_sent(path, ends, near, taken), near)


def _sent(path: Path, ends: Mapping[int, str], near: Near, taken: int) -> Iterator[_Piece]:
    """The pieces that another process sends, or this one makes if none can be started."""
    work = partial(_pieces, path, ends, replace(near), taken)
    try:
        return apart.pieces(work)
    except OSError:
        return work()


def _received(pieces: Iterator[_Piece], near: Near) -> Generator[Event, None, int]:
    """The events that a reader sends, until relative paths may lead through /proc; gives the number of events.

    A call whose text was sent before has a number alone. A close that was taken along with its open is left out.
    """
    calls: dict[int, Call] = {}
    relative, taken = near.relative, 0
    for figures, parts in pieces:
        each, told = iter(array(_FIGURE, figures)), iter(parts)
        count, left_out = 0, False
        for count, (line, tid, end, number, closed) in enumerate(zip(*[each] * _FIGURES), start=1):
            if left_out:
                left_out = False
            elif number >= 0:
                call = calls[number]
                call.line, call.tid, call.end, call.closed = line, tid, end, closed
                yield call
                left_out = call.closed != closed
            elif number == _NO_CALL:
                kind, said = next(told)
                yield _OTHERS[kind](*said)
            else:
                name, arguments, value, error, note, text = next(told)
                calls[~number] = call = Call(
                    line, tid, name, Arguments(enumerate(arguments)), value, error, note, text, end
                )
                yield call
            if near.relative is not relative:
                return taken + count
        taken += count
    return taken


def _pieces(path: Path, ends: Mapping[int, str], near: Near, taken: int) -> Iterator[_Piece]:
    """The events of a log in pieces, as values for marshal, without those that are taken already.

    If some are, relative paths may lead through /proc from then on, and not before. An open has the line of the close
    that follows it at once, if the text of that was sent before.
    """
    if taken:
        near.relative = False
    numbers = _Numbers()
    figures, last = array(_FIGURE), None
    parts: list[Any] = []
    for count, event in enumerate(strace_log.events(path, ends, near), start=1):
        if count <= taken:
            near.relative = count == taken
            continue
        if isinstance(event, Call):
            number, is_new = numbers.of(event.text)
            if is_new:
                parts.append(
                    (event.name, list(event.arguments.values()), event.value, event.error, event.note, event.text)
                )
            elif last is not None and event.name == "close" and _closes(event, last) and not near.is_look(event.text):
                figures[-1] = event.line
            figures.extend((event.line, event.tid, event.end, ~number if is_new else number, 0))
            last = event if event.name in OPENING else None
        else:
            parts.append((type(event).__name__, astuple(event)))
            figures.extend((event.line, event.tid, event.line, _NO_CALL, 0))
            last = None
        if len(figures) == AT_ONCE * _FIGURES:
            yield figures.tobytes(), parts
            figures, parts, last = array(_FIGURE), [], None
    yield figures.tobytes(), parts


def _closes(call: Call, opening: Call) -> bool:
    """Whether a close is that of what the same thread has just opened."""
    number = f"close({opening.value}"
    return opening.ok and call.ok and call.tid == opening.tid and call.text.startswith((f"{number}<", f"{number})"))


class _Numbers:
    """Numbers for texts. Programs repeat themselves: the numbers of the last KEPT different texts are kept, or of some
    fewer, and one that is no longer kept is given to another text.
    """

    def __init__(self) -> None:
        self._lately: dict[str, int] = {}
        self._before: dict[str, int] = {}
        self._free = list(range(values.KEPT))

    def of(self, text: str) -> tuple[int, bool]:
        """The number of a text, and whether it has it from now on."""
        lately = self._lately
        number = lately.get(text)
        if number is not None:
            return number, False
        number, is_new = self._before.pop(text, None), False
        if number is None:
            number, is_new = self._free.pop(), True
        lately[text] = number
        if len(lately) == values.KEPT // 2:
            self._free.extend(self._before.values())
            self._before, self._lately = lately, {}
        return number, is_new
