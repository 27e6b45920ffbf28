"""Work that is done in processes of their own, on what this process has when they begin."""

from __future__ import annotations

import contextlib
import fcntl
import marshal
import multiprocessing
import signal
from collections import deque
from collections.abc import Callable, Iterable, Iterator
from functools import partial
from multiprocessing.connection import Connection
from typing import Any, Generic, TypeVar

from . import stopping
from .problems import WANTING, Problem

Result = TypeVar("Result")
_FORKING = multiprocessing.get_context("fork")
#: How many bytes of pieces may wait to be taken, if the kernel allows it; else as many as a pipe has (pipe(7)).
WAITING = 1 << 20


def each(works: Iterable[Callable[[], Result]], most: int) -> Iterator[Result]:
    """Does each work in a process of its own, at most some at once, and yields what they give, in their order.

    If there is to be one at most, this process does the works.
    """
    if most == 1:
        yield from (work() for work in works)
        return
    begun: deque[_Apart[Result]] = deque()
    try:
        for work in works:
            begun.append(_Apart(partial(_whole, work)))
            if len(begun) == most:
                yield begun.popleft().result()
        while begun:
            yield begun.popleft().result()
    finally:
        for one in begun:
            one.stop()


def pieces(work: Callable[[], Iterable[Any]]) -> Iterator[Any]:
    """Does a work in a process of its own, and yields piece after piece of what it gives. The pieces are what marshal
    writes; the process waits while some of them have not been taken.
    """
    return _taken(_Apart(partial(_give, work)))


def _taken(begun: _Apart[None]) -> Iterator[Any]:
    """The pieces that a process sends, which ends with the one who takes them."""
    try:
        while piece := begun.piece():
            yield marshal.loads(piece)
        begun.result()
    finally:
        begun.stop()


class _Apart(Generic[Result]):
    """One work in its process."""

    def __init__(self, work: Callable[[Connection], Result]) -> None:
        self._receives, sends = _FORKING.Pipe(duplex=False)
        self._process = _FORKING.Process(target=_do, args=(work, sends), daemon=True)
        self._process.start()
        sends.close()

    def result(self) -> Result:
        """Waits for what the work gives; what it raised is raised here."""
        given: Result
        try:
            given, raised = self._receives.recv()
        except EOFError:
            raise _killed() from None
        finally:
            self.stop()
        if raised is not None:
            raise raised
        return given

    def piece(self) -> bytes:
        """Waits for the next piece of what the work gives; nothing after the last one."""
        try:
            return self._receives.recv_bytes()
        except EOFError:
            raise _killed() from None

    def stop(self) -> None:
        """Ends the process, if it has not ended."""
        self._process.kill()
        self._process.join()
        self._receives.close()


def _killed() -> Problem:
    return Problem("a process of this program was killed: is there enough memory?", WANTING)


def _whole(work: Callable[[], Result], _: Connection) -> Result:
    return work()


def _give(work: Callable[[], Iterable[Any]], sends: Connection) -> None:
    """Sends the pieces of a work, and nothing as the last one, whatever ends it."""
    with contextlib.suppress(OSError):
        fcntl.fcntl(sends.fileno(), fcntl.F_SETPIPE_SZ, WAITING)
    try:
        for piece in work():
            sends.send_bytes(marshal.dumps(piece))
    finally:
        sends.send_bytes(b"")


def _do(work: Callable[[Connection], Result], sends: Connection) -> None:
    """Does a work, and sends what it gives, or what it raised; this process ends when the one that waits ends it."""
    signal.signal(signal.SIGINT, signal.SIG_IGN)
    for number in stopping.SIGNALS:
        signal.signal(number, signal.SIG_DFL)
    given, raised = None, None
    try:
        given = work(sends)
    except Exception as error:
        raised = error
    with contextlib.suppress(BrokenPipeError):
        sends.send((given, raised))
