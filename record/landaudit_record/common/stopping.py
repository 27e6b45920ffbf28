"""Signals that end a command: it ends in order and removes its temporary files."""

from __future__ import annotations

import signal
import threading
from collections.abc import Iterator
from contextlib import contextmanager
from types import FrameType
from typing import Never

SIGNALS = (signal.SIGTERM, signal.SIGHUP, signal.SIGQUIT)
"""The signals that a user, a terminal or a system sends to end a program, besides SIGINT (signal(7))."""


class Stopped(KeyboardInterrupt):
    """A signal asked for the end."""

    def __init__(self, number: int) -> None:
        super().__init__()
        self.number = number


def number_of(interrupt: KeyboardInterrupt) -> int:
    """The signal that asked for the end."""
    return interrupt.number if isinstance(interrupt, Stopped) else signal.SIGINT


@contextmanager
def in_order() -> Iterator[None]:
    """Makes the signals raise Stopped, as SIGINT raises KeyboardInterrupt; an ignored signal stays ignored (nohup)."""
    if threading.current_thread() is not threading.main_thread():
        yield
        return
    mine = [number for number in SIGNALS if signal.getsignal(number) is signal.SIG_DFL]
    for number in mine:
        signal.signal(number, _stop)
    try:
        yield
    finally:
        for number in mine:
            signal.signal(number, signal.SIG_DFL)


def _stop(number: int, frame: FrameType | None) -> Never:
    """Raises once: a second signal does not disturb the end."""
    for one in SIGNALS:
        signal.signal(one, signal.SIG_IGN)
    raise Stopped(number)
