"""What a call is about: its paths, its port, or a number of its process."""

from __future__ import annotations

from typing import NamedTuple

#: Between the paths of a move, in words.
ARROW = " -> "


class Number(NamedTuple):
    """A number that a process gave to something it holds: `descriptor` or `ruleset`, and the number."""

    of: str
    value: int

    def __str__(self) -> str:
        return f"{self.of} {self.value}"


class Subject(NamedTuple):
    """One path, several paths, a port, or a number; nothing if a call is about none, or it is not known.

    `between` stands between several paths in words.
    """

    paths: tuple[str, ...] = ()
    port: int | None = None
    number: Number | None = None
    between: str = ARROW

    def __bool__(self) -> bool:
        return self != NOTHING

    def __str__(self) -> str:
        if self.paths:
            return self.between.join(self.paths)
        if self.port is not None:
            return f"port {self.port}"
        return "-" if self.number is None else str(self.number)


NOTHING = Subject()


def at(*paths: str) -> Subject:
    """The subject of a call on a path, or on both paths of a move."""
    return Subject(paths)


def on_port(port: int) -> Subject:
    """The subject of a call on a port."""
    return Subject(port=port)

