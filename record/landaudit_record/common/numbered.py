"""How one of several tables of a document is named, such as a layer or a rule."""

from __future__ import annotations

import re
from dataclasses import dataclass

_NAMED = re.compile(r"(?:(.+) )?(\w+) ([0-9]+)", re.DOTALL)


@dataclass(frozen=True)
class Numbered:
    """A table by its key and its number from 1; `group` is the group of rules that it is in, if it is in one."""

    key: str
    number: int
    group: str | None = None

    def __str__(self) -> str:
        return f"{'' if self.group is None else self.group + ' '}{self.key} {self.number}"

    @property
    def steps(self) -> tuple[str, int]:
        """The way to it, from the table that it is in."""
        return self.key, self.number - 1

    @classmethod
    def read(cls, name: str) -> Numbered | None:
        """A rule by its name in a trace; None if that is no such name."""
        found = _NAMED.fullmatch(name)
        return None if found is None else cls(found[2], int(found[3]), found[1])
