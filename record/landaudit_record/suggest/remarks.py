"""What a person should know of a suggested rule."""

from __future__ import annotations

from dataclasses import dataclass
from enum import Enum


class RemarkKind(Enum):
    """What the rule is for, what it grants besides, and why to hesitate; each with its form in words."""

    PURPOSE = "({})"
    ALSO = "also {}"
    WARNING = "warning: {}"


@dataclass(frozen=True)
class Remark:
    """A remark of a kind."""

    kind: RemarkKind
    text: str

    def __str__(self) -> str:
        return self.kind.value.format(self.text)
