"""Moves to other directories that one policy lets pass and another refuses, as paths are named.

landaudit-rules tells them between each two regions: links of files of each kind, and renames of directories, to new
names. What else may be asked of a move is laws of `ll_policy`: in one region all moves of a kind have one answer
(`moves_alike_have_one_verdict`), a rename passes if the link and the removal pass, and an exchange passes if both
renames do (`moves_made_of_others`).
"""

from __future__ import annotations

from collections.abc import Iterator
from dataclasses import dataclass

from ..common.trees import upwards
from .ruling import ComparisonAnswer, RuledObjects

#: The kinds of objects, and the right to make one, which a move to another directory asks for: in the order in which
#: landaudit-rules tells of them.
MAKING = {"reg": "make_reg", "sym": "make_sym", "char": "make_char", "block": "make_block", "fifo": "make_fifo",
          "sock": "make_sock", "dir": "make_dir"}


@dataclass(frozen=True)
class Move:
    """A move of an object of a kind, beneath a path or at that path itself, to a place under another path."""

    kind: str
    source: str
    itself: bool
    to: str

    @property
    def as_file(self) -> str | None:
        """The path that is a file in this move, if one with a rule is."""
        return self.source if self.itself and self.kind != "dir" else None


def differing(objects: RuledObjects, answer: ComparisonAnswer) -> Iterator[tuple[Move, bool]]:
    """Each move that one policy alone lets pass, and whether the new one does."""
    paths = [region.path for region in objects.named]
    for kind, found in zip(MAKING, answer.moves):
        for moved in found:
            to = paths[moved.to]
            yield from ((Move(kind, paths[number], False, to), moved.is_new) for number in moved.beneath)
            yield from ((Move(kind, paths[number], True, to), moved.is_new) for number in moved.themselves
                        if _can_be(kind, paths[number], to))


def _can_be(kind: str, path: str, to: str) -> bool:
    """Whether a path can be moved: not under itself, nor as a file that something is under.

    A rule on a symbolic link is on what that leads to.
    """
    return kind != "sym" and path not in upwards(to)
