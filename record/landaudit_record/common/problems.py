"""Failures that end a run: one line for the user, and the exit status."""

from __future__ import annotations

USAGE = 2
UNREADABLE = 3
WANTING = 4
#: Nothing is refused, but not everything that a policy may refuse could be judged.
NOT_ALL_JUDGED = 5


class Problem(Exception):
    """A failure that the user can do something about.

    The text is one line that says what is wrong and what to do; `status` is the
    exit status: 2 for wrong usage, 3 for input that can't be read, 4 if
    something that is needed is missing.
    """

    def __init__(self, text: str, status: int = UNREADABLE) -> None:
        super().__init__(text)
        self.status = status
