"""Why a call can't be written: the exceptions by which a handler leaves out its call, each with the class to count."""

from __future__ import annotations

NOT_UNDERSTOOD = "a line that is not understood"


class CannotSay(Exception):
    """A call that trace and tree can't express; its text is the class that is counted.

    `asks` says whether Landlock may refuse such a call: an audit can't foresee that.
    """

    asks = True


class NotAsked(CannotSay):
    """A call that Landlock does not refuse: it failed before Landlock was asked, or Landlock is never asked."""

    asks = False


class NotUnderstood(CannotSay):
    """A text that strace did not write, or only a part of one."""

    def __init__(self) -> None:
        super().__init__(NOT_UNDERSTOOD)
