"""Why Landlock was not asked about a call."""

from __future__ import annotations

from dataclasses import dataclass

from ..engine.answers import KINDS, NOT_OPEN, REASONS

#: Besides the words of landaudit's reasons: the call failed in the recording too, and the descriptor would be open if
#: its opening had been allowed.
FAILED_TOO, MISSED = "failed_too", "missed"
_TEXTS = {
    **REASONS,
    FAILED_TOO: "the call failed in the recording too: {error}",
    MISSED: f"{NOT_OPEN}, its opening was refused or moot",
}


@dataclass(frozen=True, slots=True)
class Unasked:
    """The word of the reason, with the kind of the object or the error that it names, if it names one."""

    word: str
    kind: str | None = None
    error: str | None = None

    def __str__(self) -> str:
        return _TEXTS[self.word].format(kind=KINDS.get(self.kind or ""), error=self.error)
