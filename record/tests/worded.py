"""Values in the words in which a person reads them."""

from __future__ import annotations

from landaudit_record.engine.subjects import ARROW, NOTHING, Number, Subject
from landaudit_record.suggest.missing_rights import SuggestedRule


def subject(words: str) -> Subject:
    """What a call is about: `/a`, `/a -> /b`, `port 80`, `descriptor 3`, or `-` for nothing."""
    if words == "-":
        return NOTHING
    if words.startswith("/"):
        return Subject(tuple(words.split(ARROW)))
    of, value = words.split()
    return Subject(port=int(value)) if of == "port" else Subject(number=Number(of, int(value)))


def said(rule: SuggestedRule) -> tuple[str, ...]:
    """The remarks on a rule, in words."""
    return tuple(map(str, rule.remarks))
