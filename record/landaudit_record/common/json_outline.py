"""Where the keys and values of a JSON document are in its text, as `outline` says it of TOML.

The text is one that `json` has read, so it has no faults.
"""

from __future__ import annotations

import json
import re
from collections.abc import Iterator

from .outline import Outline, Path

_TOKEN = re.compile(r'"(?:\\.|[^"\\])*"|[][{}:,]|[^][{}:,"\s]+')


def of(text: str) -> Outline:
    """The outline of a document."""
    found = Outline(text)
    tokens = ((token[0], token.start()) for token in _TOKEN.finditer(text))
    _value((), *next(tokens), tokens, found)
    return found


def _value(path: Path, token: str, offset: int, tokens: Iterator[tuple[str, int]], found: Outline) -> None:
    """A value, of which the first token is read."""
    found.values[path] = offset
    number = 0
    for part, at in tokens if token in ("[", "{") else ():
        if part in ("]", "}"):
            return
        if part == ",":
            continue
        if token == "{":
            name = (*path, str(json.loads(part)))
            found.keys[name] = at
            next(tokens)
            _value(name, *next(tokens), tokens, found)
        else:
            found.keys.setdefault((*path, number), at)
            _value((*path, number), part, at, tokens, found)
            number += 1
