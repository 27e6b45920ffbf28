"""TAP, the Test Anything Protocol, version 13: a line for each test, and then what is known of it as YAML.

prove(1) of Perl 5.36 reads no later version, and of YAML only keys that are single words or in double quotes.
"""

from __future__ import annotations

from collections.abc import Iterator, Mapping, Sequence

from .wording import plain, quoted

VERSION = "TAP version 13"
_ESCAPED = str.maketrans({"\\": "\\\\", "#": "\\#"})


def plan(tests: int) -> str:
    """The line that says how many tests there are."""
    return f"1..{tests}"


def point(number: int, passed: bool, description: str, about: Mapping[str, str | Sequence[str]]) -> Iterator[str]:
    """The lines of one test. `about` has texts, or lists of texts."""
    yield f"{'ok' if passed else 'not ok'} {number} - {plain(description.translate(_ESCAPED))}"
    if about:
        yield "  ---"
        for key, value in about.items():
            if isinstance(value, str):
                yield f"  {quoted(key)}: {quoted(value)}"
            else:
                yield f"  {quoted(key)}:"
                yield from (f"    - {quoted(item)}" for item in value)
        yield "  ..."
