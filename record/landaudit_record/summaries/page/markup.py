"""HTML in which a text is never markup: the contents of an element are escaped, unless they are elements."""

from __future__ import annotations

from collections.abc import Iterable, Mapping
from html import escape

from ...common.wording import printable

#: Elements that have no contents and no end tag.
_VOID = frozenset({"input", "meta"})


class Markup(str):
    """A text that is already HTML: only this module makes one from texts, and escapes them."""


def text(plain: str) -> Markup:
    """A text as HTML, with Python's escape for what a screen would interpret: control characters, marks that turn
    the direction of writing, and bytes that are not UTF-8."""
    return Markup(escape(printable(plain)))


def together(parts: Iterable[str]) -> Markup:
    """Parts one after another; those that are not markup are escaped."""
    return Markup("".join(part if isinstance(part, Markup) else text(part) for part in parts))


def element(name: str, *inside: str, attributes: Mapping[str, str] | None = None, kind: str = "") -> Markup:
    """An element with its contents; `kind` has its classes, and an attribute without a value is an empty text."""
    given = {**({"class": kind} if kind else {}), **(attributes or {})}
    words = "".join(f' {key}="{text(value)}"' if value else f" {key}" for key, value in given.items())
    end = "" if name in _VOID else f"</{name}>"
    return Markup(f"<{name}{words}>{together(inside)}{end}")
