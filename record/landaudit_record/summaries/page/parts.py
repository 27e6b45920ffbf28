"""What pages other than an audit's have in common: figures, and the frame of pages about policies."""

from __future__ import annotations

from collections.abc import Iterable, Sequence

from ... import POLICIES
from . import links, whole
from .markup import Markup, element, together
from .sections import Section, looking

Figure = tuple[int, str, str]
"""A number, what it counts, and its class."""


def page(title: str, about: str, figures: Iterable[Figure], sections: Sequence[Section]) -> str:
    """The page of a command of landaudit-policy, with those of its sections that are not empty."""
    parts = [part for part in sections if part.inside]
    top = element("header", element("h1", title), element("p", about, kind="quiet"))
    main = element("main", in_a_line(figures), *(part.markup() for part in parts), looking())
    return whole(title, together((top, element("nav", links(parts)), main)), program=POLICIES)


def in_a_line(each: Iterable[Figure]) -> Markup:
    """Numbers in one line."""
    told = (element("div", element("b", f"{number:,}"), " ", element("span", what), kind=kind)
            for number, what, kind in each)
    return element("div", *told, kind="figures")
