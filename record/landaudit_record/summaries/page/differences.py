"""A comparison of two policies as a page, in the form of an audit's page."""

from __future__ import annotations

from collections.abc import Iterable, Iterator
from pathlib import Path

from ...common.wording import spans
from ...policy import differing_text
from ...policy.differing_rows import DifferenceRow
from ...policy.reviewing import EVERYTHING, Review
from . import put
from .markup import Markup, together
from .parts import Figure, page
from .sections import Section
from .tables import named, paragraph, row, table

LAYERS = "refused by"
HEADS = ("what", "place", LAYERS, "ABI")


def write(file: Path, review: Review) -> None:
    """Writes the page, either whole or not at all."""
    put(file, made(review).encode())


def made(review: Review) -> str:
    """The page of a comparison."""
    title = f"{review.new} in place of {review.old}" if review.old else f"{review.new}, without an old policy"
    about = ("What the new policy lets pass and the old one refuses, and the reverse, whatever files exist. "
             if review.old else "What the policy lets pass or refuses, whatever files exist. ")
    return page(title, f"{about}{differing_text.tried(review)}.", _figures(review), list(_parts(review)))


def _figures(review: Review) -> Iterator[Figure]:
    """How much differs."""
    if review.allowed != EVERYTHING:
        accepted = sum(len(rows) for _, rows in review.accepted)
        yield len(review.more), "pass now" if review.old else "pass", "refused" if review.more else "none"
        yield from [(accepted, "pass and are accepted", "")] if review.accepted else []
    if review.old or review.allowed == EVERYTHING:
        yield len(review.less), "pass no more" if review.old else "are refused", ""


def _parts(review: Review) -> Iterator[Section]:
    """All parts that the page may have, in their order."""
    both = review.old is not None
    yield Section("more", "Passes now" if both else "Passes", _table(review.more, review))
    accepted = (together((paragraph(named(one.reason)), _table(rows, review))) for one, rows in review.accepted)
    yield Section("accepted", "Passes now, and is accepted" if both else "Passes, and is accepted", together(accepted))
    gone = (row(named(str(one)), named(one.reason)) for one in review.not_there)
    yield Section("not-there", "Accepted, and not there",
                  table("kinds differences", ("place", "reason"), gone) if review.not_there else Markup())
    yield Section("less", "Passes no more" if both else "Refused", _table(review.less, review))


def _table(rows: Iterable[DifferenceRow], review: Review) -> Markup:
    """A table of differences; the layers have a column if some are named."""
    shown = []
    for one in rows:
        what, where = differing_text.halves(one.what)
        layer = differing_text.refusing_layer(one.what, review)
        shown.append((named(what), named(where), f"layer {layer}" if layer else "", spans(one.abis)))
    kept = [number for number, head in enumerate(HEADS) if head != LAYERS or any(cells[number] for cells in shown)]
    body = (row(*(cells[number] for number in kept)) for cells in shown)
    heads = [HEADS[number] for number in kept]
    return table("kinds differences", heads, body, once=(LAYERS, "ABI")) if shown else Markup()
