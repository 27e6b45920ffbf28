"""Tables of the page, with their texts."""

from __future__ import annotations

from collections.abc import Iterable, Sequence
from dataclasses import dataclass

from ...engine.subjects import Subject
from .markup import Markup, element, text, together

#: A longer text is in a box that scrolls.
LONGEST = 300
#: The fewest rows of which columns that are all the same are said once.
SEVERAL = 2


@dataclass(frozen=True)
class TableRow:
    """A row of a table: its cells, and its classes."""

    cells: tuple[str, ...]
    kind: str = ""


def row(*cells: str, kind: str = "") -> TableRow:
    """A row of a table."""
    return TableRow(cells, kind)


def table(kind: str, heads: Sequence[str], rows: Iterable[TableRow], once: Sequence[str] = ()) -> Markup:
    """A table with the names of its columns; of the columns `once`, those that are the same on every row are said
    above it."""
    each = list(rows)
    same = {head: each[0].cells[number] for number, head in enumerate(heads) if head in once and _is_same(each, number)}
    left = [(number, head) for number, head in enumerate(heads) if head not in same]
    columns = (element("th", head, kind=_class(head), attributes={"scope": "col"}) for _, head in left)
    body = (element("tr", *(element("td", one.cells[number], kind=_class(head)) for number, head in left),
                    kind=one.kind) for one in each)
    said = together(element("span", f" {head} ", element("b", cell)) for head, cell in same.items())
    above = element("p", "All:", said, kind="once") if same else ""
    shown = element("table", element("thead", element("tr", *columns)), element("tbody", *body), kind=kind)
    return together((above, shown))


def _is_same(rows: Sequence[TableRow], column: int) -> bool:
    """Whether several rows say the same in a column."""
    return len(rows) >= SEVERAL and len({one.cells[column] for one in rows}) == 1


def _class(head: str) -> str:
    """The class of a column's cells."""
    return head.replace(" ", "-")


def named(plain: str) -> Markup:
    """A name from a recording; a long one is in a box that scrolls, also by keys."""
    return text(plain) if len(plain) <= LONGEST else element("span", plain, kind="long", attributes={"tabindex": "0"})


def about(subject: Subject) -> Markup:
    """What a call is about. Each of several paths is an element, since the page looks for directories in each."""
    if len(subject.paths) < 2:
        return named(str(subject))
    first, *others = (element("span", named(path), kind="one") for path in subject.paths)
    return together((first, *(part for one in others for part in (text(subject.between), one))))


def paragraph(*inside: str, kind: str = "") -> Markup:
    """A paragraph."""
    return element("p", *inside, kind=kind)
