"""A page of an audit, read as a browser reads it, and what of it is seen when an ABI is chosen."""

from __future__ import annotations

from collections.abc import Iterator
from dataclasses import dataclass, field
from html.parser import HTMLParser

_VOID = frozenset({"input", "meta"})


@dataclass
class Element:
    """An element with its attributes and what is in it."""

    name: str
    attributes: dict[str, str | None] = field(default_factory=dict)
    inside: list[Element | str] = field(default_factory=list)

    @property
    def kinds(self) -> set[str]:
        """Its classes."""
        return set((self.attributes.get("class") or "").split())

    def elements(self) -> Iterator[Element]:
        """All elements in it and itself."""
        yield self
        for one in self.inside:
            if isinstance(one, Element):
                yield from one.elements()

    def all(self, name: str, kind: str | None = None) -> list[Element]:
        """The elements of a name, of one class if that is given."""
        return [one for one in self.elements() if one.name == name and (kind is None or kind in one.kinds)]

    def seen(self, abi: int) -> bool:
        """Whether it is seen when an ABI is chosen."""
        return "a" not in self.kinds or f"a{abi}" in self.kinds

    def text(self, abi: int) -> str:
        """What it says when an ABI is chosen."""
        return "".join(one if isinstance(one, str) else one.text(abi) * one.seen(abi) for one in self.inside)

    def rows(self, kind: str, abi: int) -> list[list[str]]:
        """The rows of a table when an ABI is chosen."""
        (table,) = self.all("table", kind)
        (body,) = table.all("tbody")
        return [[one.text(abi) for one in row.elements() if one.name in ("td", "th")]
                for row in body.all("tr") if row.seen(abi)]

    def said(self, kind: str, abi: int) -> list[dict[str, str]]:
        """The rows of a table when an ABI is chosen, by column, with what is said once above the table."""
        (table,) = self.all("table", kind)
        (head,) = table.all("thead")
        names = [one.text(abi) for one in head.all("th")]
        above = [one for one in self.elements() if one is table or "once" in one.kinds]
        before = above[above.index(table) - 1] if above.index(table) else table
        parts = before.all("span") if "once" in before.kinds else []
        once = {part.text(abi).removesuffix(said.text(abi)).strip(): said.text(abi) for part in parts
                for said in part.all("b")}
        return [{**once, **dict(zip(names, row, strict=True))} for row in self.rows(kind, abi)]


class _Reader(HTMLParser):
    """Reads a page whose elements all have their ends."""

    def __init__(self) -> None:
        super().__init__()
        self.open = [Element("")]

    def handle_starttag(self, tag: str, attrs: list[tuple[str, str | None]]) -> None:
        one = Element(tag, dict(attrs))
        self.open[-1].inside.append(one)
        if tag not in _VOID:
            self.open.append(one)

    def handle_endtag(self, tag: str) -> None:
        if self.open.pop().name != tag:
            raise AssertionError(f"</{tag}> ends another element")

    def handle_data(self, data: str) -> None:
        self.open[-1].inside.append(data)

    def handle_comment(self, data: str) -> None:
        raise AssertionError(f"a comment: {data}")


def read(page: str) -> Element:
    """The page as elements."""
    reader = _Reader()
    reader.feed(page)
    reader.close()
    if len(reader.open) != 1:
        raise AssertionError(f"{reader.open[-1].name} has no end")
    return reader.open[0]
