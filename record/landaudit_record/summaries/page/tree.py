"""The tree of paths in the page: the number of allowed, refused and moot calls at or below each directory."""

from __future__ import annotations

import heapq
from collections.abc import Iterator, Sequence
from dataclasses import dataclass, field
from itertools import count

from ...common.wording import counted
from .by_version import varied
from .counting import CountedName, Counts
from .markup import Markup, element, together

#: The most rows of the tree, and how many of them are seen before a reader opens or closes any.
MOST_ROWS = 1_500
SEEN_ROWS = 24


@dataclass
class Shape:
    """The directories with rows for their contents, and those of them whose rows are seen at first."""

    listed: set[CountedName] = field(default_factory=set)
    opened: set[CountedName] = field(default_factory=set)


def tree(abis: Sequence[int], root: CountedName) -> Markup:
    """The whole tree, and what its columns are."""
    names = ("at or below", "allowed", "refused", "moot")
    heads = element("div", *(element("span", name) for name in names), kind="row heads")
    return together((heads, element("ul", _row(abis, root, root.name, _shape(root)), kind="tree")))


def _shape(root: CountedName) -> Shape:
    """Lists the contents of directories, those with most refusals first, until there are as many rows as allowed."""
    found, rows, seen, turn = Shape(), 1, 0, count()
    waiting = [((0, 0), next(turn), root)]
    while waiting:
        _, _, node = heapq.heappop(waiting)
        inside = [joined(child)[0] for child in _named(node)]
        if rows + len(inside) > MOST_ROWS:
            continue
        rows += len(inside)
        found.listed.add(node)
        if node is root or (node.counts.ever_refused and seen + len(inside) <= SEEN_ROWS):
            found.opened.add(node)
            seen += len(inside)
        for child in inside:
            if child.children:
                refused, calls = child.counts.weight
                heapq.heappush(waiting, ((-refused, -calls), next(turn), child))
    return found


def _named(node: CountedName) -> list[CountedName]:
    """The contents of a directory with rows of their own: directories, and names at which an ABI refuses a call."""
    return [child for child in node.by_weight() if child.children or child.counts.ever_refused]


def joined(node: CountedName) -> tuple[CountedName, str]:
    """The end of a chain of directories with only one directory in each, and the name of the chain."""
    name = node.name
    while len(node.children) == 1:
        (child,) = node.children.values()
        if not child.children or child.counts.all != node.counts.all:
            break
        node, name = child, f"{name}/{child.name}"
    return node, name


def _row(abis: Sequence[int], node: CountedName, name: str, shape: Shape) -> Markup:
    """The row of a node, which contains the rows of its contents."""
    if not node.children:
        return element("li", element("div", *_cells(abis, name, node.counts), kind="row"))
    cells = _cells(abis, name if name.endswith("/") else f"{name}/", node.counts)
    opened = {"open": ""} if node in shape.opened else {}
    inside = element("ul", *_inside(abis, node, shape))
    return element("li", element("details", element("summary", *cells, kind="row"), inside, attributes=opened))


def _inside(abis: Sequence[int], node: CountedName, shape: Shape) -> Iterator[Markup]:
    """The rows of a directory's contents; names without a row of their own share one."""
    named = _named(node) if node in shape.listed else []
    rest = Counts(0, [0] * len(abis), [0] * len(abis))
    for child in node.children.values():
        rest.add(child.counts)
    for child in named:
        rest.add(child.counts, -1)
        end, name = joined(child)
        yield _row(abis, end, name, shape)
    left = len(node.children) - len(named)
    if left:
        said = counted(left, "more name" if named else "name")
        yield element("li", element("div", *_cells(abis, said, rest, "rest"), kind="row"))


def _cells(abis: Sequence[int], name: str, counts: Counts, kind: str = "path") -> Iterator[Markup]:
    """The columns of a row."""
    yield element("span", name, kind=kind, attributes={"dir": "ltr"})
    for title, numbers in columns(abis, counts):
        zero = " none" if not any(numbers) else ""
        yield element("span", varied(abis, [f"{number:,}" for number in numbers]), kind=title + zero)


def columns(abis: Sequence[int], counts: Counts) -> Iterator[tuple[str, list[int]]]:
    """The numbers of allowed, refused and moot calls at each ABI."""
    yield "allowed", [counts.allowed(at) for at in range(len(abis))]
    yield "refused", counts.refused
    yield "moot", counts.moot
