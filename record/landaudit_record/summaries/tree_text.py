"""Refused calls as a tree of their places, as `cargo tree` and tree(1) draw one."""

from __future__ import annotations

import heapq
from collections.abc import Iterator, Sequence
from dataclasses import dataclass, field
from itertools import count

from ..audit.summary import Refusal, Summary
from ..common import layout
from ..common.layout import Cell, Column, Lack, words
from ..common.trees import ROOT
from ..common.wording import counted
from . import summary_text
from .summary_text import Style

#: The most rows, unless all are asked for.
MOST_ROWS = 40
#: The most names of a path that are directories of the tree.
_MOST_NAMES = 64


@dataclass(eq=False)
class _Node:
    """A name in a directory: how many calls are refused at or below it, and the kinds at it."""

    name: str
    times: int = 0
    kinds: list[Refusal] = field(default_factory=list)
    inside: dict[str, _Node] = field(default_factory=dict)

    @property
    def places(self) -> int:
        """How many places at or below it have refused calls."""
        return bool(self.kinds) + sum(node.places for node in self.inside.values())


_COLUMNS = (Column("times", number=True), Column("place", short=True), Column("call", short=True, less=True),
            Column("error"), Column("layers"), Column("why", short=True))
#: The columns that are shown: the first of these that are not too wide.
_SHOWN = ((0, 1, 2, 3, 4, 5), (0, 1, 2, 5), (0, 1, 5), (0, 1), (1,))


def lines(summary: Summary, style: Style, each: bool) -> Iterator[str]:
    """The lines of the tree; without `each`, directories with fewer calls are closed."""
    roots = _roots(summary)
    opened = _opened(roots, None if each else MOST_ROWS)
    yield from summary_text.heading(f"refused, by place ({counted(len(summary.refusals), 'kind')})", style)
    alike = {_by([refusal]) for refusal in summary.refusals}
    if len(alike) == 1:
        error, layers = alike.pop()
        said = f"all: error {error}" + (f", layers {layers}" if layers else "")
        yield from (f"  {line}" for line in layout.folded(said, style.width - 2))
    rows = [row for root in roots for row in _rows(root, "", "", opened, style)]
    for shown in _SHOWN[0 if alike else 1:]:
        columns, cells = [_COLUMNS[at] for at in shown], [[row[at] for at in shown] for row in rows]
        if layout.fits(columns, cells, style.width) or shown == _SHOWN[-1]:
            yield from layout.table(columns, cells, style.width)
            break
    if any(node not in opened for root in roots for node in _directories(root)):
        yield "  --all opens all directories"


def _by(refusals: Sequence[Refusal]) -> tuple[str, str]:
    """The errors and the layers by which calls are refused."""
    layers = dict.fromkeys(layer.name for refusal in refusals for layer in refusal.layers)
    return ", ".join(dict.fromkeys(refusal.error for refusal in refusals)), ", ".join(layers)


def _roots(summary: Summary) -> list[_Node]:
    """The tree of paths, and what is no path; directories with nothing but one directory in them are joined to it."""
    root, others = _Node(ROOT), dict[str, _Node]()
    for refusal, programs in summary.refusals.items():
        subject = refusal.subject
        place = summary_text.person(subject)
        way = [root if subject.paths else others.setdefault(place, _Node(place))]
        path, *to = subject.paths or (ROOT,)
        names = [name for name in path[1:].split("/", _MOST_NAMES) if name]
        for name in [*names[:-1], *(subject.between.join([last, *to]) for last in names[-1:])]:
            way.append(way[-1].inside.setdefault(name, _Node(name)))
        for node in way:
            node.times += programs.total()
        way[-1].kinds.append(refusal)
    return [*([_joined(root)] if root.times else []), *others.values()]


def _joined(node: _Node) -> _Node:
    """A node as it is drawn, with the names in the order of the alphabet."""
    while len(node.inside) == 1 and not node.kinds:
        (child,) = node.inside.values()
        if not child.inside:
            break
        child.name = f"{node.name.rstrip('/')}/{child.name}"
        node = child
    node.inside = {child.name: child for child in sorted(map(_joined, node.inside.values()), key=lambda it: it.name)}
    return node


def _directories(node: _Node) -> Iterator[_Node]:
    """The directories at or below a node."""
    if node.inside:
        yield node
        for child in node.inside.values():
            yield from _directories(child)


def _opened(roots: Sequence[_Node], most: int | None) -> set[_Node]:
    """The directories that are open: those with the most calls first, while there is room for what is in them."""
    found, turn, rows = set[_Node](), count(), len(roots)
    waiting = [(-node.times, next(turn), node) for node in roots]
    heapq.heapify(waiting)
    while waiting:
        _, _, node = heapq.heappop(waiting)
        if most is None or rows + len(node.inside) <= most:
            rows += len(node.inside)
            found.add(node)
            for child in node.inside.values():
                heapq.heappush(waiting, (-child.times, next(turn), child))
    return found


def _rows(node: _Node, before: str, inside: str, opened: set[_Node], style: Style) -> Iterator[list[Cell]]:
    """The row of a node, and those of what is in it; `before` and `inside` are the lines before these."""
    is_closed = bool(node.inside) and node not in opened
    shown = [] if is_closed else node.kinds
    said = counted(node.places, "place") if is_closed else ", ".join(dict.fromkeys(it.call for it in shown))
    name = f"{node.name}/" if node.inside and node.name != ROOT else node.name
    rights = dict.fromkeys(word for refusal in shown for lack in summary_text.lacks(refusal) for word in lack.words)
    yield [words(f"{node.times:,}"), layout.branch(before, name), words(said), *map(words, _by(shown)),
           layout.lacks([Lack(tuple(rights))])]
    children = [] if is_closed else list(node.inside.values())
    for child in children:
        is_last = child is children[-1]
        to, over = style.branches.last if is_last else style.branches.other
        yield from _rows(child, inside + to, inside + over, opened, style)
