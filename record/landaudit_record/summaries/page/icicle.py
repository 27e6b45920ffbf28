"""An icicle over the tree of paths: each directory is as wide as its calls, and the darker, the more are refused."""

from __future__ import annotations

from collections.abc import Iterator, Sequence
from urllib.parse import quote

from ...common.wording import counted, printable
from .by_version import kinds
from .counting import CountedName, Counts
from .markup import Markup, element, together
from .tree import joined

#: The most rows, the height of one in pixels, and the least width of a directory, in percent of the whole.
MOST_LEVELS, HEIGHT, LEAST = 7, 26, 0.5
#: The least width of a directory with a name, in percent of the whole.
LEAST_NAMED = 2.5
#: The steps of the colour; the first is for no refused calls, the last for nothing but refused ones.
STEPS = 5


def icicle(abis: Sequence[int], root: CountedName) -> Markup:
    """The icicle, whose cells are links to what is in their directory."""
    cells = list(_cells(abis, root, "", 0, 0.0, 100.0))
    levels = max((level for level, _ in cells), default=0) + 1
    drawn = element("svg", *(cell for _, cell in cells), kind="icicle",
                    attributes={"width": "100%", "height": str(levels * HEIGHT), "role": "group",
                                "aria-label": "calls by directory"})
    return together((drawn, _legend()))


def _cells(
    abis: Sequence[int], node: CountedName, above: str, level: int, left: float, width: float
) -> Iterator[tuple[int, Markup]]:
    """The cells of a node and of what is below it, each with its level; calls on two paths may be in two cells."""
    end, name = joined(node) if level else (node, node.name)
    path = f"{above}/{name}" if level else ""
    yield level, _cell(abis, end.counts, name, path or "/", level, (left, width))
    inside = [child for child in end.by_calls() if child.counts.all]
    if level + 1 >= MOST_LEVELS or not inside:
        return
    whole = max(end.counts.all, sum(child.counts.all for child in inside))
    for child in inside:
        share = width * child.counts.all / whole
        if share >= LEAST:
            yield from _cells(abis, child, path, level + 1, left, share)
        left += share


def _cell(
    abis: Sequence[int], counts: Counts, name: str, path: str, level: int, across: tuple[float, float]
) -> Markup:
    """One cell: a box in the colour of its refused share at each ABI, and its name as far as that fits."""
    left, width = across
    steps: dict[int, list[int]] = {}
    for at, abi in enumerate(abis):
        steps.setdefault(_step(counts, at), []).append(abi)
    size = {"width": "100%", "height": "100%"}
    boxes = (element("rect", kind=f"s{step}" + (f" {kinds(some)}" if len(steps) > 1 else ""), attributes=size)
             for step, some in steps.items())
    text = element("text", name, attributes={"x": "5", "y": "17"}) if width >= LEAST_NAMED else Markup()
    said = f"{printable(path)}: {counted(counts.all, 'call')}, {counts.refused[-1]:,} refused at ABI {abis[-1]}"
    place = {"x": f"{left:.2f}%", "y": str(level * HEIGHT), "width": f"{width:.2f}%", "height": str(HEIGHT - 1)}
    box = element("svg", element("title", said), *boxes, text, attributes=place)
    return element("a", box, attributes={"href": f"#at={quote(printable(path))}", "data-at": path, "aria-label": said})


def _step(counts: Counts, at: int) -> int:
    """The step of the colour; only no refused calls are the first, and only nothing else the last."""
    if not counts.all or not counts.refused[at]:
        return 0
    return 1 + int((STEPS - 2) * counts.refused[at] / counts.all)


def _legend() -> Markup:
    """What the colours are."""
    said = ((0, " none refused "), (1, " few "), (STEPS // 2, " "), (STEPS - 1, " all refused"))
    return element("p", *(part for step, name in said for part in (_key(step), name)), kind="legend")


def _key(step: int) -> Markup:
    """A small box in the colour of a step."""
    size = {"width": "18", "height": "12"}
    return element("svg", element("rect", kind=f"s{step}", attributes=size), attributes=size, kind="key")
