"""The differences of two policies in words: rights by area, ports, mounts, and moves by source and target."""

from __future__ import annotations

from collections.abc import Iterable, Iterator

from ..common.rights import REFER
from ..common.wording import plain, runs, span, spans
from .differing_rows import DifferenceRow, Gains, Moves, RightsInArea, RightsOnMoved, RightsOnPorts, What
from .reviewing import EVERYTHING, Review
from .sides import OF_OPENED

_KINDS = {
    "reg": "regular files",
    "dir": "directories",
    "sym": "symbolic links",
    "char": "character devices",
    "block": "block devices",
    "fifo": "named pipes",
    "sock": "sockets",
}


#: What passes wherever an object is, but no call asks for it alone.
_EVERYWHERE = {
    OF_OPENED: "ioctl_dev on what is opened after it was moved or linked",
    REFER: "refer on what is moved or linked after other objects were",
}
#: Two neighbouring ports are named one by one.
_PAIR = 2


def lines(review: Review) -> Iterator[str]:
    """The lines of a comparison, each without its line feed."""
    yield from map(plain, _lines(review))


def _lines(review: Review) -> Iterator[str]:
    if not review.differs and review.old is not None:
        yield f"no call differs: {tried(review)}"
        return
    for head, rows in sections(review):
        yield head
        yield from (f"  {row_text(row, review)}" for row in rows)
    for accepted, rows in review.accepted:
        yield f"accepted ({accepted.reason}):"
        yield from (f"  {row_text(row, review)}" for row in rows)
    yield tried(review)


def tried(review: Review) -> str:
    """What the comparison rests on."""
    return f"{review.tried:,} calls compared, at ABI {span(review.abis)}"


def sections(review: Review) -> Iterator[tuple[str, tuple[DifferenceRow, ...]]]:
    """The differences in both directions, each with a head; without an old policy, in one."""
    besides = ", but for what is accepted" if review.accepted else ""
    if review.old is None:
        if review.allowed == EVERYTHING:
            yield f"{review.new} refuses{':' if review.less else ' nothing'}", review.less
        else:
            yield f"{review.new} lets {'pass:' if review.more else f'nothing pass{besides}'}", review.more
        return
    for one, rows, other, rest in ((review.new, review.more, review.old, besides),
                                   (review.old, review.less, review.new, "")):
        what = f"pass what {other} refuses:" if rows else f"nothing pass that {other} refuses{rest}"
        yield f"{one} lets {what}", rows


def refusing_layer(what: What, review: Review) -> int | None:
    """The layer of the other policy that refuses a difference, where that is not said by its place."""
    is_read = review.old is not None or review.allowed == EVERYTHING
    return what.layer if is_read and isinstance(what, (RightsOnMoved, Gains)) else None


def row_text(row: DifferenceRow, review: Review) -> str:
    """A row in words, with its ABIs if they are not all."""
    behind = "" if row.abis == frozenset(review.abis) else f" (at ABI {spans(row.abis)})"
    layer = refusing_layer(row.what, review)
    return text(row.what) + (f" (refused by layer {layer})" if layer else "") + behind


def text(what: What) -> str:
    """A difference in words."""
    if isinstance(what, Gains):
        return f"perhaps {_gaining(what)}, which give {', '.join(what.rights)}"
    return " ".join(filter(None, halves(what)))


def halves(what: What) -> tuple[str, str]:
    """A difference in words: what differs, and where."""
    match what:
        case RightsInArea(rights, area):
            return ", ".join(rights), str(area)
        case RightsOnMoved(rights, _, directories, file):
            objects = [*directories, *([] if file is None else [f"{file} as a file"])]
            return (", ".join(rights), _by_rules(objects)) if objects else (_EVERYWHERE[rights[0]], "")
        case RightsOnPorts(rights, ports, every):
            some = _listed(ports)
            where = f"every port, but for {some}" if every and some else some or "every port"
            return ", ".join(rights), f"on {where}"
        case Moves():
            return _moves(what)
        case Gains():
            return ", ".join(what.rights), f"perhaps by {_gaining(what)}"
    return str(what), ""


def _by_rules(objects: list[str]) -> str:
    """By which rules something passes once objects are moved or linked."""
    where = (f"rule on {objects[0]}, wherever that is moved or linked" if len(objects) == 1 else
             f"rules on {', '.join(objects)}, if these are moved or linked into one another")
    return f"by the {where}"


def _listed(ports: Iterable[int]) -> str:
    """Ports in order, three or more neighbours as one range."""
    return ", ".join(f"ports {span(run)}" if len(run) > _PAIR else ", ".join(f"port {port}" for port in run)
                     for run in runs(ports))


def _moves(what: Moves) -> tuple[str, str]:
    """What moves, and from where to where."""
    every = len(what.kinds) == len(_KINDS)
    kinds = "objects of every kind" if every else ", ".join(_KINDS[kind] for kind in what.kinds)
    as_what = "itself" if "dir" in what.kinds else "as a file"
    where = "; ".join([*(f"from {area}" for area in what.sources), *(f"{path} {as_what}" for path in what.themselves)])
    return f"moves of {kinds}", f"{where} {'; '.join(f'to {area}' for area in what.to)}"


def _gaining(what: Gains) -> str:
    """Moves that may pass by what objects gain."""
    sources = ", ".join(f"{it.path} as a file" if it.as_file else it.path for it in what.sources)
    return f"{f'moves from under {sources}' if sources else 'moves'} to under {what.directory}"
