"""A comparison of two policies as data for programs: docs/diff.schema.json describes it; its keys stay."""

from __future__ import annotations

from collections.abc import Iterable
from typing import Any

from ..common.wording import runs
from .differing_layers import MountChanges, Room, Unscoped
from .differing_rows import DifferenceRow, Gains, Moves, RightsInArea, RightsOnMoved, RightsOnPorts, What
from .differing_text import row_text
from .regions import Area
from .reviewing import Review

#: The version of what --json prints.
FORMAT = 1


def as_data(review: Review) -> dict[str, Any]:
    """All that differs."""
    return {
        "format": FORMAT,
        "old": None if review.old is None else str(review.old),
        "old_allows": review.allowed,
        "new": str(review.new),
        "abis": list(review.abis),
        "tried": review.tried,
        "more": _rows(review.more, review),
        "less": _rows(review.less, review),
        "accepted": [{"reason": one.reason, "differences": _rows(rows, review)} for one, rows in review.accepted],
        "accepted_not_there": [{"reason": one.reason, "text": str(one)} for one in review.not_there],
    }


def _rows(rows: Iterable[DifferenceRow], review: Review) -> list[dict[str, Any]]:
    return [{**_what(row.what), "abis": sorted(row.abis), "text": row_text(row, review)} for row in rows]


def _what(what: What) -> dict[str, Any]:
    """A difference by its kind."""
    match what:
        case RightsInArea(rights, area):
            return {"kind": "rights", "rights": list(rights), "area": area_data(area)}
        case RightsOnMoved(rights, layer, directories, file):
            return {"kind": "objects", "rights": list(rights), "layer": layer, "directories": list(directories),
                    "file": file}
        case RightsOnPorts(rights, ports, every):
            ranges = [[run[0], run[-1]] for run in runs(ports)]
            return {"kind": "ports", "rights": list(rights), "every_but": every, "ports": ranges}
        case Moves(kinds, sources, themselves, to):
            return {"kind": "moves", "kinds": list(kinds), "from": list(map(area_data, sources)),
                    "themselves": list(themselves), "to": list(map(area_data, to))}
        case Gains(rights, layer, directory, sources):
            on = [area_data(Area(source.path, as_file=source.as_file)) for source in sources]
            into = [area_data(Area(directory))]
            return {"kind": "gains", "rights": list(rights), "layer": layer, "from": on, "to": into}
        case MountChanges():
            return {"kind": "mounts"}
        case Unscoped(scope):
            return {"kind": "scope", "scope": scope}
        case Room(used, other):
            return {"kind": "layers", "used": used, "other": other}


def area_data(area: Area) -> dict[str, Any]:
    """An area as data."""
    return {"path": area.path, "as_file": area.as_file, "but_for": list(area.but_for),
            "but_for_files": list(area.but_for_files)}
