"""Annotations of GitHub: a command of its workflows for each finding that is no passed test.

They are escaped as GitHub's actions/toolkit escapes them. A step shows at most ten of each level, so others are counted
in the last one.
"""

from __future__ import annotations

from collections.abc import Iterator, Mapping
from itertools import groupby

from ...common.findings import Finding, Level, Report
from ...common.wording import plain

#: The most annotations of a level that a step shows.
MOST = 10
_COMMANDS = {Level.ERROR: "error", Level.WARNING: "warning", Level.NOTE: "notice"}


def lines(report: Report) -> Iterator[str]:
    """The annotations, the gravest first, and a last line on all of it, which is none."""
    for level, found in groupby(report.few, key=lambda finding: finding.level):
        some = list(found)
        shown = some if len(some) <= MOST else some[:MOST - 1]
        yield from (_annotation(finding, report) for finding in shown)
        if len(some) > len(shown):
            text = f"{len(some) - len(shown):,} more; another format has them all"
            yield _command(level, {"title": report.command}, text)
    yield plain(f"{report.command}: {report.about}: {report.summary}")


def _annotation(finding: Finding, report: Report) -> str:
    """A finding, at its place."""
    spot, about = finding.spot, dict[str, str]()
    if spot is not None:
        about["file"] = spot.name
        if spot.line is not None:
            about |= {"line": str(spot.line), "col": str(spot.column)}
            about |= {} if spot.end is None else {"endColumn": str(spot.end)}
    return _command(finding.level, {**about, "title": f"{report.command}: {finding.kind.name}"}, finding.message)


def _command(level: Level, about: Mapping[str, str], text: str) -> str:
    """A command of a workflow."""
    properties = ",".join(f"{name}={_escaped(value, ':,')}" for name, value in about.items())
    return f"::{_COMMANDS[level]} {properties}::{_escaped(text)}"


def _escaped(text: str, more: str = "") -> str:
    """A text in which nothing ends a command or, with `more`, a property of it."""
    return "".join(f"%{ord(one):02X}" if one in f"%\r\n{more}" else one for one in plain(text))
