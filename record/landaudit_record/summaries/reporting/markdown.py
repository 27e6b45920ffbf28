"""Markdown as GitHub has it (GFM), for the summary of a job: a heading, a sentence, and a table of findings.

Names are not trusted: what a name has that Markdown or HTML may act on is written by its number.
"""

from __future__ import annotations

import re
import shlex
from collections.abc import Iterator

from ...common.findings import Finding, Report
from ...common.wording import counted, plain

#: The most rows: a job's summary holds 1 MiB.
MOST = 500
_ACTIVE = re.compile(r"[$&*:<>@\[\\\]`{|}~#]|(?<![A-Za-z0-9])_|_(?![A-Za-z0-9])|(?<=(?i:www))\.")


def lines(report: Report) -> Iterator[str]:
    """The report as Markdown."""
    found = report.few
    yield f"### {_text(f'{report.command}: {report.about}')}"
    yield ""
    yield _text(report.summary)
    if not found:
        return
    yield ""
    yield from ("| | What | Why | Calls | Where |", "|---|---|---|--:|---|")
    yield from map(_row, found[:MOST])
    if len(found) > MOST:
        yield f"\n{counted(len(found) - MOST, 'more finding')}: another format has them all."
    if report.remedy:
        yield f"\nWhat would help: <code>{_text(shlex.join(report.remedy))}</code>"


def _row(finding: Finding) -> str:
    """A finding as a row."""
    spot = finding.spot
    line = "" if spot is None or spot.line is None else f":{spot.line}"
    times = "" if finding.times is None else f"{finding.times:,}"
    where = "" if spot is None else f"<code>{_text(spot.name)}{line}</code>"
    cells = (finding.level.value, f"<code>{_text(finding.subject)}</code>", _text(finding.text), times, where)
    return f"| {' | '.join(cells)} |"


def _text(text: str) -> str:
    """A text on one line of which nothing is markup; entities do not stand for markup (CommonMark 0.30, 2.5)."""
    return _ACTIVE.sub(lambda found: f"&#{ord(found[0])};", plain(text))
