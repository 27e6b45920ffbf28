"""What was recorded, when, on which kernel and by whom, as far as the recordings say it."""

from __future__ import annotations

import shlex
from collections.abc import Iterable, Iterator, Mapping, Sequence
from datetime import datetime, timezone
from pathlib import Path

from ...common.problems import Problem
from ...recorder.recordings import WITNESS, About, read_about
from .markup import Markup, element

Facts = Sequence[tuple[str, str]]


def facts(recordings: Mapping[str, Path]) -> list[Facts]:
    """What the recordings in some folders say of themselves, by their names; one that another program made says
    nothing."""
    found: list[Facts] = []
    for name, folder in recordings.items():
        try:
            said = list(_of(read_about(folder)))
        except (Problem, OverflowError, ValueError):
            continue
        found.append([("recording", name), *said] if len(recordings) > 1 else said)
    return found


def _of(about: About) -> Iterator[tuple[str, str]]:
    """The facts of one recording."""
    if about.command:
        yield "command", shlex.join(map(str, about.command))
    yield "in", about.directory
    began = datetime.fromtimestamp(about.started, timezone.utc)
    yield "when", f"{began:%Y-%m-%d %H:%M} UTC"
    if about.by == WITNESS or about.strace:
        yield "by", "landaudit-witness" if about.by == WITNESS else f"strace {about.strace}"
    if about.kernel:
        yield "kernel", f"Linux {about.kernel}"
    if about.euid is not None:
        yield "user", "root" if about.euid == 0 else f"number {about.euid}"


def told(recorded: Iterable[Facts]) -> list[Markup]:
    """A list of facts for each recording."""
    return [element("dl", *(element("div", element("dt", name), element("dd", said, kind="path"))
                            for name, said in facts), kind="recorded") for facts in recorded]
