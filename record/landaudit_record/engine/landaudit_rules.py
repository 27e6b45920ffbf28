"""The program landaudit-rules: finds it and asks it (landaudit-rules(1))."""

from __future__ import annotations

import json
import os
import shutil
import subprocess
import sys
from collections.abc import Sequence
from concurrent.futures import ThreadPoolExecutor
from pathlib import Path
from typing import Any

from ..common.problems import UNREADABLE, WANTING, Problem

NAME = "landaudit-rules"
BUILT = Path(__file__).resolve().parents[3] / "crates" / "landaudit_rules" / "out" / "landaudit_rules"
#: The statuses with which it has answered all lines; with the latter, the kernel would refuse a rule of a policy.
_ANSWERED = (0, 1)
#: The landaudits that the user has named, the last first: each may have the program beside it.
_named: list[Path] = []


def look_beside(landaudit: Path) -> None:
    """Looks first beside a landaudit that the user names, from now on."""
    _named.insert(0, landaudit)


def find() -> Path:
    """The program beside a landaudit that was named, else the built one, the installed one, or the one on PATH."""
    for program in (*(one.parent / NAME for one in _named), BUILT, Path(sys.argv[0]).parent / NAME):
        if os.access(program, os.X_OK) and program.is_file():
            return program
    found = shutil.which(NAME)
    if found is None:
        raise Problem(f"{NAME} is not built: run 'make landaudit', or install it beside landaudit", WANTING)
    return Path(found)


def ask(program: Path, asked: Sequence[str], *words: str, first: str | None = None) -> list[list[Any]]:
    """The values that the program answers to each of some lines. An answer begins with the operation `first`, or is one
    value; a fault of a run is a Problem. Several lines are answered by several runs at a time."""
    found: dict[int, list[Any]] = {}
    parts = _parts(asked)
    with ThreadPoolExecutor() as runs:
        texts = runs.map(lambda part: _run([str(program), *words], _input(asked, part)), parts)
        for part, text in zip(parts, texts):
            answers = _answers(text, first)
            if len(answers) != len(part):
                said = f"{NAME} answers {len(answers)} of {len(part)} lines"
                raise Problem(f"{said}: use programs of one version", WANTING)
            found.update(zip(part, answers))
    return [found[number] for number in range(len(asked))]


def _parts(asked: Sequence[str]) -> list[list[int]]:
    """The numbers of the lines for each run, one for each processor: the longest lines are given to them in turn."""
    runs = min(len(asked), len(os.sched_getaffinity(0)))
    longest_first = sorted(range(len(asked)), key=lambda number: -len(asked[number]))
    return [sorted(longest_first[run::runs]) for run in range(runs)]


def _input(asked: Sequence[str], part: Sequence[int]) -> str:
    """The lines of a run; blank ones are in place of the others, for a fault's number."""
    mine = frozenset(part)
    return "".join(f"{line if number in mine else ''}\n" for number, line in enumerate(asked))


def _answers(text: str, first: str | None) -> list[list[Any]]:
    """The values of each answer of a run."""
    found: list[list[Any]] = []
    for value in map(json.loads, text.splitlines()):
        if first is None or value.get("op") == first:
            found.append([])
        found[-1].append(value)
    return found


def _run(command: Sequence[str], text: str) -> str:
    try:
        ended = subprocess.run(command, input=text, capture_output=True, text=True, check=False)
    except OSError as error:
        raise Problem(f"cannot run {command[0]}: {error.strerror}", WANTING) from error
    if ended.returncode in _ANSWERED:
        return ended.stdout
    said = ended.stderr.strip().splitlines() or [f"{NAME} ended with status {ended.returncode}"]
    raise Problem(said[0], UNREADABLE if ended.returncode == UNREADABLE else WANTING)
