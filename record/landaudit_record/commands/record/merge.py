"""Joins audits of different recordings into one, or distilled recordings into one file."""

from __future__ import annotations

import argparse
import json
import sys
from pathlib import Path

from ...audit import distilled, joining
from ...common.problems import USAGE, Problem

NAME = "merge"
HELP = "join the results of 'audit --json' for different recordings, or distilled recordings, in any order"
EXAMPLE = """landaudit-record merge host1.json host2.json > all.json
  landaudit-record merge unit.distilled web.distilled -o app.distilled"""


def add_arguments(parser: argparse.ArgumentParser) -> None:
    """Adds the arguments of the subcommand."""
    parser.add_argument(
        "files", metavar="FILE", nargs="+", type=Path,
        help="what 'audit --json' or 'merge' printed, or else distilled recordings",
    )
    parser.add_argument(
        "-o", "--output", metavar="FILE", type=Path, help="the file to write (default: standard output)"
    )


def run(arguments: argparse.Namespace) -> int:
    """Writes the joined files; the status of joined audits is that of an audit of all their recordings."""
    of_recordings = [path for path in arguments.files if distilled.is_distilled(path)]
    if of_recordings and len(of_recordings) < len(arguments.files):
        raise Problem(f"{of_recordings[0]} is a distilled recording and others are not: merge either these or audits",
                      USAGE)
    status, text = (0, _distilled(of_recordings)) if of_recordings else _audits(arguments.files)
    if arguments.output is None:
        sys.stdout.write(text)
    else:
        arguments.output.write_text(text, encoding="utf-8", newline="\n")
    return status


def _distilled(files: list[Path]) -> str:
    """One file with all recordings."""
    return "".join(f"{line}\n" for line in distilled.lines(one for path in files for one in distilled.read(path)))


def _audits(files: list[Path]) -> tuple[int, str]:
    """The status of one audit of all, and its text."""
    found = joining.joined([one for path in files for one in joining.read(path)])
    return found["status"], f"{json.dumps(found, indent=2)}\n"
