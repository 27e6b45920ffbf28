"""Writes what the calls of recordings ask a policy, each call once, into one file."""

from __future__ import annotations

import argparse
from pathlib import Path

from ...audit import condensing, distilled, expanding
from ...common.options import add_recordings
from ...common.progress import Progress

NAME = "distill"
HELP = "write what recordings ask a policy, each call once, to one small file that is used in their place"
EXAMPLE = """landaudit-record distill rec -o web.distilled
  landaudit-record audit web.distilled --policy policy.toml"""


def add_arguments(parser: argparse.ArgumentParser) -> None:
    """Adds the arguments of the subcommand."""
    add_recordings(parser)
    add_output(parser)


def add_output(parser: argparse.ArgumentParser) -> None:
    """Adds the option that names the file to write."""
    parser.add_argument("-o", "--output", metavar="FILE", type=Path, required=True, help="the file to write")


def run(arguments: argparse.Namespace) -> int:
    """Writes the file."""
    sections = []
    with Progress() as progress:
        for name in arguments.recordings:
            progress.say(f"distilling {name}")
            if distilled.is_distilled(Path(name)):
                sections += distilled.read(Path(name))
            else:
                sections += [condensing.section(one) for _, one in expanding.opened(name)]
    distilled.write(arguments.output, sections)
    return 0
