"""Puts the folder of a recording into one compressed file."""

from __future__ import annotations

import argparse
from pathlib import Path

from ...recorder import packing
from .distill import add_output

NAME = "pack"
HELP = "put the folder of a recording into one compressed file"
EXAMPLE = "landaudit-record pack rec -o rec.tar.zst"


def add_arguments(parser: argparse.ArgumentParser) -> None:
    """Adds the arguments of the subcommand."""
    parser.add_argument("recording", metavar="OUT", type=Path, help="the folder of a recording")
    add_output(parser)


def run(arguments: argparse.Namespace) -> int:
    """Writes the file."""
    packing.pack(arguments.recording, arguments.output)
    return 0
