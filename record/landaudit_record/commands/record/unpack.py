"""Restores the folder of a recording from the file that `pack` wrote."""

from __future__ import annotations

import argparse
from pathlib import Path

from ...recorder import packing

NAME = "unpack"
HELP = "restore the folder of a recording from the file that 'pack' wrote"
EXAMPLE = "landaudit-record unpack rec.tar.zst rec"


def add_arguments(parser: argparse.ArgumentParser) -> None:
    """Adds the arguments of the subcommand."""
    parser.add_argument("file", metavar="FILE", type=Path, help="the file that 'pack' wrote")
    parser.add_argument("out", metavar="OUT", type=Path, help="the folder to make")
    parser.add_argument(
        "--most-bytes",
        metavar="N",
        type=_bytes,
        default=packing.MOST_BYTES,
        help=f"refuse a recording of more than N bytes (default: {packing.MOST_BYTES:,})",
    )


def run(arguments: argparse.Namespace) -> int:
    """Makes the folder."""
    packing.unpack(arguments.file, arguments.out, arguments.most_bytes)
    return 0


def _bytes(text: str) -> int:
    """A number of bytes."""
    if not text.isdecimal():
        raise argparse.ArgumentTypeError(f"{text!r} is not a number of bytes")
    return int(text)
