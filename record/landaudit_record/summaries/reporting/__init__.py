"""What a command found, in the formats that other programs read: SARIF, JUnit, Markdown and annotations of GitHub."""

from __future__ import annotations

import argparse
import importlib

from ...common.findings import Report

TEXT, JSON = "text", "json"
#: Each of the others is printed by the module of its name.
FORMATS = (TEXT, JSON, "sarif", "junit", "markdown", "github")


def add_format(parser: argparse.ArgumentParser, text: str = "text for a person") -> None:
    """Adds the options that choose how the result is printed; `text` says what the default prints."""
    chosen = parser.add_mutually_exclusive_group()
    chosen.add_argument(
        "--format",
        choices=FORMATS,
        default=TEXT,
        help=f"how the result is printed: {text} (default), JSON, SARIF 2.1.0, JUnit's XML, Markdown, or annotations "
        "of GitHub",
    )
    chosen.add_argument("--json", dest="format", action="store_const", const=JSON, help="print the result as JSON")


def show(report: Report, chosen: str) -> None:
    """Prints a report in a format; importing all of them takes longer than most reports."""
    for line in importlib.import_module(f"{__name__}.{chosen}").lines(report):
        print(line)
