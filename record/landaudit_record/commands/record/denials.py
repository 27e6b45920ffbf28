"""Sums up what Landlock refused by the kernel's own log, and suggests rules from it."""

from __future__ import annotations

import argparse
import json
import sys
from collections.abc import Iterator, Sequence
from pathlib import Path
from typing import Any

from ... import RECORDER
from ...common import layout, variables
from ...common.problems import NOT_ALL_JUDGED, USAGE, Problem
from ...kernel_log import counting, data, denials, granting, matching, records, text
from ...kernel_log import page as page_of_denials
from ...kernel_log.counting import Counted
from ...kernel_log.granting import Granted
from ...kernel_log.records import Line
from ...kernel_log.text import LogOptions
from ...policy import policies
from ...policy.policies import Policy
from ...summaries.summary_text import Style

NAME = "denials"
HELP = "read in the kernel's log (Linux 6.15 and later) what Landlock refused, and suggest rules"
EXAMPLE = """landaudit-record denials /var/log/audit/audit.log
  journalctl -k -o short-monotonic | landaudit-record denials -
  landaudit-record denials audit.log --policy policy.toml --suggest >> policy.toml"""
STANDARD_INPUT = "-"


def add_arguments(parser: argparse.ArgumentParser) -> None:
    """Adds the arguments of the subcommand."""
    parser.add_argument(
        "logs",
        metavar="FILE",
        nargs="+",
        help="a log as auditd, 'journalctl -k' or dmesg writes it; - is standard input. Lines that are not audit "
        "records of the kernel are skipped",
    )
    parser.add_argument(
        "--policy",
        metavar="POLICY.toml",
        type=Path,
        help="the policy that was in force: say which of its layers and rules each denial is about",
    )
    variables.add_set(parser)
    parser.add_argument(
        "--program",
        metavar="NAME",
        help="only denials of this program, given by its name or whole path, and of layers that it made",
    )
    parser.add_argument(
        "--all", action="store_true", help="show each kind of refused call and each domain, however many there are"
    )
    how = parser.add_mutually_exclusive_group()
    how.add_argument(
        "--suggest", action="store_true", help="print the rules that grant what was refused, as TOML to paste"
    )
    how.add_argument("--json", action="store_true", help="print the result as JSON, with the rules")
    parser.add_argument(
        "--html", metavar="FILE", type=Path, help="also write the result to FILE, as a page for a browser"
    )


def run(arguments: argparse.Namespace) -> int:
    """Prints the summary; the status is 1 if a call was refused, else 5 if the log shows that it has not everything.

    With `--suggest` it is 1 only if a refused call has no rule.
    """
    given = variables.given(arguments)
    policy = None if arguments.policy is None else policies.read(arguments.policy, given)
    given.check_used()
    log = denials.read(_opened(arguments.logs))
    if arguments.program is not None:
        log = denials.of_program(log, arguments.program)
    matched = None if policy is None else matching.match(log, policy)
    found, granted = counting.count(log, matched), granting.grant(log, matched)
    if arguments.json:
        about = {"logs": arguments.logs, "policy": None if policy is None else str(policy.path)}
        print(json.dumps({**about, **data.as_data(found, granted)}, indent=2))
    else:
        for line in _lines(found, granted, policy, arguments):
            print(layout.encodable(line, sys.stdout))
    if arguments.html is not None:
        page_of_denials.write(arguments.html, _title(arguments), found, text.rules(granted, found, policy))
    refused = granted.stay_refused if arguments.suggest else found.summary.refusals
    return 1 if refused else NOT_ALL_JUDGED if found.summary.missing else 0


def _opened(names: Sequence[str]) -> Iterator[Iterator[tuple[str, Line]]]:
    """The lines of each log; a log that is named twice is a Problem."""
    if len(set(names)) < len(names):
        raise Problem("a log is named twice: name each log once", USAGE)
    for name in names:
        if name == STANDARD_INPUT:
            yield records.read("standard input", sys.stdin.buffer)
            continue
        try:
            file = open(name, "rb")
        except OSError as error:
            raise Problem(f"{name} can't be read: {error.strerror}") from error
        with file:
            yield records.read(name, file)


def _title(arguments: argparse.Namespace) -> str:
    """What the result is about."""
    logs = ", ".join("standard input" if name == STANDARD_INPUT else name for name in arguments.logs)
    under = "" if arguments.policy is None else f" under {arguments.policy}"
    return f"denials in {logs}{under}" + (f", of {arguments.program}" if arguments.program else "")


def _lines(found: Counted, granted: Granted, policy: Policy | None, arguments: argparse.Namespace) -> Iterator[str]:
    """The rules alone if they are asked for, else the summary."""
    if arguments.suggest:
        yield from text.rules(granted, found, policy)
        return
    suggesting = _suggesting(arguments) if granted.rules else []
    shown = LogOptions(arguments.all, suggesting, list(text.staying(granted, policy)))
    yield from text.lines(found, _title(arguments), Style.of(sys.stdout), shown)


def _suggesting(arguments: argparse.Namespace) -> list[str]:
    """The command that prints the rules."""
    words: list[Any] = [RECORDER, NAME, *arguments.logs]
    words += ["--policy", arguments.policy] if arguments.policy else []
    words += ["--program", arguments.program] if arguments.program else []
    return [*map(str, words), "--suggest"]
