"""Converts a kept log again."""

from __future__ import annotations

import argparse
import contextlib
import sys
from pathlib import Path

from ...common import variables
from ...common.rights import NET
from ...common.variables import Given
from ...common.wording import plain
from ...policy import policies
from ...policy.policies import Policy
from ...recorder import converting, recordings
from ...recorder.ports import Ports

NAME = "convert"
HELP = "write the tree and the trace of a recording again, from the log that it keeps"
EXAMPLE = "landaudit-record convert rec"
#: Nearly all objects of a conversion stay until its end or go at once, so it looks for cycles less often than others.
MORE_OBJECTS = 1_000_000


def add_arguments(parser: argparse.ArgumentParser) -> None:
    parser.add_argument("out", metavar="OUT", type=Path, help="the folder of a recording")
    add_port_rules(parser)
    variables.add_set(parser)


def add_port_rules(parser: argparse.ArgumentParser) -> None:
    """Adds the option for what a strace before 6.7 can't read."""
    parser.add_argument(
        "--port-rules",
        metavar="POLICY.toml",
        type=Path,
        help="the policy by which the command restricts itself: strace before 6.7 does not decode rights and rules for"
        " ports, so they are taken from this file, in its order (default: the policy that 'run --policy' put in force)",
    )


def run(arguments: argparse.Namespace) -> int:
    """Converts the log of a recording."""
    given = variables.given(arguments)
    found = ports(arguments.out, arguments.port_rules, given)
    given.check_used()
    converted(arguments.out, found)
    return 0


def ports(folder: Path, port_rules: Path | None, given: Given) -> Ports:
    """The rules on ports of a policy that is named, or of the one that was in force."""
    named = port_rules if port_rules is not None else recordings.policy_of(folder)
    return ports_of(policies.read(named, given)) if named is not None else Ports()


def ports_of(policy: Policy) -> Ports:
    """What a policy says about ports, and its scopes."""
    return Ports(
        [NET.ordered(layer.handled_access_net.rights) for layer in policy.layers],
        [
            (NET.ordered(rule.allowed_access.rights), port)
            for layer in policy.layers
            for rule in layer.net_port
            for port in rule.ports
        ],
        [list(layer.scoped) for layer in policy.layers],
    )


def converted(folder: Path, ports: Ports) -> None:
    """Converts a recording, and says what the result is and what to do next."""
    in_force = recordings.policy_of(folder)
    done = converting.convert(folder, ports)
    processes = "1 process" if done.processes == 1 else f"{done.processes:,} processes"
    say(f"{done.records:,} records of {processes} on {done.objects:,} objects, in {folder}")
    if done.unsaid:
        say(f"not recorded, in {folder / 'unsaid.jsonl'}:")
        for reason, count in done.unsaid.most_common():
            say(f"  {count:>9,}  {reason}")
    if in_force is None:
        say(f"next: landaudit-record audit {folder} --policy POLICY.toml")
    else:
        say(f"next: landaudit-record compare {folder}")


def say(text: str) -> None:
    """Prints a line for the user to standard error, if the terminal is still there."""
    with contextlib.suppress(OSError):
        print(plain(f"landaudit-record: {text}"), file=sys.stderr, flush=True)
