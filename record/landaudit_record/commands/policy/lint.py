"""Finds in a policy what its author should look at."""

from __future__ import annotations

import argparse
import json

from ...common import variables
from ...common.findings import Level
from ...common.options import add_policy
from ...common.wording import plain
from ...policy import policies
from ...policy.linting import Linting
from ...summaries import reporting
from ...summaries.reporting import linted

NAME = "lint"
HELP = "find rules without effect, rules that reach secrets, and parents that are missing"
EXAMPLE = "landaudit-policy lint policy.toml"
ABOUT = """
It finds rules that the kernel refuses on this machine (rights for
directories on a file), rules without effect, parents that are missing or lead
elsewhere by links, rules that reach secrets, and where files may be both
written and executed. The status is 1 if there is a warning."""


def add_arguments(parser: argparse.ArgumentParser) -> None:
    """Adds the arguments of the subcommand."""
    parser.description = f"{HELP}\n{ABOUT}"
    add_policy(parser)
    variables.add_set(parser)
    reporting.add_format(parser)


def run(arguments: argparse.Namespace) -> int:
    """Prints a line for each remark, or the remarks in a format; the status is 1 if one is a warning."""
    given = variables.given(arguments)
    policy = policies.read(arguments.policy, given)
    given.check_used()
    remarks = list(dict.fromkeys(Linting(policy).remarks()))
    if arguments.format == reporting.JSON:
        print(json.dumps(linted.as_data(policy, remarks), indent=2))
    elif arguments.format != reporting.TEXT:
        reporting.show(linted.report(policy, remarks), arguments.format)
    else:
        for remark in remarks:
            print(plain(str(remark)))
        print(plain(f"{policy.path}: {linted.summary(remarks)}"))
    return 1 if any(remark.level is Level.WARNING for remark in remarks) else 0
