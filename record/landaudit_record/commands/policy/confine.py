"""Runs a command under a policy."""

from __future__ import annotations

import argparse
import shutil

from ... import POLICIES
from ...common import variables
from ...common.options import add_abi, add_policy, note
from ...common.problems import USAGE, WANTING, Problem
from ...common.rights import ABIS, ABI_OF_LOG
from ...policy import confining, policies

NAME = "confine"
HELP = "run a command under a policy"
EXAMPLE = "landaudit-policy confine policy.toml -- sort /etc/passwd"
BEHIND_DASHES = "give a command after '--', as in 'landaudit-policy confine policy.toml -- ls'"


OF_LOG = (
    f"have the kernel log what it refuses the command, from ABI {ABI_OF_LOG} on (Linux {ABIS[ABI_OF_LOG].linux}) and if "
    "its audit is switched on: landaudit-record denials reads that log"
)


def add_arguments(parser: argparse.ArgumentParser) -> None:
    """Adds the arguments of the subcommand."""
    parser.usage = (
        "landaudit-policy confine [-h] POLICY.toml [--set NAME=VALUE].. [--abi N] [--log] -- COMMAND.."
    )
    add_policy(parser)
    variables.add_set(parser)
    add_abi(parser, "rights and scopes that this ABI or the kernel does not have are dropped", in_force=True)
    parser.add_argument("--log", action="store_true", help=OF_LOG)


def run(arguments: argparse.Namespace) -> int:
    """Restricts this process by the policy and executes the command, whose status is then that of this program."""
    command = arguments.behind
    if not command:
        raise Problem(BEHIND_DASHES, USAGE)
    given = variables.given(arguments)
    policy = policies.read(arguments.policy, given)
    given.check_used()
    abi = confining.known_abi(arguments.abi)
    if shutil.which(command[0]) is None:
        raise Problem(f"{command[0]} is not found, or is not a program", WANTING)
    environment = confining.given_environment()
    note(confining.confine(policy, abi, log=arguments.log), POLICIES)
    confining.become(command, environment)
