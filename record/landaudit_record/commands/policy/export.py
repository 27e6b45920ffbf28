"""Prints a policy in another form: as code that puts it in force, or as what another program reads."""

from __future__ import annotations

import argparse
from collections.abc import Callable
from dataclasses import dataclass

from ... import POLICIES
from ...common import comments, documents, variables
from ...common.comments import Comments
from ...common.options import add_policy, note
from ...common.problems import USAGE, Problem
from ...common.rights import ABI_OF_LOG, ABIS
from ...policy import policies
from ...policy.forms import Exported, c, go, landlockconfig, landrun, plain_json, rust, setpriv
from ...policy.policies import Policy

NAME = "export"
HELP = "print a policy as code that puts it in force, or in the form of another program"
EXAMPLE = """landaudit-policy export policy.toml --c > confine_by_policy.c
  landaudit-policy export policy.toml --landrun --widen > sandbox.sh"""
ABOUT = f"""
The code is for the crate landlock {rust.VERSION} and go-landlock {go.VERSION}, the other
forms for setpriv ({setpriv.VERSION}), landrun ({landrun.VERSION}) and landlockconfig
({landlockconfig.VERSION})."""


@dataclass(frozen=True)
class _Form:
    """A form: what writes it, what the help says of it, and whether it can have the kernel log denials."""

    written: Callable[[Policy, Comments, bool], Exported]
    about: str
    logs: bool = False


_FORMS = {
    "c": _Form(c.written, "print C99: int confine_by_policy(void), which returns 0 or an errno, and needs only "
               "the kernel's headers", logs=True),
    "rust": _Form(rust.written, "print Rust: confine_by_policy(), by the crate landlock", logs=True),
    "go": _Form(go.written, "print Go: ConfineByPolicy(), by go-landlock", logs=True),
    "setpriv": _Form(setpriv.written, "print a script that runs a command by setpriv, on this machine"),
    "landrun": _Form(landrun.written, "print a script that runs a command by landrun", logs=True),
    "landlockconfig": _Form(landlockconfig.written, "print a configuration of landlockconfig, as TOML"),
    "json": _Form(plain_json.written, "print the policy as a line of JSON, with groups of rules expanded"),
}


def add_arguments(parser: argparse.ArgumentParser) -> None:
    """Adds the arguments of the subcommand."""
    parser.description = f"{HELP}\n{ABOUT}"
    add_policy(parser)
    variables.add_set(parser)
    among = parser.add_mutually_exclusive_group(required=True)
    for name, form in _FORMS.items():
        among.add_argument(f"--{name}", dest="form", action="store_const", const=name, help=form.about)
    parser.add_argument(
        "--widen",
        action="store_true",
        help="where the form can't express the policy, grant more and say what, instead of failing",
    )
    parser.add_argument(
        "--log",
        action="store_true",
        help="have the kernel log what it refuses to programs that are executed afterwards, from ABI "
        f"{ABI_OF_LOG} on (Linux {ABIS[ABI_OF_LOG].linux}) and if its audit is switched on: landaudit-record denials "
        "reads that log",
    )


def run(arguments: argparse.Namespace) -> int:
    """Prints the form; what it can't say is a Problem, or a note for each part if it may be wider."""
    form = _FORMS[arguments.form]
    if arguments.log and not form.logs:
        raise Problem(f"--{arguments.form} has no words for --log: it is for "
                      f"{documents.listed(f'--{name}' for name, one in _FORMS.items() if one.logs)}", USAGE)
    given = variables.given(arguments)
    policy = policies.read(arguments.policy, given)
    given.check_used()
    found = form.written(policy, comments.read(documents.text_of(arguments.policy)), arguments.log)
    if found.losses and not arguments.widen:
        lost = "; ".join(f"{loss.place}: {loss.lacks}" for loss in found.losses)
        raise Problem(f"{policy.path}: {lost} (--widen prints a wider form)")
    note([*(f"wider than the policy: {loss}" for loss in found.losses), *found.notes], POLICIES)
    for line in found.lines:
        print(line)
    return 0
