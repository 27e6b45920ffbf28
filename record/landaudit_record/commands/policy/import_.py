"""Prints a policy that comes from elsewhere: of a recorded program, or in the form of another program."""

from __future__ import annotations

import argparse
from collections.abc import Callable
from pathlib import Path

from ... import POLICIES
from ...audit import auditor
from ...common import finished, variables
from ...common.options import add_process, note
from ...common.problems import NOT_ALL_JUDGED, USAGE, Problem
from ...common.variables import Given
from ...policy import importing, importing_text, policy_text
from ...policy.forms import Imported, firejail, landlockconfig, landrun, setpriv

NAME = "import"
HELP = "print a policy from elsewhere as TOML: a recorded program's own, or one written for another program"
EXAMPLE = """landaudit-policy import rec > policy.toml
  landaudit-policy import --landrun '--rox /usr --rw /srv/data ./server'"""
ABOUT = f"""
OUT is a recording of a program that restricts itself. The other forms are those
of setpriv ({setpriv.VERSION}), firejail ({firejail.VERSION}), landrun
({landrun.VERSION}) and landlockconfig ({landlockconfig.VERSION}).
Options of these that are not known here are errors, and a comment names each
thing that is dropped."""
#: The options that name a policy in another form, each with what reads it.
_FORMS: dict[str, Callable[[str, Given], Imported]] = {
    "landlockconfig": lambda file, _: landlockconfig.read(Path(file)),
    "setpriv": lambda words, _: setpriv.read(words),
    "landrun": lambda words, _: landrun.read(words),
    "firejail": lambda file, given: firejail.read(Path(file), given),
}


def add_arguments(parser: argparse.ArgumentParser) -> None:
    """Adds the arguments of the subcommand."""
    parser.description = f"{HELP}\n{ABOUT}"
    source = parser.add_mutually_exclusive_group(required=True)
    source.add_argument("recording", metavar="OUT", nargs="?", help="the folder of a recording")
    source.add_argument("--landlockconfig", metavar="FILE", help="a configuration of landlockconfig, .toml or .json")
    source.add_argument("--setpriv", metavar="WORDS", help="a command line of setpriv, as one word")
    source.add_argument("--landrun", metavar="WORDS", help="a command line of landrun, as one word")
    source.add_argument("--firejail", metavar="FILE", help="a profile of firejail, with the profiles beside it")
    parser.add_argument(
        "--program",
        metavar="NAME",
        help="the program of the recording that restricts itself, by its name or whole path",
    )
    add_process(parser)
    variables.add_set(parser)


def run(arguments: argparse.Namespace) -> int:
    """Prints the policy; the status is 5 if calls of Landlock of a recording could not be recorded."""
    given = variables.given(arguments)
    if arguments.recording is not None:
        given.check_used()
        return _recorded(arguments)
    if arguments.program is not None or arguments.process is not None:
        raise Problem("--program and --process choose one of several policies of a recording: name one as OUT", USAGE)
    imported = next(read(value, given) for name, read in _FORMS.items()
                    if (value := getattr(arguments, name)) is not None)
    given.check_used()
    for line in policy_text.lines(imported.policy, imported.comments):
        print(line)
    return 0


def _recorded(arguments: argparse.Namespace) -> int:
    """Prints the policy of a recorded program."""
    recording = finished.opened(arguments.recording)
    found = importing.found(recording, auditor.tree_of(recording))
    own = importing_text.choose(found, arguments.recording, arguments.program, arguments.process)
    written = importing_text.comments(found, own, arguments.recording)
    for line in policy_text.lines(importing.policy(own, Path(arguments.recording)), written):
        print(line)
    note(importing_text.notes(found), POLICIES)
    return NOT_ALL_JUDGED if found.unseen else 0
