"""Options that several subcommands have, and the notes that they print."""

from __future__ import annotations

import argparse
import os
import re
import sys
from collections.abc import Iterable
from pathlib import Path
from typing import Any

from .. import RECORDER
from . import variables
from .rights import LATEST_ABI, NEWEST_ABI, OLDEST_ABI, judged_as, versions
from .wording import plain


OF_POLICY = "rights of the policy that this ABI does not have are dropped"
#: The ABIs of an audit if none are named: later ones add no right.
ALL = range(OLDEST_ABI, NEWEST_ABI + 1)
_NUMBER = re.compile("[1-9][0-9]{0,2}")
_KNOWN = f"{OLDEST_ABI} to {LATEST_ABI}"


def add_recordings(parser: argparse.ArgumentParser) -> None:
    """Adds the recordings that a subcommand is about."""
    parser.add_argument("recordings", metavar="OUT", nargs="+", help="the folders of one or more recordings")


def add_abi(
    parser: argparse.ArgumentParser, besides: str = OF_POLICY, *, in_force: bool = False
) -> None:
    """Adds the option for the one ABI at which calls are judged, or a policy is put in force; `besides` says what else
    it does.

    What judges asks about rights alone, so ABIs that add none are the newest that does.
    """
    newest = LATEST_ABI if in_force else NEWEST_ABI
    later = "" if in_force else ", whose rights are those of later ones too"
    parser.add_argument(
        "--abi",
        type=abi if in_force else lambda text: judged_as(abi(text)),
        choices=range(OLDEST_ABI, LATEST_ABI + 1),
        default=newest,
        help=f"Landlock's ABI (default: {newest}{later}); {besides}",
    )


def abi(text: str) -> int:
    """The ABI that a word stands for; one that is later than those known here has a warning."""
    found = _abi(text)
    if found is None:
        raise argparse.ArgumentTypeError(
            f"{text!r} is not an ABI: give one from {_KNOWN} (audit and diff take a range)"
        )
    return _latest(found)


def _abi(text: str) -> int | None:
    return int(text) if _NUMBER.fullmatch(text) else None


def _latest(found: int) -> int:
    """An ABI that is known here: a later one is judged as the latest, with a warning."""
    if found > LATEST_ABI:
        note([f"ABI {found} is not known here: judged as ABI {LATEST_ABI}"], os.path.basename(sys.argv[0]))
    return min(found, LATEST_ABI)


def abis(text: str) -> range:
    """The ABIs that a word stands for: `N`, or all of a range `N-M`."""
    first, dash, last = text.partition("-")
    oldest, newest = _abi(first), _abi(last if dash else first)
    if oldest is None or newest is None or oldest > newest:
        raise argparse.ArgumentTypeError(
            f"{text!r} is neither an ABI nor a range: give one from {_KNOWN}, or an ascending range such as 2-5"
        )
    newest = _latest(newest)
    return range(min(oldest, newest), newest + 1)


class _Once(argparse.Action):
    """An option that may be given only once: a second one would silently replace the first."""

    def __call__(
        self,
        parser: argparse.ArgumentParser,
        namespace: argparse.Namespace,
        values: Any,
        option_string: str | None = None,
    ) -> None:
        """Stores the value, if there is none yet but the default."""
        if getattr(namespace, self.dest) is not self.default:
            raise argparse.ArgumentError(self, "is given twice: give one ABI, or a range such as 2-5")
        setattr(namespace, self.dest, values)


OF_SUMMARY = (
    f"Landlock's ABI, or a range (default: {{all}}; with scopes in the policy {OLDEST_ABI}-{LATEST_ABI}): the summary "
    f"describes the newest in full, and says what breaks at each; rights and scopes of the policy that an ABI does not "
    f"have are dropped ({versions()})"
)


def add_abis(parser: argparse.ArgumentParser, text: str = OF_SUMMARY) -> None:
    """Adds the option for the ABIs at which calls are judged; the policy is written for each of them."""
    parser.add_argument(
        "--abi",
        dest="abis",
        metavar="N|N-M",
        type=abis,
        action=_Once,
        default=ALL,
        help=text.format(all=f"{OLDEST_ABI}-{NEWEST_ABI}"),
    )


def add_as_recorded(parser: argparse.ArgumentParser) -> None:
    """Adds the option that says how the program's own rulesets are judged."""
    parser.add_argument(
        "--as-recorded",
        action="store_true",
        help="judge the rulesets that the program makes itself as they were recorded (default: as those of a program "
        "that drops the rights which the ABI does not have)",
    )


def add_policy(parser: argparse.ArgumentParser) -> None:
    """Adds the policy that a subcommand is about."""
    parser.add_argument(
        "policy",
        metavar="POLICY.toml",
        type=Path,
        help="the policy (how to write one: landaudit-record apply --help)",
    )


def add_program(parser: argparse.ArgumentParser) -> None:
    """Adds the option for the program that a policy is put before."""
    parser.add_argument(
        "--program",
        metavar="NAME",
        help="put the policy before each run of this program, given by its name or whole path "
        "(default: before the first program of each process that the recording starts)",
    )


def add_of_program(parser: argparse.ArgumentParser) -> None:
    """Adds the options that name a policy, or take the one that the recorded program puts in force by itself."""
    source = parser.add_mutually_exclusive_group(required=True)
    source.add_argument("--policy", metavar="POLICY.toml", type=Path, help="the policy")
    source.add_argument(
        "--of-program",
        action="store_true",
        help="the recorded program's own policy, as landaudit-policy import prints it; --program or --process chooses "
        "one of several",
    )
    add_process(parser)


def add_process(parser: argparse.ArgumentParser) -> None:
    """Adds the option that chooses a process of a recording that restricts itself."""
    parser.add_argument(
        "--process", metavar="PID", type=_process, help="the process of the recording that restricts itself"
    )


def _process(text: str) -> int:
    """The number of a process."""
    if not text.isdecimal():
        raise argparse.ArgumentTypeError(f"{text!r} is not the number of a process")
    return int(text)


def add_judging(parser: argparse.ArgumentParser) -> None:
    """Adds the options that say what is judged, at one ABI."""
    variables.add_set(parser)
    add_program(parser)
    add_abi(parser)
    add_as_recorded(parser)
    add_landaudit(parser)


def add_landaudit(parser: argparse.ArgumentParser) -> None:
    """Adds the option that says where landaudit is."""
    parser.add_argument(
        "--landaudit",
        metavar="PATH",
        help="the landaudit to run (default: where 'make landaudit' puts it, else in the directory of this program, "
        "else on PATH)",
    )


def note(notes: Iterable[str], program: str = RECORDER) -> None:
    """Prints a program's notes to standard error, one a line."""
    for text in notes:
        print(plain(f"{program}: note: {text}"), file=sys.stderr)
