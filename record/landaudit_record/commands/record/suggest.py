"""Suggests rules for a policy that is tried on finished recordings."""

from __future__ import annotations

import argparse
from collections.abc import Callable, Iterator, Sequence

from ...audit import leftovers, of_program, together
from ...audit.together import Member
from ...common.options import add_judging, add_of_program, add_recordings, note
from ...common.rights import alone
from ...common.wording import plain
from ...engine import landaudit
from ...engine.reading import Walk
from ...policy.policies import Policy
from ...suggest import suggestion_text
from ...suggest.objects import CountedObjects
from ...suggest.suggesting import Recorded, Round, RuleMaking, suggest

EXACT, BASE = "exact", "base"
#: What is known of refused calls stays, and is in no cycle: Python does not look for any.
MORE_OBJECTS = 0
NAME = "suggest"
HELP = "print the rules that would have let the refused calls pass, as TOML to paste"
EXAMPLE = """landaudit-record suggest rec --policy policy.toml >> policy.toml
  landaudit-record suggest rec again --policy deny.toml --rules 8
  landaudit-record suggest rec --policy deny.toml --style base"""


def add_arguments(parser: argparse.ArgumentParser) -> None:
    """Adds the arguments of the subcommand."""
    add_recordings(parser)
    add_of_program(parser)
    parser.add_argument(
        "--rules",
        metavar="N",
        type=_number,
        help="at most N rules for a layer (default: as many as are needed to grant nothing else): rules are joined "
        "into rules on directories, where that grants least, and a comment on each says what else it grants",
    )
    parser.add_argument(
        "--style",
        choices=(EXACT, BASE),
        default=EXACT,
        help="exact (the default) grants only what is needed; base includes the groups of rules that contain two or "
        "more of the paths: base, nameservice, ssl, tmp, and some for languages",
    )
    parser.add_argument(
        "--whole",
        action="store_true",
        help="print the whole policy with the rules in it, and its comments; what else there is to say is a note",
    )
    add_judging(parser)


def run(arguments: argparse.Namespace) -> int:
    """Prints the rules; the status is 1 if calls are still refused that no rule of the policy can fix."""
    program = landaudit.find(arguments.landaudit)
    tried = of_program.of_arguments(arguments)
    policy, members = tried.policy, tried.members
    abis = alone(arguments.abi)
    note(together.policy_notes(members, abis))
    with together.audits(members, program, NAME, best_effort=not arguments.as_recorded) as audits:

        def audit(extended: Policy, shows: Callable[[int, Walk], Round]) -> Iterator[Round]:
            return together.read(members, audits, abis, extended, shows)

        recorded = [_recorded(member) for member in members]
        suggestion = suggest(recorded, policy, arguments.abi, audit, _making(recorded, arguments))
    note(tried.unseen)
    together.note_missing(members)
    if tried.program is not None:
        print(f"# for the policy that {plain(tried.program)} puts in force by itself (landaudit-policy import)")
    if arguments.whole:
        note(suggestion_text.ending(suggestion))
    for line in (suggestion_text.whole(suggestion, policy, tried.comments) if arguments.whole
                 else suggestion_text.lines(suggestion, policy)):
        print(line)
    done = suggestion.finished and not suggestion.unmended and not suggestion.of_program
    return tried.status if done else 1


def _number(text: str) -> int:
    """A number of rules."""
    if not text.isdecimal() or not int(text):
        raise argparse.ArgumentTypeError(f"{text!r} is not a number of rules: give a number from 1 on")
    return int(text)


def _making(recorded: Sequence[Recorded], arguments: argparse.Namespace) -> RuleMaking:
    """How rules are made."""
    objects = None if arguments.rules is None else CountedObjects([one.tree for one in recorded])
    return RuleMaking(arguments.rules, objects, in_groups=arguments.style == BASE)


def _recorded(member: Member) -> Recorded:
    """The facts about a recording that rules depend on."""
    return Recorded(member.tree, leftovers.of(member.recording))
