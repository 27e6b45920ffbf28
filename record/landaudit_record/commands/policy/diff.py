"""Says what one policy lets pass and another refuses."""

from __future__ import annotations

import argparse
import json
import sys
from collections.abc import Iterator, Sequence
from pathlib import Path

from ... import POLICIES
from ...common import layout, variables
from ...common.options import add_abis, add_landaudit, note
from ...common.problems import NOT_ALL_JUDGED, USAGE, Problem
from ...common.resolving import DISK, KnownObjects
from ...common.wording import some_of
from ...engine import landaudit
from ...policy import differing_data, differing_text, parents, policies, reviewing, widenings
from ...policy.parents import Parent
from ...policy.policies import Policy
from ...policy.reviewing import EVERYTHING, NOTHING, Review
from ...summaries import reporting

NAME = "diff"
HELP = "show what a new policy allows and an old one refuses, and the reverse, whatever files exist"
EXAMPLE = """landaudit-policy diff old.toml new.toml
  landaudit-policy diff policy.toml --old-allows nothing"""


def add_arguments(parser: argparse.ArgumentParser) -> None:
    """Adds the arguments of the subcommand."""
    parser.add_argument("old", metavar="OLD.toml", nargs="?", type=Path, help="the old policy")
    parser.add_argument("new", metavar="NEW.toml", type=Path, help="the new policy, which replaces it")
    parser.add_argument(
        "--old-allows",
        choices=(NOTHING, EVERYTHING),
        help="there is no old policy: show all that the new one allows, or all that it refuses",
    )
    parser.add_argument(
        "--accepted",
        metavar="FILE.toml",
        type=Path,
        help="what the new policy may allow although the old one refuses it: [[accepted]] with rights and under (or "
        "port), from and to, or change, and with a reason",
    )
    variables.add_set(parser)
    add_abis(parser, "Landlock's ABI, or a range (default: {all}); later ABIs have the rights of the newest of these, and "
             "scopes, which are always compared")
    reporting.add_format(parser)
    parser.add_argument(
        "--html", metavar="FILE", type=Path, help="also write the result to FILE, as a page for a browser"
    )
    add_landaudit(parser)


def run(arguments: argparse.Namespace) -> int:
    """Prints what differs; the status is 1 if the new policy lets something pass that the old one refuses."""
    if arguments.landaudit is not None:
        landaudit.find(arguments.landaudit)  # landaudit-rules is looked for beside it
    review, new, unnamed = _review(arguments)
    note((f"accepted, but no longer there: {one} ({one.reason})" for one in review.not_there), POLICIES)
    if arguments.format == reporting.JSON:
        print(json.dumps(differing_data.as_data(review), indent=2))
    elif arguments.format != reporting.TEXT:
        from ...summaries.reporting import compared  # only these formats need it

        reporting.show(compared.report(review, new), arguments.format)
    else:
        for line in differing_text.lines(review):
            print(layout.encodable(line, sys.stdout))
    if arguments.html is not None:
        from ...summaries.page import differences  # a third of the time to start, which only a page needs

        differences.write(arguments.html, review)
    if unnamed:
        note([f"NOT ALL IS COMPARED: {some_of(unnamed)} has other names (hard links), on which the rule is too: name "
              "them in a policy"], POLICIES)
    return 1 if review.more else NOT_ALL_JUDGED if unnamed else 0


def _review(arguments: argparse.Namespace) -> tuple[Review, Policy, list[str]]:
    """The comparison, the new policy, and the files with rules that have names which no policy has."""
    if (arguments.old is None) != (arguments.old_allows is not None):
        raise Problem("give the old policy or, if there is none, --old-allows", USAGE)
    given = variables.given(arguments)
    files = [file for file in (arguments.old, arguments.new) if file is not None]
    disk = parents.Seen(DISK)
    read = [_on_objects(policies.read(path, given), disk) for path in files]
    accepted = widenings.read(arguments.accepted, given) if arguments.accepted else ()
    given.check_used()
    rules = [rule for policy in read for layer in policy.layers for rule in layer.path_beneath]
    paths = [parent for rule in rules for parent in rule.parents]
    *old, new = (parents.under_all_names(policy, paths) for policy in read)
    before = old[0] if old else reviewing.before(arguments.old_allows)
    unnamed = list(dict.fromkeys(path for policy in read for path in parents.with_other_names(policy, paths)))
    review = reviewing.review(before, new, arguments.abis, accepted, arguments.old_allows)
    return review, read[-1], unnamed


def _on_objects(policy: Policy, disk: KnownObjects) -> Policy:
    """The policy with what its parents lead to on this machine, with a note on each link that is followed."""
    found = list(parents.each(policy, disk))
    for parent in found:
        if parent.led.blocked is not None:
            raise Problem(f"{policy.path}: {parent.place}: {parent.led.blocked} is no directory on this machine, so "
                          "the path leads nowhere: write it without that")
        if parent.led.unknown is not None and ".." in parent.written.split("/"):
            raise Problem(f"{policy.path}: {parent.place}: not known where it leads: write it without '..'")
    note(_links(policy, found), POLICIES)
    return parents.followed(policy, found)


def _links(policy: Policy, parents: Sequence[Parent]) -> Iterator[str]:
    """Notes on the parents that are compared as something else than their names, those of groups together."""
    for parent in parents:
        if parent.led.unknown is not None:
            yield f"{policy.path}: {parent.place}: not known where it leads, so it is compared by its name"
        elif parent.led.now and parent.rule.group is None:
            led = parent.led.path
            yield f"{policy.path}: {parent.place}: it is compared as {led}, to which it leads on this machine"
    of_groups = list(dict.fromkeys(it.written for it in parents if it.led.now and it.rule.group is not None))
    if of_groups:
        yield f"{policy.path}: paths of groups are compared as what they lead to on this machine: {some_of(of_groups)}"
