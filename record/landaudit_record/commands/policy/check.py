"""Checks that a policy allows what it must allow and refuses what it must refuse."""

from __future__ import annotations

import argparse
import json
from pathlib import Path

from ... import POLICIES
from ...common import tap, variables
from ...common.options import add_landaudit, add_policy, note
from ...common.problems import NOT_ALL_JUDGED
from ...common.resolving import DISK
from ...common.wording import some_of
from ...engine import landaudit
from ...policy import cases, checking, checking_data, checking_text, parents, policies
from ...policy.checking import Checked
from ...policy.over_sets import ONLY
from ...policy.policies import Policy
from ...summaries import reporting
from ...summaries.reporting import checked as checked_report
from ...summaries.page import checks

NAME = "check"
HELP = "check that a policy allows what it must allow, and refuses what it must refuse"
EXAMPLE = "landaudit-policy check policy.toml cases.toml"
CASES = """
Cases are TOML: each [[refused]] or [[allowed]] has a call in the words of a
trace (open r, open w create, exec, mknod fifo, rename, connect, ..) with path,
from and to, or port; abi (one or a range) unless the case is about all ABIs;
and kind for a path that is not on this machine. [[nothing]] has rights that must
not pass at or under some paths, [[only]] rights that must not pass elsewhere,
and [[never]] two rights that must not both pass on one object."""


def add_arguments(parser: argparse.ArgumentParser) -> None:
    """Adds the arguments of the subcommand."""
    parser.description = f"{HELP}\n{CASES}"
    add_policy(parser)
    parser.add_argument("cases", metavar="CASES.toml", type=Path, help="what the policy must allow and refuse")
    variables.add_set(parser)
    reporting.add_format(parser, "TAP, version 13")
    parser.add_argument(
        "--html", metavar="FILE", type=Path, help="also write the result to FILE, as a page for a browser"
    )
    add_landaudit(parser)


def run(arguments: argparse.Namespace) -> int:
    """Prints a line of TAP for each case with the reasons, or all cases in a format; the status is 1 if any fails."""
    program = landaudit.find(arguments.landaudit)
    values = variables.given(arguments)
    given = cases.read(arguments.cases, values)
    written = policies.read(arguments.policy, values)
    values.check_used()
    policy, varying = _on_objects(written)
    checked = checking.check(program, policy, given)
    if arguments.format == reporting.JSON:
        print(json.dumps(checking_data.as_data(checked), indent=2))
    elif arguments.format == reporting.TEXT:
        _print(checked)
    else:
        reporting.show(checked_report.report(checked, policy), arguments.format)
    if arguments.html is not None:
        checks.write(arguments.html, checked)
    under = [path for one in given.questions for path in one.under]
    unasked = parents.with_other_names(policy, under) if under else []
    if unasked:
        note([f"NOT ALL IS ASKED: {some_of(unasked)} has other names (hard links), on which the rule is too: name them "
              "in the policy or as the path of a question"], POLICIES)
    linked = parents.with_other_names(policy, under, among_paths=True)
    reached = {path for one in given.questions if one.kind != ONLY for path in one.under}.intersection(linked)
    if reached.difference(unasked):
        note([f"NOT ALL IS ASKED: {some_of(sorted(reached.difference(unasked)))} has other names (hard links), by which a "
              "right may pass: name them as paths of the question"], POLICIES)
    of_refusal = bool(given.questions) or any(case.refused for case in given.cases)
    if of_refusal and varying:
        note([f"NOT ALL IS ASKED: {some_of(varying)} leads elsewhere for each process: name what it leads to"], POLICIES)
    in_doubt = [one.case for one in checked.outcomes if one.case.unknown is not None and not one.case.refused]
    if in_doubt:
        told = "; ".join(f"{case.text}: {case.unknown}" for case in in_doubt)
        note([f"NOT ALL IS ASKED: not known what else is run: {told}"], POLICIES)
    is_whole = not (unasked or reached or in_doubt) and not (of_refusal and varying)
    return 1 if checked.failed else 0 if is_whole else NOT_ALL_JUDGED


def _print(checked: Checked) -> None:
    """Prints TAP."""
    print(tap.VERSION)
    print(tap.plan(len(checked.results)))
    for number, result in enumerate(checked.results, start=1):
        for line in tap.point(number, result.holds, checking_text.title(result), checking_text.about(result)):
            print(line)


def _on_objects(policy: Policy) -> tuple[Policy, list[str]]:
    """The policy with what its parents lead to on this machine, with a note on each that leads nowhere; and the parents
    that lead elsewhere for each process, so that a rule may be on any object."""
    found = list(parents.each(policy, DISK))
    for parent in found:
        if parent.led.blocked is not None:
            note([f"{parent.place}: no rule, since {parent.led.blocked} is no directory on this machine"], POLICIES)
    return parents.followed(policy, found), list(dict.fromkeys(it.written for it in found if it.led.varies))
