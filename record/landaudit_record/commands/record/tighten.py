"""Prints a policy without the rights that recordings don't need."""

from __future__ import annotations

import argparse
from collections import Counter, defaultdict
from collections.abc import Iterator, Sequence
from dataclasses import replace
from pathlib import Path

from ... import RECORDER
from ...audit import of_program, together
from ...audit.auditor import Auditing, Files, TriedPolicy
from ...common.comments import Comments
from ...common.options import add_judging, add_of_program, add_recordings, note
from ...common.problems import WANTING, Problem
from ...common.rights import alone
from ...common.trees import Tree
from ...common.wording import counted, plain, some_of
from ...engine import landaudit
from ...policy import parents, policy_text
from ...policy.policies import PathRule, Policy, PortRule
from ...tighten.distilling import Distilling, LayeredCall
from ...tighten.tightening import AskedOnTree, Refused, RuledObject, Tightened, Tightening, places, units

NAME = "tighten"
HELP = "print the policy without the rights that no recording needs"
EXAMPLE = "landaudit-record tighten --policy policy.toml rec > tight.toml"

_Asked = dict[Path, Counter[LayeredCall]]
"""The questions of a recording that a policy lets pass, for each tree by itself."""


def add_arguments(parser: argparse.ArgumentParser) -> None:
    """Adds the arguments of the subcommand."""
    add_recordings(parser)
    add_of_program(parser)
    parser.add_argument(
        "--list",
        action="store_true",
        help="print a table instead: how many calls need each right, with the rights that no call needs first",
    )
    add_judging(parser)


def run(arguments: argparse.Namespace) -> int:
    """Prints the policy, or the table."""
    program = landaudit.find(arguments.landaudit)
    given = of_program.of_arguments(arguments)
    policy, members = given.policy, given.members
    note(together.policy_notes(members, alone(arguments.abi)))
    tried = [member.tried for member in members if member.tried is not None]
    with together.audits(members, program, NAME, best_effort=not arguments.as_recorded) as audits:
        before = [_questions(audit, one, policy, arguments.abi) for audit, one in zip(audits, tried)]
        asked = [AskedOnTree.of(one, tree, found) for one, of in zip(tried, before) for tree, found in of.items()]
        audits[0].progress.say("trying each right")
        tightening = Tightening(program, arguments.abi, asked, best_effort=not arguments.as_recorded)
        of_run = [one.tree for one in tried]
        whole = policy_text.apart(policy, of_run)
        done = tightening.tightened(whole)
        linked = _of_other_names(whole, of_run)
        tight = policy_text.joined(_with_unknown(done.policy, whole, together.unknown(members) | linked), of_run)
        after = [_questions(audit, one, tight, arguments.abi) for audit, one in zip(audits, tried)]
        if _more(before, after):
            raise Problem("without the rights that no call needs, more calls of the recordings are refused: this is a "
                          f"fault of {RECORDER}, please report it", WANTING)
    if passing := _more(after, before):
        note([f"the printed policy allows {counted(passing, 'call')} of these recordings that the policy refuses: "
              "Landlock refuses a move or link by which an object would gain rights, and such rights are removed"])
    if linked:
        note([f"kept as it is: {some_of(sorted(linked))} has other names (hard links), by which a recording may have used "
              "it: name these in the policy"])
    note(given.unseen)
    together.note_missing(members)
    for line in (_table(whole, done, tightening, arguments.abi) if arguments.list
                 else _toml(replace(done, policy=tight), tightening, given.comments)):
        print(line)
    return given.status


def _of_other_names(policy: Policy, trees: Sequence[Tree]) -> frozenset[str]:
    """The parents that are files with several names, of which a recording does not have the one in the policy: it can't
    tell whether what the run used by another one is the same file.
    """
    written = {parent for layer in policy.layers for rule in layer.path_beneath for parent in rule.parents}
    return frozenset(path for path in written if parents.has_other_names(path)
                     and any(tree.kind(tree.walked(path).path) is None for tree in trees))


def _with_unknown(tight: Policy, whole: Policy, unknown: frozenset[str]) -> Policy:
    """A tightened policy, with the rules as they were for whose parents it is not known where they led.

    Each rule is on one path.
    """
    layers = []
    for layer, before in zip(tight.layers, whole.layers):
        left = {(rule.place, rule.parents): rule for rule in layer.path_beneath}
        rules = (rule if unknown.issuperset(rule.parents) else left.get((rule.place, rule.parents))
                 for rule in before.path_beneath)
        layers.append(replace(layer, path_beneath=tuple(rule for rule in rules if rule is not None)))
    return replace(tight, layers=tuple(layers))


def _questions(audit: Auditing, tried: TriedPolicy, policy: Policy, abi: int) -> _Asked:
    """The questions of a recording to a policy, for each tree by itself."""
    by_tree: _Asked = {}
    for tree, found in audit.read(audit.judged(alone(abi), tried, policy, explain=False), _of_part):
        by_tree.setdefault(tree, Counter()).update(found)
    return by_tree


def _of_part(files: Files) -> tuple[Path, Counter[LayeredCall]]:
    """The questions of what was judged together, with its tree."""
    found = Distilling()
    found.follow(files.trace, files.report)
    return files.tree, found.questions


def _more(some: Sequence[_Asked], others: Sequence[_Asked]) -> int:
    """How many calls of recordings pass in some audits and not in others of the same recordings."""
    return sum((found - other[tree]).total() for one, other in zip(some, others) for tree, found in one.items())


def _toml(done: Tightened, tightening: Tightening, written: Comments) -> Iterator[str]:
    """The policy with a remark on each rule."""
    by_place: defaultdict[RuledObject, list[Refused]] = defaultdict(list)
    for unit, needed in done.needed.items():
        by_place[unit.layer, unit.rule, unit.on].append(needed)

    def remark(layer: int, rule: PathRule | PortRule) -> str:
        calls = tightening.calls(one for on in places(rule) for one in by_place[layer, rule.place, on])
        return f"needed by {counted(calls, 'call')}" if calls else "kept: it is not known whether it is needed"

    yield f"# {counted(done.taken, 'right')} removed that these recordings don't need ({done.audits} audits)"
    yield from policy_text.lines(done.policy, written, remark)


def _table(policy: Policy, done: Tightened, tightening: Tightening, abi: int) -> Iterator[str]:
    """A row for each right on each path and port, with how many calls need it."""
    rows = [(tightening.calls([done.needed.get(unit, frozenset())]), unit) for unit in units(policy, abi)]
    yield f"{'calls':>7}  right        rule"
    for calls, unit in sorted(rows, key=lambda row: row[0]):
        on = unit.on if isinstance(unit.on, str) else f"port {unit.on}"
        yield f"{calls:>7}  {unit.right:<11}  layer {unit.layer}, {unit.rule} ({plain(on)})"
