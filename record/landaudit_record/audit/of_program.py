"""Tries other rules in the layers that recorded programs put in force by themselves.

The policy is the program's own (`importing`). In place of each of the program's restrictions, the trace gets the layer
of the policy that is tried; all else stays as it was recorded, so the layers begin when they did in the run.
"""

from __future__ import annotations

import argparse
from collections import Counter
from collections.abc import Iterator, Mapping, Sequence
from dataclasses import dataclass, field, replace
from pathlib import Path

from ..common import comments, documents, finished, jsonl, variables
from ..common.comments import Comments
from ..common.finished import Finished, Part
from ..common.jsonl import Record
from ..common.problems import NOT_ALL_JUDGED, USAGE, Problem
from ..common.trace_lines import RAN, told
from ..common.trees import Tree
from ..engine.following import IN_RUN
from ..policy import applying, importing, importing_text, policies
from ..policy.applying import MOST_RECORDS
from ..policy.importing import OF_PROCESSES, Following, Own
from ..policy.policies import Policy
from . import auditor, mixing, together
from .auditor import Files, TriedPolicy
from .together import Member


#: What stands for the file of a policy that is a program's own.
PRINTED = Path("what landaudit-policy import prints")


@dataclass(frozen=True)
class _Place:
    """A restriction of a program: its process, which layer of the policy it is, and whether it is written again."""

    pid: int
    layer: int
    again: bool


@dataclass(frozen=True)
class TriedOfProgram(TriedPolicy):
    """A policy in place of a program's own: for each part, its lines that restrict. `made` has the names in the tree of
    objects that the run made and on which the program has rules.
    """

    lines: Sequence[Mapping[int, _Place]] = ()
    made: Mapping[str, Sequence[str]] = field(default_factory=dict)

    def inserted(self, policy: Policy, abi: int) -> list[Record]:
        """The policy's records at an ABI, also for rules on what the run made before the program restricted itself."""
        found: list[Record] = []
        for record in super().inserted(policy, abi):
            origin = record["policy"]
            names = self.made.get(str(origin.get("parent")), ()) if record["op"] == "add_path" else ()
            about = {key: value for key, value in origin.items() if key != "made"}
            found += [{**record, "path": name, "policy": about} for name in names] or [record]
        return found

    def write(self, policy: Policy, abi: int, number: int, into: Part) -> Iterator[Files]:
        """Writes a part with a policy at an ABI, and yields the tree and the trace to judge."""
        part, inserted = self.recording.parts[number], self.inserted(policy, abi)
        tree = part.tree
        if len(self.recording.parts) > 1:
            tree = into.tree
            auditor.write_tree(part.tree, self.tree, inserted, tree)
        by_layer: dict[int, list[Record]] = {}
        for record in inserted:
            if "layer" in record["policy"]:
                by_layer.setdefault(record["policy"]["layer"], []).append(record)
        self._check_size(number, by_layer)
        _write(part.trace, self.lines[number], by_layer, into.tried)
        yield Files(tree, into.tried, into.report)

    def _check_size(self, number: int, by_layer: Mapping[int, Sequence[Record]]) -> None:
        """Checks that landaudit reads a part with the records of the policy."""
        times = Counter(place.layer for place in self.lines[number].values())
        total = self.places[number].lines + sum(times[layer] * len(records) for layer, records in by_layer.items())
        if total > MOST_RECORDS:
            raise Problem(f"with the policy in place of the program's own {self.recording.parts[number].trace} has "
                          f"{total:,} records, and landaudit reads {MOST_RECORDS:,}: record less")


def _write(
    trace: Path, places: Mapping[int, _Place], by_layer: Mapping[int, Sequence[Record]], to: Path
) -> None:
    """Writes a trace with the layers of a policy in place of restrictions; its other lines do not change."""
    with open(trace, "rb") as lines, open(to, "wb") as out:
        for number, line in enumerate(lines, start=1):
            place = places.get(number)
            if place is None:
                out.write(line)
                continue
            again = {"again": True} if place.again else {}
            records = ({**record, "pid": place.pid, "policy": {**record["policy"], IN_RUN: True}, **again}
                       for record in by_layer.get(place.layer, ()))
            out.writelines(jsonl.line(record).encode() for record in records)


@dataclass(frozen=True)
class OfProgram:
    """A policy, its comments, and the recordings in which other rules can be tried; and the program whose policy it is,
    if it is one's own. `unseen` are notes that calls of Landlock could not be recorded, which may be of the policy.
    """

    policy: Policy
    comments: Comments
    members: list[Member]
    program: str | None = None
    unseen: tuple[str, ...] = ()

    @property
    def status(self) -> int:
        """The status of what was done: 0, unless not all of the policy, or of where its parents led, is known."""
        return NOT_ALL_JUDGED if self.unseen else together.status(self.members)


def of_arguments(arguments: argparse.Namespace) -> OfProgram:
    """The policy that a command names, or that of the recorded program, and the recordings with it."""
    given = variables.given(arguments)
    if arguments.of_program:
        given.check_used()
        return opened(arguments.recordings, arguments.program, arguments.process)
    if arguments.process is not None:
        raise Problem("--process chooses one of several policies of the recorded program: give --of-program too", USAGE)
    policy = policies.read(arguments.policy, given)
    given.check_used()
    written = comments.read(documents.text_of(arguments.policy))
    return OfProgram(policy, written, together.opened(arguments.recordings, policy, arguments.program))


def opened(names: Sequence[str], program: str | None, process: int | None) -> OfProgram:
    """The policy that a program puts in force by itself in some recordings; it must be the same in all."""
    chosen: list[tuple[str, Finished, Tree, Own]] = []
    unseen: list[str] = []
    for name in dict.fromkeys(names):
        recording = finished.opened(name)
        tree = auditor.tree_of(recording)
        found = importing.found(recording, tree)
        own = importing_text.choose(found, name, program, process)
        if chosen and own != chosen[0][-1]:
            raise Problem(f"{own.program} puts another policy in force in {name} than in {names[0]}: name recordings "
                          "in which it is the same", USAGE)
        if not chosen:
            written = importing_text.comments(found, own, name)
        chosen.append((name, recording, tree, own))
        unseen += (f"{name}: {text}" for text in importing_text.notes(found))
    own = chosen[0][-1]
    policy = importing.policy(own, PRINTED)
    return OfProgram(policy, written, [_member(*one, policy) for one in chosen], own.program, tuple(unseen))


def _member(name: str, recording: Finished, tree: Tree, own: Own, policy: Policy) -> Member:
    """A recording with the policy in place of the program's own."""
    places = [applying.places(part.trace, tree, None) for part in recording.parts]
    lines = [dict(_restrictions(part.trace, tree, own)) for part in recording.parts]
    made: dict[str, list[str]] = {}
    for rule in (rule for ruleset in own.layers for rule in ruleset.rules):
        if rule.made is not None and rule.made not in made.setdefault(str(rule.on), []):
            made[str(rule.on)].append(rule.made)
    tried = TriedOfProgram(replace(recording, scoped=policy.scoped), policy, own.program, tree, places, lines, made)
    mixed = mixing.moves(recording, tried, together.ALL_KNOWN)
    return Member(name, replace(tried.recording, mixed=mixed), tried)


def _restrictions(trace: Path, tree: Tree, own: Own) -> Iterator[tuple[int, _Place]]:
    """The lines of a trace by which a program puts layers of its policy in force."""
    following = Following(tree, {}, Counter())
    numbers = [sum(ruleset.is_layer for ruleset in own.layers[: index + 1]) for index in range(len(own.layers))]
    for line, record in told(trace, OF_PROCESSES, RAN):
        done = following.take(record)
        if done is None or done.own.program != own.program:
            continue
        last = len(done.own.layers) - 1
        if done.own.layers == own.layers[: last + 1] and own.layers[last].is_layer:
            yield line, _Place(done.pid, numbers[last], done.again)
