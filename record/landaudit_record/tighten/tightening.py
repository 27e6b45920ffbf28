"""Removes from a policy the rights that recordings don't need.

Each right on each path and port is tried by itself, until every right that is left is needed. Each policy that is tried
has processes of its own in one trace, which ask what the recordings asked (`distilling`): so each answer depends only
on its policy, and one audit tries many policies.
"""

from __future__ import annotations

from collections import defaultdict
from collections.abc import Collection, Iterable, Iterator, Mapping, Sequence
from dataclasses import dataclass, replace
from itertools import chain
from pathlib import Path, PurePosixPath

from ..audit.auditor import TriedPolicy
from ..common.jsonl import Record
from ..common.numbered import Numbered
from ..common.rights import alone
from ..common.trees import upwards
from ..engine.asking import Asker, Trial
from ..policy import called, fitting
from ..policy.asking import FIRST_DESCRIPTOR, RULESET
from ..policy.policies import Access, Layer, PathRule, Policy, PortRule
from .distilling import Enforced, EnforcedLayers, LayeredCall, call_of, text

Refused = frozenset[tuple[int, int]]
"""Questions that are refused: on which tree each was asked, and its number there."""


@dataclass(frozen=True)
class Unit:
    """A right on a path or a port, by the layer's number and the rule's name."""

    layer: int
    rule: Numbered
    on: str | int
    right: str


RuledObject = tuple[int, Numbered, str | int]
"""What a rule is on: the layer's number, the rule's name, and the path or the port."""


@dataclass(frozen=True)
class Tightened:
    """A policy, with what needs each of its rights, and how many rights were taken away.

    `audits` is the number of audits so far, including those for other policies.
    """

    policy: Policy
    needed: Mapping[Unit, Refused]
    taken: int
    audits: int


def units(policy: Policy, abi: int) -> Iterator[Unit]:
    """Each right on each path and port that an ABI leaves of a policy."""
    for layer in fitting.fit(policy, abi)[0]:
        for rule in layer.path_rules:
            for path in dict.fromkeys(rule.parents):
                yield from (Unit(layer.number, rule.place, path, right) for right in rule.on_directory)
        for on_ports in layer.port_rules:
            for port in dict.fromkeys(on_ports.ports):
                yield from (Unit(layer.number, on_ports.place, port, right) for right in on_ports.on_port)


def places(rule: PathRule | PortRule) -> tuple[str | int, ...]:
    """What a rule is on."""
    return (*rule.parents,) if isinstance(rule, PathRule) else (*rule.ports,)


def without(policy: Policy, taken: Iterable[Unit]) -> Policy:
    """A policy whose rules are on one path or port each, without some rights; a rule without rights is removed."""
    gone: dict[RuledObject, set[str]] = {}
    for unit in taken:
        gone.setdefault((unit.layer, unit.rule, unit.on), set()).add(unit.right)
    return replace(policy, layers=tuple(_layer_without(layer, gone) for layer in policy.layers))


def _layer_without(layer: Layer, gone: Mapping[RuledObject, Collection[str]]) -> Layer:
    def left(rule: PathRule | PortRule) -> Access:
        access, taken = rule.allowed_access, gone.get((layer.number, rule.place, places(rule)[0]), ())
        return Access(access.outright.difference(taken), access.grouped.difference(taken))

    handled = layer.handled_access_fs.rights | layer.handled_access_net.rights
    rules = layer.path_beneath
    return replace(
        layer,
        path_beneath=tuple(replace(it, allowed_access=left(it)) for it in rules if left(it).rights & handled),
        net_port=tuple(replace(it, allowed_access=left(it)) for it in layer.net_port if left(it).rights & handled),
    )


def _losing(policy: Policy, gone: Iterable[Iterable[Unit]]) -> Iterator[Policy]:
    """Each rule that loses rights by one of several choices, without these, as a policy of this rule alone."""
    single = {(layer.number, rule.place, places(rule)[0]): replace(policy, layers=(layer.with_only(rule),))
             for layer in policy.layers for rule in layer.rules}
    for some in gone:
        lost: dict[RuledObject, list[Unit]] = {}
        for unit in some:
            lost.setdefault((unit.layer, unit.rule, unit.on), []).append(unit)
        yield from (without(single[place], of_rule) for place, of_rule in lost.items())


def _wide_first(some: Iterable[Unit]) -> list[Unit]:
    """Rights by how near to the root they are: of two rules that grant what is needed, the wider is removed."""
    return sorted(some, key=lambda unit: len(PurePosixPath(unit.on).parts) if isinstance(unit.on, str) else 0)


@dataclass(frozen=True)
class AskedOnTree:
    """The questions that were asked on one tree by a recording, with how many calls asked each.

    A question is known by its number. `bodies` has its records without a process; `over` has the questions that are
    about paths at or under a path, or about a port.
    """

    tried: TriedPolicy
    tree: Path
    counted: Mapping[LayeredCall, int]
    questions: tuple[LayeredCall, ...]
    bodies: tuple[tuple[str, ...], ...]
    over: Mapping[str | int, frozenset[int]]

    @classmethod
    def of(cls, tried: TriedPolicy, tree: Path, counted: Mapping[LayeredCall, int]) -> AskedOnTree:
        """Questions that were counted."""
        questions = tuple(counted)
        bodies = tuple(
            tuple(text(call, "fd", FIRST_DESCRIPTOR + number) for call in question.calls)
            for number, question in enumerate(questions)
        )
        over: dict[str | int, set[int]] = {}
        for number, question in enumerate(questions):
            for place in question.about:
                for one in _with_what_is_over(place):
                    over.setdefault(one, set()).add(number)
        return cls(tried, tree, counted, questions, bodies, {place: frozenset(some) for place, some in over.items()})

    def calls(self, number: int) -> int:
        """How many calls asked a question."""
        return self.counted[self.questions[number]]

    def touched(self, objects: Mapping[RuledObject, Collection[str | int]], gone: Iterable[Unit]) -> list[int]:
        """The questions whose answers may change if some rights are taken away, by the objects that these are on.

        An answer depends on a path only by the rules that are on it and above it.
        """
        numbers: set[int] = set()
        for place in {(unit.layer, unit.rule, unit.on) for unit in gone}:
            for named in objects.get(place, ()):
                numbers |= self.over.get(named, frozenset())
        return sorted(numbers)


def _objects(inserted: Iterable[Record]) -> Mapping[RuledObject, Collection[str | int]]:
    """The paths by which a recording knows what each rule is on, or the port, by the policy's records."""
    found: dict[RuledObject, list[str | int]] = {}
    for record in inserted:
        origin = record["policy"]
        rule = Numbered.read(origin.get("rule", ""))
        if rule is not None:
            place = origin["layer"], rule, origin.get("parent", origin.get("port"))
            found.setdefault(place, []).append(record.get("path", record.get("port")))
    return found


def _with_what_is_over(place: str | int) -> Iterator[str | int]:
    """A path and the directories above it, or a port."""
    if isinstance(place, str):
        yield from upwards(place)
    else:
        yield place


class Tightening:
    """Takes away rights that no question of the recordings needs."""

    def __init__(self, program: Path, abi: int, asked: Sequence[AskedOnTree], *, best_effort: bool) -> None:
        self._abi = abi
        self._asked = [(one, Asker(program, alone(abi), one.tree, best_effort)) for one in asked]

    @property
    def audits(self) -> int:
        """How many audits there were."""
        return sum(asker.audits for _, asker in self._asked)

    def tightened(self, policy: Policy) -> Tightened:
        """Takes rights away until no more can go: some call needs each right that is left.

        Each rule of the policy is on one path or port.
        """
        taken = 0
        while True:
            left = list(units(policy, self._abi))
            needed = dict(zip(left, self._refused(policy, [[unit] for unit in left])))
            free = _wide_first(unit for unit, refused in needed.items() if not refused)
            if not free:
                return Tightened(policy, needed, taken, self.audits)
            away = self._away(policy, free)
            taken += len(away)
            policy = without(policy, away)

    def calls(self, needed: Iterable[Refused]) -> int:
        """The number of calls that asked questions which are refused."""
        return sum(self._asked[where][0].calls(number) for where, number in frozenset[tuple[int, int]]().union(*needed))

    def _away(self, policy: Policy, free: Sequence[Unit]) -> list[Unit]:
        """As many of some rights as can go together: all of them, or else those of one half and then of the other."""
        if not free or not self._refused(policy, [free])[0]:
            return list(free)
        if len(free) == 1:
            return []
        middle = len(free) // 2
        first = self._away(policy, free[:middle])
        return first + self._away(without(policy, first), free[middle:])

    def _refused(self, policy: Policy, gone: Sequence[Sequence[Unit]]) -> list[Refused]:
        """What is refused without some rights of a policy, for each of several choices of these."""
        called.ask(_losing(policy, gone), self._abi)
        found: list[set[tuple[int, int]]] = [set() for _ in gone]
        for where, (asked, asker) in enumerate(self._asked):
            objects = _objects(asked.tried.inserted(policy, self._abi))
            trials = (self._trials(asked, policy, objects, choice, some) for choice, some in enumerate(gone))
            for choice, number in asker.refused(chain.from_iterable(trials)):
                found[choice].add((where, number))
        return [frozenset(refused) for refused in found]

    def _trials(
        self, asked: AskedOnTree, policy: Policy, objects: Mapping[RuledObject, Collection[str | int]], choice: int,
        some: Sequence[Unit]
    ) -> Iterator[Trial[tuple[int, int]]]:
        """The processes that ask without some rights of a policy: one for all questions under the same layers.

        `objects` has what the policy's rules are on.
        """
        questions = asked.touched(objects, some)
        inserted = asked.tried.inserted(without(policy, some), self._abi) if questions else []
        by_domain: defaultdict[EnforcedLayers, list[int]] = defaultdict(list)
        for number in questions:
            by_domain[asked.questions[number].domain].append(number)
        for domain, numbers in by_domain.items():
            own = [call for layer in domain for call in _calls_of(layer, inserted)]
            yield Trial(own, [((choice, number), asked.bodies[number]) for number in numbers])


def _calls_of(layer: Enforced, inserted: Iterable[Record]) -> Iterator[str]:
    """The calls by which a process gets a layer, one of the policy or one of the program."""
    if isinstance(layer, int):
        of_layer = [call_of(record) for record in inserted if record["policy"].get("layer") == layer]
    else:
        of_layer = [*layer, ("restrict",), ("close_rs",)]
    yield from (text(call, "rs", RULESET) for call in of_layer)
