"""What landaudit-rules finds, held against all ways in which a few objects can be in one another."""

from __future__ import annotations

import random
import unittest
from collections.abc import Iterator, Sequence
from dataclasses import replace
from itertools import chain, combinations
from unittest import mock

from landaudit_record.common.rights import FS
from landaudit_record.engine import landaudit_rules
from landaudit_record.engine.landaudit_rules import BUILT
from landaudit_record.policy.ruling import (
    CHAINS, GAINS, PARTS, REGIONS, SINGLE, Comparison, ComparisonAnswer, Granting, Layers, Passing, Ruled, RuledObjects,
    RuleOnObjects, RuleOnPorts, Ruling,
)

OBJECTS = RuledObjects.of(("/a", "/b", "/a/f", "/g"))
DIRECTORIES = tuple(map(OBJECTS.directory, OBJECTS.paths))
FILES = tuple(map(OBJECTS.file, OBJECTS.paths))
RIGHT = "read_file"
SEEDS = 1500

Placed = frozenset[int]
"""The objects that an object is under, the root among them, and the ruled file that it is, if it is one."""


def placings() -> Iterator[Placed]:
    """All ways to put an object: under any directories, and as any file or none; the root is over it."""
    for over in chain.from_iterable(combinations(DIRECTORIES, count) for count in range(len(DIRECTORIES) + 1)):
        yield from (frozenset({0, *over, *file}) for file in ((), *((one,) for one in FILES)))


PLACINGS = list(placings())


def granted(layer: Ruled) -> Placed:
    """The objects that a layer grants the right on."""
    return frozenset(number for rule in layer.rules if RIGHT in rule.rights for number in rule.objects)


def passes(layer: Ruled, placed: Placed) -> bool:
    """Whether a layer lets the right pass on an object, by landlock(7): by a rule on it, or on what it is under."""
    return RIGHT not in layer.handled or not placed.isdisjoint(granted(layer))


def layers(of: random.Random) -> Layers:
    """Up to three layers, of which most handle the right, with rules on some objects; two may be on one."""
    found = []
    for number in range(1, of.choice((1, 1, 2, 3)) + 1):
        some = [one for one in (0, *DIRECTORIES, *FILES) if of.random() < (0.1 if one == 0 else 0.4)]
        rules = [RuleOnObjects(frozenset({RIGHT}), (one,)) for one in some]
        rules += [RuleOnObjects(frozenset({"execute"}), (one,)) for one in some if of.random() < 0.3]
        of.shuffle(rules)
        found.append(Ruled(number, frozenset({RIGHT} if of.random() < 0.9 else {"execute"}), tuple(rules)))
    return tuple(found)


def compared(seed: int) -> tuple[Layers, Layers]:
    """Two policies, often with layers in common."""
    of = random.Random(seed)
    old, new = layers(of), layers(of)
    return old, (*old, *new)[: of.randint(1, 4)] if of.random() < 0.3 else new


def of_right(old: Layers, new: Layers, *parts: str) -> Comparison:
    """What is asked of the right."""
    before, after = (tuple(layer.of[RIGHT] for layer in side) for side in (old, new))
    return Comparison(before, after, frozenset(parts), OBJECTS.parents)


def answers(asked: Sequence[Comparison]) -> list[ComparisonAnswer]:
    """What the built program answers."""
    ruling = Ruling(BUILT, OBJECTS)
    ruling.ask(asked)
    return list(map(ruling.answer, asked))


def refused(old: Ruled, new: Sequence[Ruled]) -> set[Placed]:
    """Where the right passes under some layers, and not under an old one."""
    return {it for it in PLACINGS if not passes(old, it) and all(passes(one, it) for one in new)}


@unittest.skipUnless(BUILT.exists(), f"{BUILT} is not built")
class Anywhere(unittest.TestCase):
    def test_all_placings_of_a_few_objects(self) -> None:
        pairs = [compared(seed) for seed in range(SEEDS)]
        kept = 0
        found = answers([of_right(*pair, CHAINS, SINGLE, GAINS) for pair in pairs])
        for seed, ((before, after), answer) in enumerate(zip(pairs, found)):
            for index, old in enumerate(before):
                with self.subTest(seed, layer=index):
                    where = refused(old, after)
                    self.of_objects(where, answer, index)
                    self.of_gains(old, after, answer, index)
                    kept += not where
            self.assertEqual(answer.spare_layers, max(0, len(before) - len(after)))
        self.assertGreater(kept, SEEDS // 20)

    def of_objects(self, where: set[Placed], answer: ComparisonAnswer, index: int) -> None:
        """A chain is told if there is one, and each object that is enough by itself."""
        told = answer.chains[index]
        self.assertEqual(told is None, not where)
        if told is not None:
            self.assertIn(frozenset(told), where)
            self.assertEqual((told[0], len(set(told))), (0, len(told)))
        alone = {number for number in (0, *DIRECTORIES, *FILES) if frozenset({0, number}) in where}
        self.assertEqual(set(answer.single[index]), alone)

    def of_gains(self, old: Ruled, new: Sequence[Ruled], answer: ComparisonAnswer, index: int) -> None:
        """A gain is told if there is one: of what goes into a directory that an old layer grants on."""
        gains = {into: refused(old, [one for one in new if into in granted(one)])
                 for into in granted(old).intersection((0, *DIRECTORIES))}
        told = answer.gains[index]
        self.assertEqual(told is None, not any(gains.values()))
        if told is not None:
            self.assertIn(frozenset(told.chain), gains[told.directory])

    def test_regions_and_ports(self) -> None:
        """A right passes in a region by the rules on it and on what it is in, and on a port by those on it."""
        pairs = [compared(seed) for seed in range(SEEDS // 5)]
        over = {0: 0, **dict(enumerate(OBJECTS.parents, start=1))}
        placed = {number: frozenset({0, over[number], number}) for number in over}
        self.assertEqual([OBJECTS.parents[number - 1] for number in (*DIRECTORIES, *FILES)],
                         [0, 0, OBJECTS.directory("/a"), 0] * 2)
        found = answers([of_right(*pair, REGIONS) for pair in pairs])
        for seed, (pair, answer) in enumerate(zip(pairs, found)):
            with self.subTest(seed):
                self.of_passing(answer.regions, *(
                    {number for number in over if all(passes(layer, placed[number]) for layer in side)}
                    for side in pair))
        bound = Ruled(1, frozenset(), (), handled_net=frozenset({"bind_tcp"}),
                      port_rules=(RuleOnPorts(frozenset({"bind_tcp"}), (1,)),))
        (of_ports,) = answers([Comparison((bound,), (bound, replace(bound, port_rules=())), ports=3)])
        self.of_passing(of_ports.ports["bind_tcp"], {1}, set())
        self.of_passing(of_ports.ports["connect_tcp"], {0, 1, 2}, {0, 1, 2})

    def test_what_is_not_asked(self) -> None:
        """Nothing is told of a part that is not asked, although the new policy lets the right pass everywhere."""
        old = Ruled(1, frozenset({RIGHT}), ())
        everywhere = tuple(sorted((0, *DIRECTORIES, *FILES)))
        for part, (answer,) in ((part, answers([of_right((old,), (), part)])) for part in PARTS):
            with self.subTest(part):
                told = frozenset(everywhere if part == REGIONS else ())
                self.assertEqual(answer.regions, Passing(frozenset(), told, frozenset()))
                self.assertEqual(answer.chains, [(0,)] if part == CHAINS else [])
                self.assertEqual(answer.single, [everywhere] if part == SINGLE else [])
                self.assertEqual(answer.gains, [None] if part == GAINS else [])

    def test_rights_of_which_layers_say_the_same_are_asked_about_once(self) -> None:
        """Two rights are alike, `refer` is handled with them and granted nowhere, and no other one is handled."""
        both = frozenset({RIGHT, "execute"})
        layer = Ruled(1, both, (RuleOnObjects(both, (1, 3)), RuleOnObjects(both, (5,))))
        self.assertEqual(layer.of[RIGHT], Granting(True, frozenset({1, 3, 5})))
        self.assertEqual([right for right in FS.since if layer.of[right].handles], ["execute", RIGHT, "refer"])
        ruling = Ruling(BUILT, OBJECTS)
        each = [Comparison((Granting(True),), (layer.of[right],), frozenset({SINGLE})) for right in FS.since]
        with mock.patch.object(landaudit_rules, "ask", wraps=landaudit_rules.ask) as asked:
            ruling.ask(each)
            ruling.ask(each)
        self.assertEqual([len(call.args[1]) for call in asked.call_args_list], [3, 0])
        found = {right: ruling.answer(one).single for right, one in zip(FS.since, each)}
        everywhere = tuple(range(1 + 2 * len(OBJECTS.paths)))
        self.assertEqual((found[RIGHT], found["execute"], found["refer"], found["truncate"]),
                         ([(1, 3, 5)], [(1, 3, 5)], [()], [everywhere]))

    def of_passing(self, found: Passing, old: set[int], new: set[int]) -> None:
        """Where a right passes under each policy, and under both."""
        self.assertEqual((found.both, found.new, found.old), (old & new, new - old, old - new))

    def test_scopes_that_no_new_layer_has(self) -> None:
        none, signal = Ruled(1, frozenset(), ()), Ruled(1, frozenset(), (), frozenset({"signal"}))
        both = Ruled(2, frozenset({"execute"}), (), frozenset({"signal", "abstract_unix_socket"}))
        pairs = ((both,), (none,)), ((both,), (none, signal)), ((signal, both), (both,))
        found = answers([Comparison(old, new) for old, new in pairs])
        self.assertEqual([(set(one.lost), one.spare_layers) for one in found], [
            ({"mounts", "signal", "abstract_unix_socket"}, 0), ({"mounts", "abstract_unix_socket"}, 0), (set(), 1)])
