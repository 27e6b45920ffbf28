"""The layers of two policies at an ABI as landaudit-rules is asked about them: rules are on objects and ports by number.

A path with a rule is two objects, a directory and a file. None is in force on a file where the kernel would refuse it.
"""

from __future__ import annotations

from collections import defaultdict
from collections.abc import Iterable, Mapping, Sequence
from dataclasses import dataclass

from ..common.rights import FILE_RIGHTS, FS, REFER, Rights
from .fitting import FittedLayer
from .regions import Regions
from .ruling import (
    CHAINS, NOTHING, SINGLE, Comparison, Granting, Layers, Numbers, Objects, Ruled, RuledObjects, RuleOnObjects,
    RuleOnPorts,
)

#: A right that no call asks alone: the device must be opened first, for reading or for writing.
OF_OPENED = "ioctl_dev"
OPENING = ("read_file", "write_file")

Gone = Mapping[str, Objects]
"""The objects on which a right is left out, by rights."""


@dataclass(frozen=True)
class Sides:
    """The layers of both policies at an ABI."""

    abi: int
    old: Layers
    new: Layers

    @property
    def asked(self) -> list[tuple[str, ...]]:
        """Each right with what has to pass too: OF_OPENED is asked of what was opened, if an old layer handles it."""
        opened = any(OF_OPENED in layer.handled for layer in self.old)
        return [*((right,) for right in FS.since if right != OF_OPENED),
                *((OF_OPENED, opening) for opening in OPENING if opened)]

    def turned(self) -> Sides:
        """The policies the other way round."""
        return Sides(self.abi, self.new, self.old)

    def on_both(self, right: str, parts: Iterable[str], parents: Numbers = ()) -> Comparison:
        """What is asked of a right under both policies."""
        old, new = (tuple(layer.of[right] for layer in side) for side in (self.old, self.new))
        return Comparison(old, new, frozenset(parts), parents)

    def beyond(self, rights: Sequence[str], gone: Gone) -> Comparison:
        """On which objects the new policy lets rights pass, and the old one does not the first, beside what is gone."""
        right, less = rights[0], gone.get(rights[0], NOTHING)
        new = tuple(layer.of[each].less(less) for each in rights for layer in self.new)
        return Comparison(tuple(layer.of[right] for layer in self.old), new, frozenset({CHAINS, SINGLE}))

    def moved(self, making: str) -> Comparison:
        """Whether the new policy lets some object be made by a move: the old layer refuses it everywhere."""
        new = tuple(layer.of[right] for right in (REFER, making) for layer in self.new)
        return Comparison((Granting(True),), new, frozenset({CHAINS}))


def united(one: Gone, other: Gone) -> Gone:
    """What is gone in either."""
    return {right: one.get(right, NOTHING) | other.get(right, NOTHING) for right in one.keys() | other.keys()}


def at(regions: Regions, objects: RuledObjects, abi: int) -> Sides:
    """The layers of the two policies of some regions at an ABI."""
    ports = {port: number for number, port in enumerate(regions.tried_ports)}
    one, other = (tuple(_ruled(layer, regions, objects, ports, abi) for layer in by_abi[abi])
                  for by_abi in regions.fitted)
    return Sides(abi, one, other)


def _ruled(layer: FittedLayer, regions: Regions, objects: RuledObjects, ports: Mapping[int, int], abi: int) -> Ruled:
    """A layer with rules on objects, and on a port of each group."""
    on: defaultdict[Rights, list[int]] = defaultdict(list)
    for rule in layer.path_rules:
        directories, files = objects.beneath(rule.parents)
        on[frozenset(rule.on_directory)] += directories
        on[FILE_RIGHTS.intersection(rule.on("reg"))] += (
            number for path, number in files if not regions.is_directory(path, abi))
    rules = tuple(RuleOnObjects(rights, tuple(numbers)) for rights, numbers in on.items())
    port_rules = tuple(RuleOnPorts(frozenset(rule.on_port), tuple(ports[port] for port in rule.ports if port in ports))
                       for rule in layer.port_rules)
    return Ruled(layer.number, frozenset(layer.handled_fs), rules, handled_net=frozenset(layer.handled_net),
                 port_rules=port_rules)
