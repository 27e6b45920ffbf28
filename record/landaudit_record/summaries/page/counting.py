"""Counts the calls at or below each path, and on each port: all calls, refused ones and moot ones."""

from __future__ import annotations

from collections import Counter
from collections.abc import Iterable, Iterator, Sequence
from dataclasses import dataclass, field
from itertools import takewhile
from operator import eq
from pathlib import Path

from ...audit.summary import Summary
from ...engine.reading import NamedSubject, places

#: The last names of a path with more names are kept as one: nobody opens so many directories by hand.
MOST_NAMES = 64


def asked(traces: Iterable[Path]) -> Counter[NamedSubject]:
    """The number of calls of a recording about each path or port; calls that its parts write again count once."""
    found: Counter[NamedSubject] = Counter()
    for trace in traces:
        found.update(places(trace))
    return found


@dataclass
class Counts:
    """Calls: all, and at each ABI, the oldest first, those that are refused and those that are moot."""

    all: int
    refused: list[int]
    moot: list[int]

    def add(self, other: Counts, sign: int = 1) -> None:
        """Adds the counts of others or, with the sign -1, subtracts them."""
        self.all += sign * other.all
        for mine, more in ((self.refused, other.refused), (self.moot, other.moot)):
            mine[:] = [old + sign * new for old, new in zip(mine, more)]

    def allowed(self, at: int) -> int:
        """How many are allowed at an ABI, by its index among those of the audit."""
        return self.all - self.refused[at] - self.moot[at]

    @property
    def weight(self) -> tuple[int, int]:
        """The key by which readers look first: the calls that the newest ABI refuses, then all calls."""
        return self.refused[-1], self.all

    @property
    def ever_refused(self) -> bool:
        """Whether an ABI refuses some."""
        return any(self.refused)


@dataclass(eq=False)
class CountedName:
    """A name in a directory, with the calls at or below it. A call on two paths counts once if both are below."""

    name: str
    counts: Counts
    children: dict[str, CountedName] = field(default_factory=dict)

    def by_weight(self) -> list[CountedName]:
        """The names in the directory; those with the most refused calls come first."""
        return sorted(self.children.values(), key=lambda node: node.counts.weight, reverse=True)

    def by_calls(self) -> list[CountedName]:
        """The names in the directory; those with the most calls come first."""
        return sorted(self.children.values(), key=lambda node: (-node.counts.all, node.name))


class Paths:
    """The calls on paths as a tree, and the calls on ports, under some ABIs of which the newest is last."""

    def __init__(self, calls: Counter[NamedSubject], summaries: Sequence[Summary]) -> None:
        self._abis = len(summaries)
        self.root = CountedName("/", self.none())
        self._ports: dict[int, Counts] = {}
        for place, number in calls.items():
            verdicts = ([one.not_allowed[verdict][place] for one in summaries] for verdict in ("refused", "moot"))
            counts = Counts(number, *verdicts)
            if isinstance(place, int):
                self._ports[place] = counts
            else:
                self._count(place, counts)

    def none(self) -> Counts:
        """No calls."""
        return Counts(0, [0] * self._abis, [0] * self._abis)

    def _count(self, place: tuple[str, ...], counts: Counts) -> None:
        """Counts calls at each directory on the way to their path, or to either of their paths."""
        ways = [_names(path) for path in place]
        for way in ways:
            for node in self._way(way):
                node.counts.add(counts)
        if len(ways) == 2:
            both = sum(1 for _ in takewhile(bool, map(eq, *ways)))
            for node in self._way(ways[0][:both]):
                node.counts.add(counts, -1)

    def _way(self, names: Sequence[str]) -> Iterator[CountedName]:
        """The root, and each node on the way from there by names."""
        node = self.root
        yield node
        for name in names:
            known = node.children.get(name)
            if known is None:
                node.children[name] = known = CountedName(name, self.none())
            node = known
            yield node

    def below(self, path: str) -> Counts:
        """The calls at a path or below it."""
        node: CountedName | None = self.root
        for name in _names(path):
            node = None if node is None else node.children.get(name)
        return self.none() if node is None else node.counts

    def on(self, port: int) -> Counts:
        """The calls on a port."""
        return self._ports.get(port) or self.none()


def _names(path: str) -> list[str]:
    """The names on the way to a path."""
    return [name for name in path[1:].split("/", MOST_NAMES) if name]
