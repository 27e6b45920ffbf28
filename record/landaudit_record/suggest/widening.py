"""Reduces rules to a number: joins rules into one on a directory, where that grants least besides what is needed.

A rule's grants are counted in objects: for each of its rights, the objects to which the right applies. Rules are joined
into one that reaches what `sensitive` warns of only where no other rules can be joined.
"""

from __future__ import annotations

from bisect import bisect_left, insort
from collections import Counter, defaultdict
from collections.abc import Iterator
from dataclasses import dataclass, field
from itertools import combinations_with_replacement

from ..common.rights import FS, NET, NONE, Rights
from ..common.trees import upwards
from ..common.wording import counted, some_of
from ..policy import sensitive
from . import missing_rights
from .missing_rights import CallsByRight, OnPaths, SuggestedRule, Wanted
from .objects import UNCOUNTED, CountedObjects, kind_of
from .remarks import Remark, RemarkKind

#: The names of the kinds of objects that a rule grants something on, in the singular.
_CALLED = {"files": "file", "directories": "directory", "devices": "device"}


@dataclass(frozen=True)
class _Merger:
    """Rights on a directory instead of rules under it: how many rules fewer, and what more is granted."""

    directory: str
    rights: Rights
    fewer: int
    cost: int


@dataclass(slots=True)
class _Beneath:
    """The rules on a directory and beneath it: their places by their rights, in order; on how many objects each right
    is granted; and how many rules are beneath each name in the directory.
    """

    places: dict[Rights, list[str]] = field(default_factory=dict)
    covered: Counter[str] = field(default_factory=Counter)
    branches: Counter[str] = field(default_factory=Counter)


def rules(wanted: Wanted, objects: CountedObjects, most: int) -> list[SuggestedRule]:
    """At most a number of rules that grant what is lacking, or as few as there can be."""
    exact = missing_rights.narrowed(wanted.paths)
    ports = _port_rules(wanted, most - len(exact))
    joining, room = _Joining(exact, objects), max(most - len(ports), 1)
    while len(joining.paths) > room:
        joining.join(joining.cheapest(len(joining.paths) - room))
    found = [
        SuggestedRule(place, rights, missing_rights.asking(lacking), more(place, rights, exact, objects))
        for place, lacking in sorted(joining.paths.items())
        for rights in (frozenset(lacking),)
    ]
    return missing_rights.remarked([*found, *ports], wanted.spots)


class _Joining:
    """Rules, of which no two grant a right on paths above one another; some are joined into one, again and again.

    What is known of each directory is kept, and computed again when rules beneath it have changed.
    """

    def __init__(self, exact: OnPaths, objects: CountedObjects) -> None:
        self._objects = objects
        self.paths: OnPaths = {}
        self._beneath: defaultdict[str, _Beneath] = defaultdict(_Beneath)
        self._mergers: dict[str, list[_Merger]] = {}
        self._changed: set[str] = set()
        for place, rights in exact.items():
            self._put(place, rights)

    def join(self, merger: _Merger) -> None:
        """Moves rights of the rules beneath a directory to a rule on it."""
        moved: CallsByRight = {}
        for place in self._replaced(merger):
            rights = self._take(place)
            for right in merger.rights & rights.keys():
                moved.setdefault(right, set()).update(rights[right])
            self._put(place, {right: calls for right, calls in rights.items() if right not in merger.rights})
        self._put(merger.directory, {**self._take(merger.directory), **moved})

    def cheapest(self, excess: int) -> _Merger:
        """The merger that grants least for each rule that it saves; rules saved beyond the excess do not count.

        One that reaches secrets is taken only if all do.
        """
        for directory in self._changed:
            if found := list(self._of(directory)):
                self._mergers[directory] = found
            else:
                self._mergers.pop(directory, None)
        self._changed.clear()
        ordered = sorted(
            (it for some in self._mergers.values() for it in some),
            key=lambda it: (it.cost / min(it.fewer, excess), -len(it.directory), it.directory, it.cost),
        )
        return next((it for it in ordered if not self._reaches_secrets(it)), ordered[0])

    def _of(self, directory: str) -> Iterator[_Merger]:
        """The rights that can move to a directory: those that two of the rules under it have in common."""
        beneath = self._beneath[directory]
        if directory not in self.paths and len(beneath.branches) < 2:
            return
        above: Rights = NONE.union(*(self.paths.get(over, ()) for over in list(upwards(directory))[1:]))
        new = self._objects.under(directory)
        in_order = sorted(beneath.places, key=lambda rights: beneath.places[rights][0])
        for one, other in combinations_with_replacement(in_order, 2):
            rights = one | other
            fewer = sum(len(places) for some, places in beneath.places.items() if some <= rights) - 1
            if fewer > 0:
                cost = sum(max(new.of(right) - beneath.covered[right], 0) for right in rights - above)
                yield _Merger(directory, rights, fewer, cost)

    def _replaced(self, merger: _Merger) -> list[str]:
        """The places of the rules beneath a directory that have some of the rights."""
        beneath = self._beneath[merger.directory].places
        return [place for rights, places in beneath.items() if rights & merger.rights for place in places]

    def _reaches_secrets(self, merger: _Merger) -> bool:
        """Whether there is a warning on a merger that is on none of the rules that it replaces."""
        found = set(sensitive.warnings(merger.directory, merger.rights))
        for place in self._replaced(merger) if found else ():
            found.difference_update(sensitive.warnings(place, frozenset(self.paths[place])))
        return bool(found)

    def _put(self, place: str, rights: CallsByRight) -> None:
        """Adds a rule, unless it has no rights."""
        if rights:
            self.paths[place] = rights
            key, covered = frozenset(rights), self._covered(place, rights)
            for beneath, name in self._above(place):
                insort(beneath.places.setdefault(key, []), place)
                for right, number in covered:
                    beneath.covered[right] += number
                if name:
                    beneath.branches[name] += 1

    def _take(self, place: str) -> CallsByRight:
        """Takes a rule away, if there is one."""
        rights = self.paths.pop(place, {})
        key, covered = frozenset(rights), self._covered(place, rights)
        for beneath, name in self._above(place) if rights else ():
            places = beneath.places[key]
            del places[bisect_left(places, place)]
            if not places:
                del beneath.places[key]
            for right, number in covered:
                beneath.covered[right] -= number
            if name:
                beneath.branches[name] -= 1
                if not beneath.branches[name]:
                    del beneath.branches[name]
        return rights

    def _covered(self, place: str, rights: CallsByRight) -> list[tuple[str, int]]:
        """Rights of a rule, each with the number of objects on which it grants it."""
        return [(right, under.of(right)) for right in rights for under in (self._objects.under(place),)]

    def _above(self, place: str) -> Iterator[tuple[_Beneath, str]]:
        """What is known of a place and of each directory above it, which changes, with the name there that leads to it.
        """
        name = ""
        for over in upwards(place):
            self._changed.add(over)
            yield self._beneath[over], name
            name = over


def more(place: str, rights: Rights, exact: OnPaths, objects: CountedObjects) -> tuple[Remark, ...]:
    """What a rule grants in addition to what is needed, a text for each kind of objects."""
    all_under, needed = objects.under(place), Counter[str]()
    for path, asked in exact.items():
        for right in rights & asked.keys():
            if place in upwards(path):
                needed[right] += objects.under(path).of(right)
    by_number: dict[tuple[str, int], list[str]] = defaultdict(list)
    for right in FS.ordered(rights):
        more = all_under.of(right) - needed[right]
        if more > 0:
            by_number[kind_of(right), more].append(right)
    if place in UNCOUNTED and by_number:
        return (Remark(RemarkKind.ALSO, f"everything else under {place} ({', '.join(FS.ordered(rights))})"),)
    told = [(_number(number, kind), ", ".join(some)) for (kind, number), some in by_number.items()]
    return tuple(Remark(RemarkKind.ALSO, f"{number} under {place} ({names})") for number, names in told)


def _number(number: int, kind: str) -> str:
    """A number of objects of a kind in words."""
    if kind == "directories" and number > 1:
        return f"{number:,} directories"
    return f"1 {_CALLED[kind]}" if number == 1 else f"{number:,} {_CALLED[kind]}s"


def _port_rules(wanted: Wanted, room: int) -> list[SuggestedRule]:
    """The rules on ports; if there is no room for them all, one for all ports with all rights."""
    found = missing_rights.port_rules(wanted.ports)
    if len(found) <= max(room, 1):
        return found
    rights = frozenset().union(*(rule.rights for rule in found))
    calls = missing_rights.number_of(some for asked in wanted.ports.values() for some in asked.values())
    ports = sorted(wanted.ports)
    others = {right: [str(port) for port in ports if right not in wanted.ports[port]] for right in NET.ordered(rights)}
    more = (f"{right} on {counted(len(some), 'port')}: {some_of(some)}" for right, some in others.items() if some)
    return [SuggestedRule(tuple(ports), rights, calls, tuple(Remark(RemarkKind.ALSO, text) for text in more))]
