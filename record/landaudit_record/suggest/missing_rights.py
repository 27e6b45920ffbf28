"""What a layer lacks for refused calls, and the rules that would grant it."""

from __future__ import annotations

from collections import defaultdict
from collections.abc import Iterable, Iterator, Mapping, Sequence, Set
from dataclasses import dataclass, replace
from typing import NamedTuple, TypeVar

from ..common.rights import Rights
from ..common.trees import Tree, upwards
from ..common.wording import some_of
from ..policy import sensitive
from . import placing
from .placing import Placing, RulePlace
from .remarks import Remark, RemarkKind

#: The ports of which the kernel chooses one for a program that names none, unless it is told otherwise (ip(7)).
CHOSEN_BY_KERNEL = range(32_768, 61_000)


class CallId(NamedTuple):
    """A refused call, by the index of its recording and its number there; `times` is how many it stands for."""

    recording: int
    number: int
    times: int = 1


# Rights, each with the calls that ask for it.
CallsByRight = dict[str, set[CallId]]
# The rights that are lacking on each path, or on each path and port.
OnPaths = dict[str, CallsByRight]
Wants = dict[str | int, CallsByRight]

On = TypeVar("On", str, int, str | int)


@dataclass(frozen=True)
class SuggestedRule:
    """A rule to write, on a path or on ports, how many calls ask for it, and remarks on it."""

    place: str | tuple[int, ...]
    rights: Rights
    calls: int
    remarks: tuple[Remark, ...] = ()


@dataclass(frozen=True)
class Wanted:
    """What a layer lacks over all recordings: on paths, each where a rule can be, with its purpose; and on ports."""

    paths: OnPaths
    spots: Sequence[RulePlace]
    ports: dict[int, CallsByRight]


def together(rules: Iterable[SuggestedRule]) -> list[tuple[SuggestedRule, ...]]:
    """Rules on paths with equal rights together, where the first of them is.

    Each rule on ports is by itself, and each with a remark, so that it is told of what.
    """
    found: dict[Rights | SuggestedRule, list[SuggestedRule]] = {}
    for rule in rules:
        alone = rule.remarks or not isinstance(rule.place, str)
        found.setdefault(rule if alone else rule.rights, []).append(rule)
    return [tuple(same) for same in found.values()]


def unite(wants: dict[On, CallsByRight], more: dict[On, CallsByRight]) -> None:
    """Adds the rights that further calls lack."""
    for place, rights in more.items():
        here = wants.setdefault(place, {})
        for right, calls in rights.items():
            here.setdefault(right, set()).update(calls)


def placed(
    trees: Sequence[Tree], wants: Sequence[Wants], new: Sequence[Mapping[str, Set[str]]], pids: Sequence[Set[int]]
) -> Wanted:
    """What is lacking in each recording, at the places where rules can be.

    `new` has, for each recording and directory, the objects that calls would make; `pids` has the processes of each.
    """
    paths = [{place: rights for place, rights in some.items() if isinstance(place, str)} for some in wants]
    where = Placing(trees, paths, pids)
    spots = [where.spot(index, path) for index, asked in enumerate(paths) for path in asked]
    for index, asked in enumerate(paths):
        spots += [where.new(index, path, real) for path in asked for real in new[index].get(path, ())]
    found = Wanted({}, spots, {})
    for index, some in enumerate(wants):
        for place, rights in some.items():
            if isinstance(place, str):
                unite(found.paths, {where.spot(index, place).place: rights})
            else:
                unite(found.ports, {place: rights})
    return found


def rules(wanted: Wanted) -> list[SuggestedRule]:
    """The rules that grant what is lacking and nothing that could be left out; those that most calls ask come first.

    A right that a rule on a directory above a path grants is not granted again.
    """
    granted = narrowed(wanted.paths)
    of_paths = [SuggestedRule(place, frozenset(rights), asking(rights)) for place, rights in granted.items()]
    return remarked([*of_paths, *port_rules(wanted.ports)], wanted.spots)


def asking(rights: CallsByRight) -> int:
    """How many calls ask for rights."""
    return number_of(rights.values())


def number_of(some: Iterable[Set[CallId]]) -> int:
    """How many calls there are in sets."""
    return sum(call.times for call in set[CallId]().union(*some))


def narrowed(wants: OnPaths) -> OnPaths:
    """What is lacking; of paths above one another, only the uppermost has a right."""
    granted: OnPaths = {}
    for path in sorted(wants):
        for right, calls in wants[path].items():
            place = next((over for over in upwards(path) if right in granted.get(over, {})), path)
            unite(granted, {place: {right: calls}})
    return granted


def remarked(found: Iterable[SuggestedRule], spots: Iterable[RulePlace]) -> list[SuggestedRule]:
    """Rules with remarks; those that most calls ask for come first."""
    ordered = sorted(found, key=lambda rule: -rule.calls)
    places = {rule.place for rule in ordered}
    serving: dict[str, list[RulePlace]] = defaultdict(list)
    for spot in spots:
        serving[next((over for over in upwards(spot.place) if over in places), spot.place)].append(spot)
    doubted: set[str] = set()
    return [replace(rule, remarks=(*rule.remarks, *_remarks(rule, serving, doubted))) for rule in ordered]


def _remarks(rule: SuggestedRule, serving: dict[str, list[RulePlace]], doubted: set[str]) -> Iterator[Remark]:
    """The remarks on a rule; a name that looks made up is remarked on once, and is then among the doubted names."""
    if isinstance(rule.place, str):
        yield from placing.remarks(rule.place, serving[rule.place])
        found = placing.doubtful(rule.place)
        if found is not None and found[0] not in doubted:
            doubted.add(found[0])
            yield found[1]
        yield from (Remark(RemarkKind.WARNING, text) for text in sensitive.warnings(rule.place, rule.rights))
    elif "connect_tcp" in rule.rights and (chosen := [port for port in rule.place if port in CHOSEN_BY_KERNEL]):
        named = some_of([str(port) for port in chosen])
        yield Remark(RemarkKind.WARNING, f"{named}: if the kernel chose it (bind to port 0), it differs in each run")


def port_rules(wants: dict[int, CallsByRight]) -> list[SuggestedRule]:
    """One rule for all ports on which the same rights are lacking."""
    ports: dict[Rights, list[int]] = defaultdict(list)
    calls: dict[Rights, set[CallId]] = defaultdict(set)
    for port in sorted(wants):
        rights = frozenset(wants[port])
        ports[rights].append(port)
        calls[rights].update(*wants[port].values())
    return [SuggestedRule(tuple(ports[rights]), rights, number_of([calls[rights]])) for rights in ports]
