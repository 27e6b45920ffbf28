"""Rules that would let a group of refused calls pass: exact ones, and fewer ones on directories that grant more."""

from __future__ import annotations

import posixpath
from collections.abc import Callable, Iterable, Iterator, Mapping, Sequence
from dataclasses import dataclass, replace
from functools import cached_property

from ...audit.auditor import TriedPolicy
from ...audit.summary import Refusal
from ...common.rights import FS, NET, NONE, Rights
from ...common.trees import ROOT, Tree, directory_of, upwards
from ...engine.answers import Closed, Gained, Kept, Missing, Objection
from ...policy.policies import Layer
from ...suggest import missing_rights, widening
from ...suggest.missing_rights import OnPaths, SuggestedRule
from ...suggest.objects import CountedObjects
from ...suggest.placing import Placing
from ...suggest.remarks import Remark, RemarkKind
from ..grouping import RefusedGroup

#: For a group that needs this many exact rules or fewer, only these are offered; for others, at most MOST_EXACT.
FEW, MOST_EXACT = 3, 60
OF_PROGRAM = "a layer that the program makes itself refuses them"
NO_RULE = "no rule of the policy lets them pass"
WRITE_AND_RUN = Remark(RemarkKind.WARNING, "what is written there can be run")
_WRITE_AND_RUN: Rights = frozenset({"execute", "write_file"})


@dataclass(frozen=True)
class Offer:
    """The rules for a group of refused calls, by layer: exact ones or, if those are not few, `wide` ones.

    The exact ones may be there besides the wide ones, unless they are too many. `helpless` says why there are no rules.
    """

    group: RefusedGroup
    rules: Mapping[int, list[SuggestedRule]]
    exact: Mapping[int, list[SuggestedRule]]
    helpless: str = ""


@dataclass(frozen=True)
class _Lack:
    """What a layer lacks for a kind of calls: rights, on a path or a port; `index` numbers what it objects to."""

    layer: int
    index: int
    rights: Rights
    place: str | int
    order: int


class Offering:
    """Makes offers of rules for a policy as it is tried."""

    def __init__(self, tried: TriedPolicy) -> None:
        self._tried = tried

    @cached_property
    def _objects(self) -> CountedObjects:
        """The objects that rules are on, counted when a rule is wider than it needs to be."""
        return CountedObjects([self._tried.tree])

    def of(self, group: RefusedGroup, abi: int) -> Offer:
        """The rules for a group of calls that an ABI refuses."""
        refusals = [kind.refusal for kind in group.kinds]
        if any(layer.policy is None for refusal in refusals for layer in refusal.layers):
            return Offer(group, {}, {}, OF_PROGRAM)
        lacks = [lack for kind in group.kinds for lack in _lacks(kind.refusal, kind.order, self._tried.tree)]
        known = FS.known(abi) | NET.known(abi)
        if not lacks or not all(lack.rights and lack.rights <= known for lack in lacks):
            return Offer(group, {}, {}, NO_RULE)
        made = [_Maker(self._tried.tree, layer, group, [lack for lack in lacks if lack.layer == layer.number])
                for layer in self._tried.policy.layers]
        makers = [it for it in made if it.lacks]
        number = sum(len(it.exact) for it in makers)
        exact = {it.layer.number: self._remarked(it, it.exact) for it in makers} if number <= MOST_EXACT else {}
        if number <= FEW:
            return Offer(group, exact, {})
        return Offer(group, {it.layer.number: self._remarked(it, it.wide) for it in makers}, exact)

    def _remarked(self, made: _Maker, paths: OnPaths) -> list[SuggestedRule]:
        """Rules with all that a reader should know of them."""
        rules = made.rules(paths, self._objects if paths is not made.exact else None)
        return [replace(rule, remarks=(*rule.remarks, *self._dangers(rule, made.layer))) for rule in rules]

    def _dangers(self, rule: SuggestedRule, layer: Layer) -> Iterator[Remark]:
        """A warning if the rule and those of the policy at its place let a program run what it writes."""
        if isinstance(rule.place, str) and rule.rights & _WRITE_AND_RUN:
            over, tree = set(upwards(rule.place)), self._tried.tree
            there = (it.allowed_access.rights for it in layer.path_beneath
                     if any(tree.real(tree.resolved(parent, before_run=True)) in over for parent in it.parents))
            if _WRITE_AND_RUN <= rule.rights.union(*there):
                yield WRITE_AND_RUN


def _lacks(refusal: Refusal, order: int, tree: Tree) -> Iterator[_Lack]:
    """What each layer of the policy lacks; no rights where no rule helps."""
    for layer in refusal.layers:
        for index, objection in enumerate(layer.objections):
            place, rights = _place_and_rights(objection, tree)
            yield _Lack(layer.policy or 0, index, rights, place, order)


def _place_and_rights(objection: Objection, tree: Tree) -> tuple[str | int, Rights]:
    """What a rule must grant, and where, by the name that the tree has for it."""
    match objection:
        case Missing(rights=rights, path=path) | Gained(rights=rights, path=path) | Kept(rights=rights, path=path):
            name = tree.put.get(path, path)
            return name if name in tree.kinds else directory_of(path), frozenset(rights)
        case Closed(rights=rights, port=port):
            return port, frozenset(rights)
    return ROOT, NONE


def _lacking(lack: _Lack) -> missing_rights.CallsByRight:
    """The rights of one lack, with the kind of calls in the place of its calls."""
    return {right: {missing_rights.CallId(0, lack.order)} for right in lack.rights}


class _Maker:
    """Makes the rules of a layer for a group of calls."""

    def __init__(self, tree: Tree, layer: Layer, group: RefusedGroup, lacks: Sequence[_Lack]) -> None:
        self.layer, self.lacks = layer, lacks
        self._calls = {kind.order: kind.programs.total() for kind in group.kinds}
        names = dict.fromkeys(lack.place for lack in lacks if isinstance(lack.place, str))
        placing = Placing([tree], [list(names)], [set()])
        self._spots = {name: placing.spot(0, name) for name in names}
        self.exact = missing_rights.narrowed(self._on_paths(lambda lacks: None))
        self.wide = missing_rights.narrowed(self._on_paths(self._above))

    def _on_paths(self, above: Callable[[Sequence[_Lack]], str | None]) -> OnPaths:
        """The rights that are lacking, for each objection on the path `above` what lacks them or, if none, on each."""
        found: OnPaths = {}
        for index in sorted({lack.index for lack in self.lacks}):
            lacks = [lack for lack in self.lacks if lack.index == index]
            directory = above(lacks)
            for lack in lacks:
                if isinstance(lack.place, str):
                    missing_rights.unite(found, {directory or self._spots[lack.place].place: _lacking(lack)})
        return found

    def _above(self, lacks: Sequence[_Lack]) -> str | None:
        """The deepest directory above some paths, unless it is the root."""
        places = sorted({self._spots[lack.place].place for lack in lacks if isinstance(lack.place, str)})
        directory = posixpath.commonpath(places) if places else ROOT
        return None if directory == ROOT else directory

    def rules(self, paths: OnPaths, objects: CountedObjects | None) -> list[SuggestedRule]:
        """The rules on paths, with what they grant besides if objects are counted, and the rules on ports."""
        found = [SuggestedRule(place, frozenset(rights), self._asking(rights.values()),
                      () if objects is None else widening.more(place, frozenset(rights), self.exact, objects))
                 for place, rights in paths.items()]
        return missing_rights.remarked([*found, *self._on_ports()], self._spots.values())

    def _on_ports(self) -> Iterator[SuggestedRule]:
        """The rules on ports."""
        ports: dict[int, missing_rights.CallsByRight] = {}
        for lack in self.lacks:
            if isinstance(lack.place, int):
                missing_rights.unite(ports, {lack.place: _lacking(lack)})
        for rule in missing_rights.port_rules(ports):
            asking = (calls for port in rule.place if isinstance(port, int) for calls in ports[port].values())
            yield replace(rule, calls=self._asking(asking))

    def _asking(self, calls: Iterable[set[missing_rights.CallId]]) -> int:
        """How many calls ask for something, by the kinds of calls that do."""
        return sum(self._calls[call.number] for call in set[missing_rights.CallId]().union(*calls))
