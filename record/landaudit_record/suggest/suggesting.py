"""Suggests the rules that would have let refused calls pass."""

from __future__ import annotations

from collections import Counter
from collections.abc import Callable, Iterable, Iterator, Mapping, Sequence, Set
from dataclasses import dataclass, field, replace

from ..audit import leftovers
from ..common.jsonl import Record
from ..common.numbered import Numbered
from ..common.operations import call_text
from ..common.rights import FS, NET, NONE, Rights
from ..common.trace_lines import CALL
from ..common.trees import Tree, directory_of
from ..engine import processes
from ..engine.answers import UNSURE, Answer, Closed, Gained, Kept, Missing, Objection
from ..engine.processes import of_policy
from ..engine.reading import Alike, Told, Walk
from ..policy.policies import Access, Layer, PathRule, Policy, PortRule, group_rules
from . import missing_rights, styling, widening
from .missing_rights import CallId, SuggestedRule, Wanted, Wants
from .objects import CountedObjects

MOST_ROUNDS = 30
#: The errors of a call in a process without layers that come from file modes, from file systems and from moves between
#: them; and the errors that always come before Landlock is asked.
_BY_ITSELF = ("EACCES", "EPERM", "EXDEV")
_BEFORE_LANDLOCK = ("EROFS",)


@dataclass(frozen=True)
class Recorded:
    """What is known of a recording: its tree, and the files that its run makes, truncates and leaves behind."""

    tree: Tree
    cut: Set[str] = frozenset()


@dataclass
class Round:
    """What an audit or a part of it shows: what the policy's layers lack, by recording, and refusals that no rule fixes.

    `new` has, by recording and directory, the real paths of objects that calls would make there; `pids` has the
    processes of each recording. `unsure` has the calls that may be refused, each in words.
    """

    wants: dict[int, dict[int, Wants]] = field(default_factory=dict)
    unmended: Counter[str] = field(default_factory=Counter)
    of_program: Counter[str] = field(default_factory=Counter)
    failed: Counter[str] = field(default_factory=Counter)
    new: dict[int, dict[str, set[str]]] = field(default_factory=dict)
    pids: dict[int, set[int]] = field(default_factory=dict)
    unsure: dict[CallId, str] = field(default_factory=dict)

    def add(self, other: Round) -> None:
        """Adds what a later part shows."""
        for number, by_recording in other.wants.items():
            for index, more in by_recording.items():
                missing_rights.unite(self.wants.setdefault(number, {}).setdefault(index, {}), more)
        for index, by_directory in other.new.items():
            for directory, paths in by_directory.items():
                self.new.setdefault(index, {}).setdefault(directory, set()).update(paths)
        for index, pids in other.pids.items():
            self.pids.setdefault(index, set()).update(pids)
        self.unmended.update(other.unmended)
        self.of_program.update(other.of_program)
        self.failed.update(other.failed)
        self.unsure.update(other.unsure)


@dataclass(frozen=True)
class Suggestion:
    """The rules for each layer by its number, and the calls that they leave refused.

    `unmended` are refusals of the policy's layers that no rule fixes, `of_program` those of the program's own layers,
    and `failed` are calls that failed in the recording whatever a policy says, all by call. `rounds` is the number of
    audits; if there were too many, the suggestion is not `finished`. `unsure` are calls that may be refused without the
    rules, by call: nobody knows what was there before.
    """

    rules: Mapping[int, list[SuggestedRule]]
    unmended: Counter[str]
    of_program: Counter[str]
    rounds: int
    finished: bool
    failed: Counter[str] = field(default_factory=Counter)
    groups: Mapping[int, Mapping[str, int]] = field(default_factory=dict)
    unsure: Counter[str] = field(default_factory=Counter)


@dataclass(frozen=True)
class RuleMaking:
    """How rules are made from what a layer lacks: exact, or at most a number, by `objects`; with or without groups."""

    most: int | None = None
    objects: CountedObjects | None = None
    in_groups: bool = False

    def rules(
        self, layer: Layer, wanted: Wanted, trees: Sequence[Tree]
    ) -> tuple[Mapping[str, int], list[SuggestedRule]]:
        """The groups for a layer, each with how many calls need it, and the further rules."""
        groups: Mapping[str, int] = {}
        if self.in_groups:
            styled = styling.with_groups(wanted, layer.handled_access_fs.rights, trees)
            groups, wanted = styled.groups, styled.left
        if self.most is None or self.objects is None:
            return groups, missing_rights.rules(wanted)
        return groups, widening.rules(wanted, self.objects, self.most)


def suggest(
    recorded: Sequence[Recorded],
    policy: Policy,
    abi: int,
    audit: Callable[[Policy, Callable[[int, Walk], Round]], Iterable[Round]],
    making: RuleMaking = RuleMaking(),
) -> Suggestion:
    """Adds rules until no layer of the policy refuses a call that a rule could fix.

    `audit` audits each part of each recording under a policy, and gives what is shown by the recording's index and a
    walk over the part. With the rules of one round, the next round may show further refusals, which came behind those
    that the rules fix. A round that shows nothing new is the last.
    """
    found = Round()
    groups: dict[int, Mapping[str, int]] = {}
    rules: dict[int, list[SuggestedRule]] = {}
    lacked: dict[int, list[Wants]] = {layer.number: [{} for _ in recorded] for layer in policy.layers}
    new: list[dict[str, set[str]]] = [{} for _ in recorded]
    unsure: dict[CallId, str] = {}
    trees = [one.tree for one in recorded]
    reading = _RefusalReading(recorded, policy, abi)
    for rounds in range(1, MOST_ROUNDS + 1):
        found = Round()
        for part in audit(with_rules(policy, rules, groups), reading.shown):
            found.add(part)
        known = _number_of(lacked)
        unsure.update(found.unsure)
        for number, by_recording in found.wants.items():
            for index, more in by_recording.items():
                missing_rights.unite(lacked[number][index], more)
        if _number_of(lacked) == known:
            break
        for index, by_directory in found.new.items():
            for directory, paths in by_directory.items():
                new[index].setdefault(directory, set()).update(paths)
        pids = [found.pids.get(index, set()) for index in range(len(recorded))]
        for layer in policy.layers:
            if any(lacked[layer.number]):
                wanted = missing_rights.placed(trees, lacked[layer.number], new, pids)
                groups[layer.number], rules[layer.number] = making.rules(layer, wanted, trees)
    finished = not found.wants
    in_doubt: Counter[str] = Counter()
    for call, words in unsure.items():
        in_doubt[words] += call.times
    return Suggestion(rules, found.unmended, found.of_program, rounds, finished, found.failed, groups, in_doubt)


def _number_of(lacked: Mapping[int, list[Wants]]) -> int:
    """The number of rights that are lacking, over all places."""
    return sum(len(rights) for by_recording in lacked.values() for some in by_recording for rights in some.values())


def needs_refer(layer: Layer, rules: Iterable[SuggestedRule]) -> bool:
    """Whether a layer must handle `refer` by name before the suggested rules may grant it."""
    return "refer" not in layer.handled_access_fs.rights and any("refer" in rule.rights for rule in rules)


def with_rules(
    policy: Policy, rules: Mapping[int, list[SuggestedRule]], groups: Mapping[int, Iterable[str]] | None = None
) -> Policy:
    """A policy with suggested rules and groups of rules, each in its layer."""
    named = groups or {}
    layers = (_layer_with(it, rules.get(it.number, []), named.get(it.number, ())) for it in policy.layers)
    return replace(policy, layers=tuple(layers))


def _layer_with(layer: Layer, rules: list[SuggestedRule], groups: Iterable[str]) -> Layer:
    handled = layer.handled_access_fs
    if needs_refer(layer, rules):
        handled = replace(handled, outright=handled.outright | {"refer"})
    return replace(
        layer,
        handled_access_fs=handled,
        path_beneath=(*layer.path_beneath, *_path_rules(rules), *_of_groups(layer, groups)),
        net_port=(*layer.net_port, *_port_rules(rules)),
    )


def _of_groups(layer: Layer, groups: Iterable[str]) -> Iterator[PathRule]:
    """The rules of the groups that a layer doesn't have yet."""
    there = {rule.group for rule in layer.path_beneath}
    for name in groups:
        yield from group_rules(name, layer.handled_access_fs.rights) if name not in there else ()


def place_of(number: int) -> Numbered:
    """The name of a suggested rule by its number, from 1."""
    return Numbered("suggested", number)


def _path_rules(rules: list[SuggestedRule]) -> Iterator[PathRule]:
    for number, same in enumerate(missing_rights.together(rules), start=1):
        if parents := tuple(rule.place for rule in same if isinstance(rule.place, str)):
            yield PathRule(place_of(number), Access(same[0].rights), parents)


def _port_rules(rules: list[SuggestedRule]) -> Iterator[PortRule]:
    for number, same in enumerate(missing_rights.together(rules), start=1):
        yield from (PortRule(place_of(number), Access(rule.rights), rule.place)
                    for rule in same if not isinstance(rule.place, str))


class _RefusalReading:
    """Reads what one walk shows, each kind of refused records once."""

    def __init__(self, recorded: Sequence[Recorded], policy: Policy, abi: int) -> None:
        self._recorded = recorded
        self._known = FS.known(abi) | NET.known(abi)
        self._handled = {it.number: it.handled_access_fs.rights & self._known for it in policy.layers}

    def shown(self, index: int, walk: Walk) -> Round:
        """What a walk shows. A call is known by its number in the recording, else by that of its record's line."""
        by_kind: dict[Alike, list[tuple[int, int]]] = {}
        for kind, line, text in walk:
            by_kind.setdefault(kind, []).append((line, -line if (call := CALL.search(text)) is None else int(call[1])))
        seen = Round(pids={index: set(walk.pids)})
        unsure: list[tuple[int, CallId, str]] = []
        for kind, some in by_kind.items():
            told = kind.told(walk.files[0], some[0][0])
            calls = [CallId(index, number, told.times) for _, number in some]
            for answer in (answer for _, answer in told.answered if answer.layers and of_policy(told.record) is None):
                self._refused(seen, told, answer, calls)
                if answer.verdict == UNSURE:
                    unsure += [(line, call, call_text(told.record)) for (line, _), call in zip(some, calls)]
        seen.unsure.update((call, words) for _, call, words in sorted(unsure))
        return seen

    def _refused(self, seen: Round, told: Told, answer: Answer, calls: Sequence[CallId]) -> None:
        """Collects refused calls of one kind, for each layer that refuses them.

        If one objection can't be fixed, rules for the others would not help. An
        example is `refer` at ABI 1, which no rule can grant there.
        """
        record, index, times = told.record, calls[0].recording, told.times * len(calls)
        if _fails_anyway(told):
            seen.failed[call_text(record)] += times
            return
        one = self._recorded[index]
        for layer in answer.layers:
            if layer.policy is None:
                seen.of_program[call_text(record)] += times
                continue
            grants = [_grant(one.tree, objection) for objection in layer.objections]
            if not all(rights and rights <= self._known for _, rights in grants):
                seen.unmended[call_text(record)] += times
                continue
            grants += _for_the_run_after(one, record, self._handled[layer.policy])
            _note_new(seen, one.tree, record, index, {place for place, _ in grants})
            lacked = seen.wants.setdefault(layer.policy, {}).setdefault(index, {})
            for place, rights in grants:
                missing_rights.unite(lacked, {place: {right: set(calls) for right in rights}})


def _note_new(seen: Round, tree: Tree, record: Record, index: int, places: Set[str | int]) -> None:
    """Notes what calls were to make in directories where they lack something."""
    for member in ("path", "to"):
        name, real = record.get(member), processes.shown(record, member)
        if isinstance(name, str) and name not in tree.kinds and directory_of(name) in places:
            seen.new.setdefault(index, {}).setdefault(directory_of(name), set()).add(str(real))


def _fails_anyway(told: Told) -> bool:
    """Whether a call that a policy refuses also fails without a policy, as the recording shows."""
    kernel = told.record.get("kernel")
    return kernel in _BEFORE_LANDLOCK or kernel in _BY_ITSELF and not told.confined


def _for_the_run_after(recorded: Recorded, record: Record, handled: Rights) -> list[tuple[str | int, Rights]]:
    """What a call that makes and truncates a file will ask on the same file in the next run."""
    path, real = record.get("path"), processes.shown(record, "path")
    if not leftovers.is_cut_again(record) or real not in recorded.cut:
        return []
    return [(directory_of(str(path)), handled & {"truncate"})]


def _grant(tree: Tree, objection: Objection) -> tuple[str | int, Rights]:
    """The place and the rights that a rule must grant so that an objection goes away; no rights if no rule can.

    A file that is not in the tree was made by the call that opened it, and the
    kernel judges that call by the directory.
    """
    match objection:
        case Missing(rights=rights, path=path) | Gained(rights=rights, path=path):
            return path, frozenset(rights)
        case Closed(rights=rights, port=port):
            return port, frozenset(rights)
        case Kept(rights=rights, path=path):
            return path if path in tree.kinds else directory_of(path), frozenset(rights)
    return "-", NONE
