"""The result of an audit: refusals grouped and counted, what was moot and why, and warnings."""

from __future__ import annotations

from collections import Counter
from collections.abc import Callable, Iterable, Iterator, Sequence
from dataclasses import dataclass, field, replace
from functools import cache, partial
from pathlib import Path
from typing import Any

from ..common import json_text
from ..common.jsonl import Record
from ..common.operations import call_text
from ..engine import answers
from ..engine.answers import UNOPENED, UNSURE, Answer, Condition, Kept, Missing, Objection
from ..engine.processes import of_policy, shown_path
from ..engine.reading import ANY_PATH, ASKED_LANDLOCK, Alike, Counted, NamedSubject, Told, place_of, subject_of
from ..engine.subjects import Number, Subject
from .moot import FAILED_TOO, MISSED, Unasked
from .warnings import MadeByRun, ManyMoot, NoLayer, OfPolicy, ReplacedByRun, RuleRefused, RulesetRefused, RuleUnused, Warned

#: What is counted besides verdicts: records of the policy that are left out, and moot calls on paths.
_LEFT_OUT, _MOOT_CALL = "left out", "moot call"
#: The ABIs that give one answer.
_Abis = tuple[int, ...]
#: Something that is counted, in the counts that it is in; and what makes it of the path of the records.
_Entry = tuple[dict[Any, int], Any]
_EntryOnPath = tuple[dict[Any, int], Callable[[str], Any]]


@dataclass(frozen=True)
class RefusingLayer:
    """A layer by its number in the domain, with its number in the tried policy if it belongs to it; its objections.

    The number in the domain is None where nothing tells it, as in a kernel's log.
    """

    number: int | None
    policy: int | None
    objections: tuple[Objection, ...]

    @property
    def name(self) -> str:
        return f"program's {self.number}" if self.policy is None else f"policy's {self.policy}"


@dataclass(frozen=True)
class Refusal:
    """A kind of refused calls. If no layer refuses them, they fail by themselves by a condition.

    They may be refused and need not be if there is something `unknown` about what was there before.
    """

    call: str
    subject: Subject
    error: str
    layers: tuple[RefusingLayer, ...]
    condition: Condition | None
    unknown: str | None = None

    _hash: int = field(init=False, compare=False, repr=False)

    def __post_init__(self) -> None:
        object.__setattr__(self, "_hash", hash((self.call, self.subject, self.error)))

    def on(self, path: str) -> Refusal:
        """The same on a path in the place of any path."""
        layers = tuple([
            RefusingLayer(layer.number, layer.policy, tuple([_objection_on(path, one) for one in layer.objections]))
            for layer in self.layers
        ])
        return Refusal(self.call, Subject((path,)), self.error, layers, self.condition, self.unknown)

    def __hash__(self) -> int:
        """The hash of what differs most, made once: audits over several ABIs look up each refusal many times."""
        return self._hash


@dataclass(frozen=True)
class Accepted:
    """A kind of refused calls that is known and accepted, and why; call and subject are those of a refusal."""

    call: str
    subject: Subject
    reason: str

    def __str__(self) -> str:
        return f"{self.call} {self.subject}" if self.subject else self.call


@dataclass
class Summary:
    """The result of an audit; `missing` has what could not be judged, so that the audit is not complete; `untraced` has
    the kinds of calls that a layer may refuse and that were not traced.

    Accepted refusals are separate, with how many calls there are of each. `recordings` says, if several were audited,
    in which each refusal occurs; `not_allowed` counts by verdict the calls on each path or port, including accepted
    ones. `unsure` are the kinds of calls that may be refused.
    """

    abi: int
    verdicts: Counter[str] = field(default_factory=Counter)
    refusals: dict[Refusal, Counter[str]] = field(default_factory=dict)
    moot: dict[Unasked, Counter[Subject]] = field(default_factory=dict)
    seen: int = 0
    path_calls: int = 0
    moot_path_calls: int = 0
    warnings: dict[Warned, int] = field(default_factory=dict)
    unsaid: Counter[str] = field(default_factory=Counter)
    missing: tuple[str, ...] = ()
    untraced: tuple[str, ...] = ()
    accepted: Counter[Accepted] = field(default_factory=Counter)
    recordings: dict[Refusal, list[str]] = field(default_factory=dict)
    not_allowed: dict[str, Counter[NamedSubject]] = field(
        default_factory=lambda: {"refused": Counter(), "moot": Counter()}
    )
    unsure: dict[Refusal, Counter[str]] = field(default_factory=dict)

    @property
    def others_refused(self) -> bool:
        """Whether a record is refused that is not accepted."""
        return self.verdicts["refused"] > self.accepted.total()

    @property
    def records(self) -> int:
        """How many records were answered."""
        return sum(self.verdicts.values())

    def add(self, other: Summary) -> None:
        """Adds the counts of other records, which come later."""
        self.verdicts.update(other.verdicts)
        for mine, others in ((self.refusals, other.refusals), (self.unsure, other.unsure)):
            for refusal, programs in others.items():
                known = mine.get(refusal)
                if known is None:
                    mine[refusal] = programs.copy()
                else:
                    known.update(programs)
        for why, at in other.moot.items():
            self.moot.setdefault(why, Counter()).update(at)
        for verdict, places in other.not_allowed.items():
            self.not_allowed[verdict].update(places)
        for warning, times in other.warnings.items():
            self.warn(warning, times)
        self.unsaid.update(other.unsaid)
        self.accepted.update(other.accepted)
        self.seen += other.seen
        self.path_calls += other.path_calls
        self.moot_path_calls += other.moot_path_calls

    def at(self, abi: int) -> Summary:
        """The same at another ABI; what is found later may be added to it."""
        own = {name: getattr(self, name).copy() for name in ("verdicts", "refusals", "unsure", "accepted")}
        return replace(self, abi=abi, **own)

    def warn(self, warning: Warned, times: int = 1) -> None:
        """Adds a warning that is due to so many records."""
        self.warnings[warning] = self.warnings.get(warning, 0) + times

    def kinds(self, *, unsure: bool) -> dict[Refusal, Counter[str]]:
        """The kinds of calls that may be refused, or of those that are."""
        return self.unsure if unsure else self.refusals

    def by_frequency(self) -> list[tuple[Refusal, Counter[str]]]:
        """The refusals, the most frequent first; those that are as frequent, in the order of the trace."""
        return sorted(self.refusals.items(), key=lambda item: -item[1].total())


class Summaries:
    """The summaries of an audit at some ABIs, which take one part of the recording after another.

    What ABIs answer alike is counted once for all of them. Only the newest ABI's summary says what was moot and why.
    `tried` says whether a policy was tried.
    """

    def __init__(self, abis: range, *, tried: bool = False) -> None:
        self._by_abi = {abi: Summary(abi) for abi in abis}
        self._newest = abis[-1]
        self._confines = tried
        self._verdicts: dict[tuple[_Abis, str], int] = {}
        self._refused: dict[tuple[_Abis, Refusal, str], int] = {}
        self._places: dict[str, dict[_Abis, Counter[NamedSubject]]] = {"refused": {}, "moot": {}}

    def take(self, parts: Iterable[Counted], abis: range) -> None:
        """Counts the answers of some ABIs to all parts of the recording. What several parts have is decoded once, and
        so are kinds that differ in nothing but their path.
        """
        known: dict[Alike, list[_Entry]] = {}
        on_any_path: dict[Alike, list[_EntryOnPath] | None] = {}
        for part in parts:
            for kind, line, times in part.kinds:
                entries = known.get(kind)
                if entries is None:
                    entries = self._entries_on_path(kind, part.trace, line, abis, on_any_path)
                    if entries is None:
                        entries = list(self._entries(kind.told(part.trace, line), abis))
                    known[kind] = entries
                for counts, entry in entries:
                    counts[entry] = counts.get(entry, 0) + times
            self._confines |= part.confines
            for abi in abis:
                summary = self._by_abi[abi]
                summary.verdicts[UNSURE] += part.unsure[abi]
                summary.path_calls += part.path_calls
                summary.seen += part.records

    def _entries_on_path(
        self, kind: Alike, trace: Path, line: int, abis: range, on_any_path: dict[Alike, list[_EntryOnPath] | None]
    ) -> list[_Entry] | None:
        """Where records count by what is known of those that differ in their path alone; None if that is not enough."""
        path = kind.path
        if path is None:
            return None
        alike = kind.without(path)
        if alike not in on_any_path:
            told = alike.told(trace, line)
            each = self._entries(told, abis) if told.is_on_any_path else None
            on_any_path[alike] = None if each is None else [(counts, _on_path(entry)) for counts, entry in each]
        some, text = on_any_path[alike], path[1:-1].decode()
        return None if some is None else [(counts, entry(text)) for counts, entry in some]

    def _entries(self, told: Told, abis: range) -> Iterator[_Entry]:
        """Where a record counts."""
        for abi in abis if "policy" in told.record else ():
            yield from ((self._by_abi[abi].warnings, warning) for warning in _told_of_rule(told.record))
        place = place_of(told.record) if told.answered else None
        for some, answer in told.answered:
            if place is not None and answer.verdict != UNSURE:
                yield self._places[answer.verdict].setdefault(some, Counter()), place
        for some, answer in told.answered:
            if _is_left_out(told.record, answer):
                yield self._verdicts, (some, _LEFT_OUT)
            elif answer.refused or answer.verdict == UNSURE:
                yield from self._refusal_entries(told, answer, some)
            else:
                yield from self._moot_entries(told, answer, some)

    def _refusal_entries(self, told: Told, answer: Answer, abis: _Abis) -> Iterator[_Entry]:
        """Where a refused record counts under the ABIs that refuse it alike."""
        if answer.refused:
            yield self._verdicts, (abis, "refused")
        for abi in abis if not answer.layers else ():
            yield from ((self._by_abi[abi].warnings, warning) for warning in _told_of_ruleset(told.record, answer, abi))
        if answer.layers or of_policy(told.record) is None:
            yield self._refused, (abis, _refusal(told.record, answer), told.program or "-")

    def _moot_entries(self, told: Told, answer: Answer, abis: _Abis) -> Iterator[_Entry]:
        """Where a moot record counts under the ABIs that find it moot alike."""
        yield self._verdicts, (abis, "moot")
        if told.asked:
            yield self._verdicts, (abis, _MOOT_CALL)
        origin = of_policy(told.record)
        for abi in abis if origin is not None else (self._newest,) if self._newest in abis else ():
            summary = self._by_abi[abi]
            why, at = _because(told.record, answer, abi in told.missed)
            yield summary.moot.setdefault(why, Counter()), at
            if origin is not None:
                yield summary.warnings, RuleUnused(OfPolicy.of(origin, told.record), at, why)

    def done(
        self, unsaid: Counter[str], missing: Sequence[str] = (), untraced: Sequence[str] = ()
    ) -> list[Summary]:
        """The summaries, the oldest ABI first; `missing` is what no audit of the recording can judge, `untraced` what
        was not traced.
        """
        self._spread()
        for abi, summary in self._by_abi.items():
            # What is neither refused nor moot was allowed.
            others = sum(summary.verdicts[verdict] for verdict in ("refused", "moot", UNSURE))
            summary.verdicts["allowed"] = summary.seen - others
            if not self._confines:
                summary.warn(NoLayer())
            if 10 * summary.moot_path_calls > summary.path_calls:
                summary.warn(ManyMoot(summary.moot_path_calls, summary.path_calls))
            summary.unsaid = unsaid
            summary.missing = tuple(missing)
            summary.untraced = tuple(untraced)
        return list(self._by_abi.values())

    def _spread(self) -> None:
        """Gives each ABI what was counted; ABIs with the same counts share them."""
        for (abis, what), times in self._verdicts.items():
            for summary in map(self._by_abi.__getitem__, abis):
                if what == _LEFT_OUT:
                    summary.seen -= times
                elif what == _MOOT_CALL:
                    summary.moot_path_calls += times
                else:
                    summary.verdicts[what] += times
        for verdict, counted in self._places.items():
            united: dict[tuple[_Abis, ...], Counter[NamedSubject]] = {}
            for abi, summary in self._by_abi.items():
                mine = tuple(abis for abis in counted if abi in abis)
                if mine not in united:
                    each = [counted[abis] for abis in mine]
                    united[mine] = each[0] if len(each) == 1 else sum(each, Counter())
                summary.not_allowed[verdict] = united[mine]
        self._spread_refusals()

    def _spread_refusals(self) -> None:
        """Gives each ABI its kinds of refused calls, in the order of the trace."""
        alike: dict[Refusal, _Abis | None] = {}
        for abis, refusal, _ in self._refused:
            if alike.setdefault(refusal, abis) != abis:
                alike[refusal] = None
        kinds_of = cache(lambda some, unsure: [self._by_abi[abi].kinds(unsure=unsure) for abi in some])
        for (abis, refusal, program), times in self._refused.items():
            for some in [abis] if alike[refusal] else [(abi,) for abi in abis]:
                each = kinds_of(some, refusal.unknown is not None)
                programs = each[0].get(refusal)
                if programs is None:
                    programs = Counter()
                    for kinds in each:
                        kinds[refusal] = programs
                programs[program] += times
        self._refused.clear()


def _on_path(entry: Any) -> Callable[[str], Any]:
    """What makes what is counted of records on a path, by what is counted of those on any path."""
    if entry == (ANY_PATH,):
        return lambda path: (path,)
    if isinstance(entry, Subject) and entry.paths == (ANY_PATH,):
        return lambda path: Subject((path,))
    if isinstance(entry, Subject):
        return lambda _: entry
    abis, what, *program = entry
    if not program:
        return lambda _: entry
    return lambda path: (abis, what.on(path), *program)


def _objection_on(path: str, objection: Objection) -> Objection:
    """An objection on a path, by that on any path."""
    if isinstance(objection, Missing) and objection.path == ANY_PATH:
        return Missing(objection.rights, path)
    return objection


def _told_of_rule(record: Record) -> Iterator[Warned]:
    """Warnings of a rule of the policy on what the run makes, or puts something else in the place of."""
    origin = of_policy(record) or {}
    if "made" in origin:
        yield MadeByRun(OfPolicy.of(origin, record), origin["made"])
    if "replaced" in origin:
        yield ReplacedByRun(OfPolicy.of(origin, record), origin["replaced"])


def _told_of_ruleset(record: Record, answer: Answer, abi: int) -> Iterator[Warned]:
    """Warnings of a ruleset that is not made or not filled."""
    origin = of_policy(record)
    if origin is not None:
        yield RuleRefused(OfPolicy.of(origin, record), answer.error, answer.condition)
    elif record["op"] == "create":
        yield RulesetRefused(abi, answer.error, answer.condition)


def _is_left_out(record: Record, answer: Answer) -> bool:
    """Whether a record of the policy is left out: the ABI has none of its rights, or the run makes its object."""
    origin = of_policy(record)
    return origin is not None and ("made" in origin or answer.left_out)


def _refusal(record: Record, answer: Answer) -> Refusal:
    """The kind that a refused call is counted as."""
    layers = tuple([
        RefusingLayer(layer.layer, layer.policy, tuple([_as_shown(one, record) for one in layer.objections]))
        for layer in answer.layers
    ])
    kept = next((one.path for layer in layers for one in layer.objections if isinstance(one, Kept)), None)
    condition = None if layers else answer.condition
    unknown = str(record["unknown"]) if answer.verdict == UNSURE else None
    return Refusal(call_text(record), subject_of(record, kept), answer.error or "-", layers, condition, unknown)


def _as_shown(objection: Objection, record: Record) -> Objection:
    """An objection with its path as a person knows it."""
    if isinstance(objection, Missing):
        path = shown_path(record, objection.path)
        return objection if path == objection.path else replace(objection, path=path)
    return objection


def _because(record: Record, answer: Answer, missed: bool) -> tuple[Unasked, Subject]:
    """Why a call is moot, and the path or number that the reason is about."""
    kernel = record.get("kernel")
    if kernel not in ASKED_LANDLOCK and not answer.left_out:
        return Unasked(FAILED_TOO, error=kernel), subject_of(record)
    reason = answer.reason
    why = Unasked(MISSED if reason.word == UNOPENED and missed else reason.word, reason.kind)
    of = reason.subject
    if of.paths:
        return why, Subject(tuple(shown_path(record, path) for path in of.paths))
    return why, of or _left_out(record)


def _left_out(record: Record) -> Subject:
    """What a rule that is left out is on, or the ruleset of a restriction that is left out."""
    return Subject(number=Number("ruleset", record["rs"])) if record["op"] == "restrict" else subject_of(record)


def as_data(summary: Summary) -> dict[str, Any]:
    """The summary as data for programs, which `json_text` writes; its keys stay."""
    return {
        "abi": summary.abi,
        "records": summary.records,
        "allowed": summary.verdicts["allowed"],
        "refused": summary.verdicts["refused"],
        "moot": summary.verdicts["moot"],
        "unsure": summary.verdicts[UNSURE],
        "refusals": json_text.Made(partial(_refusal_data, summary), summary.by_frequency()),
        "may_be_refused": [
            {**_refusal_data(summary, (refusal, programs)), "unknown": refusal.unknown}
            for refusal, programs in summary.unsure.items()
        ],
        "accepted": [
            {"times": times, "call": one.call, "place": str(one.subject), "reason": one.reason}
            for one, times in summary.accepted.most_common()
        ],
        "moot_because": [
            {"why": str(why), "times": at.total(), "at": {str(subject): count for subject, count in at.most_common()}}
            for why, at in sorted(summary.moot.items(), key=lambda item: -item[1].total())
        ],
        "path_calls": summary.path_calls,
        "moot_path_calls": summary.moot_path_calls,
        "warnings": [{"text": str(warning), "times": times} for warning, times in summary.warnings.items()],
        "unsaid": dict(summary.unsaid.most_common()),
        "not_judged": list(summary.missing),
        "not_traced": list(summary.untraced),
    }


def _refusal_data(summary: Summary, counted: tuple[Refusal, Counter[str]]) -> dict[str, Any]:
    """A kind of refused calls; if several recordings were audited, with those in which it occurs."""
    refusal, programs = counted
    where = summary.recordings.get(refusal)
    return {
        "times": programs.total(),
        "call": refusal.call,
        "place": str(refusal.subject),
        "error": refusal.error,
        "layers": [_layer_data(layer) for layer in refusal.layers],
        "condition": None if refusal.condition is None else str(refusal.condition),
        "programs": dict(programs.most_common()),
        **({} if where is None else {"recordings": where}),
    }


def _layer_data(layer: RefusingLayer) -> dict[str, Any]:
    objections = [answers.as_data(objection) for objection in layer.objections]
    return {"number": layer.number, "policy": layer.policy, "objections": objections}
