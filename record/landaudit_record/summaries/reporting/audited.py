"""An audit as findings: the kinds of calls that an ABI refuses or may refuse, what was not judged, and warnings.

A refused call belongs to the rule of the refusing layer that is closest above its path, which lacks the right, or to
the layer.
"""

from __future__ import annotations

from collections import Counter
from collections.abc import Hashable, Iterable, Iterator, Mapping, Sequence
from dataclasses import dataclass
from functools import cached_property
from pathlib import Path

from ...audit.auditor import TriedPolicy
from ...audit.summary import Accepted, Refusal, Summary
from ...audit.warnings import (
    MadeByRun,
    ManyMoot,
    NoLayer,
    OfLog,
    ReplacedByRun,
    RulesetRefused,
    RuleRefused,
    RuleUnused,
    Warned,
)
from ...common.findings import DocumentPlaces, Finding, FindingKind, Level, Position, Report
from ...common.numbered import Numbered
from ...common.wording import counted, some_of, spans
from .. import grouping, summary_text
from .rules import Rules, lacking

REFUSED = FindingKind("refused", "Landlock refuses a call that the recorded program makes.")
UNSURE = FindingKind("may-be-refused", "A call may be refused: the recording does not tell what was there before it.")
NOT_JUDGED = FindingKind("not-judged", "Something that a policy may refuse could not be judged.")
NO_LONGER = FindingKind("accepted-no-longer-refused", "An accepted refusal no longer occurs.")
#: The kinds of warnings.
_WARNED: Mapping[type[Warned], FindingKind] = {
    RuleRefused: FindingKind("rule-refused", "The kernel refuses a rule or a layer of the policy."),
    RulesetRefused: FindingKind("ruleset-refused", "The kernel refuses a ruleset that the program makes."),
    RuleUnused: FindingKind("rule-not-used", "The run never touched what a rule is on."),
    MadeByRun: FindingKind("rule-on-what-the-run-makes", "The run makes the object of a rule itself."),
    ReplacedByRun: FindingKind("rule-on-what-the-run-replaces",
                               "The run puts another object where that of a rule was."),
    NoLayer: FindingKind("nothing-confined", "No process confines itself."),
    ManyMoot: FindingKind("many-moot", "Landlock is not asked about many of the calls on paths."),
    OfLog: FindingKind("log", "The kernel's log does not tell all."),
}
#: The width of a text that is not to be shortened.
_NO_LIMIT = 1_000_000


@dataclass(frozen=True)
class Audited:
    """An audit: its recordings, the policy as it was tried, the summary at each ABI, the oldest first, what is accepted
    and occurred no more, and the command that suggests rules.
    """

    recordings: Sequence[str]
    tried: TriedPolicy | None
    summaries: Sequence[Summary]
    no_longer: Sequence[Accepted] = ()
    suggesting: Sequence[str] = ()

    @property
    def file(self) -> Path:
        """The file of the policy; without a policy, the first recording."""
        return Path(self.recordings[0]) if self.tried is None else self.tried.policy.path

    @cached_property
    def _rules(self) -> Rules | None:
        """The rules of the policy, where they are in all recordings."""
        if self.tried is None:
            return None
        tree = self.tried.tree
        return Rules(self.tried.policy, lambda parent: tree.real(tree.resolved(parent, before_run=True)))

    def spot(self, refusal: Refusal) -> Position:
        """Where the policy refuses a call: a rule, or a layer; else the file."""
        layer = next((one for one in refusal.layers if one.policy is not None), None)
        if layer is None or self._rules is None:
            return Position(self.file)
        return lacking(self._rules, layer.policy, layer.objections)

    def part(self, warning: Warned) -> Position:
        """The part of the policy that a warning is about."""
        if isinstance(warning, (RuleRefused, RuleUnused, MadeByRun, ReplacedByRun)) and warning.rule.layer is not None:
            places, rule = DocumentPlaces(self.file), warning.rule.rule
            layer = warning.rule.layer
            return places.rule(layer, rule) if isinstance(rule, Numbered) else places.layer(layer)
        return Position(self.file)


@dataclass
class _Refused:
    """A kind of refused calls at the newest ABI that has it, with the programs that make them, and all its ABIs."""

    refusal: Refusal
    programs: Counter[str]
    abis: set[int]


def report(audited: Audited) -> Report:
    """The report on an audit."""
    newest = audited.summaries[-1]
    refused = _united((one.abi, one.refusals) for one in audited.summaries)
    unsure = _united((one.abi, one.unsure) for one in audited.summaries)
    others = [*(_finding(audited, UNSURE, Level.WARNING, one) for one in unsure), *_not_judged(audited, newest),
              *_warnings(audited), *_no_longer(audited)]
    each = [_finding(audited, REFUSED, Level.ERROR, one) for one in refused]
    few = each if len(refused) <= summary_text.MOST_ROWS else list(_groups(audited, refused))
    under = f" under {audited.file}" if audited.tried else ""
    return Report("landaudit-record audit", f"{', '.join(audited.recordings)}{under}", _summary(newest, len(refused)),
                  "no call is refused", each + others, few + others, audited.suggesting if each else ())


def _summary(newest: Summary, kinds: int) -> str:
    """How many calls are refused."""
    verdicts = newest.verdicts
    refused = f"{verdicts['refused']:,} refused at ABI {newest.abi}"
    accepted = f" ({newest.accepted.total():,} accepted)" if newest.accepted else ""
    not_all = ", and not all is judged" if newest.missing else ""
    return f"{counted(newest.records, 'record')}, {refused}{accepted}; {counted(kinds, 'kind')} at any ABI{not_all}"


def _united(by_abi: Iterable[tuple[int, Mapping[Refusal, Counter[str]]]]) -> list[_Refused]:
    """The kinds of calls that some ABIs refuse; those of one call and place by the same layers are one kind."""
    found: dict[Hashable, _Refused] = {}
    for abi, refusals in by_abi:
        here: dict[Hashable, _Refused] = {}
        for refusal, programs in refusals.items():
            layers = tuple(layer.name for layer in refusal.layers)
            key = refusal.call, refusal.subject, refusal.error, refusal.unknown, layers
            here.setdefault(key, _Refused(refusal, Counter(), {abi})).programs.update(programs)
        for kind, one in here.items():
            one.abis |= found[kind].abis if kind in found else set()
            found[kind] = one
    return list(found.values())


def _finding(audited: Audited, kind: FindingKind, level: Level, one: _Refused) -> Finding:
    """A kind of calls that are refused, or may be."""
    refusal = one.refusal
    subject = f"{refusal.call} {refusal.subject}" if refusal.subject else refusal.call
    layers = tuple(layer.name for layer in refusal.layers)
    text = f"{_how(refusal.error, layers, one.abis, level)}: {summary_text.why(refusal)}"
    if refusal.unknown is not None:
        text += f" (not known: {refusal.unknown})"
    identity = (refusal.call, str(refusal.subject), refusal.error, *layers)
    return Finding(kind, level, subject, f"{text}; by {_programs(one.programs)}", identity, audited.spot(refusal),
                   one.programs.total())


def _how(error: str, layers: Sequence[str], abis: Iterable[int], level: Level = Level.ERROR) -> str:
    """How calls are refused: the error, at which ABIs, and by which layers."""
    by = f" by {', '.join(layers)}" if layers else ""
    return f"{'refused' if level is Level.ERROR else 'may be refused'} with {error} at ABI {spans(abis)}{by}"


def _programs(programs: Counter[str]) -> str:
    """The most frequent programs."""
    return some_of([name if name != "-" else "a process without a program" for name, _ in programs.most_common()])


def _groups(audited: Audited, refused: Sequence[_Refused]) -> Iterator[Finding]:
    """The refused calls in groups, of which the first kind says where they belong."""
    abis = {one.refusal: one.abis for one in refused}
    for group in grouping.grouped((one.refusal, one.programs) for one in refused):
        lacking = group.lacking
        objections = list(dict.fromkeys(map(str, lacking.objections)))
        at = set[int]().union(*(abis[kind.refusal] for kind in group.kinds))
        text = f"{_how(lacking.error, lacking.layers, at)}: {'; '.join(objections)}"
        identity = (lacking.error, *lacking.layers, *objections, group.directory)
        yield Finding(REFUSED, Level.ERROR, summary_text.where_of(group)(_NO_LIMIT),
                      f"{text}; by {_programs(group.programs)}", identity,
                      audited.spot(group.kinds[0].refusal), group.programs.total())


def _not_judged(audited: Audited, newest: Summary) -> Iterator[Finding]:
    """What could not be judged."""
    for text in newest.missing:
        yield Finding(NOT_JUDGED, Level.WARNING, text, "not judged", (text,), Position(audited.file))


def _warnings(audited: Audited) -> Iterator[Finding]:
    """The warnings of all ABIs; a rule or layer that the kernel refuses is an error."""
    for warning in dict.fromkeys(warning for one in audited.summaries for warning in one.warnings):
        told = [one for one in audited.summaries if warning in one.warnings]
        level = Level.ERROR if isinstance(warning, RuleRefused) else Level.NOTE
        text = str(warning)
        yield Finding(_WARNED[type(warning)], level, text, f"at ABI {spans(one.abi for one in told)}", (text,),
                      audited.part(warning), told[-1].warnings[warning])


def _no_longer(audited: Audited) -> Iterator[Finding]:
    """What is accepted and no longer refused."""
    for one in audited.no_longer:
        yield Finding(NO_LONGER, Level.NOTE, str(one), f"accepted, but no longer refused ({one.reason})",
                      (one.call, str(one.subject)), Position(audited.file))
