"""Counts denials as an audit counts refusals: kinds of calls, each with its programs, layers and places."""

from __future__ import annotations

from collections import Counter
from collections.abc import Iterator
from dataclasses import dataclass, field

from ..audit.summary import Refusal, RefusingLayer, Summary
from ..audit.warnings import OfLog
from ..common.wording import counted, some_of
from ..engine.answers import Closed, Missing, Objection
from ..engine.subjects import ARROW, Subject
from .denials import Denial, DeniedAccess, Log, LoggedDomain, Maker
from .matching import Matched, RuleAbove

NO_CALLS = ("have no record of their call, so its program, its name and how it ended are not known: an audit rule such "
            "as '-a never,task' switches these records off")
NO_END = ("did not end in the log, so it is not known how many denials there were: processes ran on, or records were "
          "lost")
#: The word for what a log does not have.
NOT_SAID = "-"


@dataclass(frozen=True)
class LoggedLayer(RefusingLayer):
    """A layer in a log: by the program that restricted itself by it, or by its number in the policy."""

    maker: str = NOT_SAID

    @property
    def name(self) -> str:
        return super().name if self.policy is not None else of_maker(self.maker)


@dataclass
class Counted:
    """What a log says, counted: `summary` has the refused calls; `succeeded` those that were denied something and did
    not fail. `domains` has the domains of each kind, `times` the times of its first and last call, in milliseconds, and
    `granted` those kinds that the policy, as it is now, does not refuse. `above` counts, for each rule of the policy
    that is on the object of a refused call or above it, the rights that are lacking there.
    """

    log: Log
    summary: Summary
    matched: Matched | None = None
    succeeded: dict[Refusal, Counter[str]] = field(default_factory=dict)
    domains: dict[Refusal, Counter[str]] = field(default_factory=dict)
    times: dict[Refusal, tuple[int, int]] = field(default_factory=dict)
    granted: set[Refusal] = field(default_factory=set)
    above: dict[RuleAbove, Counter[str]] = field(default_factory=dict)


def count(log: Log, matched: Matched | None = None) -> Counted:
    """Counts the denials of a log, with the layers of a policy if one is given."""
    found = Counted(log, Summary(0), matched)
    for denial in log.denials:
        _take(found, denial)
    found.summary.verdicts["refused"] = sum(programs.total() for programs in found.summary.refusals.values())
    found.summary.missing = tuple(log.not_known())
    for text in _warnings(found):
        found.summary.warnings[OfLog(text)] = 1
    return found


def _take(found: Counted, denial: Denial) -> None:
    """Counts one denial."""
    refusal = _refusal(found, denial)
    kinds = found.succeeded if denial.succeeded else found.summary.refusals
    program = NOT_SAID if denial.call is None else denial.call.program or denial.call.comm or NOT_SAID
    kinds.setdefault(refusal, Counter())[program] += 1
    found.domains.setdefault(refusal, Counter()).update({access.domain for access in denial.accesses})
    time = denial.stamp.milliseconds
    first, last = found.times.get(refusal, (time, time))
    found.times[refusal] = min(first, time), max(last, time)
    if found.matched is None:
        return
    if found.matched.is_granted_since(denial):
        found.granted.add(refusal)
    elif not denial.succeeded:
        _count_above(found, found.matched, denial)


def _count_above(found: Counted, matched: Matched, denial: Denial) -> None:
    """Counts what a call lacks at each rule above it."""
    for access in denial.accesses:
        for rule in set(matched.rules_above(access)):
            rights = access.objection.rights if isinstance(access.objection, (Missing, Closed)) else ()
            found.above.setdefault(rule, Counter()).update(rights)


def _refusal(found: Counted, denial: Denial) -> Refusal:
    """The kind of a denial: what is the same each time the program runs."""
    by_domain: dict[str, list[Objection]] = {}
    for access in denial.accesses:
        objections = by_domain.setdefault(access.domain, [])
        if access.objection not in objections:
            objections.append(access.objection)
    layers = tuple(_layer(found, number, objections) for number, objections in by_domain.items())
    call = denial.call
    name = NOT_SAID if call is None else call.name
    error = NOT_SAID if call is None else call.error or NOT_SAID
    return Refusal(name, _subject(denial.accesses), error, layers, None)


def _layer(found: Counted, domain: str, objections: list[Objection]) -> LoggedLayer:
    layer = None if found.matched is None else found.matched.layer_of(domain)
    policy = None if layer is None else layer.number
    return LoggedLayer(None, policy, tuple(objections), maker_of(found.log.domains[domain]))


def of_maker(maker: str) -> str:
    """A layer in words, by the program that made it."""
    return maker if maker == NOT_SAID else f"{maker}'s"


def maker_of(domain: LoggedDomain) -> str:
    """The program that made a layer, in a word."""
    return NOT_SAID if domain.maker is None else _name(domain.maker)


def _name(maker: Maker) -> str:
    return maker.comm or maker.program


def _subject(accesses: tuple[DeniedAccess, ...]) -> Subject:
    """What a call is about: the directories of a move or link in their order, or all that it reached."""
    objections = [access.objection for access in accesses]
    match objections:
        case [Closed(port=port)]:
            return Subject(port=port)
    places = tuple(dict.fromkeys(access.place for access in accesses))
    moved = all(isinstance(objection, Missing) for objection in objections)
    return Subject(places, between=ARROW if moved else ", ")


def _warnings(found: Counted) -> Iterator[str]:
    """What a reader must know before he takes the counts for all there is."""
    without = sum(1 for denial in found.log.denials if denial.call is None)
    if without:
        yield f"{counted(without, 'denial')} {NO_CALLS}"
    alive = sum(1 for domain in found.log.domains.values() if domain.counted is None)
    if alive:
        yield f"{counted(alive, 'domain')} {NO_END}"
    if found.matched is None:
        return
    name = found.matched.policy.path
    makers = sorted({maker_of(found.log.domains[domain]) for domain in found.matched.layers} - {NOT_SAID})
    if len(makers) > 1:
        yield (f"layers of {len(makers)} programs fit {name}: {some_of(makers)}: --program chooses the "
               "right one")
    for domain in found.matched.unlike:
        yield (f"no layer of {name} fits all denials of domain {domain}: is that the policy that was in force, or was "
               "it changed?")
    refused = (denial for denial in found.log.denials if not denial.succeeded)
    granted = sum(1 for denial in refused if _refusal(found, denial) in found.granted)
    if granted:
        yield (f"{name}, as it is now, grants what {counted(granted, 'call')} lacked: was it changed since, or was "
               "another one in force?")
    others = {access.domain for denial in found.log.denials for access in denial.accesses}
    others -= found.matched.layers.keys() | set(found.matched.unlike)
    if others:
        yield (f"the denials of {counted(len(others), 'domain')} are of no layer of {name} as it is now: of another "
               "policy, or granted since")
