"""What a log says of denials as data for programs: docs/denials.schema.json describes it; its keys stay."""

from __future__ import annotations

from collections.abc import Iterator
from typing import Any

from ..audit.summary import Refusal
from ..common.rights import FS, NET
from ..engine import answers
from ..suggest.missing_rights import SuggestedRule
from .counting import Counted, LoggedLayer
from .denials import LoggedDomain
from .granting import Granted, Target
from .matching import Matched
from .text import moment

#: The version of what --json prints.
FORMAT = 1


def as_data(found: Counted, granted: Granted) -> dict[str, Any]:
    """All that is counted, and the rules."""
    log, summary, matched = found.log, found.summary, found.matched
    return {
        "format": FORMAT,
        "records": log.records,
        "from": None if log.first is None else _time(log.first),
        "to": None if log.last is None else _time(log.last),
        "denied": len(log.denials),
        "refused": summary.verdicts["refused"],
        "succeeded": sum(programs.total() for programs in found.succeeded.values()),
        "refusals": [_kind(found, refusal, summary.refusals[refusal]) for refusal, _ in summary.by_frequency()],
        "all_the_same": [_kind(found, refusal, programs) for refusal, programs in found.succeeded.items()],
        "domains": [_domain(domain, matched) for domain in log.domains.values()],
        "rules_above": [
            {"layer": rule.layer, "rule": str(rule.rule), "place": rule.place, "rights": list(rule.rights),
             "lacking": dict(lacking.most_common())}
            for rule, lacking in found.above.items()
        ],
        "rules": [_rule(target, rule) for target, rules in granted.rules.items() for rule in rules],
        "without_rule": {why: dict(calls.most_common()) for why, calls in _without_rule(granted)},
        "warnings": list(map(str, summary.warnings)),
        "not_logged": list(summary.missing),
    }


def _time(milliseconds: int) -> str:
    """A time as RFC 3339 writes it."""
    return moment(milliseconds).isoformat(timespec="milliseconds").replace("+00:00", "Z")


def _kind(found: Counted, refusal: Refusal, programs: Any) -> dict[str, Any]:
    """A kind of denied calls."""
    first, last = found.times[refusal]
    return {
        "times": programs.total(),
        "call": refusal.call,
        "place": str(refusal.subject),
        "error": None if refusal.error == "-" else refusal.error,
        "layers": [_layer(layer) for layer in refusal.layers if isinstance(layer, LoggedLayer)],
        "programs": dict(programs.most_common()),
        "domains": dict(found.domains[refusal].most_common()),
        "first": _time(first),
        "last": _time(last),
        "granted_now": refusal in found.granted,
    }


def _layer(layer: LoggedLayer) -> dict[str, Any]:
    objections = [answers.as_data(objection) for objection in layer.objections]
    return {"made_by": layer.maker, "policy": layer.policy, "objections": objections}


def _domain(domain: LoggedDomain, matched: Matched | None) -> dict[str, Any]:
    maker = domain.maker
    return {
        "domain": domain.number,
        "policy": None if matched is None else matched.layers.get(domain.number),
        "pid": None if maker is None else maker.pid,
        "uid": None if maker is None else maker.uid,
        "exe": None if maker is None else maker.program,
        "comm": None if maker is None else maker.comm,
        "logged": domain.logged,
        "counted": domain.counted,
    }


def _rule(target: Target, rule: SuggestedRule) -> dict[str, Any]:
    """A rule, with the layers that it is for: one of the policy, or those that a program made."""
    made_by = {"layer": target.layer, "made_by": target.maker or None}
    if isinstance(rule.place, str):
        place: dict[str, Any] = {"allowed_access": FS.ordered(rule.rights), "parent": rule.place}
    else:
        place = {"allowed_access": NET.ordered(rule.rights), "port": list(rule.place)}
    return {**made_by, **place, "calls": rule.calls, "remarks": list(map(str, rule.remarks))}


def _without_rule(granted: Granted) -> Iterator[tuple[str, Any]]:
    """The calls for which there is no rule, by the reason."""
    yield "no_rule_can" , granted.unmended
    yield "would_gain", granted.gaining
    yield "of_other_layers", granted.of_others
    yield "granted_now", granted.since
    yield "succeeded", granted.succeeded
