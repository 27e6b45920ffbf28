"""A check as findings: each case and each question that holds is a passed test, and each other one is an error.

A call that passes belongs to the first rule that grants it; a call that is refused to the rule that lacks a right, or
to the layer.
"""

from __future__ import annotations

from collections.abc import Iterator, Sequence

from ...common.findings import Finding, FindingKind, Level, Position, Report
from ...common.wording import counted
from ...policy import checking_text
from ...policy.checking import Checked, CheckedCase
from ...policy.deciding import Decision
from ...policy.granting import Grant
from ...policy.policies import Policy
from .rules import Rules, lacking

REFUSED = FindingKind("must-be-refused", "The policy must refuse a call.")
ALLOWED = FindingKind("must-be-allowed", "The policy must allow a call.")
NOWHERE = FindingKind("must-not-pass", "The policy must not let rights pass, or not together, in some places.")


def report(checked: Checked, policy: Policy) -> Report:
    """The report on a check; the parents of the policy are what they lead to on this machine."""
    rules = Rules(policy)
    summary = f"{counted(len(checked.results), 'case')}: {checked.held:,} held, {checked.failed:,} failed"
    return Report("landaudit-policy check", f"{checked.policy} by {checked.cases}", summary, "all cases hold",
                  [_finding(one, rules) for one in checked.results])


def _finding(result: CheckedCase | Decision, rules: Rules) -> Finding:
    """A case or a question."""
    level = Level.PASSED if result.holds else Level.ERROR
    must = "must be " if isinstance(result, CheckedCase) else ""
    subject = must + checking_text.title(result)
    text = "" if result.holds else "; ".join(_why(result))
    if isinstance(result, CheckedCase):
        kind = REFUSED if result.case.refused else ALLOWED
        return Finding(kind, level, subject, text, (subject,), _of_case(result, rules))
    grants = [grant for _, breaches in result.breaches for breach in breaches for grant in breach.grants]
    return Finding(NOWHERE, level, subject, text, (subject,), _granting(grants, rules))


def _why(result: CheckedCase | Decision) -> Iterator[str]:
    """What is known of a result, on one line."""
    for what, said in checking_text.about(result).items():
        yield f"{what}: {said if isinstance(said, str) else ', '.join(said)}"


def _of_case(outcome: CheckedCase, rules: Rules) -> Position:
    """The rule that grants a call, or the one that refuses it."""
    if outcome.passes_somewhere and (outcome.case.refused or outcome.holds):
        return _granting(outcome.grants, rules)
    layers = next((answer.layers for answer in reversed(outcome.answers.values()) if answer.refused), ())
    return lacking(rules, layers[0].layer, layers[0].objections) if layers else rules.places.layer(None)


def _granting(grants: Sequence[Grant], rules: Rules) -> Position:
    """The first rule that grants something; a rule of a group belongs to its layer."""
    return rules.places.rule(grants[0].layer, grants[0].rule) if grants else rules.places.layer(None)
