"""The results of a check in words: a line for each case and question, and what is known of it."""

from __future__ import annotations

from collections.abc import Iterator, Mapping, Sequence

from ..common.numbered import Numbered
from ..common.rights import FS
from ..common.wording import span
from ..engine.answers import Answer, Kept, Objection
from .checking import CheckedCase
from .deciding import Decision
from .granting import Grant
from .over_sets import ALL_ABIS

Details = Mapping[str, str | Sequence[str]]
"""What is known of a result: texts, or lists of texts, by what they are about."""


def title(result: CheckedCase | Decision) -> str:
    """What must be, and at which ABIs if these are not all."""
    if isinstance(result, CheckedCase):
        asked, must = result.case, f"{result.case.must_be}: {result.case.text}"
        return must + _at(asked.abis)
    return f"{result.question.kind}: {result.question.text}{_at(result.question.abis)}"


def _at(abis: range) -> str:
    return "" if abis == ALL_ABIS else f" at ABI {span(abis)}"


def about(result: CheckedCase | Decision) -> Details:
    """Why a result is as it is."""
    return _of_case(result) if isinstance(result, CheckedCase) else _of_question(result)


def _of_case(outcome: CheckedCase) -> Details:
    """The answer at each ABI, with the rules that grant the call, or the layers that refuse it and why."""
    found: dict[str, str | Sequence[str]] = {}
    for abis, answer in together(outcome.answers):
        found[f"abi {span(abis)}"] = list(refusing(answer)) if answer.refused else answer.verdict
    if outcome.passes_somewhere:
        found["rules"] = [str(grant) for grant in outcome.grants] or "no layer handles what the call asks"
    return found


def _of_question(decision: Decision) -> Details:
    """What passes at each ABI, with the rules that grant it, and what is not asked since an ABI does not know it."""
    found: dict[str, str | Sequence[str]] = {}
    by_rule: dict[tuple[int, Numbered, str], set[str]] = {}
    free: list[str] = []
    for abis, breaches in decision.breaches:
        found[f"abi {span(abis)}"] = list(map(str, breaches))
        granted = [(grant, right) for breach in breaches for grant in breach.grants for right in grant.rights]
        for grant, right in granted:
            by_rule.setdefault((grant.layer, grant.rule, grant.on), set()).add(right)
        if left := {right for breach in breaches for right in breach.rights} - {right for _, right in granted}:
            free.append(f"no layer handles {', '.join(FS.ordered(left))} at ABI {span(abis)}")
    if by_rule or free:
        found["rules"] = [*(str(Grant(*rule, tuple(FS.ordered(rights)))) for rule, rights in by_rule.items()), *free]
    if unknown := list(not_asked(decision)):
        found["not asked"] = [f"{', '.join(rights)}, which ABI {span(abis)} does not know" for abis, rights in unknown]
    return found


def not_asked(decision: Decision) -> Iterator[tuple[range, list[str]]]:
    """The rights of groups that neighbouring ABIs do not know."""
    first: int | None = None
    question = decision.question
    for abi in question.abis:
        first = abi if first is None else first
        left = question.left_out(abi)
        if abi + 1 not in question.abis or question.left_out(abi + 1) != left:
            if left:
                yield range(first, abi + 1), left
            first = None


def together(answers: Mapping[int, Answer]) -> Iterator[tuple[range, Answer]]:
    """Groups neighbouring ABIs with the same answer."""
    first: int | None = None
    for abi, found in answers.items():
        if first is None:
            first = abi
        after = answers.get(abi + 1)
        if after is None or (after.allowed, list(refusing(after))) != (found.allowed, list(refusing(found))):
            yield range(first, abi + 1), found
            first = None


def refusing(found: Answer) -> Iterator[str]:
    """What each layer objects to."""
    for layer in found.layers:
        yield f"layer {layer.layer}: {'; '.join(map(objection_text, layer.objections))}"


def objection_text(objection: Objection) -> str:
    """An objection, without the line of a trace that was written for the question alone."""
    if isinstance(objection, Kept):
        return f"{', '.join(objection.rights)} on {objection.path} when it was opened"
    return str(objection)
