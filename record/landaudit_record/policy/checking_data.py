"""The results of a check as data for programs: docs/check.schema.json describes it; its keys stay."""

from __future__ import annotations

from dataclasses import asdict
from typing import Any

from ..engine import answers
from ..engine.answers import Answer, Objection
from .checking import Checked, CheckedCase
from .checking_text import not_asked, objection_text
from .deciding import Breach, Decision
from .differing_data import area_data
from .granting import Grant

#: The version of what --json prints.
FORMAT = 1


def as_data(checked: Checked) -> dict[str, Any]:
    """The results of all cases and questions."""
    return {
        "format": FORMAT,
        "policy": str(checked.policy),
        "cases": str(checked.cases),
        "held": checked.held,
        "failed": checked.failed,
        "results": list(map(_of_case, checked.outcomes)),
        "questions": list(map(_of_question, checked.decisions)),
    }


def _of_case(outcome: CheckedCase) -> dict[str, Any]:
    case = outcome.case
    return {
        "must_be": case.must_be,
        "call": case.call,
        "place": case.place,
        "holds": outcome.holds,
        "answers": [_answer(abi, found) for abi, found in outcome.answers.items()],
        "grants": list(map(_grant, outcome.grants)) if outcome.passes_somewhere else [],
    }


def _of_question(decision: Decision) -> dict[str, Any]:
    question = decision.question
    return {
        "kind": question.kind,
        "rights": list(question.words),
        "under": list(question.under),
        "abis": list(question.abis),
        "holds": decision.holds,
        "passes": [{"abis": list(abis), **_breach(breach)} for abis, found in decision.breaches for breach in found],
        "not_asked": [{"abis": list(abis), "rights": rights} for abis, rights in not_asked(decision)],
    }


def _breach(breach: Breach) -> dict[str, Any]:
    return {
        "text": str(breach),
        "rights": list(breach.rights),
        "area": area_data(breach.area),
        "grants": list(map(_grant, breach.grants)),
    }


def _grant(grant: Grant) -> dict[str, Any]:
    return {"text": str(grant), **asdict(grant), "rule": str(grant.rule)}


def _answer(abi: int, found: Answer) -> dict[str, Any]:
    """What an ABI answers: the error and the layers of a call that is refused."""
    return {
        "abi": abi,
        "answer": found.verdict,
        "error": found.error,
        "layers": [{"number": layer.layer, "objections": list(map(_objection, layer.objections))}
                   for layer in found.layers],
    }


def _objection(objection: Objection) -> dict[str, Any]:
    """An objection, by the same text."""
    data = {**answers.as_data(objection), "text": objection_text(objection)}
    data.pop("opened", None)
    return data
