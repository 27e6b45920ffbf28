"""Checks a policy against a file of cases, as values: what landaudit answers to each case, and to each question."""

from __future__ import annotations

from collections.abc import Iterator, Sequence
from dataclasses import dataclass
from pathlib import Path

from ..common.problems import Problem
from ..common.rights import NEWEST_ABI, alone, steps
from ..engine.answers import MOOT, Answer
from . import asking, cases, deciding, fitting, granting, parents
from .cases import Case, Cases
from .deciding import Decision
from .granting import Grant
from .policies import Policy


@dataclass(frozen=True)
class CheckedCase:
    """A case with landaudit's answer at each of its ABIs, and the rules that grant one or more rights of the call."""

    case: Case
    answers: dict[int, Answer]
    grants: Sequence[Grant]

    @property
    def holds(self) -> bool:
        """Whether each answer is the one that the case wants."""
        return all(found.allowed != self.case.refused for found in self.answers.values())

    @property
    def passes_somewhere(self) -> bool:
        """Whether an ABI lets the call pass."""
        return any(found.allowed for found in self.answers.values())


@dataclass(frozen=True)
class Checked:
    """A policy, and the cases and questions of a file, each with what the policy says to it."""

    policy: Path
    cases: Path
    outcomes: Sequence[CheckedCase]
    decisions: Sequence[Decision]

    @property
    def results(self) -> Sequence[CheckedCase | Decision]:
        """All of them: the cases first."""
        return (*self.outcomes, *self.decisions)

    @property
    def held(self) -> int:
        """How many hold."""
        return sum(one.holds for one in self.results)

    @property
    def failed(self) -> int:
        """How many do not."""
        return len(self.results) - self.held


def check(landaudit: Path, policy: Policy, given: Cases) -> Checked:
    """Checks a policy whose parents are what they lead to on this machine."""
    outcomes = list(_outcomes(landaudit, parents.under_all_names(policy, given.tree.kinds), given))
    return Checked(policy.path, given.path, outcomes, deciding.decisions(policy, given.questions))


def _outcomes(landaudit: Path, policy: Policy, given: Cases) -> Iterator[CheckedCase]:
    """Each case with its answers."""
    if not given.cases:
        return
    found = _answers(landaudit, policy, given)
    grants = granting.grants(landaudit, policy, given.tree, [case.question for case in given.cases])
    for case, answered, granted in zip(given.cases, found, grants):
        answers = {abi: answered[abi] for abi in case.abis}
        for answer in answers.values():
            if answer.verdict == MOOT:
                raise Problem(f"{given.path}: {case.text}: Landlock is not asked: {answer.reason}")
        yield CheckedCase(case, answers, granted)


def _answers(landaudit: Path, policy: Policy, given: Cases) -> list[dict[int, Answer]]:
    """What a policy answers to each case at each ABI: with scopes and without them, the answer that a case doesn't want."""
    found: list[dict[int, Answer]] = [{} for _ in given.cases]
    asked = [(step, True) for step in steps(cases.ALL_ABIS, lambda older, newer: fitting.stands_for(policy, newer, older))]
    asked += [(alone(NEWEST_ABI), False)] if fitting.refer_by_scopes(policy) else []
    for step, scopes in asked:
        own = asking.under(policy, step[-1], given.tree, scopes=scopes)
        trial = asking.trial(own, enumerate(case.question for case in given.cases))
        with asking.asker(landaudit, step, given.tree) as asker:
            for number, by_abi in asker.answers([trial]):
                case, answers = given.cases[number], {abi: asking.decided(of) for abi, of in by_abi.items()}
                found[number].update((abi, answer) for abi, answer in answers.items()
                                     if scopes or (answer.allowed == case.refused and not case.only_later))
    return found
