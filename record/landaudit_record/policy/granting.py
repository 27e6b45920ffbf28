"""Which rules of a policy let a call pass.

landaudit is asked again, once for each layer without its rules, and once for each of its rules by itself: a rule grants
what the layer lacks without rules and does not lack with this rule.
"""

from __future__ import annotations

from collections.abc import Iterator, Sequence
from dataclasses import dataclass, replace
from pathlib import Path

from ..common.numbered import Numbered
from ..common.rights import NEWEST_ABI, alone
from ..common.trees import ROOT, Tree, upwards
from ..engine.answers import Answer, Closed, Kept, Missing
from ..engine.asking import Trial
from . import asking
from .asking import Question
from .policies import Layer, PathRule, Policy, PortRule


_Lacked = tuple[str, str]
"""A right that a layer lacks, and what it lacks it on."""


@dataclass(frozen=True)
class Grant:
    """What a rule grants for a call: rights, on a path or a port."""

    layer: int
    rule: Numbered
    on: str
    rights: tuple[str, ...]

    def __str__(self) -> str:
        return f"layer {self.layer}: {self.rule} on {self.on} grants {', '.join(self.rights)}"


@dataclass(frozen=True)
class _Alone:
    """One layer with one of its rules on one object or port, or with none."""

    layer: Layer
    rule: PathRule | PortRule | None = None

    @property
    def on(self) -> str:
        """What the rule is on."""
        if isinstance(self.rule, PathRule):
            return self.rule.parents[0].rstrip("/") or ROOT
        return f"port {self.rule.ports[0]}" if self.rule is not None else ""

    def policy(self, path: Path) -> Policy:
        """The policy that is this layer."""
        return Policy(path, (self.layer.with_only(self.rule),))

    def concerns(self, question: Question) -> bool:
        """Whether the rule is on an object of a question or above it; a layer without rules concerns every question."""
        if self.rule is None:
            return True
        if isinstance(self.rule, PortRule):
            return any(record.get("port") in self.rule.ports for record in question)
        paths = [str(record[key]) for record in question for key in ("path", "from", "to") if key in record]
        return any(self.on in upwards(path) for path in paths)


def _parts(policy: Policy) -> Iterator[_Alone]:
    """Each layer without rules, then with each of its rules on each of its objects or ports."""
    for layer in policy.layers:
        yield _Alone(layer)
        for rule in layer.path_beneath:
            yield from (_Alone(layer, replace(rule, parents=(parent,))) for parent in rule.parents)
        for port_rule in layer.net_port:
            yield from (_Alone(layer, replace(port_rule, ports=(port,))) for port in port_rule.ports)


def grants(program: Path, policy: Policy, tree: Tree, questions: Sequence[Question]) -> list[list[Grant]]:
    """For each question, the rules of the policy that grant rights of it at the newest ABI, and these rights."""
    trials = (_trial(part, policy.path, tree, questions) for part in _parts(policy))
    found: list[list[Grant]] = [[] for _ in questions]
    bare: dict[tuple[int, int], set[_Lacked]] = {}
    with asking.asker(program, alone(NEWEST_ABI), tree) as asker:
        for (part, number), by_abi in asker.answers(trial for trial in trials if trial.questions):
            lacking = set[_Lacked]().union(*map(_lacking, by_abi[NEWEST_ABI]))
            if part.rule is None:
                bare[part.layer.number, number] = lacking
            elif granted := bare[part.layer.number, number] - lacking:
                rights = tuple(dict.fromkeys(right for right, _ in sorted(granted)))
                found[number].append(Grant(part.layer.number, part.rule.place, part.on, rights))
    return found


def _trial(part: _Alone, path: Path, tree: Tree, questions: Sequence[Question]) -> Trial[tuple[_Alone, int]]:
    """A process under a part of a policy that asks the questions which the part is about."""
    concerned = [((part, number), question) for number, question in enumerate(questions) if part.concerns(question)]
    return asking.trial(asking.under(part.policy(path), NEWEST_ABI, tree) if concerned else (), concerned)


def _lacking(answer: Answer) -> set[_Lacked]:
    """The rights that a layer lacks, each with what it lacks it on."""
    objections = [it for layer in answer.layers for it in layer.objections]
    return {
        (right, str(it.port if isinstance(it, Closed) else it.path))
        for it in objections
        if isinstance(it, (Missing, Closed, Kept))
        for right in it.rights
    }
