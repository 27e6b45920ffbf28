"""The remarks on a policy as findings, and as JSON."""

from __future__ import annotations

from collections.abc import Sequence
from typing import Any

from ...common.findings import DocumentPlaces, Finding, Level, Position, Report
from ...common.wording import counted
from ...policy.linting import LintRemark, Where
from ...policy.policies import Policy

#: The version of what --json prints: docs/lint.schema.json describes it, docs/CI.md says when it changes.
FORMAT = 1


def report(policy: Policy, remarks: Sequence[LintRemark]) -> Report:
    """The report on a policy."""
    places = DocumentPlaces(policy.path)
    found = [_finding(remark, _spot(remark.where, policy, places)) for remark in remarks]
    return Report("landaudit-policy lint", str(policy.path), summary(remarks), "nothing is found", found)


def summary(remarks: Sequence[LintRemark]) -> str:
    """How many warnings and notes there are."""
    warnings = sum(remark.level is Level.WARNING for remark in remarks)
    return f"{counted(warnings, 'warning')}, {counted(len(remarks) - warnings, 'note')}"


def _finding(remark: LintRemark, spot: Position) -> Finding:
    """A remark."""
    where = remark.where
    identity = (str(where.layer), str(where.rule or ""), str(where.on), remark.text)
    return Finding(remark.kind, remark.level, str(where), remark.text, identity, spot)


def _spot(where: Where, policy: Policy, places: DocumentPlaces) -> Position:
    """The parent or the port in the file; of a rule of a group, its layer."""
    if where.layer is None or where.rule is None:
        return places.layer(where.layer)
    layer = policy.layers[where.layer - 1]
    for of_path in layer.path_beneath:
        if of_path.place == where.rule and where.on in of_path.parents:
            return places.rule(where.layer, where.rule, "parent", of_path.parents.index(str(where.on)))
    for of_port in layer.net_port:
        if of_port.place == where.rule and where.on in of_port.ports:
            return places.rule(where.layer, where.rule, "port", of_port.ports.index(int(where.on)))
    return places.layer(where.layer)


def as_data(policy: Policy, remarks: Sequence[LintRemark]) -> dict[str, Any]:
    """The remarks as data for programs; its keys stay."""
    places = DocumentPlaces(policy.path)
    return {
        "format": FORMAT,
        "policy": str(policy.path),
        "remarks": [_remark_data(remark, _spot(remark.where, policy, places)) for remark in remarks],
    }


def _remark_data(remark: LintRemark, spot: Position) -> dict[str, Any]:
    """A remark, with the line and the column of its rule."""
    where = remark.where
    on = {} if where.on is None else {"port" if isinstance(where.on, int) else "parent": where.on}
    of_rule = {} if where.layer is None else {"layer": where.layer, "rule": str(where.rule), **on}
    at = {} if spot.line is None else {"line": spot.line, "column": spot.column}
    return {"level": remark.level.value, "kind": remark.kind.name, **of_rule, **at, "text": remark.text}
