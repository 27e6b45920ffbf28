"""Asks landaudit-rules which rights the calls that put policies in force have (landaudit-rules(1), "Calls").

What a rule asks for depends on what it allows, on what its layer handles, and on whether its object is a directory. So
rules that are equal in this are asked about once, on a directory and on what is none.
"""

from __future__ import annotations

import json
from collections.abc import Iterable, Sequence
from concurrent.futures import ThreadPoolExecutor
from dataclasses import dataclass, field
from typing import Any

from ..common.rights import FS, NET, judged_as
from ..engine import landaudit_rules
from .policies import Access, Layer, PathRule, Policy, PortRule
from .policy_text import as_words

_KINDS = ("dir", "reg")

_OnPaths = tuple[Access, bool]
_Rule = _OnPaths | Access
"""What a rule on paths allows, and whether it is of a group of rules; or what a rule on ports allows."""

_Handled = tuple[Access, Access]
"""What a layer handles: rights for files, and for the network."""


@dataclass
class Calls:
    """The rights of the calls of layers that handle the same, at one ABI: those of the ruleset, and those of rules.

    A rule on paths has those on a directory, and those on what is none.
    """

    fs: list[str] = field(default_factory=list)
    net: list[str] = field(default_factory=list)
    _rules: dict[_Rule, Sequence[list[str]]] = field(default_factory=dict)

    def of(self, rule: PathRule | PortRule) -> Sequence[list[str]]:
        """The rights of a rule."""
        return self._rules[_known_by(rule)]

    def unknown(self, layer: Layer) -> dict[_Rule, None]:
        """The rules of a layer that are not known."""
        return {it: None for rule in layer.rules if (it := _known_by(rule)) not in self._rules}

    def add(self, rules: Iterable[_Rule], calls: Iterable[Any]) -> None:
        """Adds the calls for a policy of some rules; a rule without a call asks for nothing."""
        rights: dict[tuple[str, int], list[str]] = {}
        for call in calls:
            match call:
                case {"op": "create", "fs": fs, "net": net}:
                    self.fs, self.net = fs, net
                case {"op": "add_path", "rule": index, "fs": on}:
                    rights["path", index] = on
                case {"op": "add_port", "rule": index, "net": on}:
                    rights["port", index] = on
        paths, ports = _apart(rules)
        for number, rule in enumerate(paths):
            self._rules[rule] = [rights.get(("path", len(_KINDS) * number + kind), []) for kind in range(len(_KINDS))]
        for number, access in enumerate(ports):
            self._rules[access] = [rights.get(("port", number), [])]


_said: dict[tuple[int, _Handled], Calls] = {}
"""What the program has said, by ABIs and what layers handle."""


def of_layer(layer: Layer, abi: int) -> Calls:
    """The calls of a layer that was asked about. A layer that has scopes alone has no rights."""
    return _said[judged_as(abi), _handled(layer)] if layer.handles_rights else Calls()


def ask(policies: Iterable[Policy], abi: int) -> None:
    """Asks about all that is not known yet of policies at an ABI, in one run of the program."""
    abi = judged_as(abi)
    asked: dict[_Handled, dict[_Rule, None]] = {}
    for layer in (layer for policy in policies for layer in policy.layers if layer.handles_rights):
        handled = _handled(layer)
        said = _said.get((abi, handled))
        rules = (said or Calls()).unknown(layer)
        if rules or said is None:
            asked.setdefault(handled, {}).update(rules)
    if asked:
        lines = [_line(handled, rules) for handled, rules in asked.items()]
        answers = landaudit_rules.ask(landaudit_rules.find(), lines, "--calls", str(abi), first="nnp")
        for (handled, rules), calls in zip(asked.items(), answers):
            _said.setdefault((abi, handled), Calls()).add(rules, calls)


def ask_at_each(policies: Sequence[Policy], abis: Iterable[int]) -> None:
    """The same at several ABIs, with several runs at a time."""
    with ThreadPoolExecutor() as runs:
        list(runs.map(lambda abi: ask(policies, abi), abis))


def _handled(layer: Layer) -> _Handled:
    return layer.handled_access_fs, layer.handled_access_net


def _known_by(rule: PathRule | PortRule) -> _Rule:
    return (rule.allowed_access, rule.group is not None) if isinstance(rule, PathRule) else rule.allowed_access


def _apart(rules: Iterable[_Rule]) -> tuple[list[_OnPaths], list[Access]]:
    """The rules on paths, and those on ports."""
    each = list(rules)
    return [rule for rule in each if isinstance(rule, tuple)], [rule for rule in each if isinstance(rule, Access)]


def _line(handled: _Handled, rules: Iterable[_Rule]) -> str:
    """A policy of one layer as JSON (docs/policy.schema.json); each rule on paths is there for each kind of object.

    Rights are in the words with which a policy is written: a group that lacks rights is the names of the others.
    """
    (fs, net), (paths, ports) = handled, _apart(rules)
    return json.dumps({"layer": [{
        "handled_access_fs": as_words(fs, FS, FS.groups["all"]),
        "handled_access_net": as_words(net, NET, NET.groups["all"]),
        "path_beneath": [
            {"allowed_access": as_words(access, FS, fs.rights), "parent": "/", "kind": kind,
             **({"group": "/"} if of_group else {})}
            for access, of_group in paths for kind in _KINDS
        ],
        "net_port": [{"allowed_access": as_words(access, NET, net.rights), "port": 0} for access in ports],
    }]})
