"""Random policies about a few paths, and the calls that landaudit-rules prints for each as a whole."""

from __future__ import annotations

import json
import random
from collections.abc import Iterable, Mapping
from pathlib import Path
from typing import Any

from landaudit_record.common.comments import Comments
from landaudit_record.common.numbered import Numbered
from landaudit_record.common.rights import FS, NET, Family, Rights
from landaudit_record.engine import landaudit_rules
from landaudit_record.policy.forms import plain_json
from landaudit_record.policy.policies import Access, Layer, PathRule, Policy, PortRule

POLICIES = 300

Kinds = Mapping[str, str | None]
"""What is at each path that is tried; None is nothing."""


def some(of: random.Random, rights: Iterable[str]) -> Rights:
    """Some rights, most often few."""
    share = of.choice((0.05, 0.2, 0.6))
    return frozenset(right for right in sorted(rights) if of.random() < share)


def listed(of: random.Random, family: Family) -> Access:
    """Some rights, by their names and by groups."""
    groups = [rights for _, rights in sorted(family.groups.items()) if of.random() < 0.3]
    return Access(some(of, family.since) - FS.groups["execute"], frozenset().union(*groups))


def path_rule(of: random.Random, kinds: Kinds, number: int, handled: Rights) -> PathRule | None:
    """A rule that its layer can have, if the rights allow one."""
    access = listed(of, FS)
    parents = tuple(of.sample(sorted(kinds), of.randint(1, 2)))
    group = of.choice((None, None, "base"))
    kept = Access(grouped=access.rights & handled) if group else Access(access.outright & handled, access.grouped)
    return PathRule(Numbered("path_beneath", number), kept, parents, group) if kept.rights & handled else None


def layer(of: random.Random, kinds: Kinds, number: int) -> Layer:
    """A layer that handles something, or has a scope."""
    fs, net = listed(of, FS), listed(of, NET)
    scoped = () if fs.rights or net.rights else ("signal",)
    paths = tuple(filter(None, (path_rule(of, kinds, count, fs.rights) for count in range(1, 5))))
    on_port = some(of, net.rights)
    ports = (PortRule(Numbered("net_port", 1), Access(on_port), (0, 443)),) if on_port else ()
    return Layer(number, fs, net, paths, ports, scoped)


def policies(kinds: Kinds) -> list[Policy]:
    """Policies about some paths; each of their layers handles something."""
    of = random.Random(1)
    return [Policy(Path("P"), tuple(layer(of, kinds, number) for number in range(1, of.choice((1, 1, 2, 3)) + 1)))
            for _ in range(POLICIES)]


def line(policy: Policy, kinds: Kinds) -> str:
    """A policy as it is exported, with what is at each parent."""
    document: dict[str, Any] = json.loads(plain_json.written(policy, Comments(), False).lines[0])
    for one in document["layer"]:
        for rule in one.get("path_beneath", ()):
            rule |= {} if kinds[rule["parent"]] is None else {"kind": kinds[rule["parent"]]}
    return json.dumps(document)


def of(tried: Iterable[Policy], kinds: Kinds, abi: int) -> list[list[dict[str, Any]]]:
    """The calls for each policy, without what names the rule; behind them may be that the kernel refuses one."""
    lines = [line(one, kinds) for one in tried]
    answers = landaudit_rules.ask(landaudit_rules.find(), lines, "--calls", str(abi), first="nnp")
    return [[{name: value for name, value in call.items() if name != "rule"} for call in answer] for answer in answers]
