"""A policy as one line of plain JSON (docs/policy.schema.json), with the names of the policy's file.

Included groups of rules and variables are expanded, and each rule has one parent or port. Groups of rights keep their
names, since what they stand for depends on what the parent is.
"""

from __future__ import annotations

import json
from collections.abc import Iterator, Sequence
from typing import Any

from ...common.comments import Comments
from ...common.rights import FS, NET, Family
from ..policies import Access, Layer, Policy
from . import Exported


def written(policy: Policy, comments: Comments, _: bool) -> Exported:
    """The policy as a line; comments are members that its readers pass over."""
    document = {"layer": [_layer(layer, comments) for layer in policy.layers], **_comments(comments.whole)}
    return Exported([json.dumps(document, ensure_ascii=False, separators=(",", ":"))])


def _layer(layer: Layer, comments: Comments) -> dict[str, Any]:
    """A layer, without the members that would be empty."""
    members = {
        "handled_access_fs": _words(layer.handled_access_fs, FS),
        "handled_access_net": _words(layer.handled_access_net, NET),
        "scoped": layer.scoped,
        "path_beneath": list(_path_rules(layer, comments)),
        "net_port": list(_port_rules(layer, comments)),
        **_comments(comments.on_layer(layer.number)),
    }
    return {name: value for name, value in members.items() if value}


def _path_rules(layer: Layer, comments: Comments) -> Iterator[dict[str, Any]]:
    """The rules on paths. Comments on a rule with several parents are on the first one's."""
    for rule in layer.path_beneath:
        said = _comments(comments.on_rule(layer.number, rule.place))
        group = {} if rule.group is None else {"group": rule.group}
        words = _words(rule.allowed_access, FS) if rule.group is None else FS.ordered(rule.allowed_access.rights)
        for parent in rule.parents:
            yield {"allowed_access": words, "parent": parent, **group, **said}
            said = {}


def _port_rules(layer: Layer, comments: Comments) -> Iterator[dict[str, Any]]:
    for rule in layer.net_port:
        said = _comments(comments.on_rule(layer.number, rule.place))
        for port in rule.ports:
            yield {"allowed_access": _words(rule.allowed_access, NET), "port": port, **said}
            said = {}


def _words(access: Access, family: Family) -> list[str]:
    """Rights as groups, and by their names where they were named."""
    every = family.groups["all"]
    groups = ["all"] if every <= access.grouped else [
        name for name, group in family.groups.items() if group <= access.grouped]
    return [*groups, *family.ordered(access.outright)]


def _comments(texts: Sequence[str]) -> dict[str, Any]:
    return {"comments": list(texts)} if texts else {}
