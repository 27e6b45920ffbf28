"""A policy as TOML, for its author to read."""

from __future__ import annotations

from collections.abc import Callable, Iterator, Mapping, Sequence
from dataclasses import replace
from itertools import groupby

from ..common import variables
from ..common.comments import Comments
from ..common.rights import FILE_RIGHTS, FS, NET, Family, Rights
from ..common.trees import Tree
from ..common.wording import plain, quoted
from .policies import Access, Layer, PathRule, Policy, PortRule

#: The most columns of a list on one line.
WIDTH = 120

RuleRemark = Callable[[int, PathRule | PortRule], str]
"""A remark on a rule of the layer with a number; an empty one is none."""

Words = tuple[str, ...]
Written = Mapping[str | int, str]
"""Parents and ports that have variables as a file writes them, by their values."""


def apart(policy: Policy, trees: Sequence[Tree]) -> Policy:
    """The policy with a rule for each path and port; on a file, a group stands for the rights that a file can have."""
    return replace(policy, layers=tuple(
        replace(layer, path_beneath=tuple(_paths_apart(layer, trees)), net_port=tuple(_ports_apart(layer)))
        for layer in policy.layers
    ))


def _paths_apart(layer: Layer, trees: Sequence[Tree]) -> Iterator[PathRule]:
    for rule in layer.path_beneath:
        access = rule.allowed_access
        on_file = Access(access.outright, access.grouped & FILE_RIGHTS)
        for parent in dict.fromkeys(rule.parents):
            one = on_file if _is_file(parent, trees) else access
            if one.rights & layer.handled_access_fs.rights:
                yield replace(rule, allowed_access=one, parents=(parent,))


def _ports_apart(layer: Layer) -> Iterator[PortRule]:
    for rule in layer.net_port:
        yield from (replace(rule, ports=(port,)) for port in dict.fromkeys(rule.ports))


def _is_file(path: str, trees: Sequence[Tree]) -> bool:
    """Whether a path is that of a file in each tree that has it."""
    kinds = {tree.kind(tree.resolved(path, before_run=True)) for tree in trees} - {None}
    return bool(kinds) and "dir" not in kinds


def joined(policy: Policy, trees: Sequence[Tree]) -> Policy:
    """The policy that `apart` divided: the parts of a rule are one again where the same words stand for their rights.

    Paths and ports keep their order.
    """
    return replace(policy, layers=tuple(
        replace(layer, path_beneath=tuple(_paths_joined(layer, trees)), net_port=tuple(_ports_joined(layer)))
        for layer in policy.layers
    ))


def _paths_joined(layer: Layer, trees: Sequence[Tree]) -> Iterator[PathRule]:
    """The words for a directory may stand for a file too, so those for directories are found first."""
    handled = layer.handled_access_fs.rights
    for _, same in groupby(layer.path_beneath, key=lambda rule: rule.place):
        rules = list(same)
        files = {rule.parents[0]: _is_file(rule.parents[0], trees) for rule in rules}
        order = {parent: number for number, parent in enumerate(files)}.__getitem__
        parts: dict[Words, list[str]] = {}
        for rule in sorted(rules, key=lambda rule: files[rule.parents[0]]):
            (parent,), rights = rule.parents, rule.allowed_access.rights & handled
            found = (words for words in parts if _meant(words, FS, files[parent]) & handled == rights)
            parts.setdefault(next(found, as_words(rule.allowed_access, FS, handled)), []).append(parent)
        for words, parents in sorted(parts.items(), key=lambda part: min(map(order, part[1]))):
            yield replace(rules[0], allowed_access=_access(words, FS), parents=tuple(sorted(parents, key=order)))


def _ports_joined(layer: Layer) -> Iterator[PortRule]:
    handled = layer.handled_access_net.rights
    for _, same in groupby(layer.net_port, key=lambda rule: rule.place):
        parts: dict[Words, list[PortRule]] = {}
        for rule in same:
            parts.setdefault(as_words(rule.allowed_access, NET, handled), []).append(rule)
        for rules in parts.values():
            yield replace(rules[0], ports=tuple(port for rule in rules for port in rule.ports))


def _access(words: Words, family: Family) -> Access:
    """Rights as words list them."""
    groups = [family.groups[word] for word in words if word in family.groups]
    return Access(frozenset(words) - frozenset(family.groups), frozenset().union(*groups))


def _meant(words: Words, family: Family, on_file: bool) -> Rights:
    """What words stand for; nothing if a file can't have what they name."""
    access = _access(words, family)
    if not on_file:
        return access.rights
    return access.outright | access.grouped & FILE_RIGHTS if access.outright <= FILE_RIGHTS else frozenset()


def no_remark(layer: int, rule: PathRule | PortRule) -> str:
    """No remark on any rule."""
    return ""


def lines(
    policy: Policy, comments: Comments = Comments(), remark: RuleRemark = no_remark, *, included: bool = False
) -> Iterator[str]:
    """The lines of a policy with its comments; `remark` gives a remark on a rule of the layer with a number.

    The comments on a rule that is in parts are on the first of them. Groups of rules that layers have as they are can
    be included by their names.
    """
    yield from _comments(comments.whole)
    if comments.whole:
        yield ""
    yield from _variables(policy, comments, included)
    for number, layer in enumerate(policy.layers):
        yield from [""] if number else []
        yield from _layer(layer, policy.written, comments, remark, included)


def _variables(policy: Policy, comments: Comments, included: bool) -> Iterator[str]:
    """The values that the policy's file gives its variables, without those that no rule has any more.

    A group that is included by its name may have any of them.
    """
    on: set[str | int] = {parent for layer in policy.layers for rule in layer.path_beneath for parent in rule.parents}
    on |= {port for layer in policy.layers for rule in layer.net_port for port in rule.ports}
    used = {name for value, text in policy.written.items() if value in on for name in variables.names(text)}
    if values := {name: value for name, value in policy.defaults.items() if name in used or included}:
        yield from _comments(comments.on_variables)
        yield f"[{variables.KEY}]"
        yield from (f"{name} = {quoted(value)}" for name, value in values.items())
        yield ""


def _layer(layer: Layer, written: Written, comments: Comments, remark: RuleRemark, included: bool) -> Iterator[str]:
    yield from _comments(comments.on_layer(layer.number))
    yield "[[layer]]"
    for key, access, family in (("fs", layer.handled_access_fs, FS), ("net", layer.handled_access_net, NET)):
        if access.rights:
            yield f"handled_access_{key} = {_list(as_words(access, family, family.groups['all']))}"
    if layer.scoped:
        yield f"scoped = {_list(layer.scoped)}"
    groups = dict.fromkeys(rule.group for rule in layer.path_beneath if rule.group is not None) if included else {}
    if groups:
        yield f"include = {_list(list(groups))}"
    before: PathRule | PortRule | None = None
    for rule in (it for it in layer.path_beneath if it.group not in groups):
        yield from _head(layer, rule, before, comments, remark)
        yield "[[layer.path_beneath]]"
        yield f"allowed_access = {_list(as_words(rule.allowed_access, FS, layer.handled_access_fs.rights))}"
        yield from one_or_several("parent", [_value(parent, written) for parent in rule.parents])
        before = rule
    for port_rule in layer.net_port:
        yield from _head(layer, port_rule, before, comments, remark)
        yield "[[layer.net_port]]"
        yield f"allowed_access = {_list(as_words(port_rule.allowed_access, NET, layer.handled_access_net.rights))}"
        yield from one_or_several("port", [_value(port, written) for port in port_rule.ports])
        before = port_rule


def _head(
    layer: Layer, rule: PathRule | PortRule, before: PathRule | PortRule | None, comments: Comments, remark: RuleRemark
) -> Iterator[str]:
    """The comments before a rule."""
    yield ""
    if before is None or before.place != rule.place:
        yield from _comments(comments.on_rule(layer.number, rule.place))
    if isinstance(rule, PathRule) and rule.group is not None:
        yield from _comments([f"of the group {rule.group}"])
    yield from _comments([text for text in [remark(layer.number, rule)] if text])


def _comments(texts: list[str]) -> Iterator[str]:
    yield from (f"# {plain(text)}".rstrip() for text in texts)


def as_words(access: Access, family: Family, handled: Rights) -> Words:
    """Rights as groups, where these stand for no more in a layer that handles some rights, and as names."""
    every = family.groups["all"]
    parts = {name: group & handled for name, group in family.groups.items() if group != every}
    groups = ["all"] if every <= access.grouped else [
        name for name, group in parts.items() if group and group <= access.grouped
    ]
    covered: Rights = frozenset().union(*(family.groups[name] for name in groups))
    return *groups, *family.ordered(access.outright | access.grouped & handled - covered)


def _list(words: Sequence[str]) -> str:
    return f"[{', '.join(quoted(word) for word in words)}]"


def one_or_several(key: str, values: Sequence[str], width: int = WIDTH) -> Iterator[str]:
    """A key with one value, or with a list, which is on several lines if one line would be longer than a width."""
    line = f"{key} = " + (values[0] if len(values) == 1 else f"[{', '.join(values)}]")
    if len(values) == 1 or len(line) <= width:
        yield line
    else:
        yield f"{key} = ["
        yield from (f"    {value}," for value in values)
        yield "]"


def _value(value: str | int, written: Written) -> str:
    """A parent or a port; with variables if the policy's file has it so."""
    if value in written:
        return quoted(written[value])
    return path(value) if isinstance(value, str) else str(value)


def path(text: str) -> str:
    """A path as a policy's file has it."""
    return quoted(variables.escaped(text))
