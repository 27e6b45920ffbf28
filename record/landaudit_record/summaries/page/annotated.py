"""The policy line by line, with how many calls ask at each place of each rule, and how many of them are allowed."""

from __future__ import annotations

import tomllib
from collections import defaultdict
from collections.abc import Iterator, Mapping, Sequence
from dataclasses import dataclass

from ...audit.auditor import TriedPolicy
from ...common import outline
from ...common.trees import Tree
from ...policy.policies import Policy
from .by_version import varied
from .counting import Counts, Paths
from .markup import Markup, element, together
from .tables import named

_TOLD = ("How many calls are about the path or port of a rule, or are below the path, and how many of them are "
         "allowed, whichever rules and layers allow them. Calls on descriptors, and on an object there by another "
         "name, are not counted. What no call asked for is struck out. landaudit-record tighten says which rights no "
         "call needs.")


@dataclass(frozen=True)
class RuleCount:
    """A place of a rule: what is said of it, where it leads if that is elsewhere, and the calls at or below it.

    `key` leads to it in the policy's document, or to its rule if that is in a group.
    """

    key: outline.Path
    name: str
    leads: str
    counts: Counts


def spots(policy: Policy, tree: Tree, found: Paths) -> Iterator[RuleCount]:
    """Each place of each rule, in the order of the layers."""
    for layer in policy.layers:
        for rule in layer.path_beneath:
            for number, parent in enumerate(rule.parents):
                real = tree.real(tree.resolved(parent, before_run=True))
                leads = real if real != (parent.rstrip("/") or "/") else ""
                name = parent if rule.group is None else f"{rule.place}: {parent}"
                key: outline.Path = (*layer.name.steps, *rule.place.steps, "parent", number)
                key = key if rule.group is None else ()
                yield RuleCount(key, name, leads, found.below(real))
        for port_rule in layer.net_port:
            for number, port in enumerate(port_rule.ports):
                key = (*layer.name.steps, *port_rule.place.steps, "port", number)
                yield RuleCount(key, f"port {port}", "", found.on(port))


def annotated(abis: Sequence[int], tried: TriedPolicy, found: Paths) -> Markup:
    """The text of the policy; after each line the places on it, and after all lines those of groups."""
    text = _text_of(tried.policy)
    by_line: defaultdict[int, list[RuleCount]] = defaultdict(list)
    document = outline.of(text)
    for spot in spots(tried.policy, tried.tree, found):
        line = document.line_and_column(spot.key, of_key=False) if spot.key and text else None
        by_line[line[0] if line else 0].append(spot)
    rows = [row for number, line in enumerate(text.splitlines(), start=1)
            for row in _line(abis, number, line, by_line)]
    rows += [row for spot in by_line[0] for row in [_spot(abis, spot)]]
    heads = element("tr", *(element("th", name, attributes={"scope": "col"}, kind=kind)
                            for name, kind in (("", "number"), ("policy", "line"), ("asked", "count"),
                                               ("allowed", "count"))))
    table = element("table", element("thead", heads), element("tbody", *rows), kind="policy")
    return together((element("p", _TOLD), table))


def _text_of(policy: Policy) -> str:
    """The text of the policy's file; nothing if it can't be read once more, or is not TOML."""
    try:
        text = policy.path.read_text(encoding="utf-8")
        tomllib.loads(text)
    except (OSError, ValueError):
        return ""
    return text


def _line(abis: Sequence[int], number: int, line: str, by_line: Mapping[int, list[RuleCount]]) -> Iterator[Markup]:
    """A line, with the counts of its place if it has one; several places have lines of their own after it."""
    there = by_line.get(number, [])
    kind = "comment" if line.lstrip().startswith("#") else ""
    if len(there) == 1:
        yield _counted(abis, there[0], str(number), line)
        return
    yield element("tr", element("td", str(number), kind="number"),
                  element("td", named(line), kind=f"line {kind}".strip(), attributes={"colspan": "3"}))
    for spot in there:
        yield _spot(abis, spot)


def _spot(abis: Sequence[int], spot: RuleCount) -> Markup:
    """A line for one of several places."""
    return _counted(abis, spot, "", spot.name, "spot")


def _counted(abis: Sequence[int], spot: RuleCount, number: str, line: str, kind: str = "") -> Markup:
    """A line with its counts; it is struck out if no call asks at its place."""
    counts = spot.counts
    said = element("s", named(line)) if not counts.all else named(line)
    leads = [element("span", f"leads to {spot.leads}", kind="leads")] if spot.leads else []
    allowed = varied(abis, [f"{counts.allowed(at):,}" for at in range(len(abis))])
    less = varied(abis, [_less(counts, at) for at in range(len(abis))])
    idle = " idle" if not counts.all else ""
    return element("tr", element("td", number, kind="number"), element("td", said, *leads, kind="line"),
                   element("td", f"{counts.all:,}", kind="count"), element("td", allowed, less, kind="count"),
                   kind=f"{kind}{idle}".strip())


def _less(counts: Counts, at: int) -> Markup:
    """How many are refused, if some are."""
    return element("span", f" {counts.refused[at]:,} refused", kind="bad") if counts.refused[at] else Markup()
