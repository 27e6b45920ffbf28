"""Writes suggested rules as TOML to paste; comments say what a person must know about them."""

from __future__ import annotations

from collections import Counter
from collections.abc import Iterable, Iterator, Mapping, Sequence
from dataclasses import replace

from ..common.comments import Comments
from ..common.rights import FS, NET
from ..common.trees import directory_of
from ..common.wording import counted, plain, quoted
from ..policy import policy_text
from ..policy.policies import Layer, Policy
from .missing_rights import SuggestedRule, together
from .suggesting import Suggestion, needs_refer, place_of, with_rules


#: So many rules on paths of one directory are told.
MANY = 8


def lines(suggestion: Suggestion, policy: Policy) -> Iterator[str]:
    """The lines, each without its line feed. Everything except rules is a comment, so all lines can be pasted."""
    for layer in policy.layers:
        rules, groups = suggestion.rules.get(layer.number, []), suggestion.groups.get(layer.number, {})
        if rules or groups:
            yield from of_layer(layer, rules, groups, policy)
    yield from (f"# {text}" for text in ending(suggestion))


def whole(suggestion: Suggestion, policy: Policy, comments: Comments) -> Iterator[str]:
    """The lines of the policy with the rules in it, and the groups of rules of both by their names."""
    parts = dict(comments.parts)
    for layer, groups in suggestion.groups.items():
        told = [f"suggested {name} for {counted(calls, 'call')}" for name, calls in groups.items()]
        parts[layer, None] = [*comments.on_layer(layer), *told]
    for layer, rules in suggestion.rules.items():
        for number, same in enumerate(together(rules), start=1):
            calls, *remarks = _said(same)
            parts[layer, place_of(number)] = [f"suggested for {calls}", *remarks]
    merged = with_rules(policy, {number: list(rules) for number, rules in suggestion.rules.items()}, suggestion.groups)
    yield from policy_text.lines(merged, replace(comments, parts=parts), included=True)


def of_layer(layer: Layer, rules: list[SuggestedRule], groups: Mapping[str, int], policy: Policy) -> Iterator[str]:
    """The rules of one layer, with what a person does with them."""
    where = f": paste them under the [[layer]] of that number in {plain(str(policy.path))}"
    only = "" if len(policy.layers) == 1 else where
    with_groups = f" and {counted(len(groups), 'group')}" if groups else ""
    yield f"# {counted(len(together(rules)), 'rule')}{with_groups} for layer {layer.number}{only}"
    if needs_refer(layer, rules):
        handled = _list(FS.ordered(layer.handled_access_fs.rights | {"refer"}))
        yield "# rules may grant refer only where the layer handles it; first change its line to"
        yield f"# handled_access_fs = {handled}"
    if groups:
        yield ""
        yield from (f"# {name}: {counted(calls, 'call')}" for name, calls in groups.items())
        yield "[[layer.path_beneath]]"
        yield f"include = {_list(list(groups))}"
    yield from written(rules)


def written(rules: Iterable[SuggestedRule]) -> Iterator[str]:
    """Rules as TOML, each behind an empty line and its comments; an empty line ends them."""
    for same in together(rules):
        yield ""
        yield from (f"# {plain(text)}" for text in _said(same))
        yield from _rule(same)
    yield ""


def _said(same: Sequence[SuggestedRule]) -> Iterator[str]:
    """What is said of rules that are one: how many calls need each, and remarks."""
    least, most = min(rule.calls for rule in same), max(rule.calls for rule in same)
    each = " each" if len(same) > 1 else ""
    yield f"{'' if least == most else f'{least:,} to '}{counted(most, 'call')}{each}"
    yield from (str(remark) for rule in same for remark in rule.remarks)


def _rule(same: Sequence[SuggestedRule]) -> Iterator[str]:
    """Rules with equal rights, as one, with a line for each path."""
    first = same[0]
    if isinstance(first.place, str):
        yield "[[layer.path_beneath]]"
        yield f"allowed_access = {_list(FS.ordered(first.rights))}"
        yield from policy_text.one_or_several("parent", [policy_text.path(str(rule.place)) for rule in same], width=0)
    else:
        yield "[[layer.net_port]]"
        yield f"allowed_access = {_list(NET.ordered(first.rights))}"
        yield f"port = [{', '.join(map(str, first.place))}]"


def ending(suggestion: Suggestion) -> Iterator[str]:
    """What is to say besides: which calls the rules leave refused, or that there are none."""
    if not suggestion.finished:
        yield f"after {suggestion.rounds} audits there is more to fix: add these rules and run this command again"
    elif suggestion.rules or suggestion.groups:
        audits = f"({suggestion.rounds} audits)"
        yield f"with these rules, no layer of the policy refuses a call that a rule can fix {audits}"
    else:
        yield "the policy refuses no call that a rule can fix"
    yield from _many(suggestion.rules)
    if suggestion.unsure:
        by_call = ", ".join(f"{name} {times}" for name, times in suggestion.unsure.most_common())
        calls = counted(suggestion.unsure.total(), "call")
        yield f"granted in doubt, since what was there before is not known: {calls}: {by_call}"
    for left, why in (
        (suggestion.unmended, "refused by layers of the policy whatever their rules are"),
        (suggestion.of_program, "refused by layers that the program makes itself"),
        (suggestion.failed, "refused that failed in the recording too, so no rule would help"),
    ):
        yield from staying(left, why)


def _many(rules: Mapping[int, list[SuggestedRule]]) -> Iterator[str]:
    """Hints about directories of which many paths have a rule."""
    found = Counter((layer, directory_of(rule.place)) for layer, some in rules.items() for rule in some
                    if isinstance(rule.place, str))
    for (_, directory), times in found.most_common():
        if times >= MANY:
            yield f"{times:,} of the paths are in {plain(directory)}: --rules N grants on directories in their place"


def staying(calls: Counter[str], why: str) -> Iterator[str]:
    """What is to say of calls that stay refused, if there are any: how many of each name, and why."""
    if calls:
        by_call = ", ".join(f"{name} {times}" for name, times in calls.most_common())
        yield f"{counted(calls.total(), 'call')} {'is' if calls.total() == 1 else 'are'} {why}: {by_call}"


def _list(words: list[str]) -> str:
    return "[" + ", ".join(map(quoted, words)) + "]"
