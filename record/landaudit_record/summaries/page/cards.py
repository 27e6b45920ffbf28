"""What to grant: a card for each group of refused calls, with a rule that would let them pass, to copy."""

from __future__ import annotations

import os
import shlex
from collections import Counter
from collections.abc import Iterable, Iterator, Mapping, Sequence
from dataclasses import replace
from urllib.parse import quote

from ...audit.auditor import TriedPolicy
from ...audit.summary import Summary
from ...common.rights import FS, REFER
from ...common.wording import counted, printable
from ...policy.policies import Policy
from ...suggest import suggestion_text
from ...suggest.missing_rights import SuggestedRule
from ...suggest.remarks import RemarkKind
from .. import grouping
from ..grouping import RefusedGroup
from ..summary_text import names, where_of
from .by_version import kinds
from .markup import Markup, element, together
from .offering import Offer, Offering
from .tables import named

#: The most cards.
MOST_CARDS = 20
#: The width of a text that is not to be shortened.
NO_LIMIT = 1_000_000
#: What stands for the program of a process that ran none yet.
NO_PROGRAM = "-"
TOLD = element("p", "Rules for groups of refused calls, that of the earliest call first.")
AFTER = element("p", "A rule on a directory grants more than these calls need: objects are counted on the machine that "
                     "made this page. Audit the new policy again, since other calls may follow those that pass.",
                kind="after")


def cards(summaries: Sequence[Summary], tried: TriedPolicy | None, suggesting: Sequence[str]) -> Markup:
    """The cards of each ABI, and the command that prints rules for all calls."""
    if not any(summary.refusals for summary in summaries):
        return Markup()
    offering = Offering(tried) if tried else None
    shown = (element("div", *_of_abi(some[-1], offering, tried), kind=f"cards {kinds(one.abi for one in some)}")
             for some in _alike(summaries))
    return together((TOLD, *shown, AFTER, _exact(suggesting)) if tried else shown)


def _alike(summaries: Sequence[Summary]) -> Iterator[list[Summary]]:
    """Neighbours that refuse the same calls in the same order, and for which the same rules help."""
    alike: list[Summary] = []
    for summary in summaries:
        if alike and not _is_alike(alike[-1], summary):
            yield alike
            alike = []
        alike.append(summary)
    yield alike


def _is_alike(one: Summary, other: Summary) -> bool:
    """Whether two ABIs refuse the same calls; a rule may grant `refer` only at an ABI that knows it."""
    knows = [REFER in FS.known(summary.abi) for summary in (one, other)]
    return knows[0] == knows[1] and list(one.refusals.items()) == list(other.refusals.items())


def _exact(suggesting: Sequence[str]) -> Markup:
    """The command that prints exact rules."""
    if not suggesting:
        return Markup()
    told = element("p", "This command prints exact rules for all refused calls, and audits these rules:", kind="after")
    return together((told, rule_text(shlex.join(suggesting))))


def rule_text(text: str) -> Markup:
    """A text to copy, with its button, which a script shows."""
    button = element("button", "Copy", kind="copy", attributes={"type": "button", "hidden": ""})
    first, *others = text.split("\n")
    lines = (part for line in others for part in (Markup("\n"), _line(line)))
    return element("div", element("pre", _line(first), *lines, attributes={"tabindex": "0"}), button, kind="rule")


def _line(line: str) -> Markup:
    """A line of TOML or of a shell; comments are quiet, and no line is broken after the spaces that it begins with."""
    if line.startswith("#"):
        return element("span", line, kind="comment")
    if not line.startswith(" "):
        return together((line,))
    start = len(line) - len(line.lstrip(" ")) + 1
    return together((element("span", line[:start], kind="start"), line[start:]))


def _of_abi(summary: Summary, offering: Offering | None, tried: TriedPolicy | None) -> Iterator[Markup]:
    """The cards of an ABI, the earliest first, and what they have in common."""
    groups = grouping.grouped(summary.refusals.items())
    alike = {_error_and_layers(group) for group in groups}
    if len(groups) > 1 and len(alike) == 1:
        yield element("p", "All: ", *alike, kind="once")
        alike = set()
    for group in groups[:MOST_CARDS]:
        offer = offering.of(group, summary.abi) if offering else Offer(group, {}, {})
        yield _card(offer, tried.policy if tried else None, [_error_and_layers(group)] if alike else [])
    if len(groups) > MOST_CARDS:
        more = counted(len(groups) - MOST_CARDS, "more group")
        yield element("p", f"{more} without a card: see the refused calls below.", kind="quiet")


def _error_and_layers(group: RefusedGroup) -> str:
    """The error of a group's calls, and the layers that refuse them."""
    layers = ", ".join(group.lacking.layers)
    return f"{group.lacking.error}, by {layers}" if layers else group.lacking.error


def _card(offer: Offer, policy: Policy | None, also: Sequence[str]) -> Markup:
    """The card of a group; `also` is what not all cards have in common."""
    group = offer.group
    first = [element("p", "Refused first", kind="first")] if not group.order else []
    why = "; ".join(dict.fromkeys(map(str, group.lacking.objections)))
    calls = element("b", counted(group.programs.total(), "call"))
    title = element("h3", calls, " ", element("span", named(why), kind="why"))
    place = element("p", element("a", named(where_of(group)(NO_LIMIT)), kind="path", attributes={"href": _link(group)}))
    programs = Counter[str]()
    for name, times in group.programs.items():
        programs[os.path.basename(name)] += times
    del programs[NO_PROGRAM]
    told = [*([names(programs)] if programs else []), *also]
    by = [element("p", " · ".join(told), kind="quiet")] if told else []
    shown = [*_rules(offer.rules, policy), *_exactly(offer, policy)] if policy else []
    helpless = [element("p", f"No rule here: {offer.helpless}.", kind="warned")] if offer.helpless else []
    return element("article", *first, title, place, *by, *helpless, *shown, kind="card",
                   attributes={"data-at": group.directory} if group.directory else None)


def _link(group: RefusedGroup) -> str:
    """Leads to the kinds of a group among all kinds."""
    rights = " ".join(group.lacking.objections[0].words) if group.lacking.objections else ""
    at = f"at={quote(printable(group.directory))}&" if group.directory else ""
    return f"#{at}find={quote(printable(rights))}"


def _rules(rules: Mapping[int, list[SuggestedRule]], policy: Policy) -> Iterator[Markup]:
    """Rules, what they grant besides, and warnings about them."""
    remarks = dict.fromkeys(remark for some in rules.values() for rule in some for remark in rule.remarks)
    for remark in remarks:
        if remark.kind is RemarkKind.WARNING:
            yield element("p", remark.text, kind="warned")
        elif remark.kind is RemarkKind.ALSO:
            yield element("p", f"grants {remark}", kind="also")
    if rules:
        yield rule_text(toml(rules, policy))


def _exactly(offer: Offer, policy: Policy) -> Iterator[Markup]:
    """The exact rules besides others."""
    if offer.exact:
        title = element("summary", f"or exactly: {counted(sum(map(len, offer.exact.values())), 'rule')}")
        yield element("details", title, rule_text(toml(offer.exact, policy)))


def toml(rules: Mapping[int, list[SuggestedRule]], policy: Policy) -> str:
    """Rules as TOML to paste; what a card says of them is not said again."""
    lines: list[str] = []
    for layer in policy.layers:
        if some := rules.get(layer.number):
            told = suggestion_text.of_layer(layer, list(map(_without_said, some)), {}, policy)
            lines += list(told)[len(policy.layers) == 1:]
    return "\n".join(_single(lines)).strip("\n") + "\n"


def _without_said(rule: SuggestedRule) -> SuggestedRule:
    """A rule without the remarks that a card has outside of its text."""
    return replace(rule, remarks=tuple(remark for remark in rule.remarks if remark.kind is RemarkKind.PURPOSE))


def _single(lines: Iterable[str]) -> Iterator[str]:
    """Lines with at most one empty line between others."""
    before = ""
    for line in lines:
        if line or before:
            yield line
        before = line
