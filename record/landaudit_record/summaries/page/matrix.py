"""What each ABI does with each right: which it protects, which it does not know, and where calls are refused."""

from __future__ import annotations

from collections import Counter
from collections.abc import Iterable, Iterator, Mapping, Sequence

from ...audit.by_abi import AbiStep, VisibleRefusal
from ...audit.summary import Refusal, Summary
from ...common.reach import PTRACE
from ...common.rights import ABIS, FS, LATEST_ABI, NET, NONE, SCOPES, Rights
from ...common.wording import counted
from ...engine.answers import UNSURE, Closed, Gained, Kept, Missing, Scoped, Tracing
from ...policy.policies import Layer, Policy
from .by_version import choice
from .markup import Markup, element, together

#: The most kinds that are named of those that change from ABI to ABI.
MOST_KINDS = 20
PROTECTED, DROPPED, NOT_HANDLED = "\u2713", "\u25cb", "\u00b7"


def matrix(summaries: Sequence[Summary], steps: Sequence[AbiStep], policy: Policy | None) -> Markup:
    """The table: a column for each ABI, which also chooses it, and a row for each right."""
    heads = (_head(step.abi) for step in steps)
    corner = element("th", "ABI", element("span", "Linux", kind="kernel"), attributes={"scope": "col"})
    head = element("thead", element("tr", corner, *heads))
    body = element("tbody", *_counts(steps), *_changes(steps), *_rights(summaries, policy))
    table = element("table", head, body, kind="matrix")
    return together((table, _legend(summaries, policy)))


def _head(abi: int) -> Markup:
    """The head of a column, which is the label of the button that chooses its ABI."""
    version = ABIS[abi]
    kernel = element("span", f"{version.linux}+", kind="kernel")
    release = [element("span", version.release, kind="release")] if version.release else []
    label = element("label", str(abi), kernel, *release, attributes={"for": choice(abi)})
    return element("th", label, kind=f"t{abi}", attributes={"scope": "col"})


def _row(name: str, cells: Sequence[tuple[int, str, str]], kind: str = "") -> Markup:
    """A row: its name, and for each ABI what is said and its class."""
    told = (element("td", said, kind=f"t{abi} {of}".strip()) for abi, said, of in cells)
    return element("tr", element("th", name, attributes={"scope": "row"}), *told, kind=kind)


def _counts(steps: Sequence[AbiStep]) -> Iterator[Markup]:
    """The rows with the numbers of calls."""
    named = [("allowed", "allowed"), ("refused", "refused"), ("may be refused", UNSURE), ("not asked (moot)", "moot")]
    for title, verdict in named:
        numbers = [(step.abi, step.verdicts[verdict]) for step in steps]
        if verdict != UNSURE or any(number for _, number in numbers):
            bad = "bad" if verdict in ("refused", UNSURE) else ""
            yield _row(title, [(abi, f"{number:,}", bad if number else "none") for abi, number in numbers], "counts")


def _changes(steps: Sequence[AbiStep]) -> Iterator[Markup]:
    """The rows of what changes from ABI to ABI, if something does."""
    if len(steps) > 1:
        rows: list[tuple[str, list[tuple[int, str, str]]]] = [
            ("refused here and not before", [(it.abi, _some(it.breaks), "change") for it in steps[1:]]),
            ("refused no more", [(it.abi, _some(it.no_more), "change") for it in steps[1:]]),
            ("more warnings", [(it.abi, str(len(it.warnings) or ""), "change") for it in steps[1:]]),
        ]
        for title, cells in rows:
            if any(said for _, said, _ in cells):
                yield _row(title, [(steps[0].abi, "", "change"), *cells], "counts")


def _some(some: Sequence[VisibleRefusal]) -> Markup:
    """The number of some kinds, which a click opens to name the first of them."""
    if not some:
        return Markup()
    words = ((kind.call, str(kind.subject), kind.error) for kind in some[:MOST_KINDS])
    items = [element("li", element("code", " ".join(word for word in each if word != "-"))) for each in words]
    if len(some) > MOST_KINDS:
        items.append(element("li", f"and {counted(len(some) - MOST_KINDS, 'more kind')}"))
    return element("details", element("summary", counted(len(some), "kind")), element("ul", *items))


def _rights(summaries: Sequence[Summary], policy: Policy | None) -> Iterator[Markup]:
    """The rows of the rights: those that the policy handles, and those that refused calls lack."""
    lacking = [(summary.abi, lacked(summary.refusals), lacked(summary.unsure)) for summary in summaries]
    handled = handled_by(policy.layers, LATEST_ABI) if policy else NONE
    for family in (FS, NET):
        for right in family.since:
            if right in handled or any(refused[right] or unsure[right] for _, refused, unsure in lacking):
                yield _row(right, [_cell(abi, right, (refused[right], unsure[right]), policy)
                                   for abi, refused, unsure in lacking])
    for scope in SCOPES:
        if scope in handled or any(refused[scope] for _, refused, _ in lacking):
            yield _row(scope, [_cell(abi, scope, (refused[scope], 0), policy) for abi, refused, _ in lacking])
    if any(refused[PTRACE] for _, refused, _ in lacking):
        yield _row(PTRACE, [_cell(abi, PTRACE, (refused[PTRACE], 0), policy) for abi, refused, _ in lacking])


def _cell(abi: int, right: str, lacking: tuple[int, int], policy: Policy | None) -> tuple[int, str, str]:
    """What an ABI does with a right; `lacking` has the calls that are refused for it, and those that may be."""
    refused, unsure = lacking
    if refused or unsure:
        return abi, " ".join([f"{refused:,}"] * (refused > 0) + [f"{unsure:,}?"] * (unsure > 0)), "bad"
    if policy is None or right not in handled_by(policy.layers, LATEST_ABI):
        return abi, NOT_HANDLED, "none"
    return (abi, PROTECTED, "good") if right in handled_by(policy.layers, abi) else (abi, DROPPED, "dropped")


def handled_by(layers: Iterable[Layer], abi: int) -> Rights:
    """The rights and scopes that layers have at best effort; one that handles a right for files refuses `refer` by
    itself, at each ABI (landlock(7))."""
    found: set[str] = set()
    for layer in layers:
        files = layer.handled_access_fs.rights & FS.known(abi)
        found |= files | layer.handled_access_net.rights & NET.known(abi) | ({"refer"} if files else NONE)
        found.update(layer.scoped_at(abi))
    return frozenset(found)


def lacked(refusals: Mapping[Refusal, Counter[str]]) -> Counter[str]:
    """How many calls lack each right, or are refused by a scope or by the rule on ptrace; a call that lacks two rights
    counts at both."""
    found: Counter[str] = Counter()
    for refusal, programs in refusals.items():
        objections = [one for layer in refusal.layers for one in layer.objections]
        about_rights = (one for one in objections if isinstance(one, (Missing, Closed, Gained, Kept)))
        rights = {right for one in about_rights for right in one.rights}
        rights |= {one.scope if isinstance(one, Scoped) else PTRACE for one in objections
                   if isinstance(one, (Scoped, Tracing))}
        found.update(dict.fromkeys(rights, programs.total()))
    return found


def _legend(summaries: Sequence[Summary], policy: Policy | None) -> Markup:
    """What the signs mean."""
    unsure = [element("b", " 12?", kind="bad"), " calls that may be refused lack it."]
    signs = [element("p", element("b", "12", kind="bad"), " refused calls lack the right; a call can lack several.",
                     *(unsure if any(summary.unsure for summary in summaries) else ()),
                     " A click on an ABI shows the page for it.", kind="legend")]
    if policy is not None:
        but = ", but for accepted ones" if any(summary.accepted for summary in summaries) else ""
        told = (f"{PROTECTED} protected: the policy handles it, and no recorded call is refused for it{but}. {DROPPED} "
                "dropped at best effort: the kernel does not know it, and what it would protect is open. "
                f"{NOT_HANDLED} not handled.")
        signs.append(element("p", told, kind="legend"))
    return together(signs)
