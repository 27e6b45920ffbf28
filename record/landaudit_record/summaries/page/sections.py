"""The parts of the page: the results of an audit, as tables that need no script."""

from __future__ import annotations

from collections import Counter
from collections.abc import Sequence
from dataclasses import dataclass

from ...audit.summary import Accepted, Refusal, Summary
from ...audit.warnings import Warned
from ...common.wording import MOST_NAMES, counted
from ...engine.answers import UNSURE
from ..summary_text import MOST_ROWS, names, why
from .by_version import choice, kinds, varied
from .counting import Paths
from .icicle import icicle
from .markup import Markup, element, together
from .tables import LONGEST, TableRow, about, named, paragraph, row, table
from .tree import tree

MOOT = "A call is moot if Landlock is not asked: for example, the file does not exist, or the call fails earlier."

REFUSALS = ("times", "call", "place", "error", "why", "layers", "program")

UNKNOWN = ("The recording does not know what was there before these calls: in one case the policy refuses them, in "
           "another it does not.")


@dataclass(frozen=True)
class Section:
    """A part of the page, to which a link at the top leads. An empty part is left out."""

    name: str
    title: str
    inside: Markup

    def markup(self) -> Markup:
        """The part with its heading."""
        title = f"{self.name}-title"
        heading = element("h2", self.title, attributes={"id": title})
        return element("section", heading, self.inside, attributes={"id": self.name, "aria-labelledby": title})


def switch(summaries: Sequence[Summary]) -> Markup:
    """The buttons that choose the ABI that the page shows."""
    buttons = (_button(summary.abi, summary is summaries[-1]) for summary in summaries)
    return element("fieldset", element("legend", "ABI"), *buttons, kind="abis")


def _button(abi: int, newest: bool) -> Markup:
    checked = {"checked": ""} if newest else {}
    given = {"type": "radio", "name": "abi", "value": str(abi), "id": choice(abi), **checked}
    return element("label", element("input", attributes=given), element("span", str(abi)))


def in_short(summaries: Sequence[Summary]) -> Markup:
    """The counts at the chosen ABI, in one line."""
    return together(element("div", _figures(summary), kind=f"figures {kinds([summary.abi])}") for summary in summaries)


def _figures(summary: Summary) -> Markup:
    verdicts = summary.verdicts
    accepted = summary.accepted.total()
    of_these = f", {accepted:,} of them accepted" if accepted else ""
    figures = (
        (f"{summary.records:,}", f"records at ABI {summary.abi}", ""),
        (f"{verdicts['allowed']:,}", "allowed", "allowed"),
        (f"{verdicts['refused']:,}", f"refused{of_these}", "refused" if summary.others_refused else "none"),
        *([(f"{verdicts[UNSURE]:,}", "may be refused", "refused")] if verdicts[UNSURE] else ()),
        (f"{verdicts['moot']:,}", "not asked (moot)", "moot"),
    )
    told = (element("div", element("b", number), " ", element("span", what), kind=kind)
            for number, what, kind in figures)
    return together(told)


def not_judged(summary: Summary, said: str = "Not all is judged. ") -> Markup:
    """The calls that could not be judged, so that the page does not look complete if it is not."""
    title = element("b", said)
    return together(paragraph(title, named(told), kind="alarm") for told in summary.missing)


def warnings(summaries: Sequence[Summary]) -> Markup:
    """The warnings of each ABI."""
    found: dict[Warned, dict[int, int]] = {}
    for summary in summaries:
        for warning, times in summary.warnings.items():
            found.setdefault(warning, {})[summary.abi] = times
    items = (
        element("li", named(str(warning)), _times(list(by_abi.values()), list(by_abi)), kind=kinds(by_abi))
        for warning, by_abi in found.items()
    )
    return element("ul", *items, kind="warnings") if found else Markup()


def _times(times: Sequence[int], abis: Sequence[int]) -> Markup:
    return varied(abis, [f" ({counted(one, 'time')})" if one > 1 else "" for one in times])


def refused(summaries: Sequence[Summary]) -> Markup:
    """The table of the refusals of all ABIs; the page shows those of the chosen ABI."""
    found = _by_refusal(summaries)
    told = [paragraph(_how_many(summary), kind=kinds([summary.abi])) for summary in summaries]
    rows = [_refusal(refusal, by_abi) for refusal, by_abi in found]
    return together((*told, *([each(REFUSALS, rows)] if rows else ())))


def each(heads: Sequence[str], rows: Sequence[TableRow]) -> Markup:
    """The kinds of refused calls one by one; a click opens them if there are many."""
    opened = {"open": ""} if len(rows) <= MOST_ROWS else {}
    kinds_of_calls = table("kinds refusals", heads, rows, once=("error", "layers", "program"))
    title = element("summary", "Each kind by itself")
    return element("details", title, words_filter(), kinds_of_calls, attributes={"id": "each", **opened})


def unsure(summaries: Sequence[Summary]) -> Markup:
    """The table of the calls of all ABIs that may be refused; the page shows those of the chosen ABI."""
    found: dict[Refusal, dict[int, Counter[str]]] = {}
    for summary in reversed(summaries):
        for refusal, programs in summary.unsure.items():
            found.setdefault(refusal, {})[summary.abi] = programs
    if not found:
        return Markup()
    heads = ("times", "call", "place", "not known", "error", "why", "program")
    rows = (_unsure(refusal, by_abi) for refusal, by_abi in found.items())
    return together((paragraph(UNKNOWN), table("kinds unsure", heads, rows, once=("error", "program"))))


def _unsure(refusal: Refusal, by_abi: dict[int, Counter[str]]) -> TableRow:
    abis = sorted(by_abi)
    times = varied(abis, [f"{by_abi[abi].total():,}" for abi in abis])
    programs = varied(abis, [_programs(by_abi[abi]) for abi in abis])
    place, reason = about(refusal.subject), named(why(refusal))
    cells = (times, refusal.call, place, refusal.unknown or "-", refusal.error, reason)
    return row(*cells, programs, kind=kinds(abis))


def _by_refusal(summaries: Sequence[Summary]) -> list[tuple[Refusal, dict[int, Counter[str]]]]:
    """The refusals of all ABIs; those that are most frequent at the newest ABI come first."""
    found: dict[Refusal, dict[int, Counter[str]]] = {}
    for summary in reversed(summaries):
        for refusal, programs in summary.by_frequency():
            found.setdefault(refusal, {})[summary.abi] = programs
    return list(found.items())


def _how_many(summary: Summary) -> str:
    if not summary.refusals:
        return f"Nothing is refused at ABI {summary.abi}{' that is not accepted' if summary.accepted else ''}."
    number = sum(programs.total() for programs in summary.refusals.values())
    calls = "1 call" if number == 1 else f"{number:,} calls"
    return f"{calls} at ABI {summary.abi}, in {counted(len(summary.refusals), 'kind')}."


def words_filter() -> Markup:
    """The field for words that a row must have; without a script it is hidden."""
    field = element("input", attributes={"type": "search", "id": "find", "autocomplete": "off", "spellcheck": "false"})
    label = element("label", "Show rows with ", field)
    left = element("span", attributes={"id": "left", "role": "status"})
    return element("div", label, left, kind="tools", attributes={"id": "filter", "hidden": ""})


def looking() -> Markup:
    """What says in which directory the reader looks; without a script it is hidden."""
    button = element("button", "Show all", attributes={"type": "button"})
    return element("div", "Only at or below ", element("span", kind="path"), " ", button,
                   attributes={"id": "at", "hidden": ""})


def _refusal(refusal: Refusal, by_abi: dict[int, Counter[str]]) -> TableRow:
    """A row for one kind of refused calls, with their number at each ABI that refuses them."""
    abis = sorted(by_abi)
    times = varied(abis, [f"{by_abi[abi].total():,}" for abi in abis])
    layers = ", ".join(layer.name for layer in refusal.layers) or "-"
    programs = varied(abis, [_programs(by_abi[abi]) for abi in abis])
    place, reason = about(refusal.subject), named(why(refusal))
    cells = (times, refusal.call, place, refusal.error, reason, named(layers), programs)
    return row(*cells, kind=kinds(abis))


def _programs(programs: Counter[str]) -> Markup:
    """The most frequent programs; their directories are apart, since a narrow window does without them."""
    said = names(programs)
    if len(said) > LONGEST:
        return named(said)
    first = [name for name, _ in programs.most_common(MOST_NAMES)]
    split = [name.rpartition("/") for name in first]
    shown = [part for directory, slash, name in split
             for part in (", ", *([element("i", directory + slash)] if slash else []), name)]
    return together((*shown[1:], said[len(", ".join(first)):]))


def accepted(summaries: Sequence[Summary]) -> Markup:
    """The accepted refusals."""
    found: dict[Accepted, dict[int, int]] = {}
    for summary in reversed(summaries):
        for one, times in summary.accepted.most_common():
            found.setdefault(one, {})[summary.abi] = times
    if not found:
        return Markup()
    return table("accepted", ("times", "call", "place", "reason"), (_accepted(*one) for one in found.items()))


def _accepted(one: Accepted, by_abi: dict[int, int]) -> TableRow:
    times = varied(list(by_abi), [f"{times:,}" for times in by_abi.values()])
    return row(times, one.call, about(one.subject), named(one.reason), kind=kinds(by_abi))


def moot(summary: Summary) -> Markup:
    """What was moot at the newest ABI, and why."""
    if not summary.moot:
        return Markup()
    found = sorted(summary.moot.items(), key=lambda item: -item[1].total())
    rows = (row(f"{at.total():,}", named(str(unasked)), named(names(at))) for unasked, at in found)
    told = paragraph(f"{MOOT} These are the moot calls at ABI {summary.abi}.")
    return together((told, table("moot", ("times", "why", "at"), rows)))


def paths(abis: Sequence[int], found: Paths) -> Markup:
    """The tree of paths."""
    told = paragraph("Calls on paths about which Landlock is asked, at or below each directory: the wider, the more "
                     "calls; the redder, the more of them are refused. A call on two paths is counted once if both are "
                     "below. A click on a directory shows the groups and kinds there.")
    buttons = (element("button", title, attributes={"type": "button", "id": name})
               for title, name in (("Open directories with refusals", "open"), ("Close all", "close")))
    doors = element("div", *buttons, kind="tools", attributes={"id": "doors", "hidden": ""})
    listed = element("details", element("summary", "As a list, with numbers"), doors, tree(abis, found.root))
    return together((told, icicle(abis, found.root), listed))


def unsaid(summary: Summary) -> Markup:
    """The kinds of calls that were not traced, and the traced calls that were not recorded, which no number counts."""
    untraced = [paragraph(named(f"{told}."), kind="untraced") for told in summary.untraced]
    if not summary.unsaid:
        return together((*untraced, paragraph("Of the calls that were traced, none is left out.")))
    rows = (row(f"{times:,}", named(name)) for name, times in summary.unsaid.most_common())
    told = paragraph("Calls that the recording can't show, by class. None of the numbers above counts them.")
    return together((*untraced, told, table("unsaid", ("times", "class"), rows)))
