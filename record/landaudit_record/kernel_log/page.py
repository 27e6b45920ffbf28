"""What the kernel's log says of denials as a page, in the form of an audit's page and with its style and script."""

from __future__ import annotations

from collections import Counter
from collections.abc import Iterable, Iterator, Mapping
from pathlib import Path

from ..audit.summary import Refusal
from ..common.wording import counted
from ..summaries.page import links, put, sections, whole
from ..summaries.page.cards import rule_text
from ..summaries.page.markup import Markup, element, together
from ..summaries.page.parts import in_a_line
from ..summaries.page.sections import REFUSALS, Section
from ..summaries.page.tables import TableRow, about, named, paragraph, row, table
from ..summaries.summary_text import names, why
from . import text
from .counting import Counted


def write(file: Path, title: str, found: Counted, rules: Iterable[str]) -> None:
    """Writes the page of a log, either whole or not at all."""
    put(file, made(title, found, rules).encode())


def made(title: str, found: Counted, rules: Iterable[str]) -> str:
    """The page of a log, with the rules as TOML."""
    parts = [part for part in _parts(found, rules) if part.inside]
    top = element("header", element("h1", title), element("p", f"{text.in_short(found)}.", kind="quiet"))
    first = (_figures(found), sections.not_judged(found.summary, "Not all is logged. "), _warnings(found))
    main = element("main", *first, *(part.markup() for part in parts), sections.looking())
    return whole(title, together((top, element("nav", links(parts)), main)))


def _parts(found: Counted, rules: Iterable[str]) -> Iterator[Section]:
    """All parts that the page may have, in their order."""
    refused, written = dict(found.summary.by_frequency()), "\n".join(rules).strip("\n")
    yield Section("grant", "What to grant", rule_text(f"{written}\n") if written else Markup())
    yield Section("refused", "Refused", _refused(refused))
    yield Section("same", "Logged, and succeeded all the same", _succeeded(found.succeeded))
    yield Section("above", "Rules of the policy", _above(found))
    yield Section("domains", "Domains", _domains(found))


def _figures(found: Counted) -> Markup:
    """The counts in one line."""
    succeeded = sum(programs.total() for programs in found.succeeded.values())
    return in_a_line((
        (found.log.records, "records of the kernel's audit", ""),
        (found.summary.verdicts["refused"], "calls refused", "refused" if found.summary.refusals else "none"),
        (succeeded, "succeeded all the same", "moot"),
        (len(found.log.domains), "domains", ""),
    ))


def _warnings(found: Counted) -> Markup:
    warnings = [*map(str, found.summary.warnings), *([] if found.log.denials else [text.ONLY_ASKED])]
    return element("ul", *(element("li", named(told)) for told in warnings), kind="warnings") if warnings else Markup()


def _refused(refusals: Mapping[Refusal, Counter[str]]) -> Markup:
    """The table of refusals, with the field for words that a row must have."""
    if not refusals:
        return paragraph("The log has no call that Landlock refused.")
    calls = sum(programs.total() for programs in refusals.values())
    told = paragraph(f"{counted(calls, 'call')}, in {counted(len(refusals), 'kind')}.")
    return together((told, sections.each(REFUSALS, list(map(_row, refusals.items())))))


def _succeeded(refusals: Mapping[Refusal, Counter[str]]) -> Markup:
    """The table of calls that succeeded although a layer refused something."""
    rows = map(_row, refusals.items())
    return table("kinds same", REFUSALS, rows, once=("layers", "program")) if refusals else Markup()


def _row(item: tuple[Refusal, Counter[str]]) -> TableRow:
    """A kind of denied calls."""
    refusal, programs = item
    layers = ", ".join(layer.name for layer in refusal.layers)
    return row(f"{programs.total():,}", refusal.call, about(refusal.subject), refusal.error, named(why(refusal)),
               named(layers), named(names(programs)))


def _above(found: Counted) -> Markup:
    """The rules of the policy on what was refused, or above it."""
    rows = (row(str(rule.layer), str(rule.rule), named(rule.place), ", ".join(rule.rights), text.lacking(some))
            for rule, some in text.by_weight(found.above))
    told = paragraph("Rules on what was refused or above it, the rights that each grants, and those that were lacking.")
    heads = ("layer", "rule", "place", "rights", "lacking")
    return together((told, table("rules", heads, rows))) if found.above else Markup()


def _domains(found: Counted) -> Markup:
    """The domains whose youngest layers refused something."""
    rows = (row(*map(named, text.domain_row(domain, found.matched))) for domain in found.log.domains.values())
    heads = ("domain", "made by", "process", "logged", "counted", "layer")
    told = paragraph("The layer that refuses is the youngest one of its domain. When the last process of a domain "
                     "ends, the kernel logs how many denials there were.")
    return together((told, table("domains", heads, rows, once=("made by", "layer")))) if found.log.domains else Markup()
