"""What a log says of denials, written out for a person: the tables of an audit's summary, and the rules as TOML."""

from __future__ import annotations

from collections import Counter
from collections.abc import Iterator, Sequence
from dataclasses import dataclass
from datetime import UTC, datetime

from ..audit.summary import Summary
from ..common import layout
from ..common.layout import Column, table, words
from ..common.rights import NEWEST_ABI, OLDEST_ABI
from ..common.wording import counted, plain
from ..policy.policies import Policy
from ..suggest import suggestion_text
from ..summaries import summary_text
from ..summaries.summary_text import Style
from .counting import NOT_SAID, Counted, maker_of, of_maker
from .denials import Log, LoggedDomain
from .granting import Granted
from .matching import Matched, RuleAbove

SAID = "refused"
#: The number of domains that are shown of many.
MOST_DOMAINS = 5
ALL_THE_SAME = "logged, but the call succeeded all the same"
ONLY_ASKED = ("of a program that the sandboxer executes, the kernel logs only if it is asked to: landaudit-policy "
              "confine --log, or LANDLOCK_RESTRICT_SELF_LOG_NEW_EXEC_ON")
ONE_STEP = ("the log has one step of a call at a time, such as make_reg, and write_file only once that is granted: put "
            "the rules in force, run the program again, and read the log again")
NO_RULE = f"refused, and no rule of ABI {OLDEST_ABI} to {NEWEST_ABI} lets such calls pass"
GAINING = ("refused since a move or link would give an object rights that it does not have where it is, and the log "
           "does not say which: audit a recording")
NOT_ALL = "NOT ALL IS LOGGED:"


@dataclass(frozen=True)
class LogOptions:
    """What is shown of a log: `each` kind and domain by itself, the command that prints rules, and why other calls have
    none.
    """

    each: bool = False
    suggesting: Sequence[str] = ()
    staying: Sequence[str] = ()


def lines(found: Counted, title: str, style: Style, shown: LogOptions = LogOptions()) -> Iterator[str]:
    """The lines of a summary, each without its line feed and at most as wide as the style says."""
    yield from map(style.bold, layout.folded(title, style.width))
    for line in layout.folded(in_short(found), style.width):
        refused = f"{found.summary.verdicts['refused']:,} {SAID}"
        yield line.replace(refused, style.red(refused)) if found.summary.refusals else line
    yield from summary_text.warnings(found.summary, style, each=True)
    if not found.log.denials:
        yield from layout.folded(f"note: {ONLY_ASKED}", style.width)
    yield from summary_text.refusals(found.summary, style, each=shown.each)
    yield from summary_text.refusals(Summary(0, refusals=found.succeeded), style, each=True, said=ALL_THE_SAME)
    yield from _above(found, style)
    yield from _domains(found, style, each=shown.each)
    if shown.suggesting:
        yield from ("", "rules for these:", *layout.command(shown.suggesting, style.width))
    if shown.staying:
        yield from summary_text.heading("without a rule", style)
        yield from (f"  {line}" for text in shown.staying for line in layout.folded(text, style.width - 2))
    for text in found.summary.missing:
        yield from summary_text.marked(NOT_ALL, text, style.red, style.width)


def in_short(found: Counted) -> str:
    """The counts in a sentence."""
    log, not_all = found.log, ", and NOT ALL IS LOGGED (see the end)" if found.summary.missing else ""
    period = f"{counted(log.records, 'record')} of the kernel's audit{_period(log)}"
    if not log.denials:
        of_program = f" to {log.program}" if log.program else ""
        return f"{period}: none is a denial of Landlock{of_program}{not_all}"
    refused, succeeded = found.summary.verdicts["refused"], sum(some.total() for some in found.succeeded.values())
    same = f", {succeeded:,} succeeded all the same" if succeeded else ""
    return (f"{period}: {counted(len(log.denials), 'call')} denied: {refused:,} {SAID}{same}, in "
            f"{counted(len(log.domains), 'domain')}{not_all}")


def _period(log: Log) -> str:
    """From when to when the log is."""
    if log.first is None or log.last is None:
        return ""
    return f" from {_time(log.first)} to {_time(log.last)} UTC"


def _time(milliseconds: int) -> str:
    return f"{moment(milliseconds):%Y-%m-%d %H:%M:%S}"


def moment(milliseconds: int) -> datetime:
    """A time since 1970."""
    return datetime.fromtimestamp(milliseconds / 1000, UTC)


def by_weight(above: dict[RuleAbove, Counter[str]]) -> list[tuple[RuleAbove, Counter[str]]]:
    """The rules above what was refused: those where most is lacking come first."""
    return sorted(above.items(), key=lambda item: -item[1].total())


def lacking(rights: Counter[str]) -> str:
    """Rights that are lacking, each with how often."""
    return ", ".join(f"{right} {times:,}" for right, times in rights.most_common())


def _above(found: Counted, style: Style) -> Iterator[str]:
    """The rules of the policy that are on what was refused, or above it."""
    if found.matched is None or not found.above:
        return
    yield from summary_text.heading(f"rules of {found.matched.policy.path} on these or above them", style)
    said = ((str(rule.layer), str(rule.rule), rule.place, ", ".join(rule.rights), lacking(some))
            for rule, some in by_weight(found.above))
    rows = [[words(cell) for cell in row] for row in said]
    columns = (Column("layer", number=True), Column("rule"), Column("place", short=True),
               Column("grants", short=True, less=True), Column("lacks, how often", short=True))
    yield from table(columns, rows, style.width)


def _domains(found: Counted, style: Style, *, each: bool) -> Iterator[str]:
    """The domains whose youngest layers refused something."""
    domains = list(found.log.domains.values())
    if not domains:
        return
    yield from summary_text.heading(f"domains ({len(domains):,})", style)
    rows = [[words(text) for text in domain_row(domain, found.matched)] for domain in
            (domains if each else domains[:MOST_DOMAINS])]
    columns = (Column("domain"), Column("made by", short=True), Column("process", number=True),
               Column("logged", number=True), Column("counted", number=True), Column("layer"))
    yield from table(columns, rows, style.width)
    if len(domains) > len(rows):
        yield f"  --all lists {counted(len(domains) - len(rows), 'more domain')}"


def domain_row(domain: LoggedDomain, matched: Matched | None) -> tuple[str, ...]:
    """A domain in words: its number, who made it, how many denials the log has and the kernel counted, its layer."""
    maker, layer = domain.maker, None if matched is None else matched.layers.get(domain.number)
    program = "-" if maker is None else f"{maker.program} ({maker.comm})"
    numbers = ("-" if maker is None else str(maker.pid), f"{domain.logged:,}",
               "-" if domain.counted is None else f"{domain.counted:,}")
    return (domain.number, program, *numbers, of_maker(maker_of(domain)) if layer is None else f"policy's {layer}")


def rules(granted: Granted, found: Counted, policy: Policy | None) -> Iterator[str]:
    """The rules as TOML to paste; everything else is a comment."""
    layers = {} if policy is None else {layer.number: layer for layer in policy.layers}
    for target, some in granted.rules.items():
        if policy is not None and target.layer is not None:
            yield from suggestion_text.of_layer(layers[target.layer], some, {}, policy)
        else:
            made = "" if target.maker == NOT_SAID else f" for the layers that {plain(target.maker)} made"
            yield f"# {counted(len(some), 'rule')}{made}"
            if any("refer" in rule.rights for rule in some):
                yield "# rules may grant refer only where the layer handles it"
            yield from suggestion_text.written(some)
    if not granted.rules:
        yield "# the log has no refused call that a rule can fix"
    else:
        yield f"# {ONE_STEP}"
    yield from (f"# {plain(text)}" for text in staying(granted, policy))
    yield from (f"# warning: {plain(str(warning))}" for warning in found.summary.warnings)
    yield from (f"# {NOT_ALL} {plain(text)}" for text in found.summary.missing)


def staying(granted: Granted, policy: Policy | None) -> Iterator[str]:
    """The calls for which there is no rule, and why."""
    name = "" if policy is None else plain(str(policy.path))
    for calls, why in (
        (granted.unmended, NO_RULE),
        (granted.gaining, GAINING),
        (granted.of_others, f"refused by layers that are not of {name}"),
        (granted.since, f"refused in the log, but granted by {name} as it is now"),
        (granted.succeeded, "logged and succeeded all the same"),
    ):
        yield from suggestion_text.staying(calls, why)
