"""A summary written out for a person."""

from __future__ import annotations

import os
from collections import Counter
from collections.abc import Callable, Iterator, Sequence
from dataclasses import dataclass, replace
from typing import TextIO

from ..audit.by_abi import AbiStep, VisibleRefusal
from ..audit.moot import FAILED_TOO, MISSED, Unasked
from ..audit.summary import Refusal, RefusingLayer, Summary
from ..audit.warnings import MadeByRun, ManyMoot, NoLayer, OfPolicy, ReplacedByRun, RuleUnused, Warned
from ..common import layout
from ..common.layout import Cell, Column, Lack, table, wide, words
from ..common.trace_lines import FIRST_MADE_UP
from ..common.trees import directory_of
from ..common.wording import counted, plain, some_of
from ..engine.answers import UNOPENED, UNSURE, Closed, Kept, Missing, Objection
from ..engine.subjects import ARROW, Subject
from . import grouping
from .grouping import Lacking, RefusedGroup

#: The answers in the order in which they are counted.
VERDICTS = ("allowed", "refused", "moot")

#: This many kinds of refused calls, or fewer, are shown one by one; more are shown in at most this many groups.
MOST_ROWS = 20
#: The number of warnings about rules that the run never used that are shown.
MOST_UNUSED = 5
#: Words for a person instead of landaudit's words for why Landlock is not asked.
_IN_WORDS = {
    "absent": "the recording has no such file",
    "present": "it is there already",
    "no_directory": "it is not a directory",
    UNOPENED: "its file is not open",
    MISSED: "its opening was refused or not asked",
    FAILED_TOO: "it failed when recorded too: {error}",
}
_TIMES = Column("times", number=True)
#: The columns of its width that the column of rights keeps, at most, before paths do.
_MOST_KEPT = 34


@dataclass(frozen=True)
class Style:
    """How words are marked, and the width of lines; without `coloured`, words are plain."""

    coloured: bool
    width: int = layout.WIDTH
    branches: layout.Branches = layout.Branches()

    @classmethod
    def of(cls, stream: TextIO) -> Style:
        """Colours only on a terminal, and only if NO_COLOR is not set; as wide as the terminal."""
        coloured = stream.isatty() and not os.environ.get("NO_COLOR")
        return cls(coloured, layout.width_of(stream), layout.Branches.of(stream))

    def bold(self, text: str) -> str:
        return self._marked("1", text)

    def red(self, text: str) -> str:
        return self._marked("31", text)

    def yellow(self, text: str) -> str:
        return self._marked("33", text)

    def _marked(self, code: str, text: str) -> str:
        return f"\033[{code}m{text}\033[0m" if self.coloured else text


@dataclass(frozen=True)
class SummaryExtras:
    """What is printed with a summary: notes, and the command that suggests rules; `each` asks for each kind of call,
    and `tree` writes the refused calls in place of tables.
    """

    notes: Sequence[str] = ()
    suggesting: Sequence[str] = ()
    each: bool = False
    tree: Callable[[Summary, Style, bool], Iterator[str]] | None = None


def lines(summary: Summary, title: str, style: Style, beside: SummaryExtras = SummaryExtras()) -> Iterator[str]:
    """The lines of a summary, each without its line feed and at most as wide as the style says."""
    yield from map(style.bold, layout.folded(title, style.width))
    yield from _counts(summary, style)
    yield from warnings(summary, style, each=beside.each)
    for text in beside.notes:
        yield from layout.folded(f"note: {text}", style.width)
    if beside.tree is None:
        yield from refusals(summary, style, each=beside.each)
    elif summary.refusals:
        yield from beside.tree(summary, style, beside.each)
    yield from _unsure(summary, style, each=beside.each)
    if beside.suggesting:
        yield from ("", "rules for these:", *layout.command(beside.suggesting, style.width))
    yield from _accepted(summary, style)
    yield from _moot(summary, style)
    if summary.unsaid:
        yield from heading(f"not recorded: {counted(summary.unsaid.total(), 'call')}", style)
        rows = [(words(f"{times:,}"), words(name)) for name, times in summary.unsaid.most_common()]
        yield from table((_TIMES, Column("class", short=True)), rows, style.width)


def ending(summary: Summary, style: Style) -> Iterator[str]:
    """The last lines: what could not be judged, so that an incomplete audit does not look complete."""
    for text in summary.missing:
        yield from marked("NOT ALL IS JUDGED:", text, style.red, style.width)


def by_recording(each: Sequence[tuple[str, Summary]], style: Style) -> Iterator[str]:
    """The lines of the table by recording, which follows a summary of several."""
    yield from heading("by recording", style)
    rows = []
    for name, summary in each:
        counts = (summary.records, *(summary.verdicts[verdict] for verdict in VERDICTS))
        rows.append([*(words(f"{count:,}") for count in counts), words(name)])
    columns = [Column(head, number=True) for head in ("records", *VERDICTS)]
    yield from table((*columns, Column("recording", short=True)), rows, style.width)


def by_abi(steps: Sequence[AbiStep], style: Style) -> Iterator[str]:
    """The lines of the table by ABI, which follows a summary."""
    yield from heading("by ABI: what breaks there first, and what is refused no more", style)
    verdicts = (*VERDICTS, UNSURE) if any(step.verdicts[UNSURE] for step in steps) else VERDICTS
    columns = [Column(head, number=True) for head in ("ABI", *verdicts)]
    rows = [row for step in steps for row in _step_rows(step, verdicts)]
    yield from table((*columns, Column("what changes", short=True)), rows, style.width)


def _step_rows(step: AbiStep, verdicts: Sequence[str]) -> Iterator[list[Cell]]:
    """The rows of an ABI: its counts are in the first, and each says one thing that changes."""
    counts = [words(f"{number:,}") for number in (step.abi, *(step.verdicts[verdict] for verdict in verdicts))]
    for said in _changes(step) or [words("")]:
        yield [*counts, said]
        counts = [words("")] * len(counts)


def _changes(step: AbiStep) -> list[Cell]:
    """What an ABI changes, compared with the one before it."""
    named = (("breaks: ", step.breaks), ("refused no more: ", step.no_more))
    said = [layout.names([_kind(kind) for kind in kinds], said=what) for what, kinds in named if kinds]
    if step.warnings:
        said.append(words(f"{counted(len(step.warnings), 'more warning')}: see --abi {step.abi}"))
    return said


def _kind(kind: VisibleRefusal) -> str:
    """A kind in a row; a call without a path or port is shown by the call and the error."""
    return " ".join(word for word in (kind.call, person(kind.subject), kind.error) if word != "-")


def heading(text: str, style: Style) -> Iterator[str]:
    """The heading of a part, behind an empty line."""
    yield ""
    yield from map(style.bold, layout.folded(text, style.width))


def marked(mark: str, text: str, coloured: Callable[[str], str], width: int) -> Iterator[str]:
    """A text on lines that fit, with the mark before it in a colour if the mark stays whole."""
    first, *others = layout.folded(f"{mark} {text}", width)
    yield coloured(mark) + first.removeprefix(mark) if first.startswith(mark) else first
    yield from others


def _counts(summary: Summary, style: Style) -> Iterator[str]:
    """How many records there are of each answer."""
    verdicts = summary.verdicts
    refused = f"{verdicts['refused']:,} refused"
    not_all = ", and NOT ALL IS JUDGED (see the end)" if summary.missing else ""
    unsure = f"{verdicts[UNSURE]:,} may be refused, " if verdicts[UNSURE] else ""
    text = (f"{summary.records:,} records: {verdicts['allowed']:,} allowed, {refused}{_of_these(summary)}, {unsure}"
            f"{verdicts['moot']:,} not asked (moot){not_all}")
    for line in layout.folded(text, style.width):
        yield line.replace(refused, style.red(refused)) if summary.others_refused else line


def warnings(summary: Summary, style: Style, *, each: bool) -> Iterator[str]:
    """The warnings; those about rules that the run never used come last, and only some of them unless `each`."""
    used = [warning for warning in summary.warnings if not isinstance(warning, RuleUnused)]
    unused = sorted((warning for warning in summary.warnings if isinstance(warning, RuleUnused)), key=_is_here)
    shown = unused if each else unused[:MOST_UNUSED]
    for warning in (*used, *shown):
        yield from _warning(_brief(warning), summary.warnings[warning], style, with_rule=each)
    if len(unused) > len(shown):
        more = f"{counted(len(unused) - len(shown), 'more rule')} that this run never used: --all lists them"
        yield from marked("warning:", more, style.yellow, style.width)


def _is_here(warning: RuleUnused) -> bool:
    """Whether the path of a rule that the run never used exists on this machine."""
    return os.path.exists(warning.rule.parent or "")


@dataclass(frozen=True)
class _Brief:
    """A warning in few words, and the rule of the policy that it is about."""

    said: str
    rule: OfPolicy | None = None


def _brief(warning: Warned) -> _Brief:
    """A warning in few words; those about rules on paths leave out the path and the rule, which are beside them."""
    match warning:
        case RuleUnused(rule=rule, subject=subject) if subject.paths:
            here = _is_here(warning)
            return _Brief("exists here, but this run never used it" if here else "no such path here", rule)
        case MadeByRun(rule=rule, above=above):
            return _Brief(f"the run makes it: grant it on {above}", rule)
        case ReplacedByRun(rule=rule, above=above):
            return _Brief(f"the run puts another there: grant it on {above}", rule)
        case NoLayer():
            return _Brief("no process confines itself: try a policy with --policy")
        case ManyMoot(moot=moot, calls=calls):
            return _Brief(f"{moot} of {calls} calls on paths are not asked: does the tree list them?")
    return _Brief(str(warning))


def _warning(brief: _Brief, times: int, style: Style, *, with_rule: bool) -> Iterator[str]:
    """A warning on one line if it fits, with a shortened path."""
    path = brief.rule.parent if brief.rule else None
    said = brief.said + (f" ({counted(times, 'time')})" if times > 1 else "")
    said += f" ({brief.rule.place})" if with_rule and brief.rule else ""
    room = style.width - len("warning: ") - wide(plain(f": {said}"))
    if path and room >= layout.LEAST_COLUMN:
        yield f"{style.yellow('warning:')} {layout.shortened(plain(path), room)}: {plain(said)}"
        return
    yield from marked("warning:", f"{path}: {said}" if path else said, style.yellow, style.width)


def refusals(summary: Summary, style: Style, *, each: bool, said: str = "refused") -> Iterator[str]:
    """The refused calls: each kind or, if there are many and `each` is not asked for, groups of kinds."""
    if len(summary.refusals) > MOST_ROWS and not each:
        yield from _groups(summary, style, said)
    elif summary.refusals:
        yield from heading(f"{said}, the most frequent first ({counted(len(summary.refusals), 'kind')})", style)
        rows = [_refusal_row(refusal, programs, summary) for refusal, programs in summary.by_frequency()]
        why = _why_column([lacks(refusal) for refusal in summary.refusals])
        columns = (_TIMES, Column("call"), Column("place", short=True), *_behind(summary), why)
        yield from table(columns, rows, style.width)


def _unsure(summary: Summary, style: Style, *, each: bool) -> Iterator[str]:
    """The calls that may be refused, with what is not known of each, and what it lacks in one case or another."""
    if not summary.unsure:
        return
    alike: dict[tuple[str, Subject, str], list[Refusal]] = {}
    for refusal in summary.unsure:
        alike.setdefault((refusal.call, refusal.subject, refusal.unknown or "-"), []).append(refusal)
    shown = list(alike.values()) if each else list(alike.values())[:MOST_ROWS]
    yield from heading(f"may be refused: what was there before is not known ({counted(len(alike), 'kind')})", style)
    columns = (_TIMES, Column("call"), Column("place", short=True), Column("not known", short=True),
               Column("lacks in one case", short=True))
    yield from table(columns, [_unsure_row(some, summary) for some in shown], style.width)
    if len(alike) > len(shown):
        yield f"  --all lists {counted(len(alike) - len(shown), 'more kind')}"


def _unsure_row(alike: Sequence[Refusal], summary: Summary) -> list[Cell]:
    """A kind of calls that may be refused, perhaps in several cases."""
    times = max(summary.unsure[refusal].total() for refusal in alike)
    place = _place(alike[0].subject)
    lacking = layout.lacks([lack for refusal in alike for lack in lacks(refusal)])
    return [words(f"{times:,}"), words(alike[0].call), place, words(alike[0].unknown or "-"), lacking]


def _behind(summary: Summary) -> tuple[Column, ...]:
    """The columns whose values most refused calls of an audit have in common."""
    where = (Column("recordings", short=True, less=True, once=True),) if summary.recordings else ()
    programs = sum(summary.refusals.values(), Counter[str]())
    named = layout.names(list(dict.fromkeys(os.path.basename(name) for name in _most(programs))), said="programs: ")
    program = Column("program", short=True, less=True, once=True, none=" or none yet", instead=named)
    return Column("error", once=True), Column("layers", once=True), *where, program


def _groups(summary: Summary, style: Style, said: str) -> Iterator[str]:
    """Refused calls of many kinds in groups."""
    groups = grouping.grouped(summary.refusals.items())
    shown = groups[:MOST_ROWS]
    title = f"{said}: {len(summary.refusals):,} kinds in {counted(len(groups), 'group')}"
    yield from heading(f"{title}, the earliest first, then the most frequent", style)
    columns = (_TIMES, _why_column([_lacking(group.lacking) for group in shown]), Column("where", short=True),
               *_behind(summary))
    yield from table(columns, [_group_row(group, summary) for group in shown], style.width)
    more = f"{counted(len(groups) - len(shown), 'more group')} and " if len(groups) > len(shown) else ""
    yield from (f"  {line}" for line in layout.folded(f"--all lists {more}each kind by itself", style.width - 2))


def _group_row(group: RefusedGroup, summary: Summary) -> list[Cell]:
    """A group: how many calls, what they lack and where, and what else they have in common."""
    lacking, programs = group.lacking, group.programs
    named = dict.fromkeys(name for kind in group.kinds for name in summary.recordings.get(kind.refusal, ()))
    where = (layout.names(list(named)),) if summary.recordings else ()
    return [words(f"{programs.total():,}"), layout.lacks(_lacking(lacking)), where_of(group),
            words(lacking.error), words(", ".join(lacking.layers) or "-"), *where, _programs(programs)]


def _lacking(lacking: Lacking) -> list[Lack]:
    """What the calls of a group lack."""
    return [Lack(lacked.words) for lacked in lacking.objections]


def _why_column(lacking: Sequence[Sequence[Lack]]) -> Column:
    """The column of what is lacking, which shows the rights before others show their paths."""
    return Column("why", short=True, least=min(_MOST_KEPT, max(wide(layout.bare(texts)) for texts in lacking)))


def where_of(group: RefusedGroup) -> Cell:
    """Where the calls of a group lack something: the one path, or how many below which directory."""
    spots, kinds = group.spots, group.kinds
    if len(kinds) == 1 and not group.directory:
        return _place(kinds[0].refusal.subject)
    if group.lacking.on_ports:
        ports = sorted(map(int, spots))
        return words(f"{len(ports):,} ports from {ports[0]} to {ports[-1]}")
    if not group.directory:
        return words(counted(len(kinds), "kind"))
    if group.others:
        return layout.parts([group.directory, *group.others], "; ")
    if len(spots) == 1:
        return layout.parts(spots, "")
    things = "files" if group.lacking.of_files else "directories"
    inside = all(directory_of(spot) == group.directory for spot in spots)
    return layout.behind(f"{len(spots):,} {things} {'in' if inside else 'under'} ", group.directory)


def _of_these(summary: Summary) -> str:
    """How many of the refused records are accepted, if any are."""
    accepted = summary.accepted.total()
    return f" ({accepted:,} accepted)" if accepted else ""


def _accepted(summary: Summary, style: Style) -> Iterator[str]:
    if summary.accepted:
        yield from heading(f"refused and accepted ({counted(len(summary.accepted), 'kind')})", style)
        rows = [[words(cell) for cell in (f"{times:,}", one.call, str(one.subject), one.reason)]
                for one, times in summary.accepted.most_common()]
        columns = (_TIMES, Column("call"), Column("place", short=True), Column("reason", short=True))
        yield from table(columns, rows, style.width)


def _refusal_row(refusal: Refusal, programs: Counter[str], summary: Summary) -> list[Cell]:
    layers = ", ".join(layer.name for layer in refusal.layers) or "-"
    where = (layout.names(summary.recordings[refusal]),) if summary.recordings else ()
    place = _place(refusal.subject)
    return [words(f"{programs.total():,}"), words(refusal.call), place, words(refusal.error), words(layers), *where,
            _programs(programs), layout.lacks(lacks(refusal))]


def lacks(refusal: Refusal) -> list[Lack]:
    """What the layers object to, of which paths may be left out since the row has the place."""
    if refusal.condition is not None:
        return [Lack((str(refusal.condition),))]
    by_layer = [(layer.name, [_lack(one, refusal.subject) for one in layer.objections]) for layer in refusal.layers]
    if all(found == by_layer[0][1] for _, found in by_layer):
        return by_layer[0][1]
    return [replace(one, words=(f"{name}: {one.words[0]}", *one.words[1:])) if index == 0 else one
            for name, found in by_layer for index, one in enumerate(found)]


def _lack(objection: Objection, subject: Subject) -> Lack:
    """What a layer objects to: the rights, and where they are lacking if that is not what the call is about."""
    match objection:
        case Missing(rights=rights, path=path) if subject.paths != (path,):
            return Lack(rights, " on ", path)
        case Missing(rights=rights) | Closed(rights=rights):
            return Lack(rights)
    return Lack((_objection(objection, subject),))


def why(refusal: Refusal) -> str:
    """The objections of the layers, once if they are the same for all; or the condition by which the calls fail."""
    if refusal.condition is not None:
        return str(refusal.condition)
    told = [(layer.name, _objections(layer, refusal.subject)) for layer in refusal.layers]
    if len({text for _, text in told}) == 1:
        return told[0][1]
    return "; ".join(f"{name}: {text}" for name, text in told)


def _objections(layer: RefusingLayer, subject: Subject) -> str:
    return "; ".join(_objection(one, subject) for one in layer.objections)


def _objection(objection: Objection, subject: Subject) -> str:
    """The objection of a layer, without the path that the row has."""
    match objection:
        case Missing(rights=rights, path=path) if subject.paths == (path,):
            return ", ".join(rights)
        case Closed(rights=rights):
            return ", ".join(rights)
        case Kept(rights=rights):
            return f"{', '.join(rights)} when it was opened"
    return str(objection)


def _moot(summary: Summary, style: Style) -> Iterator[str]:
    if not summary.moot:
        return
    yield from heading("not asked (moot), and why", style)
    found = sorted(summary.moot.items(), key=lambda item: -item[1].total())
    rows = [[words(f"{at.total():,}"), words(_in_words(unasked)), layout.names(_known(at))] for unasked, at in found]
    yield from table((_TIMES, Column("why"), Column("at", short=True)), rows, style.width)


def _in_words(unasked: Unasked) -> str:
    """Why Landlock is not asked, in a person's words."""
    said = _IN_WORDS.get(unasked.word)
    return f"it {unasked}" if said is None else said.format(error=unasked.error)


def _known(at: Counter[Subject]) -> list[str]:
    """The most frequent subjects, without the numbers of descriptors that no program had."""
    return [str(subject) for subject, _ in at.most_common() if not _is_made_up(subject)] or ["-"]


def _is_made_up(subject: Subject) -> bool:
    """Whether a call is about a descriptor that no program had."""
    number = subject.number
    return number is not None and number.of == "descriptor" and number.value >= FIRST_MADE_UP


def person(subject: Subject) -> str:
    """What a call is about, without the number of a descriptor that no program had."""
    return "a file of its own" if _is_made_up(subject) else str(subject)


def _place(subject: Subject) -> Cell:
    """What a call is about in a row, of which each path is shortened by itself."""
    return layout.parts(subject.paths or [person(subject)], ARROW if len(subject.paths) < 2 else subject.between)


def _programs(programs: Counter[str]) -> Cell:
    """The most frequent programs, by their names alone if there is little room; a process without one comes last."""
    return layout.names(sorted(_most(programs), key=lambda name: name == "-"), brief=os.path.basename)


def _most(counted: Counter[str] | Counter[Subject]) -> list[str]:
    """Names, the most frequent first."""
    return [str(name) for name, _ in counted.most_common()]


def names(counted: Counter[str] | Counter[Subject]) -> str:
    """The most frequent names, and how many are left."""
    return some_of(_most(counted))
