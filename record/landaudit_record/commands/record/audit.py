"""Audits finished recordings, with a policy or without, and sums them up: at one ABI, or at each of a range."""

from __future__ import annotations

import argparse
import sys
from collections.abc import Iterator, Sequence
from dataclasses import replace
from pathlib import Path
from typing import Any

from ...audit import accepting, by_abi, reaching, together
from ...audit.auditor import Auditing, TriedPolicy
from ...audit.summary import Accepted, Summaries, Summary, as_data
from ...audit.together import Member
from ...common import json_text, layout, options, variables
from ...common.options import add_abis, add_as_recorded, add_landaudit, add_program, add_recordings, note
from ...common.problems import NOT_ALL_JUDGED, USAGE, Problem
from ...common.rights import ABI_OF_SCOPES, LATEST_ABI, NEWEST_ABI, OLDEST_ABI, judged
from ...engine import landaudit
from ...engine.answers import Scoped, Tracing
from ...engine.reading import Counted
from ...policy import fitting, policies
from ...summaries import page, reporting, summary_text, tree_text
from ...summaries.reporting import JSON, TEXT
from ...summaries.reporting.audited import Audited
from ...summaries.reporting.audited import report as audited_report
from ...summaries.summary_text import SummaryExtras

NAME = "audit"
#: All that an audit makes stays, and is in no cycle: Python does not look for any.
MORE_OBJECTS = 0
#: The version of what --json prints: docs/audit.schema.json describes it, docs/CI.md says when it changes.
FORMAT = 1
HELP = "say what a policy would refuse or, without a policy, what the program's own layers refuse"
EXAMPLE = """landaudit-record audit rec --policy policy.toml --abi 4
  landaudit-record audit rec again --policy policy.toml"""


def add_arguments(parser: argparse.ArgumentParser) -> None:
    """Adds the arguments of the subcommand."""
    add_recordings(parser)
    parser.add_argument(
        "--policy",
        metavar="POLICY.toml",
        help="a policy to try on the recording; OUT/tried.jsonl is then the trace under it (how to write a policy: "
        "landaudit-record apply --help)",
    )
    parser.add_argument(
        "--accepted",
        metavar="FILE.toml",
        type=Path,
        help="refusals that you know and accept: [[accepted]] with call, path (or from and to, or port) and reason; "
        "the file of the policy may also have them",
    )
    variables.add_set(parser)
    add_program(parser)
    add_abis(parser)
    add_as_recorded(parser)
    parser.add_argument(
        "--tree", action="store_true", help="show the refused calls as a tree of their places, in place of tables"
    )
    parser.add_argument(
        "--all",
        action="store_true",
        help=f"show each kind of refused call, even if there are more than {summary_text.MOST_ROWS} kinds, and each "
        "rule that the run never used",
    )
    reporting.add_format(parser)
    parser.add_argument(
        "--html", metavar="FILE", type=Path, help="also write the result to FILE, as a page for a browser"
    )
    add_landaudit(parser)


#: The summaries of an audit by ABI, the oldest first, each recording by itself.
Each = Sequence[tuple[Member, list[Summary]]]


def run(arguments: argparse.Namespace) -> int:
    """Writes OUT/report.jsonl of each recording, and prints the summary of all.

    The status is 1 if an ABI refuses a record, else 5 if an ABI may refuse one, or if not everything that a policy may
    refuse could be judged.
    """
    if arguments.tree and arguments.format != TEXT:
        raise Problem("--tree draws in text: leave out --format and --json", USAGE)
    program = landaudit.find(arguments.landaudit)
    given = variables.given(arguments)
    policy = None if arguments.policy is None else policies.read(Path(arguments.policy), given)
    accepted = [*(accepting.read(policy.path, given, only=False) if policy else ()),
                *(accepting.read(arguments.accepted, given) if arguments.accepted else ())]
    given.check_used()
    if policy is not None and policy.scoped and arguments.abis is options.ALL:
        arguments.abis = range(OLDEST_ABI, LATEST_ABI + 1)
    members = together.opened(arguments.recordings, policy, arguments.program, arguments.abis)
    if policy is None and not arguments.as_recorded:
        _check_layers(members)
    notes = together.policy_notes(members, arguments.abis, here=arguments.format == TEXT)
    notes += together.recording_notes(members)
    if policy is not None and policy.scoped and arguments.abis[-1] < ABI_OF_SCOPES:
        notes.append(f"ABI {arguments.abis[-1]} does not know the policy's scopes: dropped")
    with together.audits(members, program, NAME, best_effort=not arguments.as_recorded) as audits:
        each = [(it, _summaries(it, auditing, arguments.abis)) for it, auditing in zip(members, audits)]
        for auditing in audits:
            auditing.keep()
    notes += (f"{auditing.recording.folder} can't be written: the report and the tried trace are not kept"
              for auditing in audits if not auditing.stays)
    no_longer = list(accepting.set_apart(accepted, [summary for _, summaries in each for summary in summaries]))
    notes += (f"accepted, but no longer refused: {one} ({one.reason})" for one in no_longer)
    summaries = [together.united(list(zip(members, of_abi))) for of_abi in zip(*(found for _, found in each))]
    _print(each, summaries, arguments, notes, no_longer)
    if arguments.html is not None:
        _write_page(arguments, members, summaries)
    return _status(each)


def _status(each: Each) -> int:
    """The status by what was found in some recordings."""
    if any(summary.others_refused for _, found in each for summary in found):
        return 1
    unsure = any(summary.unsure for _, found in each for summary in found)
    return NOT_ALL_JUDGED if unsure or any(member.recording.missing for member, _ in each) else 0


def _check_layers(members: Sequence[Member]) -> None:
    """Checks that a program puts a layer on itself."""
    if not any(member.recording.has_layers() for member in members):
        named = ", ".join(member.name for member in members)
        raise Problem(f"{named}: no program puts a layer on itself, so nothing can be refused: give a policy to try with "
                      "--policy, or give --as-recorded", USAGE)


def _write_page(arguments: argparse.Namespace, members: Sequence[Member], summaries: list[Summary]) -> None:
    """Writes the result as a page."""
    suggesting = _suggesting(arguments, summaries[-1].abi) if arguments.policy else []
    about = page.Title(", ".join(arguments.recordings), arguments.policy, arguments.as_recorded, suggesting,
                       page.recorded.facts({member.name: member.recording.folder for member in members}))
    parts = [part for member in members for part in member.recording.parts]
    page.write(arguments.html, about, summaries, parts, together.tried_of(members))


def _summaries(member: Member, auditing: Auditing, abis: range) -> list[Summary]:
    """Audits one recording. landaudit runs once for all ABIs that are judged with one trace; the newest comes last."""
    tried, asked = member.tried, judged(abis)
    if tried is not None and abis[0] <= NEWEST_ABI < abis[-1] and fitting.refer_by_scopes(tried.policy):
        older = replace(member, tried=replace(tried, recording=replace(tried.recording, scoped=())))
        return [*_summaries(older, auditing, range(abis[0], NEWEST_ABI + 1)),
                *_summaries(member, auditing, range(NEWEST_ABI + 1, abis[-1] + 1))]
    steps = [asked] if tried is None else tried.steps(asked, best_effort=auditing.best_effort)
    found = Summaries(asked, tried=tried is not None)
    for step in steps:
        found.take(_by_part(auditing, tried, step), step)
    done = found.done(member.recording.unsaid, member.recording.missing, list(member.recording.notes))
    summaries = by_abi.of_range(done, abis)
    reaching.tell(summaries, member.recording, tried, best_effort=auditing.best_effort)
    return summaries


def _by_part(auditing: Auditing, tried: TriedPolicy | None, step: range) -> Iterator[Counted]:
    """What some of the ABIs answer to each part."""
    return auditing.read(auditing.judged(step, tried), lambda files: auditing.walk(files, step).counted())


def _print(
    each: Each, summaries: list[Summary], arguments: argparse.Namespace, notes: list[str], no_longer: Sequence[Accepted]
) -> None:
    """Prints the result; in a format for programs, with the notes on standard error."""
    if arguments.format == TEXT:
        for line in _lines(each, summaries, arguments, notes):
            print(layout.encodable(line, sys.stdout))
        return
    note(notes)
    if arguments.format == JSON:
        sys.stdout.writelines(json_text.pieces(_data(each, summaries, arguments), most=landaudit.workers()))
        print()
        return
    suggesting = _suggesting(arguments, summaries[-1].abi) if arguments.policy else []
    tried = together.tried_of([member for member, _ in each])
    audited = Audited(arguments.recordings, tried, summaries, no_longer, suggesting)
    reporting.show(audited_report(audited), arguments.format)


def _lines(
    each: Each, summaries: list[Summary], arguments: argparse.Namespace, notes: list[str]
) -> Iterator[str]:
    """The summary of the newest ABI, and what changes from ABI to ABI."""
    newest, steps = summaries[-1], by_abi.steps(summaries)
    under = f" under {arguments.policy}" if arguments.policy else ""
    style = summary_text.Style.of(sys.stdout)
    title = f"{', '.join(arguments.recordings)}{under} at ABI {newest.abi}"
    of_policy = (layer for refusal in newest.refusals for layer in refusal.layers if layer.policy)
    may_help = any(not isinstance(one, (Scoped, Tracing)) for layer in of_policy for one in layer.objections)
    suggesting = _suggesting(arguments, newest.abi) if may_help else []
    tree = tree_text.lines if arguments.tree else None
    yield from summary_text.lines(newest, title, style, SummaryExtras(notes, suggesting, arguments.all, tree))
    if len(each) > 1:
        yield from summary_text.by_recording([(member.name, found[-1]) for member, found in each], style)
    if len(steps) > 1:
        yield from summary_text.by_abi(steps, style)
    yield from summary_text.ending(newest, style)


def _data(each: Each, summaries: list[Summary], arguments: argparse.Namespace) -> dict[str, Any]:
    """The summary as data; of several recordings that of all together, and that of each in `recordings`."""
    about: dict[str, Any] = {key: getattr(arguments, key) for key in ("policy", "as_recorded")}
    alone: list[dict[str, Any]] = [
        {"format": FORMAT, "recording": member.name, **about, **_data_of([(member, found)], found)}
        for member, found in each
    ]
    return alone[0] if len(each) == 1 else {"format": FORMAT, **about, **_data_of(each, summaries), "recordings": alone}


def _data_of(each: Each, summaries: list[Summary]) -> dict[str, Any]:
    """The status, the data about the newest ABI, and the changes from ABI to ABI."""
    changes = by_abi.as_data(by_abi.steps(summaries))
    return {"status": _status(each), **as_data(summaries[-1]), "abis": changes}


def _suggesting(arguments: argparse.Namespace, abi: int) -> list[str]:
    """The command that suggests rules for what this audit found at the newest ABI."""
    words = ["landaudit-record", "suggest", *arguments.recordings, "--policy", arguments.policy]
    words += ["--program", arguments.program] if arguments.program else []
    words += [word for name, value in arguments.set for word in ("--set", f"{name}={value}")]
    words += ["--abi", str(abi)] if abi != NEWEST_ABI else []
    return words + (["--as-recorded"] if arguments.as_recorded else [])
