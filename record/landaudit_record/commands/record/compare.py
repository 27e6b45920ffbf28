"""Compares landaudit's answers with what the kernel did, in a recording that was made under a policy."""

from __future__ import annotations

import argparse
import json
import os
import tempfile
from dataclasses import replace
from pathlib import Path

from ...audit import comparing, comparing_text
from ...audit.auditor import Auditing, Files
from ...audit.comparing import Classes, Tally
from ...audit.kernel_calls import judged_calls
from ...common import finished, jsonl, trees
from ...common.finished import Finished
from ...common.operations import RULESET_CALLS
from ...common.options import add_abi, add_landaudit, note
from ...common.problems import WANTING, Problem
from ...common.progress import Progress
from ...common.rights import alone
from ...common.trace_lines import heads, told
from ...common.wording import plain
from ...engine import landaudit
from ...engine.reading import judged
from ...recorder import witness

NAME = "compare"
HELP = "compare landaudit's answers with the kernel's, for a program that ran under Landlock"
EXAMPLE = """landaudit-record run rec --policy policy.toml -- sort /etc/passwd
  landaudit-record compare rec"""


def add_arguments(parser: argparse.ArgumentParser) -> None:
    """Adds the arguments of the subcommand."""
    parser.add_argument("recording", metavar="OUT", help="the folder of a recording that was made under a policy")
    add_abi(
        parser, "if the recording names a newer right, its 'create' fails with EINVAL and makes no layer"
    )
    parser.add_argument("--json", action="store_true", help="print the result as JSON")
    parser.add_argument("--differences", metavar="FILE", type=Path, help="write each difference to FILE, as JSON Lines")
    add_landaudit(parser)


def run(arguments: argparse.Namespace) -> int:
    """Prints what agrees and what differs; the status is 1 if a difference is of no known class."""
    program = landaudit.find(arguments.landaudit)
    recording = finished.opened(arguments.recording)
    tally = Tally()
    if _has_rulesets(recording):
        with tempfile.TemporaryDirectory() as folder, Progress() as progress:
            auditing = Auditing(program, recording, Path(folder), False, progress)
            tally = _compared(auditing, arguments.abi, arguments.differences or Path(os.devnull))
    note(f"NOT ALL IS JUDGED: {text}" for text in recording.missing)
    if not tally.calls:
        raise Problem(f"{recording.folder} has no call under a layer: record a program that confines itself", WANTING)
    if arguments.json:
        print(json.dumps(comparing_text.as_data(tally, arguments.abi), indent=2))
    else:
        for line in comparing_text.lines(tally, f"{arguments.recording} at ABI {arguments.abi}"):
            print(plain(line))
    return 1 if tally.unnamed else 0


def _has_rulesets(recording: Finished) -> bool:
    """Whether a process made a ruleset: else it had no layer, and there is nothing to compare."""
    told_of = (record for part in recording.parts for _, record in told(part.trace, heads(RULESET_CALLS)))
    return any(record.get("op") in RULESET_CALLS for record in told_of)


def _compared(auditing: Auditing, abi: int, differences: Path) -> Tally:
    """Compares the calls of each part by a process of its own, and writes those that differ to a file."""
    recording = auditing.recording
    classes = Classes(trees.read(*(part.tree for part in recording.parts)), abi, _stat_of)
    own = witness.own_answers(recording.folder)

    def of_part(files: Files) -> tuple[Tally, Path]:
        found, differ = Tally(), files.report.with_suffix(".differ")
        calls = judged_calls(judged(files.trace, files.report, abi), abi)
        known = (replace(call, own=own[call.number]) if call.number in own else call for call in calls)
        jsonl.write(differ, map(comparing_text.difference_data, comparing.compare(known, classes, found)))
        files.report.unlink()
        return found, differ

    tally = Tally()
    with open(differences, "wb") as out:
        for found, differ in auditing.read(auditing.judged(alone(abi), None, explain=False), of_part):
            tally.add(found)
            out.write(differ.read_bytes())
            differ.unlink()
    return tally


def _stat_of(path: str) -> os.stat_result | None:
    """What is at a path on this machine now."""
    try:
        return os.stat(path)
    except OSError:
        return None
