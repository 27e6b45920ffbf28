"""All answers to a recording, in however many parts it is, with or without a policy."""

from __future__ import annotations

import re
import tempfile
from collections.abc import Iterator
from pathlib import Path

from landaudit_record.audit import auditor
from landaudit_record.audit.auditor import Auditing
from landaudit_record.common import finished
from landaudit_record.common.finished import Finished
from landaudit_record.common.problems import Problem
from landaudit_record.common.progress import Progress
from landaudit_record.engine import landaudit, reports
from landaudit_record.policy.policies import Policy

ABIS = range(1, 6)
#: The numbers of lines in a report. In a path quotes have a backslash before them, so none is in a path.
_LINE = re.compile(rb'"(line|opened)":\d+')


def wanting() -> str | None:
    """Why landaudit can't answer here, if it can't."""
    try:
        landaudit.find(None)
    except Problem as problem:
        return str(problem)
    return None


def answers(
    folder: Path, policy: Policy | None = None, program: str | None = None, *, best_effort: bool = True
) -> list[bytes]:
    """What each record is answered at all ABIs and why, in the order of the trace, without the numbers of lines.

    Records that are written again are none of the recording's, nor is the policy that is put in with them.
    """
    recording = finished.opened(str(folder))
    tried = None if policy is None else auditor.tried(recording, policy, program)
    found: list[bytes] = []
    steps = [ABIS] if tried is None else tried.steps(ABIS, best_effort=best_effort)
    with tempfile.TemporaryDirectory() as name, Progress() as progress:
        auditing = Auditing(landaudit.find(None), recording, Path(name), best_effort, progress)
        for abis in steps:
            for files in auditing.judged(abis, tried):
                found += _answers(files.trace, files.report)
    return found


def _answers(trace: Path, report: Path) -> Iterator[bytes]:
    again = [b'"again":true' in line for line in trace.read_bytes().splitlines()]
    for number, line in zip(reports.numbers(report), report.read_bytes().split(b"\n")):
        if not again[number - 1]:
            yield _LINE.sub(rb'"\1"', line)


def parts(folder: Path) -> int:
    """In how many parts a recording is kept."""
    found: Finished = finished.opened(str(folder))
    return len(found.parts)
