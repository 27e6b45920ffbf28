"""What a bare recording foretold of the refusals that the same program met under a policy.

A refusal is a call, its place and its error, counted once however often it occurs. Everything is read from
`landaudit-record audit --json`: what the bare recording foretells is what its audit with the policy refuses, and what
was met is what the audit of the recording under the policy refuses, put right by what `compare` found to differ.
Which calls a run made at all is what policies that deny everything refuse of it.
"""

from __future__ import annotations

import json
import re
import shutil
import subprocess
import sys
import tempfile
from collections.abc import Iterable, Iterator, Sequence
from dataclasses import dataclass
from pathlib import Path
from typing import Any, NamedTuple

from landaudit_record.audit.comparing import OK
from landaudit_record.common import finished, jsonl
from landaudit_record.common.operations import RULESET_CALLS, call_text
from landaudit_record.common.problems import NOT_ALL_JUDGED

HERE = Path(__file__).resolve().parent
RECORDER = HERE.parent / "landaudit-record"
DENYING = (HERE / "denying" / "all.toml", HERE / "denying" / "descriptors.toml")
"""Policies that deny everything. What is asked of a descriptor is denied by itself: a denied open has none."""

ENDED = (0, 1, NOT_ALL_JUDGED)
"""The statuses of an audit that came to its end: nothing refused, something refused, not all judged."""

_NUMBER = re.compile(r"[0-9]+")
_WORD = re.compile(r"[A-Za-z0-9_]{6,}")


class Asked(NamedTuple):
    """A call in words, as `open rw create`, and its place."""

    call: str
    place: str


class Refusal(NamedTuple):
    """A call that was refused, and its error."""

    asked: Asked
    error: str


@dataclass(frozen=True)
class Foretold:
    """The refusals that were met, and how they compare with those that the bare recording foretold.

    `may_be` are those of which its audit said that they may be refused. `behind` were met by calls that the bare run never made: something else was refused before them. `missed` were met
    by calls that the bare run made too, and that its audit lets pass. `false_alarms` were foretold of calls that the
    run under the policy made, and that the kernel let pass.
    """

    met: frozenset[Refusal]
    foretold: frozenset[Refusal]
    may_be: frozenset[Refusal]
    behind: frozenset[Refusal]
    missed: frozenset[Refusal]
    false_alarms: frozenset[Refusal]

    @property
    def is_wrong(self) -> bool:
        """Whether a refusal was missed, or foretold of what passes."""
        return bool(self.missed or self.false_alarms)


def details(told: Foretold) -> Iterator[str]:
    """A line for each refusal that was missed, or foretold of what passes."""
    for word, refusals in (("missed", told.missed), ("false alarm", told.false_alarms)):
        for asked, error in sorted(refusals):
            yield f"{word}: {asked.call} {asked.place} {error}"


def compared(bare: Path, confined: Path, policy: Path, abi: int) -> Foretold:
    """Compares the audit of a bare recording with what the run under the policy met."""
    audit = _audit(bare, policy, abi)
    said, may_be = _refusals(audit), _refusals(audit, "may_be_refused")
    met = _met(confined, abi)
    others = met - said - may_be
    made_bare = _made(bare, abi)
    missed = frozenset(refusal for refusal in others if refusal.asked in made_bare)
    made_confined = _made_under_layers(confined, abi)
    let_pass = made_confined - {refusal.asked for refusal in met}
    return Foretold(
        met=met,
        foretold=met & said,
        may_be=met & may_be - said,
        behind=others - missed,
        missed=missed,
        false_alarms=frozenset(refusal for refusal in said - met if refusal.asked in let_pass),
    )


def alike(place: str) -> str:
    """A place without what differs from run to run: numbers, and names that are made up as mkstemp(3) does."""
    return _NUMBER.sub("N", _WORD.sub(lambda word: "X" if _is_made_up(word[0]) else word[0], place))


def _is_made_up(word: str) -> bool:
    """Whether a word mixes small and capital letters, or letters and digits."""
    return sum(any(map(test, word)) for test in (str.islower, str.isupper, str.isdigit)) > 1


def _audit(recording: Path, policy: Path | None, abi: int) -> dict[str, Any]:
    """What an audit at one ABI says, as data. One that could not judge all says whole what it judged."""
    words = [sys.executable, str(RECORDER), "audit", str(recording), "--abi", str(abi), "--json"]
    words += [] if policy is None else ["--policy", str(policy)]
    run = subprocess.run(words, capture_output=True, text=True, check=False)
    if run.returncode not in ENDED:
        raise RuntimeError(f"{' '.join(words)}: {run.stderr.strip()}")
    found: dict[str, Any] = json.loads(run.stdout)
    return found


def _refusals(audit: dict[str, Any], named: str = "refusals") -> frozenset[Refusal]:
    """The refusals by layers of an audit, or the calls of which it says that they may be refused."""
    return frozenset(
        Refusal(Asked(one["call"], alike(one["place"])), one["error"])
        for one in audit[named]
        if one["layers"] or named != "refusals"
    )


def _made(recording: Path, abi: int) -> frozenset[Asked]:
    """The calls that a run made and that a policy can refuse."""
    audits = (_audit(recording, policy, abi) for policy in DENYING)
    return frozenset(refusal.asked for audit in audits for refusal in _refusals(audit))


def _made_under_layers(recording: Path, abi: int) -> frozenset[Asked]:
    """The calls that a run made under a layer: those of a sandboxer before its own restrict always pass."""
    made: frozenset[Asked] = frozenset()
    with tempfile.TemporaryDirectory() as scratch:
        for part in finished.opened(str(recording)).parts:
            folder = Path(scratch, str(part.number))
            folder.mkdir()
            shutil.copy(part.tree, folder / "tree.jsonl")
            jsonl.write(folder / "trace.jsonl", under_layers(record for _, record in jsonl.numbered(part.trace)))
            made |= _made(folder, abi)
    return made


def under_layers(records: Iterable[jsonl.Record]) -> Iterator[jsonl.Record]:
    """A trace without the calls of processes that have no layer, but for the programs before which a policy is put."""
    confined: set[int] = set()
    starting: set[int] = set()
    for record in records:
        op, pid = record["op"], record["pid"]
        first = op == "exec" and pid in starting and "role" not in record
        if pid in confined or "kernel" not in record or op in RULESET_CALLS or first:
            yield record
        if op == "start":
            starting.add(pid)
        elif op == "fork" and pid in confined:
            confined.add(record["child"])
        elif op == "exit":
            confined.discard(pid)
        elif op == "restrict" and record.get("kernel", OK) == OK:
            confined.add(pid)
        if first:
            starting.discard(pid)


def _met(confined: Path, abi: int) -> frozenset[Refusal]:
    """The refusals that a kernel gave: those of the audit, and of the calls that differ what the kernel answered."""
    met = set(_refusals(_audit(confined, None, abi)))
    for difference in _differences(confined):
        asked = Asked(call_text(difference["records"][-1]), alike(difference["place"]))
        if difference["landaudit"] == "refused":
            met = {refusal for refusal in met if refusal.asked != asked}
        elif difference["kernel"] in ("EACCES", "EXDEV"):
            met.add(Refusal(asked, difference["kernel"]))
    return frozenset(met)


def _differences(confined: Path) -> Sequence[dict[str, Any]]:
    """What `compare` wrote of a recording's differences."""
    file = confined / "differences.jsonl"
    return [json.loads(line) for line in file.read_text(encoding="utf-8").splitlines()] if file.exists() else []
