"""Several recordings under one policy: each is audited by itself, and the results are added up."""

from __future__ import annotations

from collections.abc import Callable, Iterator, Sequence
from contextlib import ExitStack, contextmanager
from dataclasses import dataclass, replace
from pathlib import Path
from typing import TypeVar

from ..common import trees
from ..common.finished import Finished
from ..common.options import note
from ..common.problems import NOT_ALL_JUDGED, USAGE, Problem
from ..common.progress import Progress
from ..common.rights import ABI_OF_SCOPES, LATEST_ABI, OLDEST_ABI
from ..common.trees import Tree
from ..engine.reading import Walk
from ..policy.policies import Policy
from . import auditor, expanding, mixing
from .auditor import Auditing, Files, TriedPolicy
from .summary import Summary
from .warnings import RuleUnused

Result = TypeVar("Result")
ALL_KNOWN = range(OLDEST_ABI, LATEST_ABI + 1)


@dataclass(frozen=True)
class Member:
    """One of the recordings, with the name that it was given, and the policy on it if one is tried."""

    name: str
    recording: Finished
    tried: TriedPolicy | None

    @property
    def tree(self) -> Tree:
        """All objects of the recording."""
        return auditor.tree_of(self.recording) if self.tried is None else self.tried.tree

    @property
    def of_several(self) -> list[str]:
        """What an audit of the recording can't judge, with its name."""
        return [f"{self.name}: {text}" for text in self.recording.missing]


def opened(
    names: Sequence[str], policy: Policy | None = None, program: str | None = None, abis: range = ALL_KNOWN
) -> list[Member]:
    """The recordings in some folders and distilled files, each with the policy; one that is named twice is a Problem.

    What its scopes may refuse is missing in an audit if the newest ABI has scopes.
    """
    folders: dict[Path, str] = {}
    for name in names:
        first = folders.setdefault(Path(name).resolve(), name)
        if first is not name:
            raise Problem(f"{name} is named twice: name each recording once", USAGE)
    members = []
    scoped = policy.scoped if policy and abis[-1] >= ABI_OF_SCOPES else ()
    for name, found in (one for name in names for one in expanding.opened(name)):
        recording = replace(found, scoped=scoped)
        tried = None if policy is None else auditor.tried(recording, policy, program)
        mixed = mixing.moves(found, tried, abis)
        members.append(Member(name, replace(recording if tried is None else tried.recording, mixed=mixed), tried))
    return members


def unknown(members: Sequence[Member]) -> frozenset[str]:
    """The parents of the policy for which it is not known where they led when one of the recordings was made, or what is
    at them when a named program begins."""
    return frozenset(it for member in members for it in (*member.recording.unknown, *member.recording.moved))


def status(members: Sequence[Member]) -> int:
    """The status of what was done: 0, unless it is not known where parents of the policy led."""
    return NOT_ALL_JUDGED if unknown(members) else 0


def tried_of(members: Sequence[Member]) -> TriedPolicy | None:
    """The policy as it is tried, over the objects of all recordings."""
    tried = [member.tried for member in members if member.tried is not None]
    return replace(tried[0], tree=trees.united(one.tree for one in tried)) if tried else None


def note_missing(members: Sequence[Member]) -> None:
    """Prints what no audit of the recordings can judge."""
    alone = len(members) == 1
    note(f"NOT ALL IS JUDGED: {text}" for it in members for text in (it.recording.missing if alone else it.of_several))


def recording_notes(members: Sequence[Member]) -> list[str]:
    """The notes on an audit of the recordings, each text once."""
    return list(dict.fromkeys(text for member in members for text in member.recording.notes))


def policy_notes(members: Sequence[Member], abis: range, *, here: bool = False) -> list[str]:
    """Notes on parts of the policy that are not judged or that the ABIs do not have.

    A path that does not occur in a recording is noted only if it occurs in none; with `here`, this machine is searched
    for it.
    """
    notes = [list(auditor.notes(member.tried, abis, here=here)) for member in members if member.tried is not None]
    return [text for text in (notes[0] if notes else ()) if all(text in others for others in notes)]


@contextmanager
def audits(members: Sequence[Member], program: Path, name: str, *, best_effort: bool) -> Iterator[list[Auditing]]:
    """The audit of each recording, in a folder that the subcommand of this name has for it."""
    with ExitStack() as stack:
        progress = stack.enter_context(Progress())
        made = [(it.recording, *stack.enter_context(auditor.folder_for(it.recording, name))) for it in members]
        found = [Auditing(program, recording, folder, best_effort, progress, stays) for recording, folder, stays in made]
        for auditing in found:
            stack.callback(auditing.stop)
        yield found


def read(
    members: Sequence[Member], audits: Sequence[Auditing], abis: range, policy: Policy,
    reading: Callable[[int, Walk], Result],
) -> Iterator[Result]:
    """Reads what is refused in all parts of all recordings under a policy: walks, each with the recording's index."""
    for index, (member, auditing) in enumerate(zip(members, audits)):

        def of_part(files: Files, index: int = index, auditing: Auditing = auditing) -> Result:
            return reading(index, auditing.walk(files, abis, only_refused=True))

        yield from auditing.read(auditing.judged(abis, member.tried, policy, only_refused=True), of_part)


def united(each: Sequence[tuple[Member, Summary]]) -> Summary:
    """The summary of several recordings at one ABI, which knows in which of them each kind of refused call occurs.

    A rule is reported as untouched only if no recording touched it.
    """
    if len(each) == 1:
        return each[0][1]
    found = Summary(each[0][1].abi)
    for member, one in each:
        _add(found, member.name, one)
    found.warnings = {
        warning: times for warning, times in found.warnings.items()
        if not isinstance(warning, RuleUnused) or all(warning in one.warnings for _, one in each)
    }
    found.missing = tuple(text for member, _ in each for text in member.of_several)
    found.untraced = tuple(recording_notes([member for member, _ in each]))
    return found


def _add(found: Summary, name: str, one: Summary) -> None:
    """Adds the summary of one recording."""
    found.add(one)
    for refusal in (*one.refusals, *one.unsure):
        found.recordings.setdefault(refusal, []).append(name)
