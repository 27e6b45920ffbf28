"""Audits a recording, part by part, as it is or with a policy that is tried on it."""

from __future__ import annotations

import errno
import os
import tempfile
from collections import deque
from collections.abc import Callable, Iterable, Iterator
from contextlib import contextmanager
from dataclasses import dataclass, field, replace
from functools import cached_property, partial
from pathlib import Path
from typing import NamedTuple, TypeVar

from ..common import apart, jsonl, trees
from ..common.finished import Finished, Part
from ..common.jsonl import Record
from ..common.progress import Progress
from ..common.rights import FILE_RIGHTS, FS, steps
from ..common.trees import ROOT, Tree, upwards
from ..common.wording import span
from ..engine import landaudit
from ..engine.reading import Walk
from ..policy import applying, fitting, parents
from ..policy.applying import Plan
from ..policy.policies import Policy
from . import cutting, surroundings

Result = TypeVar("Result")
#: The characters of a shell pattern.
GLOB = "*?["
#: The errors by which the kernel says that nothing can be made in a folder.
_READ_ONLY = (errno.EACCES, errno.EPERM, errno.EROFS)


def _at_once(recording: Finished) -> int:
    """How many processes work on the parts of a recording, and how many landaudits."""
    return min(landaudit.workers(), len(recording.parts))


def tree_of(recording: Finished) -> Tree:
    """All objects of a recording, whichever parts have them."""
    return trees.read(*(part.tree for part in recording.parts), beside=surroundings.of(recording.folder))


class Files(NamedTuple):
    """What landaudit reads, and where it writes its report."""

    tree: Path
    trace: Path
    report: Path


@dataclass(frozen=True)
class TriedPolicy:
    """A policy on a recording: the program before which it goes, its places in each part, and the tree of the whole."""

    recording: Finished
    policy: Policy
    program: str | None
    tree: Tree
    places: list[Plan]

    def steps(self, abis: range, *, best_effort: bool) -> list[range]:
        """The ABIs of a range in steps, the oldest first: each step is judged with the traces of its newest ABI."""
        return steps(abis, partial(self._are_judged_together, best_effort=best_effort))

    def _are_judged_together(self, older: int, newer: int, *, best_effort: bool) -> bool:
        """Whether the calls for a newer ABI stand for those for an older one."""
        if best_effort:
            return fitting.stands_for(self.policy, newer, older, scopes=self._scopes)
        return self.inserted(self.policy, older) == self.inserted(self.policy, newer)

    @property
    def _scopes(self) -> bool:
        """Whether one of the ABIs has scopes, and the policy too."""
        return bool(self.recording.scoped)

    def write(self, policy: Policy, abi: int, number: int, into: Part) -> Iterator[Files]:
        """Writes a part with a policy at an ABI, and yields the tree and the trace to judge.

        If there would be more records than landaudit reads, the part is cut into pieces, one after another.
        """
        part, places, inserted = self.recording.parts[number], self.places[number], self.inserted(policy, abi)
        tree = part.tree
        if len(self.recording.parts) > 1:
            tree = into.tree
            write_tree(part.tree, self.tree, inserted, tree)
        if places.records(inserted) <= applying.MOST_RECORDS:
            _write_trace(part.trace, places, inserted, into.tried)
            yield Files(tree, into.tried, into.report)
            return
        weights = {line: 1 + len(inserted) for line in places.before}
        for piece in cutting.cut(part.trace, into.folder, weights):
            again = applying.places(piece, self.tree, self.program)
            _write_trace(piece, again, inserted, piece.with_suffix(".tried"))
            yield Files(tree, piece.with_suffix(".tried"), piece.with_suffix(".report"))

    def inserted(self, policy: Policy, abi: int) -> list[Record]:
        """The policy's records at an ABI."""
        layers, _ = fitting.fit(policy, abi, scopes=self._scopes)
        return applying.records(policy, layers, self.tree, max(places.rs for places in self.places), self._there)

    @cached_property
    def _there(self) -> frozenset[str]:
        """What the run makes before the program begins."""
        in_order = self.program is not None and not self.recording.is_distilled
        return applying.made_before(self.tree, self.places) if in_order else frozenset()


def _write_trace(trace: Path, places: Plan, inserted: list[Record], tried: Path) -> None:
    with open(tried, "wb") as out:
        applying.write(trace, places, inserted, out)


def write_tree(part: Path, tree: Tree, inserted: Iterable[Record], out: Path) -> None:
    """Writes the tree of a part with the objects of rules, which may not occur in the part."""
    paths = (record["path"] for record in inserted if record.get("path") in tree.kinds)
    missing = {over: None for path in paths for over in reversed(list(upwards(path))) if over != ROOT}
    for path in trees.paths(part) if missing else ():
        missing.pop(path, None)
    with open(part, "rb") as lines, open(out, "wb") as written:
        written.writelines(line if line.endswith(b"\n") else line + b"\n" for line in lines)
        written.writelines(jsonl.line_bytes({"path": path, "kind": tree.kinds[path]}) for path in missing)


def tried(recording: Finished, policy: Policy, program: str | None) -> TriedPolicy:
    """A policy on a recording, before the first program of each process that it starts or before each run of one."""
    tree = tree_of(recording)
    places = applying.plans([part.trace for part in recording.parts], tree, program, _at_once(recording))
    moved = applying.moved(policy, tree, places, in_order=not recording.is_distilled)
    known = replace(recording, unknown=applying.not_known(policy, tree), moved=moved)
    return TriedPolicy(known, policy, program, tree, places)


@contextmanager
def folder_for(recording: Finished, name: str) -> Iterator[tuple[Path, bool]]:
    """A folder to work in, which is removed afterwards, and whether its files can be kept in the recording's folder."""
    try:
        made = tempfile.TemporaryDirectory(prefix=f"{name}-", dir=recording.folder)
    except OSError as error:
        if error.errno not in _READ_ONLY:
            raise
        with tempfile.TemporaryDirectory(prefix=f"landaudit-{name}-") as elsewhere:
            yield Path(elsewhere), False
        return
    with made as folder:
        yield Path(folder), True


@dataclass
class Auditing:
    """The audit of a recording: with which landaudit, in which folder, and whether at best effort.

    `progress` shows how far it is; `stays` says that the folder's files can be kept in the recording's; `status` is 1
    once an ABI has refused a record.
    """

    program: Path
    recording: Finished
    folder: Path
    best_effort: bool
    progress: Progress
    stays: bool = True
    status: int = 0
    _runs: deque[tuple[landaudit.Run, Files]] = field(default_factory=deque, init=False)

    def walk(self, files: Files, abis: range, *, only_refused: bool = False) -> Walk:
        """A walk over the answers of some ABIs that `judged` has given."""
        return Walk(files.trace, files.report, abis, self.progress, only_refused=only_refused,
                    weighted=self.recording.is_distilled)

    def read(self, judged: Iterable[Files], reading: Callable[[Files], Result]) -> Iterator[Result]:
        """Reads all files that were judged. Parts are read by processes of their own, while landaudit judges the next
        ones.
        """
        return apart.each((partial(reading, files) for files in judged), _at_once(self.recording))

    def judged(
        self,
        abis: range,
        tried: TriedPolicy | None,
        policy: Policy | None = None,
        *,
        explain: bool = True,
        only_refused: bool = False,
    ) -> Iterator[Files]:
        """Judges each part at some ABIs, and gives its files. landaudit judges the next ones meanwhile.

        If a policy is tried, `policy` is one with other rules to try instead. With `only_refused` the report has only
        the refused records.
        """
        most = _at_once(self.recording)
        try:
            for own, files in self._files(abis, tried, policy):
                ready = [self._judged()] if len(self._runs) == most else []
                run = landaudit.start(self.program, abis, *files, best_effort=self.best_effort, explain=explain,
                                      only_refused=only_refused, at_once=most)
                self._runs.append((run, files))
                yield from ready
                self.progress.say(f"judging at ABI {span(abis)}{self._of_all(own)}")
            while self._runs:
                yield self._judged()
        finally:
            self.stop()

    def _files(self, abis: range, tried: TriedPolicy | None, policy: Policy | None) -> Iterator[tuple[Part, Files]]:
        """What is to be judged of each part."""
        for number, own in enumerate(self.recording.parts):
            part = Part(self.folder, own.number)
            if tried is None:
                yield own, Files(own.tree, own.trace, part.report)
            else:
                for files in tried.write(policy or tried.policy, abis[-1], number, part):
                    yield own, files

    def _judged(self) -> Files:
        """The files that were judged first, once landaudit is done with them."""
        run, files = self._runs[0]
        self.status |= run.status()
        self._runs.popleft()
        return files

    def stop(self) -> None:
        """Ends what landaudit still does."""
        while self._runs:
            self._runs.popleft()[0].stop()

    def _of_all(self, part: Part) -> str:
        return "" if part.number is None else f", part {part.number} of {len(self.recording.parts)}"

    def keep(self) -> None:
        """Puts the last tried traces and reports into the recording's folder, if that can be written."""
        for own in self.recording.parts if self.stays else ():
            files = Part(self.folder, own.number)
            for made, place in ((files.tried, own.tried), (files.report, own.report)):
                if made.exists():
                    made.replace(place)


def notes(tried: TriedPolicy, abis: range, *, here: bool = False) -> Iterator[str]:
    """Notes on rules that may be read in another way, and on the rights that the ABIs do not have.

    For the newest ABI there is each note; for the older ones, only which of them have notes. With `here`, paths that do
    not occur in the recording are looked up on this machine.
    """
    yield from _notes_on_rules(tried.policy, tried.tree, here=here)
    older = [abi for abi in abis[:-1] if fitting.fit(tried.policy, abi)[1]]
    if len(older) == 1:
        yield f"ABI {older[0]} lacks rights of the policy: --abi {older[0]} says which"
    elif older:
        several = span(range(older[0], older[-1] + 1))
        yield f"ABI {several} lack rights of the policy: --abi N says which rights ABI N lacks"
    yield from fitting.fit(tried.policy, abis[-1])[1]


def _notes_on_rules(policy: Policy, tree: Tree, *, here: bool) -> Iterator[str]:
    """Rules that the kernel may read in another way than the author."""
    for parent in parents.each(policy, tree):
        yield from applying.notes_on_way(parent)
        named = FS.ordered(parent.rule.allowed_access.outright - FILE_RIGHTS)
        if parent.led.is_sure and tree.kind(parent.led.path) is None:
            yield from _notes_on_absent(parent.place, parent.written, named, here=here)


def _notes_on_absent(where: str, parent: str, named: list[str], *, here: bool) -> Iterator[str]:
    """Notes on a rule on a path that does not occur in the recording."""
    if any(letter in parent for letter in GLOB):
        yield f"{where}: Landlock has no patterns: name the directory, or each file"
    elif named and here:
        if os.path.exists(parent) and not os.path.isdir(parent):
            yield f"{where}: not a directory on this machine, so the kernel refuses {', '.join(named)} with EINVAL"
    elif named:
        yield (f"{where}: not in the tree, so it may not be a directory: then the kernel refuses {', '.join(named)} "
               "with EINVAL")
