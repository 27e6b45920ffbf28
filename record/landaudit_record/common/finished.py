"""A finished recording: the files of its folder, and what its conversion says about itself.

A recording is kept in parts, each with a tree and a trace that landaudit reads without the others. A recording of one
part has `tree.jsonl` and `trace.jsonl`; others have `tree-1.jsonl`, `trace-1.jsonl`, `tree-2.jsonl` and so on.
"""

from __future__ import annotations

import json
import os
from collections import Counter
from collections.abc import Iterator
from dataclasses import asdict, dataclass, field
from pathlib import Path
from typing import Any

from . import jsonl
from .problems import Problem
from .reach import SIGNAL
from .trace_lines import heads, told
from .wording import counted, some_of

CONVERTED = "converted.json"
FORMAT = 1
#: The files that each part has; the last two are those of the last audit.
OF_A_PART = ("tree", "trace", "tried", "report")
#: Kinds of calls that not every recording has: those that only look at an object, that read links, that send signals.
LOOKING, READING_LINKS, SIGNALS = "looks", "readlink", "signals"
_OLDER = (LOOKING, READING_LINKS, SIGNALS)
#: The signals that descriptors send (F_SETOWN), which a witness does not hear.
OWNERS = "owners"
#: The calls whose process or socket is known that they reach, by `reaching`.
REACH = "reach.jsonl"
#: The class of a layer that a conversion can't write into the trace.
FOREIGN_RULESET = "a layer of a ruleset that came from elsewhere"
#: The class of what a ruleset has beside rights; its `create` has the names, unless it has nothing else.
OF_SCOPES = "scopes of a ruleset"
#: The classes of rulesets that a trace does not have, as of those that it does not have whole.
NOT_DECODED = " (strace before 6.7 does not decode it: see --port-rules)"
BESIDE_FILES = "what a ruleset handles beside files" + NOT_DECODED
_OF_RULESETS = frozenset({FOREIGN_RULESET, OF_SCOPES, BESIDE_FILES})
#: The files that `landaudit-record run` writes and from which a recording can be converted.
RECORDED = ("recording.json", "strace.txt", "strace.txt.gz")


@dataclass(frozen=True)
class Size:
    """The size of a part: its records, those of them that only repeat what there was, its objects, its bytes."""

    records: int
    again: int
    objects: int
    bytes: int


@dataclass(frozen=True)
class Converted:
    """What a finished conversion says about itself.

    `unsaid` counts by class the calls that could not be written, `holes` those of them that the kernel may refuse by a
    policy and that an audit can't foresee, `scopes` those that it may refuse if the policy has the scope.
    `ended` says that the tracer ended by itself; `untraced` has the kinds of calls that the log does not have;
    `too_large` are the directories that hold too many objects to be listed before the run.
    """

    parts: tuple[Size, ...]
    processes: int
    objects: int
    unsaid: Counter[str] = field(default_factory=Counter)
    holes: Counter[str] = field(default_factory=Counter)
    scopes: Counter[str] = field(default_factory=Counter)
    ended: bool = True
    untraced: tuple[str, ...] = ()
    too_large: tuple[str, ...] = ()

    @property
    def records(self) -> int:
        """The number of records in all parts, except those that are written again."""
        return sum(part.records - part.again for part in self.parts)

    def write(self, folder: Path) -> None:
        """Marks the conversion in a folder as complete; the file appears in one step."""
        names = ("processes", "objects", "unsaid", "holes", "scopes", "ended", "untraced", "too_large")
        said = {name: getattr(self, name) for name in names}
        parts = [asdict(part) for part in self.parts]
        beside = folder / f"{CONVERTED}.new"
        with open(beside, "w", encoding="utf-8") as out:
            json.dump({"format": FORMAT, "records": self.records, **said, "parts": parts}, out, indent=2)
            out.write("\n")
            out.flush()
            os.fsync(out.fileno())
        beside.replace(folder / CONVERTED)


@dataclass(frozen=True)
class Part:
    """A part of a recording: where its files are; `again` is how many of its first records are written again."""

    folder: Path
    number: int | None = None
    again: int = 0

    @property
    def tree(self) -> Path:
        """The objects that the run met."""
        return self._file("tree")

    @property
    def trace(self) -> Path:
        """The calls, as they were recorded."""
        return self._file("trace")

    @property
    def tried(self) -> Path:
        """The trace with a policy's records in it, if a policy was tried."""
        return self._file("tried")

    @property
    def report(self) -> Path:
        """landaudit's answers of the last audit."""
        return self._file("report")

    def _file(self, name: str) -> Path:
        return self.folder / (f"{name}.jsonl" if self.number is None else f"{name}-{self.number}.jsonl")


def files_of_parts(folder: Path) -> Iterator[Path]:
    """All files of parts in a folder."""
    for name in OF_A_PART:
        yield from folder.glob(f"{name}.jsonl")
        yield from folder.glob(f"{name}-[0-9]*.jsonl")


def numbered(folder: Path, parts: int) -> list[Part]:
    """The parts of a recording by their number."""
    return [Part(folder)] if parts == 1 else [Part(folder, number) for number in range(1, parts + 1)]


@dataclass(frozen=True)
class Finished:
    """The folder of a recording with all its parts.

    Of the policy that is tried on it, `scoped` has the scopes, and `unknown` the parents for which it is not known
    where they led on the machine that recorded, and `moved` those at which another object may be when a named program
    begins. `mixed` counts moves under layers with and without rights for files.
    Of a distilled recording, `left` has the files that the run left
    behind, and `scratch` stands for its folder as long as that is needed.
    """

    folder: Path
    parts: tuple[Part, ...]
    unsaid: Counter[str]
    holes: Counter[str]
    ended: bool
    scopes: Counter[str] = field(default_factory=Counter)
    untraced: tuple[str, ...] = ()
    scoped: tuple[str, ...] = ()
    unknown: tuple[str, ...] = ()
    moved: tuple[str, ...] = ()
    mixed: int = 0
    too_large: tuple[str, ...] = ()
    left: frozenset[str] | None = None
    scratch: object | None = None

    @property
    def is_distilled(self) -> bool:
        """Whether a record stands for as many calls as it says."""
        return self.scratch is not None

    @property
    def missing(self) -> list[str]:
        """What an audit of the recording can't judge, a text for each cause; with one, no audit has status 0."""
        told: list[str] = []
        if self.holes:
            calls = ", ".join(f"{name} ({times})" for name, times in self.holes.most_common())
            number = counted(self.holes.total(), "call")
            told.append(f"{number} that a policy may refuse could not be recorded: {calls}")
        told.extend(self._of_scopes())
        if self.unknown:
            parents = f"{counted(len(self.unknown), 'parent')} of the policy led on the machine that recorded"
            told.append(f"it is not known where {parents}, so no rule is put there: {some_of(self.unknown)}")
        if self.moved:
            parents = f"{counted(len(self.moved), 'parent')} of the policy"
            told.append(f"another object may be at {parents} when the program begins, and the rules are on those that "
                        f"were there when the run began: {some_of(self.moved)}")
        if self.mixed:
            moves = counted(self.mixed, "move")
            told.append(f"{moves} to another directory may fail with EXDEV: one layer of a process "
                        "handles rights for files, and another layer handles none")
        if not self.ended:
            told.append("the recording is cut: the log stops before the command's end, so record it again")
        return told

    def has_layers(self) -> bool:
        """Whether a process of the recording restricts itself, also by a layer that the trace does not have."""
        told_of = (record for part in self.parts for _, record in told(part.trace, heads({"restrict"})))
        return not _OF_RULESETS.isdisjoint(self.holes) or any(record.get("op") == "restrict" for record in told_of)

    def _of_scopes(self) -> Iterator[str]:
        """The calls that the policy's scopes may refuse and of which it is not known whom they reach."""
        for scope in self.scoped:
            if SIGNALS in self.untraced or scope in self.untraced:
                yield f"scoped = {scope}: calls that it may refuse were not traced, so record it again"
            elif scope == SIGNAL and OWNERS in self.untraced:
                yield f"scoped = {scope}: signals of descriptors (F_SETOWN) were not heard, so record it by strace"
            elif self.scopes[scope]:
                calls = counted(self.scopes[scope], "call")
                yield f"{calls} that scoped = {scope} may refuse can't be judged: the target is not known"

    @property
    def notes(self) -> Iterator[str]:
        """The notes on each audit: directories that were not listed, and the kinds of calls that were not traced and
        that a layer may refuse.
        """
        for directory in self.too_large:
            yield f"{directory} holds too many objects to be listed before the run: what was there is known in part"
        if LOOKING in self.untraced:
            yield "calls that only look (stat, readlink) into other processes are not recorded: record it again"
        elif READING_LINKS in self.untraced:
            yield "readlink(2) into other processes is not recorded (run --readlink)"


def opened(folder: str) -> Finished:
    """The recording in a folder; if the folder has none, or an incomplete one, that is a Problem."""
    path = Path(folder)
    converted = _converted(path)
    if converted is None:
        return _by_hand(path)
    parts = [Part(part.folder, part.number, size.again)
             for part, size in zip(numbered(path, len(converted.parts)), converted.parts)]
    for part, size in zip(parts, converted.parts):
        if not part.tree.is_file() or not part.trace.is_file() or part.trace.stat().st_size != size.bytes:
            raise Problem(f"{part.trace} is missing or has changed since the conversion: {_mending(path)}")
    said = (converted.unsaid, converted.holes, converted.ended, converted.scopes, converted.untraced)
    return Finished(path, tuple(parts), *said, too_large=converted.too_large)


def _mending(path: Path) -> str:
    return f"run landaudit-record convert {path}"


def _converted(folder: Path) -> Converted | None:
    """What a conversion says about itself in a folder, None if it says nothing."""
    file = folder / CONVERTED
    try:
        said: dict[str, Any] = json.loads(file.read_text(encoding="utf-8"))
        if said.pop("format") != FORMAT:
            raise Problem(f"{file} is of another version of landaudit-record: {_mending(folder)}")
        parts = tuple(Size(**size) for size in said["parts"])
        counts = (Counter(said["unsaid"]), Counter(said["holes"]), Counter(said.get("scopes", {})))
        untraced = tuple(said.get("untraced", _OLDER))
        about = (said["ended"], untraced, tuple(said.get("too_large", ())))
        return Converted(parts, said["processes"], said["objects"], *counts, *about)
    except (FileNotFoundError, NotADirectoryError):
        return None
    except OSError as error:
        raise Problem(f"cannot read {file}: {error.strerror}") from error
    except (ValueError, TypeError, KeyError, AttributeError) as error:
        raise Problem(f"{file} is not what a conversion writes: {_mending(folder)}") from error


def _by_hand(path: Path) -> Finished:
    """A tree and a trace that no conversion wrote; if there is a log beside them, a conversion did not finish."""
    part = Part(path)
    if any((path / name).is_file() for name in RECORDED):
        raise Problem(f"{path} was not converted to the end: {_mending(path)}")
    for file in (part.tree, part.trace):
        if not file.is_file():
            if path.exists():
                raise Problem(f"{path} has no {file.name}: name a folder that 'landaudit-record run' made")
            raise Problem(f"{path} does not exist: record it first with landaudit-record run {path} -- COMMAND")
    unsaid, holes = _unsaid(path / "unsaid.jsonl")
    return Finished(path, (part,), unsaid, holes, True)


def _unsaid(path: Path) -> tuple[Counter[str], Counter[str]]:
    """The calls that could not be written, by class, and which of them are holes; nothing if there is no list."""
    unsaid: Counter[str] = Counter()
    holes: Counter[str] = Counter()
    for _, entry in jsonl.numbered(path) if path.exists() else ():
        if "scope" in entry or "reach" in entry:
            continue
        unsaid[str(entry.get("class"))] += 1
        holes[str(entry.get("class"))] += entry.get("asks") is True
    return unsaid, +holes
