"""A distilled recording: each call that asks a policy something, once, with how often which programs made it.

It is a file of JSON Lines (docs/FORMATS.md, "Distilled recordings"), with a section for each recording, and in one
order, so that equal recordings have equal files and a diff shows what another run asks. Files join by adding up the
calls of equal sections; so the order in which files are joined does not matter.
"""

from __future__ import annotations

import hashlib
import json
import re
from collections import Counter
from collections.abc import Iterable, Iterator, Mapping
from dataclasses import dataclass, field
from pathlib import Path
from typing import Any, NamedTuple

from ..common import jsonl
from ..common.jsonl import Record
from ..common.operations import OPERATIONS
from ..common.problems import Problem

FORMAT = 1
#: The member of the first line, and how that line begins.
FIRST = "distilled"
_BEGINS = f'{{"{FIRST}":'.encode()
#: The most times that a file may say of a call: far more would be numbers that no JSON reader takes.
_MOST_TIMES = 10**15
#: How many letters of a hash tell processes that run one program apart.
_LETTERS = 8
#: Half of a pair of code units (surrogates): it stands for a byte of a name that is not UTF-8.
_LONE = re.compile("[\ud800-\udfff]")
_compact = json.JSONEncoder(ensure_ascii=False, separators=(",", ":")).encode
_escaped = json.JSONEncoder(separators=(",", ":")).encode


def text(value: Any) -> str:
    """A value as a line has it; a name that is not UTF-8 is written by escapes, from which it is read back."""
    written = _compact(value)
    return _escaped(value) if _LONE.search(written) else written


class DistilledProcess(NamedTuple):
    """A process as a policy sees it: the steps by which it got its layers and ran its programs, each as text.

    `starting` says that the recording starts it and that it has run no program yet.
    """

    steps: tuple[str, ...]
    starting: bool

    @property
    def name(self) -> str:
        """A name that stays the same in every file: its program, and letters of a hash of all that it is."""
        ran = [step["ran"] for step in map(json.loads, self.steps) if "ran" in step]
        program = ran[-1].rpartition("/")[2] if ran else "-"
        whole = json.dumps([self.steps, self.starting]).encode()
        return f"{program}:{hashlib.sha256(whole).hexdigest()[:_LETTERS]}"


class DistilledCall(NamedTuple):
    """A call of a process: its records as text, in a list."""

    records: str
    process: DistilledProcess


@dataclass
class DistilledSection:
    """What is kept of a recording, all lines as text, and how often each call was made.

    `facts` says what could not be recorded and on which machine, `lines` has the objects, the files that the run left
    behind, and the numbers of processes that are in names.
    """

    facts: str
    lines: set[str] = field(default_factory=set)
    calls: Counter[DistilledCall] = field(default_factory=Counter)

    @property
    def written(self) -> list[str]:
        """The lines of the section, without line feeds."""
        processes: dict[DistilledProcess, str] = {}
        for asked in self.calls:
            if asked.process not in processes:
                processes[asked.process] = asked.process.name
        by_call: dict[str, dict[str, int]] = {}
        for asked, times in self.calls.items():
            by_call.setdefault(asked.records, {})[processes[asked.process]] = times
        told = sorted(_process_line(name, process) for process, name in processes.items())
        asks = sorted(f'{{"asks":{records},"by":{text(dict(sorted(by.items())))}}}' for records, by in by_call.items())
        return [f'{{"recording":{self.facts}}}', *sorted(self.lines), *told, *asks]


def _process_line(name: str, process: DistilledProcess) -> str:
    starting = ',"starting":true' if process.starting else ""
    return f'{{"process":{text(name)},"steps":[{",".join(process.steps)}]{starting}}}'


def joined(sections: Iterable[DistilledSection]) -> list[DistilledSection]:
    """Sections in one order, of which those are one that differ in nothing but calls."""
    found: dict[tuple[str, frozenset[str]], DistilledSection] = {}
    for section in sections:
        key = (section.facts, frozenset(section.lines))
        one = found.setdefault(key, DistilledSection(section.facts, section.lines))
        one.calls.update(section.calls)
    return sorted(found.values(), key=lambda section: section.written)


def lines(sections: Iterable[DistilledSection]) -> Iterator[str]:
    """The lines of a file, without line feeds."""
    yield text({FIRST: FORMAT})
    for section in joined(sections):
        yield from section.written


def write(path: Path, sections: Iterable[DistilledSection]) -> None:
    """Writes a file."""
    whole = "".join(f"{line}\n" for line in lines(sections))
    path.write_text(whole, encoding="utf-8", newline="\n")


# ---- reading


def is_distilled(path: Path) -> bool:
    """Whether a path is a file that begins as a distilled recording does."""
    try:
        if not path.is_file():
            return False
        with open(path, "rb") as file:
            return file.read(len(_BEGINS)) == _BEGINS
    except OSError:
        return False


def read(path: Path) -> list[DistilledSection]:
    """The sections of a file; what is not a distilled recording is a Problem."""
    reading = _SectionReading()
    number = 0
    for number, line in jsonl.numbered(path):
        try:
            reading.take(number, line)
        except (KeyError, TypeError, ValueError, AttributeError, RecursionError) as error:
            raise Problem(f"{path} line {number} is not what landaudit-record distill writes: {error!r}") from error
    if not reading.sections:
        raise Problem(f"{path} has no recording")
    return reading.sections


class _SectionReading:
    """Reads lines."""

    def __init__(self) -> None:
        self.sections: list[DistilledSection] = []
        self._processes: dict[str, DistilledProcess] = {}

    def take(self, number: int, line: Record) -> None:
        """Reads a line."""
        if number == 1:
            if line[FIRST] != FORMAT:
                raise ValueError(f"it is of format {line[FIRST]}, and format {FORMAT} is known: use one version")
            return
        if "recording" in line:
            self.sections.append(DistilledSection(text(dict(line["recording"]))))
            self._processes = {}
            return
        if not self.sections:
            raise ValueError("a recording comes first")
        section = self.sections[-1]
        if "process" in line:
            steps = tuple(text(dict(step)) for step in line["steps"])
            self._processes[line["process"]] = DistilledProcess(steps, line.get("starting") is True)
        elif "asks" in line:
            records = text([dict(record) for record in line["asks"] if OPERATIONS[record["op"]]])
            if not line["asks"] or not line["by"]:
                raise ValueError("nobody asks")
            for name, times in dict(line["by"]).items():
                if type(times) is not int or not 1 <= times <= _MOST_TIMES:
                    raise ValueError("one of its numbers is no number of calls")
                section.calls[DistilledCall(records, self._processes[name])] += times
        else:
            section.lines.add(text(line))


def facts(section: DistilledSection) -> Mapping[str, Any]:
    """What a section says of its recording."""
    found: dict[str, Any] = json.loads(section.facts)
    return found
