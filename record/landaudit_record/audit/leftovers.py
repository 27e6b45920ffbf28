"""What a run leaves behind: files that it made by an open that truncates, and that the next run finds.

Such an open asks to make and write the file if it does not exist, and to truncate it if it does.
"""

from __future__ import annotations

from collections.abc import Iterable, Set
from functools import partial
from itertools import chain
from pathlib import Path

from ..common import apart, jsonl
from ..common.finished import Finished
from ..common.trace_lines import CREATES, heads, told
from ..common.trees import ROOT, upwards
from ..engine import landaudit
from ..engine.processes import shown

_GOES = heads({"unlink", "rename"})


def is_cut_again(record: jsonl.Record) -> bool:
    """Whether a record is an open that makes a file, and that cuts it if it is there."""
    return record["op"] == "open" and bool(record.get("cuts") or (record.get("create") and record.get("trunc")))


def of(recording: Finished) -> Set[str]:
    """The real paths of such files of a recording; a distilled one says them."""
    if recording.left is not None:
        return recording.left
    return cut_files([part.trace for part in recording.parts], min(landaudit.workers(), len(recording.parts)))


def cut_files(traces: Iterable[Path], most: int = 1) -> set[str]:
    """The real paths of files that a run makes by an open that truncates, and that exist when it ends.

    At most some processes read the traces at once.
    """
    there: set[str] = set()
    for op, path, to in chain.from_iterable(apart.each((partial(_changes, trace) for trace in traces), most)):
        match op:
            case "open":
                there.add(path)
            case "unlink":
                there.discard(path)
            case "rename":
                there -= {one for one in there if path in upwards(one)}
                there.discard(to)
    return there


def _changes(trace: Path) -> list[tuple[str, str, str]]:
    """What a trace does that makes such a file or takes it away: the operation, its path, and where that goes."""
    found = []
    for _, record in told(trace, _GOES, *CREATES):
        op = record.get("op")
        if record.get("kernel", "ok") != "ok" or "again" in record or op not in ("open", "unlink", "rename"):
            continue
        if op != "open" or is_cut_again(record):
            path = shown(record, "from" if op == "rename" else "path") or ROOT
            found.append((op, path, shown(record, "to") or ROOT))
    return found
