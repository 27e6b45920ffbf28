"""The processes of a trace: what the records say about them, and the layers that they have by records and answers."""

from __future__ import annotations

from dataclasses import dataclass, field, replace
from typing import Any

from ..common.jsonl import Record
from ..common.rights import Rights
from ..common.trees import ROOT
from .answers import Answer


@dataclass(frozen=True)
class RulesetLayer:
    """A ruleset, and the layer that it becomes: the rights for files that it handles."""

    handled_fs: Rights


@dataclass
class ProcessState:
    """What a process has at one record of the trace: its layers, the oldest first, and the rulesets that it holds."""

    domain: tuple[RulesetLayer, ...] = ()
    held: dict[int, RulesetLayer] = field(default_factory=dict)


def program_run(record: Record) -> str | None:
    """The program that a record runs: the path of an exec of the program itself that the kernel allowed."""
    if record.get("op") != "exec" or "role" in record or "otherwise" in record or record.get("kernel", "ok") != "ok":
        return None
    path = record.get("path")
    return path if isinstance(path, str) else None


def shown(record: Record, member: str) -> str | None:
    """The real path of a record, as a person knows it; None if the record has no such member."""
    instead = record.get({"path": "shown", "from": "shown", "to": "shown_to"}.get(member, ""))
    return instead if isinstance(instead, str) else record.get(member)


def shown_path(record: Record, path: str) -> str:
    """A path that landaudit names for a record (its own, or that of a directory above it), as a person knows it."""
    if "shown" not in record and "shown_to" not in record:
        return path
    for member in ("path", "from", "to"):
        text, real = record.get(member), shown(record, member)
        if isinstance(text, str) and real is not None and (text == path or text.startswith(path.rstrip("/") + "/")):
            names = real.split("/")
            behind = text.count("/") - path.rstrip("/").count("/")
            return "/".join(names[: len(names) - behind]) or ROOT
    return path


def of_policy(record: Record) -> dict[str, Any] | None:
    """The part of the tried policy that a record belongs to, None if it is the recording's own."""
    origin = record.get("policy")
    return origin if isinstance(origin, dict) else None


class Processes:
    """All processes of a trace, followed record by record."""

    def __init__(self) -> None:
        self._by_pid: dict[int, ProcessState] = {}

    def of(self, pid: int) -> ProcessState:
        """The process that a pid names now."""
        return self._by_pid[pid]

    def follow(self, record: Record, answer: Answer) -> None:
        """Follows a record: it changes its process if it is allowed."""
        pid = record["pid"]
        if record["op"] == "start":
            self._by_pid[pid] = ProcessState()
        elif answer.allowed:
            self._change(self._by_pid[pid], record)

    def _change(self, process: ProcessState, record: Record) -> None:
        match record["op"]:
            case "fork":
                self._by_pid[record["child"]] = replace(process, held=dict(process.held))
            case "exit":
                del self._by_pid[record["pid"]]
            case "create":
                process.held[record["rs"]] = RulesetLayer(frozenset(record.get("fs", ())))
            case "close_rs":
                del process.held[record["rs"]]
            case "restrict":
                process.domain = (*process.domain, process.held[record["rs"]])
