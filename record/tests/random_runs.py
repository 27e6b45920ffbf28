"""Random recordings: processes that fork, open, duplicate and close descriptors, confine themselves and make calls."""

from __future__ import annotations

import random
from collections.abc import Iterator
from dataclasses import dataclass, field

from landaudit_record.common.jsonl import Record

from .random_calls import OPENED, Caller
from .random_policies import NAMES, Kinds

PROGRAM = "/program"
"""The program of each process that a recording starts; no random tree has it by itself."""

FIRST_PID = 10
MOST_PROCESSES = 4
DESCRIPTORS = range(3, 9)
MADE_UP = 1_000_001


@dataclass
class Run:
    """Makes the records of a recording, call by call. `first` are those before which a policy goes, by their place."""

    of: random.Random
    kinds: Kinds
    records: list[Record] = field(default_factory=list)
    first: dict[int, int] = field(default_factory=dict)
    open: dict[int, set[int]] = field(default_factory=dict)

    def __post_init__(self) -> None:
        self.kinds[PROGRAM] = "reg"
        self._caller = Caller(self.of, self.kinds)

    def made(self, count: int) -> Run:
        """The run with some more calls."""
        for _ in range(self.of.choice((1, 1, 1, 2))):
            self._start()
        for _ in range(count):
            pid = self.of.choice(list(self.open))
            for record in self._call(pid):
                self._add(pid, record)
        return self

    def _add(self, pid: int, record: Record) -> None:
        self.records.append({"call": len(self.records), "pid": pid, **record})

    def _start(self) -> None:
        pid = FIRST_PID + len(self.open)
        self.open[pid] = set()
        self._add(pid, {"op": "start"})
        self.first[len(self.records)] = pid
        call = len(self.records)
        self._add(pid, {"op": "open", "path": PROGRAM, "mode": "r", "fd": MADE_UP, "call": call})
        self._add(pid, {"op": "close", "fd": MADE_UP, "call": call})
        self._add(pid, {"op": "exec", "path": PROGRAM, "call": call})

    def _call(self, pid: int) -> Iterator[Record]:
        often = ("open",) * 6 + ("path",) * 10 + ("use",) * 6 + ("close",) * 2
        match self.of.choice((*often, "dup", "dup", "fork", "own")):
            case "open":
                yield from self._open(pid)
            case "path":
                call = self._caller.call(0)
                if call is not None and not any("fd" in record for record in call.records):
                    yield from call.records
            case "use":
                fd = self.of.choice(list(DESCRIPTORS))
                yield self.of.choice(({"op": "ftruncate", "fd": fd}, {"op": "ioctl", "fd": fd, "driver": True}))
            case "close":
                yield from self._closed(pid)
            case "dup" if self.open[pid]:
                fd, to = self.of.choice(sorted(self.open[pid])), self.of.choice(list(DESCRIPTORS))
                self.open[pid].add(to)
                yield {"op": "dup", "fd": fd, "to": to}
            case "fork" if len(self.open) < MOST_PROCESSES:
                child = FIRST_PID + len(self.open)
                self.open[child] = set(self.open[pid])
                yield {"op": "fork", "child": child}
            case "own" if self.of.random() < 0.2:
                yield from self._own_layer()

    def _open(self, pid: int) -> Iterator[Record]:
        """An opening of a file that is there, or of a new one, by a number that is free."""
        free = sorted(set(DESCRIPTORS) - self.open[pid])
        path = self.of.choice([path for path, kind in self.kinds.items() if kind in OPENED])
        made = self.of.random() < 0.2
        record: Record = {"op": "open", "path": self._caller.new() if made else path,
                          "mode": self.of.choice(("r", "w", "rw", "rw")), **({"create": True} if made else {})}
        if free:
            self.open[pid].add(free[0])
            yield {**record, "fd": free[0]}

    def _closed(self, pid: int) -> Iterator[Record]:
        for fd in self.of.sample(sorted(self.open[pid]), k=min(2, len(self.open[pid]))):
            self.open[pid].discard(fd)
            yield {"op": "close", "fd": fd}

    def _own_layer(self) -> Iterator[Record]:
        """A layer that a process puts on itself."""
        handled = ["read_file", "write_file", "make_reg"]
        yield {"op": "create", "rs": 1, "fs": self.of.sample(handled, k=2), "net": []}
        yield {"op": "add_path", "rs": 1, "path": f"/{self.of.choice(NAMES)}", "fs": self.of.sample(handled, k=1)}
        yield {"op": "restrict", "rs": 1}
        yield {"op": "close_rs", "rs": 1}
