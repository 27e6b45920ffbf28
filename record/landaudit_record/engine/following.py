"""The state of processes while an audit reads a trace: the program, the layers, and numbers that are not open."""

from __future__ import annotations


from ..common.jsonl import Record
from ..common.trace_lines import FIRST_MADE_UP
from .processes import of_policy, program_run

NOWHERE: frozenset[int] = frozenset()
#: Says in the `policy` of a `restrict` that it is in the place of one of the run.
IN_RUN = "in_run"


class Followed:
    """All processes of a trace, followed record by record.

    `pids` are all processes; `watched` is how many numbers are not open under some ABI because their opening was not
    allowed, and may be opened again; `confines` says whether a process asked for a layer.
    """

    def __init__(self) -> None:
        self.pids: set[int] = set()
        self.watched = 0
        self.confines = False
        self._programs: dict[int, str | None] = {}
        self._missed: dict[int, dict[int, frozenset[int]]] = {}
        self._policies: dict[int, int | None] = {}
        self._confined: set[int] = set()

    def program(self, pid: int) -> str | None:
        """What a process runs, None before its first program."""
        return self._programs.get(pid)

    def confined(self, pid: int) -> bool:
        """Whether a process had a layer in the run."""
        return pid in self._confined

    def policy_of(self, line: int) -> int | None:
        """The number in the tried policy of the layer that the `restrict` on a line made; None if it is no policy's."""
        return self._policies.get(line)

    def misses(self, pid: int) -> bool:
        """Whether a process has numbers that are not open because their opening was not allowed."""
        return pid in self._missed

    def missed(self, pid: int, fd: int) -> frozenset[int]:
        """The ABIs under which a number of a process would be open had its opening been allowed."""
        of_process = self._missed.get(pid)
        return NOWHERE if of_process is None else of_process.get(fd, NOWHERE)

    def follow(self, line: int, record: Record, not_allowed: frozenset[int]) -> None:
        """Follows the record on a line; `not_allowed` are the ABIs under which it is refused or moot."""
        pid = record["pid"]
        match record["op"]:
            case "start":
                self.pids.add(pid)
                self._programs[pid] = None
                self._confined.discard(pid)
            case "fork":
                self.fork(pid, record["child"])
            case "exit":
                self.end(pid)
            case "exec":
                self._programs[pid] = program_run(record) or self._programs.get(pid)
            case "create":
                self.confines = True
            case "restrict":
                self.confines = True
                origin = of_policy(record)
                self._policies[line] = (origin or {}).get("layer")
                self._confined.update({pid} if origin is None or IN_RUN in origin else ())
            case "open":
                self.miss(pid, record["fd"], not_allowed)
            case "dup":
                self.miss(pid, record["to"], self.missed(pid, record["fd"]))
            case "close" | "adopt":
                self.miss(pid, record["fd"], NOWHERE)
        if "ran" in record:
            self._programs[record.get("child", pid)] = record["ran"][-1]["path"]

    def run(self, pid: int, program: str) -> None:
        """A process runs a program."""
        self._programs[pid] = program

    def fork(self, pid: int, child: int) -> None:
        """A child has what its parent has."""
        self.pids.add(child)
        self._programs[child] = self._programs.get(pid)
        self._confined.discard(child)
        self._confined.update({child} if pid in self._confined else ())
        for fd, abis in self._missed.get(pid, {}).items():
            if _may_be_opened(fd):
                self.miss(child, fd, abis)

    def end(self, pid: int) -> None:
        """A process ends."""
        self._programs.pop(pid, None)
        self.watched -= sum(map(_may_be_opened, self._missed.pop(pid, ())))

    def miss(self, pid: int, fd: int, abis: frozenset[int]) -> None:
        """Stores the ABIs under which a number is not open because its opening was not allowed."""
        missed = self._missed.get(pid)
        if abis:
            if missed is None:
                missed = self._missed[pid] = {}
            self.watched += fd not in missed and _may_be_opened(fd)
            missed[fd] = abis
        elif missed is not None and missed.pop(fd, NOWHERE):
            self.watched -= _may_be_opened(fd)
            if not missed:
                del self._missed[pid]


def _may_be_opened(fd: int) -> bool:
    """Whether a number may be opened again: those that a recorder makes up for one call never are."""
    return fd < FIRST_MADE_UP
