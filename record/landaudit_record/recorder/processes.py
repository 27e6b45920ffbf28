"""The processes of a run: threads, descriptor tables, working directories."""

from __future__ import annotations

from dataclasses import dataclass, field

from ..common.trace_lines import FIRST_MADE_UP
from .modes import NOBODY_KNOWN, User
from .names import Node

#: What stands for a ruleset that the trace does not have, in a descriptor and in the layers of a process.
UNSEEN = -1


@dataclass(slots=True)
class Handle:
    """What is known about an open descriptor of a process.

    `node` is the object that it is open on, if that has a path and is known. `in_trace` says whether a record opened
    or adopted it; `adopted` is the kind with which it is adopted when it is first needed; `ruleset` is the
    number that the trace has for the Landlock ruleset that it is, or UNSEEN; `tcp` is the family of a TCP socket.
    `foreign` says that the process did not open it, so nobody knows what Landlock kept with it; `placeless` says that
    it is in a mount that has no place in the tree, `unsure` that nothing says whether it is open on a device, `letters`
    that it is a UNIX socket for datagrams, `socket` which UNIX socket it is. `terminal` is the path of the terminal of
    which it is the master, if that was asked for.
    """

    path: str | None = None
    node: Node | None = None
    in_trace: bool = False
    adopted: str = "other"
    close_on_exec: bool = False
    ruleset: int | None = None
    tcp: int | None = None
    foreign: bool = False
    placeless: bool = False
    unsure: bool = False
    letters: bool = False
    terminal: str | None = None
    socket: str | None = None

    def copy(self) -> Handle:
        """The same for another number or process; a fork copies all, and `dataclasses.replace` takes long."""
        return Handle(
            self.path,
            self.node,
            self.in_trace,
            self.adopted,
            self.close_on_exec,
            self.ruleset,
            self.tcp,
            self.foreign,
            self.placeless,
            self.unsure,
            self.letters,
            self.terminal,
            self.socket,
        )

    def duplicate(self, *, close_on_exec: bool) -> Handle:
        """A copy that has a flag of its own (dup(2))."""
        copy = self.copy()
        copy.close_on_exec = close_on_exec
        return copy


@dataclass(slots=True)
class Directories:
    """Root and working directory, shared by the threads of a process.

    `since` is the line of the log on which a thread last came to the working directory; `unsure` says that another
    thread may have gone elsewhere at the same time.
    """

    root: str
    directory: str
    since: int = 0
    unsure: bool = False

    def copy(self) -> Directories:
        """The same for a process of its own."""
        return Directories(self.root, self.directory, self.since, self.unsure)


@dataclass(slots=True, eq=False)
class Process:
    """A process as a trace has it: the threads that share a table of descriptors and a domain.

    `confined` says whether it has a layer, or may have one; `restricted` are the rulesets of its restrictions; `maker`
    is the process that forked it; `threaded` says whether it has or had several threads, `looks` whether it is
    counted as one that looks at others in /proc; `unseen_layer` says that it has a layer of which nothing is known;
    `image` is the object that `program` was when it was run.
    """

    pid: int
    program: str = ""
    image: Node | None = None
    confined: bool = False
    table: dict[int, Handle] = field(default_factory=dict)
    threads: set[int] = field(default_factory=set)
    restricted: list[int] = field(default_factory=list)
    next_made_up: int = FIRST_MADE_UP
    maker: Process | None = None
    threaded: bool = False
    looks: bool = False
    unseen_layer: bool = False

    def holds(self, ruleset: int) -> bool:
        """Whether a descriptor of the process is the ruleset that the trace has under a number."""
        return any(handle.ruleset == ruleset for handle in self.table.values())

    def made_up(self) -> int:
        """A number that no descriptor of the process has during the call: its record is closed at once."""
        while self.next_made_up in self.table:
            self.next_made_up += 1
        self.next_made_up += 1
        return self.next_made_up - 1


@dataclass(slots=True, eq=False)
class Thread:
    """A thread: its process, its directories, and how many layers it has put on itself or inherited.

    `forked` is the child that its last call made, if that was a fork; `user` is as whom it asks for files.
    """

    tid: int
    process: Process
    directories: Directories
    layers: int = 0
    forked: int | None = None
    user: User = NOBODY_KNOWN
