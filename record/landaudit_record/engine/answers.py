"""What landaudit answers to a record, and why, as values: docs/FORMATS.md, "The report as JSON".

The text of each value is that of "Explanations" there, with paths as they are.
"""

from __future__ import annotations

from collections.abc import Mapping
from dataclasses import asdict, dataclass, field
from typing import Any

from ..common.problems import Problem
from ..common.trees import ROOT
from .subjects import NOTHING, Number, Subject

ALLOWED, MOOT, REFUSED = "allowed", "moot", "refused"
#: The answer to a call that may be refused: nobody knows what was there before it. landaudit does not give it.
UNSURE = "unsure"
#: The words by which landaudit says that a rule or a ruleset is left out at an ABI that has none of its rights.
_LEFT_OUT = frozenset({"unsupported", "unenforced"})
#: The word of a reason by which a descriptor is not open, and its text behind the descriptor.
UNOPENED, NOT_OPEN = "unopened", "is not open"


@dataclass(frozen=True)
class Missing:
    """Rights that a call asks on a path, and that the layer handles and does not grant there."""

    rights: tuple[str, ...]
    path: str

    def __str__(self) -> str:
        return f"{', '.join(self.rights)} on {self.path}"


@dataclass(frozen=True)
class Closed:
    """Rights that a call asks on a TCP port, and that the layer handles and does not grant there."""

    rights: tuple[str, ...]
    port: int

    def __str__(self) -> str:
        return f"{', '.join(self.rights)} on port {self.port}"


@dataclass(frozen=True)
class Gained:
    """Rights that an object would have in the directory that it moves to, and does not have where it is."""

    path: str
    rights: tuple[str, ...]
    directory: str

    def __str__(self) -> str:
        return f"{self.path} would gain {', '.join(self.rights)} in {self.directory}"


@dataclass(frozen=True)
class Mounting:
    """The layer handles rights for files, so it forbids every change of the mounts, whatever its rules are."""

    def __str__(self) -> str:
        return "it handles rights for files"


@dataclass(frozen=True)
class Kept:
    """A right that was missing on a file when it was opened, by the record on the line `opened` of the trace.

    Two that differ only in this line are equal.
    """

    rights: tuple[str]
    path: str
    opened: int = field(compare=False)

    def __str__(self) -> str:
        return f"{self.rights[0]} on {self.path}, opened at line {self.opened}"


@dataclass(frozen=True)
class Scoped:
    """The layer has a scope, and a process or socket that a call is about is outside of it."""

    scope: str
    whom: str

    def __str__(self) -> str:
        return f"scope {self.scope}: {self.whom} is outside"


@dataclass(frozen=True)
class Tracing:
    """A process is not under the layer, so that those that are may not trace it or look into it."""

    whom: str

    def __str__(self) -> str:
        return f"ptrace: {self.whom} is not under the layer"


@dataclass(frozen=True)
class Unplaced:
    """Rights on an object whose path is not known; `said` stands in its place."""

    rights: tuple[str, ...]
    said: str

    def __str__(self) -> str:
        return f"{', '.join(self.rights)} on {self.said}"


#: The last three are only in a kernel's log.
Objection = Missing | Closed | Gained | Mounting | Kept | Scoped | Tracing | Unplaced


def as_data(objection: Objection) -> dict[str, Any]:
    """An objection as data for programs: its text, and what it is made of."""
    return {"text": str(objection), **vars(objection)}


@dataclass(frozen=True)
class Refusing:
    """A layer that refuses a record. If landaudit was asked why, `line` is the line of the `restrict` that made it, and
    `objections` are all that it has. Of counted records, `policy` is its number in the tried policy in place of the
    line, None if it is no policy's.
    """

    layer: int
    line: int | None = None
    objections: tuple[Objection, ...] = ()
    policy: int | None = None


#: The text of a condition by its word, with the members that the word has.
CONDITIONS: Mapping[str, str] = {
    "unknown": "ABI {abi} does not know {rights}",
    "portless": "ABI {abi} has no rules for ports",
    "rightless": "no right is named",
    "unheld": "ruleset {rs} is not held",
    "unhandled": "the ruleset does not handle {rights}",
    "unhandled_on_ports": "the ruleset does not handle {rights}",
    "only_for_directories": "{path} is not a directory, and only directories have {rights}",
    "no_port": "port {port} is above 65535",
    "unprivileged": "the process has neither no_new_privs nor CAP_SYS_ADMIN",
    "full": "the process has 16 layers already",
}


@dataclass(frozen=True)
class Condition:
    """The condition by which a record fails by itself: its word, and what that is about."""

    word: str
    abi: int | None = None
    rights: tuple[str, ...] = ()
    path: str | None = None
    port: int | None = None
    rs: int | None = None

    @property
    def of_abi(self) -> bool:
        """Whether the ABI does not have what is asked for."""
        return self.abi is not None

    def __str__(self) -> str:
        members = asdict(self) | {"rights": ", ".join(self.rights) or "a right for ports"}
        return CONDITIONS[self.word].format_map(members)


#: The text of a reason by its word, behind what it is about.
REASONS: Mapping[str, str] = {
    "absent": "is not in the tree",
    "no_directory": "is not a directory",
    "present": "is in the tree already",
    "of_kind": "is {kind}",
    "root": "stays where it is",
    "unmoved": "would go where it is",
    "beneath_itself": "would go beneath itself",
    "over_itself": "would take the place of what it is in",
    "mixed": "one is a directory, the other is not",
    "open_already": "is open already",
    UNOPENED: NOT_OPEN,
    "not_for_writing": "is not a regular file open for writing",
    "held_already": "is held already",
    "unheld": "is not held",
    "unsupported": "left out, as this ABI supports none of the rule's rights",
    "unenforced": "left out, as this ABI supports none of the ruleset's rights",
}
#: The whole text of the reasons that name both paths of a move.
_OF_MOVES: Mapping[str, str] = {
    "beneath_itself": "{moved} would go beneath itself, to {to}",
    "over_itself": "{moved} would take the place of {to}, which it is in",
    "mixed": "one of {moved} and {to} is a directory, the other is not",
}
KINDS: Mapping[str, str] = {
    "dir": "a directory",
    "reg": "a regular file",
    "sym": "a symbolic link",
    "char": "a character device",
    "block": "a block device",
    "fifo": "a named pipe",
    "sock": "a socket",
}


@dataclass(frozen=True)
class Reason:
    """Why Landlock is not asked about a record: its word, and what that is about."""

    word: str
    path: str | None = None
    kind: str | None = None
    moved: str | None = None
    to: str | None = None
    fd: int | None = None
    rs: int | None = None

    @property
    def subject(self) -> Subject:
        """What it is about: a path, both paths of a move, or a number; nothing if the record itself is left out."""
        if self.word == "root":
            return Subject((ROOT,))
        numbers = (("descriptor", self.fd), ("ruleset", self.rs))
        number = next((Number(name, number) for name, number in numbers if number is not None), None)
        return Subject(tuple(path for path in (self.path, self.moved, self.to) if path is not None), number=number)

    @property
    def why(self) -> str:
        """The text behind what it is about."""
        return REASONS[self.word].format(kind=KINDS.get(self.kind or ""))

    def __str__(self) -> str:
        if self.word in _OF_MOVES:
            return _OF_MOVES[self.word].format(moved=self.moved, to=self.to)
        return f"{self.subject} {self.why}" if self.subject != NOTHING else self.why


@dataclass(frozen=True)
class Answer:
    """What landaudit answers to a record: `allowed`, `moot`, or `refused` with an error and by layers; `unsure` stands
    for `refused` if a recording does not know whether the call was this record.

    If no layer refuses it, `why` is the condition by which it fails by itself; of a moot one it is the reason. Both are
    there if landaudit was asked why.
    """

    verdict: str
    error: str | None = None
    layers: tuple[Refusing, ...] = ()
    why: Condition | Reason | None = None

    @property
    def allowed(self) -> bool:
        """Whether the record is allowed."""
        return self.verdict == ALLOWED

    @property
    def refused(self) -> bool:
        """Whether the record is refused."""
        return self.verdict == REFUSED

    @property
    def left_out(self) -> bool:
        """Whether a rule or a ruleset is left out, since the ABI has none of its rights."""
        return isinstance(self.why, Reason) and self.why.word in _LEFT_OUT

    @property
    def condition(self) -> Condition:
        """The condition by which a record fails that no layer refuses."""
        if not isinstance(self.why, Condition):
            raise Problem("landaudit was not asked why a record fails")
        return self.why

    @property
    def reason(self) -> Reason:
        """Why Landlock is not asked about a moot record."""
        if not isinstance(self.why, Reason):
            raise Problem("landaudit was not asked why a record is moot")
        return self.why

    @property
    def opened(self) -> tuple[int, ...]:
        """The lines at which files were opened that the layers object to: by these, equal answers may differ."""
        return tuple(one.opened for layer in self.layers for one in layer.objections if isinstance(one, Kept))


#: An answer, and the ABIs that give it.
Answered = tuple[tuple[int, ...], Answer]
