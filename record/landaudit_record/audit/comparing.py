"""Compares landaudit's answers with what the kernel did, and puts each difference into a class.

The classes with a name in docs/SEMANTICS.md are those of "Where a running kernel differs", and of the calls that the
document does not judge or leaves out.
"""

from __future__ import annotations

import enum
import os
import stat
from collections import Counter
from collections.abc import Callable, Iterable, Iterator
from dataclasses import dataclass, field

from ..common.jsonl import Record
from ..common.operations import MOVES, PATH_CALLS, PORT_CALLS, RULESET_CALLS
from ..common.trees import ROOT, Tree, directory_of
from ..engine.answers import MOOT
from ..engine.processes import shown
from .kernel_calls import JudgedCall, newer_rights

OK = "ok"
LEFT_OUT_ERRORS = frozenset({"EFAULT", "EOPNOTSUPP", "EBADFD", "EAFNOSUPPORT"})

Stat = Callable[[str], os.stat_result | None]
"""What is at a path on this machine, if something is."""


class Class(enum.Enum):
    """Why landaudit and a kernel differ. The value is the class's name for a person."""

    NEWER = "rights newer than the ABI"
    LEFT_OUT = "errors that are left out"
    RUNNING_READS = "running a file also reads it"
    PORTS_AND_MOVES = "a layer of ports and moves"
    BEFORE_THE_TREE = "Landlock asked before the tree"
    WHITEOUTS = "whiteouts"
    IOCTL = "ioctl's driver"
    MODES = "file modes and privileges"
    MOUNTS = "several mounts"
    NOT_LISTED = "not in the tree or the trace"
    UNNAMED = "unnamed"

    @property
    def named(self) -> bool:
        """Whether docs/SEMANTICS.md says that a kernel differs in this way."""
        return self not in (Class.NOT_LISTED, Class.UNNAMED)


@dataclass(frozen=True)
class Difference:
    """A call to which the kernel gave another answer than landaudit."""

    call: JudgedCall
    because: Class


def errors_of_landlock(op: str) -> frozenset[str]:
    """The errors by which Landlock refuses a call."""
    if op == "mount":
        return frozenset({"EPERM"})
    return frozenset({"EACCES", "EXDEV"} if op in MOVES else {"EACCES"})


def agree(call: JudgedCall) -> bool:
    """Whether landaudit's answer is what the kernel did.

    If the recording does not know what was there before a call, either answer will do. If landaudit refuses a call, the
    kernel answered exactly that error. If landaudit allows a call on a ruleset, the
    kernel did too. If any other call is allowed or moot, Landlock did not refuse it: the kernel may have refused it for
    another reason. If the kernel allowed a call on a path, it asked Landlock, so the call must not be moot.
    """
    other = call.other
    if other is not None and agree(other):
        return True
    answer = call.answer
    if answer.refused:
        return call.kernel == answer.error
    if call.op in RULESET_CALLS:
        return call.kernel == OK and answer.allowed
    if call.kernel == OK:
        return call.op not in PATH_CALLS or not call.partly_moot or _on_itself(call.record)
    return call.kernel not in errors_of_landlock(call.op)


def _on_itself(record: Record) -> bool:
    return record.get("from") is not None and record.get("from") == record.get("to")


class Classes:
    """Finds the class of a difference: by the call, the tree, the ABI, and what is on this machine."""

    def __init__(self, tree: Tree, abi: int, stat_of: Stat) -> None:
        self._tree = tree
        self._abi = abi
        self._stat_of = stat_of
        self._tests = (
            (Class.NEWER, self._newer),
            (Class.UNNAMED, lambda call: call.by_kernel.layer),
            (Class.LEFT_OUT, _left_out),
            (Class.MOUNTS, self._mounts),
            (Class.BEFORE_THE_TREE, self._before_the_tree),
            (Class.WHITEOUTS, self._whiteout),
            (Class.PORTS_AND_MOVES, _ports_and_moves),
            (Class.RUNNING_READS, _running_reads),
            (Class.IOCTL, _ioctl),
            (Class.MODES, self._modes),
            (Class.NOT_LISTED, lambda call: call.partly_moot),
        )

    def of(self, call: JudgedCall) -> Class:
        """The first class that explains a difference."""
        return next((because for because, explains in self._tests if explains(call)), Class.UNNAMED)

    def _newer(self, call: JudgedCall) -> bool:
        """A ruleset with rights that the ABI does not have: its `create` fails with EINVAL, and it makes no layer."""
        if call.op == "create":
            return call.answer.error == "EINVAL" and bool(newer_rights(call.record, self._abi))
        return call.by_kernel.newer

    def _before_the_tree(self, call: JudgedCall) -> bool:
        """Forms of calls that the tree forbids, but about which the kernel asks Landlock."""
        if not call.partly_moot or call.kernel not in errors_of_landlock(call.op):
            return False
        record = call.record
        match call.op:
            case "unlink":
                return self._kind(record, "path") == "dir"
            case "rmdir":
                return self._kind(record, "path") not in ("dir", None)
            case "open":
                return self._kind(record, "path") == "sock"
            case "link":
                return self._kind(record, "from") == "dir"
            case "rename":
                return _on_itself(record) or self._unlike(record)
        return False

    def _kind(self, record: Record, member: str) -> str | None:
        return self._tree.kind(record[member])

    def _unlike(self, record: Record) -> bool:
        """Whether a rename would put a directory in the place of another kind of object, or the reverse."""
        moved, onto = self._kind(record, "from"), self._kind(record, "to")
        return None not in (moved, onto) and (moved == "dir") != (onto == "dir")

    def _whiteout(self, call: JudgedCall) -> bool:
        """A character device that is made, removed or moved: a kernel judges a whiteout among them in another way."""
        record = call.record
        if call.op == "mknod":
            return str(record["kind"]) == "char"
        members = {"unlink": ("path",), "rename": ("from", "to"), "link": ("from",)}.get(call.op, ())
        return any(self._kind(record, member) == "char" for member in members)

    def _mounts(self, call: JudgedCall) -> bool:
        """A move between file systems, which the kernel refuses before Landlock is asked."""
        if call.op not in MOVES or call.kernel != "EXDEV":
            return False
        source, target = (self._stat_of(directory_of(shown(call.record, member) or ROOT)) for member in ("from", "to"))
        return source is not None and target is not None and source.st_dev != target.st_dev

    def _modes(self, call: JudgedCall) -> bool:
        """A refusal by privileges (of a mount), or because a file may not be run whatever the policy is."""
        if call.answer.refused:
            return False
        if call.op == "mount":
            return call.kernel == "EPERM"
        return call.op == "exec" and call.kernel == "EACCES" and any(map(self._not_to_be_run, call.records))

    def _not_to_be_run(self, record: Record) -> bool:
        if self._tree.kind(record["path"]) not in ("reg", None):
            return True
        found = self._stat_of(shown(record, "path") or record["path"])
        return found is not None and not (stat.S_ISREG(found.st_mode) and found.st_mode & 0o111)


def _left_out(call: JudgedCall) -> bool:
    return call.kernel in LEFT_OUT_ERRORS and call.op in RULESET_CALLS | PORT_CALLS


def _ports_and_moves(call: JudgedCall) -> bool:
    """A layer without rights for files, together with one that has some, refuses moves to another directory."""
    files = [bool(layer.handled_fs) for layer in call.domain]
    moved = call.op in MOVES and call.kernel == "EXDEV" and not call.answer.refused
    return moved and any(files) and not all(files)


def _running_reads(call: JudgedCall) -> bool:
    """An exec whose trace does not say what the kernel opens for it."""
    alone = call.op == "exec" and all(record["op"] == "exec" for record in call.records)
    reads = any("read_file" in layer.handled_fs for layer in call.domain)
    return alone and reads and call.kernel == "EACCES" and not call.answer.refused


def _ioctl(call: JudgedCall) -> bool:
    """A command that the kernel judges in another way than `driver` says."""
    if call.op != "ioctl":
        return False
    if call.record["driver"]:
        return call.answer.refused
    return call.kernel == "EACCES"


@dataclass
class Tally:
    """The calls that were compared: their number, the number of moot calls, and what differs."""

    calls: int = 0
    moot: int = 0
    by_op: Counter[str] = field(default_factory=Counter)
    differences: Counter[Class] = field(default_factory=Counter)
    examples: dict[Class, Difference] = field(default_factory=dict)

    @property
    def agreed(self) -> int:
        """How many calls the kernel answered as landaudit did."""
        return self.calls - self.differences.total()

    @property
    def unnamed(self) -> int:
        """How many differences have no name in docs/SEMANTICS.md."""
        return sum(count for because, count in self.differences.items() if not because.named)

    def add(self, other: Tally) -> None:
        """Adds the calls of a later part."""
        self.calls += other.calls
        self.moot += other.moot
        self.by_op.update(other.by_op)
        self.differences.update(other.differences)
        self.examples = other.examples | self.examples


def compare(calls: Iterable[JudgedCall], classes: Classes, tally: Tally) -> Iterator[Difference]:
    """Yields each call that differs, and counts all calls."""
    for call in calls:
        tally.calls += 1
        tally.by_op[call.op] += 1
        tally.moot += call.answer.verdict == MOOT
        if agree(call):
            continue
        difference = Difference(call, classes.of(call))
        tally.differences[difference.because] += 1
        tally.examples.setdefault(difference.because, difference)
        yield difference
