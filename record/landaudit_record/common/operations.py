"""The operations of a trace, one row for each: docs/FORMATS.md, "The trace file", and docs/SEMANTICS.md."""

from __future__ import annotations

from collections.abc import Callable, Mapping
from dataclasses import dataclass
from functools import cached_property

from .jsonl import Record
from .rights import FS

#: How a `rename` with this member is called.
EXCHANGE = "exchange"
_MAKE, _REMOVE = (tuple(right for right in FS.since if right.startswith(word)) for word in ("make_", "remove_"))
_NODES = tuple(right for right in _MAKE if right not in ("make_dir", "make_sym"))


@dataclass(frozen=True)
class Operation:
    """An operation: its members besides `op` and `pid`, and the rights that it asks of a layer.

    `numbers` are those of descriptors, rulesets and processes; a record may leave out the `optional` members. No policy
    judges an operation if `asks` is None; a layer refuses one that asks no right whatever the layer's rules are.
    """

    name: str
    paths: tuple[str, ...] = ()
    ports: tuple[str, ...] = ()
    numbers: tuple[str, ...] = ()
    values: tuple[str, ...] = ()
    optional: tuple[str, ...] = ()
    asks: tuple[str, ...] | None = None

    @cached_property
    def decides(self) -> tuple[str, ...]:
        """The members by which it is answered, first what it is about; a number stands for what it was given for."""
        return self.paths + self.ports + self.values + self.optional

    def may_ask(self, *words: str) -> bool:
        """Whether it may ask for a right whose name begins so."""
        return any(right.startswith(words) for right in self.asks or ())


OPERATIONS: Mapping[str, Operation] = {operation.name: operation for operation in (
    Operation("start", optional=("nnp", "admin")),
    Operation("fork", numbers=("child",)),
    Operation("exit"),
    Operation("nnp"),
    Operation("create", numbers=("rs",), optional=("fs", "net")),
    Operation("add_path", ("path",), numbers=("rs",), optional=("fs",)),
    Operation("add_port", ports=("port",), numbers=("rs",), optional=("net",)),
    Operation("restrict", numbers=("rs",)),
    Operation("close_rs", numbers=("rs",)),
    Operation("adopt", numbers=("fd",), values=("kind",)),
    Operation("dup", numbers=("fd", "to")),
    Operation("close", numbers=("fd",)),
    Operation("open", ("path",), numbers=("fd",), values=("mode",), optional=("create", "trunc"),
              asks=("read_file", "write_file", "read_dir", "truncate", "make_reg")),
    Operation("truncate", ("path",), asks=("truncate",)),
    Operation("exec", ("path",), asks=("execute",)),
    Operation("ftruncate", numbers=("fd",), asks=("truncate",)),
    Operation("ioctl", numbers=("fd",), values=("driver",), asks=("ioctl_dev",)),
    Operation("unlink", ("path",), asks=("remove_file",)),
    Operation("rmdir", ("path",), asks=("remove_dir",)),
    Operation("mkdir", ("path",), asks=("make_dir",)),
    Operation("symlink", ("path",), asks=("make_sym",)),
    Operation("mknod", ("path",), values=("kind",), asks=_NODES),
    Operation("rename", ("from", "to"), optional=(EXCHANGE,), asks=(*_MAKE, *_REMOVE, "refer")),
    Operation("link", ("from", "to"), asks=(*_NODES, "make_sym", "refer")),
    Operation("bind", ports=("port",), asks=("bind_tcp",)),
    Operation("connect", ports=("port",), asks=("connect_tcp",)),
    Operation("mount", asks=()),
)}


def named(holds: Callable[[Operation], object]) -> frozenset[str]:
    """The names of some operations."""
    return frozenset(operation.name for operation in OPERATIONS.values() if holds(operation))


#: Calls that a policy judges; those on descriptors, by the layers that their process had when it opened these.
JUDGED = named(lambda of: of.asks is not None)
PATH_CALLS = JUDGED & named(lambda of: of.paths)
PORT_CALLS = JUDGED & named(lambda of: of.ports)
DESCRIPTOR_CALLS = JUDGED & named(lambda of: of.numbers and not of.paths)
MOVES = named(lambda of: len(of.paths) > 1)
#: Calls that may make the object at their path, remove the name that is their first path, or use what is in a file.
MAKING = named(lambda of: of.may_ask("make_")) - MOVES
REMOVING = named(lambda of: of.may_ask("remove_"))
USING = named(lambda of: of.may_ask("read_", "write_", "execute", "truncate"))
#: Calls by which a process makes rulesets and layers: they are judged outside a layer too.
RULESET_CALLS = named(lambda of: "rs" in of.numbers) - {"close_rs"}


def call_text(record: Record) -> str:
    """A call in one or several words, such as `open rw create`."""
    of = OPERATIONS[record["op"]]
    if of.name not in PATH_CALLS:
        return of.name
    flags = [flag for flag in of.optional if record.get(flag)]
    return EXCHANGE if EXCHANGE in flags else " ".join([of.name, *map(record.__getitem__, of.values), *flags])
