"""Random calls on a tree, each with what the policy is asked about it: by docs/SEMANTICS.md.

The tables there are "What each call asks" and "Moving and linking".
"""

from __future__ import annotations

import random
from collections.abc import Iterator, Sequence
from dataclasses import dataclass

from landaudit_record.common.jsonl import Record
from landaudit_record.common.trees import directory_of, joined, upwards

from .random_policies import NAMES, PORTS, Kinds

NOT_DIRECTORIES = ("reg", "char", "block", "fifo", "sock", "sym")
OPENED = ("reg", "char", "block", "fifo")
DEVICES = ("char", "block")
NEARNESS = 0.6
MAKING = {"reg": "make_reg", "dir": "make_dir", "sym": "make_sym", "char": "make_char", "block": "make_block",
          "fifo": "make_fifo", "sock": "make_sock"}


@dataclass(frozen=True)
class Right:
    """A right for files on an object: a directory in which something is done or that is read, or a file itself."""

    name: str
    path: str
    is_file: bool = False


@dataclass(frozen=True)
class Port:
    """A right on a TCP port."""

    name: str
    number: int


@dataclass(frozen=True)
class Mount:
    """That what is mounted is changed."""


@dataclass(frozen=True)
class Move:
    """That an object of a kind comes to another directory than its own."""

    kind: str
    path: str
    to: str


Need = Right | Port | Mount | Move


@dataclass(frozen=True)
class Call:
    """The records of a call, of which all must be allowed, and what it needs all of."""

    records: tuple[Record, ...]
    needs: tuple[Need, ...]


def _removing(path: str, kind: str) -> Right:
    return Right("remove_dir" if kind == "dir" else "remove_file", directory_of(path))


def _making(kind: str, directory: str) -> Right:
    return Right(MAKING[kind], directory)


@dataclass(frozen=True)
class Caller:
    """Makes calls on a tree, more of them on and beneath some paths. Each opens by a number of its own."""

    of: random.Random
    kinds: Kinds
    near: frozenset[str] = frozenset()

    def calls(self, count: int) -> Iterator[Call]:
        """Some calls, fewer where the tree has nothing for one."""
        for fd in range(3, 3 + count):
            call = self.call(fd)
            if call is not None:
                yield call

    def call(self, fd: int) -> Call | None:
        """One call, or None where the tree has nothing for it."""
        return self.of.choice((self._open, self._open, self._file, self._device, self._create, self._create, self._make,
                               self._remove, self._link, self._link, self._rename, self._rename, self._rename,
                               self._onto, self._exchange, self._port, self._mount))(fd)

    def some(self, kinds: Sequence[str]) -> str | None:
        """An object of one of some kinds, but for the root."""
        return self._chosen([path for path, kind in self.kinds.items() if kind in kinds and path != "/"])

    def directory(self) -> str:
        """A directory, the root too."""
        return self._chosen([path for path, kind in self.kinds.items() if kind == "dir"]) or "/"

    def _chosen(self, there: Sequence[str]) -> str | None:
        near = [path for path in there if not self.near.isdisjoint(upwards(path))]
        some = near if near and self.of.random() < NEARNESS else there
        return self.of.choice(some) if some else None

    def new(self) -> str:
        """A name that nothing has, in a directory: it may be one that a policy has a rule on."""
        directory = self.directory()
        name = self.of.choice((*NAMES, "new"))
        return joined(directory, name if joined(directory, name) not in self.kinds else "new")

    def _open(self, fd: int) -> Call | None:
        path = self.some(("dir", *OPENED, *OPENED))
        if path is None:
            return None
        if self.kinds[path] == "dir":
            return Call(({"op": "open", "path": path, "mode": "r", "fd": fd},), (Right("read_dir", path),))
        mode = self.of.choice(("r", "w", "rw"))
        trunc = self.kinds[path] == "reg" and self.of.random() < 0.4
        asked = [*self._by_mode(mode, path, is_file=True), *([Right("truncate", path, True)] if trunc else [])]
        return Call(({"op": "open", "path": path, "mode": mode, "fd": fd, "trunc": trunc},), tuple(asked))

    def _by_mode(self, mode: str, path: str, is_file: bool) -> list[Right]:
        named = (("r", "read_file"), ("w", "write_file"))
        return [Right(name, path, is_file) for letter, name in named if letter in mode]

    def _file(self, fd: int) -> Call | None:
        path = self.some(("reg",))
        if path is None:
            return None
        match self.of.choice(("exec", "truncate", "ftruncate")):
            case "ftruncate":
                opened: Record = {"op": "open", "path": path, "mode": self.of.choice(("w", "rw")), "fd": fd}
                asked = self._by_mode(opened["mode"], path, is_file=True)
                return Call((opened, {"op": "ftruncate", "fd": fd}), (*asked, Right("truncate", path, True)))
            case op:
                name = "execute" if op == "exec" else op
                return Call(({"op": op, "path": path},), (Right(name, path, True),))

    def _device(self, fd: int) -> Call | None:
        path = self.some(DEVICES)
        if path is None:
            return None
        mode, judged = self.of.choice(("r", "w", "rw")), self.of.random() < 0.8
        asked = self._by_mode(mode, path, is_file=True) + ([Right("ioctl_dev", path, True)] if judged else [])
        opened: Record = {"op": "open", "path": path, "mode": mode, "fd": fd}
        return Call((opened, {"op": "ioctl", "fd": fd, "driver": judged}), tuple(asked))

    def _create(self, fd: int) -> Call:
        path, mode = self.new(), self.of.choice(("r", "w", "rw"))
        over = directory_of(path)
        made: Record = {"op": "open", "path": path, "mode": mode, "fd": fd, "create": True}
        made["trunc"] = self.of.random() < 0.5
        asked = [_making("reg", over), *self._by_mode(mode, over, is_file=False)]
        if "w" in mode and self.of.random() < 0.5:
            return Call((made, {"op": "ftruncate", "fd": fd}), (*asked, Right("truncate", over)))
        return Call((made,), tuple(asked))

    def _make(self, fd: int) -> Call:
        path, kind = self.new(), self.of.choice(list(MAKING))
        op = {"dir": "mkdir", "sym": "symlink"}.get(kind, "mknod")
        record: Record = {"op": op, "path": path, "kind": kind} if op == "mknod" else {"op": op, "path": path}
        return Call((record,), (_making(kind, directory_of(path)),))

    def _remove(self, fd: int) -> Call | None:
        path = self.some(("dir", *NOT_DIRECTORIES))
        if path is None:
            return None
        kind = self.kinds[path]
        return Call(({"op": "rmdir" if kind == "dir" else "unlink", "path": path},), (_removing(path, kind),))

    def _port(self, fd: int) -> Call:
        op, port = self.of.choice(("bind", "connect")), self.of.choice((*PORTS, 1, 8080, 65535))
        return Call(({"op": op, "port": port},), (Port(f"{op}_tcp", port),))

    def _mount(self, fd: int) -> Call:
        return Call(({"op": "mount"},), (Mount(),))

    def _link(self, fd: int) -> Call | None:
        moved = self.some(NOT_DIRECTORIES)
        if moved is None:
            return None
        to = self.new()
        return Call(({"op": "link", "from": moved, "to": to},), self._coming(moved, directory_of(to)))

    def _coming(self, moved: str, to: str) -> tuple[Need, ...]:
        """What an object needs to come to a directory, beside its removal from its own.

        To another one it moves; a directory moves by a rename alone, of which its removal is a part.
        """
        kind = self.kinds[moved]
        need: Need = _making(kind, to) if directory_of(moved) == to else Move(kind, moved, to)
        return (need,)

    def _renamed(self, moved: str, to: str) -> tuple[Need, ...]:
        """What a rename to a directory needs."""
        kind = self.kinds[moved]
        coming = self._coming(moved, to)
        return coming if kind == "dir" and directory_of(moved) != to else (_removing(moved, kind), *coming)

    def _rename(self, fd: int) -> Call | None:
        moved = self.some(("dir", *NOT_DIRECTORIES))
        if moved is None:
            return None
        to = self.new()
        if moved in upwards(to):
            return None
        return Call(({"op": "rename", "from": moved, "to": to},), self._renamed(moved, directory_of(to)))

    def _pair(self) -> tuple[str, str] | None:
        """Two objects of which neither is over the other."""
        one, other = self.some(("dir", *NOT_DIRECTORIES)), self.some(("dir", *NOT_DIRECTORIES))
        if one is None or other is None or one in upwards(other) or other in upwards(one):
            return None
        return one, other

    def _onto(self, fd: int) -> Call | None:
        pair = self._pair()
        if pair is None or (self.kinds[pair[0]] == "dir") != (self.kinds[pair[1]] == "dir"):
            return None
        moved, there = pair
        needs = (*self._renamed(moved, directory_of(there)), _removing(there, self.kinds[there]))
        return Call(({"op": "rename", "from": moved, "to": there},), needs)

    def _exchange(self, fd: int) -> Call | None:
        pair = self._pair()
        if pair is None:
            return None
        one, other = pair
        needs = (*self._renamed(one, directory_of(other)), *self._renamed(other, directory_of(one)))
        return Call(({"op": "rename", "from": one, "to": other, "exchange": True},), needs)
