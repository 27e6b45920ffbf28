"""The names of objects as a witness heard them: an event has each object on its path, by device, inode, generation.

An object is known by its directory, its name and its inode. It is the same at another name only if the run moved or
linked it, or if it is a directory on which a mount begins: inodes of some file systems (overlayfs, FUSE) have numbers
of others. What is met first at a path was there when the run began, unless the run made something there before.
"""

from __future__ import annotations

from collections.abc import Sequence
from typing import Any

from .unwritten import CannotSay, NotAsked
from .names import KINDS, Node
from .witness import text

NO_WAY = "an object to which no path leads: it was opened by a handle, or its mount is detached"
OTHER_ROOT = "an object below another root: the process is in another mount namespace than the first one"
NOT_WHOLE = "a path that is not whole in its event"
OF_KERNEL = "an object on a mount of the kernel's own, which Landlock allows"
#: Objects in /proc have other inode numbers each time that the kernel looks them up.
_UNSTABLE = "/proc/"
#: Device, inode and generation.
_Identity = tuple[str, int, int]


class Identities:
    """All objects that events named, by their names at the last event, and what was at a path when the run began.

    `turns` counts how often a directory came to a path at which another one was.
    """

    def __init__(self) -> None:
        self.root = Node("dir", origin="", start="", first="/")
        self.turns = 0
        self._root: _Identity | None = None
        self._at: dict[str, Node] = {"/": self.root}
        self._known: dict[tuple[Node, str, _Identity], Node] = {}
        self._moved: dict[_Identity, Node] = {}
        self._mounted: dict[_Identity, Node] = {}
        self._inodes: dict[Node, _Identity] = {}
        self._starts: dict[str, Node] = {"/": self.root}
        self._makes: set[str] = set()
        self._unmet: set[Node] = set()

    def at(self, path: str) -> Node | None:
        """The object at a path."""
        return self._at.get(path or "/")

    def further(self, node: Node) -> list[str]:
        """An object is known by the paths by which events name it, and by no others."""
        return []

    def bound(self, node: Node) -> list[Node]:
        """A directory is one object wherever it is mounted."""
        return []

    def at_start(self, path: str) -> Node | None:
        """The object that was at a path when the run began, as far as that is known."""
        return self._starts.get(path)

    def meet(self, chain: Sequence[Any], *, cut: bool = False) -> tuple[str, Node | None]:
        """The path of the first object of a chain, and the object; None for a name at which nothing is."""
        if cut or not chain:
            raise CannotSay(NOT_WHOLE)
        self._enter(chain[-1])
        path, node = "", self.root
        for device, inode, generation, name, kind, flags in list(reversed(chain))[1:]:
            path += f"/{text(name)}"
            if "?" in flags:
                self._at.pop(path, None)
                return path, None
            node = self._node(path, node, (device, inode, generation), kind, is_mount="m" in flags)
        return path or "/", node

    def _enter(self, top: Sequence[Any]) -> None:
        """Checks that a chain ends at the root."""
        if "i" in top[5]:
            raise NotAsked(OF_KERNEL)
        if "d" in top[5]:
            raise CannotSay(NO_WAY)
        identity = (top[0], top[1], top[2])
        if self._root is None:
            self._root = identity
        if identity != self._root:
            raise CannotSay(OTHER_ROOT)

    def _node(self, path: str, over: Node, identity: _Identity, kind: str, *, is_mount: bool) -> Node:
        """The object of an identity, which is at a path in a directory now."""
        if path.startswith(_UNSTABLE):
            identity = (path, 0, 0)
        before, place = self._at.get(path), (over, path.rpartition("/")[2], identity)
        node = None if path in self._makes else self._known.get(place) or self._moved.get(identity)
        if node is None and is_mount and kind == "dir":
            node = self._mounted.get(identity)
        if node is None and before in self._unmet and before is not None:
            self._unmet.discard(before)
            node = before
        if node is None or node.kind != kind:
            node = self._new(path, kind)
        self._known[place], self._inodes[node] = node, identity
        if kind == "dir":
            self._mounted[identity] = node
        if node is not before:
            self._at[path] = node
            self.turns += before is not None and "dir" in (before.kind, node.kind)
        return node

    def _new(self, path: str, kind: str) -> Node:
        """An object that was not met before at a path."""
        if kind not in KINDS:
            raise CannotSay("an object of a kind that a tree does not have")
        over, _, name = path.rpartition("/")
        start = self._start(over or "/", name)
        node = Node(kind, origin=path if kind == "dir" else None, start=start if path not in self._makes else None)
        self._makes.discard(path)
        if node.start is not None:
            self._starts[node.start] = node
        node.over, node.name = self._at.get(over or "/"), name
        return node

    def _start(self, over: str, name: str) -> str | None:
        """The path at which a name was when the run began; None if another object was there, or nothing."""
        directory = self._at.get(over)
        if directory is None or directory.start is None:
            return None
        start = f"{directory.start}/{name}"
        return None if start in self._starts else start

    def makes(self, path: str) -> None:
        """Notes that the run makes an object at a path: what is met there next is another one than those before."""
        self._makes.add(path)
        self._at.pop(path, None)

    def is_made(self, path: str) -> bool:
        """Whether the run made what is at a path."""
        node = self._at.get(path)
        return node is not None and node.start is None

    def moves(self, path: str, to: str) -> None:
        """Notes that the run moves or links an object to another path, or exchanges two."""
        for at in (path, to):
            node = self._at.get(at)
            if node is not None and node in self._inodes:
                self._moved[self._inodes[node]] = node
            self._makes.discard(at)

    def is_below_root(self, chain: Sequence[Any]) -> bool:
        """Whether a chain ends at the root that others end at."""
        return bool(chain) and self._root in (None, (chain[-1][0], chain[-1][1], chain[-1][2]))

    def expect(self, path: str, kind: str) -> Node:
        """The object that is at a path when the run begins, though no event has named it yet."""
        over = "/"
        for name in path.split("/")[1:]:
            below = f"{over.rstrip('/')}/{name}"
            if below not in self._at:
                self._at[below] = node = self._new(below, kind if below == path else "dir")
                self._unmet.add(node)
            over = below
        return self._at[over]
