"""The names of objects while a log is converted: the file system as the program saw it, call after call.

Every object is one node for its whole life, whatever its names are. Calls that make, remove and move objects change
the nodes. An object that no call has touched yet is as a listing says that was made before the run or before the call.
What was seen later counts if no call up to then changed that name; if one did, nobody knows what was there before, and
the log is converted again with this in mind (`Doubts`).
"""

from __future__ import annotations

from collections.abc import Sequence
from dataclasses import dataclass, field
from functools import lru_cache
from typing import Protocol

from . import values
from .disk import WHITEOUT, Disk, Program, Seen
from .unwritten import CannotSay
from .mounted import MountPlaces

MOST_LINKS = 40
#: Under this directory, links do not lead where their targets say (proc(5)).
PROC = ["proc"]
_IN_PROC = "/proc"
#: What /proc has of each process is what it has of the one that looks (proc(5)).
OWN_FILES, _THREADS = "/proc/self", "task"
#: Last components of a path that are not names in a directory.
_NO_NAMES = ("", ".")
#: The kinds of objects through which a path may lead.
_ON_WAYS = ("dir", "sym")
#: The kinds of objects, those first that are met most.
KINDS = ("reg", "dir", "sym", "fifo", "sock", "char", "block")
NO_DIRECTORIES = tuple(kind for kind in KINDS if kind != "dir")
#: What is not known of an object.
OF_KIND, MADE_OR_THERE, REPLACED_OR_NOT = "its kind", "made or there before", "another object replaced or not"
UNKNOWN_WAY = "a path by a name of which nobody knows whether it was a link"


class UnknownWay(CannotSay):
    """A path that leads nobody knows where."""

    def __init__(self) -> None:
        super().__init__(UNKNOWN_WAY)


@dataclass
class Doubts:
    """What nobody knows, as a conversion finds out that it took it to be known.

    `objects` are the paths at which something else was seen than what was there at first, `programs` the runs of files
    that were read too late, each with its line. `kinds` are the kinds that an object may have had by what later calls
    did with it. `shown` has what such a call has shown to have been at one of the paths from the first: a directory, or
    nothing; each with the line since which the directory above is there.
    """

    objects: set[str] = field(default_factory=set)
    programs: set[tuple[str, int]] = field(default_factory=set)
    kinds: dict[str, tuple[str, ...]] = field(default_factory=dict)
    shown: dict[tuple[str, int], Seen | None] = field(default_factory=dict)

    def size(self) -> int:
        """How much there is: it grows until nothing is taken to be known that is not."""
        return len(self.objects) + len(self.programs) + len(self.kinds) + len(self.shown)


@dataclass(slots=True)
class _Late:
    """What was seen at a path after the call on `line` had begun, until the line `until`.

    `is_there` says that a call has shown that an object was there before.
    """

    line: int
    until: int
    seen: Seen | None
    is_there: bool = False


@dataclass(slots=True, eq=False)
class Node:
    """An object: its kind, a link's target, the path at which further children are looked up, and the known children.

    `arrived` is the line of the call that moved a directory to its path, so that what was seen there before is not in it.
    `start` is its path when the run begins ("" for the root), None if it does not exist then; `first` is the name under
    which the tree lists it first; `ruled` says that the program puts a rule on it; `over` and `name` are the directory
    that it is in, or was in last, and its name there. `others` are the objects that may be there in its place, if
    nobody knows which it is, and `doubt` says what is not known.
    """

    kind: str
    target: str | None = None
    origin: str | None = None
    children: dict[str, "Node | None"] = field(default_factory=dict)
    start: str | None = None
    first: str | None = None
    ruled: bool = False
    over: "Node | None" = None
    name: str = ""
    others: tuple["Node", ...] = ()
    doubt: str = ""
    arrived: int = 0

    @property
    def shares(self) -> bool:
        """Whether the run makes it and no rule is on it: then Landlock treats all such objects of its kind alike."""
        return self.start is None and not self.ruled

    def looked_up(self) -> tuple[str | None, int]:
        """Where children of a directory are looked up, and since which line of the log the directory is there."""
        arrived, node = 0, self if self.origin is not None else None
        while node is not None and node.name:
            if node.arrived > arrived:
                arrived = node.arrived
            node = node.over
        return (join([one.name for one in self._way()]), arrived) if arrived else (self.origin, 0)

    def _way(self) -> "list[Node]":
        """The directories that lead to a directory, and it itself."""
        way: list[Node] = []
        node: Node | None = self
        while node is not None and node.name:
            way.insert(0, node)
            node = node.over
        return way


@dataclass(slots=True)
class Found:
    """Where a path leads: the real path, the node there if there is one, and where the path breaks off.

    `broken` is the number of names of `names` after which nothing exists: for an object that is missing in a directory,
    all names but the last; None if the object exists.
    """

    names: list[str]
    node: Node | None
    broken: int | None = None

    @property
    def path(self) -> str:
        return join(self.names)

    @property
    def in_directory(self) -> bool:
        """Whether only the last name is missing, in a directory that exists."""
        return self.broken == len(self.names) - 1


def join(names: Sequence[str]) -> str:
    """The path of a list of names."""
    return "/" + "/".join(names)


def _beneath(directory: Node, name: str) -> str | None:
    """The path at which the children of a directory in another one are looked up."""
    return None if directory.origin is None else f"{directory.origin}/{name}"


@lru_cache(values.KEPT)
def split(path: str) -> tuple[str, ...]:
    """The names of a path."""
    return tuple(name for name in path.split("/") if name and name != ".")


class Links(Protocol):
    """What a walk asks about links, and reports about them."""

    def magic(self, path: str) -> "tuple[str, Node | None] | None":
        """Where a link of /proc leads for the caller, and to what object if that is known; None for any other path."""

    def passed(self, path: str, node: Node) -> None:
        """A symbolic link was followed."""


class Names:
    """All objects that the run met, by their names at this moment.

    `turns` counts how often a directory got or lost a name, which changes the names of what is beneath it. `whiteouts`
    is the kind of object as which the kernel guards whiteouts (docs/SEMANTICS.md). `line` is that of the current call.

    Programs name the same directories over and over. So the results of walks to directories are kept, `_walked` by
    root, starting point and text, and `_reached` by real path, until a directory or a link on the way may have changed,
    or one of the names in `_breaks` at which walks broke off.
    """

    def __init__(
        self,
        disk: Disk,
        before: dict[str, Seen],
        watched: list[str],
        whiteouts: str = "char",
        unlisted: Sequence[str] = (),
        doubts: Doubts | None = None,
        places: MountPlaces | None = None,
    ) -> None:
        self.whiteouts = whiteouts
        self.places = MountPlaces() if places is None else places
        self.doubts = Doubts() if doubts is None else doubts
        self.line = 0
        self._late: dict[str, _Late] = {}
        self._unknown: set[str] = set()
        self._asked_later: set[str] = set()
        self._read_late: dict[str, list[tuple[int, int]]] = {}
        self._programs: dict[Node, set[str]] = {}
        self._not_run: dict[str, set[int]] = {}
        self._disk = disk
        self._before = before
        self._watched = tuple(top.rstrip("/") + "/" for top in watched)
        self._unlisted = tuple(top.rstrip("/") + "/" for top in unlisted)
        self._linked: dict[str, Node] = {}
        self.root = Node("dir", origin="", start="", first="/")
        self._starts: dict[str, Node | None] = {"/": self.root}
        self._walked: dict[_WalkKey, Found] = {}
        self._breaks: set[str] = set()
        self._reached: dict[str, Node] = {"": self.root}
        self.turns = 0

    def child(self, node: Node, name: str) -> Node | None:
        """The object of a name in a directory."""
        children = node.children
        if name in children:
            return children[name]
        found = children[name] = self._initial(node, name)
        return found

    def _initial(self, node: Node, name: str) -> Node | None:
        """The object of a name that the run has not touched yet."""
        start = None if node.start is None else f"{node.start}/{name}"
        if self._is_proc(node) and name.isdecimal():
            return Node("dir", origin=OWN_FILES, over=node, name=name)
        seen = self._seen(node, name, start)
        found = None
        if seen is not None:
            path = start or _beneath(node, name)
            inode = None if path is None or self.places.splits_links(path) else seen.inode
            inode = inode or self._first_of(path)
            found = self._linked.get(inode) if inode is not None else None
            if found is None:
                origin = _beneath(node, name) if seen.kind == "dir" else None
                found = Node(self.kind(seen.kind), seen.target, origin, start=start)
            if inode is not None:
                self._linked[inode] = found
            found.over, found.name = node, name
        if start is not None and (found is not None or self._is_watched(start) or self._was_missing(node, start)):
            self._starts[start] = found
        return found

    def _was_missing(self, directory: Node, path: str) -> bool:
        """Whether a look has shown, before the current call, that nothing was at a path: what the call meets there is
        none that was there when the run began. The look counts if the directory was at its place all the time.
        """
        if directory.looked_up() != (directory.start, 0) or path in self.doubts.objects:
            return False
        found = self._disk.observed(path)
        return found.seen is None and found.until < self.line

    def _first_of(self, path: str | None) -> str | None:
        """What stands for an object that has several paths by several mounts: the first of them."""
        if path is None or not self.places.are_several:
            return None
        others = self.places.others(path)
        return min([path, *others]) if others else None

    def further(self, node: Node) -> list[str]:
        """The other paths that an object has by other mounts when the run begins."""
        if not node.start or not self.places.are_several:
            return []
        return [path for path in self.places.others(node.start) if self.at_start(path) is node]

    def bound(self, node: Node) -> list[Node]:
        """What a directory is at its other paths if it does not show the same there: rules on it are on all of them."""
        if node.kind != "dir" or not node.start or not self.places.are_several or self.places.others(node.start):
            return []
        found = (self.at_start(path) for path in self.places.shown_at(node.start))
        return [one for one in found if one is not None and one is not node and one.kind == "dir"]

    def _seen(self, node: Node, name: str, start: str | None) -> Seen | None:
        """What a listing says about a name, or the disk as it was seen later."""
        if start is not None and self._is_watched(start):
            return self._before.get(start)
        origin, arrived = node.looked_up()
        if origin is None:
            return None
        path = f"{origin}/{name}"
        if (path, arrived) in self.doubts.shown:
            return self.doubts.shown[path, arrived]
        observed = self._disk.observed(path)
        if path in self.doubts.objects or observed.until < arrived:
            self._unknown.add(path)
            return None
        seen = observed.seen
        if observed.until < self.line or origin.startswith(_IN_PROC):
            return seen
        self._late[path] = _Late(self.line, observed.until, seen)
        return None if seen is None or seen.new else seen

    def is_unknown(self, path: str) -> bool:
        """Whether nobody knows if an object was at a path before the current call, or of which kind it was."""
        return self._looked_up(path) in self._unknown

    def _looked_up(self, path: str) -> str:
        """The path at which a name is looked up: its directory may have others by other mounts of its file system."""
        if not self.places.are_several:
            return path
        over, _, name = path.rpartition("/")
        directory = self.at(over)
        origin = directory.looked_up()[0] if directory is not None else None
        return path if origin is None else f"{origin}/{name}"

    def check_way(self, here: Sequence[str], name: str, node: Node | None) -> None:
        """Checks that a name which is followed is known to be a link or none, and that it is known where a link leads.

        Those of a further mount of /proc lead each process elsewhere, and the recorder too when it looks.
        """
        if node is None:
            unknown = bool(self._unknown) and self.is_unknown(join([*here, name]))
        elif node.kind == "sym" and self.places.is_in_further_proc(here):
            unknown = True
        else:
            unknown = bool(node.others) and any("sym" in (node.kind, other.kind) for other in node.others)
        if unknown:
            raise UnknownWay

    def may_be_made(self, path: str) -> bool:
        """Whether nobody knows if a file at a path was there before the current call, which may have made it."""
        late = self._late.get(self._looked_up(path))
        if late is None or late.is_there or late.until < self.line or late.seen is None:
            return self.is_unknown(path)
        return late.seen.new is None and late.seen.kind == "reg"

    def may_be_replaced(self, path: str) -> bool:
        """Whether nobody knows if an object was at a path before the current call, which put another one there."""
        late = self._late.get(self._looked_up(path))
        if late is None or late.is_there or late.until < self.line:
            return self.is_unknown(path)
        return late.seen is not None

    def seen_later(self, path: str) -> Seen | None:
        """What was seen at a path after the current call, unless it is known that another call changed it meanwhile."""
        path = self._looked_up(path)
        observed = self._disk.observed(path)
        self._asked_later.add(path)
        return None if path in self.doubts.objects or observed.until < self.line else observed.seen

    def apart(self, path: str) -> Node | None:
        """What was at a path before the current call, if this puts there what was seen later: an object of its own.

        What has the same inode's number as that has names of what the call put there.
        """
        late, node = self._late.get(self._looked_up(path)), self.at(path)
        seen = late.seen if late is not None and late.line == self.line else None
        if node is None or seen is None or seen.inode is None:
            return node
        if node.start == path:
            self._linked.pop(seen.inode, None)
            return node
        own = Node(node.kind, node.target)
        if self._starts.get(path) is node:
            own.start, self._starts[path] = path, own
        over, _, name = path.rpartition("/")
        if (directory := self.at(over)) is not None:
            self._name(directory, name, own)
        return own

    def stays(self, path: str) -> None:
        """Notes that what was seen later at a path, if it was asked for, is what the current call put there."""
        path = self._looked_up(path)
        if path in self._asked_later:
            if (seen := self.seen_later(path)) is not None:
                self._late[path] = _Late(self.line, self._disk.observed(path).until, seen, is_there=True)
            self._asked_later.discard(path)

    def is_there(self, path: str) -> None:
        """Notes that a call has shown that an object was at a path before."""
        if (late := self._late.get(self._looked_up(path))) is not None:
            late.is_there = True

    def settle(self, path: str) -> None:
        """Notes that a call has shown what was at a path before, or that nothing was.

        If an object was seen there later, an earlier call may have met another one, or none.
        """
        path = self._looked_up(path)
        late = self._late.pop(path, None)
        if late is not None and late.line < self.line <= late.until and late.seen is not None:
            self.doubts.objects.add(path)
        self._unknown.discard(path)

    def shows(self, path: str, seen: Seen | None) -> None:
        """Notes what a call has shown to be at a path: if nobody knew it, and no call has changed it, it was there from
        the first. The next conversion knows it.
        """
        of = self._as_first(path)
        if of[0] in self._unknown:
            self.doubts.shown[of] = seen

    def shows_empty(self, path: str) -> None:
        """Notes that a call has shown that a path is one of a directory in which there is nothing."""
        self.shows(path, Seen("dir"))
        directory = self.at(path)
        origin, arrived = directory.looked_up() if directory is not None else (None, 0)
        self.doubts.shown |= {(one, arrived): None for one in self._unknown if one.rpartition("/")[0] == origin}

    def _as_first(self, path: str) -> tuple[str, int]:
        """The path at which a name is looked up, and the line since which its directory is there."""
        over, _, name = path.rpartition("/")
        directory = self.at(over)
        origin, arrived = directory.looked_up() if directory is not None else (None, 0)
        return path if origin is None else f"{origin}/{name}", arrived

    def program(self, path: str) -> Program:
        """How the file at a path said that it is run, as the current call runs it."""
        found = self._disk.program(path, self.line)
        if (path, self.line) in self.doubts.programs:
            return Program(known=False)
        if found.known and found.until >= self.line:
            self._read_late.setdefault(path, []).append((self.line, found.until))
            seen, node = self._disk.look(path), self.at(path)
            if node is not None and (self.places.are_several or (seen is not None and seen.inode is not None)):
                self._programs.setdefault(node, set()).add(path)
        return found

    def may_be_program(self, path: str) -> bool:
        """Whether what the current call runs may have been at a path at which nothing is known to have been.

        A later call may show that it was there: then the run found no interpreter.
        """
        late = self._late.get(self._looked_up(path))
        if late is not None and self.line <= late.until:
            self._not_run.setdefault(path, set()).add(self.line)
        if self._as_first(path) in self.doubts.shown:
            return False
        return (path, self.line) in self.doubts.programs or self.is_unknown(path)

    def changed(self, path: str) -> None:
        """Notes that a call changes what is at a path, or what is in the file there: what was seen later is not it."""
        self.rewritten(path)
        path = self._looked_up(path)
        late = self._late.get(path)
        if late is not None and late.line < self.line:
            if self.line <= late.until:
                self.doubts.objects.add(path)
            del self._late[path]
        self._unknown.discard(path)

    def rewritten(self, path: str) -> None:
        """Notes that a call may change what is in the file at a path."""
        node = self.at(path) if self._programs else None
        for one in {path, *(self._programs.pop(node, ()) if node is not None else ())}:
            for line, until in self._read_late.pop(one, ()):
                if line < self.line <= until:
                    self.doubts.programs.add((one, line))

    def kind(self, seen: str) -> str:
        """The kind as which Landlock guards what was seen."""
        return self.whiteouts if seen == WHITEOUT else seen

    def _is_watched(self, path: str) -> bool:
        """Whether what was at a path was listed before the run: the nearest directory above that says so counts."""
        if not path.startswith(self._watched):
            return False
        listed = max((len(top) for top in self._watched if path.startswith(top)), default=0)
        return listed > max((len(top) for top in self._unlisted if path.startswith(top)), default=0)

    def at_start(self, path: str) -> Node | None:
        """The object that is at a path when the run begins, as far as that is known."""
        found = self._starts.get(path)
        if found is not None:
            return found
        unknown, over = [], path
        while over not in self._starts:
            unknown.append(over)
            over = over.rpartition("/")[0] or "/"
        for one in reversed(unknown):
            over, _, name = one.rpartition("/")
            directory = self._starts.get(over or "/")
            if directory is not None and directory.kind == "dir" and name not in directory.children:
                directory.children[name] = self._initial(directory, name)
        found = self._starts.get(path)
        return found if found is not None else self._by_other_mount(path)

    def _by_other_mount(self, path: str) -> Node | None:
        """The object that is at a path when the run begins, if it is known by another path that it has."""
        others = (self._starts.get(other) for other in self.places.others(path))
        return next((node for node in others if node is not None), None)

    def at(self, path: str) -> Node | None:
        """The object at a real path, one without links on its way."""
        over, _, name = path.rpartition("/")
        if name in _NO_NAMES:
            return self.below_root(split(path))
        directory = self._reached.get(over)
        if directory is None:
            directory = self.below_root(split(over))
            if directory is None or directory.kind != "dir":
                return None
            if not over.startswith(_IN_PROC):
                self._reached[over] = directory
        return self.child(directory, name)

    def path_of(self, node: Node) -> str | None:
        """The real path of an object by the name that it got last; None if it does not have that any more."""
        names: list[str] = []
        while node is not self.root:
            if node.over is None or node.over.children.get(node.name) is not node:
                return None
            names.append(node.name)
            node = node.over
        return join(names[::-1])

    def meets(self, path: str, over: str, name: str, node: Node) -> bool:
        """Whether an object is at a path, a name in a directory to which a walk has led, as a call shows; false too if
        nobody knows without another walk.
        """
        directory = self._reached.get(over)
        if directory is None or directory.children.get(name) is not node:
            return False
        if (late := self._late.get(path if not self.places.are_several else self._looked_up(path))) is not None:
            late.is_there = True
        return True

    def below_root(self, names: Sequence[str]) -> Node | None:
        """The object of the names of a real path."""
        node: Node | None = self.root
        for name in names:
            if node is None or node.kind != "dir":
                return None
            node = self.child(node, name)
        return node

    def _forget_ways(self) -> None:
        """Forgets the results of walks."""
        self._walked.clear()
        self._breaks.clear()
        self._reached = {"": self.root}

    def ensure(self, path: str, kind: str, among: Sequence[str] = ()) -> Node:
        """The object at a real path, which is known to exist: a name that says otherwise is corrected.

        `among` are the kinds of which it may be if nothing has said what was there.
        """
        node = self.root
        names = split(path)
        for count, name in enumerate(names, start=1):
            wanted = kind if count == len(names) else "dir"
            child = self.child(node, name)
            if wanted == "dir" and child is not None and not (among and count == len(names)):
                self._is_directory(child)
            if child is None or (child.kind != wanted and (wanted == "dir" or child.kind in ("dir", "sym"))):
                child = self._met(node, name, Node(wanted, origin=join(names[:count]) if wanted == "dir" else None))
                self._doubt_kind(child, path, among if count == len(names) else ())
            node = child
        self.is_there(path)
        self.doubts.programs.update((path, line) for line in self._not_run.pop(path, ()))
        self._unknown.discard(self._looked_up(path))
        return node

    def _doubt_kind(self, node: Node, path: str, among: Sequence[str]) -> None:
        """Notes that an object may be of other kinds, but for those that later calls rule out."""
        may_be = self.doubts.kinds.get(path, among)
        others = [kind for kind in among if kind in may_be]
        if others and node.kind not in may_be:
            node.kind = others[0]
            node.origin = path if node.kind == "dir" else None
        node.others = tuple(Node(kind) for kind in others if kind != node.kind)
        node.doubt = OF_KIND if node.others else ""

    def is_of(self, node: Node, *kinds: str) -> None:
        """Notes the kinds of which an object is that was in doubt: the next conversion knows it from the beginning."""
        if node.doubt == OF_KIND and node.start is not None:
            may_be = self.doubts.kinds.get(node.start, KINDS)
            self.doubts.kinds[node.start] = tuple(kind for kind in may_be if kind in kinds)

    def _is_directory(self, node: Node) -> None:
        """Notes that an object is a directory, if nobody knew of which kind it is."""
        if node.doubt == OF_KIND and any(other.kind == "dir" for other in node.others):
            self.is_of(node, "dir")
            node.kind, node.others, node.doubt = "dir", (), ""
            self.turns += 1

    def _met(self, directory: Node, name: str, node: Node) -> Node:
        """An object whose existence a call shows, though no listing does.

        It existed when the run began, unless it is known that nothing or another object was there.
        """
        start = None if directory.start is None else f"{directory.start}/{name}"
        if start is not None and not self._is_watched(start):
            before = self._starts.get(start)
            if start not in self._starts or (before is not None and before.first is None):
                if before is not None:
                    self._unmake(start, before)
                node.start = start
                self._starts[start] = node
        self._name(directory, name, node)
        if node.kind == "dir":
            self._turn(directory)
        return node

    def _turn(self, directory: Node) -> None:
        """Counts that a directory got or lost a name in another one, unless this is in /proc: see `MetObjects`."""
        if directory.origin is None or not directory.origin.startswith(_IN_PROC):
            self.turns += 1

    def _unmake(self, path: str, node: Node) -> None:
        """Corrects that an object was not at a path when the run began."""
        self._starts[path] = None
        if node.start == path:
            node.start = None

    def _name(self, directory: Node, name: str, node: Node | None) -> None:
        """Gives a name in a directory to an object, or to nothing.

        Directories of /proc, which come and go with the processes, are on no walk that is kept.
        """
        before = directory.children.get(name)
        is_on_way = before is not None and before.kind in _ON_WAYS and not self._is_proc(directory)
        if is_on_way or name in self._breaks:
            self._forget_ways()
        directory.children[name] = node
        if node is not None:
            node.over, node.name = directory, name

    def _is_proc(self, directory: Node) -> bool:
        """Whether a directory is that of the processes, or of the threads of one."""
        if directory.name == PROC[0]:
            return directory.over is self.root
        return directory.name == _THREADS and directory.over is not None and directory.over.origin == OWN_FILES

    def put(self, path: str, node: Node | None) -> None:
        """Puts an object under a name, or takes the name away."""
        names = split(path)
        if not names:
            return
        self.changed(path)
        directory = self.ensure(join(names[:-1]), "dir") if names[:-1] else self.root
        before = self.child(directory, names[-1])
        if directory.start is not None:
            self._starts.setdefault(f"{directory.start}/{names[-1]}", None)
        if any(one is not None and one.kind == "dir" and not one.shares for one in (before, node)):
            self._turn(directory)
        self._name(directory, names[-1], node)

    def never(self, path: str) -> None:
        """Notes that nothing is at a path of which nothing was known: nothing was there when the run began either."""
        self.settle(path)
        self._starts.setdefault(path, None)

    def gone(self, path: str) -> None:
        """Removes a name at which, as a call shows, nothing is.

        If no call has met the name yet, nothing was there when the run began either.
        """
        self.settle(path)
        node = self.at(path)
        if node is not None and self._starts.get(path) is node and (node.first is None or node.start != path):
            self._unmake(path, node)
        self.put(path, None)

    def move(self, start: str, end: str) -> None:
        """Renames an object."""
        node = self.at(start)
        self._arrives(node, start, end)
        self.put(start, None)
        self.put(end, node)

    def renew(self, path: str) -> None:
        """Puts others in the place of the directories that were listed in a directory before the run."""
        for one in [one for one, seen in self._before.items() if seen.kind == "dir" and one.rpartition("/")[0] == path]:
            if self.at(one) is not None:
                self.put(one, Node("dir", origin=one))

    def exchange(self, one: str, other: str) -> None:
        """Exchanges two objects."""
        first, second = self.at(one), self.at(other)
        self._arrives(first, one, other)
        self._arrives(second, other, one)
        self.put(one, second)
        self.put(other, first)

    def _arrives(self, node: Node | None, start: str, end: str) -> None:
        """Notes that the contents of a directory are looked up at its new path from now on."""
        if node is not None and node.origin is not None:
            beneath = f"{node.origin}/", f"{start}/"
            for path in [path for path in self._late if path.startswith(beneath)]:
                self.changed(path)
            node.origin, node.arrived = end, self.line

    def seen_exchanged(self, one: str, other: str, end: int) -> None:
        """Corrects what two names were that a call exchanges which ends on a line, if they were seen only after it.

        Each of the objects is then what was seen at the other name, if that was after the end of the call.
        """
        for path, now in ((one, other), (other, one)):
            path = self._looked_up(path)
            late = self._late.get(path)
            if late is None or late.line < self.line:
                continue
            node, seen = self.at(path), self.seen_later(now)
            if node is None or seen is None or self._disk.observed(now).until <= end:
                self.doubts.objects.add(path)
            else:
                node.kind, node.target = self.kind(seen.kind), seen.target
                node.origin = path if node.kind == "dir" else None

    def find(self, root: str, directory: str, path: str, follow: bool, links: Links) -> Found:
        """Resolves a path as the kernel does (path_resolution(7)).

        `root` and `directory` are real paths; `follow` says whether a link at the end is followed.
        """
        over, _, name = path.rpartition("/")
        if name in _NO_NAMES or name == "..":
            return _PathWalk(self, root, directory, path, follow, links).found()
        key = (root, "" if path.startswith("/") else directory, over)
        led = self._walked.get(key)
        if led is None:
            return _PathWalk(self, root, directory, path, follow, links, key).found()
        if led.node is None:
            return Found([*led.names, name], None, led.broken)
        child = self.child(led.node, name)
        if follow:
            self.check_way(led.names, name, child)
        if child is None:
            return Found([*led.names, name], None, len(led.names))
        if follow and child.kind == "sym":
            return _PathWalk(self, root, directory, path, follow, links).found()
        return Found([*led.names, name], child)

    def keep_way(self, key: "_WalkKey", led: Found) -> None:
        """Keeps where the path of a directory led; if it broke off, until anything changes at that place."""
        if len(self._walked) == values.KEPT:
            self._forget_ways()
        self._walked[key] = led
        if led.broken is not None:
            self._breaks.update(led.names[max(led.broken - 1, 0) : led.broken + 1])


#: The root, the directory where a path begins that does not begin at the root, and the path of a directory.
_WalkKey = tuple[str, str, str]


class _PathWalk:
    """The resolution of one path; `key` is that of its directory, if the result is to be kept."""

    def __init__(
        self,
        names: Names,
        root: str,
        directory: str,
        path: str,
        follow: bool,
        links: Links,
        key: _WalkKey | None = None,
    ) -> None:
        self._names = names
        self._links = links
        self._top = list(split(root))
        self._here = list(self._top if path.startswith("/") else split(directory))
        self._left = list(reversed(split(path)))
        self._follows_last = follow or path.endswith("/")
        self._followed = 0
        self._node = names.below_root(self._here)
        self._key = key
        self._keeps = key is not None

    def found(self) -> Found:
        """Where the path leads."""
        while self._left:
            if self._keeps and len(self._left) == 1:
                self._keep_way(list(self._here))
            name = self._left.pop()
            if name == "..":
                self._keeps = self._keeps and self._is_in_directory()
                self._go_to(self._here if self._here == self._top else self._here[:-1])
            elif self._node is None or self._node.kind != "dir" or not self._step(self._node, name):
                names = [*self._here, name, *reversed(self._left)]
                if self._keeps and self._node is not None:
                    self._keep_way(names[:-1], len(self._here))
                return Found(names, None, len(self._here))
        return Found(self._here, self._node, None if self._node is not None else max(len(self._here) - 1, 0))

    def _is_in_directory(self) -> bool:
        return self._node is not None and self._node.kind == "dir"

    def _keep_way(self, names: list[str], broken: int | None = None) -> None:
        """Keeps where the directory's path led or broke off.

        A walk through /proc, whose links differ between processes, is not kept.
        """
        self._keeps = False
        if self._key is not None and names[:1] != PROC and (broken is not None or self._is_in_directory()):
            self._names.keep_way(self._key, Found(names, None if broken is not None else self._node, broken))

    def _step(self, directory: Node, name: str) -> bool:
        """Goes to a name in the directory, or where it leads as a link; false if there is nothing to go to."""
        follows = bool(self._left) or self._follows_last
        if follows and self._here[:1] == PROC:
            self._keeps = False
            if self._follow_magic(name):
                return True
        child = self._names.child(directory, name)
        if follows:
            self._names.check_way(self._here, name, child)
        if child is None:
            return False
        if follows and child.kind == "sym":
            return self._follow(child, name)
        self._here.append(name)
        self._node = child
        return True

    def _follow_magic(self, name: str) -> bool:
        """Follows a link of /proc, if the name is one."""
        led = self._links.magic(join([*self._here, name]))
        if led is None:
            return False
        path, node = led
        self._go_to(split(path))
        if node is not None:
            self._node = node
        return True

    def _follow(self, link: Node, name: str) -> bool:
        """Follows a link; false if it leads nowhere, or if there are too many links."""
        if link.target is None or self._followed == MOST_LINKS:
            return False
        self._links.passed(join([*self._here, name]), link)
        self._followed += 1
        self._turn_to(link.target, self._top)
        return True

    def _turn_to(self, target: str, top: Sequence[str]) -> None:
        self._left.extend(reversed(split(target)))
        if target.startswith("/"):
            self._go_to(top)

    def _go_to(self, names: Sequence[str]) -> None:
        self._here = list(names)
        self._node = self._names.below_root(names)
