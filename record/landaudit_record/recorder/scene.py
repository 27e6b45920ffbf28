"""The state of a conversion: names, processes and what was written so far, with the operations that all calls share."""

from __future__ import annotations

import re
from bisect import bisect_left
from collections.abc import Callable, Iterable, Sequence
from contextlib import suppress
from dataclasses import dataclass, replace
from typing import Any

from ..common.restoring import Members
from . import modes
from .disk import Disk
from .unwritten import CannotSay, NotAsked
from .looks import Near
from .modes import NOBODY_KNOWN
from .names import OWN_FILES, Found, Names, Node, join, split
from .ports import Ports
from .processes import UNSEEN, Directories, Handle, Process, Thread
from .recordings import RULESET
from .strace_log import Birth, Births, Call
from .values import Descriptor
from .writing import ListedTree, Recording

AT_FDCWD = -100
CLONE_FS = 0x200
CLONE_FILES = 0x400
CLONE_THREAD = 0x10000
CLONE_NEWNS = 0x20000
CLONE_NEWUSER = 0x10000000
CLONE_NEWNET = 0x40000000
#: The number of ended processes whose parents are kept.
MOST_ENDED = 1_024
#: The directory of processes.
PROC = "proc"
#: What the kernel shows there is that of the reader's network namespace, in objects of its own (proc_sys_net(5)).
NETWORK = "/proc/sys/net"
NO_PATH = "a file without a path"
BY_UNSEEN_LAYER = "a call that a layer of an unknown ruleset may have refused"
ERRORS_OF_LAYERS = frozenset({"EACCES", "EPERM", "EXDEV"})
MOVING = "a relative path while another thread changes the working directory"
SHARED_TABLE = "a descriptor table that two processes share"
DEVICES = ("char", "block")
#: A terminal that a program makes, which is gone when the run has ended (pts(4)).
_TERMINAL = re.compile(r"/dev/pts/\d+")
#: The class of EACCES in a process without layers, and of EACCES that the mode of an object explains.
BY_MODES = "EACCES by file modes, whatever a policy says"
#: What is not known of a move to another directory that file modes refuse: on the way to its names they come before
#: Landlock, which is not asked then, and at the directories after it, which may have said EXDEV first.
BEFORE_MODES = "asked before file modes or not"
_OF_PROCESS = re.compile(r"/proc/(\d+)(?:/task/(\d+))?/(?:fd/(\d+)|(exe|cwd|root)|(?:map_files|ns)/[^/]+)")


@dataclass(slots=True)
class Spot:
    """What a path names at the moment: the real path, and the object if there is one.

    `broken` is how many names of the real path lead to the last directory on it, where the object is missing.
    """

    tree: ListedTree
    real: str
    node: Node | None
    broken: int = 0
    _text: str | None = None

    @property
    def path(self) -> str:
        """The text in the trace: the object's name in the tree, or a name that no object ever has."""
        text = self._text
        if text is None:
            if self.node is not None:
                text = self.tree.place(self.real, self.node)
            else:
                names = split(self.real)
                text = self.tree.gap(join(names[: self.broken]), names[self.broken :])
            self._text = text
        return text

    @property
    def in_directory(self) -> bool:
        """Whether the object exists, or is missing in a directory that exists."""
        return self.node is not None or self.broken == len(split(self.real)) - 1

    @property
    def shown(self) -> str | None:
        """The real path, if the text in the trace is another one."""
        text = self._text if self._text is not None else self.path
        return self.real if self.real != text else None


class Scene:
    """The state of a conversion.

    `call` is the present call. `ruled` has each name on which a record of the program puts a rule, with the object.
    `unmet` are the threads of which the log has nothing yet but the fork that made them, each with whether that fork's
    result is to be doubted.
    `placeless` says whether there was a descriptor that is in a mount without a place. `through` are the processes
    whose links in /proc a path of this call goes through, `near` says which paths may, `reads_links` whether
    readlink(2) was traced, and `hides` whether all of a process in /proc is only for those who may trace it, and for
    the group `hides_not_from`. `protects_links` says whether file modes count for links (proc_sys_fs(5)). `sockets` has the makers of UNIX sockets, each with the moment, and `abstract` which are
    the sockets that have an abstract name (None if nobody knows who made it); `ended` are the processes that ended last.
    `networks` says that a process went to another network namespace, which has abstract names of its own.
    """

    def __init__(
        self,
        names: Names,
        disk: Disk,
        recording: Recording,
        births: Births,
        ports: Ports,
        *,
        reads_links: bool = False,
    ) -> None:
        self.names = names
        self.call: Call | None = None
        self.disk = disk
        self.recording = recording
        self.births = births
        self.ports = ports
        self.tree = recording.tree
        self.threads: dict[int, Thread] = {}
        self.processes: dict[int, Process] = {}
        self.begun: set[int] = set()
        self.unmet: dict[int, bool] = {}
        self.placeless = False
        self.near = Near(elsewhere=tuple(place.rpartition("/")[2] for place in names.places.procs))
        self.through: set[int] = set()
        self.reads_links = reads_links
        self.hides = False
        self.hides_not_from: int | None = None
        self.protects_links = False
        self.sockets: dict[str, tuple[int, int]] = {}
        self.abstract: dict[str, str | None] = {}
        self.networks = False
        self.ended: dict[int, Process] = {}
        self.ruled: list[tuple[str, Node]] = []
        self.handles: dict[str, Node | None] = {}
        self._opened_sockets: dict[Node, Node] = {}
        self._walked: set[tuple[str, str, str]] = set()
        self._links: ThreadLinks | None = None

    def hides_from(self, thread: Thread) -> bool:
        """Whether all of another process in /proc is hidden from a thread that may not trace it."""
        user, group = thread.user, self.hides_not_from
        return self.hides and not (user.known and group is not None and group in user.groups | {user.gid})

    # What is said

    def say(self, thread: Thread, call: Call, op: str, **members: Any) -> None:
        """Writes a record of a call that Landlock judges, with the kernel's answer."""
        self.judged(thread, call, op, members)

    def judged(self, thread: Thread, call: Call, op: str, members: Members) -> None:
        """Writes a record as `say` does, from members that do not change afterwards."""
        process, error = thread.process, call.error
        if thread.layers < len(process.restricted):
            raise CannotSay("a call of a thread with fewer layers than its process")
        if error == "EACCES" and members.get("unknown") != BEFORE_MODES:
            if self._is_by_modes(thread, call, op, members):
                raise NotAsked(BY_MODES)
        if process.unseen_layer and error in ERRORS_OF_LAYERS:
            raise CannotSay(BY_UNSEEN_LAYER)
        if error == "EXDEV" and self._between_mounts(process, members):
            raise NotAsked("EXDEV before Landlock is asked")
        if not self.tree.doubted:
            self.recording.add(op, process.pid, call.line, error or "ok", members)
            return
        members, *others = self.each(members)
        if others and "unknown" not in members:
            members = {**members, "unknown": others[0]["unknown"]}
        self.recording.add(op, process.pid, call.line, error or "ok", members)
        self.say_instead(thread, call, op, *others)

    def say_instead(self, thread: Thread, call: Call, op: str, *others: Members) -> None:
        """Writes after a record, of which `unknown` says what is not known, what it would be otherwise."""
        opened: list[int] = []
        for members in others:
            said: dict[str, Any] = {**members, "otherwise": True}
            if "fd" in members:
                said["fd"] = thread.process.made_up()
                opened.append(said["fd"])
            self.recording.add(op, thread.process.pid, call.line, call.error or "ok", said)
        for number in opened:
            self.note_close(thread, call, number)

    def each(self, members: Members) -> list[Members]:
        """A record, and what it would be with the other objects that may be at its paths."""
        found: list[Members] = [members]
        for member, shown in (("path", "shown"), ("from", "shown"), ("to", "shown_to")):
            doubted = self.tree.doubted.get(members.get(member, ""))
            if doubted is None:
                continue
            real, node = doubted
            spots = [self.there(real, other) for other in node.others]
            found += [
                {**one, member: spot.path, shown: spot.shown, "unknown": node.doubt} for one in found for spot in spots
            ]
        return found

    def _between_mounts(self, process: Process, members: Members) -> bool:
        """Whether the kernel said EXDEV since a move or link leaves its mount, before it asked Landlock.

        Within a mount the file system says so, after Landlock was asked. Where the mounts are not known, a layer may
        have said it, if the process has one.
        """
        paths = (str(members.get(shown) or members.get(path)) for path, shown in (("from", "shown"), ("to", "shown_to")))
        over, to = (path.rpartition("/")[0] or "/" for path in paths)
        is_one = self.names.places.are_one(over, to) if over != to else True
        return not is_one if is_one is not None else not process.confined

    def _is_by_modes(self, thread: Thread, call: Call, op: str, members: Members) -> bool:
        """Whether file modes refuse a call, as far as they are known; no layer does where there is none."""
        if call.error != "EACCES":
            return False
        runs, asker = call.name in ("execve", "execveat"), thread.user.asker
        if not thread.process.confined:
            return True
        return asker is not None and modes.refuse(asker, self.disk.mode, op, members, runs)

    def may_end_by_modes(self, thread: Thread, spot: Spot) -> bool:
        """Whether modes end a way with EACCES, before Landlock is asked."""
        asker = thread.user.asker
        closed = asker is not None and not modes.let_through(asker, self.disk.mode, spot.real)
        return closed or not thread.process.confined

    def may_ask_before_modes(self, thread: Thread, call: Call, op: str, start: Spot, end: Spot) -> bool:
        """Whether Landlock may have been asked about a move that file modes refuse, and may say EXDEV in their place."""
        if start.real.rpartition("/")[0] == end.real.rpartition("/")[0]:
            return False
        asker = thread.user.asker
        ways = asker is None or all(modes.let_through(asker, self.disk.mode, one.real) for one in (start, end))
        return ways and self._is_by_modes(thread, call, op, {"from": start.real, "to": end.real})

    def note(self, thread: Thread, call: Call, op: str, **members: Any) -> None:
        """Writes a record that only keeps the state right, without the kernel's answer."""
        self.recording.add(op, thread.process.pid, call.line, None, members)

    def leave_out(
        self, thread: Thread, call: Call, reason: str, *, asks: bool = False, reach: bool = False
    ) -> None:
        """Counts a call that trace and tree can't express; `asks` and `reach` are as in `Recording.leave_out`."""
        self.recording.leave_out(reason, call.line, thread.process.pid, call.text, asks=asks, reach=reach)

    def further_names(self) -> dict[str, list[str]]:
        """The further names of each object on which the program puts a rule, by the one on which the record puts it."""
        return {name: [other for one in (node, *node.others) for other in self.tree.names_of(one) if other != name]
                for name, node in self.ruled}

    # Paths

    def spot(self, thread: Thread, base: Descriptor | None, path: str, follow: bool) -> Spot:
        """What a path names for a thread, from a directory's descriptor or its working directory."""
        if path == "" and base is not None:
            return self.opened(thread, base)
        return self.written(self.find(thread, base, path, follow))

    def opened(self, thread: Thread, of: Descriptor) -> Spot:
        """What a descriptor is open on."""
        if of.path is None:
            raise NotAsked(NO_PATH)
        handle = thread.process.table.get(of.number)
        if handle is not None and handle.node is not None:
            return self.there(of.path, handle.node)
        return self.written(self.find(thread, of, of.path, True))

    def find(self, thread: Thread, base: Descriptor | None, path: str, follow: bool) -> Found:
        """Resolves a path for a thread, and lists the links on its way."""
        if base is None or base.number == AT_FDCWD:
            directory = self._working_directory(thread, base, relative=not path.startswith("/"))
        else:
            directory = base.path if base.path is not None else thread.directories.directory
        links = self._links
        if links is None or links.thread is not thread:
            links = self._links = ThreadLinks(self, thread)
        found = self.names.find(thread.directories.root, directory, path, follow, links)
        if found.broken is not None and found.names[:1] == [PROC] and (link := _OF_PROCESS.match(found.path)):
            self.through.add(int(link[1]))
        return found

    def _working_directory(self, thread: Thread, base: Descriptor | None, *, relative: bool) -> str:
        """The working directory of the present call, which strace tells for some calls as it was when they began.

        For a relative path it must be known whether another thread has gone elsewhere since.
        """
        directories, call = thread.directories, self.call
        moves = call is not None and (call.line < directories.since or self._is_moving(call, directories))
        if not moves and base is not None and base.path is not None:
            directories.directory, directories.unsure = base.path, False
        if relative and (moves or directories.unsure):
            raise CannotSay(MOVING)
        return directories.directory

    def _is_moving(self, call: Call, directories: Directories) -> bool:
        """Whether another thread with the same working directory goes elsewhere during a call."""
        for tid, moves in self.births.moves.items():
            thread = self.threads.get(tid)
            if tid == call.tid or thread is None or thread.directories is not directories:
                continue
            last = bisect_left(moves, (call.end, 0)) - 1
            if last >= 0 and moves[last][1] > call.line:
                return True
        return False

    def has_walked(self, thread: Thread, over: str | None, path: str) -> bool:
        """Whether the links on the way of a path are listed, from the directory `over` or the working directory."""
        directory = over if over is not None else thread.directories.directory
        return (thread.directories.root, "" if path.startswith("/") else directory, path) in self._walked

    def list_links(self, thread: Thread, base: Descriptor | None, path: str) -> None:
        """Lists the symbolic links on the way of a path, once for each directory and path."""
        directory = base.path if base is not None and base.path is not None else thread.directories.directory
        walk = (thread.directories.root, "" if path.startswith("/") else directory, path)
        if walk not in self._walked:
            with suppress(CannotSay):
                self.find(thread, base, path, True)
            if not self.through:
                self._walked.add(walk)

    def go_to(self, thread: Thread, directory: str) -> None:
        """A thread works in a directory from now on."""
        directories, call = thread.directories, self.call
        if call is not None:
            directories.unsure = call.line < directories.since or self._is_moving(call, directories)
            directories.since = call.end
        directories.directory = directory
        self.near.relative = self.near.relative or split(directory)[:1] == (PROC,)

    def written(self, found: Found) -> Spot:
        """What a resolved path names, as the trace writes it."""
        return Spot(self.tree, found.path, found.node, found.broken or 0)

    def there(self, real: str, node: Node) -> Spot:
        """An object at a real path."""
        return Spot(self.tree, real, node)

    def stand_in(self, spot: Spot, kind: str) -> Spot:
        """An object of another kind at the place of one: what the kernel asks Landlock by a call that is not for it."""
        return self.there(spot.real, Node(kind))

    def as_opened(self, spot: Spot, socket: Node) -> Spot:
        """A socket as a pipe, with the same rules on it: it can't be opened, but first the kernel asks Landlock."""
        pipe = self._opened_sockets.get(socket)
        if pipe is None and socket.shares:
            return self.stand_in(spot, "fifo")
        if pipe is None:
            self.tree.place(spot.real, socket)
            pipe = self._opened_sockets[socket] = Node("fifo", ruled=True, first=socket.first)
        return self.there(spot.real, pipe)

    def absent(self, real: str) -> Spot:
        """A name in a directory at which, as the kernel says, nothing is, whatever was known before."""
        self.names.gone(real)
        return self.missing(real)

    def missing(self, real: str) -> Spot:
        """A name in a directory, at which nothing is."""
        return Spot(self.tree, real, None, len(split(real)) - 1)

    def present(self, real: str, kind: str, among: Sequence[str] = ()) -> Spot:
        """An object that is known to exist, whatever was known of it before; `among` are the kinds that it may have."""
        return self.there(real, self.names.ensure(real, kind, among))

    def as_missing(self, spot: Spot) -> Spot:
        """The same name, now that the kernel says that nothing is there."""
        if spot.node is not None and spot.real != "/":
            return self.absent(spot.real)
        if spot.in_directory:
            self.names.never(spot.real)
        return spot

    def moved(self, moves: dict[str, str]) -> None:
        """Directories moved: the processes that work in them, and what is open in them, move along."""
        shared = {id(thread.directories): thread.directories for thread in self.threads.values()}
        for directories in shared.values():
            old = (directories.directory, directories.root)
            directories.directory, directories.root = (_went(path, moves) for path in old)
        for process in self.processes.values():
            process.program = _went(process.program, moves)
            for handle in process.table.values():
                handle.path = _went(handle.path, moves) if handle.path is not None else None

    def renamed(self, node: Node, start: str, end: str) -> None:
        """A file got another name: what is open on it by the old one, not by a further name of it, is so by the new."""
        for process in self.processes.values():
            if process.image is node and process.program == start:
                process.program = end
            for handle in process.table.values():
                if handle.node is node and handle.path == start:
                    handle.path = end

    # Descriptors

    def handle(self, thread: Thread, call: Call, of: Descriptor) -> Handle | None:
        """What a process knows of a descriptor, if it is open.

        A number of which nothing is known, or that stands for another kind of object than the known one, was opened
        unseen: by pipe(2) or the like, or elsewhere.
        """
        known = thread.process.table.get(of.number)
        if of.behind is None or (known is not None and (known.path is None) == (of.path is None)):
            return known
        return self.receive(thread, call, of, close_on_exec=False)

    def receive(self, thread: Thread, call: Call, of: Descriptor, *, close_on_exec: bool) -> Handle:
        """Puts a descriptor that came from elsewhere under its number, of the kind that it has."""
        handle = Handle(of.path, adopted=self._kind(of), close_on_exec=close_on_exec, foreign=_is_foreign(of))
        handle.node = self.names.at(of.path) if of.path is not None and not of.deleted and not of.in_memory else None
        handle.socket = of.behind
        self.put(thread, call, of.number, handle)
        return handle

    def device(self, of: Descriptor) -> str | None:
        """The kind of the device that a descriptor is open on, if it is open on one, as far as that is known.

        strace is not asked: it would look at the object, and wait for a traced process that serves its file system.
        """
        if of.device is not None or of.path is None:
            return of.device
        node = self.names.at(of.path)
        kind = node.kind if node is not None else "char" if _TERMINAL.fullmatch(of.path) else None
        return kind if kind in DEVICES else None

    def is_unsure(self, of: Descriptor) -> bool:
        """Whether nothing says if a descriptor is open on a device: neither the log nor the disk knows its path."""
        if of.path is None or of.in_memory or of.device is not None or self.names.at(of.path) is not None:
            return False
        return self.device(of) is None and self.disk.look(of.path) is None

    def _kind(self, of: Descriptor) -> str:
        if self.device(of) is not None:
            return "device"
        if of.path is None:
            return "other"
        if of.in_memory:
            return "reg"
        node = self.names.at(of.path)
        return "reg" if node is not None and node.kind == "reg" else "other"

    def adopt(self, thread: Thread, call: Call, number: int, handle: Handle) -> None:
        """Makes sure that the trace knows a descriptor."""
        if not handle.in_trace:
            self.note(thread, call, "adopt", fd=number, kind=handle.adopted)
            handle.in_trace = True

    def close(self, thread: Thread, call: Call, number: int, *, is_last: bool = False) -> None:
        """Closes a descriptor; `is_last` says that the call does nothing after this."""
        handle = thread.process.table.pop(number, None)
        if handle is None:
            return
        if handle.ruleset is not None:
            if handle.ruleset != UNSEEN and not thread.process.holds(handle.ruleset):
                self.note(thread, call, "close_rs", rs=handle.ruleset)
        elif handle.in_trace:
            add = self.recording.close_last if is_last else self.recording.add_close
            add(thread.process.pid, call.line, number)

    def note_close(self, thread: Thread, call: Call, number: int) -> None:
        """Writes that a descriptor is closed."""
        self.recording.add_close(thread.process.pid, call.line, number)

    def put(self, thread: Thread, call: Call, number: int, handle: Handle) -> None:
        """Puts a descriptor under a number; an unseen descriptor there is closed."""
        table = thread.process.table
        if number in table:
            self.close(thread, call, number)
        table[number] = handle

    # Processes

    def known(self, tid: int, line: int, text: str) -> Thread | None:
        """The thread of a line, which may be its end; a thread that is met for the first time is begun by its fork.

        None if the log has no such fork.
        """
        thread = self.threads.get(tid)
        if thread is None and (birth := self.births.next(tid)) is not None:
            self.begin(birth, tid, line, text)
            thread = self.threads.get(tid)
        if self.unmet:
            self.unmet.pop(tid, None)
        return thread

    def begin(self, birth: Birth, tid: int, line: int, text: str) -> None:
        """A thread that a fork makes, or a process with a copy of what its maker has.

        If a number is used again, its last thread has ended, even if nothing else says so. The maker may be met here
        for the first time, since its own fork may not have ended either.
        """
        self.begun.add(birth.line)
        self.end(tid, line)
        maker = self.known(birth.maker, line, text)
        if maker is None:
            return
        directories = maker.directories if birth.flags & CLONE_FS else maker.directories.copy()
        if birth.flags & CLONE_THREAD:
            self._join(Thread(tid, maker.process, directories, maker.layers, user=maker.user))
            return
        process = Process(
            tid,
            maker.process.program,
            maker.process.image,
            confined=maker.process.confined,
            restricted=list(maker.process.restricted),
            maker=maker.process,
            unseen_layer=maker.process.unseen_layer,
        )
        if birth.flags & CLONE_NEWNET:
            self.to_other_network()
        process.table = {number: handle.copy() for number, handle in maker.process.table.items()}
        process.next_made_up = maker.process.next_made_up
        user = maker.user if not birth.flags & (CLONE_NEWUSER | CLONE_NEWNS) else NOBODY_KNOWN
        self._join(Thread(tid, process, directories, maker.layers, user=user))
        self.processes[tid] = process
        if birth.flags & CLONE_FILES:
            self.recording.leave_out(SHARED_TABLE, line, maker.process.pid, text, asks=True)
        self.recording.write("fork", maker.process.pid, line, child=tid)

    def to_other_network(self) -> None:
        """A process goes to another network namespace: it has other objects in /proc/sys/net, and other abstract names."""
        self.names.renew(NETWORK)
        self.networks = True

    def doubt(self, maker: Thread) -> None:
        """Doubts the result of a fork after which its thread was killed: strace may show a wrong value."""
        if maker.forked in self.unmet:
            self.unmet[maker.forked] = True

    def have_ended(self, threads: Iterable[int]) -> bool:
        """Whether none of these threads is left, as far as the log can be believed."""
        return all(self.unmet.get(tid, False) for tid in threads)

    def _join(self, thread: Thread) -> None:
        self.threads[thread.tid] = thread
        thread.process.threads.add(thread.tid)
        thread.process.threaded = thread.process.threaded or len(thread.process.threads) > 1
        own = f"/proc/{thread.process.pid}"
        if len(thread.process.threads) == 1:
            self.names.put(own, Node("dir", origin=OWN_FILES))
        elif thread.tid != thread.process.pid:
            self.names.put(f"/proc/{thread.tid}", Node("dir", origin=OWN_FILES))
        self.names.put(f"{own}/task/{thread.tid}", Node("dir", origin=OWN_FILES))

    def start(self, thread: Thread, call: Call, *, nnp: bool, admin: bool) -> None:
        """Starts a process that exists when the trace begins, with or without no_new_privs and CAP_SYS_ADMIN."""
        self._join(thread)
        self.processes[thread.process.pid] = thread.process
        self.recording.write("start", thread.process.pid, call.line, nnp=nnp, admin=admin)

    def end(self, tid: int, line: int) -> None:
        """Ends a thread, and its process with its last thread."""
        thread = self.threads.pop(tid, None)
        if thread is None:
            return
        process = thread.process
        process.threads.discard(tid)
        if tid != process.pid:
            self.names.put(f"/proc/{tid}", None)
        if self.have_ended(process.threads) and self.processes.get(process.pid) is process:
            del self.processes[process.pid]
            self._keep_ended(process)
            self.names.put(f"/proc/{process.pid}", None)
            self.recording.write("exit", process.pid, line)

    def _keep_ended(self, process: Process) -> None:
        """Keeps a process that ended: its number is its own until its parent has waited for it."""
        self.ended.pop(process.pid, None)
        self.ended[process.pid] = process
        if len(self.ended) > MOST_ENDED:
            del self.ended[next(iter(self.ended))]


def _is_foreign(of: Descriptor) -> bool:
    """Whether it matters for Landlock where a descriptor comes from: a socket, a ruleset, or a file that was opened.

    Memfds, pipes and the like are never refused (memfd_create(2), pipe(2)).
    """
    if of.path is not None:
        return not of.in_memory
    return of.behind is not None and (of.behind.startswith("socket:") or of.behind == RULESET)


@dataclass(slots=True)
class ThreadLinks:
    """Links as a thread meets them."""

    scene: Scene
    thread: Thread

    def passed(self, path: str, node: Node) -> None:
        """Lists a symbolic link that was followed."""
        self.scene.tree.place(path, node)

    def magic(self, path: str) -> tuple[str, Node | None] | None:
        """Where a link of /proc leads, and to which object if that is known (proc(5))."""
        if not path.startswith("/proc/"):
            return None
        own = f"/proc/{self.thread.process.pid}"
        if path == "/proc/self":
            return own, None
        if path == "/proc/thread-self":
            return f"{own}/task/{self.thread.tid}", None
        link = _OF_PROCESS.fullmatch(path)
        if link is None:
            return None
        self.scene.through.add(int(link[1]))
        named = self.scene.threads.get(int(link[2] or link[1]))
        return self._of_thread(named, link[4], link[3]) if named is not None else None

    def _of_thread(self, named: Thread, name: str | None, number: str | None) -> tuple[str, Node | None] | None:
        """Where a link of a thread leads: what is its own is not its reader's."""
        match name:
            case "exe":
                return (named.process.program, named.process.image) if named.process.program else None
            case "cwd":
                return named.directories.directory, None
            case "root":
                return named.directories.root, None
        if number is None:
            return None
        handle = named.process.table.get(int(number))
        if handle is None:
            raise CannotSay("a file by a descriptor of which nothing is known")
        if handle.path is None:
            raise NotAsked(NO_PATH)
        return handle.path, handle.node


#: What a call of a thread becomes.
Handler = Callable[[Scene, Thread, Call], None]


def _went(path: str, moves: dict[str, str]) -> str:
    """A path after directories moved."""
    for start, end in moves.items():
        if path == start or path.startswith(start + "/"):
            return end + path[len(start) :]
    return path
