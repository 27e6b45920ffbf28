"""From what a witness heard to a tree and a trace, if a recording has no log of strace.

Each event is a question that the kernel asked, and becomes the record that asks the same. So a call that makes a file
and opens it becomes two records, and a call that failed before the kernel asked becomes none. An open file is known by
its address and not by a number: it gets a number of its own if a later event is about it.
"""

from __future__ import annotations

from collections.abc import Callable
from dataclasses import dataclass, field
from pathlib import Path
from typing import Any

from ..common import jsonl
from ..common.finished import FOREIGN_RULESET, OF_SCOPES, OWNERS, Converted
from ..common.problems import Problem
from ..common.progress import Progress
from ..common.reach import ABSTRACT, PTRACE, SIGNAL
from ..common.rights import FS, NET
from ..common.trace_lines import FIRST_MADE_UP
from . import witness
from .calls.descriptors import FOREIGN, LET_THROUGH
from .calls.landlock import can_be_judged, named, scopes_of
from .calls.ptrace import INTO_ANOTHER
from .identities import Identities
from .unwritten import CannotSay, NotAsked
from .names import Node
from .recordings import About
from .scene import DEVICES
from .unrecorded import NOT_RECORDED, described, tell_gaps
from .witness import Heard, text
from .writing import LIMITS, Limits, ListedTree, Recording

RAN_BEFORE = "a process that ran before it was heard: what it asked before is not known"
RUNS_ON = "a process that ran on after the recording: what it asked then is not known"
NOT_SEEN_TO_START = "a process whose start was not heard"
OF_ONE_THREAD = "a layer that one of several threads has"
FEWER_LAYERS = "a call of a thread with fewer layers than its process"
WITHOUT_RIGHTS = "an ioctl on a device that was opened neither to read nor to write"
MOST_OPEN = "more open files than a recording can keep"
O_TMPFILE = 0o20000000
#: O_CREAT and O_TRUNC: a file that is made by this is cut by the next run, which finds it.
CUTS = 0o1100
RENAME_EXCHANGE, RENAME_WHITEOUT = 2, 4
#: The number of lines after which progress may be shown again.
LINES_APART = 1_024


def convert(folder: Path, about: About, limits: Limits = LIMITS) -> Converted:
    """Writes the trees and traces of a recording from its events."""
    heard = Heard(folder / witness.EVENTS)
    objects = Identities()
    with Recording(folder, ListedTree(objects), limits) as recording, Progress("records") as progress:
        hearing = Hearing(recording, objects, about, _last_uses(heard))
        for line, event in heard.events():
            hearing.take(line, event)
            recording.commit()
            if line % LINES_APART == 0:
                progress.show(recording.records)
        if recording.records == 0:
            raise Problem(f"{folder / witness.EVENTS} has no question of a program: record it again")
        tell_gaps(recording, heard, has_layers=True)
        if heard.end is not None and heard.end["left"]:
            recording.leave_out(RUNS_ON, 0, 0, f"{heard.end['left']}", asks=True)
        return recording.finish(heard.end is not None, hearing.further_names(), (ABSTRACT, OWNERS))


def _last_uses(heard: Heard) -> dict[int, int]:
    """The lines on which files are opened about which later events are, each with the line of the last of them."""
    opened: dict[str, int] = {}
    uses: dict[int, int] = {}
    for line, event in heard.events():
        hook = event["hook"]
        if hook == "file_open":
            opened[event["file"]] = line
        elif hook in ("file_truncate", "file_ioctl", "file_ioctl_compat") and _is_kept(event):
            if event["file"] in opened:
                uses[opened[event["file"]]] = line
    return uses


def _is_kept(event: jsonl.Record) -> bool:
    """Whether Landlock answers a question about an open file by what it kept when the file was opened."""
    chain = event.get("chain") or [[""] * 6]
    return bool(event["hook"] == "file_truncate" or chain[0][4] in DEVICES)


@dataclass(slots=True, eq=False, kw_only=True)
class _HeardProcess:
    """A process: its threads as far as they are known, its open files by address, and its layers.

    `whole` says that all its threads are known. `threads` has the rulesets by which each of them restricted itself,
    `layers` those that the trace has, of which every thread has each, and `apart` says that a thread has others.
    `opened` has for an address the number in the trace and the line of the opening. `runs` is the thread of which the
    last event opened a file to run it, `program` the line of the event by which the last program was opened.
    `promised` says that the trace has its no_new_privs, `promises` that a layer needs it there.
    """

    pid: int
    maker: _HeardProcess | None = None
    whole: bool = True
    threads: dict[int, list[str]] = field(default_factory=dict)
    layers: list[str] = field(default_factory=list)
    opened: dict[str, tuple[int, int]] = field(default_factory=dict)
    apart: bool = False
    promised: bool = False
    promises: bool = False
    runs: int | None = None
    program: int = 0
    made_up: int = FIRST_MADE_UP


@dataclass(slots=True)
class _HeardRuleset:
    """A ruleset: the rights that it handles, and the records of its rules without their ruleset."""

    handled: dict[str, Any]
    rules: list[tuple[str, dict[str, Any]]] = field(default_factory=list)


class Hearing:
    """The state of a conversion of events."""

    def __init__(self, recording: Recording, objects: Identities, about: About, last_uses: dict[int, int]) -> None:
        self._recording = recording
        self._objects = objects
        self._about = about
        self._last_uses = last_uses
        self._processes: dict[int, _HeardProcess] = {}
        self._ended: dict[int, _HeardProcess] = {}
        self._rulesets: dict[str, _HeardRuleset] = {}
        self._opened: dict[str, int] = {}
        self._ruled: list[tuple[str, Node]] = []
        self._remounts: set[int] = set()
        self._next = 3
        self._next_ruleset = 1

    def take(self, line: int, event: jsonl.Record) -> None:
        """Takes an event, whose records are all written or none."""
        handler = _HANDLERS.get(event["hook"])
        try:
            if handler is None:
                raise CannotSay(NOT_RECORDED + event["hook"])
            process = self._known(line, event)
            if process.runs == event["tid"] and "x" not in event.get("rights", ""):
                process.runs = None
            handler(self, line, event, process)
        except CannotSay as reason:
            self._recording.drop()
            if not isinstance(reason, NotAsked):
                self._leave_out(str(reason), line, event)

    def further_names(self) -> dict[str, list[str]]:
        """The further names of each object on which the program puts a rule, by the one on which the record puts it."""
        tree = self._recording.tree
        return {name: [other for other in tree.names_of(node) if other != name] for name, node in self._ruled}

    # What is said

    def _say(self, line: int, event: jsonl.Record, op: str, **members: Any) -> None:
        """Writes the record of a question, with the answer of Landlock alone if it is known, else of all modules."""
        if self._processes[event["pid"]].apart:
            raise CannotSay(FEWER_LAYERS)
        self._recording.add(op, event["pid"], line, witness.answer(event), members)

    def _leave_out(self, reason: str, line: int, event: jsonl.Record) -> None:
        self._recording.leave_out(reason, line, event["pid"], described(event), asks=True)

    def _spot(self, event: jsonl.Record, chain: str = "chain") -> tuple[str, str | None]:
        """The name of an object in the tree, and its real path if that is another one."""
        real, node = self._objects.meet(event.get(chain) or [], cut=bool(event.get("cut")))
        over, _, name = real.rpartition("/")
        tree = self._recording.tree
        named_ = tree.gap(over or "/", [name]) if node is None else tree.place(real, node)
        return named_, real if real != named_ else None

    # Processes

    def _known(self, line: int, event: jsonl.Record) -> _HeardProcess:
        """The process of an event; one that is heard for the first time begins."""
        process = self._processes.get(event["pid"])
        if process is None:
            process = self._processes[event["pid"]] = _HeardProcess(pid=event["pid"])
            is_first = self._recording.records == 0 and bool(self._about.command)
            nnp, admin = (self._about.nnp, self._about.admin) if is_first else (False, True)
            self._recording.write("start", process.pid, line, nnp=nnp, admin=admin)
            process.promised = nnp
            process.whole = is_first
            if not is_first and event["hook"] not in ("found", "joined"):
                self._leave_out(NOT_SEEN_TO_START, line, event)
        if process.whole:
            process.threads.setdefault(event["tid"], list(process.layers))
        return process

    def _found(self, line: int, event: jsonl.Record, process: _HeardProcess) -> None:
        """A process that ran before: it runs a program, so that a policy has a place before all that it asks."""
        if process.whole or process.program:
            return
        self._leave_out(RAN_BEFORE, line, event)
        if "program" in event:
            process.program = line
            path = text(event["program"])
            name = self._recording.tree.place(path, self._objects.expect(path, "reg"))
            self._run(line, event, process, name, None, None)

    def _forked(self, line: int, event: jsonl.Record, process: _HeardProcess) -> None:
        """A thread that begins, or a process with a copy of what its maker has."""
        child, thread = event["child"], event["thread"]
        layers = process.threads.get(event["tid"], process.layers)
        if child == process.pid:
            process.threads[thread] = list(layers)
            return
        self._end(line, child)
        if layers != process.layers:
            self._leave_out(OF_ONE_THREAD, line, event)
        self._processes[child] = _HeardProcess(
            pid=child,
            maker=process,
            whole=process.whole,
            threads={child: list(process.layers)},
            layers=list(process.layers),
            opened=dict(process.opened),
            promised=process.promised,
        )
        self._recording.write("fork", process.pid, line, child=child)

    def _executed(self, line: int, event: jsonl.Record, process: _HeardProcess) -> None:
        """A program runs: no other thread is left, under the process's own number."""
        layers = process.threads.get(event["tid"], process.layers)
        process.threads = {process.pid: layers}
        process.whole = True
        self._settle(line, event, process)

    def _exited(self, line: int, event: jsonl.Record, process: _HeardProcess) -> None:
        process.threads.pop(event["tid"], None)
        self._settle(line, event, process)
        if event["last"]:
            self._end(line, process.pid)

    def _end(self, line: int, pid: int) -> None:
        """Ends a process, if it is there; its number may be used again."""
        process = self._processes.pop(pid, None)
        if process is not None:
            self._ended[pid] = process
            self._recording.write("exit", pid, line)

    def _may_refuse(self, process: _HeardProcess, target: int) -> bool:
        """Whether a process may be under other layers than the one that reaches it, as in `others.may_refuse`."""
        other = self._processes.get(target) or self._ended.get(target)
        at = other
        while at is not None and at is not process:
            at = at.maker
        return other is None or at is None or other.layers[: len(process.layers)] != process.layers

    def _looked(self, line: int, event: jsonl.Record, process: _HeardProcess) -> None:
        self._reaches(PTRACE, line, event, process)
        if self._may_refuse(process, event["target"]):
            self._recording.leave_out(INTO_ANOTHER, line, event["pid"], described(event), asks=True, reach=True)

    def _signaled(self, line: int, event: jsonl.Record, process: _HeardProcess) -> None:
        self._reaches(SIGNAL, line, event, process)

    def _reaches(self, asks: str, line: int, event: jsonl.Record, process: _HeardProcess) -> None:
        if event["target"] != process.pid:
            self._recording.reaches(asks, process.pid, [event["target"]], line, described(event))

    # Files

    def _open(self, line: int, event: jsonl.Record, process: _HeardProcess) -> None:
        if event.get("other") and not self._objects.is_below_root(event.get("chain") or []):
            return  # asked for who mounted an overlayfs, at a file of its layers
        self._opened[event["file"]] = line
        if event["flags"] & O_TMPFILE:
            self._objects.makes(text(event["path"]))
        path, shown = self._spot(event)
        rights = event["rights"]
        if "x" in rights:
            role = "interpreter" if process.runs == event["tid"] else None
            process.program = process.program if role else line
            process.runs = event["tid"]
            self._run(process.program, event, process, path, shown, role)
        elif rights:
            self._open_file(line, event, process, path, shown)

    def _open_file(self, line: int, event: jsonl.Record, process: _HeardProcess, path: str, shown: str | None) -> None:
        """A file that is opened; its number stays open as long as events are about the file."""
        if line not in self._last_uses or event["answer"]:
            fd = self._made_up(process)
        elif self._next == FIRST_MADE_UP:
            raise CannotSay(MOST_OPEN)
        else:
            fd = self._next
            self._next += 1
            process.opened[event["file"]] = (fd, line)
        cuts = event["flags"] & CUTS == CUTS and self._objects.is_made(shown or path)
        self._say(line, event, "open", path=path, fd=fd, mode=event["rights"], shown=shown, cuts=cuts)
        if fd >= FIRST_MADE_UP:
            self._recording.add_close(process.pid, line, fd)

    def _run(
        self, line: int, event: jsonl.Record, process: _HeardProcess, path: str, shown: str | None, role: str | None
    ) -> None:
        """A file that is opened to be run."""
        fd = self._made_up(process)
        self._say(line, event, "open", path=path, fd=fd, mode="r", role=role, shown=shown)
        self._say(line, event, "exec", path=path, role=role, shown=shown)
        self._recording.add_close(process.pid, line, fd)

    def _made_up(self, process: _HeardProcess) -> int:
        process.made_up += 1
        return process.made_up

    def _on_file(self, line: int, event: jsonl.Record, process: _HeardProcess) -> None:
        """A call on an open file, unless it was opened outside of the recording: then no policy refuses the call."""
        opening = self._opened.get(event["file"])
        if opening is None or not _is_kept(event):
            return
        fd, opened = process.opened.get(event["file"], (0, 0))
        is_ioctl = event["hook"] != "file_truncate"
        if not event["rights"]:
            if is_ioctl:
                raise CannotSay(WITHOUT_RIGHTS)
            self._on_object(line, {**event, "hook": "path_truncate"}, process)
            return
        if opened != opening:
            raise CannotSay(FOREIGN)
        if is_ioctl:
            self._say(line, event, "ioctl", fd=fd, driver=event["command"] not in LET_THROUGH)
        else:
            self._say(line, event, "ftruncate", fd=fd)
        if self._last_uses.get(opening) == line:
            del process.opened[event["file"]]
            self._recording.add_close(process.pid, line, fd)

    def _on_object(self, line: int, event: jsonl.Record, process: _HeardProcess) -> None:
        path, shown = self._spot(event)
        self._say(line, event, event["hook"].removeprefix("path_"), path=path, shown=shown)

    def _make(self, line: int, event: jsonl.Record, process: _HeardProcess) -> None:
        path, shown = self._spot(event)
        op = event["hook"].removeprefix("path_")
        self._say(line, event, op, path=path, kind=event.get("kind"), shown=shown)
        if event["answer"] == 0:
            self._objects.makes(shown or path)

    def _move(self, line: int, event: jsonl.Record, process: _HeardProcess) -> None:
        op = event["hook"].removeprefix("path_")
        flags = event.get("flags", 0)
        if flags & RENAME_WHITEOUT:
            raise CannotSay("a rename that leaves a whiteout")
        path, shown = self._spot(event)
        to, shown_to = self._spot(event, "to_chain")
        exchange = bool(flags & RENAME_EXCHANGE)
        members = {"from": path, "to": to, "exchange": exchange, "shown": shown, "shown_to": shown_to}
        self._say(line, event, op, **members)
        self._objects.moves(shown or path, shown_to or to)

    def _mount(self, line: int, event: jsonl.Record, process: _HeardProcess) -> None:
        if not witness.is_again(event, self._remounts):
            self._say(line, event, "mount")

    def _on_port(self, line: int, event: jsonl.Record, process: _HeardProcess) -> None:
        if witness.asks_port(event):
            self._say(line, event, event["hook"].removeprefix("socket_"), port=event["port"])

    # Layers

    def _create(self, line: int, event: jsonl.Record, process: _HeardProcess) -> None:
        scoped, alone = scopes_of(event["scoped"]), not (event["fs"] or event["net"])
        if event["answer"] == 0:
            handled = {"fs": named(event["fs"], FS), "net": named(event["net"], NET), "scoped": scoped}
            self._rulesets[event["ruleset"]] = _HeardRuleset({name: words for name, words in handled.items() if words})
        if not can_be_judged(scoped, alone=alone):
            self._recording.leave_out(OF_SCOPES, line, process.pid, described(event), asks=True)

    def _add_rule(self, line: int, event: jsonl.Record, process: _HeardProcess) -> None:
        ruleset = self._rulesets.get(event["ruleset"])
        if ruleset is None or event["answer"]:
            return
        if event["hook"] == "add_port":
            ruleset.rules.append(("add_port", {"port": event["port"], "net": named(event["allowed"], NET)}))
            return
        real, node = self._objects.meet(event.get("chain") or [], cut=bool(event.get("cut")))
        if node is None:
            raise NotAsked("a rule under what has no path")
        path = self._recording.tree.rule(real, node)
        self._ruled.append((path, node))
        shown = {"shown": real} if real != path else {}
        ruleset.rules.append(("add_path", {"path": path, "fs": named(event["allowed"], FS), **shown}))

    def _restrict(self, line: int, event: jsonl.Record, process: _HeardProcess) -> None:
        """A thread gets a layer; the process has it once each of its threads does."""
        if event["answer"]:
            return
        if not process.whole:
            raise CannotSay(OF_ONE_THREAD)
        process.promises = event["nnp"] and not process.promised
        process.threads[event["tid"]].append(event["ruleset"])
        self._settle(line, event, process)

    def _settle(self, line: int, event: jsonl.Record, process: _HeardProcess) -> None:
        """Writes the layers that all threads of a process have and the trace has not."""
        threads = list(process.threads.values())
        process.apart = any(layers != threads[0] for layers in threads)
        for address in [] if process.apart or not threads else threads[0][len(process.layers) :]:
            self._add_layer(line, event, process, address)

    def _add_layer(self, line: int, event: jsonl.Record, process: _HeardProcess, address: str) -> None:
        """Writes all that makes a layer: the ruleset as it is now, which may be another process's, and its use."""
        process.layers.append(address)
        ruleset = self._rulesets.get(address)
        if ruleset is None:
            raise CannotSay(FOREIGN_RULESET)
        if process.promises:
            process.promised, process.promises = True, False
            self._recording.write("nnp", process.pid, line)
        if not ruleset.handled:
            return
        number = self._next_ruleset
        self._next_ruleset += 1
        self._say(line, event, "create", rs=number, **ruleset.handled)
        for op, members in ruleset.rules:
            self._say(line, event, op, rs=number, **members)
        self._say(line, event, "restrict", rs=number)
        self._recording.write("close_rs", process.pid, line, rs=number)


_Handler = Callable[[Hearing, int, jsonl.Record, _HeardProcess], None]
_HANDLERS: dict[str, _Handler] = {
    "file_open": Hearing._open,
    "file_truncate": Hearing._on_file,
    "file_ioctl": Hearing._on_file,
    "file_ioctl_compat": Hearing._on_file,
    "path_mknod": Hearing._make,
    "path_mkdir": Hearing._make,
    "path_symlink": Hearing._make,
    "path_unlink": Hearing._on_object,
    "path_rmdir": Hearing._on_object,
    "path_truncate": Hearing._on_object,
    "path_rename": Hearing._move,
    "path_link": Hearing._move,
    "socket_bind": Hearing._on_port,
    "socket_connect": Hearing._on_port,
    "ptrace_access_check": Hearing._looked,
    "task_kill": Hearing._signaled,
    "create": Hearing._create,
    "add_path": Hearing._add_rule,
    "add_port": Hearing._add_rule,
    "restrict": Hearing._restrict,
    "found": Hearing._found,
    "joined": Hearing._found,
    "fork": Hearing._forked,
    "exec": Hearing._executed,
    "exit": Hearing._exited,
    **dict.fromkeys(witness.MOUNTS, Hearing._mount),
}
