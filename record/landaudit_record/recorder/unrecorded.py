"""What a witness heard and a recording does not have.

Each question that the kernel asked Landlock must be asked by a record too: by the same process, about the same object,
its kind and the same rights. What no record asks is counted as a call that a policy may refuse.
"""

from __future__ import annotations

import os
from collections import Counter, defaultdict, deque
from collections.abc import Callable, Iterator
from pathlib import Path

from ..common import jsonl
from ..common.operations import DESCRIPTOR_CALLS, JUDGED, MAKING, MOVES, PATH_CALLS
from . import witness
from .calls.ptrace import INTO_ANOTHER
from .witness import Heard, text
from .writing import ListedTree, Recording

NOT_RECORDED = "asked, not recorded: "
AT_ANOTHER = "asked at another object than the record names: "
NOT_ENDED = "a witness that did not end: what it did not hear is not known"
LOST = "questions that the witness heard and lost"
MISSED = "questions that the witness may have missed"
UNHEARD = "what a module before the witness refuses, which it does not hear"
SIGNAL = "signal"
RENAME_EXCHANGE = 2
#: Kinds of objects that rights for files treat alike; a device's descriptor remembers a right of its own.
_KINDS = {"dir": "dir", "char": "device", "block": "device"}
#: Objects in /proc have other inode numbers each time that the kernel looks them up.
_UNSTABLE = "/proc/"

#: What is asked: the operation, the process, and the object with what the rights depend on.
HeardQuestion = tuple[str, ...]


def tell(folder: Path, recording: Recording) -> None:
    """Counts what the witness of a recording heard and no record asks, if there was a witness."""
    heard = witness.heard_beside(folder)
    if heard is None:
        return
    asked = TraceQuestions(recording.tree)
    for record in recording.written():
        asked.take(record)
    looks = {entry["pid"] for entry in recording.left_out() if entry.get("class") == INTO_ANOTHER}
    signals = {entry["pid"] for entry in recording.left_out() if entry.get("scope") == SIGNAL}
    signals |= recording.reaching(SIGNAL)
    check = Check(recording, asked, looks, signals)
    check.tell(heard)
    own = [{"call": call, "landlock": answer} for call, answer in check.own.items()]
    (folder / witness.ANSWERS).unlink(missing_ok=True)
    if own:
        jsonl.write(folder / witness.ANSWERS, own)
    tell_gaps(recording, heard, has_layers=bool(asked.layers))


def tell_gaps(recording: Recording, heard: Heard, *, has_layers: bool) -> None:
    """Counts what the witness itself says that it did not hear."""
    if heard.end is None:
        recording.leave_out(NOT_ENDED, 0, 0, witness.PROGRAM, asks=True)
        return
    for reason, name in ((LOST, "lost"), (MISSED, "missed")):
        if heard.end[name]:
            recording.leave_out(reason, 0, 0, f"{heard.end[name]}", asks=True)
    if heard.start.get("by") == "lsm" and has_layers:
        recording.leave_out(UNHEARD, 0, 0, witness.PROGRAM, asks=True)


class TraceQuestions:
    """What the records of a trace ask, in their order: for each question its objects, and the calls that ask it."""

    def __init__(self, tree: ListedTree) -> None:
        self._tree = tree
        self._names: dict[HeardQuestion, deque[tuple[str, int]]] = defaultdict(deque)
        self._opened: dict[int, dict[int, jsonl.Record]] = defaultdict(dict)
        self._held: dict[int, set[int]] = defaultdict(set)
        self.layers: Counter[int] = Counter()

    def take(self, record: jsonl.Record) -> None:
        """Adds the questions of a record."""
        taken = _TAKEN.get(record["op"])
        if taken is not None:
            taken(self, record)

    def find(self, question: HeardQuestion) -> tuple[str, int] | None:
        """The name of the object at which the next record asks a question, and its call; None if no record is left."""
        names = self._names.get(question)
        return names.popleft() if names else None

    def is_there(self, name: str) -> bool:
        """Whether a name is that of one object, which was there when the run began."""
        line = self._tree.listed(name)
        return line is not None and "made" not in line

    def _add(self, record: jsonl.Record, name: str, what: str, *about: str) -> None:
        self._names[what, str(record["pid"]), *about].append((name, record["call"]))

    def _kind(self, name: str) -> str | None:
        """The kind of an object by its name in the tree, None for what is not there."""
        if name == "/":
            return "dir"
        line = self._tree.listed(name)
        return None if line is None else str(line["kind"])

    def _open(self, record: jsonl.Record) -> None:
        name, path = record["path"], _real(record)
        self._opened[record["pid"]][record["fd"]] = record
        kind = self._kind(name)
        if kind is None and record.get("create"):
            self._add(record, name, "make", path, "reg")
        if kind is not None or record.get("create"):
            self._add(record, name, "open", path, _KINDS.get(kind or "reg", "file"), record["mode"])
        if kind is not None and record.get("trunc"):
            self._add(record, name, "truncate", path)

    def _on_object(self, record: jsonl.Record) -> None:
        if self._kind(record["path"]) is not None:
            self._add(record, record["path"], record["op"], _real(record))

    def _make(self, record: jsonl.Record) -> None:
        if self._kind(record["path"]) is None:
            kind = {"mkdir": "dir", "symlink": "sym"}.get(record["op"]) or record["kind"]
            self._add(record, record["path"], "make", _real(record), kind)

    def _move(self, record: jsonl.Record) -> None:
        kind = self._kind(record["from"])
        if kind is not None:
            over = _over(self._kind(record["to"]))
            paths = _real(record, "from", "shown"), _real(record, "to", "shown_to")
            exchange = "exchange" if record.get("exchange") else ""
            self._add(record, record["from"], record["op"], *paths, kind, over, exchange)

    def _on_descriptor(self, record: jsonl.Record) -> None:
        opened = self._opened[record["pid"]].get(record["fd"])
        if opened is not None:
            what = "truncate" if record["op"] == "ftruncate" else "ioctl"
            self._add(record, opened["path"], what, _real(opened))

    def _without_object(self, record: jsonl.Record) -> None:
        self._add(record, "", record["op"], *([str(record["port"])] if "port" in record else []))

    def _create(self, record: jsonl.Record) -> None:
        self._held[record["pid"]].add(record["rs"])

    def _close_ruleset(self, record: jsonl.Record) -> None:
        self._held[record["pid"]].discard(record["rs"])

    def _restrict(self, record: jsonl.Record) -> None:
        """A layer, unless the trace does not have the ruleset."""
        self.layers[record["pid"]] += record["rs"] in self._held[record["pid"]]

    def _close(self, record: jsonl.Record) -> None:
        self._opened[record["pid"]].pop(record["fd"], None)

    def _dup(self, record: jsonl.Record) -> None:
        table = self._opened[record["pid"]]
        table.pop(record["to"], None)
        if record["fd"] in table:
            table[record["to"]] = table[record["fd"]]

    def _fork(self, record: jsonl.Record) -> None:
        self._opened[record["child"]] = dict(self._opened[record["pid"]])
        self._held[record["child"]] = set(self._held[record["pid"]])

    def _exit(self, record: jsonl.Record) -> None:
        self._opened.pop(record["pid"], None)
        self._held.pop(record["pid"], None)


_TAKEN: dict[str, Callable[[TraceQuestions, jsonl.Record], None]] = {
    **dict.fromkeys(JUDGED, TraceQuestions._without_object),
    **dict.fromkeys(PATH_CALLS, TraceQuestions._on_object),
    **dict.fromkeys(MAKING, TraceQuestions._make),
    **dict.fromkeys(MOVES, TraceQuestions._move),
    **dict.fromkeys(DESCRIPTOR_CALLS, TraceQuestions._on_descriptor),
    "open": TraceQuestions._open,
    "adopt": TraceQuestions._close,
    "close": TraceQuestions._close,
    "dup": TraceQuestions._dup,
    "fork": TraceQuestions._fork,
    "exit": TraceQuestions._exit,
    "create": TraceQuestions._create,
    "close_rs": TraceQuestions._close_ruleset,
    "restrict": TraceQuestions._restrict,
}


def _real(record: jsonl.Record, path: str = "path", shown: str = "shown") -> str:
    """The real path that a member of a record stands for."""
    return str(record.get(shown, record[path]))


class Check:
    """Looks for the record of each event; `looks` and `signals` are the threads of which such calls are counted."""

    def __init__(self, recording: Recording, asked: TraceQuestions, looks: set[int], signals: set[int]) -> None:
        self._recording = recording
        self._asked = asked
        self._counted = {"ptrace_access_check": looks, "task_kill": signals}
        self._opened: set[str] = set()
        self._objects: dict[str, tuple[str, int]] = {}
        self._remounts: set[int] = set()
        self._restricted: Counter[tuple[int, int]] = Counter()
        #: What Landlock alone answered to calls: the first refusal of each, or `ok`.
        self.own: dict[int, str] = {}

    def tell(self, heard: Heard) -> None:
        """Counts each event that no record explains."""
        for number, event in heard.events():
            for question in self._questions(event):
                self._ask(question, number, event)
            self._ask_others(number, event)

    def _ask(self, question: HeardQuestion, number: int, event: jsonl.Record) -> None:
        found = self._asked.find(question)
        if found is None and question[0] == "rename":
            found = self._asked.find(_onto_a_file(question))
        if found is None:
            self._leave_out(NOT_RECORDED, number, event)
            return
        name, call = found
        if "landlock" in event and self.own.get(call, "ok") == "ok":
            self.own[call] = witness.answer(event)
        if event.get("chain") and self._asked.is_there(name) and not event["path"].startswith(_UNSTABLE):
            device, inode = event["chain"][0][:2]
            if self._objects.setdefault(name, (device, inode)) != (device, inode):
                self._leave_out(AT_ANOTHER, number, event)

    def _leave_out(self, reason: str, number: int, event: jsonl.Record) -> None:
        self._recording.leave_out(f"{reason}{event['hook']}", number, event["pid"], described(event), asks=True)

    def _questions(self, event: jsonl.Record) -> Iterator[HeardQuestion]:
        """What is asked by an event that a policy for files or ports may refuse."""
        hook, pid = event["hook"], str(event["pid"])
        chain = event.get("chain") or []
        if chain and "i" in chain[-1][5]:
            return
        if hook == "file_open":
            yield from self._open(event, chain[0][4])
        elif hook in ("file_ioctl", "file_ioctl_compat", "file_truncate"):
            yield from self._on_file(event, chain[0][4])
        elif hook in witness.MOUNTS:
            yield from self._mount(event)
        elif hook in ("socket_bind", "socket_connect"):
            if witness.asks_port(event):
                yield hook.removeprefix("socket_"), pid, str(event["port"])
        elif hook in ("path_rename", "path_link"):
            kinds = chain[0][4], _over(event["to_chain"][0][4])
            exchange = "exchange" if hook == "path_rename" and event["flags"] & RENAME_EXCHANGE else ""
            yield hook.removeprefix("path_"), pid, text(event["path"]), text(event["to"]), *kinds, exchange
        elif hook in ("path_unlink", "path_rmdir", "path_truncate"):
            yield hook.removeprefix("path_"), pid, text(event["path"])
        elif hook.startswith("path_"):
            kind = {"path_mkdir": "dir", "path_symlink": "sym"}.get(hook) or event["kind"]
            yield "make", pid, text(event["path"]), kind

    def _open(self, event: jsonl.Record, kind: str) -> Iterator[HeardQuestion]:
        """An open file; what is opened for who mounted a file system (overlayfs) is not asked of the process."""
        if event.get("other"):
            return
        self._opened.add(event["file"])
        path, rights = text(event["path"]), event["rights"].replace("x", "")
        if rights:
            yield "open", str(event["pid"]), path, _KINDS.get(kind, "file"), rights
        if "x" in event["rights"]:
            yield "exec", str(event["pid"]), path

    def _on_file(self, event: jsonl.Record, kind: str) -> Iterator[HeardQuestion]:
        """A call on a descriptor that a followed process opened; no policy refuses it on others."""
        is_asked = event["hook"] == "file_truncate" or kind in ("char", "block")
        if event["file"] in self._opened and is_asked:
            yield "truncate" if event["hook"] == "file_truncate" else "ioctl", str(event["pid"]), text(event["path"])

    def _mount(self, event: jsonl.Record) -> Iterator[HeardQuestion]:
        """A change of mounts; mount(2) with MS_REMOUNT asks twice."""
        if not witness.is_again(event, self._remounts):
            yield "mount", str(event["pid"])

    def _ask_others(self, number: int, event: jsonl.Record) -> None:
        """What is not asked about files or ports: another process, and a layer that the process gets."""
        hook, pid = event["hook"], event["pid"]
        threads = {pid, event["tid"]}
        if hook in self._counted and not event["followed"] and not threads & self._counted[hook]:
            if hook == "task_kill":
                self._recording.leave_to_scope(SIGNAL, number, pid, described(event))
            else:
                self._leave_out(NOT_RECORDED, number, event)
        if hook == "restrict" and event["answer"] == 0:
            self._restricted[pid, event["tid"]] += 1
            if self._restricted[pid, event["tid"]] > self._asked.layers[pid]:
                self._leave_out(NOT_RECORDED, number, event)


def _over(kind: str | None) -> str:
    """What a rename removes at its new name: a directory, something else, or nothing."""
    return "nothing" if kind in (None, "none") else "dir" if kind == "dir" else "file"


def _onto_a_file(question: HeardQuestion) -> HeardQuestion:
    """A rename onto a file: it asks what one to a free name asks, and more."""
    return (*question[:5], question[5].replace("nothing", "file"), *question[6:])


def _readable(path: str) -> str:
    """A path of an event, in which a byte that is not UTF-8 is written as in `\\xff`."""
    return os.fsencode(text(path)).decode("utf-8", "backslashreplace")


def described(event: jsonl.Record) -> str:
    """An event in words: the hook, what it is about, and the rights that depend on the call."""
    about = [event["hook"], event.get("rights", ""), event.get("kind", "")]
    about += [_readable(event[name]) for name in ("path", "to") if name in event]
    about += [f"{name} {event[name]}" for name in ("port", "target", "signal") if name in event]
    about += ["(a part of its path)"] if event.get("cut") else []
    return " ".join(filter(None, about))
