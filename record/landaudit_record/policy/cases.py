"""What a policy must allow and what it must refuse: a TOML file of cases, in the words of a trace.

    [[refused]]
    call = "open r"
    path = "/home/me/.ssh/id_ed25519"
    [[allowed]]
    call = "connect"
    port = 443
    abi = "4-5"

A path has the kind that it has on this machine; if it does not exist, `kind` of the case says its kind. An object that
a call makes does not exist before. Without `abi`, a case is about every ABI.

The file may also have questions about all objects at once (`over_sets`).
"""

from __future__ import annotations

from collections.abc import Iterator, Mapping
from dataclasses import dataclass, field
from pathlib import Path
from typing import Any, NoReturn

from ..common import resolving, variables
from ..common.documents import DocumentPlace, check_keys, tables, unknown
from ..common.jsonl import Record
from ..common.numbered import Numbered
from ..common.operations import DESCRIPTOR_CALLS, EXCHANGE, JUDGED, MAKING, OPERATIONS, REMOVING
from ..common.resolving import DISK, LinkLoop
from ..common.rights import judged
from ..common.trees import ROOT, Tree, directory_of, joined, upwards
from ..common.variables import NOTHING_GIVEN, Given
from ..recorder import disk, formats
from ..recorder.formats import Format
from . import over_sets, running
from .asking import Question, opening
from .over_sets import ALL_ABIS as ALL_ABIS
from .over_sets import abis_of, are_later
from .policies import LONGEST_PATH, read_port

KINDS = ("reg", "dir", "sym", "char", "block", "fifo", "sock")
MODES = ("r", "w", "rw")
MADE = ("reg", "char", "block", "fifo", "sock")
#: What a case says of some calls besides the operation.
WORDS = {
    "open": [f" {mode}{flags}" for mode in MODES for flags in ("", " create", " trunc", " create trunc")],
    "ioctl": [f" {mode}" for mode in MODES],
    "mknod": [f" {kind}" for kind in MADE],
}
CALLS = tuple(word + rest for of in OPERATIONS.values() if of.name in JUDGED
              for word in ((of.name, EXCHANGE) if EXCHANGE in of.optional else (of.name,))
              for rest in WORDS.get(word, [""]))
KEYS = ("call", "path", "kind", "from", "to", "to_kind", "port", "abi")
NEW_NAME, OTHER_KIND, AS_PIPE = "~new~", "~other kind~", "~pipe~"
#: The place of a call that has none.
NO_PLACE = "-"


@dataclass(frozen=True)
class Case:
    """One case: whether its call must be refused, at which ABIs, the call and its place in words, and what is asked.

    `only_later` says that it is about ABIs alone that are judged as the newest of these; `unknown` is what may be asked
    besides, if nobody knows that.
    """

    refused: bool
    abis: range
    call: str
    place: str
    question: Question
    only_later: bool = False
    unknown: str | None = None

    @property
    def must_be(self) -> str:
        """What the answer must be."""
        return "refused" if self.refused else "allowed"

    @property
    def text(self) -> str:
        """The case in words; the call alone where it has no place."""
        return self.call if self.place == NO_PLACE else f"{self.call} {self.place}"


def _opened_to_run(file: str) -> Question:
    """What execve(2) asks about a file: the kernel opens it for reading and for execution."""
    return opening(file, "r"), {"op": "close"}, {"op": "exec", "path": file}


@dataclass
class Cases:
    """The cases of a file, in its order, those that must be refused first; the objects that they name; and the
    questions."""

    path: Path
    cases: list[Case] = field(default_factory=list)
    tree: Tree = field(default_factory=Tree)
    questions: list[over_sets.SetQuestion] = field(default_factory=list)


def read(path: Path, given: Given = NOTHING_GIVEN) -> Cases:
    """The cases in a file; any error in it is a Problem that names its position and says what would be right."""
    document, place = variables.read(path, given).table, DocumentPlace(path)
    check_keys(document, ("refused", "allowed", *over_sets.KINDS), place)
    found, registered = Cases(path), _registered()
    for key in ("refused", "allowed"):
        for number, table in enumerate(tables(document.get(key, []), key, place), start=1):
            reader = _CaseReader(found.tree, table, place / Numbered(key, number), registered)
            found.cases.append(reader.case(refused=key == "refused"))
    found.questions.extend(over_sets.read(document, place))
    if not found.cases and not found.questions:
        place.fault("no case: write one as [[refused]] or [[allowed]] with a call and its path or port")
    return found


def _registered() -> list[Format] | None:
    """The formats of binfmt_misc that this machine has, if they can be read."""
    found = formats.registered()
    return None if found is None else [Format(**told) for told in found]


@dataclass(frozen=True)
class _CaseReader:
    """Reads one case, and lists what it names in the tree.

    `formats` are those of binfmt_misc, None if they are not known; `unknown` gets what may be asked besides.
    """

    tree: Tree
    table: Mapping[str, Any]
    place: DocumentPlace
    formats: list[Format] | None
    unknown: list[str] = field(default_factory=list)

    def case(self, *, refused: bool) -> Case:
        """The case."""
        check_keys(self.table, KEYS, self.place)
        call = self._call()
        members = self._members(call)
        question = self._question(call, members)
        shown = " -> ".join(str(self.table[key]) for key in members if key in ("path", "from", "to"))
        place = f"port {self.table['port']}" if "port" in members else shown or NO_PLACE
        abis = abis_of(self.table, self.place)
        return Case(refused, judged(abis), call, place, question, are_later(abis), next(iter(self.unknown), None))

    def _call(self) -> str:
        call = self.table.get("call")
        if call is None:
            self.place.fault("call is missing")
        text = " ".join(call.split()) if isinstance(call, str) else call
        if text not in CALLS:
            (self.place / "call").fault(f"unknown call {unknown(str(text), CALLS)}")
        return str(text)

    def _members(self, call: str) -> tuple[str, ...]:
        """The members that a call has besides its name; others are a fault."""
        op = call.split()[0]
        operation = OPERATIONS["rename" if op == EXCHANGE else op]
        needed = ("path",) if op in DESCRIPTOR_CALLS else operation.paths + operation.ports
        kinds = {"path": ("kind",), "from": ("kind", "to_kind")}.get(needed[0] if needed else "", ())
        check_keys(self.table, ("call", *needed, *kinds, "abi"), self.place)
        for key in needed:
            if key not in self.table:
                self.place.fault(f"{key} is missing: {call!r} needs it")
        return needed

    def _question(self, call: str, members: tuple[str, ...]) -> Question:
        """The records that ask for the call."""
        op, *words = call.split()
        if members == ("path",):
            return self._on_path(op, words)
        if members == ("from", "to"):
            return self._move(op)
        if members == ("port",):
            return ({"op": op, "port": read_port(self.table["port"], self.place / "port")},)
        return ({"op": op},)

    def _on_path(self, op: str, words: list[str]) -> Question:
        if op == "open":
            mode, *flags = words
            makes = "create" in flags
            path = self._there("path", "kind", follows=True, or_new=makes)
            path = self._as_pipe(path) if self.tree.kind(path) == "sock" else path
            return (opening(path, mode, **{flag: True for flag in flags}),)
        if op in MAKING:
            return ({"op": op, "path": self._new("path"), **dict(zip(OPERATIONS[op].values, words))},)
        path = self._there("path", "kind", follows=op not in REMOVING)
        if op in REMOVING and path != ROOT and (self.tree.kinds[path] == "dir") != (op == "rmdir"):
            path = self._stand_in(path, "dir" if op == "rmdir" else "reg")
        if op == "ftruncate":
            return opening(path, "w"), {"op": op}
        if op == "ioctl":
            return opening(path, words[0]), {"op": op, "driver": True}
        if op == "exec":
            return tuple(record for file in self._run(path) for record in _opened_to_run(file))
        return ({"op": op, "path": path},)

    def _run(self, path: str) -> tuple[str, ...]:
        """The file that execve(2) runs, and those that run it: the programs after `#!`, and the loader."""
        found = running.running(path, self.table["path"], self.formats)
        for file in found.files[1:]:
            self._list(file, "reg", "path")
        self.unknown.extend([found.unknown] if found.unknown is not None else [])
        return found.files

    def _move(self, op: str) -> Question:
        moved = self._there("from", "kind", follows=False)
        there = self._there("to", "to_kind", follows=False, or_new=op != EXCHANGE)
        kind, replaced, new = self.tree.kind(moved), self.tree.kind(there), f"{there}{NEW_NAME}"
        if op == "link" and kind == "dir" and replaced is None:
            return (self._linked_directory(moved, there),)
        if op != "link" and moved == there != ROOT:
            return ({"op": "rename", "from": moved, "to": new},)
        if op == EXCHANGE:
            return ({"op": "rename", "from": moved, "to": there, EXCHANGE: True},)
        unlike = replaced is not None and (kind == "dir") != (replaced == "dir")
        if op == "link" or not unlike or moved in upwards(there) or there in upwards(moved):
            return ({"op": op, "from": moved, "to": there},)
        removal = {"op": "rmdir" if replaced == "dir" else "unlink", "path": there}
        return removal, {"op": "rename", "from": moved, "to": new}

    def _linked_directory(self, directory: str, new: str) -> Record:
        """A link of a directory, which no file system makes: the kernel says so after it has asked Landlock."""
        if directory_of(directory) != directory_of(new):
            (self.place / "from").fault(f"{directory} is a directory: its link in another one is not judged here")
        return {"op": "mkdir", "path": new}

    def _there(self, key: str, kind_key: str, *, follows: bool, or_new: bool = False) -> str:
        """The path of an object that exists, which is then listed; or of a new one if the call makes it."""
        path = self._real(key, follows=follows)
        given, seen = self.table.get(kind_key), disk.look(path)
        if given is not None and given not in KINDS:
            (self.place / kind_key).fault(f"unknown kind {unknown(str(given), KINDS)}")
        if given is not None and seen is not None and given != seen.kind:
            (self.place / kind_key).fault(f"{path} has kind {seen.kind!r} on this machine: leave out {kind_key}")
        kind = given if seen is None else seen.kind
        if kind is None and or_new:
            return self._new(key, follows=follows)
        if kind is None:
            (self.place / key).fault(f'{path} is not on this machine: give its kind, as {kind_key} = "reg"')
        self._list(path, kind, key)
        return path

    def _new(self, key: str, *, follows: bool = False) -> str:
        """The path of an object that a call makes: Landlock judges it by its directory alone, so the name is a new one.

        An open follows a link that leads to nothing, and makes what it leads to.
        """
        path = self._real(key, follows=follows)
        directory = directory_of(path)
        self._list(directory, "dir", key)
        return joined(directory, path.rpartition("/")[2] + NEW_NAME)

    def _stand_in(self, path: str, kind: str) -> str:
        """An object of another kind beside one: the kernel asks Landlock about the directory, as if a directory could
        be unlinked, before it sees that the call is not for this object.
        """
        stands = joined(directory_of(path), path.rpartition("/")[2] + OTHER_KIND)
        self._list(stands, kind, "path")
        return stands

    def _as_pipe(self, socket: str) -> str:
        """A socket as a pipe, with the same rules on it: it can't be opened, but first the kernel asks Landlock."""
        stands = socket + AS_PIPE
        self._list(stands, "fifo", "path")
        self.tree.first[stands] = socket
        self.tree.others[socket] = [stands]
        return stands

    def _real(self, key: str, *, follows: bool) -> str:
        """A path without links, as the kernel walks it."""
        path = self.table[key]
        if not isinstance(path, str) or not path.startswith("/") or "\0" in path or len(path.encode()) > LONGEST_PATH:
            (self.place / key).fault(f"{path!r} is not an absolute path: write it as \"/usr\"")
        directory, _, name = path.rstrip("/").rpartition("/")
        whole = follows or name in ("", ".", "..")
        try:
            led = resolving.walked(path if whole else directory or ROOT, DISK)
        except LinkLoop:
            (self.place / key).fault(f"{path} is a loop of symbolic links: name another path")
        if led.blocked is not None:
            self._leads_nowhere(key, led.blocked)
        if led.varies:
            (self.place / key).fault(f"not known where {path} leads: name what it leads to")
        return led.path if whole else joined(led.path, name)

    def _list(self, path: str, kind: str, key: str) -> None:
        """Lists an object and the directories above it; one path has one kind in all cases."""
        while True:
            seen = disk.look(path) if kind == "dir" else None
            if seen is not None and seen.kind not in ("dir", "sym"):  # a link that is left is one of a process
                self._leads_nowhere(key, path)
            known = self.tree.kinds.setdefault(path, kind)
            if known != kind:
                (self.place / key).fault(f"{path} has kind {known!r} in another case, and kind {kind!r} here")
            if path == ROOT:
                return
            path, kind = directory_of(path), "dir"

    def _leads_nowhere(self, key: str, file: str) -> NoReturn:
        """Raises the Problem that a path goes on from what is no directory: the kernel does not ask Landlock."""
        (self.place / key).fault(f"{file} is no directory on this machine, so {self.table[key]} leads nowhere")
