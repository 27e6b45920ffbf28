"""Random questions about all objects: whether what landaudit-policy check says of them holds of calls on small trees.

Trees have what is on this disk and, where policies name what is not, directories or files. In each directory, and of
each file, landaudit is asked about each right. Where the rights of a question pass, an area that `check` names is to
cover the place; and in each such area they are to pass. Where all hold, the status of `check` is to tell whether a file
with a rule has a name that nothing names.
"""

from __future__ import annotations

import json
import os
import random
import tempfile
from collections.abc import Iterator, Mapping, Sequence, Set
from dataclasses import dataclass, replace
from pathlib import Path
from typing import Any

from landaudit_record.common.jsonl import Record
from landaudit_record.common.problems import NOT_ALL_JUDGED
from landaudit_record.common.rights import FILE_RIGHTS, FS, NEWEST_ABI, OLDEST_ABI
from landaudit_record.common.trees import ROOT, joined, upwards

from .random_checks import Disk, checked, drawn, judged
from .random_policies import LINKS, Kinds, Maker, Policy, granted, meant, plain

ABIS = range(OLDEST_ABI, NEWEST_ABI + 1)
TREES = 3
#: What each directory of a tree has besides, and the calls that ask for one right alone: on these or in the directory.
INSIDE = {"~f": "reg", "~c": "char", "~e": "dir", "~1": "dir", "~1/f": "reg", "~2": "dir"}
_MAKING = {f"make_{kind}": {"op": "mknod", "kind": kind} for kind in ("reg", "char", "block", "fifo", "sock")}
_IN_DIRECTORIES: Mapping[str, Record] = {
    **_MAKING, "make_dir": {"op": "mkdir"}, "make_sym": {"op": "symlink"},
    "remove_file": {"op": "unlink"}, "remove_dir": {"op": "rmdir"}, "read_dir": {"op": "open", "mode": "r"},
}
_ON_FILES: Mapping[str, Record] = {
    "read_file": {"op": "open", "mode": "r"}, "write_file": {"op": "open", "mode": "w"}, "execute": {"op": "exec"},
    "truncate": {"op": "truncate"},
}
Abis = frozenset[int]
Passing = dict[str, tuple[Abis, Abis]]
"""The ABIs at which each right passes, and those at which a call can tell."""


@dataclass(frozen=True)
class Question:
    """A question in the words of a file of cases, and the paths that it is about without links."""

    kind: str
    words: tuple[str, ...]
    written: tuple[str, ...]
    abis: range

    @classmethod
    def drawn(cls, maker: Maker, paths: Sequence[str]) -> Question:
        """A question, mostly about paths that something is known of."""
        of = maker.of
        kind = of.choice(("nothing", "nothing", "never", "only"))
        words = of.sample(list(FS.since), k=2) if kind == "never" else of.sample(FS.words(), k=of.choice((1, 1, 2, 3)))
        some = [one if _is_further(one) or of.random() < 0.8 else joined(one, of.choice(("a", "b", "new")))
                for one in of.choices(paths, k=of.choice((1, 1, 2)))]
        first = of.choice(ABIS)
        abis = range(first, of.choice(range(first, NEWEST_ABI + 1)) + 1) if of.random() < 0.3 else ABIS
        return cls(kind, tuple(words), tuple(_by_link(one, of) for one in some), abis)

    def toml(self, top: Path) -> str:
        """The question in a file of cases."""
        key = "both" if self.kind == "never" else "rights"
        under = [ROOT if one == ROOT else f"{top}{one}" for one in self.written]
        return (f"[[{self.kind}]]\n{key} = {json.dumps(self.words)}\nunder = {json.dumps(under)}\n"
                f'abi = "{self.abis[0]}-{self.abis[-1]}"\n')

    def is_about(self, path: str) -> bool:
        """Whether it is about a path."""
        within = any(plain(one) in upwards(path) for one in self.written)
        return within != (self.kind == "only")

    def asked(self, abi: int) -> list[frozenset[str]]:
        """What may not pass at an ABI: each of these as a whole."""
        if self.kind == "never":
            return [frozenset(self.words)]
        named = {word for word in self.words if word in FS.since}
        grouped = {right for word in self.words for right in FS.groups.get(word, ())} & FS.known(abi)
        return [frozenset({right}) for right in named | grouped]


def _is_further(path: str) -> bool:
    """Whether a path is a further name that a file of the disk has."""
    return path.rpartition("/")[2].startswith("name")


def _by_link(path: str, of: random.Random) -> str:
    """A path, seldom by way of a link that leads to it or to what is over it."""
    ways = [link + path[len(to):] for link, to in LINKS.items() if path == to or path.startswith(to + "/")]
    return of.choice(ways) if ways and of.random() < 0.2 else path


@dataclass(frozen=True)
class Tree:
    """A tree: what is on the disk, and something at some of the paths where the disk has nothing."""

    disk: Disk
    kinds: Kinds

    @classmethod
    def drawn(cls, disk: Disk, paths: Sequence[str], directories: set[str], of: random.Random) -> Tree:
        """What is on the disk, with a directory or a file at some paths where it has nothing."""
        tree = cls(disk, dict(disk.kinds))
        for path in of.sample(list(paths), k=len(paths)):
            if of.random() < 0.8:
                tree.put(path, "dir" if path in directories else of.choice(("dir", "reg")))
        return tree

    def put(self, path: str, kind: str) -> None:
        """Puts an object at a path, with the directories above it, if nothing is in the way."""
        over = list(upwards(path))[1:]
        if path not in self.kinds and all(self.kinds.get(one, "dir") == "dir" for one in over):
            self.kinds.update({one: "dir" for one in over})
            self.kinds[path] = kind

    def led(self, path: str) -> list[str]:
        """The names of the object to which a path of a policy leads: on the disk, or where only the tree has it."""
        found = [name for name in self.disk.led(path) if name in self.kinds]
        if found:
            return found
        steps = path.split("/")
        here = ("/".join(steps[:at]) or ROOT for at, step in enumerate(steps) if step == "..")
        leads = all(os.path.isdir(self.disk.on(one)) for one in here)
        return [plain(path)] if leads and plain(path) in self.kinds else []

    def whole(self) -> Kinds:
        """The tree with what is tried in each directory."""
        directories = [path for path, kind in self.kinds.items() if kind == "dir"]
        return self.kinds | {joined(path, name): kind for path in directories for name, kind in INSIDE.items()}


def _calls(path: str, kind: str) -> Iterator[tuple[str, Sequence[Record]]]:
    """The calls that ask for each right alone at a path, in a directory or on a file."""
    if kind == "dir":
        names = {"remove_file": "~f", "remove_dir": "~e"}
        for right, record in _IN_DIRECTORIES.items():
            yield right, ({**record, "path": path if right == "read_dir" else joined(path, names.get(right, "~new"))},)
        yield "refer", ({"op": "link", "from": joined(path, "~1/f"), "to": joined(path, "~2/new")},)
        device: str | None = joined(path, "~c")
    else:
        device = path if kind in ("char", "block") else None
    file = joined(path, "~f") if kind == "dir" else path
    for right, record in _ON_FILES.items():
        if kind in ("dir", "reg") or right in ("read_file", "write_file"):
            yield right, ({**record, "path": file},)
    if device is not None:
        yield from (("ioctl_dev", ({"op": "open", "path": device, "mode": mode}, {"op": "ioctl", "driver": True}))
                    for mode in ("r", "w"))


def passing(program: Path, folder: Path, policy: Policy, tree: Tree) -> dict[str, Passing]:
    """What landaudit lets pass at each path of a tree, at the ABIs at which the kernel takes all rules."""
    calls = [(path, right, records) for path, kind in tree.kinds.items() if kind != "sym"
             for right, records in _calls(path, kind)]
    own: list[Record] = [{"op": "start"}, *policy.records(tree.whole(), tree.led)]
    asked = [{**record, **({"fd": number} if record["op"] in ("open", "ioctl") else {})}
             for number, (_, _, records) in enumerate(calls, start=10) for record in records]
    answers = judged(program, folder, tree.whole(), own, asked)
    allowed = (frozenset(abi for abi, answer in said.items() if answer == "allowed") for said in answers)
    taken = frozenset(abi for abi in ABIS if not policy.not_taken(tree.kinds, abi))
    found: dict[str, Passing] = {}
    for path, right, records in calls:
        *before, last = [next(allowed) for _ in records]
        reached = taken.intersection(*before)
        of_path = found.setdefault(path, {})
        passes, told = of_path.get(right, (frozenset(), frozenset()))
        of_path[right] = passes | (last & reached), told | reached
    for of_path in found.values():
        if "refer" in of_path:
            passes, told = of_path["refer"]
            of_path["refer"] = passes, told & of_path["make_reg"][0]
    return found


# ---- what check says


def _covers(area: Mapping[str, Any], path: str, is_file: bool) -> bool:
    """Whether an area covers the objects at a path."""
    if area["as_file"]:
        return is_file and path == area["path"]
    over = set(upwards(path))
    return (area["path"] in over and over.isdisjoint(area["but_for"])
            and not (is_file and path in area["but_for_files"]))


def _of_tree(question: Question, said: Mapping[str, Any], tree: Tree, found: Mapping[str, Passing]) -> Iterator[str]:
    """Where the rights of a question pass on a tree, and no area that is said covers it."""
    for path, of_path in found.items():
        if not question.is_about(path):
            continue
        for abi in question.abis:
            for rights in question.asked(abi):
                if all(right in of_path and abi in of_path[right][0] for right in rights) and not any(
                    abi in row["abis"] and rights <= set(row["rights"])
                    and _covers(row["area"], path, tree.kinds[path] != "dir") for row in said["passes"]
                ):
                    yield f"{sorted(rights)} pass at {path} at ABI {abi}, not said"


def _is_refused(policy: Policy, path: str, abi: int) -> bool:
    """Whether a rule names rights of directories on a path, or has no other: on a file the kernel refuses it."""
    return any(not granted(rule, meant(layer.fs, FS), "reg")
               or not granted(rule, meant(layer.fs, FS), "reg") & FS.known(abi) <= FILE_RIGHTS
               for layer in policy.layers for rule in layer.paths if path in (plain(str(on)) for on in rule.on))


def _of_area(row: Mapping[str, Any], question: Question, tree: Tree, policy: Policy, of_path: Passing) -> Iterator[str]:
    """What an area is said to let pass, and it does not on its own path."""
    area = row["area"]
    if not question.is_about(area["path"]):
        yield "out of what it is about"
    if (tree.kinds.get(area["path"]) != "dir") != area["as_file"]:
        yield "a file and not a directory, or the reverse"
    if area["as_file"] and any(_is_refused(policy, area["path"], abi) for abi in row["abis"]):
        yield "the kernel refuses a rule if that is a file"
    for right in row["rights"]:
        passes, told = of_path.get(right, (frozenset(), frozenset()))
        wrong = (frozenset(row["abis"]) & told) - passes
        if wrong:
            yield f"{right} does not pass at ABI {sorted(wrong)}"
        if question.kind != "never" and any(frozenset({right}) not in question.asked(abi) for abi in row["abis"]):
            yield f"{right} was not asked"
    if question.kind == "never" and frozenset(row["rights"]) not in question.asked(NEWEST_ABI):
        yield "other rights"


def faults(program: Path, of: random.Random, count: int) -> tuple[int, int, list[str]]:
    """How many questions were asked about a random policy, how many hold, and what is wrong in what `check` says."""
    maker, policy = drawn(of)
    wrong: list[str] = []
    with tempfile.TemporaryDirectory() as name:
        folder = Path(name).resolve()
        (folder / "top").mkdir()
        disk = Disk.made(folder / "top", maker, policy)
        linked = list(filter(_is_further, disk.kinds))
        paths = sorted({*policy.paths, *maker.of.sample(sorted(disk.kinds), k=5), *linked[:2]})
        questions = [Question.drawn(maker, paths) for _ in range(count)]
        if maker.of.random() < 0.5:
            questions[0] = replace(questions[0], written=(*questions[0].written, *linked))
        named = policy.paths.union(plain(one) for it in questions for one in it.written)
        other_names = _has_other_names(policy, disk, named)
        disk = replace(disk, kinds={path: kind for path, kind in disk.kinds.items()
                                    if path in named or not _is_further(path)})
        status, said = _said(program, folder, policy, disk, questions)
        held = sum(one["holds"] for one in said)
        expected = 1 if held < len(said) else NOT_ALL_JUDGED if other_names else 0
        if status != expected:
            wrong.append(f"the status is {status}, and not {expected}")
        for _ in range(TREES):
            tree = Tree.drawn(disk, sorted(named), policy.directories, maker.of)
            found = passing(program, folder, policy, tree)
            for question, one in zip(questions, said, strict=True):
                wrong += [f"{question}: {it}" for it in _of_tree(question, one, tree, found)]
        areas: dict[str, Passing] = {}
        for question, one in zip(questions, said):
            if one["holds"] == bool(one["passes"]):
                wrong.append(f"{question}: holds is {one['holds']}")
            for row in one["passes"]:
                path = row["area"]["path"]
                tree = Tree(disk, dict(disk.kinds))
                tree.put(path, "dir")
                if path not in areas:
                    areas[path] = passing(program, folder, policy, tree).get(path, {})
                found_here = _of_area(row, question, tree, policy, areas[path])
                wrong += [f"{question}, {row['text']}: {it}" for it in found_here]
    return len(questions), held, wrong


def _has_other_names(policy: Policy, disk: Disk, named: Set[str]) -> bool:
    """Whether a file with a rule has a name (hard link) besides some paths."""
    written = (str(on) for layer in policy.layers for rule in layer.paths for on in rule.on)
    return any(name not in named for path in written for name in disk.led(path))


def _said(
    program: Path, folder: Path, policy: Policy, disk: Disk, questions: Sequence[Question]
) -> tuple[int, list[dict[str, Any]]]:
    """The status of `check`, and what it says of questions, in their order, with paths without the folder."""
    ordered = [one for kind in ("nothing", "never", "only") for one in questions if one.kind == kind]
    status, said = checked(program, folder, policy, disk.top, "".join(one.toml(disk.top) for one in ordered))
    return status, [said["questions"][ordered.index(one)] for one in questions]
