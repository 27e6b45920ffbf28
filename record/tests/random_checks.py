"""Random cases about files on this disk: whether landaudit-policy check says what landaudit says of the same calls.

The disk has links, `..` after them, and files with several names. Where the paths of a policy lead is asked of the
kernel, which opens them.
"""

from __future__ import annotations

import json
import os
import random
import tempfile
from collections.abc import Iterator, Mapping, Sequence
from dataclasses import dataclass, replace
from pathlib import Path
from typing import Any

from landaudit_record import cli
from landaudit_record.common import jsonl
from landaudit_record.common.jsonl import Record
from landaudit_record.common.problems import NOT_ALL_JUDGED
from landaudit_record.common.rights import NEWEST_ABI, OLDEST_ABI
from landaudit_record.common.trees import ROOT, directory_of, joined
from landaudit_record.engine import landaudit
from landaudit_record.policy import asking

from .calling import called
from .random_calls import Caller
from .random_policies import LINKS, Kinds, Maker, Policy, Rule

ABIS = range(OLDEST_ABI, NEWEST_ABI + 1)
#: The kinds of objects that anyone can make.
MADE = ("dir", "reg", "fifo")
#: The paths of a rule that may have several names.
FILES = ("/b/f", "/c/f")
Answers = dict[int, str]


@dataclass(frozen=True)
class Disk:
    """A tree that is on this disk, in a folder: with links, and with further names of files."""

    top: Path
    kinds: Kinds

    @classmethod
    def made(cls, top: Path, maker: Maker, policy: Policy) -> Disk:
        """A tree in which most paths of a policy are something."""
        drawn = maker.tree(policy.paths, policy.directories)
        disk = cls(top, {path: kind if kind in MADE else "reg" for path, kind in drawn.items() if kind != "sym"})
        for path in sorted(disk.kinds.keys() - {ROOT}):
            disk._make(path, disk.kinds[path])
        for path in [path for path, kind in disk.kinds.items() if kind == "reg"]:
            if maker.of.random() < (0.9 if path in policy.paths else 0.1):
                other = joined(directory_of(maker.of.choice(list(disk.kinds))), f"name{len(disk.kinds)}")
                os.link(disk.on(path), disk.on(other))
                disk.kinds[other] = "reg"
        for link, to in LINKS.items():
            os.symlink(to[1:], disk.on(link))
        return disk

    def _make(self, path: str, kind: str) -> None:
        match kind:
            case "dir":
                os.mkdir(self.on(path))
            case "fifo":
                os.mkfifo(self.on(path))
            case _:
                Path(self.on(path)).touch()

    def on(self, path: str) -> str:
        """A path in the folder."""
        return f"{self.top}{path}"

    def led(self, path: str) -> list[str]:
        """All names of the object that the kernel opens at a path of a policy."""
        try:
            place = os.open(self.on(path), os.O_PATH | os.O_CLOEXEC)
        except OSError:
            return []
        try:
            opened = os.fstat(place)
        finally:
            os.close(place)
        return [name for name in self.kinds if os.path.samestat(os.lstat(self.on(name)), opened)]


def _case(call: Sequence[Record], disk: Disk) -> Mapping[str, str] | None:
    """A case about a call, if its records are those of one."""
    first, *more = call
    match first["op"]:
        case "open" if not more:
            flags = "".join(f" {flag}" for flag in ("create", "trunc") if first.get(flag))
            return {"call": f"open {first['mode']}{flags}", "path": disk.on(first["path"])}
        case "open" if more[0]["op"] == "ftruncate" and first["mode"] == "w" and "create" not in first:
            return {"call": "ftruncate", "path": disk.on(first["path"])}
        case "mknod":
            return {"call": f"mknod {first['kind']}", "path": disk.on(first["path"])}
        case "rename" | "link" as op:
            name = "exchange" if first.get("exchange") else op
            return {"call": name, "from": disk.on(first["from"]), "to": disk.on(first["to"])}
        case "exec" | "truncate" | "unlink" | "rmdir" | "mkdir" | "symlink" as op:
            return {"call": op, "path": disk.on(first["path"])}
    return None


def _asked(call: Sequence[Record], fd: int) -> Sequence[Record]:
    """The records of a call; to run a file is to open it for reading too (docs/SEMANTICS.md)."""
    opening: Record = {"op": "open", "path": call[0].get("path"), "mode": "r", "fd": fd}
    return [opening, *call] if call[0]["op"] == "exec" else call


def _expected(
    program: Path, folder: Path, policy: Policy, disk: Disk, calls: Sequence[Sequence[Record]]
) -> Iterator[Answers]:
    """What landaudit says of calls at each ABI: `allowed` if it allows all records, else its answer to the first other."""
    own: list[Record] = [{"op": "start"}, *policy.records(disk.kinds, disk.led)]
    asked = [_asked(call, 1_000_000 + number) for number, call in enumerate(calls)]
    answers = judged(program, folder, disk.kinds, own, [record for call in asked for record in call])
    for call in asked:
        each = [next(answers) for _ in call]
        yield {abi: next((it[abi] for it in each if it[abi] != "allowed"), "allowed") for abi in ABIS}


def judged(
    program: Path, folder: Path, kinds: Kinds, own: Sequence[Record], asked: Sequence[Record]
) -> Iterator[Answers]:
    """What landaudit answers at each ABI to the records of a process, after those of its own."""
    tree, trace, report = (folder / f"{name}.jsonl" for name in ("tree", "trace", "report"))
    asking.write_tree(tree, kinds)
    jsonl.write(trace, ({**record, "pid": 1} for record in (*own, *asked)))
    landaudit.audit(program, ABIS, tree, trace, report, best_effort=True, explain=False)
    with open(report, encoding="utf-8") as lines:
        answers = [json.loads(next(lines))["answers"] for _ in (*own, *asked)][len(own):]
    for said in answers:
        yield {abi: one["answer"] for one in said for abi in range(one["abi"][0], one["abi"][1] + 1)}


def drawn(of: random.Random) -> tuple[Maker, Policy]:
    """A policy of one or more layers, each with a rule on files that have several names."""
    maker = Maker(of)
    policy = maker.dressed(maker.policy(of.choice((1, 1, 2, 3))))
    on_file = Rule(("read_file", "write_file", "execute", "truncate"), FILES)
    return maker, Policy(tuple(replace(layer, scoped=(), include=(), paths=(*layer.paths, on_file)).mended()
                               for layer in policy.layers))


def checked(program: Path, folder: Path, policy: Policy, top: Path, cases: str) -> tuple[int, dict[str, Any]]:
    """The status of `check`, and what it says of cases about a policy whose paths are in a folder."""
    text = policy.toml().replace('"/', f'"{top}/').replace(f'"{top}/"', '"/"')
    (folder / "policy.toml").write_text(text)
    (folder / "cases.toml").write_text(cases)
    words = ["check", str(folder / "policy.toml"), str(folder / "cases.toml"), "--json", "--landaudit", str(program)]
    status, out, errors = called(words, cli.POLICY)
    assert status in (0, 1, NOT_ALL_JUDGED), errors
    return status, json.loads(out.replace(f"{top}/", "/"))


def faults(program: Path, of: random.Random, count: int) -> tuple[int, list[str]]:
    """How many cases were asked about a random policy, and where `check` does not say what landaudit says."""
    maker, policy = drawn(of)
    with tempfile.TemporaryDirectory() as name:
        top = Path(name).resolve() / "top"
        top.mkdir()
        disk = Disk.made(top, maker, policy)
        near = frozenset(name for path in FILES for name in disk.led(path)) or policy.paths - {ROOT}
        made = [call.records for call in Caller(maker.of, disk.kinds, near).calls(count)]
        calls = [(call, case) for call in made if (case := _case(call, disk)) is not None]
        expected = list(_expected(program, Path(name), policy, disk, [call for call, _ in calls]))
        cases = [(case, answers) for (_, case), answers in zip(calls, expected) if "moot" not in answers.values()]
        said = _said(program, Path(name), policy, disk, [case for case, _ in cases])
    return len(cases), [f"{case}: {found}, and not {answers}"
                        for (case, answers), found in zip(cases, said, strict=True) if found != answers]


def _said(program: Path, folder: Path, policy: Policy, disk: Disk, cases: Sequence[Mapping[str, str]]) -> list[Answers]:
    """What `check` says of cases."""
    lines = [line for case in cases for line in ("[[refused]]", *(f"{key} = {json.dumps(case[key])}" for key in case))]
    status, found = checked(program, folder, policy, disk.top, "\n".join(lines))
    results = found["results"]
    assert status == int(not all(result["holds"] for result in results)), status
    return [{it["abi"]: it["answer"] for it in result["answers"]} for result in results]
