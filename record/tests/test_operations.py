"""The table of operations, by docs/FORMATS.md, docs/SEMANTICS.md and what landaudit says of each operation."""

from __future__ import annotations

import json
import re
import subprocess
import tempfile
import unittest
from collections.abc import Iterator, Sequence
from itertools import product
from pathlib import Path
from typing import Any

from landaudit_record.common.jsonl import Record
from landaudit_record.common.operations import DESCRIPTOR_CALLS, MAKING, OPERATIONS, Operation
from landaudit_record.common.rights import FS, NET, NEWEST_ABI
from landaudit_record.engine.landaudit import BUILT

from .recorded import write_lines

DOCS = Path(__file__).resolve().parents[2] / "docs"
KINDS = ("reg", "char", "block", "fifo", "sock", "sym", "dir")
TREE = [{"path": "/d", "kind": "dir"},
        *({"path": f"{over}/{kind}", "kind": kind} for over in ("", "/d") for kind in KINDS)]
#: A value of each member that reads.
VALUES: Record = {"path": "/reg", "from": "/reg", "to": "/d/new", "port": 80, "mode": "r", "kind": "reg",
                  "driver": True, "fd": 3, "rs": 1, "child": 11}
#: The values of members in the forms of a call.
CHOICES: dict[str, Sequence[Any]] = {
    "path": ("/d/new", *(f"/{kind}" for kind in KINDS)), "from": tuple(f"/{kind}" for kind in KINDS),
    "to": ("/d/new", *(f"/d/{kind}" for kind in KINDS)), "mode": ("r", "w"), "create": (False, True),
    "trunc": (False, True), "exchange": (False, True),
}
MADE = ("reg", "char", "block", "fifo", "sock")
#: Layers without rules, one of which handles nothing but moves, and one that lets files be read and written.
ALL: Record = {"op": "create", "rs": 1, "fs": [*FS.since], "net": [*NET.since]}
RESTRICT: Record = {"op": "restrict", "rs": 1}
LAYERS: Sequence[Sequence[Record]] = (
    (ALL, RESTRICT),
    ({**ALL, "fs": ["refer"]}, RESTRICT),
    (ALL, {"op": "add_path", "rs": 1, "path": "/", "fs": ["read_file", "write_file"]}, RESTRICT),
)


def documented() -> dict[str, tuple[set[str], set[str]]]:
    """The required and the optional members of each operation, by the table of docs/FORMATS.md."""
    table = (DOCS / "FORMATS.md").read_text(encoding="utf-8").partition("| `op` | ")[2].partition("\n\n")[0]
    found = {}
    for _, op, members, *_ in (row.split("|") for row in table.splitlines()[2:]):
        names = re.sub(r": `\w+`(?:(?:, | or )`\w+`)*", "", members)
        optional = set(re.findall(r"\[`(\w+)`\]", names))
        found[op.strip(" `")] = set(re.findall(r"`(\w+)`", names)) - optional, optional
    return found


def required(operation: Operation) -> tuple[str, ...]:
    """The members that a record of an operation must have."""
    return operation.paths + operation.ports + operation.numbers + operation.values


def record_of(operation: Operation, **members: Any) -> Record:
    """A record of an operation with all that it must have."""
    usual = {name: 4 if (operation.name, name) == ("dup", "to") else VALUES[name] for name in required(operation)}
    return {"op": operation.name, "pid": 12 if operation.name == "start" else 10, **usual, **members}


def judged(*records: Record) -> tuple[str, list[Record]]:
    """What landaudit says of records after a start: its fault, or the answers."""
    with tempfile.TemporaryDirectory() as folder:
        tree = write_lines(Path(folder, "tree.jsonl"), TREE)
        trace = write_lines(Path(folder, "trace.jsonl"), [{"op": "start", "pid": 10, "nnp": True}, *records])
        command = [BUILT, "--abi", str(NEWEST_ABI), "--json", "--explain", tree, trace]
        run = subprocess.run(command, capture_output=True, text=True, check=False)
    lines = [json.loads(line) for line in run.stdout.splitlines() if line.startswith('{"line"')]
    return run.stderr, [line["answers"][0] for line in lines[1:]]


class ByDocuments(unittest.TestCase):
    def test_each_operation_has_its_members(self) -> None:
        found = {name: (set(required(of)), set(of.optional)) for name, of in OPERATIONS.items()}
        self.assertEqual(found, documented())

    def test_what_is_judged(self) -> None:
        """The calls of docs/SEMANTICS.md, "What calls ask", moves, and those on descriptors."""
        text = (DOCS / "SEMANTICS.md").read_text(encoding="utf-8")
        table = text.partition("| Call | On | Asks |")[2].partition("\n\n")[0]
        calls = {op for row in table.splitlines()[2:] for op in re.findall(r"`(\w+)`", row.split("|")[1])}
        self.assertEqual(calls | {"rename", "link", "ftruncate", "ioctl"},
                         {name for name, of in OPERATIONS.items() if of.asks is not None})


@unittest.skipUnless(BUILT.exists(), f"{BUILT} is not built")
class ByLandaudit(unittest.TestCase):
    def test_it_reads_each_operation(self) -> None:
        for operation in OPERATIONS.values():
            with self.subTest(operation.name):
                self.assertEqual(judged(record_of(operation))[0], "")

    def test_a_member_is_of_its_kind(self) -> None:
        """A path is none if it is relative; ports and numbers are numbers; what may be left out is no number."""
        for operation in OPERATIONS.values():
            for name in (*required(operation), *operation.optional):
                with self.subTest(operation.name, member=name):
                    fault = "BadPath" if name in operation.paths else "Field"
                    self.assertIn(fault, judged(record_of(operation, **{name: "x"}))[0])
                    number = name in operation.ports + operation.numbers
                    self.assertEqual("Field" in judged(record_of(operation, **{name: 77}))[0], not number)
                    left_out = {key: of for key, of in record_of(operation).items() if key != name}
                    self.assertEqual("Field" in judged(left_out)[0], name not in operation.optional)

    def test_what_it_asks(self) -> None:
        """The rights that layers miss over all forms of its calls, which only judged operations are refused for."""
        records = [record for number, operation in enumerate(OPERATIONS.values())
                   for at, layer in enumerate(LAYERS) for record in process(100 + 3 * number + at, layer, operation)]
        fault, answers = judged(*records)
        self.assertEqual(fault, "")
        asked: dict[str, set[str]] = {}
        for record, answer in zip(records, answers, strict=True):
            for layer in answer.get("layers", ()):
                of_operation = asked.setdefault(record["op"], set())
                for objection in layer["objections"]:
                    of_operation.update(objection.get("missing", ()), objection.get("closed", ()))
        self.assertEqual(asked, {name: set(of.asks) for name, of in OPERATIONS.items() if of.asks is not None})


def process(pid: int, layer: Sequence[Record], operation: Operation) -> Iterator[Record]:
    """A process under a layer, and all forms of its calls of an operation, each with a descriptor of its own."""
    yield from ({**record, "pid": pid} for record in ({"op": "start", "nnp": True}, *layer))
    for number, form in enumerate(forms(operation), start=3):
        own = {name: number if name == "fd" else 10_000 * pid for name in ("fd", "child") if name in form}
        if operation.name in DESCRIPTOR_CALLS:
            yield {"op": "open", "pid": pid, "path": ("/reg", "/char")[number % 2], "mode": "rw", "fd": number}
        yield {**form, **own, "pid": 10_000 * pid if operation.name == "start" else pid}


def forms(operation: Operation) -> Iterator[Record]:
    """The forms of an operation's calls; those on descriptors are made twice, once on a file and once on a device."""
    usual = record_of(operation)
    choices = {**CHOICES, "kind": MADE} if operation.name in MAKING else CHOICES
    some = {name: choices[name] for name in operation.decides if name in choices}
    for values in product(*some.values()) if operation.asks is not None else [()]:
        yield from [{**usual, **dict(zip(some, values))}] * (2 if operation.name in DESCRIPTOR_CALLS else 1)
