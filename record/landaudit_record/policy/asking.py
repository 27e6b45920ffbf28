"""What landaudit is asked of a policy: questions of a process that confined itself with it, on a made-up tree.

The policy lets a question pass if landaudit allows each record of it.
"""

from __future__ import annotations

import tempfile
from collections.abc import Iterable, Iterator, Mapping, Sequence
from contextlib import contextmanager
from pathlib import Path

from ..common import jsonl
from ..common.jsonl import Record
from ..common.operations import OPERATIONS
from ..common.trace_lines import body
from ..common.trees import ROOT, Tree
from ..engine.answers import Answer
from ..engine.asking import Asker, Key, Trial
from . import applying, fitting
from .policies import Policy

Question = tuple[Record, ...]
RULESET = 1
"""The number of each ruleset: it is closed before the next one is made."""

FIRST_DESCRIPTOR = 3


def opening(path: str, mode: str, **flags: bool) -> Record:
    """A record that opens a path with the next free number."""
    return {"op": "open", "path": path, "mode": mode, **flags}


def under(policy: Policy, abi: int, tree: Tree, *, scopes: bool = True) -> list[Record]:
    """The records by which a process confines itself with a policy; the record of a rule names the rule."""
    layers, _ = fitting.fit(policy, abi, scopes=scopes)
    return applying.records(policy, layers, tree, RULESET)


@contextmanager
def asker(program: Path, abis: range, tree: Tree) -> Iterator[Asker]:
    """Asks about calls on the objects of a tree."""
    with tempfile.TemporaryDirectory(prefix="landaudit-") as folder:
        file = Path(folder, "tree.jsonl")
        write_tree(file, tree.kinds)
        yield Asker(program, abis, file)


def trial(own: Iterable[Record], questions: Iterable[tuple[Key, Question]]) -> Trial[Key]:
    """A process that asks questions, each of which opens by a number of its own."""
    asked = ((key, _numbered(question, fd)) for fd, (key, question) in enumerate(questions, start=FIRST_DESCRIPTOR))
    return Trial([body(**record) for record in own], list(asked))


def _numbered(question: Question, fd: int) -> list[str]:
    """The records of a question, with a descriptor's number where there is one."""
    numbered: Record = {"fd": fd}
    return [body(**record, **(numbered if "fd" in OPERATIONS[record["op"]].numbers else {})) for record in question]


def write_tree(file: Path, kinds: Mapping[str, str]) -> None:
    """Writes the objects of a tree, each after its directory; the root has no line."""
    jsonl.write(file, ({"path": path, "kind": kinds[path]} for path in sorted(kinds) if path != ROOT))


def decided(answers: Sequence[Answer]) -> Answer:
    """The answer that decides a question: the first that is not allowed, or else the last."""
    return next((answer for answer in answers if not answer.allowed), answers[-1])
