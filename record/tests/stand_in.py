"""A landaudit whose reports are written by hand, and subcommands that are called with it."""

from __future__ import annotations

import json
import os
import tempfile
import unittest
from pathlib import Path
from unittest import mock

from landaudit_record.common.finished import Finished

from .calling import called
from .recorded import PID, missing_on, moot, refused, write_lines

#: How wide lines are where a test is not about that.
WIDE = "1000"

TREE = [{"path": "/bin", "kind": "reg"}, {"path": "/a", "kind": "reg"}]
TRACE = [
    {"op": "start", "pid": PID, "call": 1},
    {"op": "exec", "pid": PID, "path": "/bin", "call": 1, "kernel": "ok"},
    {"op": "open", "pid": PID, "path": "/a", "fd": 3, "mode": "w", "call": 2, "kernel": "ok"},
]
POLICY = """[[layer]]
handled_access_fs = ["write_file", "truncate"]
[[layer.path_beneath]]
allowed_access = ["truncate"]
parent = "/a"
"""
# What the tried trace is at ABI 3: start, nnp, create, add_path, restrict, close_rs, exec, open.
OPS = ["start", "nnp", "create", "add_path", "restrict", "close_rs", "exec", "open"]
# Before ABI 3 it has no rule, since that would grant truncate; in the trace of a newer one that rule is left out.
OLDER_OPS = [op for op in OPS if op != "add_path"]
LANDAUDIT = """#!/usr/bin/env python3
# Answers as it is told to, by ABI and number of records or by the latter alone, and says how it was called.
import json, sys
from pathlib import Path
sys.path.insert(0, {record!r})
from tests.recorded import at_its_line, last_line, over_range, report_line
_, word, as_json, *flags, workers, number, tree, trace = sys.argv[1:]
assert as_json == "--json" and workers == "--workers" and int(number) > 0
assert Path(tree).read_text()
with open({runs!r}, "a") as runs:
    print(word, *flags, file=runs)
oldest, _, newest = word.partition("-")
abis = range(int(oldest), int(newest or oldest) + 1)
lines = [json.loads(line) for line in Path(trace).read_text().splitlines()]
known = json.loads(Path({answers!r}).read_text())
answers = {{abi: known.get(f"{{abi}}: {{len(lines)}}") or known[str(len(lines))] for abi in abis}}
for number, record in enumerate(lines, start=1):
    said = over_range({{abi: at_its_line(lines, answers[abi][number - 1]) for abi in abis}})
    if "--refused" not in flags or any(one["answer"] == "refused" for one in said):
        sys.stdout.write(report_line(number, record, said))
sys.stdout.write(last_line(len(lines), abis))
refused = [one for abi in abis for one in answers[abi] if one != "allowed" and one["answer"] == "refused"]
sys.exit(1 if refused else 0)
"""
RECORD = Path(__file__).resolve().parents[1]
LEFT_OUT = moot("unsupported")


class StandIn(unittest.TestCase):
    """A recording, a policy, and a landaudit that knows the answers to both."""

    def setUp(self) -> None:
        self.folder = Path(self.enterContext(tempfile.TemporaryDirectory()))
        self.recording = self.folder / "rec"
        self.recording.mkdir()
        write_lines(self.recording / "tree.jsonl", TREE)
        write_lines(self.recording / "trace.jsonl", TRACE)
        self.policy = self.folder / "P.toml"
        self.policy.write_text(POLICY)
        runs, writes = refused(missing_on("/bin", "execute")), refused(missing_on("/a", "write_file"))
        answers = {
            "3": ["allowed"] * 3,
            "1: 7": ["allowed"] * 5 + [runs, "allowed"],
            "2: 7": ["allowed"] * 6 + [writes],
            "1: 8": ["allowed"] * 3 + [LEFT_OUT] + ["allowed"] * 2 + [runs, "allowed"],
            "2: 8": ["allowed"] * 3 + [LEFT_OUT] + ["allowed"] * 3 + [writes],
            "8": ["allowed"] * 7 + [writes],
            "9": ["allowed"] * 9,
        }
        (self.folder / "answers.json").write_text(json.dumps(answers))
        self.landaudit = self.folder / "landaudit"
        self.runs = self.folder / "runs"
        files = {"answers": str(self.folder / "answers.json"), "runs": str(self.runs), "record": str(RECORD)}
        self.landaudit.write_text(LANDAUDIT.format(**files))
        self.landaudit.chmod(0o755)
        self.enterContext(mock.patch.object(Finished, "has_layers", return_value=True))

    def called(self, *words: object) -> tuple[int, str, str]:
        """The status of a call, and what it wrote to standard output and standard error."""
        return called(words)

    def audited(self, *words: object, abi: str | None = "3") -> tuple[int, str, str]:
        chosen = [] if abi is None else ["--abi", abi]
        with mock.patch.dict(os.environ, COLUMNS=WIDE):
            return self.called(*words, *chosen, "--landaudit", self.landaudit)

    def ran(self) -> list[str]:
        """How landaudit was called, each time: the ABI and the flags."""
        return self.runs.read_text().splitlines()

    def table(self, out: str) -> list[str]:
        """The lines of the table by ABI."""
        return out.partition("by ABI")[2].splitlines()[1:]
