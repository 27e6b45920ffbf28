"""Several recordings under one policy: counts over all, in which of them what occurs, and one status."""

from __future__ import annotations

import json
import shutil
import tempfile
import unittest
from collections import Counter
from pathlib import Path
from typing import Any

from landaudit_record.audit import auditor, mixing, together
from landaudit_record.audit.moot import Unasked
from landaudit_record.audit.summary import Accepted, Refusal, Summary
from landaudit_record.audit.warnings import NoLayer, OfPolicy, RuleUnused
from landaudit_record.common.finished import READING_LINKS, Converted, Finished, Part, Size
from landaudit_record.common.rights import alone
from landaudit_record.policy import policies

from .recorded import PID, last_line, missing_on, refused, write_lines
from .stand_in import TRACE, StandIn
from .worded import subject

#: Two records more than the first recording has, of which the policy refuses the last.
SECOND = [
    *TRACE,
    {"op": "close", "pid": PID, "fd": 3, "call": 3},
    {"op": "truncate", "pid": PID, "path": "/a", "call": 4, "kernel": "ok"},
]
ALLOWED = ["allowed"]
WRITES = refused(missing_on("/a", "write_file"))


class Several(StandIn):
    def setUp(self) -> None:
        super().setUp()
        self.second = self.folder / "second"
        self.second.mkdir()
        shutil.copy(self.recording / "tree.jsonl", self.second)
        write_lines(self.second / "trace.jsonl", SECOND)
        self.answer({
            "5": ALLOWED * 5,
            "10": ALLOWED * 7 + [WRITES, "allowed", WRITES],
            "11": ALLOWED * 11,
        })

    def answer(self, more: dict[str, list[str]]) -> None:
        """Lets landaudit know more answers, by the number of records."""
        file = self.folder / "answers.json"
        file.write_text(json.dumps(json.loads(file.read_text()) | more))

    def both(self, command: str, *words: object, abi: str | None = "3") -> tuple[int, str, str]:
        return self.audited(command, self.recording, self.second, *words, abi=abi)

    def data(self, *words: object) -> dict[str, Any]:
        found: dict[str, Any] = json.loads(self.both("audit", "--policy", self.policy, "--json", *words)[1])
        return found

    def test_the_summary_counts_over_all_and_says_in_which_each_kind_occurs(self) -> None:
        status, out, _ = self.both("audit", "--policy", self.policy)
        title = f"{self.recording}, {self.second} under {self.policy} at ABI 3"
        self.assertEqual((status, out.splitlines()[0]), (1, title))
        self.assertIn("18 records: 15 allowed, 3 refused, 0 not asked (moot)\n", out)
        rows = [line.split() for line in out.splitlines() if line.split()[1:2] in (["open"], ["truncate"])]
        both = [f"{self.recording},", str(self.second)]
        self.assertEqual(rows, [
            ["2", "open", "w", "/a", "EACCES", "policy's", "1", *both, "/bin", "write_file"],
            ["1", "truncate", "/a", "EACCES", "policy's", "1", str(self.second), "/bin", "write_file"],
        ])
        table = out.partition("by recording\n")[2].splitlines()
        self.assertEqual([row.split() for row in table], [
            ["records", "allowed", "refused", "moot", "recording"],
            ["8", "7", "1", "0", str(self.recording)],
            ["10", "8", "2", "0", str(self.second)],
        ])
        command = f"landaudit-record suggest {self.recording} {self.second} --policy {self.policy} --abi 3"
        self.assertIn(f"\nrules for these:\n{command}\n", out)

    def test_each_keeps_its_own_report(self) -> None:
        self.both("audit", "--policy", self.policy)
        for folder, records in ((self.recording, 8), (self.second, 10)):
            self.assertTrue((folder / "report.jsonl").read_text().endswith("\n" + last_line(records, alone(3))))
            self.assertEqual(len((folder / "tried.jsonl").read_text().splitlines()), records)

    def test_data_has_all_together_and_each_by_itself(self) -> None:
        data = self.data()
        self.assertEqual([data[key] for key in ("records", "allowed", "refused", "moot")], [18, 15, 3, 0])
        self.assertNotIn("recording", data)
        kinds = [(kind["call"], kind["times"], kind["recordings"]) for kind in data["refusals"]]
        one, other = str(self.recording), str(self.second)
        self.assertEqual(kinds, [("open w", 2, [one, other]), ("truncate", 1, [other])])
        alone = [json.loads(self.audited("audit", name, "--policy", self.policy, "--json")[1]) for name in (one, other)]
        self.assertEqual(data["recordings"], alone)

    def test_the_data_of_one_recording_is_as_it_always_was(self) -> None:
        data = json.loads(self.audited("audit", self.recording, "--policy", self.policy, "--json")[1])
        self.assertEqual((data["recording"], "recordings" in data), (str(self.recording), False))
        self.assertNotIn("recordings", data["refusals"][0])

    def test_the_status_is_1_if_any_is_refused(self) -> None:
        self.assertEqual(self.both("audit")[0], 0)
        self.answer({"10": ALLOWED * 10})
        self.assertEqual(self.audited("audit", self.second, "--policy", self.policy)[0], 0)
        self.assertEqual(self.both("audit", "--policy", self.policy)[0], 1)

    def test_else_5_if_not_all_of_one_could_be_judged(self) -> None:
        hole = [{"line": 1, "pid": PID, "class": "calls that io_uring makes", "call": "io_uring_enter()", "asks": True}]
        write_lines(self.second / "unsaid.jsonl", hole)
        status, out, _ = self.both("audit")
        self.assertEqual(status, 5)
        said = f"NOT ALL IS JUDGED: {self.second}: 1 call that a policy may refuse could not be recorded"
        self.assertTrue(out.splitlines()[-1].startswith(said), out)
        self.assertEqual(self.both("audit", "--policy", self.policy)[0], 1)
        errors = self.both("suggest", "--policy", self.policy)[2]
        self.assertIn(f"landaudit-record: note: {said}", errors)

    def test_the_table_by_abi_is_of_all(self) -> None:
        """At ABI 2 the first recording has the policy without its rule: a record less, which is allowed."""
        out = self.both("audit", "--policy", self.policy, abi="2-3")[1]
        rows = [row.split()[:4] for row in self.table(out)[1:3]]
        self.assertEqual(rows, [["2", "14", "3", "0"], ["3", "15", "3", "0"]])

    def test_what_is_accepted_need_occur_in_one_alone(self) -> None:
        text = '[[accepted]]\ncall = "truncate"\npath = "/a"\nreason = "x"\n'
        self.policy.write_text(self.policy.read_text() + text)
        status, out, errors = self.both("audit", "--policy", self.policy)
        self.assertEqual((status, errors), (1, ""))
        self.assertIn("3 refused (1 accepted)", out)

    def test_suggest_takes_what_each_of_them_lacks(self) -> None:
        self.answer({"10": ALLOWED * 9 + [refused(missing_on("/a", "truncate"))]})
        status, out, _ = self.both("suggest", "--policy", self.policy)
        self.assertEqual(status, 0)
        rule = '[[layer.path_beneath]]\nallowed_access = ["write_file", "truncate"]\nparent = "/a"\n'
        self.assertIn(f"# 2 calls\n{rule}", out)

    def test_a_recording_that_is_named_twice(self) -> None:
        for command in ("audit", "suggest", "tighten"):
            status, out, errors = self.audited(command, self.recording, f"{self.folder}/./rec", "--policy", self.policy)
            named = f"{self.folder}/./rec is named twice: name each recording once"
            self.assertEqual((status, out, errors), (2, "", f"landaudit-record: {named}\n"))

    def test_one_that_is_no_recording(self) -> None:
        status, out, errors = self.audited("audit", self.recording, self.folder / "none")
        self.assertEqual((status, out, errors.count("\n")), (3, "", 1))
        self.assertIn("does not exist: record it first with landaudit-record run", errors)

    def test_recordings_of_different_formats(self) -> None:
        (self.second / "converted.json").write_text('{"format": 2}')
        status, out, errors = self.both("audit")
        self.assertEqual((status, out, errors.count("\n")), (3, "", 1))
        self.assertIn(f"of another version of landaudit-record: run landaudit-record convert {self.second}", errors)

    def test_a_recording_that_is_cut(self) -> None:
        size = (self.second / "trace.jsonl").stat().st_size
        part = Size(records=5, again=0, objects=3, bytes=size)
        Converted((part,), processes=1, objects=3, ended=False).write(self.second)
        status, out, _ = self.both("audit")
        self.assertEqual(status, 5)
        self.assertIn(f"NOT ALL IS JUDGED: {self.second}: the recording is cut", out.splitlines()[-1])

    def test_what_one_of_them_did_not_meet_is_no_note(self) -> None:
        rule = '[[layer.path_beneath]]\nallowed_access = ["read_dir"]\nparent = "/b"\n'
        self.policy.write_text('[[layer]]\nhandled_access_fs = ["write_file", "read_dir"]\n' + rule)
        self.assertIn("not in the tree", self.audited("suggest", self.recording, "--policy", self.policy)[2])
        write_lines(self.second / "tree.jsonl", [{"path": "/b", "kind": "dir"}])
        self.assertNotIn("not in the tree", self.both("suggest", "--policy", self.policy)[2])


class United(unittest.TestCase):
    def member(self, name: str, *untraced: str) -> together.Member:
        recording = Finished(Path(name), (), Counter(), Counter(), ended=True, untraced=untraced)
        return together.Member(name, recording, None)

    def unused(self, path: str) -> RuleUnused:
        return RuleUnused(OfPolicy(1, "path_beneath 1", path), subject(path), Unasked("absent"))

    def test_a_rule_that_one_of_them_touches_is_no_warning(self) -> None:
        always = NoLayer()
        one = Summary(5, warnings={always: 1, self.unused("/x"): 1})
        other = Summary(5, warnings={always: 1, self.unused("/y"): 1})
        found = together.united([(self.member("r1"), one), (self.member("r2"), other)])
        self.assertEqual(found.warnings, {always: 2})
        other = Summary(5, warnings={self.unused("/x"): 1})
        found = together.united([(self.member("r1"), one), (self.member("r2"), other)])
        self.assertEqual(found.warnings, {always: 1, self.unused("/x"): 2})

    def test_counts_are_added(self) -> None:
        kind, known = Refusal("exec", subject("/a"), "EACCES", (), None), Accepted("exec", subject("/b"), "fine")
        one, other = Summary(5, path_calls=3), Summary(5, path_calls=4)
        for summary, programs in ((one, {"p": 2}), (other, {"p": 1, "q": 3})):
            summary.refusals[kind] = Counter(programs)
            summary.verdicts["refused"] = sum(programs.values())
            summary.accepted[known] += 1
            summary.moot[Unasked("absent")] = Counter({subject("/a"): 3})
        found = together.united([(self.member("r1"), one), (self.member("r2"), other)])
        self.assertEqual((found.refusals[kind], found.recordings[kind]), ({"p": 3, "q": 3}, ["r1", "r2"]))
        self.assertEqual((found.records, found.path_calls, found.accepted[known]), (6, 7, 2))
        self.assertEqual(found.moot[Unasked("absent")].total(), 6)

    def test_what_was_not_traced_is_told_once(self) -> None:
        members = [self.member(name, READING_LINKS) for name in ("r1", "r2")]
        found = together.united([(member, Summary(5)) for member in members])
        self.assertEqual(found.untraced, ("readlink(2) into other processes is not recorded (run --readlink)",))


class Mixed(unittest.TestCase):
    """Moves under a program's own layers, of which one has rights for files and another one none."""

    FILES: dict[str, Any] = {"op": "create", "pid": PID, "rs": 1, "fs": ["read_file", "refer"], "net": []}
    PORTS: dict[str, Any] = {"op": "create", "pid": PID, "rs": 2, "fs": [], "net": ["bind_tcp"]}
    MOVED: dict[str, Any] = {"op": "rename", "pid": PID, "from": "/a/f", "to": "/b/f"}

    def moves(self, *records: dict[str, Any], policy: str | None = None, abi: int = 5) -> int:
        """How many moves are counted under a policy that handles a right."""
        with tempfile.TemporaryDirectory() as name:
            folder = Path(name)
            write_lines(folder / "trace.jsonl", [*TRACE, *records])
            recording = Finished(folder, (Part(folder),), Counter(), Counter(), ended=True)
            if policy is None:
                return mixing.moves(recording, None, alone(abi))
            (folder / "p.toml").write_text(f"[[layer]]\n{policy}\n", encoding="utf-8")
            write_lines(folder / "tree.jsonl", [{"path": "/p", "kind": "reg"}])
            tried = auditor.tried(recording, policies.read(folder / "p.toml"), None)
            return mixing.moves(recording, tried, alone(abi))

    def test_layers_of_both_kinds_by_the_program_or_with_the_policy(self) -> None:
        ports, files = 'handled_access_net = ["bind_tcp"]', 'handled_access_fs = ["read_file"]'
        for own, policy, counted in (
            ([self.FILES, self.PORTS], None, 2), ([self.PORTS], files, 2), ([self.FILES], ports, 2),
            ([self.FILES], files, 0), ([self.PORTS], ports, 0), ([self.PORTS], None, 0), ([], files, 0),
        ):
            with self.subTest(own=len(own), policy=policy):
                self.assertEqual(self.moves(*own, self.MOVED, {**self.MOVED, "op": "link"}, policy=policy), counted)

    def test_what_the_kernel_does_not_refuse(self) -> None:
        within = {**self.MOVED, "to": "/a/g"}
        self.assertEqual(self.moves(self.FILES, self.PORTS, within), 0)
        self.assertEqual(self.moves(self.FILES, self.PORTS, self.MOVED, abi=3), 0)

    def test_a_layer_of_which_an_older_abi_has_no_right_for_files(self) -> None:
        device = {**self.PORTS, "fs": ["ioctl_dev"]}
        policy = 'handled_access_fs = ["ioctl_dev"]\nhandled_access_net = ["bind_tcp"]'
        for abi, counted in ((3, 0), (4, 1), (5, 0)):
            with self.subTest(abi=abi):
                self.assertEqual(self.moves(self.FILES, device, self.MOVED, abi=abi), counted)
                self.assertEqual(self.moves(self.FILES, self.MOVED, policy=policy, abi=abi), counted)

    def test_scopes_alone(self) -> None:
        for abi, counted in ((5, 0), (6, 1)):
            self.assertEqual(self.moves(self.FILES, self.MOVED, policy='scoped = ["signal"]', abi=abi), counted)

    def test_an_audit_says_so(self) -> None:
        (said,) = Finished(Path("rec"), (), Counter(), Counter(), ended=True, mixed=2).missing
        self.assertRegex(said, "^2 moves to another directory may fail with EXDEV")
