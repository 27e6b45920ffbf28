"""The subcommands apply, audit and suggest as they are called, with a landaudit whose reports are written by hand."""

from __future__ import annotations

import errno
import json
import os
import unittest
from collections import Counter
from pathlib import Path
from typing import Any
from unittest import mock

from landaudit_record.common import options
from landaudit_record.common.finished import Converted, Size
from landaudit_record.common.jsonl import Record
from landaudit_record.common.problems import NOT_ALL_JUDGED
from landaudit_record.engine import landaudit
from landaudit_record.engine.landaudit_rules import BUILT

from . import pages
from .recorded import (
    PID,
    failed,
    last_line,
    missing_on,
    over_range,
    refused,
    report_line,
    write_lines,
)
from .stand_in import OLDER_OPS, OPS, POLICY, TRACE, TREE, StandIn


def notes_in(out: str) -> list[str]:
    """The notes of an audit, which are told with its summary."""
    return [line for line in out.splitlines() if line.startswith("note: ")]


class Trying(StandIn):
    def test_apply_writes_the_trace_to_standard_output(self) -> None:
        status, out, errors = self.called("apply", self.policy, self.recording, "--abi", "3")
        records: list[dict[str, Any]] = [json.loads(line) for line in out.splitlines()]
        self.assertEqual((status, [record["op"] for record in records]), (0, OPS))
        self.assertEqual([record["pid"] for record in records], [PID] * 8)
        self.assertEqual(errors, "")

    def test_apply_writes_to_a_file_and_takes_the_trace_by_name(self) -> None:
        trace, out = self.recording / "trace.jsonl", self.folder / "tried.jsonl"
        tree = self.recording.joinpath("tree.jsonl").rename(self.folder / "t.jsonl")
        status, _, _ = self.called("apply", self.policy, trace, "--tree", tree, "--out", out)
        self.assertEqual((status, len(out.read_text().splitlines())), (0, 8))

    def test_apply_tells_of_what_the_run_moves_before_a_program(self) -> None:
        moved = {"op": "rename", "pid": PID, "from": "/a", "to": "/b~new~", "shown_to": "/b", "call": 1, "kernel": "ok"}
        write_lines(self.recording / "trace.jsonl", [TRACE[0], moved, *TRACE[1:]])
        status, _, errors = self.called("apply", self.policy, self.recording, "--program", "bin", "--abi", "3")
        said = "NOT ALL IS JUDGED: another object may be at /a when the program begins"
        self.assertEqual((status, said in errors), (NOT_ALL_JUDGED, True))

    def test_apply_never_writes_over_its_trace(self) -> None:
        trace = self.recording / "trace.jsonl"
        before = trace.read_bytes()
        status, _, errors = self.called("apply", self.policy, trace, "--out", trace)
        self.assertEqual((status, trace.read_bytes()), (2, before))
        self.assertIn("name another file", errors)

    def test_what_an_older_abi_drops_is_noted(self) -> None:
        status, out, errors = self.called("apply", self.policy, self.recording, "--abi", "2")
        self.assertEqual(status, 0)
        self.assertIn("note: layer 1, handled_access_fs: ABI 2 does not know truncate: dropped", errors)
        self.assertNotIn("truncate", out)

    def test_audit_without_a_policy(self) -> None:
        status, out, _ = self.audited("audit", self.recording)
        self.assertEqual(status, 0)
        self.assertIn("3 records: 3 allowed, 0 refused, 0 not asked (moot)", out)
        first = (self.recording / "report.jsonl").read_text().splitlines()[0]
        self.assertEqual(first, report_line(1, TRACE[0], over_range({3: "allowed"})).rstrip())

    def test_audit_of_a_policy(self) -> None:
        status, out, _ = self.audited("audit", self.recording, "--policy", self.policy)
        self.assertEqual(status, 1)
        self.assertIn("8 records: 7 allowed, 1 refused, 0 not asked (moot)", out)
        self.assertIn("open w  /a     EACCES  policy's 1  /bin     write_file", out)
        tried = (self.recording / "tried.jsonl").read_text().splitlines()
        self.assertEqual([json.loads(line)["op"] for line in tried], OPS)

    def test_audit_names_the_command_that_suggests_rules(self) -> None:
        _, out, _ = self.audited("audit", self.recording, "--policy", self.policy, "--program", "bin")
        command = f"landaudit-record suggest {self.recording} --policy {self.policy} --program bin --abi 3"
        self.assertEqual(out.splitlines()[-2:], ["rules for these:", command])
        _, out, _ = self.audited("audit", self.recording)
        self.assertNotIn("rules for these", out)

    def test_audit_is_at_best_effort_and_as_recorded_if_that_is_wanted(self) -> None:
        none: list[str] = []
        suggest = ["suggest", self.recording, "--policy", self.policy]
        for command, more in (["audit", self.recording], ""), (suggest, " --refused"):
            for words, flags in (none, "3 --best-effort --explain"), (["--as-recorded"], "3 --explain"):
                with self.subTest(command=command[0], words=words):
                    self.runs.unlink(missing_ok=True)
                    self.audited(*command, *words)
                    self.assertEqual(set(self.ran()), {f"{flags}{more}"})

    def test_the_command_that_suggests_rules_judges_as_this_audit_did(self) -> None:
        _, out, _ = self.audited("audit", self.recording, "--policy", self.policy, "--as-recorded")
        command = f"landaudit-record suggest {self.recording} --policy {self.policy} --abi 3 --as-recorded"
        self.assertEqual(out.splitlines()[-2:], ["rules for these:", command])

    def test_the_command_that_suggests_rules_has_the_values_of_this_audit(self) -> None:
        self.policy.write_text(self.policy.read_text(encoding="utf-8").replace('"/a"', '"${A}"'), encoding="utf-8")
        self.assertIn("${A}", self.policy.read_text(encoding="utf-8"))
        _, out, _ = self.audited("audit", self.recording, "--policy", self.policy, "--set", "A=/a")
        command = f"landaudit-record suggest {self.recording} --policy {self.policy} --set A=/a --abi 3"
        self.assertEqual(out.splitlines()[-2:], ["rules for these:", command])

    def test_compare_judges_what_was_recorded(self) -> None:
        made = {"op": "create", "pid": PID, "rs": 9, "fs": ["make_sock"], "net": [], "call": 2, "kernel": "ok"}
        write_lines(self.recording / "trace.jsonl", [*TRACE[:2], made])
        self.audited("compare", self.recording)
        self.assertEqual(self.ran(), ["3"])

    def test_compare_adds_up_the_parts(self) -> None:
        """In each part a process makes a layer; in the second, the kernel then refuses what landaudit allows."""
        create = {"op": "create", "pid": PID, "rs": 9, "fs": ["write_file"], "net": [], "call": 2, "kernel": "ok"}
        part = [*TRACE[:1], create, {"op": "restrict", "pid": PID, "rs": 9, "call": 3, "kernel": "ok"}]
        opened = {**TRACE[2], "call": 4, "kernel": "EACCES"}
        sizes = []
        for number, lines in ((1, part), (2, [*part, opened, {**opened, "call": 5}])):
            write_lines(self.recording / f"tree-{number}.jsonl", TREE)
            trace = write_lines(self.recording / f"trace-{number}.jsonl", lines)
            sizes.append(Size(len(lines), 0, len(TREE), trace.stat().st_size))
        Converted(tuple(sizes), 1, 2, Counter(), Counter(), Counter(), True, (), ()).write(self.recording)
        answers = {str(many): ["allowed"] * many for many in (3, 5)}
        (self.folder / "answers.json").write_text(json.dumps(answers))
        for workers in (1, 2):
            with mock.patch.object(landaudit, "workers", return_value=workers):
                file = self.folder / "differences"
                status, out, _ = self.audited("compare", self.recording, "--json", "--differences", file)
            found = json.loads(out)
            self.assertEqual((status, found["calls"], found["agree"]), (1, 6, 4))
            self.assertEqual([one["call"] for one in map(json.loads, file.read_text().splitlines())], [4, 5])

    def test_compare_judges_nothing_where_no_ruleset_was_made(self) -> None:
        status, _, said = self.audited("compare", self.recording)
        self.assertEqual((status, "has no call under a layer" in said), (4, True))
        self.assertFalse((self.folder / "runs").exists())

    def test_audit_is_at_all_abis_if_none_is_named(self) -> None:
        status, out, _ = self.audited("audit", self.recording, abi=None)
        self.assertEqual((status, out.splitlines()[0]), (0, f"{self.recording} at ABI 5"))
        self.assertEqual(self.ran(), ["1-5 --best-effort --explain"])
        rows = [row.split() for row in self.table(out)[1:]]
        self.assertEqual(rows, [[str(abi), "3", "0", "0"] for abi in range(1, 6)])

    def test_what_is_accepted_is_counted_apart(self) -> None:
        accepted = '[[accepted]]\ncall = "open w"\npath = "/a"\nreason = "it is only tried"\n'
        other = '[[accepted]]\ncall = "connect"\nport = 80\nreason = "no updates here"\n'
        self.policy.write_text(POLICY + accepted)
        beside = self.folder / "accepted.toml"
        beside.write_text(other)
        status, out, errors = self.audited("audit", self.recording, "--policy", self.policy, "--accepted", beside)
        self.assertEqual(status, 0)
        self.assertIn("8 records: 7 allowed, 1 refused (1 accepted), 0 not asked (moot)\n", out)
        self.assertRegex(out, r"refused and accepted \(1 kind\)\n.*\n +1  open w  /a +it is only tried\n")
        self.assertNotIn("most frequent first", out)
        self.assertIn("note: accepted, but no longer refused: connect port 80 (no updates here)\n", out)
        self.assertEqual(errors, "")
        _, out, _ = self.audited("audit", self.recording, "--policy", self.policy, "--json")
        data = json.loads(out)
        wanted = [{"times": 1, "call": "open w", "place": "/a", "reason": "it is only tried"}]
        self.assertEqual((data["refused"], data["refusals"], data["accepted"]), (1, [], wanted))

    def test_what_is_not_accepted_is_refused_as_before(self) -> None:
        self.policy.write_text(POLICY + '[[accepted]]\ncall = "open r"\npath = "/a"\nreason = "x"\n')
        status, out, errors = self.audited("audit", self.recording, "--policy", self.policy)
        self.assertEqual(status, 1)
        self.assertIn("1 refused, 0 not asked (moot)", out)
        self.assertIn("note: accepted, but no longer refused: open r /a (x)\n", out)
        self.assertEqual(errors, "")

    def test_an_acceptance_with_a_fault(self) -> None:
        for text, wanted in (
            ('path = "/a"\nreason = "x"', "accepted 1: call is missing"),
            ('call = "exec"\npath = "/a"', "accepted 1: reason is missing"),
            ('call = "exec"\npath = "/a"\nport = 1\nreason = "x"', "accepted 1: give at most one place"),
            ('call = "link"\nfrom = "/a"\nreason = "x"', "accepted 1: give at most one place"),
            ('call = "bind"\nport = -1\nreason = "x"', "accepted 1, port: -1 is not a port"),
            ('call = "exec"\npath = 1\nreason = "x"', "accepted 1, path: 1 is not a text"),
            ('call = "exec"\nwhy = 1\nreason = "x"', "accepted 1: unknown key 'why'"),
        ):
            with self.subTest(text):
                self.policy.write_text(f"{POLICY}[[accepted]]\n{text}\n")
                status, out, errors = self.audited("audit", self.recording, "--policy", self.policy)
                self.assertEqual((status, out), (3, ""))
                self.assertIn(wanted, errors)

    def test_audit_of_a_policy_at_a_range(self) -> None:
        status, out, errors = self.audited("audit", self.recording, "--policy", self.policy, abi="1-4")
        self.assertEqual((status, out.splitlines()[0]), (1, f"{self.recording} under {self.policy} at ABI 4"))
        self.assertIn("8 records: 7 allowed, 1 refused, 0 not asked (moot)", out)
        command = f"landaudit-record suggest {self.recording} --policy {self.policy} --abi 4"
        self.assertIn(f"\nrules for these:\n{command}\n", out)
        self.assertEqual(self.table(out), [
            "  ABI  allowed  refused  moot  what changes",
            "    1        6        1     0  breaks: exec /bin EACCES",
            "    2        6        1     0  breaks: open w /a EACCES",
            "                               refused no more: exec /bin EACCES",
            "    3        7        1     0",
            "    4        7        1     0",
        ])
        said = "note: ABI 1-2 lack rights of the policy: --abi N says which rights ABI N lacks"
        self.assertEqual(notes_in(out), [said])
        self.assertEqual(errors, "")
        self.assertEqual(self.ran(), ["1-4 --best-effort --explain"])
        _, out, _ = self.audited("audit", self.recording, "--policy", self.policy, abi="2-4")
        self.assertEqual(notes_in(out), ["note: ABI 2 lacks rights of the policy: --abi 2 says which"])

    def test_a_page_is_written_beside_what_is_printed(self) -> None:
        file = self.folder / "page.html"
        words = ["audit", self.recording, "--policy", self.policy]
        for more in ([], ["--json"], ["--as-recorded"]):
            file.unlink(missing_ok=True)
            plain = self.audited(*words, *more, abi="1-4")
            self.assertEqual(self.audited(*words, *more, "--html", file, abi="1-4"), plain)
            shown = pages.read(file.read_text(encoding="utf-8"))
            heads = ("times", "call", "place", "error")
            refused = {abi: [[row[head] for head in heads] for row in shown.said("refusals", abi)]
                       for abi in range(1, 5)}
            write = [["1", "open w", "/a", "EACCES"]]
            self.assertEqual(refused, {1: [["1", "exec", "/bin", "EACCES"]], 2: write, 3: write, 4: write})
            for abi, counts in ((4, ["1", "0 1 refused"]), (1, ["1", "1"])):
                self.assertEqual([row[2:] for row in shown.rows("policy", abi) if len(row) > 2], [counts])

    def test_the_calls_on_paths_of_a_page_are_those_of_the_data(self) -> None:
        file = self.folder / "page.html"
        _, out, _ = self.audited("audit", self.recording, "--json", "--html", file)
        shown = pages.read(file.read_text(encoding="utf-8"))
        (top,) = (row for row in shown.all("summary", "row") if row.text(3).startswith("/") and "/" in row.text(3)[:1])
        self.assertEqual(top.text(3), f"/{json.loads(out)['path_calls']}00")

    def test_a_page_that_can_not_be_written(self) -> None:
        folder = self.folder / "folder.html"
        folder.mkdir()
        before = sorted(self.folder.rglob("*"))
        for file, why in ((self.folder / "none" / "page.html", "No such file or directory"), (folder, "Is a directory"),
                          (Path("/dev/full"), "No space left on device")):
            with self.subTest(why):
                status, out, errors = self.audited("audit", self.recording, "--html", file)
                self.assertEqual((status, errors), (4, f"landaudit-record: {file}: {why}\n"))
                self.assertIn("3 records: 3 allowed", out)
        left = {path.name for path in self.folder.rglob("*")} - {path.name for path in before}
        self.assertEqual(left, {"runs", "report.jsonl"})

    def test_a_page_takes_the_place_of_the_one_before_it_whole_or_not_at_all(self) -> None:
        file = self.folder / "page.html"
        file.write_text("the page before")

        def half(self: Path, text: bytes) -> None:
            """Writes as much as there is room for."""
            with open(self, "wb") as out:
                out.write(text[: len(text) // 2])
            raise OSError(errno.ENOSPC, os.strerror(errno.ENOSPC))

        with mock.patch.object(Path, "write_bytes", half):
            self.assertEqual(self.audited("audit", self.recording, "--html", file)[0], 4)
        self.assertEqual(file.read_text(), "the page before")
        self.audited("audit", self.recording, "--html", file)
        self.assertTrue(file.read_text().startswith("<!DOCTYPE html>"))
        self.assertEqual(list(self.folder.glob(".*")), [])

    def test_what_is_said_of_a_range_is_said_of_each_abi_by_itself(self) -> None:
        words = ["audit", self.recording, "--policy", self.policy, "--json"]
        steps = json.loads(self.audited(*words, abi="1-5")[1])["abis"]
        for step in steps:
            (alone,) = json.loads(self.audited(*words, abi=str(step["abi"]))[1])["abis"]
            for member in ("records", "allowed", "refused", "moot"):
                self.assertEqual(step[member], alone[member])

    def test_rules_are_not_left_out_of_what_is_judged_as_recorded(self) -> None:
        best = self.audited("audit", self.recording, "--policy", self.policy, abi="1-4")
        self.runs.unlink()
        recorded = self.audited("audit", self.recording, "--policy", self.policy, "--as-recorded", abi="1-4")
        self.assertEqual(self.ran(), ["1-2 --explain", "3-4 --explain"])
        self.assertEqual(self.table(recorded[1]), self.table(best[1]))

    def test_a_layer_that_older_abis_have_not(self) -> None:
        self.policy.write_text('[[layer]]\nhandled_access_net = ["connect_tcp"]\n')
        answers = {"4": ["allowed"] * 4, "7": ["allowed"] * 7}
        (self.folder / "answers.json").write_text(json.dumps(answers))
        status, out, _ = self.audited("audit", self.recording, "--policy", self.policy, abi=None)
        self.assertEqual((status, self.ran()), (0, ["1-3 --best-effort --explain", "4-5 --best-effort --explain"]))
        rows = [row.split() for row in self.table(out)[1:]]
        self.assertEqual(rows, [[str(abi), "4" if abi < 4 else "7", "0", "0"] for abi in range(1, 6)])
        report = (self.recording / "report.jsonl").read_text()
        self.assertTrue(report.endswith("\n" + last_line(7, range(4, 6))), report)

    @unittest.skipUnless(BUILT.exists(), f"{BUILT} is not built")
    def test_the_files_of_a_range_are_those_of_its_newest_abi(self) -> None:
        for abi, ops in ("1-3", OPS), ("1-2", OLDER_OPS):
            with self.subTest(abi):
                self.audited("audit", self.recording, "--policy", self.policy, abi=abi)
                tried = (self.recording / "tried.jsonl").read_text().splitlines()
                self.assertEqual([json.loads(line)["op"] for line in tried], ops)
                report = (self.recording / "report.jsonl").read_text()
                self.assertTrue(report.endswith("\n" + last_line(len(ops), options.abis(abi))), report)
        names = sorted(path.name for path in self.recording.iterdir())
        self.assertEqual(names, ["report.jsonl", "trace.jsonl", "tree.jsonl", "tried.jsonl"])

    def test_the_status_of_a_range_is_1_if_an_abi_refuses_something(self) -> None:
        answers = {"3": ["allowed"] * 3, "2: 3": ["allowed"] * 2 + [failed("EBADF", "unheld", rs=9)]}
        (self.folder / "answers.json").write_text(json.dumps(answers))
        for abi, status in ("1", 0), ("1-3", 1), ("2-3", 1), ("3-5", 0), ("2", 1):
            with self.subTest(abi):
                self.assertEqual(self.audited("audit", self.recording, abi=abi)[0], status)

    def test_one_abi_has_no_table(self) -> None:
        for abi in ("3", "3-3"):
            self.assertNotIn("by ABI", self.audited("audit", self.recording, abi=abi)[1])

    def test_a_fault_at_an_abi_leaves_nothing_behind(self) -> None:
        (self.folder / "answers.json").write_text(json.dumps({"1: 3": ["allowed"] * 3}))
        status, out, errors = self.audited("audit", self.recording, abi=None)
        self.assertEqual((status, out, errors.count("\n")), (3, "", 1))
        self.assertEqual(sorted(path.name for path in self.recording.iterdir()), ["trace.jsonl", "tree.jsonl"])

    def test_audit_as_data(self) -> None:
        status, out, _ = self.audited("audit", self.recording, "--policy", self.policy, "--json")
        data = json.loads(out)
        self.assertEqual((status, data["status"], data["refused"], data["policy"]), (1, 1, 1, str(self.policy)))
        self.assertEqual(data["refusals"][0]["place"], "/a")
        missing = {"text": "write_file on /a", "rights": ["write_file"], "path": "/a"}
        self.assertEqual(data["refusals"][0]["layers"], [{"number": 1, "policy": 1, "objections": [missing]}])
        self.assertEqual((data["abi"], [step["abi"] for step in data["abis"]], data["as_recorded"]), (3, [3], False))

    def test_a_range_as_data(self) -> None:
        words = ["--policy", self.policy, "--json", "--as-recorded"]
        data = json.loads(self.audited("audit", self.recording, *words, abi="2-4")[1])
        self.assertEqual((data["abi"], data["records"], data["as_recorded"]), (4, 8, True))
        self.assertEqual([(step["abi"], step["records"]) for step in data["abis"]], [(2, 7), (3, 8), (4, 8)])
        self.assertEqual(data["abis"][0]["breaks"], [{"call": "open w", "place": "/a", "error": "EACCES"}])

    def test_what_is_not_judged_of_a_policy_is_noted(self) -> None:
        self.policy.write_text('''[[layer]]
handled_access_fs = ["write_file", "truncate", "read_dir"]
scoped = ["signal"]
[[layer.path_beneath]]
allowed_access = ["truncate"]
parent = "/tmp/*.txt"
[[layer.path_beneath]]
allowed_access = ["read_dir", "truncate"]
parent = ["/none", "/a"]
''')
        answers = {"10": ["allowed"] * 10}
        (self.folder / "answers.json").write_text(json.dumps(answers))
        notes = [
            "layer 1, path_beneath 1, parent /tmp/*.txt: Landlock has no patterns: name the directory, or each file",
            "layer 1, path_beneath 2, parent /none: not in the tree, so it may not be a directory: then the kernel "
            "refuses read_dir with EINVAL",
        ]
        dropped = "ABI 3 does not know the policy's scopes: dropped"
        for command in (["audit", "--json"], ["suggest"]):
            with self.subTest(command):
                errors = self.audited(*command, self.recording, "--policy", self.policy)[2]
                said = [*notes, *([dropped] if "audit" in command else ())]
                self.assertEqual(errors.splitlines(), [f"landaudit-record: note: {note}" for note in said])
        _, out, errors = self.audited("audit", self.recording, "--policy", self.policy)
        self.assertEqual((notes_in(out), errors), ([f"note: {note}" for note in (notes[0], dropped)], ""))

    def test_a_rule_on_a_file_of_this_machine_that_no_rule_for_directories_can_be_on(self) -> None:
        """The recording met neither of the two parents, and this machine has a file and a directory there."""
        file, directory = self.folder / "file", self.folder / "directory"
        file.touch()
        directory.mkdir()
        self.policy.write_text('[[layer]]\nhandled_access_fs = ["write_file", "read_dir"]\n[[layer.path_beneath]]\n'
                               f'allowed_access = ["read_dir"]\nparent = ["{file}", "{directory}"]\n')
        (self.folder / "answers.json").write_text(json.dumps({"9": ["allowed"] * 9}))
        _, out, _ = self.audited("audit", self.recording, "--policy", self.policy)
        self.assertEqual(notes_in(out), [f"note: layer 1, path_beneath 1, parent {file}: not a directory on "
                                         "this machine, so the kernel refuses read_dir with EINVAL"])

    def test_suggest_audits_until_nothing_is_refused(self) -> None:
        status, out, _ = self.audited("suggest", self.recording, "--policy", self.policy)
        self.assertEqual(status, 0)
        self.assertIn('# 1 call\n[[layer.path_beneath]]\nallowed_access = ["write_file"]\nparent = "/a"\n', out)
        self.assertIn("(2 audits)", out)
        self.assertEqual(sorted(path.name for path in self.recording.iterdir()), ["trace.jsonl", "tree.jsonl"])

    def test_suggest_takes_at_most_as_many_rules_as_are_asked_for(self) -> None:
        status, out, _ = self.audited("suggest", self.recording, "--policy", self.policy, "--rules", "1")
        self.assertEqual(status, 0)
        self.assertEqual(out.count("[[layer.path_beneath]]"), 1)
        for number in ("0", "-1", "1.5", "all"):
            with self.subTest(number):
                words = ("suggest", self.recording, "--policy", self.policy, f"--rules={number}")
                self.assertEqual(self.audited(*words)[0], 2)

    def test_suggest_names_groups_of_rules_if_that_is_the_style(self) -> None:
        """Two files of the machine's names are read and refused, then nothing is."""
        write_lines(self.recording / "tree.jsonl", [*TREE, {"path": "/etc", "kind": "dir"}, *(
            {"path": path, "kind": "reg"} for path in ("/etc/passwd", "/etc/group"))])
        common = {"op": "open", "pid": PID, "mode": "r", "kernel": "ok"}
        reading: list[Record] = [{**common, "path": path, "fd": fd, "call": fd}
                                 for fd, path in ((4, "/etc/passwd"), (5, "/etc/group"))]
        write_lines(self.recording / "trace.jsonl", [*TRACE, *reading])
        self.policy.write_text('[[layer]]\nhandled_access_fs = ["read_file"]\n')
        lacking = [refused(missing_on(f"{record['path']}", "read_file")) for record in reading]
        answers = {"9": ["allowed"] * 7 + lacking, "11": ["allowed"] * 11}
        (self.folder / "answers.json").write_text(json.dumps(answers))
        parents = 'parent = [\n    "/etc/group",\n    "/etc/passwd",\n]'
        for style, wanted in (("base", 'include = ["nameservice"]'), ("exact", parents)):
            with self.subTest(style):
                words = ["suggest", self.recording, "--policy", self.policy, "--style", style]
                status, out, _ = self.audited(*words)
                self.assertEqual((status, out.count("[[layer.path_beneath]]")), (0, 1))
                self.assertIn(f"{wanted}\n", out)

    def test_a_policy_with_groups_of_rules(self) -> None:
        """A rule is on those of a group's paths that the recording met, and nothing is said of the others."""
        write_lines(self.recording / "tree.jsonl", [*TREE, {"path": "/tmp", "kind": "dir"}])
        self.policy.write_text('include = ["tmp"]\n[[layer]]\nhandled_access_fs = ["write_file", "truncate"]\n')
        status, out, errors = self.audited("audit", self.recording, "--policy", self.policy)
        self.assertEqual((status, errors), (1, ""))
        self.assertIn("8 records: 7 allowed, 1 refused, 0 not asked (moot)", out)
        tried = [json.loads(line) for line in (self.recording / "tried.jsonl").read_text().splitlines()]
        self.assertEqual([(it["path"], it["fs"]) for it in tried if it["op"] == "add_path"],
                         [("/tmp", ["write_file", "truncate"])])

    def test_a_folder_without_a_recording(self) -> None:
        made = "has no tree.jsonl: name a folder that 'landaudit-record run' made\n"
        absent = self.folder / "absent"
        first = f"does not exist: record it first with landaudit-record run {absent} -- COMMAND\n"
        for folder, what in ((self.folder, made), (self.policy, made), (absent, first)):
            for words in (["audit", folder], ["suggest", folder, "--policy", self.policy]):
                with self.subTest(words):
                    status, _, errors = self.audited(*words)
                    self.assertEqual((status, errors), (3, f"landaudit-record: {folder} {what}"))

    def test_a_policy_with_a_fault(self) -> None:
        self.policy.write_text('[[layer]]\nhandled_access_fs = ["wirte"]\n')
        landaudit = ["--landaudit", self.landaudit]
        for words in (
            ["apply", self.policy, self.recording],
            ["audit", self.recording, "--policy", self.policy, *landaudit],
            ["suggest", self.recording, "--policy", self.policy, *landaudit],
        ):
            status, out, errors = self.called(*words)
            self.assertEqual((status, out), (3, ""))
            self.assertIn("layer 1, handled_access_fs: unknown right for files 'wirte', did you mean 'write'?", errors)

    def test_a_program_that_is_not_run(self) -> None:
        status, _, errors = self.audited("audit", self.recording, "--policy", self.policy, "--program", "ls")
        self.assertEqual(status, 3)
        self.assertIn("never runs ls", errors)

    def test_landaudit_that_is_not_there(self) -> None:
        status, _, errors = self.called("audit", self.recording, "--landaudit", self.folder / "none")
        self.assertEqual(status, 4)
        self.assertIn("give --landaudit", errors)
