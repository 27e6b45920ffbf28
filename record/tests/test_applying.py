"""Where a policy's records go in a trace, and which they are."""

from __future__ import annotations

import io
import json
import tempfile
import unittest
from dataclasses import replace
from pathlib import Path

from landaudit_record.common.jsonl import Record
from landaudit_record.common.numbered import Numbered
from landaudit_record.common.problems import Problem
from landaudit_record.common.rights import FS
from landaudit_record.common.trees import Tree
from landaudit_record.policy import applying
from landaudit_record.policy.fitting import fit
from landaudit_record.policy.policies import Access, Layer, PathRule, Policy, PortRule

from .recorded import write_lines

TREE = Tree(
    {"/": "dir", "/usr": "dir", "/usr/ls": "reg", "/usr/dash": "reg", "/bin": "sym", "/sh": "sym", "/loop": "sym"},
    {"/bin": "usr", "/sh": "/bin/dash", "/loop": "loop"},
)
RUN = {"op": "exec", "pid": 10, "path": "/usr/ls", "call": 5, "kernel": "ok"}
START = {"op": "start", "pid": 10, "call": 5}


def access(*rights: str) -> Access:
    return Access(outright=frozenset(rights))


def policy(*parents: str, fs: Access = access("read_file"), allowed: Access = access("read_file")) -> Policy:
    """A policy of one layer with one rule on some parents."""
    rule = PathRule(Numbered("path_beneath", 1), allowed, parents)
    return Policy(Path("P.toml"), (Layer(1, fs, Access(), (rule,), ()),))


def rules(tried: Policy, tree: Tree) -> list[Record]:
    """The records of a policy's rules on paths."""
    return [one for one in applying.records(tried, fit(tried, 5)[0], tree, 1) if one["op"] == "add_path"]


class Applying(unittest.TestCase):
    def setUp(self) -> None:
        self.folder = self.enterContext(tempfile.TemporaryDirectory())

    def before(self, trace: list[Record], program: str | None = None) -> dict[int, int]:
        """The lines before which a policy goes, each with the process."""
        return applying.plan(write_lines(Path(self.folder, "trace.jsonl"), trace), TREE, program).before

    def test_before_the_first_program_of_each_start(self) -> None:
        trace = [START, RUN, {**RUN, "call": 6}, {"op": "fork", "pid": 10, "child": 11}, {**RUN, "pid": 11, "call": 7},
                 {"op": "start", "pid": 12}, {**RUN, "pid": 12, "call": 8}]
        self.assertEqual(self.before(trace), {2: 10, 7: 12})

    def test_before_all_records_of_the_exec(self) -> None:
        trace = [
            START,
            {"op": "adopt", "pid": 10, "fd": 0, "kind": "other", "call": 5},
            {"op": "close", "pid": 10, "fd": 0, "call": 5},
            {"op": "open", "pid": 10, "path": "/usr/ls", "fd": 9, "mode": "r", "call": 5},
            RUN,
        ]
        self.assertEqual(self.before(trace), {3: 10})

    def test_records_of_other_processes_between_do_not_part_an_exec(self) -> None:
        opened = {"op": "open", "pid": 10, "call": 5, "path": "/usr/ls", "fd": 9, "mode": "r"}
        other = {"op": "close", "pid": 20, "fd": 3, "call": 6}
        trace = [START, {"op": "start", "pid": 20}, opened, other, RUN]
        self.assertEqual(self.before(trace), {3: 10})

    def test_an_exec_that_failed_or_of_the_loader_is_no_program(self) -> None:
        failed, loader = {**RUN, "kernel": "ENOENT", "call": 6}, {**RUN, "role": "interpreter", "call": 7}
        self.assertEqual(self.before([START, failed, loader, {**RUN, "call": 8}]), {4: 10})

    def test_a_pid_that_is_used_again(self) -> None:
        ended, fork = {"op": "exit", "pid": 10}, {"op": "fork", "pid": 11, "child": 10}
        trace = [START, ended, {"op": "start", "pid": 11}, fork, RUN, {**RUN, "pid": 11}]
        self.assertEqual(self.before(trace), {6: 11})

    def test_before_each_run_of_a_program(self) -> None:
        trace = [START, RUN, {"op": "fork", "pid": 10, "child": 11}, {**RUN, "pid": 11, "path": "/usr/dash", "call": 7},
                 {**RUN, "pid": 11, "call": 8}, {**RUN, "pid": 11, "path": "/usr/dash", "call": 9}]
        for name in ("dash", "/usr/dash", "/bin/dash", "sh"):
            with self.subTest(name=name):
                self.assertEqual(self.before(trace, name), {4: 11, 6: 11})

    def test_parents_of_which_the_run_takes_the_objects_before_a_program(self) -> None:
        """A sandboxer that runs the program puts the rules on what is there then."""
        taken: list[Record] = [
            {"op": "rename", "from": "/usr/ls", "to": "/usr/old"},
            {"op": "unlink", "path": "/bin"},
            {"op": "rename", "from": "/usr", "to": "/var"},
            {"op": "rename", "from": "/x", "to": "/usr/ls", "exchange": True},
            {"op": "rename", "from": "/x", "to": "/usr/ls"},
            {"op": "rename", "from": "/x", "to": "/sh"},
            {"op": "unlink", "path": "/bin"},
        ]
        run = {**RUN, "path": "/usr/dash", "call": 9}
        for parent, number in (("/usr/ls", 0), ("/bin/ls", 0), ("/bin/dash", 1), ("/usr/dash", 2), ("/usr/ls", 3),
                               ("/usr/ls", 4), ("/sh", 5), ("/sh", 6)):
            took = {"pid": 10, "call": 7, "kernel": "ok", **taken[number]}
            with self.subTest(parent, taken=taken[number]):
                self.assertEqual(self.moved(parent, [START, took, run], "dash"), (parent,))
                self.assertEqual(self.moved(parent, [START, run, took], "dash"), ())
                self.assertEqual(self.moved(parent, [START, {**took, "kernel": "EACCES"}, run], "dash"), ())
                self.assertEqual(self.moved(parent, [START, took, run], None), ())
                self.assertEqual(self.moved("/var/x", [START, took, run], "dash"), ())
                self.assertEqual(self.moved(parent, [START, took], "dash", [START, run]), (parent,))
                self.assertEqual(self.moved(parent, [START, run], "dash", [START, took]), ())
                self.assertEqual(self.moved(parent, [START, run, took], "dash", in_order=False), (parent,))
                self.assertEqual(self.moved(parent, [START, run], "dash", [START, took], in_order=False), (parent,))

    def moved(
        self, parent: str, trace: list[Record], program: str | None, *more: list[Record], in_order: bool = True
    ) -> tuple[str, ...]:
        """The parents of a policy with one at which another object may be when a program begins."""
        parts = [write_lines(Path(self.folder, f"{number}.jsonl"), part) for number, part in enumerate([trace, *more])]
        return applying.moved(policy(parent), TREE, applying.plans(parts, TREE, program), in_order=in_order)

    def test_what_the_run_makes_before_a_program_has_its_rules(self) -> None:
        """A sandboxer that runs the program puts the rules on it, and not on what takes its place."""
        both = {"/usr/new", "/usr/new/x"}
        tree = replace(TREE, kinds={**TREE.kinds, "/usr/new": "dir", "/usr/new/x": "reg"}, made=both)
        made = {"op": "mkdir", "pid": 10, "path": "/usr/new~new~", "shown": "/usr/new", "call": 6, "kernel": "ok"}
        opened = {"op": "open", "pid": 10, "path": "/usr/new/x~new~", "shown": "/usr/new/x", "fd": 3, "mode": "w",
                  "create": True, "call": 7, "kernel": "ok"}
        removed = {"op": "unlink", "pid": 10, "path": "/usr/new/x", "call": 9, "kernel": "ok"}
        run, away = {**RUN, "path": "/usr/dash", "call": 8}, {"op": "rename", "pid": 10, "call": 9, "kernel": "ok"}
        for trace, found in (
            ([made, opened, run], both),
            ([made, opened, run, {**RUN, "call": 9}, run], both),
            ([made, run, opened], {"/usr/new"}),
            ([run, made, opened], set()),
            ([made, opened, run, opened], {"/usr/new"}),
            ([made, opened, run, made], set()),
            ([made, {**opened, "unknown": "made or there before"}, run], {"/usr/new"}),
            ([{**made, "kernel": "EACCES"}, opened, run], set()),
            ([made, opened, removed, run], {"/usr/new"}),
            ([made, opened, run, removed], both),
            ([made, opened, run, removed, run], {"/usr/new"}),
            ([made, opened, run, {**away, "from": "/usr/new/x", "to": "/usr/y~new~"}], {"/usr/new"}),
            ([made, opened, run, {**away, "from": "/usr/ls", "to": "/usr/new/x"}], {"/usr/new"}),
            ([made, opened, {**away, "from": "/usr/new", "to": "/var~new~", "shown_to": "/var"}, run], set()),
            ([made, opened, run, {**away, "from": "/x", "to": "/usr"}], set()),
        ):
            with self.subTest(trace):
                parts = [write_lines(Path(self.folder, "trace.jsonl"), [START, *trace])]
                there = applying.made_before(tree, applying.plans(parts, tree, "dash"))
                self.assertEqual(there, found)
                tried = policy("/usr/new/x")
                (added,) = (one for one in applying.records(tried, fit(tried, 5)[0], tree, 1, there) if "path" in one)
                self.assertEqual(added["path"], "/usr/new/x" if "/usr/new/x" in found else "/~new~")

    def test_a_program_that_never_runs(self) -> None:
        with self.assertRaisesRegex(Problem, "never runs dahs, did you mean dash.*it runs /usr/dash, /usr/ls"):
            self.before([START, RUN, {**RUN, "path": "/usr/dash", "call": 6}], "dahs")

    def test_a_trace_without_a_program(self) -> None:
        with self.assertRaisesRegex(Problem, "runs no program"):
            self.before([START])

    def test_a_line_that_is_no_record(self) -> None:
        with self.assertRaisesRegex(Problem, "line 1 is not a record: its pid"):
            self.before([{"op": "start"}])

    def test_a_number_that_the_trace_never_uses(self) -> None:
        path = write_lines(Path(self.folder, "trace.jsonl"), [START, {"op": "create", "pid": 10, "rs": 7}, RUN])
        self.assertEqual(applying.plan(path, TREE, None).rs, 8)

    def test_more_records_than_landaudit_reads(self) -> None:
        path = write_lines(Path(self.folder, "trace.jsonl"), [START, RUN])
        places = applying.Plan(before={2: 10}, rs=1, lines=999_999)
        out = io.BytesIO()
        with self.assertRaisesRegex(Problem, "has 1,000,001 records"):
            applying.write(path, places, [{"op": "nnp"}] * 2, out)
        self.assertEqual(out.getvalue(), b"")
        applying.write(path, places, [{"op": "nnp"}], out)
        self.assertEqual(out.getvalue().count(b"\n"), 3)

    def test_the_records_of_a_policy(self) -> None:
        port = PortRule(Numbered("net_port", 1), access("connect_tcp"), (443,))
        path = PathRule(Numbered("path_beneath", 1), access("read_file"), ("/bin/ls", "/none"))
        tried = Policy(Path("P.toml"), (Layer(1, access("read_file"), access("connect_tcp"), (path,), (port,)),))

        def rule(parent: str) -> Record:
            return {"layer": 1, "rule": "path_beneath 1", "parent": parent}

        self.assertEqual(
            applying.records(tried, fit(tried, 5)[0], TREE, 8),
            [
                {"op": "nnp", "policy": {}},
                {"op": "create", "rs": 8, "fs": ["read_file"], "net": ["connect_tcp"], "policy": {"layer": 1}},
                {"op": "add_path", "rs": 8, "path": "/usr/ls", "fs": ["read_file"], "policy": rule("/bin/ls")},
                {"op": "add_path", "rs": 8, "path": "/none", "fs": ["read_file"], "policy": rule("/none")},
                {
                    "op": "add_port",
                    "rs": 8,
                    "port": 443,
                    "net": ["connect_tcp"],
                    "policy": {"layer": 1, "rule": "net_port 1", "port": 443},
                },
                {"op": "restrict", "rs": 8, "policy": {"layer": 1}},
                {"op": "close_rs", "rs": 8, "policy": {"layer": 1}},
            ],
        )

    def test_a_rule_is_on_all_names_of_its_object(self) -> None:
        tree = replace(TREE, first={"/bin/x": "/usr/ls"}, others={"/usr/ls": ["/bin/x"]}, made={"/bin/x"})
        tried = policy("/usr/ls")
        added = rules(tried, tree)
        self.assertEqual([one["path"] for one in added], ["/usr/ls", "/bin/x"])
        self.assertEqual({one["policy"]["parent"] for one in added}, {"/usr/ls"})

    def test_no_rule_is_on_what_the_run_makes(self) -> None:
        tree = replace(TREE, kinds={**TREE.kinds, "/usr/new": "dir", "/usr/new/x": "reg"},
                       made={"/usr/new", "/usr/new/x"})
        tried = policy("/usr/new/x")
        (added,) = rules(tried, tree)
        self.assertEqual((added["path"], added["policy"]["made"]), ("/~new~", "/usr"))

    def test_a_rule_stays_with_what_was_there_before_the_run(self) -> None:
        tree = replace(TREE, kinds={**TREE.kinds, "/usr/ls~2~": "reg"}, made={"/usr/ls~2~"},
                       shown={"/usr/ls~2~": "/usr/ls"})
        tried = policy("/usr/ls")
        (added,) = rules(tried, tree)
        self.assertEqual((added["path"], added["policy"]["replaced"]), ("/usr/ls", "/usr"))

    def test_a_parent_behind_a_link_that_the_run_makes(self) -> None:
        tree = replace(TREE, made={"/sh"})
        tried = policy("/sh")
        (added,) = rules(tried, tree)
        self.assertEqual((added["path"], added["policy"]["made"]), ("/~new~", "/"))

    def test_a_group_on_a_file(self) -> None:
        everything, reading = Access(grouped=FS.groups["all"]), Access(grouped=FS.groups["read"])
        tried = policy("/usr", "/usr/ls", fs=everything, allowed=reading)
        added = [record["fs"] for record in applying.records(tried, fit(tried, 5)[0], TREE, 1) if "path" in record]
        self.assertEqual(added, [["read_file", "read_dir"], ["read_file"]])

    def test_a_parent_that_is_a_loop(self) -> None:
        looped = policy("/loop")
        with self.assertRaisesRegex(Problem, "P.toml: layer 1, path_beneath 1, parent: /loop is a loop"):
            applying.records(looped, fit(looped, 5)[0], TREE, 1)

    def test_a_trace_keeps_its_own_lines(self) -> None:
        trace = Path(self.folder, "trace.jsonl")
        own = b'{"op":"start" , "pid":10}\n\n{"op":"exec","pid":10,"path":"/usr/ls"}'
        trace.write_bytes(own)
        out = io.BytesIO()
        applying.write(trace, applying.plan(trace, TREE, None), [{"op": "nnp", "policy": {}}], out)
        first, blank, put, last = out.getvalue().split(b"\n")
        self.assertEqual(b"\n".join([first, blank, last]), own)
        self.assertEqual(json.loads(put), {"op": "nnp", "pid": 10, "policy": {}})
