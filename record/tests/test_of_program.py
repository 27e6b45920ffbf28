"""Other rules in the layers that recorded programs put in force by themselves."""

from __future__ import annotations

import random
import tempfile
import unittest
from collections import Counter
from collections.abc import Iterator
from dataclasses import replace
from pathlib import Path

from landaudit_record.audit import auditor, of_program
from landaudit_record.common import finished, jsonl, trace_lines
from landaudit_record.common.finished import Finished, Part
from landaudit_record.common.jsonl import Record
from landaudit_record.common.problems import NOT_ALL_JUDGED, USAGE, Problem
from landaudit_record.common.rights import NEWEST_ABI, Rights
from landaudit_record.common.trees import Tree
from landaudit_record.engine import reports
from landaudit_record.engine.landaudit import BUILT
from landaudit_record.policy import importing, policies, policy_text
from landaudit_record.policy.importing import Following, Own
from landaudit_record.recorder.writing import Limits

from .calling import InFolder, called
from .recorded import write_lines
from .stories import told
from .test_importing import RESTRICT, by, create, rule, run

#: A program that allows itself to read in /etc and to write nothing.
TREE = [{"path": "/bin", "kind": "dir"}, {"path": "/bin/p", "kind": "reg"}, {"path": "/etc", "kind": "dir"},
        {"path": "/etc/f", "kind": "reg"}, {"path": "/tmp", "kind": "dir"},
        {"path": "/tmp/new", "kind": "dir", "made": True}]
CALLS = (
    run("/bin/p"),
    {"op": "nnp"},
    create(["read_file", "read_dir", "write_file", "make_reg"]),
    rule("/etc", "read_file", "read_dir"),
    RESTRICT,
    {"op": "open", "path": "/etc/f", "fd": 5, "mode": "r", "kernel": "ok"},
    {"op": "open", "path": "/etc/f", "fd": 6, "mode": "w", "kernel": "EACCES"},
)


#: The operations on rulesets.
ON_RULESETS = ("create", "add_path", "add_port", "restrict", "close_rs")


class InFolder(InFolder):
    def recording(self, name: str, *calls: Record) -> str:
        """A recording of one process, each of whose calls has a number."""
        folder = self.folder / name
        folder.mkdir()
        write_lines(folder / "tree.jsonl", TREE)
        write_lines(folder / "trace.jsonl", ({**it, "call": n} for n, it in enumerate(by(10, *calls), start=1)))
        return str(folder)

    def said(self, *words: str) -> tuple[int, str, str]:
        return called(words)

    def written(self, name: str) -> list[Record]:
        """The trace in which the program's own policy is tried as it is."""
        opened = of_program.opened([name], "p", None)
        tried = opened.members[0].tried
        assert tried is not None
        (files,) = tried.write(opened.policy, NEWEST_ABI, 0, Part(self.folder))
        return [record for _, record in jsonl.numbered(files.trace)]


class Written(InFolder):
    """What landaudit is asked, by docs/FORMATS.md."""

    def test_a_layer_of_the_policy_is_in_place_of_the_program_s_restriction(self) -> None:
        trace = self.written(self.recording("one", *CALLS))
        ops = "start exec nnp create add_path create add_path restrict close_rs open open".split()
        self.assertEqual([record["op"] for record in trace], ops)
        self.assertEqual([record.get("policy", {}).get("layer") for record in trace], [None] * 5 + [1] * 4 + [None] * 2)
        made, added, restricted, _ = (record for record in trace if "policy" in record)
        self.assertEqual(made["fs"], ["write_file", "read_file", "read_dir", "make_reg"])
        self.assertEqual((added["path"], added["fs"]), ("/etc", ["read_file", "read_dir"]))
        self.assertEqual((made["rs"], restricted["rs"], made["pid"]), (4, 4, 10))

    def test_each_layer_is_where_the_program_had_it_and_other_layers_stay(self) -> None:
        other = {**create(["execute"]), "rs": 8}
        name = self.recording("one", other, {**RESTRICT, "rs": 8}, *CALLS, create(["refer"]), RESTRICT)
        trace = self.written(name)
        self.assertEqual([record.get("policy", {}).get("layer") for record in trace if record["op"] == "restrict"],
                         [None, 1, 2])
        self.assertEqual(trace[-2]["op"], "restrict")

    def test_a_rule_on_what_the_run_made_stays_on_it(self) -> None:
        name = self.recording("one", *CALLS[:4], rule("/tmp/new", "make_reg"), *CALLS[4:])
        added = [record for record in self.written(name) if record["op"] == "add_path" and "policy" in record]
        self.assertEqual([(it["path"], it["fs"]) for it in added],
                         [("/etc", ["read_file", "read_dir"]), ("/tmp/new", ["make_reg"])])
        self.assertNotIn("made", added[1]["policy"])


class Choosing(InFolder):
    def test_recordings_in_which_the_policies_differ(self) -> None:
        one, other = self.recording("one", *CALLS), self.recording("other", *CALLS[:3], *CALLS[4:])
        with self.assertRaises(Problem) as caught:
            of_program.opened([one, other], None, None)
        self.assertIn("/bin/p puts another policy in force in", str(caught.exception))

    def test_options_that_need_one_another(self) -> None:
        policy = str(self.folder / "P.toml")
        Path(policy).write_text('[[layer]]\nhandled_access_fs = ["all"]\n')
        one = self.recording("one", *CALLS)
        for command in ("suggest", "tighten"):
            for words in ([], ["--policy", policy, "--of-program"], ["--policy", policy, "--process", "1"]):
                with self.subTest(command=command, words=words):
                    self.assertEqual(self.said(command, one, "--landaudit", "/bin/true", *words)[0], USAGE)


class Stories(unittest.TestCase):
    """Random recordings, in one part and in several."""

    def test_what_is_found_does_not_depend_on_parts(self) -> None:
        for seed in range(40):
            with tempfile.TemporaryDirectory() as folder, self.subTest(seed):
                whole, parts = self.recordings(Path(folder), seed)
                (one, tree), (several, other) = (self.found(it) for it in (whole, parts))
                self.assertEqual(tree.kinds, other.kinds)
                self.assertEqual({own: sorted(times.pids) for own, times in one.own.items()},
                                 {own: sorted(times.pids) for own, times in several.own.items()})

    def test_what_is_printed_reads_as_what_is_found(self) -> None:
        for seed in range(40):
            with tempfile.TemporaryDirectory() as folder, self.subTest(seed):
                found, _ = self.found(finished.opened(str(told(Path(folder), seed, 200))))
                for own in found.own:
                    layers = [_meant(replace(it, rules=tuple(replace(rule, made=None) for rule in it.rules)))
                              for it in own.layers if it.is_layer]
                    file = Path(folder, "P.toml")
                    file.write_text("\n".join(policy_text.lines(importing.policy(own, file))))
                    if layers:
                        self.assertEqual([_of_policy(layer) for layer in policies.read(file).layers], layers)

    @unittest.skipUnless(BUILT.exists(), f"{BUILT} is not built")
    def test_a_program_s_own_policy_in_its_place_is_what_it_had(self) -> None:
        tried = 0
        for seed in range(60):
            with tempfile.TemporaryDirectory() as folder:
                for recording in self.recordings(Path(folder), seed):
                    found, tree = self.found(recording)
                    chosen = [own for own in found.own if all(ruleset.is_layer for ruleset in own.layers)]
                    for own in random.Random(seed).sample(chosen, min(2, len(chosen))):
                        with self.subTest(seed=seed, parts=len(recording.parts)):
                            self.assert_kept(recording, tree, own, Path(folder))
                            tried += 1
        self.assertGreater(tried, 100)

    def assert_kept(self, recording: Finished, tree: Tree, own: Own, folder: Path) -> None:
        """Each process has the same layers when the policy is written in their place."""
        policy = importing.policy(own, Path("P"))
        member = of_program._member("rec", recording, tree, own, policy)
        assert member.tried is not None
        for number, part in enumerate(recording.parts):
            (files,) = member.tried.write(policy, NEWEST_ABI, number, Part(folder, number))
            self.assertEqual(list(_layers(files.trace, tree)), list(_layers(part.trace, tree)))

    def recordings(self, folder: Path, seed: int) -> list[Finished]:
        """The same story in one part and in several."""
        found = []
        for name, limits in (("whole", Limits()), ("parts", Limits(own=60))):
            (folder / name).mkdir()
            found.append(finished.opened(str(told(folder / name, seed, 200, limits))))
        return found

    def found(self, recording: Finished) -> tuple[importing.InForce, Tree]:
        tree = auditor.tree_of(recording)
        return importing.found(recording, tree), tree


_Layer = tuple[Rights, Rights, dict[str | int, Rights]]


def refused_lines(files: auditor.Files) -> list[Record]:
    """The records of a trace that its report shows."""
    shown = set(reports.numbers(files.report))
    return [record for number, record in jsonl.numbered(files.trace) if number in shown]


def _layers(trace: Path, tree: Tree) -> Iterator[tuple[int, list[_Layer]]]:
    """What each restriction of a trace leaves a process with, of its program's own."""
    following = Following(tree, {}, Counter())
    for _, record in trace_lines.told(trace, importing.OF_PROCESSES, trace_lines.RAN):
        done = following.take(record)
        if done is not None:
            yield done.pid, [_meant(ruleset) for ruleset in done.own.layers]


def _meant(ruleset: importing.ImportedRuleset) -> _Layer:
    """What a layer handles, and what it grants on each path and port."""
    on: dict[str | int, Rights] = {}
    for it in ruleset.rules:
        name = it.made or it.on
        on[name] = on.get(name, frozenset()) | it.rights
    return ruleset.fs, ruleset.net, on


def _of_policy(layer: policies.Layer) -> _Layer:
    """The same of a layer of a policy."""
    on: dict[str | int, Rights] = {}
    for rule in layer.path_beneath:
        for parent in rule.parents:
            on[parent] = on.get(parent, frozenset()) | rule.allowed_access.rights
    for port_rule in layer.net_port:
        for port in port_rule.ports:
            on[port] = on.get(port, frozenset()) | port_rule.allowed_access.rights
    return layer.handled_access_fs.rights, layer.handled_access_net.rights, on


@unittest.skipUnless(BUILT.exists(), f"{BUILT} is not built")
class Answers(InFolder):
    """What suggest and tighten say of a program that restricts itself."""

    def test_the_rule_that_is_missing_is_suggested_for_the_program_s_layer(self) -> None:
        status, out, errors = self.said("suggest", self.recording("one", *CALLS), "--of-program")
        self.assertEqual((status, errors), (0, ""))
        self.assertIn("# for the policy that /bin/p puts in force by itself (landaudit-policy import)\n", out)
        self.assertIn('# 1 rule for layer 1\n\n# 1 call\n[[layer.path_beneath]]\nallowed_access = ["write_file"]\n'
                      'parent = "/etc/f"\n', out)

    def test_what_the_program_does_not_need_is_removed(self) -> None:
        status, out, errors = self.said("tighten", self.recording("one", *CALLS), "--of-program")
        self.assertEqual((status, errors), (0, ""))
        self.assertIn("# what /bin/p puts in force by itself, as recorded in", out)
        rule = '[[layer.path_beneath]]\nallowed_access = ["read_file"]\nparent = "/etc"\n'
        self.assertIn(f"# needed by 1 call\n{rule}", out)
        (layer,) = self.read(out).layers
        self.assertEqual(len(layer.path_beneath), 1)

    def test_what_is_not_known_of_the_policy_is_told(self) -> None:
        name = self.recording("one", *CALLS)
        entry = {"line": 90, "pid": 10, "class": "a rule of a kind that is not known"}
        write_lines(Path(name, "unsaid.jsonl"), [{**entry, "call": "landlock_add_rule(3, 9, .."}])
        for command in ("suggest", "tighten"):
            status, _, errors = self.said(command, name, "--of-program")
            self.assertEqual(status, NOT_ALL_JUDGED)
            self.assertIn(f"note: {name}: NOT ALL IS KNOWN: 1 call of Landlock could not be recorded", errors)

    def test_the_second_layer_is_named(self) -> None:
        name = self.recording("one", *CALLS[:-1], create(["write_file"]), rule("/bin", "write_file"), RESTRICT,
                              {"op": "open", "path": "/bin/p", "fd": 6, "mode": "w", "kernel": "EACCES"})
        _, out, _ = self.said("suggest", name, "--of-program")
        self.assertIn("# 1 rule for layer 1: paste them under the [[layer]] of that number in what "
                      "landaudit-policy import prints\n", out)
        self.assertNotIn("layer 2", out)

    def test_an_audit_of_the_policy_in_its_place_is_that_of_the_recording(self) -> None:
        """suggest finds as many refused calls as the program's own layers refuse."""
        for seed in range(20):
            with tempfile.TemporaryDirectory() as folder, self.subTest(seed):
                recording = finished.opened(str(told(Path(folder), seed, 200)))
                tree = auditor.tree_of(recording)
                for own in importing.found(recording, tree).own:
                    if all(ruleset.is_layer for ruleset in own.layers):
                        policy = importing.policy(own, Path("P"))
                        member = of_program._member("rec", recording, tree, own, policy)
                        self.assertEqual(self.verdicts(recording, member.tried), self.verdicts(recording, None))

    def verdicts(self, recording: Finished, tried: auditor.TriedPolicy | None) -> list[tuple[str, int, str]]:
        """The refused calls of an audit, but for those on rulesets."""
        with tempfile.TemporaryDirectory() as folder:
            audit = auditor.Auditing(BUILT, recording, Path(folder), True, auditor.Progress())
            judged = audit.judged(range(NEWEST_ABI, NEWEST_ABI + 1), tried, only_refused=True)
            calls = [line for files in judged for line in refused_lines(files)]
            return [(it["op"], it["pid"], str(it.get("path"))) for it in calls if it["op"] not in ON_RULESETS]

    def read(self, text: str) -> policies.Policy:
        file = self.folder / "P.toml"
        file.write_text(text)
        return policies.read(file)
