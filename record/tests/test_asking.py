"""Calls that no program made, asked of landaudit in one trace or in many."""

from __future__ import annotations

import tempfile
import unittest
from collections.abc import Iterator
from pathlib import Path
from unittest import mock

from landaudit_record.common import jsonl
from landaudit_record.common.problems import Problem
from landaudit_record.common.trace_lines import body
from landaudit_record.engine import asking, landaudit
from landaudit_record.engine.asking import Asker, Trial
from landaudit_record.engine.landaudit import BUILT

#: A layer that handles reading and the ioctl of devices, which ABI 5 is the first to know, and grants reading in /a.
OWN = [body("create", rs=1, fs=["read_file", "ioctl_dev"], net=[]),
       body("add_path", rs=1, path="/a", fs=["read_file"]), body("restrict", rs=1), body("close_rs", rs=1)]
KINDS = {"/a": "dir", "/a/f": "reg", "/a/tty": "char", "/b": "dir", "/b/f": "reg"}
QUESTIONS = {"read": [body("open", path="/a/f", mode="r", fd=3)],
             "other": [body("open", path="/b/f", mode="r", fd=4)],
             "ioctl": [body("open", path="/a/tty", mode="r", fd=5), body("ioctl", fd=5, driver=True)],
             "unopened": [body("open", path="/b/f", mode="r", fd=6), body("ftruncate", fd=6)]}
ABIS = range(4, 6)
#: The answers to the records of each question, at ABI 4 and 5.
EXPECTED = {"read": (["allowed"], ["allowed"]), "other": (["refused"], ["refused"]),
            "ioctl": (["allowed", "allowed"], ["allowed", "refused"]),
            "unopened": (["refused", "moot"], ["refused", "moot"])}


@unittest.skipUnless(BUILT.exists(), f"{BUILT} is not built")
class Asking(unittest.TestCase):
    def setUp(self) -> None:
        self.tree = Path(self.enterContext(tempfile.TemporaryDirectory()), "tree.jsonl")
        jsonl.write(self.tree, ({"path": path, "kind": kind} for path, kind in KINDS.items()))
        self.asker = Asker(BUILT, ABIS, self.tree)

    def trials(self) -> Iterator[Trial[str]]:
        """Two processes that ask the same."""
        for name in "12":
            yield Trial(OWN, [(name + of, question) for of, question in QUESTIONS.items()])

    def check(self) -> None:
        """Asks for the answers, and for what is refused."""
        found = {key: tuple([one.verdict for one in by_abi[abi]] for abi in ABIS)
                 for key, by_abi in self.asker.answers(self.trials())}
        self.assertEqual(found, {name + of: answers for name in "12" for of, answers in EXPECTED.items()})
        self.assertEqual(list(self.asker.refused(self.trials())), ["1other", "1ioctl", "2other", "2ioctl"])

    def test_the_abis_of_each_answer_to_a_last_record(self) -> None:
        expected = {(name + of, verdict): {abi for abi, answers in zip(ABIS, by_abi) if answers[-1] == verdict}
                    for name in "12" for of, by_abi in EXPECTED.items() for verdict in ("allowed", "moot", "refused")}
        for most in (asking.MOST_PROCESSES, 1):
            with self.subTest(most), mock.patch.object(asking, "MOST_PROCESSES", most):
                found = {(key, verdict): abis for key, by_verdict in self.asker.verdicts(self.trials())
                         for verdict, abis in by_verdict.items()}
                self.assertEqual(found, expected)

    def test_only_a_refused_rule_is_passed_over(self) -> None:
        on_file = body("add_path", rs=1, path="/a/f", fs=["read_dir"])
        own = [body("create", rs=1, fs=["read_dir"], net=[]), on_file]
        read = [("read", QUESTIONS["read"])]
        ((_, by_verdict),) = self.asker.verdicts([Trial([*own, body("restrict", rs=1)], read)])
        self.assertEqual(by_verdict["allowed"], set(ABIS))
        with self.assertRaisesRegex(Problem, "can't be tried: landaudit refuses .*restrict"):
            list(self.asker.verdicts([Trial([*own, body("restrict", rs=2)], read)]))

    def test_one_trace(self) -> None:
        self.check()
        self.assertEqual(self.asker.audits, 2)

    def test_a_trace_for_each_process(self) -> None:
        for name, most in (("MOST_PROCESSES", 1), ("MOST_RECORDS", 12)):
            with self.subTest(name), mock.patch.object(asking, name, most):
                self.asker.audits = 0
                self.check()
                self.assertEqual(self.asker.audits, 4)

    def test_a_process_for_each_question(self) -> None:
        with mock.patch.object(asking, "MOST_QUESTIONS", 1), mock.patch.object(asking, "MOST_PROCESSES", 3):
            self.check()
        self.assertEqual(self.asker.audits, 6)

    def test_nothing_is_asked_without_questions(self) -> None:
        self.assertEqual(list(self.asker.answers([Trial[str](OWN, [])])), [])
        self.assertEqual(self.asker.audits, 0)

    def test_a_refused_rule_is_named(self) -> None:
        rule = body("add_path", rs=1, path="/a/f", fs=["read_dir"], policy={"layer": 2, "rule": "path_beneath 3"})
        own = [body("create", rs=1, fs=["read_dir"], net=[]), rule]
        with self.assertRaisesRegex(Problem, "^layer 2, path_beneath 3: the kernel refuses it with EINVAL: /a/f is"):
            list(self.asker.answers([Trial(own, [("read", QUESTIONS["read"])])]))

    def test_a_cut_report(self) -> None:
        def cut(*files: object, **_: object) -> None:
            Path(str(files[-1])).write_text("")

        with mock.patch.object(landaudit, "audit", cut), self.assertRaisesRegex(Problem, "report is cut"):
            list(self.asker.answers(self.trials()))
        with mock.patch.object(landaudit, "audit", cut), self.assertRaisesRegex(Problem, "report is cut"):
            list(self.asker.verdicts(self.trials()))
