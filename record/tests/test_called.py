"""What landaudit-rules says of policies and of rights; the records of a policy are the calls that it prints.

What it makes of policies is tested by test_fitting.
"""

from __future__ import annotations

import json
import subprocess
import unittest
from collections.abc import Sequence
from pathlib import Path
from typing import Any
from unittest import mock

from landaudit_record.common.numbered import Numbered
from landaudit_record.common.problems import WANTING, Problem
from landaudit_record.common.rights import FILE_RIGHTS, FS, NET, NEWEST_ABI, NONE, OLDEST_ABI
from landaudit_record.common.trees import Tree
from landaudit_record.engine import landaudit_rules
from landaudit_record.engine.landaudit_rules import BUILT
from landaudit_record.policy import applying, called
from landaudit_record.policy.fitting import fit, in_force
from landaudit_record.policy.policies import Access, Layer, PathRule, Policy, PortRule

from . import proved_calls

ABIS = range(OLDEST_ABI, NEWEST_ABI + 1)
READING, WRITING = Access(grouped=FS.groups["read"]), Access(grouped=FS.groups["write"])
ALL_FS, ALL_NET = Access(grouped=FS.groups["all"]), Access(grouped=NET.groups["all"])
CONNECTING = Access(frozenset({"connect_tcp"}))
#: What is at each parent of the policies that are tried; None is nothing.
KINDS = {"/usr": "dir", "/usr/bin": "dir", "/etc/passwd": "reg", "/dev/null": "char", "/run/log": "sock", "/none": None}
TREE = Tree({**dict.fromkeys(("/", "/etc", "/dev", "/run"), "dir"),
             **{path: kind for path, kind in KINDS.items() if kind is not None}})


def policy(*paths: tuple[Access, str]) -> Policy:
    """A policy of two layers that handle all rights; the first has rules on paths, the second one on a port."""
    rules = tuple(PathRule(Numbered("path_beneath", number), access, (path,))
                  for number, (access, path) in enumerate(paths, start=1))
    ports = (PortRule(Numbered("net_port", 1), CONNECTING, (443,)),)
    return Policy(Path("P"), (Layer(1, ALL_FS, ALL_NET, rules, ()), Layer(2, ALL_FS, ALL_NET, (), ports)))


def calls(policy: Policy, abi: int) -> list[dict[str, Any]]:
    """The records by which Python puts a policy in force, each with the layer as landaudit-rules counts."""
    records = applying.records(policy, tuple(in_force(policy, abi)[0]), TREE, 0)
    origins = [record.pop("policy") for record in records]
    layers = ({"layer": origin["layer"] - 1} if origin else {} for origin in origins)
    return [{**record, **of} for record, of in zip(records, layers)]


def is_refused(call: dict[str, Any]) -> bool:
    """Whether the kernel refuses a rule on what is no directory (landlock_add_rule(2), EINVAL)."""
    return (call["op"] == "add_path" and KINDS[call["path"]] not in (None, "dir")
            and bool(set(call["fs"]) - FILE_RIGHTS))


@unittest.skipUnless(BUILT.exists(), f"{BUILT} is not built")
class Called(unittest.TestCase):
    def test_the_records_of_a_policy_are_the_calls_that_are_proved(self) -> None:
        tried = proved_calls.policies(KINDS)
        for abi in ABIS:
            with self.subTest(abi):
                called.ask(tried, abi)
                for one, answer in zip(tried, proved_calls.of(tried, KINDS, abi)):
                    made = calls(one, abi)
                    self.assertEqual([call for call in answer if "op" in call], made)
                    self.assertEqual("refused" in answer[-1], any(map(is_refused, made)))

    def setUp(self) -> None:
        self.enterContext(mock.patch.object(called, "_said", {}))

    def counted(self, tried: Sequence[Policy], abi: int) -> int:
        """How often the program runs for policies, which are then fitted."""
        with mock.patch.object(landaudit_rules, "ask", wraps=landaudit_rules.ask) as asked:
            called.ask(tried, abi)
            for one in tried:
                fit(one, abi)
        return asked.call_count

    def test_the_program_runs_once_for_several_policies(self) -> None:
        names = sorted(FS.groups["write"])
        tried = [policy((Access(frozenset({name})), "/a")) for name in names]
        tried.append(policy((READING, "/a"), (WRITING, "/b")))
        self.assertEqual(self.counted(tried, 5), 1)
        self.assertEqual(self.counted(tried, 5), 0)

    def test_equal_rules_are_asked_about_once(self) -> None:
        self.assertEqual(self.counted([policy((READING, "/a"), (WRITING, "/b"))], 5), 1)
        self.assertEqual(self.counted([policy((WRITING, "/c"), (READING, "/d"), (READING, "/a"))], 5), 0)

    def test_abis_without_rights_of_their_own_are_asked_about_as_the_newest_that_has_some(self) -> None:
        self.assertEqual([self.counted([policy((READING, "/a"))], abi) for abi in (4, 5, 6, 7)], [1, 1, 0, 0])
        self.assertEqual(fit(policy((WRITING, "/a")), 7)[0], fit(policy((WRITING, "/a")), 5)[0])

    def test_a_program_of_another_version(self) -> None:
        with mock.patch.object(landaudit_rules, "_run", return_value=""), self.assertRaises(Problem) as fault:
            fit(policy((READING, "/a")), 5)
        self.assertEqual((fault.exception.status, str(fault.exception)), (
            WANTING, "landaudit-rules answers 0 of 1 lines: use programs of one version"))

    def test_the_tables_of_rights(self) -> None:
        run = subprocess.run([BUILT, "--rights"], capture_output=True, text=True, check=True)
        known = [{"abi": abi, "fs": FS.ordered(FS.known(abi)), "net": NET.ordered(NET.known(abi))} for abi in ABIS]
        groups = [{"group": name, "fs": FS.ordered(rights), "net": NET.ordered(NET.groups.get(name, NONE))}
                  for name, rights in FS.groups.items()]
        self.assertEqual([json.loads(said) for said in run.stdout.splitlines()],
                         [*known, *groups, {"of": "file", "fs": FS.ordered(FILE_RIGHTS)}])
