"""A tightened policy on a running kernel: the program works under it, and not without any right that is left."""

from __future__ import annotations

import subprocess
import sys
import tempfile
import unittest
from collections.abc import Iterator
from pathlib import Path

from landaudit_record.common import comments
from landaudit_record.common.rights import NEWEST_ABI
from landaudit_record.common.trees import Tree
from landaudit_record.policy import policies, policy_text
from landaudit_record.policy.policies import Policy
from landaudit_record.tighten.tightening import units, without

from .live_actor import CONFINER, RECORDER, wanting

WIDE = """[[layer]]
handled_access_fs = ["all"]
# What sort reads.
[[layer.path_beneath]]
allowed_access = ["read", "execute"]
parent = ["/usr", "/etc", "/home"]
"""
SORT = ("sort", "/etc/passwd")


@unittest.skipIf(wanting() is not None, wanting() or "")
class LiveTightening(unittest.TestCase):
    def setUp(self) -> None:
        self.folder = Path(self.enterContext(tempfile.TemporaryDirectory())).resolve()
        self.policy = self.folder / "P.toml"

    def said(self, *words: str | Path) -> subprocess.CompletedProcess[str]:
        variables = {"PATH": "/usr/bin:/bin", "LC_ALL": "C"}
        return subprocess.run([sys.executable, *words], cwd=self.folder, capture_output=True, text=True, env=variables,
                              check=False)

    def sorted_under(self, text: str) -> subprocess.CompletedProcess[str]:
        """What the program does under a policy."""
        self.policy.write_text(text)
        return self.said(CONFINER, "confine", self.policy, "--", *SORT)

    def test_each_right_on_each_path_is_needed(self) -> None:
        recording = self.folder / "rec"
        recorded = self.said(RECORDER, "run", recording, "--", *SORT)
        self.assertEqual(recorded.returncode, 0, recorded.stderr)
        self.policy.write_text(WIDE)
        tight = self.said(RECORDER, "tighten", recording, "--policy", self.policy)
        self.assertEqual(tight.returncode, 0, tight.stderr)
        self.assertNotIn("/home", tight.stdout)

        confined = self.sorted_under(tight.stdout)
        self.assertEqual((confined.returncode, confined.stdout), (0, recorded.stdout), confined.stderr)
        tried = 0
        for text in self.each_with_one_right_less(policies.read(self.policy)):
            with self.subTest(text):
                self.assertNotEqual(self.sorted_under(text).returncode, 0)
            tried += 1
        self.assertGreaterEqual(tried, 3)

    def each_with_one_right_less(self, policy: Policy) -> Iterator[str]:
        """The policy without each right on each path, as a file that reads: a layer that has no rules is there."""
        apart = policy_text.apart(policy, [Tree()])
        for unit in units(apart, NEWEST_ABI):
            yield "\n".join(policy_text.lines(without(apart, [unit]), comments.Comments(), lambda *_: ""))
