"""The random actor, recorded under policies and under layers of its own: landaudit answers as the kernel did."""

from __future__ import annotations

import json
import os
import shutil
import subprocess
import tempfile
import unittest
from pathlib import Path
from typing import Any

from landaudit_record.common.problems import Problem
from landaudit_record.common.rights import NEWEST_ABI
from landaudit_record.engine import landaudit
from landaudit_record.policy import confining

HERE = Path(__file__).resolve().parent
RECORDER = HERE.parent / "landaudit-record"
CONFINER = HERE.parent / "landaudit-policy"
POLICIES = HERE / "policies"
WORK = "/tmp/landaudit-conformance"
"""The folder that the policies name; here a temporary one stands for it."""

PYTHON = "/usr/bin/python3"
"""Debian's: the policies let it be read, and any user may run it."""

NOBODY = ("setpriv", "--reuid=65534", "--regid=65534", "--clear-groups")
COUNT = 150
ALLOWED, REFUSED = "ok", "EACCES"


def wanting() -> str | None:
    """Why these tests can't run here, if they can't."""
    if shutil.which(PYTHON) is None:
        return f"{PYTHON} is not there"
    if shutil.which("strace") is None:
        return "strace is not installed"
    try:
        confining.known_abi(NEWEST_ABI)
        landaudit.find(None)
    except Problem as problem:
        return str(problem)
    return None


@unittest.skipIf(wanting() is not None, wanting() or "")
class LiveActor(unittest.TestCase):
    """Each test records one actor and compares every call of it."""

    def setUp(self) -> None:
        self.folder = Path(self.enterContext(tempfile.TemporaryDirectory())).resolve()
        self.folder.chmod(0o755)
        self.work = self.folder / "work"
        self.work.mkdir()

    def policy(self, path: Path) -> Path:
        """A copy of a policy about the temporary folder."""
        copy = self.folder / "policy.toml"
        copy.write_text(path.read_text().replace(WORK, str(self.work)))
        return copy

    def compared(self, seed: int, policy: Path | None = None, by: tuple[str, ...] = ()) -> dict[str, Any]:
        """Records an actor and gives what `compare` says; whatever differs has a class that is documented."""
        acted_in = self.work / "actor"
        actor = [PYTHON, str(HERE / "actor.py"), str(seed), str(acted_in)]
        subprocess.run([*by, *actor, "0"], check=True)
        under = ["--policy", str(policy)] if policy else []
        record = [*by, str(RECORDER), "run", str(self.work / "rec"), *under, "--", *actor]
        run = subprocess.run([*record, str(COUNT), "--confine"], cwd=self.work, capture_output=True, text=True)
        self.assertEqual(run.returncode, 0, run.stderr)
        compare = [str(RECORDER), "compare", str(self.work / "rec"), "--json"]
        said = subprocess.run(compare, capture_output=True, text=True)
        self.assertEqual(said.returncode, 0, said.stdout + said.stderr)
        return json.loads(said.stdout)

    def assert_busy(self, found: dict[str, Any]) -> None:
        """The actor did much under layers, and the kernel let some of it through and refused some."""
        self.assertGreater(found["calls"], COUNT)
        with open(self.work / "rec" / "trace.jsonl", encoding="utf-8") as trace:
            answers = {json.loads(line).get("kernel") for line in trace}
        self.assertLessEqual({ALLOWED, REFUSED}, answers)

    def test_layers_of_its_own(self) -> None:
        for seed in (1, 2):
            with self.subTest(seed=seed):
                shutil.rmtree(self.work)
                self.work.mkdir()
                self.assert_busy(self.compared(seed))

    def test_under_a_policy_for_folders_and_ports(self) -> None:
        self.assert_busy(self.compared(3, self.policy(POLICIES / "actors" / "folders-and-ports.toml")))

    def test_under_a_policy_that_lets_nothing_be_changed(self) -> None:
        self.assert_busy(self.compared(4, self.policy(POLICIES / "read-only.toml")))

    @unittest.skipUnless(os.geteuid() == 0 and shutil.which("setpriv"), "only root can become another user, by setpriv")
    def test_as_a_user(self) -> None:
        self.work.chmod(0o777)
        self.assert_busy(self.compared(5, by=NOBODY))
