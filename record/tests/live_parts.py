"""Real recordings cut at every tenth record: nothing is answered otherwise than in one trace."""

from __future__ import annotations

import shutil
import subprocess
import tempfile
import unittest
from pathlib import Path

from landaudit_record.policy import policies
from landaudit_record.recorder import converting
from landaudit_record.recorder.ports import Ports
from landaudit_record.recorder.writing import Limits

from .answers import answers, parts
from .live_actor import PYTHON, RECORDER, wanting
from .test_parts import POLICIES, TENTH

HERE = Path(__file__).resolve().parent
SHELL = "for i in 1 2 3; do cat /etc/passwd > f$i; mv f$i g; (exec sh -c 'exec > h; echo x; rm h'); done"


@unittest.skipIf(wanting() is not None, wanting() or "")
class LiveParts(unittest.TestCase):
    def setUp(self) -> None:
        self.work = Path(self.enterContext(tempfile.TemporaryDirectory())).resolve()

    def compare(self, limits: Limits, program: str, *command: str) -> None:
        """Records a command, and compares what its recording is answered in one part and in several."""
        one, cut = self.work / "one", self.work / "cut"
        run = subprocess.run([str(RECORDER), "run", str(one), "--", *command], cwd=self.work, capture_output=True)
        self.assertEqual(run.returncode, 0, run.stderr)
        shutil.copytree(one, cut)
        converting.convert(cut, Ports(), limits)
        self.assertEqual(parts(one), 1)
        self.assertGreater(parts(cut), 2)
        policy = self.work / "policy.toml"
        policy.write_text(POLICIES["reading"])
        tried = policies.read(policy)
        self.assertEqual(answers(one), answers(cut))
        for before in (None, program):
            self.assertEqual(answers(one, tried, before), answers(cut, tried, before))

    def test_a_shell(self) -> None:
        self.compare(TENTH, "cat", "sh", "-c", SHELL)

    def test_an_actor_that_confines_itself(self) -> None:
        actor = [PYTHON, str(HERE / "actor.py"), "7", str(self.work / "actor")]
        subprocess.run([*actor, "0"], check=True)
        self.compare(Limits(own=100), "script", *actor, "150", "--confine")
