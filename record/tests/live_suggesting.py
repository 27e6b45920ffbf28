"""Suggested rules on a running kernel: with them a program does its work under the policy, without them it can't."""

from __future__ import annotations

import json
import os
import shutil
import subprocess
import sys
import tempfile
import unittest
from pathlib import Path

from .live_actor import CONFINER, HERE, PYTHON, RECORDER, wanting

DENY = """[[layer]]
handled_access_fs = ["all"]
handled_access_net = ["all"]
"""
WIDE = DENY + """[[layer.path_beneath]]
allowed_access = ["all"]
parent = "/"
[[layer.net_port]]
allowed_access = ["all"]
port = [0, 20081, 20082, 20083, 20443]
"""
#: Makes a terminal, and opens it by its name, which differs in each run.
TERMINAL = """
import fcntl, os, struct
made = os.open("/dev/ptmx", os.O_RDWR | os.O_NOCTTY)
fcntl.ioctl(made, 0x40045431, struct.pack("i", 0))
number, = struct.unpack("I", fcntl.ioctl(made, 0x80045430, struct.pack("I", 0)))
os.write(os.open(f"/dev/pts/{number}", os.O_RDWR | os.O_NOCTTY), b"text")
"""
#: Makes a device and removes it, and reads what the kernel shows of it meanwhile (loop(4)).
LOOP = """
import fcntl, os
control = os.open("/dev/loop-control", os.O_RDWR)
fcntl.ioctl(control, 0x4C80, 987)
try:
    for path in ("/dev/loop987", "/sys/block/loop987/ro"):
        os.close(os.open(path, os.O_RDONLY))
finally:
    fcntl.ioctl(control, 0x4C81, 987)
"""
SHELL = ("mkdir d && sort -o d/out in && mv d/out out && ln out also && rm -r d && "
         f"{PYTHON} -I -c '{TERMINAL}' && cat also")


@unittest.skipIf(wanting() is not None, wanting() or "")
class LiveSuggesting(unittest.TestCase):
    def setUp(self) -> None:
        self.folder = Path(self.enterContext(tempfile.TemporaryDirectory())).resolve()
        self.work = self.folder / "work"
        self.work.mkdir()
        (self.work / "in").write_text("b\na\n")
        self.policy = self.folder / "P.toml"
        self.policy.write_text(DENY)

    def recorder(self, *words: str | Path) -> subprocess.CompletedProcess[str]:
        return self.run_in_work([sys.executable, RECORDER, *words])

    def confined(self) -> subprocess.CompletedProcess[str]:
        """The program under the policy, on a work folder as it was before."""
        for name in ("out", "also"):
            (self.work / name).unlink(missing_ok=True)
        return self.run_in_work([sys.executable, CONFINER, "confine", self.policy, "--", "sh", "-c", SHELL])

    def run_in_work(self, words: list[str | Path]) -> subprocess.CompletedProcess[str]:
        return subprocess.run(words, cwd=self.work, capture_output=True, text=True, check=False)

    def test_a_program_works_under_the_rules_that_are_suggested_for_it(self) -> None:
        recording = self.folder / "rec"
        recorded = self.recorder("run", recording, "--", "sh", "-c", SHELL)
        self.assertEqual((recorded.returncode, recorded.stdout), (0, "a\nb\n"), recorded.stderr)
        self.assertNotEqual(self.confined().returncode, 0)

        suggested = self.recorder("suggest", recording, "--policy", self.policy)
        self.assertEqual(suggested.returncode, 0, suggested.stderr)
        self.policy.write_text(DENY + suggested.stdout)
        audited = self.recorder("audit", recording, "--policy", self.policy, "--abi", "5")
        self.assertEqual(audited.returncode, 0, audited.stdout)

        confined = self.confined()
        self.assertEqual((confined.returncode, confined.stdout), (0, "a\nb\n"), confined.stderr)

    @unittest.skipUnless(os.access("/dev/loop-control", os.W_OK), "no loop devices (loop(4)) for this user")
    def test_a_program_may_read_what_the_kernel_makes_for_it(self) -> None:
        recording, program = self.folder / "rec", [PYTHON, "-I", "-S", "-c", LOOP]
        recorded = self.recorder("run", recording, "--", *program)
        self.assertEqual(recorded.returncode, 0, recorded.stderr)
        suggested = self.recorder("suggest", recording, "--policy", self.policy)
        self.assertEqual(suggested.returncode, 0, suggested.stderr)
        self.policy.write_text(DENY + suggested.stdout)
        confined = self.run_in_work([sys.executable, CONFINER, "confine", self.policy, "--", *program])
        self.assertEqual(confined.returncode, 0, confined.stderr)

    def test_fewer_rules_reach_secrets_last(self) -> None:
        """A rule on all of /etc has fewer objects than one on libraries, but would let the passwords be read."""
        recording = self.folder / "rec"
        command = ["env", "LC_ALL=C", "sort"]
        self.assertEqual(self.recorder("run", recording, "--", *command, "/etc/passwd").returncode, 0)
        fewer = self.recorder("suggest", recording, "--policy", self.policy, "--rules", "6")
        self.assertEqual(fewer.returncode, 0, fewer.stderr)
        self.assertLessEqual(fewer.stdout.count("[[layer."), 6)
        self.assertNotIn("warning", fewer.stdout)
        self.policy.write_text(DENY + fewer.stdout)
        for file, status in (("/etc/passwd", 0), ("/etc/shadow", 2)):
            run = self.run_in_work([sys.executable, CONFINER, "confine", self.policy, "--", *command, file])
            self.assertEqual(run.returncode, status, run.stderr)

    def acted(self, recording: Path, *under: str | Path) -> set[str]:
        """Records a random actor in a folder that is always alike; gives the calls that a layer may have refused."""
        shutil.rmtree(self.work / "actor", ignore_errors=True)
        actor = [PYTHON, str(HERE / "actor.py"), "2", str(self.work / "actor")]
        self.assertEqual(self.run_in_work([*actor, "0"]).returncode, 0)
        run = self.recorder("run", recording, *under, "--", *actor, "200")
        self.assertEqual(run.returncode, 0, run.stderr)
        with open(recording / "trace.jsonl", encoding="utf-8") as trace:
            calls = map(json.loads, trace)
            return {call["op"] for call in calls if call.get("kernel") in ("EACCES", "EPERM", "EXDEV")}

    def test_a_random_actor_works_under_what_is_suggested_and_tightened_for_it(self) -> None:
        recording = self.folder / "rec"
        self.assertLessEqual(self.acted(recording), {"mount"})
        for _ in range(3):
            suggested = self.recorder("suggest", recording, "--policy", self.policy, "--whole")
            self.policy.write_text(suggested.stdout)
        self.assertLessEqual(self.acted(self.folder / "under", "--policy", self.policy), {"mount"})
        self.policy.write_text(WIDE)
        tight = self.recorder("tighten", recording, "--policy", self.policy)
        self.assertEqual(tight.returncode, 0, tight.stderr)
        self.assertNotIn('allowed_access = ["all"]\nparent', tight.stdout)
        self.policy.write_text(tight.stdout)
        self.assertLessEqual(self.acted(self.folder / "tight", "--policy", self.policy), {"mount"})
