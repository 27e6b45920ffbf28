"""landaudit-policy confine and landaudit-record run --policy on a running kernel."""

from __future__ import annotations

import errno
import json
import os
import re
import shutil
import subprocess
import tempfile
import unittest
from pathlib import Path

from landaudit_record.common.problems import NOT_ALL_JUDGED
from landaudit_record.common.rights import ABI_OF_SCOPES, NET
from landaudit_record.policy import landlock_calls

from .live_actor import CONFINER, NOBODY, PYTHON, RECORDER, wanting

READ_SYSTEM = """[[layer]]
handled_access_fs = ["all"]
handled_access_net = ["all"]
[[layer.path_beneath]]
allowed_access = ["read", "execute"]
parent = ["/usr", "/lib", "/lib64", "/bin", "/proc", "/etc/ld.so.cache"]
"""
#: Where programs and what they need may be.
SYSTEM = ("/usr", "/lib", "/lib64", "/bin", "/proc", "/etc", "/dev", "/sys")
#: What a program inherits: signals that are ignored, its environment, its open descriptors and its own status.
INHERITED = "grep SigIgn /proc/self/status; env | grep -v ^_=; ls /proc/self/fd; exit 7"


@unittest.skipIf(wanting() is not None, wanting() or "")
class LiveConfining(unittest.TestCase):
    def setUp(self) -> None:
        self.folder = Path(self.enterContext(tempfile.TemporaryDirectory())).resolve()
        self.policy = self.folder / "P.toml"
        self.policy.write_text(READ_SYSTEM)
        (self.folder / "secret").write_text("secret\n")

    def said(self, *words: str | Path, **variables: str) -> subprocess.CompletedProcess[str]:
        environment = {"PATH": os.environ["PATH"], **variables}
        return subprocess.run(words, cwd=self.folder, capture_output=True, text=True, env=environment, check=False)

    def confined(self, *command: str | Path, **variables: str) -> subprocess.CompletedProcess[str]:
        return self.said(PYTHON, CONFINER, "confine", self.policy, "--", *command, **variables)

    def test_a_program_inherits_what_it_would_without_a_policy(self) -> None:
        for variables in ({}, {"LC_ALL": "C"}, {"LC_CTYPE": "C.UTF-8", "X": "a=b\nc"}):
            with self.subTest(variables):
                bare = self.said("sh", "-c", INHERITED, **variables)
                self.assertEqual(bare.returncode, 7)
                confined = self.confined("sh", "-c", INHERITED, **variables)
                self.assertEqual((confined.returncode, confined.stdout), (7, bare.stdout), confined.stderr)

    def test_what_the_policy_does_not_allow_is_refused(self) -> None:
        run = self.confined("cat", "secret")
        self.assertEqual((run.returncode, run.stdout), (1, ""))
        self.assertIn("Permission denied", run.stderr)

    def test_a_command_that_the_policy_does_not_let_run(self) -> None:
        self.policy.write_text('[[layer]]\nhandled_access_fs = ["execute"]\n')
        run = self.confined("true")
        why = "Permission denied: does the policy allow reading and executing it, its interpreter and its loader?"
        self.assertEqual((run.returncode, run.stderr), (4, f"landaudit-policy: true: {why}\n"))

    def test_scopes(self) -> None:
        if landlock_calls.kernel_abi() < ABI_OF_SCOPES:
            self.skipTest("this kernel has no scopes")
        kill = ("sh", "-c", f"kill -0 {os.getpid()}")
        self.policy.write_text('[[layer]]\nhandled_access_fs = ["make_sock"]\n')
        self.assertEqual(self.confined(*kill).returncode, 0)
        self.policy.write_text('[[layer]]\nscoped = ["signal"]\n')
        run = self.confined(*kill)
        self.assertEqual(run.returncode, 1)
        self.assertIn("not permitted", run.stderr)

    def test_a_right_of_directories_on_a_file_is_a_fault_of_the_policy(self) -> None:
        rule = '[[layer.path_beneath]]\nallowed_access = ["read_dir"]\nparent = "/etc/passwd"\n'
        self.policy.write_text(f'[[layer]]\nhandled_access_fs = ["all"]\n{rule}')
        run = self.confined("true")
        self.assertEqual(run.returncode, 3)
        self.assertIn("layer 1, path_beneath 1, parent /etc/passwd: it is not a directory", run.stderr)

    def test_a_recording_under_a_policy(self) -> None:
        """The second policy refuses by another layer too, so that what is refused has a column more in common."""
        port = '[[layer.net_port]]\nallowed_access = ["connect_tcp"]\nport = 443\n'
        second = '[[layer]]\nhandled_access_net = ["connect_tcp"]\n' + port
        for number, policy in enumerate((READ_SYSTEM + port, READ_SYSTEM + port + second)):
            with self.subTest(policy):
                self.policy.write_text(policy)
                self.recorded(self.folder / f"rec-{number}")

    def recorded(self, recording: Path) -> None:
        """Records a program under the policy, and looks at what is told of it and of a comparison."""
        ports = "import socket\nfor port in (443, 80):\n s = socket.socket()\n print(s.connect_ex(('127.0.0.1', port)))"
        command = ("sh", "-c", f'cat secret; {PYTHON} -c "{ports}"')
        words = (PYTHON, RECORDER, "run", recording, "--policy", self.policy, "--", *command)
        run = self.said(*words, COLUMNS="300")
        knows_ports = landlock_calls.kernel_abi() >= NET.since["connect_tcp"]
        other = errno.EACCES if knows_ports else errno.ECONNREFUSED
        self.assertEqual((run.returncode, run.stdout), (0, f"{errno.ECONNREFUSED}\n{other}\n"), run.stderr)
        self.told(run.stderr, "open r", f"{self.folder}/secret", "EACCES", "program's 1", "/usr/bin/cat", "read_file")
        if knows_ports:
            self.told(run.stderr, "connect", "port 80", "EACCES", "program's 1", "connect_tcp")
        self.assertEqual((recording / "policy.toml").read_text(), self.policy.read_text())
        self.assertEqual(self.said(PYTHON, RECORDER, "convert", recording).returncode, 0)
        compared = self.said(PYTHON, RECORDER, "compare", recording, "--json")
        self.assertEqual(compared.returncode, 0, compared.stdout)
        found = json.loads(compared.stdout)
        self.assertEqual((found["differences"], found["calls"]), ([], found["agree"]))

    def told(self, summary: str, call: str, place: str, *facts: str) -> None:
        """Looks for a kind of refused call; what all kinds have in common, which depends on Python, is in no column."""
        row = re.search(rf"\n +[0-9]+  {call} +{re.escape(place)} .*", summary)
        in_common = re.search(r"\n  all: .*", summary)
        self.assertIsNotNone(row, summary)
        said = "".join(found[0] for found in (row, in_common) if found is not None)
        for fact in facts:
            self.assertIn(fact, said)

    def test_what_an_outer_layer_refuses(self) -> None:
        """The recorder is under a layer, which the log does not show: it may have refused what an audit asks about."""
        folder = self.folder / "out"
        folder.mkdir()
        system = [place for place in SYSTEM if os.path.exists(place)]
        policy = ('[[layer]]\nhandled_access_fs = ["read_file", "refer"]\n[[layer.path_beneath]]\n'
                  'allowed_access = ["read_file", "refer"]\nparent = {}\n')
        self.policy.write_text(policy.format(json.dumps([str(folder), str(CONFINER.parent), *system])))
        run = self.confined(PYTHON, RECORDER, "run", folder / "rec", "--", "cat", "secret")
        self.assertEqual((run.returncode, run.stdout), (1, ""), run.stderr)
        self.policy.write_text(policy.format(json.dumps(system)))
        audit = self.said(PYTHON, RECORDER, "audit", folder / "rec", "--policy", self.policy, "--abi", "5")
        self.assertEqual(audit.returncode, NOT_ALL_JUDGED, audit.stdout)
        self.assertIn("a call that a layer of an unknown ruleset may have refused", audit.stdout)

    def test_secure_bits(self) -> None:
        """setpriv(1): the command has the bits that the recorder has."""
        if os.geteuid() != 0 or shutil.which("setpriv") is None:
            self.skipTest("only root can have secure bits, by setpriv")
        kept = []
        for words in ((), ("setpriv", "--securebits", "+no_setuid_fixup")):
            run = self.said(*words, PYTHON, RECORDER, "run", f"rec-{len(kept)}", "--", "true")
            self.assertEqual(run.returncode, 0, run.stderr)
            kept.append(json.loads((self.folder / f"rec-{len(kept)}" / "recording.json").read_text())["keeps_privileges"])
        self.assertEqual(kept, [False, True])

    def test_modes_that_a_program_changes_after_a_refusal(self) -> None:
        """What the policy refused is no refusal by the mode that the file has after the run."""
        if os.geteuid() != 0 or shutil.which("setpriv") is None:
            self.skipTest("only root can become another user, by setpriv")
        self.folder.chmod(0o777)
        (self.folder / "secret").chmod(0o644)
        os.chown(self.folder / "secret", 65534, 65534)
        command = ("sh", "-c", "cat secret; chmod 0 secret")
        words = (*NOBODY, "--inh-caps=-all", PYTHON, RECORDER, "run", "rec", "--policy", self.policy, "--", *command)
        self.assertIn("cat: secret: Permission denied", self.said(*words).stderr)
        audit = self.said(PYTHON, RECORDER, "audit", "rec", "--policy", self.policy, "--abi", "5", COLUMNS="200")
        self.assertEqual(audit.returncode, 1)
        self.assertIn(f"{self.folder}/secret", audit.stdout)

    def test_a_policy_that_does_not_read_leaves_no_recording(self) -> None:
        self.policy.write_text("[[layer]]\n")
        run = self.said(PYTHON, RECORDER, "run", self.folder / "rec", "--policy", self.policy, "--", "true")
        self.assertEqual(run.returncode, 3)
        self.assertFalse((self.folder / "rec").exists())
