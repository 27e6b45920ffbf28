"""Policies of programs in Python and C, and of a sandboxer, that restrict themselves on a running kernel."""

from __future__ import annotations

import shutil
import subprocess
import sys
import tempfile
import unittest
from pathlib import Path

from landaudit_record.common.problems import Problem
from landaudit_record.common.rights import FS, NET, NEWEST_ABI, Rights
from landaudit_record.common.variables import Given
from landaudit_record.engine.landaudit import BUILT
from landaudit_record.policy import confining, policies
from landaudit_record.policy.policies import Policy

from .live_actor import CONFINER, RECORDER
from .live_exporting import MAIN

#: Restricts itself by calls as they are, since Python has none for Landlock; one of its rules is refused.
OWN = """
import ctypes, os, struct, sys
call, directory = ctypes.CDLL(None).syscall, sys.argv[1]
ctypes.CDLL(None).prctl(38, 1, 0, 0, 0)
rules = call(444, struct.pack("Q", 0b1101), 8, 0)
beneath = lambda rights, path: struct.pack("=Qi", rights, os.open(path, os.O_PATH))
assert call(445, rules, 1, beneath(0b1101, "/usr"), 0) == 0
assert call(445, rules, 1, beneath(0b1100, directory), 0) == 0
assert call(445, rules, 1, beneath(0b1000, directory + "/f"), 0) == -1
assert call(446, rules, 0) == 0
"""


def wanting() -> str | None:
    """Why these tests can't run here, if they can't."""
    if shutil.which("strace") is None:
        return "strace is not installed"
    try:
        confining.known_abi(NEWEST_ABI)
    except Problem as problem:
        return str(problem)
    return None


@unittest.skipIf(wanting() is not None, wanting() or "")
class LiveImporting(unittest.TestCase):
    def setUp(self) -> None:
        self.folder = Path(self.enterContext(tempfile.TemporaryDirectory())).resolve()
        self.work = self.folder / "work"
        self.work.mkdir()
        (self.work / "f").write_text("")

    def imported(self, *command: str | Path, ports: Path | None = None) -> Policy:
        """The policy of a command that is recorded; a strace before 6.7 needs its rules on ports."""
        given = [] if ports is None else ["--port-rules", ports]
        recording = self.folder / "rec"
        ran = self.run_it(sys.executable, RECORDER, "run", recording, *given, "--", *command)
        self.assertEqual(ran.returncode, 0, ran.stderr)
        done = self.run_it(sys.executable, CONFINER, "import", recording)
        self.assertEqual(done.returncode, 0, done.stderr)
        return self.read(done.stdout, "imported.toml")

    def run_it(self, *words: str | Path) -> subprocess.CompletedProcess[str]:
        return subprocess.run(words, cwd=self.work, capture_output=True, text=True, check=False)

    def read(self, text: str, name: str) -> Policy:
        file = self.folder / name
        file.write_text(text)
        return policies.read(file)

    def policy(self) -> Policy:
        """A policy of two layers, all of which the kernel takes."""
        return self.read(f'''[[layer]]
handled_access_fs = ["all"]
handled_access_net = ["all"]
[[layer.path_beneath]]
allowed_access = ["read", "execute"]
parent = ["/usr", "/etc", "{self.work}/f"]
[[layer.path_beneath]]
allowed_access = ["read", "write", "execute"]
parent = ["{self.folder}"]
[[layer.path_beneath]]
allowed_access = ["all"]
parent = "/dev/null"
[[layer.net_port]]
allowed_access = ["connect_tcp"]
port = [80, 443]
[[layer]]
handled_access_fs = ["write_file", "refer"]
handled_access_net = ["bind_tcp"]
[[layer.path_beneath]]
allowed_access = ["write_file"]
parent = "/"
''', "P.toml")

    def test_a_program_in_python(self) -> None:
        (layer,) = self.imported("/usr/bin/python3", "-c", OWN, self.work).layers
        self.assertEqual(layer.handled_access_fs.rights, {"execute", "read_file", "read_dir"})
        self.assertEqual(granted(layer), {"/usr": {"execute", "read_file", "read_dir"},
                                          str(self.work): {"read_file", "read_dir"}})

    def test_what_confine_puts_in_force_is_the_policy(self) -> None:
        policy = self.policy()
        found = self.imported(sys.executable, CONFINER, "confine", policy.path, "--", "true", ports=policy.path)
        self.assert_alike(found, policy)

    @unittest.skipUnless(shutil.which("cc"), "cc is not installed")
    def test_what_exported_code_puts_in_force_is_the_policy(self) -> None:
        policy = self.policy()
        code = self.run_it(sys.executable, CONFINER, "export", policy.path, "--c").stdout
        (self.folder / "policy.c").write_text(code)
        (self.folder / "main.c").write_text(MAIN)
        program = self.folder / "own"
        built = self.run_it("cc", "-o", program, self.folder / "policy.c", self.folder / "main.c")
        self.assertEqual(built.returncode, 0, built.stderr)
        self.assert_alike(self.imported(program, "true", ports=policy.path), policy)

    @unittest.skipUnless(BUILT.exists(), f"{BUILT} is not built")
    def test_a_recording_under_a_policy_keeps_it_with_its_values(self) -> None:
        (self.folder / "site.toml").write_text('[[path_beneath]]\nallowed_access = ["read"]\nparent = "${ETC}"\n')
        policy = self.folder / "P.toml"
        policy.write_text('include = ["base", "./site.toml"]\n[[layer]]\nhandled_access_fs = ["all"]\n'
                          '[[layer.path_beneath]]\nallowed_access = ["read", "execute"]\nparent = "${USR}"\n')
        given = ("--set", "USR=/usr", "--set", "ETC=/etc")
        recording = self.folder / "rec"
        words = ("run", recording, "--policy", policy, *given, "--", "ls", "-d", "/etc")
        ran = self.run_it(sys.executable, RECORDER, *words)
        self.assertEqual((ran.returncode, ran.stdout), (0, "/etc\n"), ran.stderr)
        kept = policies.read(recording / "policy.toml")
        wanted = policies.read(policy, Given({"USR": "/usr", "ETC": "/etc"}))
        self.assertEqual(granted(kept.layers[0]), granted(wanted.layers[0]))
        compared = self.run_it(sys.executable, RECORDER, "compare", recording)
        self.assertEqual(compared.returncode, 0, compared.stdout)

    @unittest.skipUnless(BUILT.exists(), f"{BUILT} is not built")
    def test_the_rule_that_a_program_lacks_lets_it_pass(self) -> None:
        """What the program was refused is suggested for its layer, and with that rule in its code it is not refused."""
        lacking = OWN + 'print(open(directory + "/../other").read())\n'
        (self.folder / "other").write_text("said")
        recording = self.folder / "rec"
        python = ("/usr/bin/python3", "-c")
        ran = self.run_it(sys.executable, RECORDER, "run", recording, "--", *python, lacking, self.work)
        self.assertEqual(ran.returncode, 1)
        found = self.run_it(sys.executable, RECORDER, "suggest", recording, "--of-program")
        self.assertIn(f'allowed_access = ["read_file"]\nparent = "{self.folder}/other"\n', found.stdout, found.stderr)
        rule = 'assert call(445, rules, 1, beneath(0b100, directory + "/../other"), 0) == 0\n'
        done = self.run_it(*python, lacking.replace("assert call(446", f"{rule}assert call(446"), self.work)
        self.assertEqual((done.returncode, done.stdout), (0, "said\n"), done.stderr)

    def assert_alike(self, found: Policy, wanted: Policy) -> None:
        """The same layers, which handle what this kernel has of them."""
        abi = confining.known_abi(NEWEST_ABI)
        for one, other in zip(found.layers, wanted.layers, strict=True):
            self.assertEqual(one.handled_access_fs.rights, other.handled_access_fs.rights & FS.known(abi))
            self.assertEqual(one.handled_access_net.rights, other.handled_access_net.rights & NET.known(abi))
            self.assertEqual(granted(one), granted(other, abi))


def granted(layer: policies.Layer, abi: int = NEWEST_ABI) -> dict[str | int, Rights]:
    """What each path and port gets; on what is no directory, only rights that files have."""
    files = frozenset({"execute", "write_file", "read_file", "truncate", "ioctl_dev"})
    found: dict[str | int, Rights] = {}
    for rule in layer.path_beneath:
        for parent in rule.parents:
            rights = rule.allowed_access.rights & layer.handled_access_fs.rights & FS.known(abi)
            real = str(Path(parent).resolve())
            found[real] = found.get(real, frozenset()) | (rights if Path(parent).is_dir() else rights & files)
    for port_rule in layer.net_port:
        for port in port_rule.ports:
            rights = port_rule.allowed_access.rights & layer.handled_access_net.rights & NET.known(abi)
            found[port] = found.get(port, frozenset()) | rights
    return found
