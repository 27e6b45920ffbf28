"""Denials on a running kernel: a program breaks its policy, and rules from the kernel's log let it pass."""

from __future__ import annotations

import json
import os
import shutil
import subprocess
import tempfile
import tomllib
import unittest
from pathlib import Path
from typing import Any

from landaudit_record.common.rights import ABI_OF_LOG
from landaudit_record.policy import landlock_calls

from . import kernel_audit
from .live_actor import CONFINER, PYTHON, RECORDER
from .live_exporting import MAIN

#: The name that the kernel keeps of the program: the records of other programs are left out by it.
NAME = "landaudit-15"
#: Breaks the policy in each of its ways, and prints how each call ended.
PROBE = """
import errno, fcntl, json, os, socket, stat, sys, termios
top, outside = sys.argv[1], int(sys.argv[2])
os.chdir(top)
def bind_unix():
    with socket.socket(socket.AF_UNIX) as it:
        it.bind("socks/new")
def inet(call, family, address):
    with socket.socket(family) as it:
        it.setsockopt(socket.SOL_SOCKET, socket.SO_REUSEADDR, 1)
        getattr(it, call)(address)
def abstract():
    with socket.socket(socket.AF_UNIX) as it:
        it.connect("\\0" + os.path.basename(top))
def ioctl():
    fd = os.open("/dev/zero", os.O_RDONLY)
    fcntl.ioctl(fd, termios.TCGETS)
def spawn():
    os.waitpid(os.posix_spawn(f"{top}/bin/true", ["true"], {}), 0)
def writing(name, flags):
    os.write(os.open(name, flags, 0o600), b"text")
CALLS = {
    "read": lambda: os.open("kept/read", os.O_RDONLY),
    "read blank": lambda: os.open("kept/with a blank", os.O_RDONLY),
    "write": lambda: writing("kept/written", os.O_WRONLY),
    "truncate": lambda: os.truncate("kept/cut", 1),
    "execute": spawn,
    "list": lambda: os.listdir("listed"),
    "make a file": lambda: writing("made/file", os.O_WRONLY | os.O_CREAT | os.O_EXCL),
    "make a directory": lambda: os.mkdir("made/dir"),
    "make a link": lambda: os.symlink("x", "made/link"),
    "make a pipe": lambda: os.mkfifo("made/pipe"),
    "make a device": lambda: os.mknod("made/device", stat.S_IFCHR | 0o600, os.makedev(1, 3)),
    "make a socket": bind_unix,
    "remove a file": lambda: os.unlink("gone/file"),
    "remove a directory": lambda: os.rmdir("gone/dir"),
    "rename": lambda: os.rename("names/old", "names/new"),
    "move": lambda: os.rename("from/file", "to/file"),
    "ioctl": ioctl,
    "bind": lambda: inet("bind", socket.AF_INET, ("127.0.0.1", 20083)),
    "bind any": lambda: inet("bind", socket.AF_INET6, ("::", 0)),
    "connect": lambda: inet("connect", socket.AF_INET, ("127.0.0.1", 9)),
    "signal": lambda: os.kill(outside, 0),
    "abstract": abstract,
    "look": lambda: os.readlink(f"/proc/{outside}/exe"),
    "gain": lambda: os.link("poor/file", "rich/file"),
}
found = {}
for name, call in CALLS.items():
    try:
        call()
        found[name] = "ok"
    except OSError as error:
        found[name] = errno.errorcode[error.errno]
print(json.dumps(found))
"""
#: Two layers, of which the second refuses less; TOP is the folder in which the program works.
POLICY = """[[layer]]
handled_access_fs = ["all"]
handled_access_net = ["all"]
scoped = ["signal", "abstract_unix_socket"]
[[layer.path_beneath]]
allowed_access = ["read", "execute"]
parent = ["/usr", "/lib", "/lib64", "/bin", "/etc/ld.so.cache", "/proc", "TOP/script"]
[[layer.path_beneath]]
allowed_access = ["read_file"]
parent = "/dev/zero"
[[layer.path_beneath]]
allowed_access = ["write_file", "refer", "make_reg"]
parent = "TOP/rich"
[[layer.path_beneath]]
allowed_access = ["refer"]
parent = "TOP/poor"
[[layer]]
handled_access_fs = ["write_file", "make_reg", "refer"]
handled_access_net = ["connect_tcp"]
[[layer.path_beneath]]
allowed_access = ["refer", "make_reg"]
parent = ["TOP/rich", "TOP/poor"]
"""
FOLDERS = ("kept", "listed", "made", "socks", "gone/dir", "names", "from", "to", "poor", "rich", "bin", "script")
FILES = ("kept/read", "kept/with a blank", "kept/written", "kept/cut", "gone/file", "names/old", "from/file",
         "poor/file")
#: What no rule lets pass, with the error that the kernel gives.
FOREVER = {"signal": "EPERM", "abstract": "EPERM", "look": "EACCES", "gain": "EXDEV"}
#: What fails without a policy: nobody listens at the port, and TCGETS is no ioctl of the device.
BY_ITSELF = {"connect": "ECONNREFUSED", "ioctl": "ENOTTY"}
#: The most steps that a call takes until it passes: each may show a further one behind it, in each of two layers.
MOST_ROUNDS = 8


def wanting() -> str | None:
    """Why these tests can't run here, if they can't."""
    if shutil.which(PYTHON) is None:
        return f"{PYTHON} is not there"
    try:
        abi = landlock_calls.kernel_abi()
    except OSError as error:
        return f"this kernel has no Landlock: {error.strerror}"
    if abi < ABI_OF_LOG:
        return f"this kernel has ABI {abi}, and logs denials from ABI {ABI_OF_LOG} on"
    return kernel_audit.wanting()


@unittest.skipIf(wanting() is not None, wanting() or "")
class LiveDenials(unittest.TestCase):
    def setUp(self) -> None:
        self.folder = Path(self.enterContext(tempfile.TemporaryDirectory())).resolve()
        self.top, self.policy, self.log = (self.folder / name for name in ("top", "policy.toml", "log"))
        self.policy.write_text(POLICY.replace("TOP", str(self.top)))
        (self.folder / NAME).symlink_to(PYTHON)
        self.listening = self.enterContext(_abstract(self.top.name))

    def fill(self) -> None:
        """Makes what the program works on, always alike."""
        shutil.rmtree(self.top, ignore_errors=True)
        for name in FOLDERS:
            (self.top / name).mkdir(parents=True)
        for name in FILES:
            (self.top / name).write_text("text")
        shutil.copy("/bin/true", self.top / "bin" / "true")
        (self.top / "script" / "probe.py").write_text(PROBE)

    def confined(self, *options: str) -> dict[str, str]:
        """How each call of the program ends under the policy."""
        self.fill()
        probe = (self.folder / NAME, "-I", "-S", self.top / "script" / "probe.py", self.top, str(os.getpid()))
        words = (PYTHON, CONFINER, "confine", self.policy, *options, "--", *probe)
        run = subprocess.run(words, capture_output=True, text=True, check=False)
        self.assertEqual(run.returncode, 0, run.stderr)
        found: dict[str, str] = json.loads(run.stdout)
        return found

    def denials(self, *options: str) -> subprocess.CompletedProcess[str]:
        words = (PYTHON, RECORDER, "denials", self.log, "--policy", self.policy, "--program", NAME, *options)
        return subprocess.run(words, capture_output=True, text=True, check=False)

    def logged(self) -> tuple[dict[str, str], dict[str, Any]]:
        """How each call ends, and what is said of the log of that."""
        self.log.unlink(missing_ok=True)
        with kernel_audit.written(self.log):
            found = self.confined("--log")
        run = self.denials("--json")
        self.assertEqual((run.returncode, run.stderr), (1, ""))
        return found, json.loads(run.stdout)

    def test_the_rules_of_the_log_let_pass_what_a_rule_can(self) -> None:
        first, said = self.logged()
        self.assertEqual({name for name, ended in first.items() if ended == "ok"}, set())
        for _ in range(MOST_ROUNDS):
            self.assertEqual(said["not_logged"], [])
            self.assertEqual(said["without_rule"]["of_other_layers"], {})
            if not said["rules"]:
                break
            self.add(said["rules"])
            found, said = self.logged()
        passed = dict.fromkeys(first, "ok") | BY_ITSELF | FOREVER
        self.assertEqual(found, passed)
        self.assertGreaterEqual(sum(first[name] != ended for name, ended in passed.items()), 15)
        self.assertEqual(said["without_rule"]["would_gain"], {"link": 1})
        self.assertEqual(set(said["without_rule"]["no_rule_can"]), {"kill", "connect", "readlink"})

    def add(self, rules: list[dict[str, Any]]) -> None:
        """Puts rules into their layers: those of the last layer are pasted after it, those of the first before it."""
        before, _, behind = self.policy.read_text().rpartition("[[layer]]\n")
        layers = {1: before, 2: behind}
        for rule in rules:
            kind, place = ("path_beneath", "parent") if "parent" in rule else ("net_port", "port")
            told = "".join(f"{key} = {json.dumps(rule[key])}\n" for key in ("allowed_access", place))
            layers[rule["layer"]] += f"[[layer.{kind}]]\n{told}"
        self.policy.write_text(f"{layers[1]}[[layer]]\n{layers[2]}")

    def test_each_denial_is_of_the_layer_that_refused_it(self) -> None:
        """The second layer was put in force last, so it is named for what both refuse, and has the greater number."""
        _, said = self.logged()
        layers = {domain["policy"]: int(domain["domain"], 16) for domain in said["domains"]}
        self.assertEqual(set(layers), {1, 2})
        self.assertLess(layers[1], layers[2])
        for kind in said["refusals"]:
            for layer in kind["layers"]:
                rights = {right for one in layer["objections"] for right in one.get("rights", ())}
                of_second = rights & {"write_file", "make_reg", "refer", "connect_tcp"} or "readlink" in kind["call"]
                self.assertEqual(layer["policy"], 2 if of_second else 1, kind)

    def test_rules_are_printed_as_toml(self) -> None:
        self.logged()
        run = self.denials("--suggest")
        self.assertEqual((run.returncode, run.stderr), (1, ""))
        tomllib.loads(f"[[layer]]\n{run.stdout}")
        self.assertIn("for layer 2: paste them under the [[layer]] of that number", run.stdout)

    def test_without_the_option_the_kernel_logs_nothing_of_the_program(self) -> None:
        with kernel_audit.written(self.log):
            self.confined()
        run = self.denials("--json")
        self.assertEqual((run.returncode, json.loads(run.stdout)["denied"]), (0, 0))

    def test_without_records_of_calls_nothing_is_said_of_programs(self) -> None:
        with kernel_audit.without_calls(), kernel_audit.written(self.log):
            self.confined("--log")
        run = self.denials("--json")
        said = json.loads(run.stdout)
        self.assertEqual((run.returncode, said["denied"]), (5, 0))
        self.assertIn("without a record of the call", said["not_logged"][0])
        words = (PYTHON, RECORDER, "denials", self.log, "--policy", self.policy, "--json")
        said = json.loads(subprocess.run(words, capture_output=True, check=False).stdout)
        self.assertGreater(said["denied"], 20)
        self.assertEqual({kind["call"] for kind in said["refusals"]}, {"-"})
        # Each of the two directories of the link has a record of its own, as has each of the move.
        self.assertEqual(said["without_rule"]["would_gain"], {"-": 2})

    @unittest.skipUnless(shutil.which("cc"), "no C compiler is installed")
    def test_a_policy_as_c_has_its_denials_logged(self) -> None:
        (self.folder / "main.c").write_text(MAIN)
        code = subprocess.run([PYTHON, CONFINER, "export", self.policy, "--c", "--log"], capture_output=True, check=True)
        (self.folder / "policy.c").write_bytes(code.stdout)
        confined = self.folder / "confined"
        subprocess.run(["cc", "-std=c99", "policy.c", "main.c", "-o", confined], cwd=self.folder, check=True)
        self.fill()
        with kernel_audit.written(self.log):
            subprocess.run([confined, "cat", self.top / "kept" / "read"], capture_output=True, check=False)
        words = (PYTHON, RECORDER, "denials", self.log, "--program", "confined", "--json")
        said = json.loads(subprocess.run(words, capture_output=True, check=False).stdout)
        self.assertIn(("openat", str(self.top / "kept" / "read"), [os.path.realpath("/bin/cat")]),
                      [(kind["call"], kind["place"], list(kind["programs"])) for kind in said["refusals"]])
        self.assertEqual([domain["comm"] for domain in said["domains"]], ["confined"])

    def test_a_kernel_that_prints_its_records_loses_some_and_that_is_told(self) -> None:
        """It prints ten records in five seconds (printk_ratelimit), and a denial has three."""
        if shutil.which("dmesg") is None:
            self.skipTest("dmesg is not installed")
        subprocess.run(["dmesg", "--clear"], check=True)
        with kernel_audit.printed():
            self.confined("--log")
        self.log.write_bytes(subprocess.run(["dmesg"], capture_output=True, check=True).stdout)
        run = self.denials("--json")
        said = json.loads(run.stdout)
        self.assertGreater(said["denied"], 0)
        self.assertNotEqual(said["not_logged"], [])


def _abstract(name: str) -> Any:
    """A listening abstract socket, outside of every layer."""
    import socket

    it = socket.socket(socket.AF_UNIX)
    it.bind(f"\0{name}")
    it.listen()
    return it
