"""Formats of binfmt_misc on a running kernel: whether it asks Landlock about their interpreters, and what is recorded.

A format of the test's own is registered and removed at the end. That takes root, and a kernel that has binfmt_misc.
"""

from __future__ import annotations

import ctypes
import json
import os
import subprocess
import tempfile
import unittest
from pathlib import Path
from typing import Any

from landaudit_record.common import jsonl
from landaudit_record.recorder import formats
from landaudit_record.recorder.calls import programs
from landaudit_record.recorder.formats import REGISTERED

from .live_actor import CONFINER, PYTHON, RECORDER, wanting

NAME = "landaudit-toy"
POLICY = """[[layer]]
handled_access_fs = ["execute", "read_file"]
[[layer.path_beneath]]
allowed_access = ["execute", "read_file"]
parent = ["/usr", "/lib", "/lib64", "/bin", "/etc", "/proc", "WORK/toy", "WORK/x.landaudittoy"]
"""
_libc = ctypes.CDLL(None, use_errno=True)


def _mounted() -> bool:
    """Whether formats can be registered, once their file system is mounted."""
    if os.geteuid() != 0:
        return False
    if not (REGISTERED / "register").exists():
        _libc.mount(b"binfmt_misc", os.fsencode(REGISTERED), b"binfmt_misc", 0, None)
    return os.access(REGISTERED / "register", os.W_OK)


@unittest.skipIf(wanting() is not None, wanting() or "")
class LiveFormats(unittest.TestCase):
    def setUp(self) -> None:
        self.addCleanup(self.unmount, was=(REGISTERED / "register").exists())
        if not _mounted():
            self.skipTest("no format can be registered here")
        self.folder = Path(self.enterContext(tempfile.TemporaryDirectory())).resolve()
        self.interpreter = self.folder / "runs"
        self.interpreter.write_bytes(Path("/bin/cat").read_bytes())
        for name in ("toy", "x.landaudittoy"):
            (self.folder / name).write_text("TOYLANDAUDIT\n")
        for file in self.folder.iterdir():
            file.chmod(0o755)
        self.policy = self.folder / "policy.toml"
        self.policy.write_text(POLICY.replace("WORK", str(self.folder)))

    def unmount(self, *, was: bool) -> None:
        """Unmounts what this test mounted."""
        if not was:
            _libc.umount2(os.fsencode(REGISTERED), 0)

    def register(self, known: str, flags: str = "", name: str = NAME) -> None:
        """Registers a format that is removed at the end."""
        (REGISTERED / "register").write_text(f":{name}:{known}:{self.interpreter}:{flags}")
        self.addCleanup((REGISTERED / name).write_text, "-1")

    def met(self, name: str) -> bool:
        """Whether a policy without the interpreter refuses a program."""
        words = [PYTHON, str(CONFINER), "confine", str(self.policy), "--", "sh", "-c", f"{self.folder}/{name}"]
        run = subprocess.run(words, capture_output=True, text=True, check=False)
        self.assertIn((run.returncode, run.stdout), ((0, "TOYLANDAUDIT\n"), (126, "")), run.stderr)
        return run.returncode == 126

    def foretold(self, name: str) -> list[str]:
        """The places that an audit of a bare recording names."""
        out = self.folder / f"rec-{len(list(self.folder.iterdir()))}"
        words = [str(RECORDER), "run", str(out), "--", "sh", "-c", f"{self.folder}/{name}"]
        run = subprocess.run(words, capture_output=True, text=True, check=False)
        self.assertEqual((run.returncode, run.stdout), (0, "TOYLANDAUDIT\n"), run.stderr)
        self.unsaid = [line["class"] for _, line in jsonl.numbered(out / "unsaid.jsonl") if line.get("asks")]
        words = [str(RECORDER), "audit", str(out), "--policy", str(self.policy), "--json"]
        audit: dict[str, Any] = json.loads(subprocess.run(words, capture_output=True, check=False).stdout)
        return sorted({refusal["place"] for refusal in audit["refusals"]})

    def test_an_interpreter_is_asked_about(self) -> None:
        for known, name in (("M::TOYLANDAUDIT:", "toy"), ("E::landaudittoy:", "x.landaudittoy")):
            with self.subTest(known):
                self.register(known, name=f"{NAME}-{known[0]}")
                self.assertTrue(self.met(name))
                self.assertEqual(self.foretold(name), [str(self.interpreter)])
                self.assertEqual(self.unsaid, [])

    def test_an_interpreter_that_was_opened_before_is_not(self) -> None:
        self.register("M::TOYLANDAUDIT:", "F")
        self.assertFalse(self.met("toy"))
        self.assertEqual((self.foretold("toy"), self.unsaid), ([], []))

    def test_the_newest_format_comes_first(self) -> None:
        self.register("M::TOYLANDAUDIT:", name=f"{NAME}-1")
        self.register("M::TOY:", name=f"{NAME}-2")
        names = [told["name"] for told in formats.registered() or () if told["name"].startswith(NAME)]
        self.assertEqual(names, [f"{NAME}-2", f"{NAME}-1"])

    def test_a_format_that_the_recording_does_not_know(self) -> None:
        self.register("M::TOYLANDAUDIT:")
        out = self.folder / "rec"
        words = [str(RECORDER), "run", str(out), "--", str(self.folder / "toy")]
        subprocess.run(words, capture_output=True, check=True)
        about = json.loads((out / "recording.json").read_text())
        (out / "recording.json").write_text(json.dumps({**about, "formats": None}))
        subprocess.run([str(RECORDER), "convert", str(out)], capture_output=True, check=True)
        holes = [line["class"] for _, line in jsonl.numbered(out / "unsaid.jsonl") if line.get("asks")]
        self.assertEqual(holes, [programs.UNKNOWN_FORMAT])
