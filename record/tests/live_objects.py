"""Rules follow objects: for each way in which a name comes to another object, landaudit answers as the kernel did.

Each shape is recorded twice: under a policy, and the answers are compared with the kernel's; and bare, and what an
audit under the same policy foretells is compared with what the kernel refused.
"""

from __future__ import annotations

import json
import subprocess
import sys
import unittest
from collections import Counter
from pathlib import Path
from typing import Any

from landaudit_record.recorder import recordings

from .calling import InFolder
from .live_actor import CONFINER, PYTHON, RECORDER, wanting

POLICY = """
[[layer]]
handled_access_fs = ["read_file", "read_dir", "truncate", "refer"]
[[layer.path_beneath]]
allowed_access = ["read"]
parent = ["/usr", "/etc"]
[[layer.path_beneath]]
allowed_access = ["refer"]
parent = "WORK"
[[layer.path_beneath]]
allowed_access = ["read_file", "truncate"]
parent = "WORK/conf"
[[layer.path_beneath]]
allowed_access = ["read_file", "read_dir"]
parent = "WORK/dir"
[[layer.path_beneath]]
allowed_access = ["read_file"]
parent = "WORK/sock"
"""

#: What each shape does, and which of its reads the kernel refuses.
SHAPES: dict[str, tuple[str, list[str]]] = {
    "replaced by a rename": ("read('conf'); make('new'); rename('new', 'conf'); read('conf')", ["conf"]),
    "replaced by what was there": ("rename('other', 'conf'); read('conf')", ["conf"]),
    "removed and made again": ("unlink('conf'); make('conf'); read('conf')", ["conf"]),
    "cut and written again": ("make('conf'); read('conf')", []),
    "moved away": ("rename('conf', 'bak'); read('bak'); make('conf'); read('conf')", ["conf"]),
    "moved away and back": ("rename('conf', 'bak'); rename('bak', 'conf'); read('conf')", []),
    "moved to another directory": ("rename('conf', 'else/conf'); read('else/conf')", []),
    "moved into a directory with a rule": ("rename('conf', 'dir/conf'); read('dir/conf')", []),
    "hard link": ("link('conf', 'hard'); read('hard'); unlink('conf'); read('hard')", []),
    "hard link that is replaced": (
        "link('conf', 'hard'); make('new'); rename('new', 'conf'); read('conf'); read('hard')", ["conf"]
    ),
    "rename onto a hard link of the same": ("link('conf', 'hard'); rename('conf', 'hard'); read('conf'); read('hard')",
                                            []),
    "hard link to what has no rule": ("unlink('conf'); link('other', 'conf'); read('conf')", ["conf"]),
    "exchanged": ("exchange('conf', 'other'); read('conf'); read('other')", ["conf"]),
    "directory moved away": ("rename('dir', 'old'); read('old/in'); list('old')", []),
    "directory moved away and made again": (
        "rename('dir', 'old'); mkdir('dir'); make('dir/in'); read('dir/in'); read('old/in'); list('dir')",
        ["dir/in", "dir"],
    ),
    "directory exchanged": ("exchange('dir', 'else'); read('dir/in'); read('else/in'); list('else')", ["dir/in"]),
    "directory replaced by another": (
        "unlink('dir/in'); rename('else', 'dir'); read('dir/in'); list('dir')", ["dir/in", "dir"]
    ),
    "file made in a directory with a rule": ("make('dir/more'); read('dir/more'); rename('dir', 'd2'); read('d2/more')",
                                             []),
    "file moved out of a directory with a rule": ("rename('dir/in', 'out'); read('out')", ["out"]),
    "work in a directory that is moved": (
        "chdir('dir'); rename('../dir', '../old'); read('in'); read('../old/in')", []
    ),
    "work in a directory that is exchanged": (
        "chdir('dir'); exchange('../dir', '../else'); read('in'); read('../dir/in')", ["../dir/in"]
    ),
    "link replaced": ("symlink('other', 'tmp'); read('link'); rename('tmp', 'link'); read('link')", ["link"]),
    "a file without a name gets one": ("tmpfile('else', 'named'); read('named')", ["named"]),
    "a file without a name in a directory with a rule": ("tmpfile('dir', 'dir/named'); read('dir/named')", []),
    "removed file by its descriptor": ("keep('conf'); unlink('conf'); make('conf'); reopen(); read('conf')", ["conf"]),
    "moved file by its descriptor": ("keep('conf'); rename('conf', 'else/conf'); reopen()", []),
    "file in memory": ("memory()", []),
    "socket made again": ("unlink('sock'); bind('sock'); unlink('sock'); make('sock'); read('sock')", ["sock"]),
    "cut of what replaces": ("make('new'); rename('new', 'conf'); truncate('conf')", ["conf"]),
}

#: Where what was asked for is another path than the one that was named.
LEADS = {
    ("link replaced", "link"): "other",
    ("work in a directory that is exchanged", "../dir/in"): "dir/in",
}

PRELUDE = """
import ctypes, os, socket, sys
libc = ctypes.CDLL(None, use_errno=True)
CWD = -100
def call(act):
    try: return act()
    except PermissionError as error: print(error.filename, file=sys.stderr)
def read(path): call(lambda: os.close(os.open(path, os.O_RDONLY)))
def list(path): call(lambda: os.listdir(path))
def make(path): call(lambda: os.close(os.open(path, os.O_WRONLY | os.O_CREAT)))
def truncate(path): call(lambda: os.truncate(path, 0))
def keep(path): global kept; kept = os.open(path, os.O_RDONLY)
def reopen(): read(f"/proc/self/fd/{kept}")
def exchange(one, other): assert libc.renameat2(CWD, one.encode(), CWD, other.encode(), 2) == 0
def tmpfile(directory, name):
    fd = os.open(directory, os.O_TMPFILE | os.O_WRONLY, 0o600)
    assert libc.linkat(CWD, f"/proc/self/fd/{fd}".encode(), CWD, name.encode(), 0x400) == 0
def memory():
    fd = os.memfd_create("m")
    again = os.open(f"/proc/self/fd/{fd}", os.O_RDWR)
    os.ftruncate(again, 1)
    os.truncate(f"/proc/self/fd/{fd}", 0)
def bind(path): socket.socket(socket.AF_UNIX).bind(path)
from os import chdir, link, mkdir, rename, symlink, unlink
"""


@unittest.skipIf(wanting() is not None, wanting() or "")
class LiveObjects(InFolder):
    """Each shape in a folder of its own, filled alike."""

    def fill(self, name: str) -> Path:
        """A folder with a policy about it."""
        work = self.folder / name
        for directory in ("dir", "else"):
            (work / directory).mkdir(parents=True)
            (work / directory / "in").write_text("in")
        for file in ("conf", "other", "sock"):
            (work / file).write_text(file)
        (work / "link").symlink_to("conf")
        (work.with_suffix(".toml")).write_text(POLICY.replace("WORK", str(work)))
        return work

    def recorded(self, name: str, shape: str, *, under_policy: bool) -> tuple[Path, list[str]]:
        """A recording of a shape, and the names that the kernel refused to read."""
        work = self.fill(name)
        policy = work.with_suffix(".toml")
        recording = work.with_suffix(".rec")
        by = [PYTHON, str(CONFINER), "confine", str(policy), "--"] if under_policy else []
        program = [PYTHON, "-I", "-S", "-c", PRELUDE + shape.replace("; ", "\n")]
        run = subprocess.run([str(RECORDER), "run", str(recording), "--", *by, *program], cwd=work, capture_output=True,
                             text=True)
        self.assertEqual(run.returncode, 0, run.stderr)
        refused = [line for line in run.stderr.splitlines() if not line.startswith(("landaudit-record", " "))]
        return recording, refused

    def said(self, *words: str) -> Any:
        """What a command of landaudit-record prints as data."""
        said = subprocess.run([str(RECORDER), *words, "--json"], capture_output=True, text=True)
        self.assertIn(said.returncode, (0, 1, 5), said.stdout + said.stderr)
        return json.loads(said.stdout)

    def test_the_answers_are_the_kernels(self) -> None:
        for number, (name, (shape, refused)) in enumerate(SHAPES.items()):
            with self.subTest(name):
                recording, met = self.recorded(f"under{number}", shape, under_policy=True)
                self.assertEqual(met, refused)
                compared = self.said("compare", str(recording))
                self.assertEqual([one["example"] for one in compared["differences"]], [])

    def test_what_is_foretold_is_what_is_refused(self) -> None:
        for number, (name, (shape, refused)) in enumerate(SHAPES.items()):
            with self.subTest(name):
                recording, met = self.recorded(f"bare{number}", shape, under_policy=False)
                self.assertEqual(met, [])
                policy = recording.with_suffix(".toml")
                audit = self.said("audit", str(recording), "--policy", str(policy), "--abi", "5")
                work = str(recording.with_suffix(""))
                foretold = Counter[str]()
                for refusal in audit["refusals"]:
                    foretold[refusal["place"].removeprefix(work + "/")] += refusal["times"]
                self.assertEqual(foretold, Counter(LEADS.get((name, path), path) for path in refused))


WHITEOUT_POLICY = """
[[layer]]
handled_access_fs = ["make_reg", "make_char", "remove_file", "refer"]
[[layer.path_beneath]]
allowed_access = ["make_reg", "remove_file", "refer"]
parent = "WORK/reg"
[[layer.path_beneath]]
allowed_access = ["make_char", "remove_file", "refer"]
parent = "WORK/char"
[[layer.path_beneath]]
allowed_access = ["remove_file", "refer"]
parent = "WORK/out"
"""
WHITEOUTS = """
def make(directory):
    if libc.mknod(f"{directory}/wh".encode(), 0o020666, 0): print(f"{directory}/wh", file=sys.stderr)
def leave(start, end):
    if libc.renameat2(CWD, start.encode(), CWD, end.encode(), 4): print(start, file=sys.stderr)
make("reg"); make("char")
for directory in ("reg", "char"):
    if os.path.exists(directory + "/wh"):
        call(lambda: rename(directory + "/wh", directory + "/wh2"))
        call(lambda: link(directory + "/wh2", directory + "/wh3"))
leave("reg/f", "reg/g"); leave("out/f", "reg/h")
"""


@unittest.skipIf(wanting() is not None, wanting() or "")
class LiveWhiteouts(LiveObjects):
    """Whiteouts, as this kernel guards them: by its own word on its errata."""

    def fill(self, name: str) -> Path:
        work = self.folder / name
        for directory in ("reg", "char", "out"):
            (work / directory).mkdir(parents=True)
            (work / directory / "f").write_text(directory)
        work.with_suffix(".toml").write_text(WHITEOUT_POLICY.replace("WORK", str(work)))
        return work

    def test_the_answers_are_the_kernels(self) -> None:
        recording, met = self.recorded("whiteouts", WHITEOUTS, under_policy=True)
        guarded_as_files = recordings.errata() & 8
        self.assertEqual(met, ["char/wh", "out/f"] if guarded_as_files else ["reg/wh"])
        self.assertEqual(self.said("compare", str(recording))["differences"], [])

    def test_what_is_foretold_is_what_is_refused(self) -> None:
        recording, _ = self.recorded("bare", WHITEOUTS, under_policy=False)
        audit = self.said("audit", str(recording), "--policy", str(recording.with_suffix(".toml")), "--abi", "5")
        places = {refusal["place"].removeprefix(str(recording.with_suffix("")) + "/") for refusal in audit["refusals"]}
        self.assertIn("char/wh" if recordings.errata() & 8 else "reg/wh", places)


if __name__ == "__main__":
    sys.exit(unittest.main())
