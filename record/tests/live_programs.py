"""Twenty programs on a running kernel, each under the policy that was made for it from one recording.

A program is run bare, recorded, and its recording answered by `suggest` from a policy that denies all and by `tighten`.
Under the result, put in force by `confine`, it prints the same, ends with the same status and leaves the same files.
"""

from __future__ import annotations

import hashlib
import os
import shutil
import subprocess
import tempfile
import unittest
from collections.abc import Sequence
from dataclasses import dataclass
from pathlib import Path

from .live_actor import CONFINER, PYTHON, RECORDER, wanting

DENY = """[[layer]]
handled_access_fs = ["all"]
handled_access_net = ["all"]
"""
SOURCE = 'int main(void) { return 0; }\n'
MAKEFILE = "all: one two\none two: in\n\tsort in > $@\nclean:\n\trm one two\n"
#: A program by its name, as a shell runs it in a folder that has `in`, `m.c`, `Makefile`, `d/one`, `d/e/two` and `new`.
PROGRAMS = {
    "awk": "awk '{ n += length($0) } END { print n }' in > sum && cat sum",
    "bash": "bash -c 'while read -r line; do echo \"$line\" >> copy; done < in; wc -l copy'",
    "cp": "cp -r d copy && mv copy moved && ln moved/one hard && ln -s in soft && cat hard soft",
    "dd": "dd if=in of=out bs=2 count=3 2> /dev/null && od -c out",
    "diff": "diff in new > change; patch -s in change && cat in",
    "find": "find d -type f -exec grep -l e {} + ; find d -name two -delete; find d | sort",
    "gcc": "gcc -pipe -o m m.c && ./m; echo $?",
    "git": "git init -q r && cp in r && git -C r add . && git -C r -c user.name=n -c user.email=e@x commit -qm m && "
           "git -C r log --format=%s && git -C r status --short",
    "gzip": "gzip -k in && gzip -dc in.gz && rm in.gz",
    "ls": "ls -R d && ls -d in new",
    "make": "make -s all && cat one && make -s clean",
    "openssl": "openssl dgst -sha256 in && "
               "openssl enc -aes-128-cbc -pass pass:x -pbkdf2 -nosalt -in in -out e && wc -c e",
    "perl": "perl -pi -e 's/b/B/' in && perl -MFile::Find -e 'find(sub { print \"$_\\n\" if -f }, \"d\")' | sort",
    "python": f"{PYTHON} -B -c 'import json, shutil; shutil.copytree(\"d\", \"c\"); "
              "print(json.dumps(open(\"in\").read()))'",
    "sed": "sed -i -e s/a/A/ in && cat in",
    "sort": "sort -o out in && uniq -c out && join in new; comm out new",
    "sqlite": "sqlite3 db 'create table t (a); insert into t values (1), (2); select sum(a) from t' && rm db",
    "ssh-keygen": "ssh-keygen -q -t ed25519 -N '' -C c -f key && ssh-keygen -y -f key | wc -w && rm key key.pub",
    "tar": "tar cf d.tar d && mkdir t && tar xf d.tar -C t && cat t/d/one && rm d.tar",
    "xz": "xz -k in && xz -dc in.xz && xz -l in.xz > /dev/null; rm in.xz",
}
#: Programs that are not as they were under a policy that one recording asks for, and why.
OTHERWISE: dict[str, str] = {}
ENVIRONMENT = {"PATH": "/usr/bin:/bin", "LC_ALL": "C", "GIT_CONFIG_NOSYSTEM": "1"}


@dataclass(frozen=True)
class Done:
    """What a program printed, its status, and the files that it left, each with what is in it."""

    status: int
    printed: str
    files: dict[str, str]


@unittest.skipIf(wanting() is not None, wanting() or "")
class LivePrograms(unittest.TestCase):
    def setUp(self) -> None:
        self.folder = Path(self.enterContext(tempfile.TemporaryDirectory())).resolve()
        self.work = self.folder / "work"
        self.policy = self.folder / "policy.toml"

    def fill(self) -> None:
        """The folder in which programs work, as it is before each of them."""
        shutil.rmtree(self.work, ignore_errors=True)
        (self.work / "d" / "e").mkdir(parents=True)
        for name, text in (("in", "b\na\nc\n"), ("new", "a\nb\n"), ("m.c", SOURCE), ("Makefile", MAKEFILE),
                           ("d/one", "one\n"), ("d/e/two", "two\n")):
            (self.work / name).write_text(text)

    def run_in_work(self, words: Sequence[str | Path]) -> subprocess.CompletedProcess[str]:
        environment = {**ENVIRONMENT, "HOME": str(self.work), "TMPDIR": str(self.work)}
        return subprocess.run(
            words, cwd=self.work, capture_output=True, text=True, env=environment, stdin=subprocess.DEVNULL, check=False
        )

    def done(self, *words: str | Path) -> tuple[Done, str]:
        """What a program does in a new folder, and what it says on standard error."""
        self.fill()
        run = self.run_in_work(words)
        files = {str(path.relative_to(self.work)): _content(path) for path in sorted(self.work.rglob("*"))
                 if ".git" not in path.parts}
        return Done(run.returncode, run.stdout, files), run.stderr

    def recorder(self, *words: str | Path) -> str:
        run = self.run_in_work([PYTHON, RECORDER, *words])
        self.assertEqual(run.returncode, 0, run.stdout + run.stderr)
        return run.stdout

    def test_programs(self) -> None:
        for name, command in PROGRAMS.items():
            if shutil.which(command.split()[0]) is None:
                continue
            with self.subTest(name):
                self.tried(name, ("sh", "-c", command))

    def test_second_runs_in_the_folder_that_the_first_one_left(self) -> None:
        """Under the rules that are suggested for both recordings nothing of them is refused at the newest ABI."""
        for name, command in PROGRAMS.items():
            if shutil.which(command.split()[0]) is None:
                continue
            with self.subTest(name):
                self.fill()
                self.policy.write_text(DENY)
                runs = [self.folder / f"{name}-{number}" for number in (1, 2)]
                for run in runs:
                    self.run_in_work([PYTHON, RECORDER, "run", run, "--", "sh", "-c", command])
                self.policy.write_text(DENY + self.recorder("suggest", *runs, "--policy", self.policy))
                self.recorder("audit", *runs, "--policy", self.policy, "--abi", "5")

    def tried(self, name: str, command: tuple[str, ...]) -> None:
        bare, _ = self.done(*command)
        self.fill()
        recording = self.folder / f"rec-{name}"
        recorded = self.run_in_work([PYTHON, RECORDER, "run", recording, "--", *command])
        self.assertEqual((recorded.returncode, recorded.stdout), (bare.status, bare.printed), recorded.stderr)
        self.policy.write_text(DENY)
        self.policy.write_text(DENY + self.recorder("suggest", recording, "--policy", self.policy))
        self.policy.write_text(self.recorder("tighten", recording, "--policy", self.policy))
        confined, said = self.done(PYTHON, CONFINER, "confine", self.policy, "--", *command)
        if name in OTHERWISE:
            self.assertNotEqual(confined, bare, f"{name} is as it was: it need not be named")
        else:
            self.assertEqual(confined, bare, said)


def _content(path: Path) -> str:
    """What is at a path, in a word."""
    if path.is_symlink():
        return f"-> {os.readlink(path)}"
    return "a directory" if path.is_dir() else hashlib.sha256(path.read_bytes()).hexdigest()
