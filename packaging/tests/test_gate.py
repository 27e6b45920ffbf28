"""What `make test` keeps of the gate, and what the sources are that a check is of; in repositories of their own."""

from __future__ import annotations

import shutil
import subprocess
import tempfile
import unittest
from pathlib import Path

from .places import TOP, script

SCRIPT = TOP / "packaging" / "gate"
LINE = "308 passed, 0 failed"


@unittest.skipIf(shutil.which("git") is None, "git is not installed")
class Gate(unittest.TestCase):
    def setUp(self) -> None:
        self.top = Path(self.enterContext(tempfile.TemporaryDirectory())).resolve()
        (self.top / "packaging").mkdir()
        shutil.copy(SCRIPT, self.top / "packaging")
        (self.top / ".gitignore").write_text("out/\n")
        self.git("init", "-q")
        self.git("add", ".")
        self.git("-c", "user.name=me", "-c", "user.email=me@example.org", "commit", "-q", "-m", "first")
        self.kept = self.top / "out" / "gate.txt"

    def git(self, *words: str) -> str:
        """What git prints."""
        return subprocess.run(["git", "-C", self.top, *words], capture_output=True, text=True, check=True).stdout

    def run_on(self, does: str) -> subprocess.CompletedProcess[str]:
        """Runs the gate with a shell's commands in the place of rt."""
        words = [self.top / "packaging" / "gate", self.kept, "sh", "-c", does]
        return subprocess.run(words, capture_output=True, text=True, check=False, cwd=self.top)

    def test_the_commit_and_the_last_line_are_kept(self) -> None:
        run = self.run_on(f"echo first; echo second >&2; echo '{LINE}'; echo")
        self.assertEqual((run.returncode, run.stdout), (0, f"first\nsecond\n{LINE}\n\n"))
        self.assertEqual(self.kept.read_text(), f"{self.git('rev-parse', 'HEAD')}{LINE}\n")

    def test_a_run_that_fails_takes_away_what_was_kept(self) -> None:
        self.run_on(f"echo '{LINE}'")
        self.assertTrue(self.kept.exists())
        self.assertEqual(self.run_on("echo '307 passed, 1 failed'; exit 1").returncode, 1)
        self.assertFalse(self.kept.exists())

    def test_nothing_is_kept_of_files_that_are_in_no_commit(self) -> None:
        for does in (f"echo '{LINE}'", f"touch new; echo '{LINE}'"):
            with self.subTest(does):
                (self.top / "new").touch()
                self.assertEqual(self.run_on(does).returncode, 0)
                self.assertFalse(self.kept.exists())
                (self.top / "new").unlink()

    def test_nothing_is_kept_where_files_change_while_it_runs(self) -> None:
        self.assertEqual(self.run_on(f"touch new; echo '{LINE}'").returncode, 0)
        self.assertFalse(self.kept.exists())

    def test_nothing_is_kept_outside_a_repository(self) -> None:
        shutil.rmtree(self.top / ".git")
        self.assertEqual(self.run_on(f"echo '{LINE}'").returncode, 0)
        self.assertFalse(self.kept.exists())

    def test_a_command_that_is_not_there(self) -> None:
        words = [self.top / "packaging" / "gate", self.kept, "no-such-command"]
        run = subprocess.run(words, capture_output=True, text=True, check=False)
        self.assertEqual((run.returncode, run.stdout), (127, ""))
        self.assertEqual(run.stderr, "packaging/gate: cannot run no-such-command: No such file or directory\n")


class Run(unittest.TestCase):
    """`.ci/run`, with stand-ins for what it calls, which print their words and fail if they are to."""

    def called(self, *failing: str) -> list[str]:
        folder = Path(self.enterContext(tempfile.TemporaryDirectory()))
        for name in ("python3", "apt-get", "make"):
            fails = "".join(f"'{words}'*) exit 1 ;; " for words in failing)
            (folder / name).write_text(f'#!/bin/sh\necho "{name} $1 $2"\ncase "{name} $*" in {fails}esac\n')
            (folder / name).chmod(0o755)
        words = {"PATH": f"{folder}:/usr/bin:/bin"}
        run = subprocess.run([TOP / ".ci" / "run"], capture_output=True, text=True, check=True, env=words)
        return run.stdout.splitlines()

    def test_the_libraries_of_the_tests_are_installed_only_where_they_are_missing(self) -> None:
        look, pip, update, install = ("python3 -c import", "python3 -m pip", "apt-get update", "apt-get install")

        def done(*failing: str) -> list[str]:
            first, *others = self.called(*failing)
            self.assertTrue(first.startswith(look))
            return [line for line in others if not line.startswith(look)]

        self.assertEqual(done(), ["make test "])
        self.assertEqual(done(look), [pip, "make test "])
        self.assertEqual(done(look, pip), [pip, f"{update} --quiet", f"{install} --quiet", "make test "])
        self.assertEqual(done("python3", "apt-get")[-1], "make test ")


class Sources(unittest.TestCase):
    def setUp(self) -> None:
        self.top = Path(self.enterContext(tempfile.TemporaryDirectory()))
        for name in ("HANDLES", "crates.txt", "crates/a/src/lib.rt", "crates/a/out/lib", "crates/a/must-fail/x.edit"):
            (self.top / name).parent.mkdir(parents=True, exist_ok=True)
            (self.top / name).write_text(name)

    def changed(self, name: str) -> bool:
        """Whether the digest is another once a file has something else in it, or is there."""
        digest = script("sources").digest
        before = digest(self.top)
        (self.top / name).parent.mkdir(parents=True, exist_ok=True)
        (self.top / name).write_text("other")
        return bool(digest(self.top) != before)

    def test_what_a_check_reads(self) -> None:
        for name in ("HANDLES", "crates.txt", "crates/a/src/lib.rt", "crates/a/proofs/A.antt", "crates/b/src/lib.rt"):
            with self.subTest(name):
                self.assertTrue(self.changed(name))

    def test_what_it_does_not_read(self) -> None:
        for name in ("crates/a/out/lib", "crates/a/must-fail/x.edit", "record/a.py"):
            with self.subTest(name):
                self.assertFalse(self.changed(name))


if __name__ == "__main__":
    unittest.main()
