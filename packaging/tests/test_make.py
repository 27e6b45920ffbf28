"""What `make example` and `make landaudit` do, with a stand-in for rt, which would take minutes."""

from __future__ import annotations

import os
import subprocess
import tempfile
import unittest
from pathlib import Path

from .places import TOP

EXAMPLE = TOP / "examples" / "first-path"

#: Says on standard error how it was called, and does what the test asks for.
STAND_IN = '#!/bin/sh\necho "a stand-in for rt, in ${PWD##*/}: $*" >&2\n%s\n'


class Make(unittest.TestCase):
    def setUp(self) -> None:
        self.folder = Path(self.enterContext(tempfile.TemporaryDirectory()))

    def make(self, does: str, *words: str) -> subprocess.CompletedProcess[str]:
        """Runs make with a stand-in for rt that does this."""
        stand_in = self.folder / "rt"
        stand_in.write_text(STAND_IN % does, encoding="utf-8")
        stand_in.chmod(0o755)
        environment = {name: value for name, value in os.environ.items() if not name.startswith("MAKE")}
        environment["PATH"] = f"{self.folder}:{environment['PATH']}"
        words = ("make", "--no-print-directory", *words)
        return subprocess.run(words, capture_output=True, text=True, check=False, env=environment, cwd=TOP)


class Example(Make):
    def test_the_example_says_that_it_builds(self) -> None:
        run = self.make('cat "$4" "$5" "$6"; exit 1', "example")
        begun = "building landaudit without its proofs, to audit examples/first-path/trace.jsonl: a minute or two\n"
        self.assertEqual((run.returncode, run.stderr), (0, begun))

    def test_it_is_given_the_files_of_the_example(self) -> None:
        run = self.make('printf "%s\\n" "$@"', "example")
        trace = (EXAMPLE / "trace.jsonl").resolve()
        self.assertEqual(run.stdout.split(), ["try", "--", "--abi", "4", f"{trace.parent}/tree.jsonl", f"{trace}"])

    def test_files_of_ones_own(self) -> None:
        tree, trace = self.folder / "own tree", self.folder / "own trace"
        tree.touch()
        trace.touch()
        run = self.make('printf "%s\\n" "$@"', "example", f"TREE={tree}", f"TRACE={trace}", "ABI=1")
        self.assertEqual(run.stdout.splitlines(), ["try", "--", "--abi", "1", f"{tree}", f"{trace}"])
        self.assertEqual(run.returncode, 0)

    def test_a_file_that_is_not_there_is_told_before_anything_is_built(self) -> None:
        for word in ("TREE", "TRACE"):
            run = self.make("exit 0", "example", f"{word}={self.folder}/absent")
            self.assertEqual(run.returncode, 2)
            self.assertTrue(run.stderr.startswith(f"realpath: {self.folder}/absent: No such file or directory\n"))
            self.assertNotIn("building", run.stderr)

    def test_a_fault_of_a_file_is_its_line_alone(self) -> None:
        run = self.make('echo "landaudit: tree line 3: Json" >&2; exit 3', "example")
        self.assertEqual(run.returncode, 2)
        self.assertIn("\nlandaudit: tree line 3: Json\nmake: ", run.stderr)
        self.assertNotIn("stand-in", run.stderr)

    def test_a_build_that_fails_shows_all_that_rt_said(self) -> None:
        run = self.make("exit 101", "example")
        self.assertEqual(run.returncode, 2)
        self.assertIn("a stand-in for rt, in landaudit: try -- --abi 4 ", run.stderr)


class Landaudit(Make):
    def test_a_line_for_each_crate(self) -> None:
        lines = ("crate ll_rights: modules loaded=0", "logic=proved functions=62 sum=0", "Usage: landaudit")
        check, rules = self.folder / "check.txt", self.folder / "rules.txt"
        run = self.make("\n".join(f"echo '{line}'" for line in lines), "landaudit", f"CHECK={check}", f"RULES_CHECK={rules}")
        self.assertEqual((run.returncode, run.stderr), (0, ""))
        for kept in (check, rules):
            self.assertEqual(kept.read_text(encoding="utf-8").splitlines()[-2:], list(lines[:2]))
        lines = run.stdout.splitlines()
        for line in (lines[1], lines[3]):
            self.assertRegex(line, r"\All_rights     62 functions proved in (\d+ min )?\d+ s\Z")
        self.assertEqual(len(lines), 6)
        self.assertIn("crates/landaudit/out/landaudit and crates/landaudit_rules/out/landaudit_rules are there", lines[5])

    def test_a_crate_that_is_not_proved(self) -> None:
        run = self.make("echo 'logic=unproved'; exit 1", "landaudit", f"CHECK={self.folder}/check.txt",
                        f"RULES_CHECK={self.folder}/rules.txt")
        self.assertEqual(run.returncode, 2)
        self.assertIn("a stand-in for rt, in landaudit: run -- --help\nlogic=unproved\n", run.stderr)
        self.assertNotIn("are there", run.stdout)


if __name__ == "__main__":
    unittest.main()
