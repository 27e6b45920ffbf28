"""The action for GitHub and the template for GitLab, run by a shell in a repository as docs/CI.md has it.

What is made up here: apt-get, which only notes what it is to install; the runner, of which the scripts see the
variables that GitHub and GitLab document; and `uses:`, which is not run. What the scripts call is real.
"""

from __future__ import annotations

import json
import os
import re
import shutil
import subprocess
import tempfile
import textwrap
import unittest
from collections.abc import Mapping
from pathlib import Path
from typing import Any
from xml.etree import ElementTree

from .places import TOP

try:
    import yaml
except ImportError:
    yaml = None

BUILT = TOP / "crates" / "landaudit" / "out" / "landaudit"
DOCUMENT = (TOP / "docs" / "CI.md").read_text(encoding="utf-8")
#: How GitHub runs a step with `shell: bash`, and how GitLab's runner runs a script where bash is there.
BASH = ("bash", "--noprofile", "--norc", "-eo", "pipefail")
NEEDS = {
    "python3-yaml is not installed": yaml is not None,
    "git is not installed": shutil.which("git") is not None,
    f"{BUILT} is not built": BUILT.exists(),
}
MISSING = ", ".join(why for why, is_there in NEEDS.items() if not is_there)
GIT = ("git", "-c", "user.name=me", "-c", "user.email=me@example.org")


def files() -> dict[str, str]:
    """The files that docs/CI.md names, with what is in them."""
    blocks = DOCUMENT.split("\n\n")
    found = {}
    for before, block in zip(blocks, blocks[1:]):
        if name := re.search(r"`app/([\w./-]+)`:\Z", before):
            found[name[1]] = textwrap.dedent(block) + "\n"
    return found


def example(begins: str) -> Any:
    """The block of YAML in docs/CI.md that begins with a word."""
    (block,) = (block for block in DOCUMENT.split("\n\n") if block.startswith(f"    {begins}:"))
    return yaml.safe_load(textwrap.dedent(block))


@unittest.skipIf(MISSING, MISSING)
class Jobs(unittest.TestCase):
    """The scripts, in a repository whose branch `base` has the policy of docs/CI.md."""

    def setUp(self) -> None:
        folder = Path(self.enterContext(tempfile.TemporaryDirectory())).resolve()
        self.app, self.stubs = folder / "app", folder / "stubs"
        for name, text in files().items():
            (self.app / name).parent.mkdir(parents=True, exist_ok=True)
            (self.app / name).write_text(text, encoding="utf-8")
        (self.app / "tests" / "run.sh").chmod(0o755)
        (self.app / "data").mkdir()
        (self.app / "data" / "greeting.txt").write_text("hello\n")
        (self.app / "landaudit.deb").write_text("")
        self.stubs.mkdir()
        for name in ("apt-get", "sudo"):
            (self.stubs / name).write_text(f'#!/bin/sh\necho "{name} $*" >> "{folder}/installed"\n')
            (self.stubs / name).chmod(0o755)
        self.installed = folder / "installed"
        self.git("init", "-q", "-b", "main")
        self.git("commit", "-q", "--allow-empty", "-m", "nothing")
        self.git("branch", "empty")
        self.git("add", "sandbox", "tests", "data")
        self.git("commit", "-q", "-m", "first")
        self.git("branch", "base")
        self.folder = folder

    def git(self, *words: str) -> None:
        subprocess.run([*GIT, "-C", self.app, *words], check=True)

    def change(self, name: str, old: str, new: str) -> None:
        text = (self.app / name).read_text(encoding="utf-8")
        self.assertIn(old, text)
        (self.app / name).write_text(text.replace(old, new), encoding="utf-8")

    def shell(self, words: tuple[str, ...], script: str, variables: Mapping[str, str]) -> tuple[int, str]:
        """The status of a script, and what it prints."""
        path = f"{self.stubs}:{TOP / 'record'}:{BUILT.parent}:{BUILT.parents[2] / 'landaudit_rules' / 'out'}"
        (self.folder / "script").write_text(script, encoding="utf-8")
        kept = {name: value for name, value in os.environ.items() if not name.startswith("LANDAUDIT_")}
        run = subprocess.run(
            [*words, self.folder / "script"], cwd=self.app, stdout=subprocess.PIPE, stderr=subprocess.STDOUT, text=True,
            check=False, env={**kept, "PATH": f"{path}:{os.environ['PATH']}", **variables})
        return run.returncode, run.stdout

    def on_github(self, **inputs: str) -> tuple[int, str]:
        """The status and the output of the action's steps, up to the first that fails."""
        action = yaml.safe_load((TOP / "packaging" / "action.yml").read_text(encoding="utf-8"))
        given = {name: inputs.get(name, it.get("default")) for name, it in action["inputs"].items()}
        out = ""
        for step in action["runs"]["steps"]:
            self.assertEqual(step["shell"], "bash")
            variables = {name: given[re.fullmatch(r"\$\{\{ inputs\.(\w+) \}\}", value)[1]]
                         for name, value in step["env"].items()}
            summary = {"GITHUB_STEP_SUMMARY": str(self.folder / "summary.md")}
            status, said = self.shell(BASH, step["run"], {**variables, **summary})
            out += said
            if status:
                return status, out
        return 0, out

    def on_gitlab(self, words: tuple[str, ...] = BASH, **variables: str) -> tuple[int, str]:
        """The status and the output of the template's scripts, by a shell."""
        job = yaml.safe_load((TOP / "packaging" / "gitlab.yml").read_text(encoding="utf-8"))[".landaudit"]
        script = "\n".join([*job["before_script"], *job["script"]])
        return self.shell(words, script, {**job["variables"], **variables})

    def given(self, *left_out: str) -> dict[str, str]:
        """The inputs of the action in docs/CI.md, with the branch that is here."""
        steps = example("name")["jobs"]["policy"]["steps"]
        (given,) = (step["with"] for step in steps if step.get("uses", "").startswith("./"))
        return {name: value for name, value in {**given, "base": "base"}.items() if name not in left_out}

    def variables(self, *left_out: str) -> dict[str, str]:
        """The same for GitLab."""
        given = {**example("include")["policy"]["variables"], "LANDLOCK_BASE": "base"}
        return {name: value for name, value in given.items() if name not in left_out}

    def test_what_the_page_gives_is_what_the_files_take(self) -> None:
        action = yaml.safe_load((TOP / "packaging" / "action.yml").read_text(encoding="utf-8"))["inputs"]
        job = yaml.safe_load((TOP / "packaging" / "gitlab.yml").read_text(encoding="utf-8"))[".landaudit"]["variables"]
        self.assertLessEqual(set(self.given()), set(action))
        self.assertLessEqual({name for name, it in action.items() if it.get("required")}, set(self.given()))
        self.assertLessEqual(set(self.variables()), set(job))

    def test_a_policy_that_passes(self) -> None:
        status, out = self.on_github(**self.given("tests"))
        self.assertEqual(status, 0, out)
        summary = (self.folder / "summary.md").read_text(encoding="utf-8")
        self.assertEqual(re.findall(r"^### landaudit-policy (\w+)", summary, re.M), ["check", "diff"])
        reports = sorted((self.app / "build" / "landaudit").glob("*.sarif"))
        self.assertEqual([report.stem for report in reports], ["check", "diff"])
        for report in reports:
            self.assertEqual(json.loads(report.read_text(encoding="utf-8"))["runs"][0]["results"], [])
        self.assertIn(f"install -q -y git strace {self.app}/landaudit.deb", self.installed.read_text())

    def test_a_policy_that_passes_at_gitlab(self) -> None:
        for words in (BASH, ("sh", "-e")):
            status, out = self.on_gitlab(words, **self.variables("LANDLOCK_TESTS"))
            self.assertEqual(status, 0, out)
            self.assertIn("ok 1 - refused: open r /etc/shadow", out)
            for name in ("check", "diff"):
                found = ElementTree.parse(self.app / "build" / "landaudit" / f"{name}.xml").getroot()
                self.assertEqual(found.get("failures"), "0")

    def test_a_policy_that_allows_more(self) -> None:
        """Both checks fail, and both are told: the second runs after the first has failed."""
        self.change("sandbox/policy.toml", "/etc/ld.so.cache", "/etc")
        status, out = self.on_github(**self.given("tests"))
        self.assertEqual(status, 1, out)
        told = re.findall(r"^::error file=([\w./]+),line=(\d+),.*title=landaudit-policy (\w+)", out, re.M)
        line = files()["sandbox/policy.toml"].splitlines().index('parent = "/etc/ld.so.cache"')
        self.assertEqual({(file, name) for file, _, name in told},
                         {("sandbox/policy.toml", "check"), ("sandbox/policy.toml", "diff")})
        self.assertEqual({number for _, number, _ in told}, {str(line - 1)})
        accepted = '[[accepted]]\nrights = ["read"]\nunder = "/etc"\nreason = "it is new"\n'
        (self.app / "accepted.toml").write_text(accepted)
        status, out = self.on_github(**self.given("tests", "cases"), accepted="accepted.toml")
        self.assertEqual(status, 0, out)
        self.assertEqual(self.on_gitlab(**self.variables("LANDLOCK_TESTS"))[0], 1)

    @unittest.skipUnless(shutil.which("strace"), "strace is not installed")
    def test_a_test_that_the_policy_would_break(self) -> None:
        with (self.app / "tests" / "run.sh").open("a") as script:
            script.write("cat /etc/hostname\n")
        status, out = self.on_github(**self.given("cases", "base"))
        self.assertEqual(status, 1, out)
        self.assertRegex(out, r"(?m)^::error file=sandbox/policy.toml,line=1,.*::open r /etc/hostname: refused")
        status, out = self.on_gitlab(**self.variables("LANDLOCK_CASES", "LANDLOCK_BASE"))
        self.assertEqual(status, 1, out)
        found = ElementTree.parse(self.app / "build" / "landaudit" / "audit.xml").getroot()
        self.assertIn("open r /etc/hostname", [case.get("name") for case in found.iter("testcase")])

    @unittest.skipUnless(shutil.which("strace"), "strace is not installed")
    def test_tests_that_fail_fail_the_job(self) -> None:
        given = {**self.given("cases", "base"), "tests": "exit 7"}
        self.assertEqual(self.on_github(**given)[0], 7)

    def test_a_base_without_the_policy(self) -> None:
        status, out = self.on_github(**{**self.given("tests"), "base": "empty"})
        self.assertEqual(status, 0, out)
        self.assertIn("empty has no sandbox/policy.toml: nothing to compare with", out)

    def test_a_base_that_is_not_there_fails_the_job(self) -> None:
        for status, out in (self.on_github(**{**self.given("tests"), "base": "origin/gone"}),
                            self.on_gitlab(("sh", "-e"), **{**self.variables(), "LANDLOCK_BASE": "origin/gone"})):
            self.assertNotEqual(status, 0)
            self.assertIn("origin/gone", out)

    def test_a_package_that_is_not_there_fails_the_job(self) -> None:
        for status, out in (self.on_github(**{**self.given(), "package": "gone.deb"}),
                            self.on_gitlab(**{**self.variables(), "LANDLOCK_PACKAGE": "gone.deb"})):
            self.assertNotEqual(status, 0)
            self.assertIn("gone.deb", out)
        self.assertFalse(self.installed.exists())

    def test_it_runs_again_where_it_ran_before(self) -> None:
        for _ in range(2):
            status, out = self.on_github(**self.given("tests"))
            self.assertEqual(status, 0, out)


if __name__ == "__main__":
    unittest.main()
