"""`make install` and `make uninstall` in a scratch root."""

from __future__ import annotations

import os
import shutil
import subprocess
import tempfile
import unittest
from pathlib import Path

from landaudit_record import VERSION

from .places import BUILT, TOP
from .test_completions import Zsh

#: Stands for the program where it isn't built: says so, and where it was run from.
STAND_IN = '#!/bin/sh\necho "landaudit: a stand-in at $0" >&2\nexit 4\n'
#: A kept log of strace, which converts without strace.
LOG = TOP / "record" / "tests" / "logs" / "forks"
COMMANDS = ("landaudit", "landaudit-rules", "landaudit-record", "landaudit-policy")
BASH_COMPLETION = Path("/usr/share/bash-completion/bash_completion")


def files(root: Path) -> set[str]:
    """What is under a folder and is no folder."""
    return {str(path.relative_to(root)) for path in root.rglob("*") if path.is_symlink() or not path.is_dir()}


def everything(root: Path) -> dict[str, int]:
    """All that is under a folder, with its mode."""
    return {str(path.relative_to(root)): path.lstat().st_mode for path in root.rglob("*")}


class Install(unittest.TestCase):
    def setUp(self) -> None:
        self.root = Path(self.enterContext(tempfile.TemporaryDirectory()))
        self.stand_in = self.root / "stand-in"
        self.stand_in.write_text(STAND_IN, encoding="utf-8")
        self.stand_in.chmod(0o755)
        self.scratch = self.root / "scratch root"
        self.prefix = self.scratch / "opt" / "landaudit"

    def make(self, target: str, *variables: str) -> subprocess.CompletedProcess[str]:
        """Runs make under the scratch root; the program is a stand-in unless another is named."""
        words = ["make", "-C", TOP, "--no-print-directory", target, f"DESTDIR={self.scratch}", "PREFIX=/opt/landaudit"]
        words += (f"RULES={self.stand_in}", *(variables or (f"PROGRAM={self.stand_in}",)))
        environment = {name: value for name, value in os.environ.items() if not name.startswith("MAKE")}
        return subprocess.run(words, capture_output=True, text=True, check=False, env=environment)

    def test_what_goes_where(self) -> None:
        self.assertEqual(self.make("install").returncode, 0)
        modules = [path.relative_to(TOP / "record") for path in (TOP / "record" / "landaudit_record").rglob("*")
                   if path.is_file() and path.suffix != ".pyc"]
        self.assertIn(Path("landaudit_record/policy/groups/base.toml"), modules)
        self.assertEqual(
            files(self.prefix),
            {
                "bin/landaudit",
                "bin/landaudit-rules",
                "bin/landaudit-record",
                "bin/landaudit-policy",
                "share/landaudit/landaudit-record",
                "share/landaudit/landaudit-policy",
                "share/landaudit/action.yml",
                "share/landaudit/gitlab.yml",
                "share/landaudit/audit.schema.json",
                "share/landaudit/denials.schema.json",
                "share/landaudit/policy.schema.json",
                "share/landaudit/check.schema.json",
                "share/landaudit/lint.schema.json",
                "share/landaudit/diff.schema.json",
                "share/landaudit/recording.schema.json",
                "share/man/man1/landaudit.1",
                "share/man/man1/landaudit-rules.1",
                "share/man/man1/landaudit-record.1",
                "share/man/man1/landaudit-policy.1",
                "share/man/man5/landaudit.5",
                "share/bash-completion/completions/landaudit",
                "share/bash-completion/completions/landaudit-rules",
                "share/bash-completion/completions/landaudit-record",
                "share/bash-completion/completions/landaudit-policy",
                "share/zsh/site-functions/_landaudit",
                "share/zsh/site-functions/_landaudit-rules",
                "share/zsh/site-functions/_landaudit-record",
                "share/zsh/site-functions/_landaudit-policy",
                "share/fish/vendor_completions.d/landaudit.fish",
                "share/fish/vendor_completions.d/landaudit-rules.fish",
                "share/fish/vendor_completions.d/landaudit-record.fish",
                "share/fish/vendor_completions.d/landaudit-policy.fish",
                *(f"share/landaudit/{module}" for module in modules),
            },
        )
        self.assertEqual(files(self.scratch), {f"opt/landaudit/{file}" for file in files(self.prefix)})
        self.assertEqual((self.prefix / "bin" / "landaudit").read_text(encoding="utf-8"), STAND_IN)
        self.assertTrue(os.access(self.prefix / "bin" / "landaudit", os.X_OK))
        self.assertTrue(os.access(self.prefix / "bin" / "landaudit-rules", os.X_OK))

    def test_the_recorder_finds_its_modules_and_landaudit(self) -> None:
        self.make("install")
        recorder = self.prefix / "bin" / "landaudit-record"
        self.assertEqual(self.said(recorder, "--version"), (0, f"landaudit-record {VERSION}\n"))
        self.assertEqual(self.said(recorder, "--help")[0], 0)
        self.assertEqual(self.said(self.prefix / "bin" / "landaudit-policy", "--version")[0], 0)
        recording = shutil.copytree(LOG, self.root / "recording")
        self.assertEqual(self.said(recorder, "convert", recording)[0], 0)
        status, text = self.said(recorder, "audit", recording, "--as-recorded")
        self.assertEqual(status, 4)
        self.assertIn(f"landaudit: a stand-in at {self.prefix}/bin/landaudit ", text)

    def test_the_groups_of_rules_are_found(self) -> None:
        self.make("install")
        policy = self.root / "policy.toml"
        policy.write_text('[[layer]]\nhandled_access_fs = ["read_file"]\ninclude = ["base"]\n', encoding="utf-8")
        status, text = self.said(self.prefix / "bin" / "landaudit-policy", "export", policy, "--json")
        self.assertEqual(status, 0)
        self.assertIn('"/etc/ld.so.cache"', text)

    @unittest.skipUnless(BUILT.exists(), f"{BUILT} is not built")
    def test_the_proved_program(self) -> None:
        self.assertEqual(self.make("install", f"PROGRAM={BUILT}").returncode, 0)
        self.assertEqual((self.prefix / "bin" / "landaudit").read_bytes(), BUILT.read_bytes())
        recording = shutil.copytree(LOG, self.root / "recording")
        recorder = self.prefix / "bin" / "landaudit-record"
        self.assertEqual(self.said(recorder, "convert", recording)[0], 0)
        self.assertIn(self.said(recorder, "audit", recording, "--as-recorded")[0], (0, 1))

    @unittest.skipUnless(shutil.which("man"), "man is not installed")
    def test_man_finds_the_pages(self) -> None:
        self.make("install")
        for number, name in (*(("1", command) for command in COMMANDS), ("5", "landaudit")):
            with self.subTest(name):
                found = self.said("man", "-M", self.prefix / "share" / "man", "-w", number, name)
                self.assertEqual(found, (0, f"{self.prefix}/share/man/man{number}/{name}.{number}\n"))

    @unittest.skipUnless(BASH_COMPLETION.exists(), "bash-completion is not installed")
    def test_bash_finds_the_completions(self) -> None:
        self.make("install")
        code = f". {BASH_COMPLETION}; for c in {' '.join(COMMANDS)}; do _completion_loader $c; complete -p $c; done"
        status, text = self.said("bash", "--norc", "-c", code, XDG_DATA_DIRS=f"{self.prefix}/share")
        self.assertEqual(status, 0)
        wanted = (f".* -F _{command.replace('-', '_')} {command}\n" for command in COMMANDS)
        self.assertRegex(text, rf"\A{''.join(wanted)}\Z")

    @unittest.skipUnless(shutil.which("fish"), "fish is not installed")
    def test_fish_finds_the_completions(self) -> None:
        self.make("install")
        places = {"XDG_DATA_DIRS": f"{self.prefix}/share", "PATH": f"{self.prefix}/bin:{os.environ['PATH']}"}
        self.assertIn("--grain\t", self.said("fish", "-c", "complete -C 'landaudit --'", **places)[1])
        self.assertIn("suggest\t", self.said("fish", "-c", "complete -C 'landaudit-record '", **places)[1])
        self.assertIn("confine\t", self.said("fish", "-c", "complete -C 'landaudit-policy '", **places)[1])

    @unittest.skipUnless(shutil.which("zsh"), "zsh is not installed")
    def test_zsh_finds_the_completions(self) -> None:
        self.make("install")
        zsh = Zsh(self.prefix / "share" / "zsh" / "site-functions")
        self.addCleanup(zsh.close)
        self.assertIn("--grain", zsh("landaudit --"))
        self.assertIn("suggest", zsh("landaudit-record "))
        self.assertIn("confine", zsh("landaudit-policy "))

    def test_nothing_is_left(self) -> None:
        for folder in ("bin", "share/man/man1"):
            (self.prefix / folder).mkdir(parents=True)
        (self.prefix / "bin" / "other").touch()
        (self.prefix / "bin").chmod(0o2775)
        before = everything(self.scratch)
        self.make("install")
        # A run leaves compiled modules beside the modules.
        self.said(self.prefix / "bin" / "landaudit-record", "--help")
        self.assertEqual(self.make("uninstall").returncode, 0)
        self.assertEqual(files(self.scratch), {"opt/landaudit/bin/other"})
        after = everything(self.scratch)
        self.assertEqual({path: after[path] for path in before}, before)
        self.assertEqual({path for path in after if path.endswith("/landaudit")}, {"opt/landaudit"})

    def test_a_second_install_leaves_no_module_of_the_first(self) -> None:
        self.make("install")
        gone = self.prefix / "share" / "landaudit" / "landaudit_record" / "gone.py"
        gone.touch()
        self.make("install")
        self.assertFalse(gone.exists())

    def test_without_the_program_nothing_is_installed(self) -> None:
        for absent in (("PROGRAM",), ("RULES",)):
            run = self.make("install", f"PROGRAM={self.stand_in}", *(f"{word}={self.root}/absent" for word in absent))
            self.assertEqual(run.returncode, 2)
            self.assertEqual(len(run.stderr.splitlines()), 1)
            self.assertIn("landaudit is not built: run 'make landaudit' first", run.stderr)
            self.assertFalse(self.scratch.exists())

    def test_uninstall_where_nothing_is(self) -> None:
        self.assertEqual(self.make("uninstall").returncode, 0)
        self.assertFalse(self.scratch.exists())

    def said(self, *words: str | Path, **variables: str) -> tuple[int, str]:
        """The status of a command, and what it prints to either output."""
        run = subprocess.run(
            words,
            stdout=subprocess.PIPE,
            stderr=subprocess.STDOUT,
            text=True,
            check=False,
            env={**os.environ, "HOME": str(self.root), **variables},
        )
        return run.returncode, run.stdout


if __name__ == "__main__":
    unittest.main()
