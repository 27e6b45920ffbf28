"""landaudit-witness: its page, its completions and its build, which says what is missing."""

from __future__ import annotations

import os
import re
import shutil
import subprocess
import tempfile
import unittest
from pathlib import Path

from .places import COMPLETIONS, MAN, TOP
from .test_completions import Zsh
from .test_options import flags, items, section
from .test_packages import OF_DEBIAN, ran, stand_in

WITNESS = TOP / "witness"
SOURCE = (WITNESS / "witness.c").read_text(encoding="utf-8")
#: The options that the source reads, beside the dashes before a command.
OPTIONS = {f"--{name}" for name in re.findall(r'\{"([\w-]+)", (?:no|required)_argument', SOURCE)} | {"-h"}
BASH = """
source "$1/landaudit-witness.bash"
read -ra COMP_WORDS <<< "$2"
COMP_CWORD=$((${#COMP_WORDS[@]} - 1))
_landaudit_witness
printf '%s\\n' "${COMPREPLY[@]}"
"""


def made(*words: str, **variables: str) -> subprocess.CompletedProcess[str]:
    """What make does in the folder of the witness."""
    environment = {name: value for name, value in os.environ.items() if not name.startswith("MAKE")}
    command = ["make", "--no-print-directory", "-C", str(WITNESS), *words]
    return subprocess.run(command, capture_output=True, text=True, check=False, env={**environment, **variables})


class Options(unittest.TestCase):
    def test_the_source_has_the_options_of_its_page(self) -> None:
        page = (MAN / "landaudit-witness.1").read_text(encoding="utf-8")
        self.assertEqual(OPTIONS, {"--by", "--beside", "--children", "--pid", "--cgroup", "--landlock", "--help", "-h"})
        self.assertEqual(items(page), OPTIONS)
        self.assertEqual(flags(section(page, "SYNOPSIS")), OPTIONS)

    def test_the_usage_names_them(self) -> None:
        usage = SOURCE.partition("static const char usage[]")[2].partition(";\n")[0]
        self.assertEqual(set(re.findall(r"--\w+", usage)), OPTIONS - {"--help", "-h"})

    @unittest.skipUnless(shutil.which("bash"), "bash is not installed")
    def test_bash(self) -> None:
        words = ["bash", "--norc", "-c", BASH, "bash", str(COMPLETIONS), "landaudit-witness -"]
        run = subprocess.run(words, capture_output=True, text=True, check=True)
        self.assertEqual(set(run.stdout.split()), OPTIONS | {"--"})

    @unittest.skipUnless(shutil.which("fish"), "fish is not installed")
    def test_fish(self) -> None:
        code = f"source {COMPLETIONS}/landaudit-witness.fish; complete -C 'landaudit-witness -'"
        run = subprocess.run(["fish", "--no-config", "-c", code], capture_output=True, text=True, check=True)
        self.assertEqual({line.partition("\t")[0] for line in run.stdout.splitlines()}, OPTIONS)

    @unittest.skipUnless(shutil.which("zsh"), "zsh is not installed")
    def test_zsh(self) -> None:
        zsh = Zsh(COMPLETIONS)
        self.addCleanup(zsh.close)
        self.assertEqual(zsh("landaudit-witness -"), OPTIONS)


class Hooks(unittest.TestCase):
    def test_each_hook_that_is_heard_is_documented(self) -> None:
        heard = set(re.findall(r"^SEC\(\"fexit/security_(\w+)\"\)", self.programs(), re.MULTILINE))
        semantics = (TOP / "docs" / "SEMANTICS.md").read_text(encoding="utf-8")
        table = semantics.partition("## Which calls ask Landlock")[2].partition("\n\n**")[0]
        unheard = semantics.partition("The witness does not hear")[2].partition(".")[0]
        first = [row.split("|")[1] for row in table.splitlines() if row.startswith("| `")]
        asked = set(re.findall(r"`([a-z]\w+)`", " ".join(first)))
        not_heard = set(re.findall(r"`([a-z]\w+)`", unheard))
        self.assertLess(not_heard, asked)
        self.assertEqual(heard, asked - not_heard)

    def programs(self) -> str:
        return (WITNESS / "witness.bpf.c").read_text(encoding="utf-8")


class Build(unittest.TestCase):
    def test_what_is_missing_is_named(self) -> None:
        self.assertIn("clang", made("missing", "CLANG=absent").stdout.split())
        run = made("out/witness.bpf.o", "--always-make", "CLANG=absent")
        self.assertEqual(run.returncode, 2)
        self.assertIn("landaudit-witness is not built: Debian packages are missing: clang", run.stderr)

    def test_wrong_words_and_no_capabilities_are_told(self) -> None:
        """The loader is tried where it is built; its programs need capabilities that nobody in a user namespace has."""
        program = WITNESS / "out" / "landaudit-witness"
        if not program.is_file():
            self.skipTest("the witness is not built")
        run = subprocess.run([program, "--by", "nothing"], capture_output=True, text=True, check=False)
        self.assertEqual((run.returncode, run.stderr.splitlines()[0][:6]), (2, "usage:"))
        with tempfile.TemporaryDirectory() as folder:
            words = ["unshare", "--user", str(program), f"{folder}/out", "--", "true"]
            run = subprocess.run(words, capture_output=True, text=True, check=False)
            if "unshare" in run.stderr:
                self.skipTest("no user namespace can be made")
            self.assertEqual(run.returncode, 4)
            self.assertIn("only root, or who has CAP_BPF and CAP_PERFMON", run.stderr)
            self.assertEqual(list(Path(folder).iterdir()), [])


class Package(unittest.TestCase):
    """`make witness-deb`, with a small program in the place of the witness."""

    def setUp(self) -> None:
        if OF_DEBIAN:
            self.skipTest(OF_DEBIAN)
        self.folder = Path(self.enterContext(tempfile.TemporaryDirectory())).resolve()

    def make(self, program: Path) -> subprocess.CompletedProcess[str]:
        """Makes the package."""
        return ran("make", "--no-print-directory", "witness-deb", f"WITNESS={program}", f"PACKAGES={self.folder}/out")

    def test_what_it_has(self) -> None:
        witness = stand_in(self.folder)
        shutil.copy(witness, witness.with_name("landaudit-quiet.so"))
        run = self.make(witness)
        self.assertEqual(run.returncode, 0, run.stderr)
        (package,) = (self.folder / "out").iterdir()
        listed = subprocess.run(["dpkg-deb", "-c", package], capture_output=True, text=True, check=True).stdout
        files = {line.split()[-1] for line in listed.splitlines() if line.startswith("-")}
        self.assertEqual(files, {
            "./usr/bin/landaudit-witness",
            "./usr/lib/landaudit/landaudit-quiet.so",
            "./usr/share/bash-completion/completions/landaudit-witness",
            "./usr/share/doc/landaudit-witness/changelog.gz",
            "./usr/share/doc/landaudit-witness/copyright",
            "./usr/share/fish/vendor_completions.d/landaudit-witness.fish",
            "./usr/share/man/man1/landaudit-witness.1.gz",
            "./usr/share/zsh/vendor-completions/_landaudit-witness",
        })
        about = subprocess.run(["dpkg-deb", "-f", package], capture_output=True, text=True, check=True).stdout
        self.assertIn("Package: landaudit-witness\n", about)
        self.assertRegex(about, r"\nDepends: libc6 ")

    def test_no_witness_or_no_library(self) -> None:
        for program in (self.folder / "absent", stand_in(self.folder)):
            run = self.make(program)
            self.assertEqual(run.returncode, 2)
            self.assertIn("landaudit-witness is not built: run 'make witness' first", run.stderr)
