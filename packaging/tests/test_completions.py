"""Completions offer exactly the options and subcommands of the programs, in each shell that is installed."""

from __future__ import annotations

import os
import pty
import re
import select
import shlex
import shutil
import subprocess
import tempfile
import unittest
from pathlib import Path

from landaudit_record import cli
from landaudit_record.common.rights import LATEST_ABI, NEWEST_ABI, OLDEST_ABI

from . import options
from .places import COMPLETIONS, script



def versions(newest: int) -> tuple[set[str], set[str]]:
    """The versions of Landlock's interface up to one, and the ranges of them."""
    known = range(OLDEST_ABI, newest + 1)
    return set(map(str, known)), {f"{first}-{last}" for first in known for last in known if first < last}


ABIS, RANGES = versions(LATEST_ABI)

BASH = """
source "$1/landaudit.bash"
source "$1/landaudit-rules.bash"
source "$1/landaudit-record.bash"
source "$1/landaudit-policy.bash"
read -ra COMP_WORDS <<< "$2"
[[ $2 == *' ' ]] && COMP_WORDS+=('')
COMP_CWORD=$((${#COMP_WORDS[@]} - 1))
eval "_${COMP_WORDS[0]//-/_}"
printf '%s\\n' "${COMPREPLY[@]}"
"""
FISH = "for file in $argv[1]/*.fish; source $file; end; complete -C $argv[2]"

#: Completions are added by compadd, which here also prints what it adds; with -O, -A or -D it adds nothing.
#: The end is told when the line editor begins too: up to then the terminal itself would obey a Control-U.
ZSH = """
autoload -Uz compinit; compinit -u -D
compadd() {
    if [[ "${@[1,(i)(-|--)]}" == *-(O|A|D)* ]]; then builtin compadd "$@"; return; fi
    local -a matches
    builtin compadd -A matches "$@"
    builtin compadd "$@"
    local added=$?
    print -rn -- "<match "${^matches}">"
    return added
}
the_end() { compstate[insert]=; compstate[list]=; print -rn -- 'the' 'end'; comppostfuncs=(the_end) }
comppostfuncs=(the_end)
zle-line-init() { print -rn -- 'the' 'end' }; zle -N zle-line-init
"""


def bash(line: str) -> set[str]:
    """What bash offers, by the functions that it calls."""
    run = subprocess.run(
        ["bash", "--norc", "-c", BASH, "bash", COMPLETIONS, line], capture_output=True, text=True, check=True
    )
    return set(run.stdout.split())


def fish(line: str) -> set[str]:
    """What fish offers."""
    run = subprocess.run(
        ["fish", "--no-config", "-c", FISH, COMPLETIONS, line], capture_output=True, text=True, check=True
    )
    return {found.partition("\t")[0] for found in run.stdout.splitlines()}


class Zsh:
    """A zsh on a terminal, since it completes nowhere else; it prints each match, and a word at the end."""

    def __init__(self, folder: Path) -> None:
        self._child, self._terminal = pty.fork()
        if self._child == 0:
            os.execvp("zsh", ["zsh", "-f", "-i"])
        self._send(f"fpath=({shlex.quote(str(folder))} $fpath)\n{ZSH}")

    def __call__(self, line: str) -> set[str]:
        """What zsh offers. The line is killed afterwards (Control-U)."""
        found = self._send(f"{line}\t\x15")
        return {match.rstrip("=") for match in re.findall(r"<match (.*?)>", found)}

    def close(self) -> None:
        """Ends the shell."""
        os.close(self._terminal)
        os.waitpid(self._child, 0)

    def _send(self, text: str) -> str:
        """Sends text to the terminal, and returns what comes back up to the end, for which it waits ten seconds."""
        os.write(self._terminal, text.encode())
        found = ""
        while "the end" not in found and select.select([self._terminal], [], [], 10)[0]:
            found += os.read(self._terminal, 65536).decode(errors="replace")
        return found


class Generated(unittest.TestCase):
    def test_the_files_of_programs_with_subcommands(self) -> None:
        for name, text in script("completions").made().items():
            with self.subTest(name):
                made = (COMPLETIONS / name).read_text(encoding="utf-8")
                self.assertEqual(made, text, "call packaging/completions completions")


class Asked:
    """What each shell must offer."""

    #: What a folder has, and what of it can be a policy.
    files = {"directory", "a.toml", "b.log"}
    policies = {"directory", "a.toml"}

    def offered(self, line: str) -> set[str]:
        """What the shell offers for the last word of a line."""
        raise NotImplementedError

    def assert_offers(self, line: str, wanted: set[str]) -> None:
        """Sees what the shell offers."""
        with self.subTest(line):
            self.assertEqual(self.offered(line), wanted)

    def assert_names(self, line: str, wanted: set[str]) -> None:
        """Sees what names of files the shell offers; some give them with their directory."""
        with self.subTest(line):
            self.assertEqual({Path(name).name for name in self.offered(line)}, wanted)

    def test_the_options_of_landaudit(self) -> None:
        self.assert_offers("landaudit -", options.of_landaudit() | {"-"})
        self.assert_offers("landaudit-rules -", options.of_rules() | {"-"})

    def test_the_abis_of_landaudit_and_ranges_of_them(self) -> None:
        self.assert_offers("landaudit --abi ", set.union(*versions(NEWEST_ABI)))

    def test_the_subcommands(self) -> None:
        for program in options.SCRIPTS:
            self.assert_offers(f"{program.name} ", set(options.subcommands(program)))

    def test_the_options_before_a_subcommand(self) -> None:
        for program in options.SCRIPTS:
            self.assert_offers(f"{program.name} -", options.before_a_subcommand(program))

    def test_the_options_of_each_subcommand(self) -> None:
        for program in options.SCRIPTS:
            for name, having in options.subcommands(program).items():
                self.assert_offers(f"{program.name} {name} -", having)

    def test_a_folder_named_as_a_subcommand(self) -> None:
        self.assert_offers("landaudit-record convert run -", options.subcommands(cli.RECORD)["convert"])

    def test_the_abis_of_one_kernel(self) -> None:
        for words in ("record suggest rec", "record apply p.toml rec", "record compare rec", "record run rec",
                      "policy confine p.toml"):
            self.assert_offers(f"landaudit-{words} --abi ", ABIS)

    def test_the_styles_of_suggestions(self) -> None:
        self.assert_offers("landaudit-record suggest rec --style ", {"exact", "base"})

    def test_the_recorders(self) -> None:
        self.assert_offers("landaudit-record run rec --by ", {"strace", "witness"})

    def test_names_of_files(self) -> None:
        folder = Path(self.enterContext(tempfile.TemporaryDirectory()))
        (folder / "directory").mkdir()
        for name in ("a.toml", "b.log"):
            (folder / name).touch()
        for words, wanted in (
            ("run rec --watch", {"directory"}), ("audit", {"directory"}), ("apply p.toml t --out", self.files),
            ("audit rec --policy", self.policies), ("denials", self.files),
        ):
            self.assert_names(f"landaudit-record {words} {folder}/", wanted)
        for words in ("confine", "check p.toml"):
            self.assert_names(f"landaudit-policy {words} {folder}/", self.policies)

    def test_the_ranges_of_abis_that_an_audit_and_a_comparison_take(self) -> None:
        for words in ("record audit rec", "policy diff old.toml new.toml"):
            self.assert_offers(f"landaudit-{words} --abi ", ABIS | RANGES)


@unittest.skipUnless(shutil.which("bash"), "bash is not installed")
class OfBash(Asked, unittest.TestCase):
    def offered(self, line: str) -> set[str]:
        """Bash offers the options beside the subcommands too, and the dashes before a command."""
        return {word for word in bash(line) if not word.startswith("-") or line.endswith("-")} - {"--"}

    def test_an_option_with_a_sign(self) -> None:
        self.assertEqual(bash("landaudit --abi = 4"), {"4", "4-5"})

    def test_a_command_behind_the_dashes(self) -> None:
        for words in ("record run rec", "policy confine p.toml"):
            self.assertIn("bash", bash(f"landaudit-{words} -- bas"))
            self.assertEqual(bash(f"landaudit-{words} -- bash --abi"), set())


@unittest.skipUnless(shutil.which("fish"), "fish is not installed")
class OfFish(Asked, unittest.TestCase):
    #: fish offers all files for a policy.
    policies = Asked.files

    def offered(self, line: str) -> set[str]:
        return fish(line)

    def test_a_command_behind_the_dashes(self) -> None:
        for words in ("record run rec", "policy confine p.toml"):
            self.assertIn("bash", fish(f"landaudit-{words} -- bas"))
            self.assertNotIn("--abi", fish(f"landaudit-{words} -- bash --a"))


@unittest.skipUnless(shutil.which("zsh"), "zsh is not installed")
class OfZsh(Asked, unittest.TestCase):
    zsh: Zsh

    @classmethod
    def setUpClass(cls) -> None:
        cls.zsh = Zsh(COMPLETIONS)
        cls.addClassCleanup(cls.zsh.close)

    def offered(self, line: str) -> set[str]:
        return self.zsh(line)

    def test_a_command_behind_the_dashes(self) -> None:
        for words in ("record run rec", "policy confine p.toml"):
            self.assertIn("bash", self.zsh(f"landaudit-{words} -- bas"))
            self.assertNotIn("--abi", self.zsh(f"landaudit-{words} -- bash --a"))

    def test_options_that_do_not_go_together(self) -> None:
        for line, other in (("denials --json -", "--suggest"), ("suggest --of-program rec -", "--policy")):
            with self.subTest(line):
                offered = self.zsh(f"landaudit-record {line}")
                self.assertTrue(offered)
                self.assertNotIn(other, offered)


if __name__ == "__main__":
    unittest.main()
