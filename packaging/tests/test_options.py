"""The manual pages name exactly the options that the programs have."""

from __future__ import annotations

import re
import subprocess
import unittest
from collections.abc import Iterator

from landaudit_record import VERSION, cli

from . import options
from .places import BUILT, BUILT_RULES, MAN

#: The words after `Fl`: `-abi Ar N`, or `h , -help`.
FLAG = re.compile(r"\bFl ((?:-{0,2}[\w-]+)(?: [|,] -{0,2}[\w-]+)*)")


def flags(lines: str) -> set[str]:
    """The options that lines of a manual page name."""
    return {f"-{word}" for found in FLAG.findall(lines) for word in re.split(r" [|,] ", found)} - {"--"}


def items(page: str) -> set[str]:
    """The options that have an item of their own."""
    return flags("\n".join(re.findall(r"^\.It Fl .*$", page, re.MULTILINE)))


def section(page: str, name: str) -> str:
    """A section of a page, without its heading."""
    return page.partition(f".Sh {name}\n")[2].partition("\n.Sh ")[0]


class Landaudit(unittest.TestCase):
    def setUp(self) -> None:
        self.page = (MAN / "landaudit.1").read_text(encoding="utf-8")

    def test_the_source_has_the_options_that_its_documents_name(self) -> None:
        documented = {
            "--abi", "--best-effort", "--explain", "--refused", "--differs", "--kinds", "--json", "--workers",
            "--grain", "-h", "--help", "-V", "--version",
        }
        self.assertEqual(options.of_landaudit(), documented)

    def test_each_option_has_an_item(self) -> None:
        self.assertEqual(items(self.page), options.of_landaudit())

    def test_the_synopsis(self) -> None:
        self.assertEqual(flags(section(self.page, "SYNOPSIS")), options.of_landaudit())

    @unittest.skipUnless(BUILT.exists(), f"{BUILT} is not built")
    def test_the_help_of_the_built_program(self) -> None:
        run = subprocess.run([BUILT, "--help"], capture_output=True, text=True, check=True)
        # A placeholder for a value, such as <N[-M]>, names no option.
        text = re.sub(r"<[^>]*>", "", run.stdout)
        self.assertEqual(set(re.findall(r"(?<![\w-])--?\w[\w-]*", text)), options.of_landaudit())


class Rules(unittest.TestCase):
    def setUp(self) -> None:
        self.page = (MAN / "landaudit-rules.1").read_text(encoding="utf-8")

    def test_each_option_is_in_the_source_the_items_and_the_synopsis(self) -> None:
        for found in (options.of_rules(), items(self.page), flags(section(self.page, "SYNOPSIS"))):
            self.assertEqual(found, {"--calls", "--rights", "-h", "--help", "-V", "--version"})

    @unittest.skipUnless(BUILT_RULES.exists(), f"{BUILT_RULES} is not built")
    def test_the_built_program(self) -> None:
        def said(*words: str) -> tuple[int, str, str]:
            run = subprocess.run([BUILT_RULES, *words], capture_output=True, text=True, check=False, input="[]\n")
            return run.returncode, run.stdout, run.stderr

        status, text, errors = said("--help")
        self.assertEqual((status, errors), (0, ""))
        self.assertEqual(set(re.findall(r"(?<![\w-])--?\w[\w-]*", text)) - {"-rules", "-policy"}, options.of_rules())
        self.assertRegex(said("-V")[1], rf"\Alandaudit-rules {VERSION} \(rattle-kit-\S+ logic [0-9a-f]+\)\n\Z")
        for words in (("--abi",), ("a", "b"), ("--calls",), ("--calls", "0"), ("--calls", "1", "-x")):
            self.assertEqual(said(*words), (2, "", "landaudit-rules: wrong words; see landaudit-rules --help\n"))
        self.assertEqual(said("/absent"), (3, "", "landaudit-rules: cannot read /absent\n"))
        self.assertEqual(said("/dev/null"), (0, "", ""))
        self.assertEqual(said(), (3, "", "landaudit-rules: line 1: Field\n"))
        self.assertEqual(said("-"), (3, "", "landaudit-rules: line 1: Field\n"))
        self.assertEqual(said("--calls", "1"), (3, "", "landaudit-rules: line 1: Field\n"))
        with open("/dev/full", "wb") as full:
            run = subprocess.run([BUILT_RULES], stdout=full, stderr=subprocess.PIPE, text=True, check=False,
                                 input='{"files":[false],"ports":0,"regions":[],"objects":[],"single":[],"gains":[],"moves":[]}\n')
        self.assertEqual((run.returncode, run.stderr), (4, "landaudit-rules: cannot write\n"))


class Scripts(unittest.TestCase):
    """The programs that have subcommands, each with its page."""

    def pages(self) -> Iterator[tuple[cli.CommandLineProgram, str]]:
        for script in options.SCRIPTS:
            with self.subTest(script.name):
                yield script, (MAN / f"{script.name}.1").read_text(encoding="utf-8")

    def test_each_option_has_an_item(self) -> None:
        for script, page in self.pages():
            having = options.before_a_subcommand(script).union(*options.subcommands(script).values())
            self.assertEqual(items(page), having)

    def test_each_subcommand_has_an_item(self) -> None:
        for script, page in self.pages():
            found = re.findall(r"^\.It Cm (\w+)$", page, re.MULTILINE)
            self.assertEqual(set(found), set(options.subcommands(script)))

    def test_the_synopsis_of_each_subcommand(self) -> None:
        for script, page in self.pages():
            blocks = section(page, "SYNOPSIS").split(".Nm\n")
            shown: dict[str, set[str]] = {}
            for block in blocks:
                if words := re.match(r"\.Cm (\w+)\n", block):
                    shown.setdefault(words[1], set()).update(flags(block))
            wanted = {name: having - {"-h", "--help"} for name, having in options.subcommands(script).items()}
            self.assertEqual(shown, wanted)


if __name__ == "__main__":
    unittest.main()
