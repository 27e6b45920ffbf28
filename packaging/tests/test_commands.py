"""The programs understand the commands that documents and manual pages show, and the scripts and targets that these
name exist."""

from __future__ import annotations

import os
import re
import shlex
import subprocess
import tempfile
import unittest
from collections.abc import Iterator
from pathlib import Path

from landaudit_record import cli

from . import options
from .places import BUILT, MAN, TOP

DOCUMENTS = [TOP / "README.md", TOP / "CONTRIBUTING.md", *(TOP / "docs").glob("*.md"), *MAN.iterdir()]
#: The text after a prompt: one command, or a pipe of several.
PROMPTED = re.compile(r"\$ ([^\n]*)")
#: A command of a pipe, without the redirection of its output.
SHOWN = re.compile(r"(?:^|\| )(landaudit(?:-record|-policy)? [^|>]*)")
#: Code in a sentence.
SPAN = re.compile(r"`([^`\n]+)`")
#: A file or folder of this repository, relative to its top or, for one of a crate, to `crates`.
PLACE = re.compile(r"(?:bench|completions|crates|docs|examples|man|packaging|record|ll_\w+)/[\w./-]*\Z")
#: A script with its words, in a sentence or a block.
SCRIPT = re.compile(r"(?:^ {4}|`)((?:bench|packaging|record)/[\w./-]+)( [^`#>\n]*)?", re.MULTILINE)
SCRIPTS = {script.name: script for script in options.SCRIPTS}
LANDAUDIT = options.of_landaudit()
TARGET = re.compile(r"(?:^ {4}|`)make ([a-z]+)", re.MULTILINE)


def commands() -> Iterator[tuple[Path, list[str]]]:
    """Each command after a prompt, with the document that shows it."""
    for document in DOCUMENTS:
        for line in PROMPTED.findall(document.read_text(encoding="utf-8")):
            for shown in SHOWN.findall(line):
                yield document, shlex.split(shown)


def spans() -> Iterator[tuple[Path, str]]:
    """The code in sentences of each document."""
    for document in DOCUMENTS:
        for span in SPAN.findall(document.read_text(encoding="utf-8")):
            yield document, span


def asked(words: list[str]) -> set[str]:
    """The options that words name. A single dash is standard input, and two dashes begin another command."""
    own = words[: words.index("--")] if "--" in words else words
    return {word.strip("[]") for word in own if word.strip("[]").startswith("-")} - {"-"}


class Commands(unittest.TestCase):
    def test_of_the_scripts(self) -> None:
        for document, (program, *words) in commands():
            if program in SCRIPTS:
                with self.subTest(f"{document.name}: {shlex.join(words)}"):
                    self.assertEqual(cli.parse(words, SCRIPTS[program]).command, words[0])

    def test_of_landaudit(self) -> None:
        for document, (program, *words) in commands():
            if program == "landaudit":
                with self.subTest(f"{document.name}: {shlex.join(words)}"):
                    self.assertLessEqual(asked(words), LANDAUDIT)

    def test_in_sentences(self) -> None:
        """They may be cut short, as in `landaudit-record audit`."""
        for document, span in spans():
            for shown in SHOWN.findall(span):
                program, *words = shlex.split(shown)
                with self.subTest(f"{document.name}: {span}"):
                    having = options.subcommands(SCRIPTS[program])[words[0]] if program in SCRIPTS else LANDAUDIT
                    self.assertLessEqual(asked(words), having)

    def test_the_synopsis_of_the_formats(self) -> None:
        document = (TOP / "docs" / "FORMATS.md").read_text(encoding="utf-8")
        lines = re.findall(r"^ {4}landaudit (-.*)$", document, re.MULTILINE)
        self.assertEqual(asked(" ".join(lines).split()), options.of_landaudit())

    def test_there_are_some(self) -> None:
        self.assertGreater(len(list(commands())), 10)


class Places(unittest.TestCase):
    def test_files_and_folders(self) -> None:
        for document, span in spans():
            # Built files exist only after a build.
            if PLACE.match(span) and "/out" not in span:
                with self.subTest(f"{document.name}: {span}"):
                    self.assertTrue((TOP / "crates" / span if span.startswith("ll_") else TOP / span).exists())

    def test_targets_of_make(self) -> None:
        having = re.findall(r"^([a-z]+):", (TOP / "Makefile").read_text(encoding="utf-8"), re.MULTILINE)
        for document in DOCUMENTS:
            with self.subTest(document.name):
                named = TARGET.findall(document.read_text(encoding="utf-8"))
                self.assertLessEqual(set(named), set(having))

    def test_scripts_have_the_options_that_documents_name(self) -> None:
        for document in DOCUMENTS:
            for script, rest in SCRIPT.findall(document.read_text(encoding="utf-8")):
                words = rest.split()
                if words:
                    with self.subTest(f"{document.name}: {script}{rest}"):
                        self.assertTrue(os.access(TOP / script, os.X_OK))
                        self.assertLessEqual(asked(words), self.having(script, words) if asked(words) else set())

    def having(self, script: str, words: list[str]) -> set[str]:
        """The options in a script's help, for the subcommand that is named first, if any."""
        kind = [word for word in words[:1] if word.isalpha() and word.islower()]
        run = subprocess.run([TOP / script, *kind, "--help"], capture_output=True, text=True, check=True)
        return set(re.findall(r"--[\w-]+", run.stdout))


class Generated(unittest.TestCase):
    """`bench/generate` writes files that read: it makes everything that the benchmarks audit."""

    def setUp(self) -> None:
        self.folder = Path(self.enterContext(tempfile.TemporaryDirectory()))

    def generate(self, *words: str) -> None:
        subprocess.run([TOP / "bench" / "generate", *words, self.folder], check=True)

    def report(self) -> str:
        """What the built program says about the files."""
        words = [BUILT, "--abi", "5", self.folder / "tree.jsonl", self.folder / "trace.jsonl"]
        run = subprocess.run(words, capture_output=True, text=True, check=False)
        self.assertIn(run.returncode, (0, 1), run.stderr)
        return run.stdout

    def draw(self) -> None:
        """500 records, of which the layers of the roots are the smaller part."""
        self.generate("mixed", "--records", "500", "--processes", "20", "--objects", "200", "--rules", "4")

    def test_as_many_records_as_are_asked_for(self) -> None:
        self.draw()
        self.assertEqual(len((self.folder / "trace.jsonl").read_text(encoding="utf-8").splitlines()), 500)

    @unittest.skipUnless(BUILT.exists(), f"{BUILT} is not built")
    def test_what_is_drawn_reads(self) -> None:
        self.draw()
        self.assertTrue(self.report().splitlines()[-1].startswith("total 500 allowed "))

    @unittest.skipUnless(BUILT.exists(), f"{BUILT} is not built")
    def test_of_forks_the_report_is_known(self) -> None:
        for kind in ("chain", "full"):
            with self.subTest(kind):
                self.generate(kind, "7")
                self.assertEqual(self.report(), (self.folder / "report.txt").read_text(encoding="utf-8"))


if __name__ == "__main__":
    unittest.main()
