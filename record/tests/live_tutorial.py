"""Runs every command of docs/TUTORIAL.md, CI.md, SERVICES.md and of the README's way, and compares what they print.

It needs strace, git and a built landaudit, and says which of them is missing. A command that can't run here is skipped,
and why is printed.
"""

from __future__ import annotations

import os
import re
import shutil
import subprocess
import tempfile
import unittest
from collections.abc import Sequence
from dataclasses import dataclass, field
from pathlib import Path

from landaudit_record.engine.landaudit import BUILT

TOP = Path(__file__).resolve().parents[2]
#: The folder in which the documents run their commands.
WORKED_IN = "/tmp/tutorial"


@dataclass
class Step:
    """A command of a document, the lines that it is to print, and its status if the document says it."""

    command: str
    shown: list[str] = field(default_factory=list)
    status: int | None = None


#: The end of a paragraph that names a file of the folder, before the block with what is in it.
OF_A_FILE = re.compile(r"`([\w.][\w./-]*)`:\Z")


def steps(document: Path) -> list[Step]:
    """The commands of a document: those behind `$` in indented blocks, and one for each block that is a file."""
    found: list[Step] = []
    shows = False
    before = ""
    for block in document.read_text(encoding="utf-8").split("\n\n"):
        file = OF_A_FILE.search(before)
        lines = block.splitlines()
        if file and lines[0].startswith("    ") and not lines[0].startswith("    $ "):
            contents = "".join(f"{line[4:]}\n" for line in lines)
            found.append(Step(f"cat > {file[1]} << 'END'\n{contents}END"))
            shows = False
        else:
            shows = _read(lines, found, shows)
        before = block
    return found


def _read(lines: Sequence[str], found: list[Step], shows: bool) -> bool:
    """Adds the commands of a block and what they show; whether a block after it may show more of the last one."""
    for line in lines:
        if line.startswith("    $ "):
            found.append(Step(line[6:]))
            shows = True
        elif line and not line.startswith("    "):
            shows = False
        elif shows and line.startswith("    (status "):
            found[-1].status = int(line.strip("() ").split()[1])
        elif shows and line:
            found[-1].shown.append(line.strip())
    return shows


def alike(text: str) -> str:
    """A line without what differs from machine to machine: counts, and the width of columns."""
    return " ".join(re.sub(r"\d+", "N", text).split())


def cannot(command: str) -> str | None:
    """Why a command can't be run on this machine, if it can't."""
    programs = set(re.findall(r"(?:^|&& )(\w+)", command))
    if "systemctl" in programs:
        if not Path("/run/systemd/system").exists():
            return "systemd does not run here"
        if subprocess.run(["systemctl", "cat", "greeter"], capture_output=True, check=False).returncode:
            return "there is no unit greeter.service here"
    if programs & {"setpriv", "unshare"} and os.geteuid() != 0:
        return "it needs root"
    if "run rec -- make" in command and None in map(shutil.which, ("make", "cc")):
        return "make or cc is not installed"
    return None


def missing() -> str | None:
    """Why the commands can't be run here, if they can't."""
    for program in ("strace", "git"):
        if shutil.which(program) is None:
            return f"{program} is not installed"
    return None if BUILT.exists() else f"{BUILT} is not built: run 'make landaudit'"


@unittest.skipIf(missing() is not None, missing())
class Tutorial(unittest.TestCase):
    def test_every_command_prints_what_the_tutorial_shows(self) -> None:
        self.run_document(TOP / "docs" / "TUTORIAL.md")

    def test_every_command_of_the_readme(self) -> None:
        self.run_document(TOP / "README.md")

    def test_every_command_of_the_page_on_ci(self) -> None:
        """The scripts of its jobs are run by packaging/tests."""
        self.run_document(TOP / "docs" / "CI.md")

    def test_every_command_of_the_page_on_services(self) -> None:
        """What a command that is skipped would have left is not asked about either."""
        self.run_document(TOP / "docs" / "SERVICES.md")

    def run_document(self, document: Path) -> None:
        environment = {**os.environ, "PATH": f"{TOP / 'record'}:{BUILT.parent}:{os.environ['PATH']}"}
        with tempfile.TemporaryDirectory() as folder:
            # A user without rights goes through it to a folder of their own.
            Path(folder).chmod(0o755)
            absent: list[str] = []
            for step in steps(document):
                with self.subTest(step.command):
                    reason = cannot(step.command)
                    if reason or any(re.search(rf"\b{name}\b", step.command) for name in absent):
                        absent += re.findall(r"landaudit-record run (\w+) ", step.command)
                        print(f"skipped: {step.command}: {reason or 'its recording was not made'}")
                        continue
                    self.run_step(step, folder, environment)

    def run_step(self, step: Step, folder: str, environment: dict[str, str]) -> None:
        run = subprocess.run(
            ["sh", "-c", step.command.replace(WORKED_IN, folder)],
            cwd=folder,
            env=environment,
            stdout=subprocess.PIPE,
            stderr=subprocess.STDOUT,
            text=True,
            check=False,
        )
        self.assertEqual(run.returncode, step.status or 0, run.stdout)
        printed = {alike(line) for line in run.stdout.replace(folder, WORKED_IN).splitlines()}
        for line in step.shown:
            self.assertIn(alike(line), printed, run.stdout)
