"""The folder in which the programs of the conformance run work: filled again before each, always alike.

It holds what is in `work` beside this file, and what is made from it: many words, a tree, an archive, a repository.
"""

from __future__ import annotations

import shutil
import subprocess
from pathlib import Path

GIVEN = Path(__file__).resolve().parent / "work"
"""The files that are there as they are."""

WORK = Path("/tmp/landaudit-conformance")
"""The policies name this folder, so it is always the same."""

PORT = 28080
"""The port of this machine that the policies let programs call."""

GIT = ("git", "-c", "user.name=n", "-c", "user.email=e@x", "-c", "init.defaultBranch=main", "-C", str(WORK / "repo"))


def fill() -> None:
    """Empties the folder and fills it."""
    shutil.rmtree(WORK, ignore_errors=True)
    shutil.copytree(GIVEN, WORK)
    (WORK / "out").mkdir()
    (WORK / "words.txt").write_text("".join(f"word {n * 7919 % 4001}\n" for n in range(4000)))
    for n in range(24):
        leaf = WORK / "tree" / f"branch{n % 5}" / f"leaf{n}.txt"
        leaf.parent.mkdir(parents=True, exist_ok=True)
        leaf.write_text(f"leaf {n}\n")
    _archive()
    _repository()


def _archive() -> None:
    words = ["tar", "cf", "archive.tar", "src", "tree", "run.sh"]
    subprocess.run(words, cwd=WORK, check=True)


def _repository() -> None:
    """A repository of git with two commits."""
    (WORK / "repo").mkdir()
    subprocess.run([*GIT, "init", "-q"], check=True)
    for name in ("one.c", "two.c"):
        shutil.copy(WORK / "src" / name, WORK / "repo" / name)
        subprocess.run([*GIT, "add", name], check=True)
        subprocess.run([*GIT, "commit", "-qm", name], check=True)
