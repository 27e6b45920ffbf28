"""The folders of the package, which import only from those above them in the table of docs/ARCHITECTURE.md."""

from __future__ import annotations

import ast
import re
import unittest
from collections.abc import Iterator
from pathlib import Path

TOP = Path(__file__).resolve().parents[2]
PACKAGE = TOP / "record" / "landaudit_record"
#: The part of docs/ARCHITECTURE.md about the package.
TABLE = (TOP / "docs" / "ARCHITECTURE.md").read_text(encoding="utf-8").split("\n## The recorder\n")[1].split("\n## ")[0]
#: The folders in the table's order; the subcommands use all of them.
ORDER = [*re.findall(r"^\| `(\w+)/` \|", TABLE, re.M), "commands"]
#: What starts landaudit, and the modules that do: on recorded calls, and one on calls that no program made.
STARTS = {"start", "audit", "Run"}
STARTING = {"audit/auditor.py", "engine/asking.py"}


def imported(file: Path) -> Iterator[str]:
    """The folders from which a module imports."""
    here = file.relative_to(PACKAGE).parts
    for node in ast.walk(ast.parse(file.read_bytes())):
        if isinstance(node, ast.ImportFrom) and node.level:
            base = [*here[:len(here) - node.level], *(node.module or "").split(".")]
            inside = [part for part in base if part]
            yield from [inside[0]] if inside else (name.name for name in node.names)


def starts_landaudit(file: Path) -> bool:
    """Whether a module uses what starts landaudit, from the module of that name or by names of its own."""
    tree = ast.parse(file.read_bytes())
    taken = {name.name for node in ast.walk(tree) if isinstance(node, ast.ImportFrom)
             and (node.module or "").split(".")[-1] == "landaudit" for name in node.names}
    used = {node.attr for node in ast.walk(tree) if isinstance(node, ast.Attribute)
            and isinstance(node.value, ast.Name) and node.value.id == "landaudit"}
    return not STARTS.isdisjoint(taken | used)


class Rooms(unittest.TestCase):
    def test_each_folder_is_in_the_table(self) -> None:
        self.assertEqual(set(ORDER), {path.parent.name for path in PACKAGE.glob("*/__init__.py")})
        self.assertEqual({path.name for path in PACKAGE.glob("*.py")}, {"__init__.py", "cli.py"})

    def test_imports_go_one_way(self) -> None:
        for file in sorted(PACKAGE.rglob("*/*.py")):
            room = file.relative_to(PACKAGE).parts[0]
            with self.subTest(file.name):
                above = ORDER[:ORDER.index(room) + 1]
                self.assertEqual([name for name in imported(file) if name in ORDER and name not in above], [])

    def test_one_module_asks_about_calls_that_no_program_made(self) -> None:
        users = {str(file.relative_to(PACKAGE)) for file in PACKAGE.rglob("*.py") if starts_landaudit(file)}
        self.assertEqual(users, STARTING)
