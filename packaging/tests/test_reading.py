"""docs/READING.md names all types of the code that its listed definitions read."""

from __future__ import annotations

import re
import unittest
from collections.abc import Iterator
from pathlib import Path

from .places import TOP

CRATES = TOP / "crates"
READING = (TOP / "docs" / "READING.md").read_text(encoding="utf-8")
#: The part that lists the definitions of the claim, and the part on types.
DEFINITIONS, REST = READING.split("\n## The other public functions", 1)
TYPES = REST.split("\n## The types of the code", 1)[1].split("\n## ", 1)[0]
SPAN = re.compile(r"`([^`\n]+)`")
ROW = re.compile(r"^\| (.*?) \| (.*?) \|$", re.MULTILINE)
#: What a definition takes from a type's declaration: the crate, the file's module and the type.
DECLARED = re.compile(r"^use Rattle\.(ll_\w+)\.specs\.declared\.([\w.]*?)(\w+)(?:\.TheVariants)?(?:\.\{| as )", re.MULTILINE)


def files(cell: str) -> Iterator[Path]:
    """The files that a cell of a table names; one without a folder is beside the one before it."""
    folder = CRATES
    for name in SPAN.findall(cell):
        folder = (CRATES / name).parent if "/" in name else folder
        yield folder / Path(name).name


def named() -> dict[str, Path]:
    """Each type of the table of types, with the files of its row."""
    rows = [row for row in ROW.findall(TYPES) if "/src/" in row[0] and "impl" not in row[1]]
    return {name: path for cell, types in rows for name in SPAN.findall(types) for path in files(cell)
            if re.search(rf"^pub (?:struct|enum) {name}\b", path.read_text(encoding="utf-8"), re.MULTILINE)}


def declared() -> dict[str, Path]:
    """Each type that the listed definitions read, with the file that declares it."""
    found = {}
    for cell, _ in ROW.findall(DEFINITIONS):
        for path in files(cell):
            if path.suffix == ".antt":
                for crate, module, name in DECLARED.findall(path.read_text(encoding="utf-8")):
                    if name != "TheConstants":
                        found[name] = CRATES / crate / "src" / Path(*module.strip(".").split(".")).with_suffix(".rt")
    return found


class Types(unittest.TestCase):
    def test_all_are_named_with_their_files(self) -> None:
        self.assertEqual(named(), declared())

    def test_as_many_as_are_counted(self) -> None:
        counted = re.search(r"the\s+declarations\s+of\s+(\d+)\s+types", READING)
        assert counted is not None
        self.assertEqual(int(counted[1]), len(declared()))

    def test_the_variants_of_op(self) -> None:
        counted = re.search(r"`Op`\s+with\s+its\s+(\d+)\s+variants", TYPES)
        assert counted is not None
        source = (CRATES / "ll_trace" / "src" / "op.rt").read_text(encoding="utf-8")
        body = source.split("pub enum Op {", 1)[1].split("\n}", 1)[0]
        self.assertEqual(int(counted[1]), len(re.findall(r"^    [A-Z]\w+(?: \{)?,?$", body, re.MULTILINE)))
