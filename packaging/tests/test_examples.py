"""The worked examples: the built program writes the documented reports, as text, explained and as JSON."""

from __future__ import annotations

import json
import subprocess
import unittest
from pathlib import Path
from typing import Any

from .places import BUILT, TOP

DATA = TOP / "examples"
INDEX = [json.loads(line) for line in (DATA / "index.jsonl").read_text(encoding="utf-8").splitlines()]
#: The gate builds landaudit by two compilers.
PROGRAMS = (BUILT, BUILT.with_name("landaudit.by-rattle"))
#: The options of each form of a report, by the member of an example that names it.
FORMS = {"report": (), "explained": ("--explain",), "json": ("--explain", "--json")}
WORKERS = (1, 3, 8)


def options_of(example: dict[str, Any]) -> list[str]:
    """The options by which an example is audited."""
    return ["--abi", str(example["abi"]), *["--best-effort"] * example.get("best_effort", False)]


class Examples(unittest.TestCase):
    def test_the_index_names_every_report(self) -> None:
        named = {example[form] for example in INDEX for form in FORMS}
        files = [file for pattern in ("*report.txt", "*explained.txt", "*explained.jsonl") for file in DATA.rglob(pattern)]
        self.assertEqual(named, {str(file.relative_to(DATA)) for file in files})

    @unittest.skipUnless(BUILT.exists(), f"{BUILT} is not built")
    def test_each_report_is_the_documented_one(self) -> None:
        for program in filter(lambda one: one.exists(), PROGRAMS):
            for example in INDEX:
                for form, options in FORMS.items():
                    for workers in WORKERS:
                        with self.subTest(example["name"], program=program.name, form=form, workers=workers):
                            self.compare(program, example, form, [*options, "--workers", str(workers), "--grain", "0"])

    def compare(self, program: Path, example: dict[str, Any], form: str, options: list[str]) -> None:
        """Audits an example in a form, and compares the report with the documented one."""
        words = [program, *options_of(example), *options, example["tree"], example["trace"]]
        run = subprocess.run(words, capture_output=True, check=False, cwd=DATA)
        self.assertEqual((run.stdout, run.stderr), ((DATA / example[form]).read_bytes(), b""))
        refuses = any(total["refused"] for total in self.totals(example))
        self.assertEqual(run.returncode, int(refuses))

    def totals(self, example: dict[str, Any]) -> Any:
        """The totals of each ABI, by the last object of the documented report as JSON."""
        return json.loads((DATA / example["json"]).read_text(encoding="utf-8").splitlines()[-1])["totals"]


if __name__ == "__main__":
    unittest.main()
