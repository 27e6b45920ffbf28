"""landaudit, the recorder, its package and the changelog have one version."""

from __future__ import annotations

import re
import tomllib
import unittest

from landaudit_record import VERSION

from .places import TOP

COMMAND = TOP / "crates" / "ll_command" / "src" / "command.rt"
#: The version of landaudit, without the toolchain that proves it.
OF_LANDAUDIT = re.compile(r'^pub const VERSION: &str = "([\d.]+) ', re.MULTILINE)
#: The headings of the changelog; what is not released yet is said to be so.
VERSIONS = re.compile(r"^## (?:Unreleased: )?([\d.]+)$", re.MULTILINE)


class Version(unittest.TestCase):
    def test_landaudit_and_the_recorder_have_one(self) -> None:
        self.assertEqual(OF_LANDAUDIT.findall(COMMAND.read_text(encoding="utf-8")), [VERSION])

    def test_the_package_reads_it_from_the_recorder(self) -> None:
        settings = tomllib.loads((TOP / "pyproject.toml").read_text(encoding="utf-8"))
        self.assertEqual(settings["project"]["dynamic"], ["version"])
        self.assertNotIn("version", settings["project"])
        self.assertEqual(settings["tool"]["setuptools"]["dynamic"]["version"], {"attr": "landaudit_record.VERSION"})

    def test_the_changelog_begins_with_it(self) -> None:
        self.assertEqual(VERSIONS.findall((TOP / "CHANGELOG.md").read_text(encoding="utf-8"))[:1], [VERSION])


if __name__ == "__main__":
    unittest.main()
