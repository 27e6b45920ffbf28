"""The program and docs/ASSURANCE.md name one toolchain."""

from __future__ import annotations

import re
import unittest

from .places import TOP

LINE = re.compile(r"rattle-kit-\w+ logic [0-9a-f]+")


def named(file: str) -> list[str]:
    """The lines of toolchains that a file names."""
    return LINE.findall((TOP / file).read_text(encoding="utf-8"))


class Toolchain(unittest.TestCase):
    def test_the_version_names_the_toolchain_that_is_trusted(self) -> None:
        trusted = named("docs/ASSURANCE.md")
        self.assertEqual(len(trusted), 1)
        self.assertEqual(named("crates/ll_command/src/command.rt"), trusted)
