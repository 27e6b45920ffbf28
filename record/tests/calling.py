"""Command lines that a test calls, and a folder for what they read and write."""

from __future__ import annotations

import tempfile
import unittest
from collections.abc import Iterable
from contextlib import redirect_stderr, redirect_stdout
from io import BytesIO, StringIO, TextIOWrapper
from pathlib import Path

from landaudit_record import cli


def called(words: Iterable[object], program: cli.CommandLineProgram = cli.RECORD) -> tuple[int, str, str]:
    """The status of a command line, and what it writes to standard output and standard error."""
    out, errors = TextIOWrapper(BytesIO(), encoding="utf-8"), StringIO()
    with redirect_stdout(out), redirect_stderr(errors):
        try:
            status = cli.main([str(word) for word in words], program)
        except SystemExit as ended:
            status = int(str(ended.code or 0))
    out.seek(0)
    return status, out.read(), errors.getvalue()


class InFolder(unittest.TestCase):
    """A test with an empty folder."""

    def setUp(self) -> None:
        self.folder = Path(self.enterContext(tempfile.TemporaryDirectory())).resolve()
