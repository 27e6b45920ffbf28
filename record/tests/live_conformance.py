"""The command of docs/CONFORMANCE.md, for one row: landaudit answers as this kernel did."""

from __future__ import annotations

import subprocess
import sys
import tempfile
import unittest

from .live_actor import HERE, wanting


@unittest.skipIf(wanting() is not None, wanting() or "")
class LiveConformance(unittest.TestCase):
    def test_a_row_by_its_name(self) -> None:
        folder = self.enterContext(tempfile.TemporaryDirectory())
        words = [sys.executable, HERE / "conformance.py", folder, "--only", "cat/read-only"]
        run = subprocess.run(words, capture_output=True, text=True, check=False)
        self.assertEqual(run.returncode, 0, run.stderr)
        row = r'{"program": "cat", "policy": "read-only", "calls": (\d+), "agree": \1}\n\Z'
        self.assertRegex(run.stdout, row)
