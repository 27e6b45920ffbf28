"""mypy finds no fault in the recorder, in its strict mode."""

from __future__ import annotations

import shutil
import subprocess
import tempfile
import unittest

from .places import TOP

MYPY = shutil.which("mypy")


class Types(unittest.TestCase):
    @unittest.skipIf(MYPY is None, "mypy is not installed")
    def test_the_recorder_is_typed(self) -> None:
        """By the settings of pyproject.toml; the cache of mypy is in no folder of the repository."""
        assert MYPY is not None
        with tempfile.TemporaryDirectory() as cache:
            run = subprocess.run([MYPY, "--cache-dir", cache], cwd=TOP, capture_output=True, text=True, check=False)
        self.assertEqual(run.returncode, 0, run.stdout + run.stderr)
        self.assertRegex(run.stdout, r"^Success: no issues found in \d+ source files")

    def test_the_settings_are_strict(self) -> None:
        settings = (TOP / "pyproject.toml").read_text(encoding="utf-8")
        self.assertIn("strict = true", settings)


if __name__ == "__main__":
    unittest.main()
