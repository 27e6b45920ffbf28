"""Tests of landaudit-record; those that need strace or a kernel with Landlock are in files live_*.py.

A test that asks landaudit-rules is skipped where that is not built.
"""

import unittest
from pathlib import Path

from landaudit_record.engine import landaudit_rules


def _not_built() -> Path:
    raise unittest.SkipTest(f"{landaudit_rules.BUILT} is not built")


if not landaudit_rules.BUILT.exists():
    landaudit_rules.find = _not_built
