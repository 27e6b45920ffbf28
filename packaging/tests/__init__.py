"""Tests of how landaudit comes to a user's machine: install, manual pages, completions, and what make prints."""

import sys

from .places import TOP

sys.path.insert(0, str(TOP / "record"))
