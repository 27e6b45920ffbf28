"""Random tests whose examples hypothesis draws and makes smaller; they are skipped where the library is missing.

The examples are the same in each run. Tests keep seeds of their own where one run of a program answers for all
examples, and where an example is made of thousands of draws, as recordings, stories, audits and `brute` are: these take
seconds to draw, and most are more than the 8 KiB that hypothesis gives an example.
"""

from __future__ import annotations

import random
import unittest
from collections.abc import Callable

try:
    from hypothesis import HealthCheck, given, settings
    from hypothesis.strategies import randoms
except ImportError:
    MISSING = "hypothesis is not installed: Debian's python3-hypothesis, or pip install hypothesis"
else:
    MISSING = ""
    settings.register_profile("gate", derandomize=True, database=None, deadline=None, print_blob=False,
                              suppress_health_check=list(HealthCheck))
    settings.load_profile("gate")

Test = Callable[..., None]


def by_chance(examples: int) -> Callable[[Test], Test]:
    """A test that is run for so many examples, by random numbers that it gets.

    If one fails, the smallest that does is told: choices are then the first of what there is, and numbers are small.
    """
    if MISSING:
        return unittest.skip(MISSING)
    return lambda test: settings(max_examples=examples)(given(randoms(use_true_random=False))(test))
