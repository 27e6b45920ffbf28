"""landaudit-record: from a command line to an audit of what a Landlock policy breaks.

landaudit-policy, beside it, works on policies without a recording. Both programs are of this one package.
"""

import sys
from pathlib import Path

VERSION = "0.2"

RECORDER = "landaudit-record"
POLICIES = "landaudit-policy"


def _programs() -> Path:
    """The folder of both programs: beside this package, or, where pip installed them, that of the running one."""
    beside = Path(__file__).resolve().parents[1]
    return beside if (beside / POLICIES).exists() else Path(sys.argv[0]).resolve().parent


PROGRAMS = _programs()
