"""Where things are, and scripts of this folder as modules."""

from __future__ import annotations

import importlib.machinery
import importlib.util
import sys
from pathlib import Path
from types import ModuleType

TOP = Path(__file__).resolve().parents[2]
MAN = TOP / "man"
COMPLETIONS = TOP / "completions"
BUILT = TOP / "crates" / "landaudit" / "out" / "landaudit"
BUILT_RULES = TOP / "crates" / "landaudit_rules" / "out" / "landaudit_rules"


def script(name: str) -> ModuleType:
    """A script of `packaging`, which has no suffix."""
    loader = importlib.machinery.SourceFileLoader(name.replace("-", "_"), str(TOP / "packaging" / name))
    spec = importlib.util.spec_from_loader(loader.name, loader)
    assert spec is not None
    module = importlib.util.module_from_spec(spec)
    # A dataclass looks its module up.
    sys.modules[loader.name] = module
    loader.exec_module(module)
    return module
