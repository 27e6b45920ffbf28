"""The lines of a firejail profile about Landlock, as firejail 0.9.74 reads them (Debian 13).

What its commands grant was seen in its debug output (`firejail --debug`), which prints each rule.
"""

from __future__ import annotations

import re
from collections import Counter
from collections.abc import Iterator
from dataclasses import dataclass, field
from pathlib import Path
from typing import NoReturn

from ...common.comments import Comments
from ...common.documents import listed
from ...common.problems import Problem
from ...common.rights import FS, Rights
from ...common.variables import Given
from ...common.wording import counted, some_of
from ..policies import Access, Layer, Policy
from . import Imported, path_fault, path_rules

VERSION = "0.9.74"
NAME = "firejail"
ENFORCE = "landlock.enforce"
#: What its commands grant; it handles all rights of ABI 1.
GRANTS: dict[str, Rights] = {
    "landlock.fs.read": frozenset({"read_file", "read_dir"}),
    "landlock.fs.write": frozenset({"write_file", "remove_dir", "remove_file", "make_dir", "make_reg", "make_sym"}),
    "landlock.fs.makeipc": frozenset({"make_sock", "make_fifo"}),
    "landlock.fs.makedev": frozenset({"make_char", "make_block"}),
    "landlock.fs.execute": frozenset({"execute"}),
}
_MACRO = re.compile(r"\$\{(\w+)\}")
_ABOUT = re.compile(r"landlock\b|\?\S+:?\s*landlock\b|ignore\s+landlock\b")
_SEVERAL = "PATH"
_NAMED = re.compile(r"include\s+(\S.*)")
MOST_INCLUDES = 64


@dataclass(frozen=True)
class _Line:
    """A line of a profile."""

    file: Path
    number: int
    text: str

    def fault(self, text: str) -> NoReturn:
        """Raises the Problem that this line has an error."""
        raise Problem(f"{self.file}: line {self.number}: {text}")


@dataclass
class _ReadSoFar:
    """What was read so far: rules, how lines write their paths, the values of macros, other lines, and included
    profiles that are not there.
    """

    rules: list[tuple[Access, str]] = field(default_factory=list)
    written: dict[str, set[str]] = field(default_factory=dict)
    values: dict[str, str] = field(default_factory=dict)
    others: Counter[Path] = field(default_factory=Counter)
    absent: list[str] = field(default_factory=list)
    enforced: bool = False


def read(path: Path, given: Given) -> Imported:
    """The policy of a profile, with those that it includes; `given` has values for ${HOME} and other macros."""
    found = _ReadSoFar()
    for line in _lines(path, found, 0):
        _take(line, found, given)
    if not found.enforced:
        raise Problem(f"{path}: there is no {ENFORCE}, so {NAME} puts no layer in force")
    layer = Layer(1, Access(FS.known(1)), Access(), path_rules(found.rules), ())
    written: dict[str | int, str] = {one: text for one, texts in found.written.items() for text in texts
                                     if len(texts) == 1 and text != one}
    return Imported(Policy(path, (layer,), found.values, written), Comments(list(_said(path, found))))


def _said(path: Path, found: _ReadSoFar) -> Iterator[str]:
    yield f"from the profile {path} of {NAME} ({VERSION})"
    yield f"lines that say nothing about Landlock: {found.others.total()} in {counted(len(found.others) or 1, 'file')}"
    if found.absent:
        yield f"included profiles that are not beside it: {some_of(found.absent)}"
    yield f"where the kernel refuses a rule, as one on a file, {NAME} goes on without it"


def _lines(path: Path, found: _ReadSoFar, depth: int) -> Iterator[_Line]:
    """The lines of a profile, and in place of an include those of the included one."""
    try:
        text = path.read_text(encoding="utf-8")
    except OSError as error:
        raise Problem(f"cannot read {path}: {error.strerror}") from error
    except UnicodeDecodeError as error:
        raise Problem(f"{path}: not UTF-8: {error}") from error
    for number, said in enumerate(text.splitlines(), start=1):
        line = _Line(path, number, re.sub(r"(^|\s)#.*", "", said).strip())
        named = _NAMED.fullmatch(line.text)
        if named is None:
            yield line
        elif depth == MOST_INCLUDES:
            line.fault("profiles include one another")
        else:
            yield from _included(line, named[1], found, depth)


def _included(line: _Line, name: str, found: _ReadSoFar, depth: int) -> Iterator[_Line]:
    """The lines of an included profile. firejail goes on without one that ends in .local and is not there."""
    file = line.file.parent / name
    if "${" in name:
        line.fault("which profile a macro names is not known: write its path, or the lines themselves")
    if file.is_file():
        yield from _lines(file, found, depth + 1)
    elif name.endswith(".local"):
        found.absent.append(name)
    else:
        line.fault(f"{file} is not there: copy it beside the profile, since it may have rules of Landlock")


def _take(line: _Line, found: _ReadSoFar, given: Given) -> None:
    """Reads a line."""
    if not line.text:
        return
    command, _, path = line.text.partition(" ")
    if line.text == ENFORCE:
        found.enforced = True
    elif command in GRANTS:
        access = Access(GRANTS[command])
        found.rules += [(access, one) for one in _paths(line, path.strip(), found, given)]
    elif _ABOUT.match(line.text):
        line.fault(f"not known here: {line.text!r}: use {listed([ENFORCE, *GRANTS])}, without a condition or ignore")
    else:
        found.others[line.file] += 1


def _paths(line: _Line, text: str, found: _ReadSoFar, given: Given) -> Iterator[str]:
    """The paths of a line: several if it has ${PATH}, which firejail takes from the environment."""
    values = {name: _value(line, name, given) for name in _MACRO.findall(text)}
    for one in values.get(_SEVERAL, "").split(":"):
        path = _MACRO.sub(lambda macro: one if macro[1] == _SEVERAL else values[macro[1]], text)
        if (wrong := path_fault(path)) is not None:
            line.fault(wrong)
        if any(letter in path for letter in "*?["):
            line.fault(f"{path!r}: Landlock has no patterns")
        found.written.setdefault(path, set()).add(path if _SEVERAL in values else text)
        found.values |= {name: value for name, value in values.items() if name != _SEVERAL}
        yield path


def _value(line: _Line, name: str, given: Given) -> str:
    """The value of a macro, which is that of a variable."""
    value = given.value(name)
    if not value:
        example = "/usr/local/bin:/usr/bin:/bin" if name == _SEVERAL else "VALUE"
        line.fault(f"what ${{{name}}} stands for depends on the user: give it by --set {name}={example}, or by "
                   f"LANDAUDIT_{name} in the environment")
    return value
