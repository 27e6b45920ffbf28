"""Names that differ in each run: those of temporary files, and those with the number of a process.

A rule on such a name does not help the next run, so the rule goes on the directory. A recording shows that its run made
a name; only a second recording can show whether a name that existed before stays the same.
"""

from __future__ import annotations

import os
import re
from collections import defaultdict
from collections.abc import Callable, Iterable, Sequence, Set
from itertools import combinations, pairwise

from ..common.trees import ROOT, Tree, directory_of, joined, upwards

#: The paths that a process has under its number, which differs in each run.
_OF_A_PROCESS = re.compile(r"(/proc/[0-9]+)(?:/|\Z)")
#: Forms of names that programs make up, with the part that is made up: of mkstemp(3), Python's tempfile and gcc.
_MADE_UP = re.compile(r"(?:.*[._-])([A-Za-z0-9]{6})|tmp([a-z0-9_]{8})|cc([A-Za-z0-9]{6})\.[a-z]+")
#: Forms of mktemp(1) and Go's os.MkdirTemp, whose made-up part is long enough to be recognized.
_LONG = re.compile(r"tmp\.[A-Za-z0-9]{10}|.*?[0-9]{9,}")
_PART = re.compile(r"[A-Za-z0-9_]+")
_DIGITS = re.compile(r"[0-9]+")
#: The shortest differing part by which two names are recognized as made up.
SHORTEST = 6
#: The fewest digits of a made-up number, if it is not the number of a process.
MANY_DIGITS = 9
#: The most names of one directory that are compared with those of another recording.
MOST_COMPARED = 500


def of_process(path: str) -> str | None:
    """The folder in /proc of the process that a path is about."""
    found = _OF_A_PROCESS.match(path)
    return None if found is None else found[1]


def looks_made_up(name: str) -> bool:
    """Whether a name looks as if a program had made it up for one run."""
    if _LONG.fullmatch(name):
        return True
    found = _MADE_UP.fullmatch(name)
    return found is not None and any(_changes(part) > 1 for part in found.groups(""))


def _changes(text: str) -> int:
    """How often small letters, capitals, digits and others alternate; a capital before small letters does not count."""
    kinds = ["A" if one.isupper() else "a" if one.isalpha() else "0" if one.isdigit() else "_" for one in text]
    return sum(one != other for one, other in pairwise(kinds)) - (kinds[:2] == ["A", "a"])


def alike(one: str, other: str, pids: Sequence[Set[int]]) -> bool:
    """Whether two names differ only in a made-up part; `pids` has the processes of the recording of each."""
    front = len(os.path.commonprefix([one, other]))
    behind = len(os.path.commonprefix([one[front:][::-1], other[front:][::-1]]))
    numbers = [_around(name, front, behind, str.isdigit) for name in (one, other)]
    if all(map(_DIGITS.fullmatch, numbers)):
        return all(len(number) >= MANY_DIGITS or int(number) in own for number, own in zip(numbers, pids))
    parts = [_around(name, front, behind, lambda letter: _PART.fullmatch(letter) is not None) for name in (one, other)]
    changes = [_changes(part) for part in parts]
    same_length = len(parts[0]) == len(parts[1]) >= SHORTEST
    return same_length and all(map(_PART.fullmatch, parts)) and min(changes) > 0 and max(changes) > 1


def _around(name: str, front: int, behind: int, belongs: Callable[[str], bool]) -> str:
    """The part of a name between two numbers of characters at its ends, with adjacent characters that belong to it."""
    start, end = front, len(name) - behind
    while start > 0 and belongs(name[start - 1]):
        start -= 1
    while end < len(name) and belongs(name[end]):
        end += 1
    return name[start:end]


def between(places: Sequence[Iterable[str]], trees: Sequence[Tree], pids: Sequence[Set[int]]) -> set[str]:
    """The paths whose last names differ from recording to recording, among the places that each asks for.

    Two names that are both on this disk are two files, and are kept.
    """
    named = [_names(some) for some in places] if len(places) > 1 else []
    found: set[str] = set()
    for (one, ones), (other, others) in combinations(enumerate(named), 2):
        for directory in ones.keys() & others.keys():
            mine = [name for name in ones[directory] if joined(directory, name) not in trees[other].kinds]
            theirs = [name for name in others[directory] if joined(directory, name) not in trees[one].kinds]
            for first in mine[:MOST_COMPARED]:
                for second in theirs[:MOST_COMPARED]:
                    both = joined(directory, first), joined(directory, second)
                    if alike(first, second, (pids[one], pids[other])) and not all(map(os.path.lexists, both)):
                        found.update(both)
    return found


def _names(places: Iterable[str]) -> dict[str, list[str]]:
    """The names in each directory that lie on the way to places."""
    names: dict[str, set[str]] = defaultdict(set)
    for place in places:
        for over in upwards(place):
            if over != ROOT:
                names[directory_of(over)].add(over.rpartition("/")[2])
    return {directory: sorted(some) for directory, some in names.items()}


def first_of(place: str, varying: Set[str]) -> str | None:
    """The first path on the way to a place whose name differs in each run."""
    return next((over for over in reversed(list(upwards(place))) if over in varying), None) if varying else None
