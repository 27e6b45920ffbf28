"""Where the rule for a path can be, so that it is useful in each run: on the path itself, or above it for a reason."""

from __future__ import annotations

from collections.abc import Iterable, Iterator, Sequence, Set
from dataclasses import dataclass
from enum import Enum

from ..common.layout import shortened
from ..common.trees import ROOT, LinkLoop, Tree, directory_of, upwards
from ..common.wording import some_of
from . import varying
from .remarks import Remark, RemarkKind

_WIDEST_NAME = 120


class Cause(Enum):
    """Why the rule for a path is not on it, in words with the names that it is for."""

    LINK = "for the link {}, since a rule follows it"
    MADE = "for what the run makes there: {}"
    MADE_UP = "for names that differ in each run, as {}"
    OF_PROCESS = "for what a process has under its number, which differs in each run, as {}"
    KINDS = "for {}: a directory in one run, and none in another"
    DOUBT = "for {}: not known whether it is a directory, and the kernel takes its rights on nothing else"
    REPLACED = "the run puts another object at {}: a rule on that path stays with the first one"


@dataclass(frozen=True)
class RulePlace:
    """Where the rule for a path is, the real path, and the reason if these differ."""

    place: str
    path: str
    cause: Cause | None = None


class Placing:
    """Places of rules for what some recordings ask for, each with its tree, the paths, and its processes' numbers."""

    def __init__(self, trees: Sequence[Tree], asked: Sequence[Iterable[str]], pids: Sequence[Set[int]]) -> None:
        self._trees = trees
        self._made = set[str]().union(*(tree.made for tree in trees))
        self._spots = [{path: self._before(tree, path) for path in paths} for tree, paths in zip(trees, asked)]
        places = [{spot.place for spot in spots.values()} for spots in self._spots]
        self._varying = varying.between(places, trees, pids)

    def spot(self, recording: int, path: str) -> RulePlace:
        """Where the rule for a path of a recording is."""
        spot = self._spots[recording][path]
        other = varying.first_of(spot.place, self._varying)
        return spot if other is None else RulePlace(directory_of(other), spot.path, Cause.MADE_UP)

    def new(self, recording: int, directory: str, path: str) -> RulePlace:
        """Where the rule is for a real path that a call of a recording would make in a directory."""
        place = self.spot(recording, directory).place
        return RulePlace(place, path, _cause_of_made(place, path))

    def _before(self, own: Tree, path: str) -> RulePlace:
        """Where a rule can be before the run: by the recording's own tree, then by those of the others."""
        spot = _there_before(own, path)
        for over in reversed(list(upwards(spot.place))):
            if over in self._made:
                return RulePlace(directory_of(over), spot.path, spot.cause or _cause_of_made(directory_of(over), spot.path))
            if self._has_several_kinds(over):
                return RulePlace(directory_of(over), spot.path, spot.cause or Cause.KINDS)
        return spot

    def _has_several_kinds(self, path: str) -> bool:
        """Whether a path leads to a directory in one run and to a file in another: the kernel refuses its rights on a
        file.
        """
        kinds = {_led_to(tree, path) for tree in self._trees} - {None, "sym"} if len(self._trees) > 1 else ()
        return "dir" in kinds and len(kinds) > 1


def _led_to(tree: Tree, path: str) -> str | None:
    """The kind of what a path leads to, as far as its tree knows."""
    try:
        return tree.kind(path) if tree.kind(path) != "sym" else tree.kind(tree.resolved(path))
    except LinkLoop:
        return None


def _may_be_none(tree: Tree, directory: str) -> bool:
    """Whether what is listed as a directory is listed by another name as something else, since nobody knows its kind."""
    return any(not tree.is_dir(name) for name in tree.names(directory))


def _there_before(tree: Tree, path: str) -> RulePlace:
    """Where a rule for a path can be before the run of its recording.

    It is not on a link, not on the files of a process in /proc, not on what may be no directory though it is asked as
    one, and not on what the run makes; for an object that is moved, it is on its place before the move.
    """
    real, process = tree.real(path), varying.of_process(path)
    if process is not None:
        return RulePlace(directory_of(process), real, Cause.OF_PROCESS)
    is_link = tree.kind(path) == "sym"
    there = directory_of(path) if is_link else path
    place, cause = tree.before(there), Cause.LINK if is_link else None
    if place != tree.first.get(there, there) and cause is None:
        cause = Cause.REPLACED if tree.is_replaced(real) else _cause_of_made(place, real)
    elif tree.is_dir(path) and _may_be_none(tree, path):
        place, cause = directory_of(place), Cause.DOUBT
    return RulePlace(place, real, cause)


def _cause_of_made(directory: str, path: str) -> Cause:
    """Why a rule is on a directory above what is made at a path, by the names on the way."""
    return Cause.MADE_UP if any(map(varying.looks_made_up, path.removeprefix(directory).split("/"))) else Cause.MADE


def remarks(place: str, spots: Sequence[RulePlace]) -> Iterator[Remark]:
    """The remarks on a rule, by what it is for."""
    for cause in Cause:
        names = sorted({_named(place, spot) for spot in spots if spot.cause is cause})
        if names:
            named = some_of([shortened(name, _WIDEST_NAME) for name in names])
            yield Remark(RemarkKind.PURPOSE, cause.value.format(named))


def doubtful(place: str) -> tuple[str, Remark] | None:
    """A path on the way to a rule's place whose name looks made up although it existed, with a remark on it."""
    path = next((over for over in upwards(place) if varying.looks_made_up(over.rpartition("/")[2])), None)
    if path is None:
        return None
    said = f"{path} looks like a name that differs in each run: then grant on {directory_of(path)}"
    return path, Remark(RemarkKind.PURPOSE, said)


def _named(place: str, spot: RulePlace) -> str:
    """What a rule is for: its path, relative to the rule's place if that is enough."""
    if spot.cause in (Cause.REPLACED, Cause.LINK, Cause.OF_PROCESS, Cause.DOUBT) or place == ROOT:
        return spot.path
    return spot.path.removeprefix(place + "/")
