"""Puts many kinds of refused calls into few groups: by the rights that are lacking and the directory above the paths.

A reader would write one rule for a group. Its directory is the deepest one above all its paths. A group is split, while
there are few groups, if its directory is near the root or if one directory below has most of the group. What processes
have under their numbers in /proc stays together, since a rule on a number helps no other run.
"""

from __future__ import annotations

import heapq
import posixpath
from collections import Counter, defaultdict
from collections.abc import Iterable, Sequence
from dataclasses import dataclass
from typing import NamedTuple

from ..audit.summary import Refusal
from ..common.rights import FILE_RIGHTS
from ..common.trees import ROOT, joined
from ..engine.answers import Closed, Gained, Kept, Missing, Objection
from ..suggest import varying

#: The most groups that splitting makes.
FEW = 12
#: A directory with fewer names than this is near the root and says little.
_NEAR_ROOT = 2
#: A directory that has this share of a group says more than the one above it.
_MOST = 0.75
#: The one branch of all that is under the numbers of processes.
_OF_A_PROCESS = "PID"


class Lacked(NamedTuple):
    """What a layer objects to without its place, in words: the rights. The layer is named if others object otherwise."""

    layer: str
    objection: tuple[str, ...]

    @property
    def words(self) -> tuple[str, ...]:
        """The words, the first with the layer before it."""
        first, *others = self.objection
        return (f"{self.layer}: {first}" if self.layer else first, *others)

    def __str__(self) -> str:
        return ", ".join(self.words)


class Lacking(NamedTuple):
    """What the calls of a group have in common: the objections, the error, and the layers."""

    objections: tuple[Lacked, ...]
    error: str
    layers: tuple[str, ...]
    of_files: bool
    on_ports: bool


@dataclass(frozen=True)
class RefusedKind:
    """A kind of refused calls: where each objection is, its calls by program, and its place in the trace's order."""

    spots: tuple[str, ...]
    programs: Counter[str]
    order: int
    refusal: Refusal


@dataclass(frozen=True)
class RefusedGroup:
    """Kinds of refused calls that lack the same; the first spot of each is at or below the directory."""

    lacking: Lacking
    directory: str
    kinds: tuple[RefusedKind, ...]

    @property
    def programs(self) -> Counter[str]:
        """The programs of its calls, with how many each makes."""
        return sum((kind.programs for kind in self.kinds), Counter[str]())

    @property
    def order(self) -> int:
        """The place of its first call in the order of the trace."""
        return min(kind.order for kind in self.kinds)

    @property
    def spots(self) -> list[str]:
        """The paths or ports of its first objection, each once."""
        return list(dict.fromkeys(kind.spots[0] for kind in self.kinds if kind.spots))

    @property
    def others(self) -> list[str]:
        """The directory above the paths of each further objection."""
        return [_common([kind.spots[index] for kind in self.kinds]) for index in range(1, len(self.kinds[0].spots))]


def grouped(refusals: Iterable[tuple[Refusal, Counter[str]]]) -> list[RefusedGroup]:
    """The groups of some refusals, which are in the order of the trace.

    The group of the first call comes first, since the program breaks there; then come the groups with the most calls.
    """
    found: defaultdict[Lacking, list[RefusedKind]] = defaultdict(list)
    for order, (refusal, programs) in enumerate(refusals):
        lacking, spots = _lacking(refusal)
        found[lacking].append(RefusedKind(spots, programs, order, refusal))
    groups = _apart([_group(lacking, kinds) for lacking, kinds in found.items()])
    return sorted(groups, key=lambda group: (group.order > 0, -group.programs.total(), group.order))


def _lacking(refusal: Refusal) -> tuple[Lacking, tuple[str, ...]]:
    """What a refusal lacks, and where."""
    if refusal.condition is not None:
        return Lacking((Lacked("", (str(refusal.condition),)),), refusal.error, (), False, False), ()
    by_layer = [(layer.name, layer.objections) for layer in refusal.layers]
    if len({objections for _, objections in by_layer}) == 1:
        by_layer = [("", by_layer[0][1])]
    said = [(name, *_objection(one)) for name, objections in by_layer for one in objections]
    objections = [one for _, objections in by_layer for one in objections]
    rights = {right for one in objections if isinstance(one, Missing) for right in one.rights}
    lacking = Lacking(
        tuple(Lacked(name, words) for name, words, _ in said),
        refusal.error,
        tuple(layer.name for layer in refusal.layers),
        rights <= FILE_RIGHTS,
        any(isinstance(one, Closed) for one in objections),
    )
    return lacking, tuple(spot for _, _, spot in said if spot)


def _objection(objection: Objection) -> tuple[tuple[str, ...], str]:
    """The objection of a layer in words, one for each right, and where it is."""
    match objection:
        case Missing(rights=rights, path=path):
            return rights, path
        case Closed(rights=rights, port=port):
            return rights, str(port)
        case Gained(rights=(first, *others), directory=directory):
            return (f"would gain {first}", *others), directory
        case Kept(rights=(right,), path=path):
            return (f"{right} when it was opened",), path
    return (str(objection),), ""


def _common(paths: Sequence[str]) -> str:
    """The deepest directory above some paths, or the path itself if they are all the same; "" if they are not paths."""
    return posixpath.commonpath(paths) if paths and all(path.startswith(ROOT) for path in paths) else ""


def _group(lacking: Lacking, kinds: Sequence[RefusedKind]) -> RefusedGroup:
    return RefusedGroup(lacking, _common([spot for kind in kinds for spot in kind.spots[:1]]), tuple(kinds))


def _apart(groups: list[RefusedGroup]) -> list[RefusedGroup]:
    """Splits the loosest groups, those nearest to the root first, while there are few groups."""
    done: list[RefusedGroup] = []
    waiting = [_loosest_first(group) for group in groups]
    heapq.heapify(waiting)
    while waiting:
        group = heapq.heappop(waiting)[-1]
        smaller = _branches(group)
        few = len(done) + len(waiting) + len(smaller) <= FEW
        if len(smaller) > 1 and (group.directory == ROOT or few and _is_loose(group, smaller)):
            for one in smaller:
                heapq.heappush(waiting, _loosest_first(one))
        else:
            done.append(group)
    return done


def _loosest_first(group: RefusedGroup) -> tuple[int, int, int, RefusedGroup]:
    """The key by which groups are ordered for splitting; no two groups have the same first call."""
    return _depth(group.directory), -len(group.kinds), group.order, group


def _depth(directory: str) -> int:
    return len([name for name in directory.split("/") if name])


def _is_loose(group: RefusedGroup, smaller: Sequence[RefusedGroup]) -> bool:
    """Whether a group is too wide: its directory is near the root, or one directory below has most of it."""
    below = [len(one.kinds) for one in smaller if one.directory != group.directory]
    return _depth(group.directory) < _NEAR_ROOT or max(below, default=0) >= _MOST * len(group.kinds)


def _branches(group: RefusedGroup) -> list[RefusedGroup]:
    """The groups below a group's directory, and what is in the directory itself."""
    if not group.directory:
        return [group]
    found: defaultdict[str, list[RefusedKind]] = defaultdict(list)
    start = len(group.directory.rstrip("/")) + 1
    for kind in group.kinds:
        branch, slash, _ = kind.spots[0][start:].partition("/")
        is_numbered = varying.of_process(joined(group.directory, branch)) is not None
        found[_OF_A_PROCESS if is_numbered else branch if slash else ""].append(kind)
    inside = [RefusedGroup(group.lacking, group.directory, tuple(found.pop("")))] if "" in found else []
    return [*inside, *(_group(group.lacking, kinds) for kinds in found.values())]
