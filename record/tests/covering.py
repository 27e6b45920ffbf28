"""What the lines of `landaudit-policy diff` cover, by the words of its manual page: read from what is printed.

This knows nothing of how the lines come about, so that calls can be held against what a reader takes them to say.
"""

from __future__ import annotations

import re
from collections.abc import Callable, Iterable
from dataclasses import dataclass

from landaudit_record.common.trees import upwards

from .random_calls import Mount, Move, Need, Port, Right

KINDS = {
    "regular files": "reg",
    "directories": "dir",
    "symbolic links": "sym",
    "character devices": "char",
    "block devices": "block",
    "named pipes": "fifo",
    "sockets": "sock",
}
EVERY_KIND = "objects of every kind"
_AT = re.compile(r"(.*) \(at ABI ([0-9, -]+)\)")
_RIGHTS = re.compile(r"([a-z_, ]+) ((?:under|on) /.*)")
_PORTS = re.compile(r"([a-z_, ]+) on ((?:every )?port.*)")
_MOVES = re.compile(r"moves of ([a-z, ]+?) ((?:from under )?/.*?|from under /.*?) to (under /.*)")
_AREA = re.compile(r"under ([^,]+)(?:, but for (.*))?")


@dataclass(frozen=True)
class Area:
    """`under P, but for Q, R as a file, S itself`: P and all beneath it, without Q and all beneath it, nor R nor S."""

    top: str
    without: frozenset[str]
    not_as_file: frozenset[str]
    not_itself: frozenset[str]

    @classmethod
    def read(cls, text: str) -> Area:
        """The area that a phrase names."""
        found = _AREA.fullmatch(text)
        assert found is not None, text
        out = found[2].split(", ") if found[2] else []
        as_file, itself = (
            frozenset(it.removesuffix(end) for it in out if it.endswith(end)) for end in (" as a file", " itself")
        )
        whole = frozenset(it for it in out if not it.endswith((" as a file", " itself")))
        return cls(found[1], whole, as_file, itself)

    def covers(self, path: str) -> bool:
        """Whether a path is under the area's top and not under what it is without."""
        over = set(upwards(path))
        return self.top in over and not over & self.without

    def has(self, path: str, is_file: bool) -> bool:
        """Whether a right on an object is meant."""
        return self.covers(path) and not (is_file and path in self.not_as_file)

    def gives(self, path: str) -> bool:
        """Whether an object that moves from here is meant: what is beneath, and not the top itself."""
        return self.covers(path) and path != self.top and path not in self.not_itself


@dataclass(frozen=True)
class Line:
    """A line: whether it covers what a call needs, and at which ABIs it holds."""

    text: str
    covers: Callable[[Need], bool]
    abis: frozenset[int]


@dataclass(frozen=True)
class Said:
    """All that a comparison says: what the new policy alone lets pass, and what the old one alone."""

    status: int
    more: tuple[Line, ...]
    less: tuple[Line, ...]

    def covers(self, needs: Iterable[Need], abi: int, more: bool) -> bool:
        """Whether some line covers something of what a call needs."""
        lines = [line for line in (self.more if more else self.less) if abi in line.abis]
        return any(line.covers(need) for need in needs for line in lines)


def read(status: int, text: str, old: str, new: str, abis: Iterable[int]) -> Said:
    """What a comparison prints, of policies by these names at these ABIs."""
    found: dict[str, list[Line]] = {new: [], old: []}
    here: list[Line] | None = None
    first, *rest = text.splitlines()
    if first.startswith("no call differs: "):
        assert not rest, text
        return Said(status, (), ())
    for line in (first, *rest[:-1]):
        if line.startswith("  "):
            assert here is not None, text
            here.append(_line(line.removeprefix("  "), frozenset(abis)))
        else:
            one, _, what = line.partition(" lets ")
            other = old if one == new else new
            assert what in (f"pass what {other} refuses:", f"nothing pass that {other} refuses"), line
            here = found[one] if what.startswith("pass what") else None
    assert rest and re.fullmatch(r"[0-9,]+ calls compared, at ABI [0-9-]+", rest[-1]), text
    return Said(status, tuple(found[new]), tuple(found[old]))


def _line(text: str, abis: frozenset[int]) -> Line:
    at = _AT.fullmatch(text)
    return Line(text, _covers(at[1] if at else text), _abis(at[2]) if at else abis)


def _abis(text: str) -> frozenset[int]:
    """The ABIs of `1-2, 4`."""
    spans = [part.partition("-") for part in text.split(", ")]
    return frozenset(abi for first, _, last in spans for abi in range(int(first), int(last or first) + 1))


#: Lines on what passes once objects are moved or linked, which are about no object at its own path.
ANYWHERE = re.compile(r"(?P<rights>[a-z_, ]+) by the rules? on (?P<objects>/.*), (?:wherever that is moved or linked|"
                      r"if these are moved or linked into one another) \(refused by layer (?P<layer>[0-9]+)\)")
#: The line on a right that passes on whatever can be opened.
OPENED = re.compile(r"ioctl_dev on what is opened after it was moved or linked \(refused by layer [0-9]+\)")
#: The line on moves that may pass by what objects gain.
GAINING = re.compile(r"perhaps moves( from under /.*)? to under /.*, which give [a-z_, ]+ \(refused by layer [0-9]+\)")
#: The line on `refer` where it passes everywhere.
REFERRED = re.compile(r"refer on what is moved or linked after other objects were \(refused by layer [0-9]+\)")
#: Lines on no object at its own path, and on no call that is tried.
_OF_NONE = (ANYWHERE, OPENED, GAINING, REFERRED)
#: The ends of lines on scopes and on the number of layers, which are about no call that is tried.
OF_LAYERS = re.compile(r".*( \(no scope; from ABI 6 on\)| layers are used, and not [0-9]+)")


def _covers(text: str) -> Callable[[Need], bool]:
    """What a line covers, without its ABIs."""
    if any(pattern.fullmatch(text) for pattern in (OF_LAYERS, *_OF_NONE)):
        return lambda need: False
    if text == "mounts":
        return lambda need: isinstance(need, Mount)
    if found := _MOVES.fullmatch(text):
        return _of_moves(found[1], found[2], found[3])
    if found := _PORTS.fullmatch(text):
        return _of_ports(found[1], found[2])
    if found := _RIGHTS.fullmatch(text):
        return _of_rights(found[1], found[2])
    raise AssertionError(f"no line that the manual page knows: {text!r}")


def _of_rights(rights: str, place: str) -> Callable[[Need], bool]:
    """`read_file, execute under /a, but for /a/b`, `execute on /a as a file`."""
    names = rights.split(", ")
    if place.startswith("on "):
        file = place.removeprefix("on ").removesuffix(" as a file")
        return lambda need: isinstance(need, Right) and need.name in names and need.is_file and need.path == file
    area = Area.read(place)
    return lambda need: isinstance(need, Right) and need.name in names and area.has(need.path, need.is_file)


def _of_ports(rights: str, ports: str) -> Callable[[Need], bool]:
    """`connect_tcp on port 80, port 443`, `bind_tcp on every port, but for port 22`."""
    names = rights.split(", ")
    numbers = {int(number) for number in re.findall("[0-9]+", ports)}
    every = ports.startswith("every port")
    return lambda need: isinstance(need, Port) and need.name in names and (need.number in numbers) != every


def _of_moves(what: str, sources: str, targets: str) -> Callable[[Need], bool]:
    """`moves of directories from under /a; /b itself to under /c; to under /d`."""
    kinds = set(KINDS.values()) if what == EVERY_KIND else {KINDS[kind] for kind in what.split(", ")}
    places = sources.split("; ")
    areas = [Area.read(it.removeprefix("from ")) for it in places if it.startswith("from ")]
    alone = {it.removesuffix(" itself").removesuffix(" as a file") for it in places if not it.startswith("from ")}
    to = [Area.read(it.removeprefix("to ")) for it in targets.split("; ")]

    def covers(need: Need) -> bool:
        if not isinstance(need, Move) or need.kind not in kinds or not any(area.covers(need.to) for area in to):
            return False
        return need.path in alone or any(area.gives(need.path) for area in areas)

    return covers
