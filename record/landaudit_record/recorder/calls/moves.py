"""Renaming and linking: rename(2), renameat2(2), link(2), linkat(2)."""

from __future__ import annotations

from typing import Any

from .. import modes
from ..unwritten import CannotSay, NotAsked
from ..names import KINDS, NO_DIRECTORIES, OF_KIND, REPLACED_OR_NOT, Node
from ..processes import Thread
from ..scene import BEFORE_MODES, Scene, Spot
from ..strace_log import Call
from . import arguments

RENAME_NOREPLACE = 1
RENAME_EXCHANGE = 2
RENAME_WHITEOUT = 4
OF_DIRECTORY = "a link of a directory to another directory"


#: Where calls with the descriptors of directories have these and their paths, and where the others have theirs.
_BY_DIRECTORIES, _BY_PATHS = ((0, 1), (2, 3)), ((None, 0), (None, 1))
_WITH_FLAGS = ("renameat2", "linkat")


def _ends(call: Call) -> tuple[tuple[int | None, int], tuple[int | None, int]]:
    """Where a call has what it moves or links, and where it has the new name."""
    return _BY_PATHS if call.name in ("rename", "link") else _BY_DIRECTORIES


def _flags(call: Call) -> int:
    return arguments.number_at(call, 4) if call.name in _WITH_FLAGS else 0


def _rename(scene: Scene, thread: Thread, call: Call) -> None:
    flags = _flags(call)
    exchange = bool(flags & RENAME_EXCHANGE)
    if call.error == "EEXIST" and flags & RENAME_NOREPLACE:
        raise NotAsked("EEXIST before Landlock is asked")
    moved, target = (arguments.name_at(scene, thread, call, *end) for end in _ends(call))
    if call.ok and moved.node is not target.node:
        target = _as_before(scene, target)
    if call.ok and exchange:
        moved = _as_before(scene, moved) if moved.node is not target.node else moved
        scene.names.seen_exchanged(moved.real, target.real, call.end)
    moved = _source(scene, call, moved, target, exchange)
    if exchange and call.error != "ENOENT":
        target = _as_seen_later(scene, call, target, moved.real)
        target = arguments.object_at(scene, call, target, "reg", KINDS)
    elif call.ok and flags & RENAME_NOREPLACE:
        scene.names.shows(target.real, None)
        target = scene.absent(target.real)
    if moved.node is not None and moved.node is target.node and moved.real == target.real:
        _say_move(scene, thread, call, "rename", moved, scene.missing(target.real), False)
        return
    if not exchange and _are_unlike(call, moved, target):
        _say_unlike(scene, thread, call, moved, target)
        return
    if flags & RENAME_WHITEOUT and scene.names.whiteouts == "reg":
        _say_whiteout(scene, thread, call, moved)
    if call.ok and moved.node is not None and not exchange and scene.names.may_be_replaced(target.real):
        target = _say_both(scene, thread, call, moved, moved.node, target)
    else:
        _say_move(scene, thread, call, "rename", moved, target, exchange)
    if call.ok and moved.node is not target.node:
        _take_place(scene, moved, target, exchange)
    if call.ok and flags & RENAME_WHITEOUT:
        scene.names.put(moved.real, Node(scene.names.whiteouts))


def _as_before(scene: Scene, spot: Spot) -> Spot:
    """What was at a name before a call that puts another object there, if it was seen only after it."""
    node = scene.names.apart(spot.real)
    return scene.there(spot.real, node) if node is not None and node is not spot.node else spot


#: Errors of a rename of a directory to what is none, and of the reverse.
_UNLIKE = frozenset({"EISDIR", "ENOTDIR"})


def _are_unlike(call: Call, moved: Spot, target: Spot) -> bool:
    """Whether a rename would put a directory in the place of an object that is none, or the reverse, and neither is
    above the other, which the kernel finds before it asks Landlock.
    """
    one, other = moved.node, target.node
    if call.ok or one is None or target.real.startswith(f"{moved.real}/") or moved.real.startswith(f"{target.real}/"):
        return False
    if call.error in _UNLIKE:
        return target.in_directory
    return other is not None and not (one.others or other.others) and (one.kind == "dir") != (other.kind == "dir")


def _say_unlike(scene: Scene, thread: Thread, call: Call, moved: Spot, target: Spot) -> None:
    """A rename that can replace nothing since only one of both objects is a directory, as the kernel finds after it has
    asked Landlock: about the removal of what is at the new name, and about the move.
    """
    directory = target.node.kind == "dir" if target.node is not None else call.error == "EISDIR"
    removed = target if target.node is not None else scene.stand_in(target, "dir" if directory else "reg")
    scene.say(thread, call, "rmdir" if directory else "unlink", path=removed.path, **arguments.shown(removed))
    _say_move(scene, thread, call, "rename", moved, scene.missing(target.real), False)


def _say_both(scene: Scene, thread: Thread, call: Call, moved: Spot, node: Node, target: Spot) -> Spot:
    """A rename of which nobody knows whether it replaced an object: as one that did, and as one that did not."""
    gap = scene.missing(target.real)
    scene.names.settle(target.real)
    target = scene.present(target.real, node.kind)
    if node.doubt == OF_KIND and target.node is not None:
        target.node.others, target.node.doubt = (Node("dir"),), OF_KIND
    shown = arguments.shown(moved, target)
    members: dict[str, Any] = {"from": moved.path, "to": target.path, **shown, "unknown": REPLACED_OR_NOT}
    scene.judged(thread, call, "rename", members)
    scene.say_instead(thread, call, "rename", *scene.each({**members, "to": gap.path, "shown_to": gap.shown}))
    return target


def _say_whiteout(scene: Scene, thread: Thread, call: Call, moved: Spot) -> None:
    """The whiteout that a rename leaves: a kernel that guards whiteouts as files asks `make_reg` at the old name."""
    gap = scene.missing(moved.real)
    scene.say(thread, call, "mknod", path=gap.path, kind="reg", **arguments.shown(gap))


def _take_place(scene: Scene, moved: Spot, target: Spot, exchange: bool) -> None:
    """Gives objects their new names; open descriptors in a directory, and processes that work in it, move along."""
    moves = {moved.real: target.real}
    if exchange:
        scene.names.exchange(moved.real, target.real)
        moves[target.real] = moved.real
    else:
        if target.node is not None and moved.node is not None:
            scene.names.is_of(target.node, *(("dir",) if moved.node.kind == "dir" else NO_DIRECTORIES))
        scene.names.move(moved.real, target.real)
    for path in moves.values():
        scene.names.stays(path)
    if "dir" in [one.node.kind for one in (moved, target) if one.node is not None]:
        scene.moved(moves)
    for one in (moved, target):
        if one.node is not None and one.node.kind != "dir" and one.real in moves:
            scene.renamed(one.node, one.real, moves[one.real])


def _source(scene: Scene, call: Call, source: Spot, target: Spot, exchange: bool) -> Spot:
    """The object that is moved or linked. ENOENT is about it if everything else that the call needs exists."""
    if call.error == "ENOENT" and target.node is None and (exchange or not target.in_directory):
        return source
    return arguments.object_at(scene, call, _as_seen_later(scene, call, source, target.real), "reg", KINDS)


def _as_seen_later(scene: Scene, call: Call, spot: Spot, at: str) -> Spot:
    """An object of which it isn't known of what kind it is, as what was seen later at the name that a call gives it."""
    is_known = spot.node is not None and spot.node.doubt != OF_KIND
    seen = scene.names.seen_later(at) if call.ok and not is_known else None
    if seen is None:
        return spot
    kind = scene.names.kind(seen.kind)
    if spot.node is not None:
        scene.names.is_of(spot.node, kind)
    elif spot.in_directory:
        spot = scene.present(spot.real, kind)
        if spot.node is not None:
            spot.node.target = seen.target
    return spot


def _say_move(scene: Scene, thread: Thread, call: Call, op: str, start: Spot, end: Spot, exchange: bool) -> None:
    members: dict[str, Any] = {"from": start.path, "to": end.path, "exchange": exchange, **arguments.shown(start, end)}
    if not scene.may_ask_before_modes(thread, call, op, start, end):
        scene.judged(thread, call, op, members)
        return
    members["unknown"] = BEFORE_MODES
    gap = scene.missing(start.real)
    scene.judged(thread, call, op, members)
    scene.say_instead(thread, call, op, {**members, "from": gap.path, "shown": gap.shown})


def _link(scene: Scene, thread: Thread, call: Call) -> None:
    flags, (start, end) = _flags(call), _ends(call)
    follow = bool(flags & arguments.AT_SYMLINK_FOLLOW)
    source = arguments.spot_at(scene, thread, call, *start, follow)
    target = arguments.name_at(scene, thread, call, *end)
    if call.ok and source.node is None and (follow or flags & arguments.AT_EMPTY_PATH):
        scene.names.put(target.real, Node("reg"))
        raise CannotSay("a link of a file that has no name")
    if not (call.error == "ENOENT" and _has_no_name(scene, source)):
        source = _source(scene, call, source, target, False)
    if call.error == "EPERM" and _is_protected(scene, thread, source):
        raise NotAsked("EPERM of a protected hard link, before Landlock is asked")
    if call.ok:
        scene.names.shows(target.real, None)
    if call.ok and target.node is not None:
        target = scene.absent(target.real)
    elif call.error == "EEXIST" and target.node is None and target.in_directory:
        target = scene.present(target.real, "reg")
    if not call.ok and source.node is not None and source.node.kind == "dir" and target.node is None:
        _say_directory(scene, thread, call, source, target)
        return
    _say_move(scene, thread, call, "link", source, target, False)
    if call.ok:
        scene.names.put(target.real, source.node)
        scene.names.stays(target.real)


def _is_protected(scene: Scene, thread: Thread, source: Spot) -> bool:
    """Whether the kernel lets a process link no such object of another user, which it finds before it asks Landlock."""
    asker, node = thread.user.asker, source.node
    if asker is None or node is None or not scene.protects_links:
        return False
    return modes.forbid_link(asker, scene.disk.mode(source.real), node.kind)


def _has_no_name(scene: Scene, source: Spot) -> bool:
    """Whether a descriptor leads to a file that has no name any more, or never had one: it may get none, as the kernel
    says by ENOENT after it has asked Landlock.
    """
    return source.node is not None and scene.names.at(source.real) is not source.node


def _say_directory(scene: Scene, thread: Thread, call: Call, source: Spot, target: Spot) -> None:
    """A link of a directory, which no file system makes: the kernel says so after it has asked Landlock about one."""
    if source.real.rpartition("/")[0] != target.real.rpartition("/")[0]:
        raise CannotSay(OF_DIRECTORY)
    scene.say(thread, call, "mkdir", path=target.path, **arguments.shown(target))


HANDLERS = {"rename": _rename, "renameat": _rename, "renameat2": _rename, "link": _link, "linkat": _link}
