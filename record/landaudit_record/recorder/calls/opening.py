"""Opening files: open(2), openat(2), openat2(2), creat(2)."""

from __future__ import annotations

import re
from contextlib import suppress
from dataclasses import dataclass, replace
from typing import Any

from ...common import trace_lines
from .. import values
from ..unwritten import CannotSay, NotAsked
from ..names import KINDS, MADE_OR_THERE, OF_KIND, Node, join, split
from ..processes import Handle, Thread
from ..scene import DEVICES, PROC, Scene, Spot
from ..strace_log import Call
from ..values import Descriptor
from ..writing import TOO_LONG
from . import arguments

O_CREAT = 0o100
O_EXCL = 0o200
O_TRUNC = 0o1000
O_NONBLOCK = 0o4000
O_DIRECTORY = 0o200000
O_NOFOLLOW = 0o400000
O_NOATIME = 0o1000000
O_CLOEXEC = 0o2000000
O_PATH = 0o10000000
O_TMPFILE = 0o20000000 | O_DIRECTORY
MODES = ("r", "w", "rw")
ACCESS_MODE = 0o3
#: With it, the directory of a call is its root (openat2(2)).
RESOLVE_IN_ROOT = 0x10
#: It fails with EAGAIN if a path is not in the cache of names, others if it may lead out of their directory.
RESOLVE_CACHED, RESOLVE_INSIDE = 0x20, 0x18
#: Errors of an open that may have made a file, or would have.
MAY_BE_MADE = frozenset({"EACCES", "EINVAL", "EPERM"})
#: What an object may be at which an open ends in ENXIO: a pipe without a reader, a device without a driver (open(2)).
WITHOUT_READER = ("fifo", "char", "block")
#: Files whose writer gives the kernel the path of another file, which it opens: the interpreter of a format with the
#: flag F (binfmt_misc), what a zram device or a USB gadget stores.
_TAKING_PATHS = re.compile(
    r"/proc/sys/fs/binfmt_misc/register|/sys/(?:block|devices/virtual/block)/zram\d+/backing_dev"
    r"|/sys/kernel/config/usb_gadget/.*/lun\.\d+/file"
)
BY_WRITING = "a file that the kernel opens because its path is written into another one"
#: Openings with these flags do more than open a file to read it.
_NOT_KEPT = ACCESS_MODE | O_CREAT | O_TRUNC | O_PATH | O_TMPFILE
#: The name of a file that O_TMPFILE would have made if it had been allowed.
UNNAMED = "#tmpfile"


@dataclass(slots=True, eq=False)
class _Reopened:
    """A file that was opened only to be read, and what the opening became: programs open the same files over and over.

    `members` are those of the record, and `said` is their text, if the file was opened again. `walk` is by which path
    it was opened, and from which directory, if that was not the path of the file; `turns` are those of `Names` then.
    """

    number: int
    path: str
    over: str
    name: str
    close_on_exec: bool
    node: Node
    turns: int
    members: dict[str, Any]
    walk: tuple[str | None, str] | None
    said: str = ""


def _open(scene: Scene, thread: Thread, call: Call) -> None:
    again = call.understood.of
    if again is None or not _opened_again(scene, thread, call, again):
        _opened(scene, thread, call, *GIVEN[call.name], flags_of(call))


def _opened_again(scene: Scene, thread: Thread, call: Call, again: _Reopened) -> bool:
    """Opens a file as `_opened` does, which a call of the same text has opened before; false if anything about it may
    have changed since.
    """
    names, process, node, number = scene.names, thread.process, again.node, again.number
    if names.turns != again.turns or node.others or node.kind in DEVICES:
        return False
    if thread.layers < len(process.restricted) or (scene.tree.doubted and again.members["path"] in scene.tree.doubted):
        return False
    if again.walk is not None and not scene.has_walked(thread, *again.walk):
        return False
    if not names.meets(again.path, again.over, again.name, node):
        return False
    if not again.said:
        again.said = trace_lines.text_of(again.members)
    if number in process.table:
        scene.close(thread, call, number)
    elif call.closed and not scene.through and not scene.recording.waiting:
        scene.recording.open_briefly(process.pid, call.line, again.members, again.said, call.closed)
        names.line, call.closed = call.closed, 0
        return True
    process.table[number] = Handle(again.path, node, True, "other", again.close_on_exec)
    add = scene.recording.add_open if scene.through else scene.recording.open_last
    add(process.pid, call.line, again.members, again.said)
    return True


def _openat2(scene: Scene, thread: Thread, call: Call) -> None:
    if call.error == "E2BIG":
        raise NotAsked("E2BIG before Landlock is asked")
    member = values.member(call.arguments[2], "resolve")
    resolve = values.number(member) if member is not None else 0
    if _resolve_ends(call, resolve):
        raise NotAsked("a path that openat2 may not resolve so")
    directories = thread.directories
    if resolve & RESOLVE_IN_ROOT:
        directory = values.descriptor(call.arguments[0]).path or directories.directory
        thread.directories = replace(directories, root=directory, directory=directory)
    try:
        _open(scene, thread, call)
    finally:
        thread.directories = directories


def _resolve_ends(call: Call, resolve: int) -> bool:
    """Whether the `resolve` flags of openat2(2) ended a call, before Landlock was asked: with O_NONBLOCK, a file with a
    lease ends it with EAGAIN too, after that (fcntl(2)).
    """
    if call.error == "EAGAIN":
        return bool(resolve & (RESOLVE_CACHED if flags_of(call) & O_NONBLOCK else RESOLVE_CACHED | RESOLVE_INSIDE))
    return bool(resolve) and call.error in ("ELOOP", "EXDEV")


def flags_of(call: Call) -> int:
    """The flags of a call that opens files."""
    match call.name:
        case "creat":
            return O_CREAT | O_TRUNC | 1
        case "openat2":
            flags = values.member(call.arguments[2], "flags")
            return values.number(flags) if flags else 0
    return arguments.number_at(call, 1 if call.name == "open" else 2)


def _opened(scene: Scene, thread: Thread, call: Call, base: int | None, path: int, flags: int) -> None:
    if call.ok:
        result = values.descriptor(f"{call.value}{call.note}")
        scene.put(thread, call, result.number, Handle(result.path, close_on_exec=bool(flags & O_CLOEXEC)))
        gone = None
        if result.deleted and not result.in_memory and flags & O_TMPFILE != O_TMPFILE:
            gone = _gone(scene, thread, call, base, path, flags)
        elif not flags & O_PATH:
            _list_links(scene, thread, call, base, path, result.path)
        spot = succeeded(scene, thread, call, result, flags, gone)
        if spot is not None and not flags & _NOT_KEPT and result.device is None and not result.deleted:
            _keep(scene, thread, call, base, path, result, flags, spot)
    elif not flags & O_PATH:
        _failed(scene, thread, call, base, path, flags)


def _keep(
    scene: Scene, thread: Thread, call: Call, base: int | None, path: int, result: Descriptor, flags: int, spot: Spot
) -> None:
    """Keeps what an opening became; under /proc names change all the time."""
    node, real = spot.node, spot.real
    if node is None or node.others or real[:5] == "/proc":
        return
    walk = None
    if (text := values.text(call.arguments[path])) != real:
        if text is None:
            return
        of = arguments.descriptor_at(call, base)
        walk = (of.path if of is not None else None, text)
    members = _members(spot, result.number, flags, False)
    over, _, name = real.rpartition("/")
    cloexec, turns = bool(flags & O_CLOEXEC), scene.names.turns
    call.understood.of = _Reopened(result.number, real, over, name, cloexec, node, turns, members, walk)


def succeeded(
    scene: Scene, thread: Thread, call: Call, result: Descriptor, flags: int, gone: Node | None = None
) -> Spot | None:
    """A descriptor that is open now: a record, or the data to adopt it if Landlock was not asked.

    `gone` is the object, if it has no name any more. Gives what the record is about, if there is one.
    """
    handle = thread.process.table[result.number]
    if result.behind is None and not flags & O_PATH:
        scene.leave_out(thread, call, TOO_LONG, asks=True)
    if result.path is None or flags & O_PATH:
        handle.adopted = "other"
        handle.node = gone or _found(scene, result, flags)
        return None
    if result.in_memory:
        handle.adopted = "reg"
        return None
    if flags & ACCESS_MODE == ACCESS_MODE:
        _for_ioctl_alone(scene, thread, call, result, flags)
        return None
    node = gone or scene.names.at(result.path)
    handle.unsure = node is None and not flags & (O_CREAT | O_DIRECTORY) and scene.is_unsure(result)
    opened = _Opened(scene.there(result.path, gone)) if gone else _opened_spot(scene, result.path, node, result, flags)
    _say_opened(scene, thread, call, opened, result.number, flags)
    handle.in_trace = True
    handle.node = opened.spot.node
    if opened.made:
        handle.node = Node("reg")
        scene.names.put(result.path, handle.node)
    elif flags & ACCESS_MODE:
        scene.names.rewritten(result.path)
        if _TAKING_PATHS.fullmatch(result.path):
            scene.leave_out(thread, call, BY_WRITING, asks=True)
    return opened.spot


def _found(scene: Scene, result: Descriptor, flags: int) -> Node | None:
    """What a descriptor that does not open it (O_PATH) is of; it is there, of whatever kind."""
    path = result.path
    node = scene.names.at(path) if path is not None else None
    if node is not None or path is None or result.in_memory or split(path)[:1] == (PROC,):
        return node
    if flags & O_DIRECTORY:
        return scene.present(path, "dir").node
    return scene.present(path, "reg", KINDS if flags & O_NOFOLLOW else [kind for kind in KINDS if kind != "sym"]).node


@dataclass(slots=True)
class _Opened:
    """What was opened: an object that was there or, if the call `made` it, the name at which nothing was.

    With `in_doubt`, nobody knows whether the call made the object.
    """

    spot: Spot
    made: bool = False
    in_doubt: bool = False


def _say_opened(scene: Scene, thread: Thread, call: Call, opened: _Opened, number: int, flags: int) -> None:
    """Writes an open; if nobody knows whether it made the file, as both."""
    spot, node = opened.spot, opened.spot.node
    if not opened.in_doubt or node is None:
        _say_open(scene, thread, call, spot, number, flags, opened.made)
        return
    gap = scene.missing(spot.real)
    members = {**_members(spot, number, flags, False), "unknown": MADE_OR_THERE}
    scene.judged(thread, call, "open", members)
    made = {**_members(gap, number, flags, True), "unknown": MADE_OR_THERE}
    scene.say_instead(thread, call, "open", made)
    node.others, node.doubt = (Node("reg"),), MADE_OR_THERE
    scene.names.turns += 1


def _for_ioctl_alone(scene: Scene, thread: Thread, call: Call, result: Descriptor, flags: int) -> None:
    """An open with access mode 3 (open(2)): Landlock is asked neither to read nor to write.

    It is asked to make and to truncate the file. A trace can't say which rights the descriptor of a device has.
    """
    handle = thread.process.table[result.number]
    device = scene.device(result)
    handle.adopted = "device" if device else "other"
    handle.foreign = device is not None
    path = result.path or "/"
    opened = _opened_spot(scene, path, scene.names.at(path), result, flags)
    _say_for_ioctl(scene, thread, call, opened, flags)
    if opened.made:
        handle.node = Node("reg")
        scene.names.put(path, handle.node)


def _say_for_ioctl(scene: Scene, thread: Thread, call: Call, opened: _Opened, flags: int) -> None:
    """What Landlock is asked about an open with access mode 3, if anything."""
    spot, gap = opened.spot, scene.missing(opened.spot.real) if opened.in_doubt else opened.spot
    unknown = {"unknown": MADE_OR_THERE} if opened.in_doubt else {}
    making: dict[str, Any] = {"path": gap.path, "kind": "reg", **arguments.shown(gap), **unknown}
    cut = flags & O_TRUNC and spot.node is not None and spot.node.kind == "reg"
    if opened.made:
        scene.judged(thread, call, "mknod", making)
    elif opened.in_doubt or cut:
        there: dict[str, Any] = {"path": spot.path, **arguments.shown(spot), **unknown}
        scene.judged(thread, call, *(("truncate", there) if cut else ("mknod", there | {"kind": "reg"})))
        if opened.in_doubt:
            scene.say_instead(thread, call, "mknod", making)


def _opened_spot(scene: Scene, path: str, node: Node | None, result: Descriptor, flags: int) -> _Opened:
    """The object that was opened, and whether the call made it; `node` is what is known to be at the path."""
    if node is not None and node.kind == "reg" and result.device is None and not flags & (O_CREAT | O_DIRECTORY):
        scene.names.is_there(path)
        return _Opened(scene.there(path, node))
    if flags & O_CREAT and scene.names.at(directory := path.rpartition("/")[0]) is None:
        scene.present(directory, "dir")
        node = scene.names.at(path)
    if flags & O_CREAT and not scene.names.places.makes_files(path):
        flags &= ~O_CREAT
    if flags & O_TMPFILE == O_TMPFILE:
        return _Opened(_without_name(scene, path))
    if flags & O_CREAT and flags & O_EXCL:
        scene.names.shows(path, None)
        return _Opened(scene.missing(path) if node is None else scene.absent(path), made=True)
    device = scene.device(result)
    if flags & O_CREAT and device is None and scene.names.may_be_made(path):
        return _Opened(scene.present(path, "reg"), in_doubt=True)
    if device is not None:
        return _Opened(scene.present(path, device))
    if flags & O_CREAT and node is None:
        return _Opened(scene.missing(path), made=True)
    if flags & O_DIRECTORY:
        return _Opened(scene.present(path, "dir"))
    if node is not None:
        scene.names.is_there(path)
        return _Opened(scene.there(path, node))
    return _Opened(scene.present(path, "reg", _kinds(flags)))


def _kinds(flags: int) -> tuple[str, ...]:
    """The kinds that an opened object may be of that is no device: a directory can't be opened for writing."""
    if flags & ACCESS_MODE == 0 and not flags & O_TRUNC:
        return ("reg", "dir")
    return ("reg", "fifo") if flags & O_TRUNC else ("reg",)


def _gone(scene: Scene, thread: Thread, call: Call, base: int | None, path: int, flags: int) -> Node:
    """An opened object that has no name any more, as by /proc/self/fd or a removed working directory; a new object if
    it is not known."""
    with suppress(CannotSay):
        found = scene.find(thread, arguments.descriptor_at(call, base), arguments.path_at(call, path), True)
        if found.node is not None:
            return found.node
    if flags & O_DIRECTORY:
        return Node("dir")
    kind, *others = _kinds(flags)
    return Node(kind, others=tuple(Node(other) for other in others), doubt=OF_KIND if others else "")


def _without_name(scene: Scene, path: str) -> Spot:
    """A file that O_TMPFILE makes: Landlock is asked only about the open file, which has a path but no name."""
    directory, _, name = path.rpartition("/")
    return scene.there(path, Node("reg", over=scene.names.at(directory or "/"), name=name))


def _list_links(scene: Scene, thread: Thread, call: Call, base: int | None, path: int, opened: str | None) -> None:
    """Lists the symbolic links by which a path led to the file that was opened, if it led there by any."""
    text = values.text(call.arguments[path])
    if text is not None and text != opened:
        scene.list_links(thread, arguments.descriptor_at(call, base), text)


def _failed(scene: Scene, thread: Thread, call: Call, base: int | None, path: int, flags: int) -> None:
    exclusive = bool(flags & O_CREAT and flags & O_EXCL)
    spot = arguments.spot_at(scene, thread, call, base, path, not flags & O_NOFOLLOW and not exclusive)
    if call.error == "EEXIST":
        raise NotAsked("EEXIST before Landlock is asked")
    unsure = bool(flags & O_CREAT) and not exclusive and scene.names.may_be_made(spot.real)
    spot = _after_failure(scene, call, spot, flags)
    if call.error == "ETXTBSY" and not flags & ACCESS_MODE:
        flags &= ~O_TRUNC
    if _comes_before(call, spot, flags) or (flags & O_CREAT and _makes_nothing(call, spot, path)):
        raise NotAsked(f"{call.error} before Landlock is asked")
    made = spot.node is None and bool(flags & O_CREAT) and call.error != "ELOOP"
    create = made or (call.error == "EISDIR" and bool(flags & O_CREAT))
    if flags & ACCESS_MODE == ACCESS_MODE:
        _say_for_ioctl(scene, thread, call, _Opened(spot, create), flags)
        return
    number = thread.process.made_up()
    if unsure and call.error in MAY_BE_MADE and spot.in_directory:
        there = scene.present(spot.real, "reg")
        _say_opened(scene, thread, call, _Opened(there, in_doubt=True), number, flags)
        made = True
    else:
        _say_open(scene, thread, call, spot, number, flags, create)
    if spot.node is not None or made:
        scene.note_close(thread, call, number)


def _comes_before(call: Call, spot: Spot, flags: int) -> bool:
    """Whether an open failed before Landlock was asked: a program that runs, or an immutable file, can't be written,
    and only its owner reads a file with O_NOATIME. A program that runs is opened for reading before it can't be cut.

    A device says EPERM itself, after Landlock. That no file can be made in an immutable directory comes after it too.
    """
    writes = bool(flags & (ACCESS_MODE | O_TRUNC | O_CREAT))
    on_file = spot.node is not None and spot.node.kind in ("reg", "dir")
    if call.error == "EPERM":
        return on_file and (writes or bool(flags & O_NOATIME))
    return writes and call.error == "ETXTBSY"


def _makes_nothing(call: Call, spot: Spot, path: int) -> bool:
    """Whether an open could not make its file: in a directory that is removed, or by a path that ends in a slash."""
    if call.error == "EISDIR":
        return arguments.path_at(call, path).endswith("/")
    return call.error == "ENOENT" and spot.in_directory


def _after_failure(scene: Scene, call: Call, spot: Spot, flags: int) -> Spot:
    """The object of an open that failed, by the kernel's answer."""
    if call.error == "ENOTDIR" and flags & O_DIRECTORY:
        return scene.missing(spot.real) if spot.node is not None and spot.real != "/" else spot
    if flags & O_TMPFILE == O_TMPFILE:
        there = spot.node is not None and call.error != "ENOENT"
        return _without_name(scene, join([*split(spot.real), UNNAMED])) if there else scene.as_missing(spot)
    if flags & O_CREAT:
        arguments.led_on(scene, call, spot)
        return scene.as_missing(spot) if call.error == "ENOENT" else spot
    if spot.node is not None and spot.node.kind == "sock":
        return scene.as_opened(spot, spot.node)
    if call.error == "ENXIO":
        return arguments.object_at(scene, call, spot, WITHOUT_READER[0], WITHOUT_READER)
    return arguments.object_at(scene, call, spot, "dir" if flags & O_DIRECTORY else "reg", _kinds(flags))


def _members(spot: Spot, number: int, flags: int, create: bool) -> dict[str, Any]:
    """The members of an open, the most frequent record of all: only those that are set."""
    members: dict[str, Any] = {"path": spot.path, "fd": number, "mode": MODES[flags & ACCESS_MODE]}
    if create:
        members["create"] = True
    if flags & O_TRUNC and flags & O_TMPFILE != O_TMPFILE:
        members["trunc"] = True
    if (shown := spot.shown) is not None:
        members["shown"] = shown
    return members


def _say_open(scene: Scene, thread: Thread, call: Call, spot: Spot, number: int, flags: int, create: bool) -> None:
    """Writes an open."""
    scene.judged(thread, call, "open", _members(spot, number, flags, create))


#: Where each call has the descriptor of a directory, if it has one, and its path.
GIVEN: dict[str, tuple[int | None, int]] = {"open": (None, 0), "openat": (0, 1), "openat2": (0, 1), "creat": (None, 0)}

HANDLERS = {"open": _open, "openat": _open, "openat2": _openat2, "creat": _open}
