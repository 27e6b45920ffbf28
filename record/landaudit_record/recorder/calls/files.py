"""Making, removing and truncating objects by their paths, and working directories."""

from __future__ import annotations

import stat

from .. import values
from ..disk import kind_of
from ..unwritten import CannotSay, NotAsked
from ..names import KINDS, NO_DIRECTORIES, Node
from ..processes import Thread
from ..scene import Scene, Spot
from ..strace_log import Call
from . import arguments

AT_REMOVEDIR = 0x200
AF_UNIX = 1
#: The errors by which the kernel removes nothing although the call is for what is there (rmdir(2), unlink(2)).
_AFTER_KIND = frozenset({"EBUSY", "EEXIST", "ENOTEMPTY"})


def _made(scene: Scene, thread: Thread, call: Call, op: str, spot: Spot, node: Node, **members: str) -> None:
    """A call that makes an object under a name."""
    arguments.led_on(scene, call, spot)
    if call.ok:
        scene.names.shows(spot.real, None)
    if call.ok and spot.node is not None:
        spot = scene.absent(spot.real)
    elif call.error == "EEXIST" and spot.node is None and spot.in_directory:
        spot = scene.present(spot.real, "reg", KINDS)
    elif call.ok:
        scene.names.settle(spot.real)
    elif call.error == "ENOENT" and spot.in_directory:
        raise NotAsked("ENOENT in a directory that is removed, or of a path that ends in a slash")
    scene.say(thread, call, op, path=spot.path, **members, **arguments.shown(spot))
    if call.ok:
        scene.names.put(spot.real, node)


def _name(scene: Scene, thread: Thread, call: Call) -> Spot:
    """The name that a call makes or removes."""
    return arguments.name_at(scene, thread, call, *_NAMES[call.name])


def _mkdir(scene: Scene, thread: Thread, call: Call) -> None:
    _made(scene, thread, call, "mkdir", _name(scene, thread, call), Node("dir"))


def _mknod(scene: Scene, thread: Thread, call: Call) -> None:
    spot, mode = _name(scene, thread, call), _NAMES[call.name][1] + 1
    wanted = stat.S_IFMT(arguments.number_at(call, mode)) or stat.S_IFREG
    if wanted == stat.S_IFDIR:
        raise NotAsked("mknod of a directory")
    device = call.arguments[mode + 1] if mode + 1 < len(call.arguments) else "0"
    kind = scene.names.kind(kind_of(wanted, 0 if device.split(" ", 1)[0] in ("0", "0x0") else 1))
    _made(scene, thread, call, "mknod", spot, Node(kind), kind=kind)


def _symlink(scene: Scene, thread: Thread, call: Call) -> None:
    spot = _name(scene, thread, call)
    _made(scene, thread, call, "symlink", spot, Node("sym", target=arguments.path_at(call, 0)))


def bound(scene: Scene, thread: Thread, call: Call) -> None:
    """A UNIX socket that is bound to a name is made like any other object (bind(2), unix(7))."""
    path = values.member(call.arguments[1], "sun_path")
    name = values.text(path) if path is not None else None
    if call.error == arguments.READ_ONLY:
        raise NotAsked("EROFS before Landlock is asked")
    if name and not arguments.is_before_paths(call):
        spot = scene.spot(thread, None, name.rstrip("/") or name, False)
        _made(scene, thread, call, "mknod", spot, Node("sock"), kind="sock")


def _remove(scene: Scene, thread: Thread, call: Call) -> None:
    op = call.name
    if op == "unlinkat":
        op = "rmdir" if arguments.number_at(call, 2) & AT_REMOVEDIR else "unlink"
    named = _name(scene, thread, call)
    if call.ok and op == "rmdir":
        scene.names.shows_empty(named.real)
    spot = _removed(scene, call, op, named)
    scene.say(thread, call, op, path=spot.path, **arguments.shown(spot))
    if call.ok and spot.node is not None:
        scene.names.is_of(spot.node, *(("dir",) if op == "rmdir" else NO_DIRECTORIES))
    if call.ok:
        scene.names.put(spot.real, None)


def _removed(scene: Scene, call: Call, op: str, spot: Spot) -> Spot:
    """The object that a call removes. If it is a directory and may be none, or the reverse, the call fails, but only
    after the kernel has asked Landlock about the removal of what the call is for: so a refusal does not tell its kind.
    """
    directory = op == "rmdir"
    if call.error == "EISDIR":
        if arguments.path_at(call, _NAMES[call.name][1]).endswith("/"):
            raise NotAsked("EISDIR of a path that ends in a slash, before Landlock is asked")
        arguments.object_at(scene, call, spot, "dir")
        return scene.stand_in(spot, "reg")
    if call.error == "ENOTDIR" and directory and spot.in_directory:
        return scene.stand_in(spot, "dir")
    kind = "dir" if directory else "reg"
    is_known = call.ok or call.error in _AFTER_KIND
    spot = arguments.object_at(scene, call, spot, kind if is_known else "reg", () if is_known else KINDS)
    if spot.node is None or (is_known and spot.node.others):
        return spot
    return spot if not spot.node.others and (spot.node.kind == "dir") is directory else scene.stand_in(spot, kind)


def _truncate(scene: Scene, thread: Thread, call: Call) -> None:
    if call.error in ("ETXTBSY", "EPERM"):
        raise NotAsked(f"{call.error} before Landlock is asked")
    spot = arguments.object_at(scene, call, arguments.spot_at(scene, thread, call, None, 0, True), "reg")
    scene.say(thread, call, "truncate", path=spot.path, **arguments.shown(spot))
    if call.ok and spot.node is not None:
        scene.names.is_of(spot.node, "reg")
    scene.names.rewritten(spot.real)


def _chdir(scene: Scene, thread: Thread, call: Call) -> None:
    if not call.ok:
        return
    try:
        directory = arguments.spot_at(scene, thread, call, None, 0, True).real
    except CannotSay:
        thread.directories.unsure = True
        raise
    scene.go_to(thread, directory)


def _fchdir(scene: Scene, thread: Thread, call: Call) -> None:
    path = values.descriptor(call.arguments[0]).path
    if call.ok and path is not None:
        scene.go_to(thread, path)


def _chroot(scene: Scene, thread: Thread, call: Call) -> None:
    if call.ok:
        thread.directories.root = arguments.spot_at(scene, thread, call, None, 0, True).real


#: Where calls on a name have the descriptor of its directory, if they have one, and the name.
_NAMES: dict[str, tuple[int | None, int]] = {
    **dict.fromkeys(("mkdir", "mknod", "unlink", "rmdir"), (None, 0)),
    **dict.fromkeys(("mkdirat", "mknodat", "unlinkat"), (0, 1)),
    "symlink": (None, 1),
    "symlinkat": (1, 2),
}

HANDLERS = {
    **dict.fromkeys(("mkdir", "mkdirat"), _mkdir),
    **dict.fromkeys(("mknod", "mknodat"), _mknod),
    **dict.fromkeys(("symlink", "symlinkat"), _symlink),
    **dict.fromkeys(("unlink", "rmdir", "unlinkat"), _remove),
    "truncate": _truncate,
    "truncate64": _truncate,
    "chdir": _chdir,
    "fchdir": _fchdir,
    "chroot": _chroot,
}
