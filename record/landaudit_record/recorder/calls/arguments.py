"""Arguments that many calls have: a path, a directory's descriptor with a path, flags."""

from __future__ import annotations

from collections.abc import Sequence

from .. import values
from ..names import UnknownWay
from ..processes import Thread
from ..scene import NO_PATH, Scene, Spot
from ..strace_log import Call
from ..unwritten import CannotSay, NotAsked
from ..values import Descriptor
from .invalid import is_invalid

AT_EMPTY_PATH = 0x1000
AT_SYMLINK_FOLLOW = 0x400
AT_SYMLINK_NOFOLLOW = 0x100

#: Errors with which a call fails before the kernel has looked at its paths.
_BEFORE_PATHS = frozenset({"EBADF", "EFAULT", "EMFILE", "ENAMETOOLONG", "ENFILE", "ENOSYS"})

#: The error of a call that would change a file system which is mounted read-only; the kernel finds it first.
READ_ONLY = "EROFS"

#: Calls by which the kernel asks Landlock for the removal of a directory before it sees that there is none.
REMOVING = frozenset({"rmdir", "unlinkat"})

#: Errors that may mean that a path led nowhere.
NOT_REACHED = frozenset({"ENOENT", "ENOTDIR", "ELOOP"})


#: The argument that is the path of a program: the kernel opens the program before it reads the other arguments.
_PROGRAM = {"execve": 0, "execveat": 1}


def is_before_paths(call: Call) -> bool:
    """Whether a call failed before the kernel looked at its paths."""
    if call.error == "EFAULT" and call.name in _PROGRAM:
        return values.text(call.arguments[_PROGRAM[call.name]]) is None
    return call.error in _BEFORE_PATHS or (call.error == "EINVAL" and is_invalid(call))


def path_at(call: Call, index: int) -> str:
    """The path that an argument is."""
    path = values.text(call.arguments[index])
    if path is None:
        raise CannotSay("a path that could not be read")
    return path


def number_at(call: Call, index: int) -> int:
    """The number that an argument is; 0 where the call has no such argument."""
    argument = call.arguments.get(index)
    return 0 if argument is None else values.number(argument)


def spot_at(scene: Scene, thread: Thread, call: Call, base: int | None, path: int, follow: bool) -> Spot:
    """What a path argument names, from the directory that the argument `base` is a descriptor of."""
    return scene.spot(thread, descriptor_at(call, base), _asked_path(call, path), follow)


def _asked_path(call: Call, index: int) -> str:
    """The path that an argument is, unless the call failed before Landlock was asked."""
    if call.error == READ_ONLY or is_before_paths(call):
        raise NotAsked(f"{call.error} before Landlock is asked")
    named = path_at(call, index)
    if call.error == "ENOTDIR" and named.endswith("/") and call.name not in REMOVING:
        raise NotAsked("ENOTDIR of a path that ends in a slash, before Landlock is asked")
    return named


def name_at(scene: Scene, thread: Thread, call: Call, base: int | None, path: int) -> Spot:
    """What a path argument of a call that makes, moves or removes a name stands for: a link there is not followed, even
    if a slash is behind it.

    If the path ends in no name, as `x/..`, such a call fails before Landlock is asked (`LAST_NORM` in the kernel's
    fs/namei.c).
    """
    named = _asked_path(call, path)
    name = named.rstrip("/")
    spot = scene.spot(thread, descriptor_at(call, base), name or named, False)
    if name.rpartition("/")[2] in ("", ".", ".."):
        raise NotAsked("a path that ends in no name, before Landlock is asked")
    return spot


def object_at(scene: Scene, call: Call, spot: Spot, kind: str, among: Sequence[str] = ()) -> Spot:
    """The object that a call needs; the kernel's answer decides whether it exists.

    The kernel looks for the object before it asks Landlock: so if it answers anything but that nothing is there, the
    object exists. `among` are the kinds of which it may be, if nothing else says what it is.
    """
    if values.is_in_memory(spot.real):
        raise NotAsked(NO_PATH)
    if call.error == "ENOENT":
        return scene.as_missing(spot)
    led_on(scene, call, spot)
    if spot.node is None and spot.in_directory and call.error not in NOT_REACHED:
        return scene.present(spot.real, kind, among)
    return spot


def led_on(scene: Scene, call: Call, spot: Spot) -> None:
    """Checks that a path led on, if its call succeeded or failed by what it led to: else something on its way was not
    what it is taken to be. Modes may end a way before that.

    Where a path through another process leads is not known anyway, and is counted.
    """
    if spot.in_directory or scene.through or call.error in NOT_REACHED:
        return
    if not (call.error == "EACCES" and scene.may_end_by_modes(scene.threads[call.tid], spot)):
        raise UnknownWay


def descriptor_at(call: Call, index: int | None) -> Descriptor | None:
    """The descriptor that an argument is, if the call has one."""
    return None if index is None else values.descriptor(call.arguments[index])


def shown(spot: Spot, to: Spot | None = None) -> dict[str, str | None]:
    """The members with the real paths of a record."""
    return {"shown": spot.shown} if to is None else {"shown": spot.shown, "shown_to": to.shown}
