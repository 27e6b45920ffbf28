"""Calls for which the kernel asks Landlock in ways that a trace can't express, or only in part.

Some can be written: the file that the kernel opens for swapon(2), swapoff(2) or acct(2), and a file that is opened by a
handle whose path was seen. The others are counted.
"""

from __future__ import annotations

from .. import values
from ..unwritten import CannotSay, NotAsked
from ..processes import Handle, Thread
from ..scene import Scene, Spot
from ..strace_log import Call
from ..values import Descriptor
from . import arguments, opening, scopes

IORING_SETUP_SQPOLL = 2
SWAP_FLAGS = 0x7FFFF
BPF_OBJ_PIN = 6
MSG_FASTOPEN = 0x20000000
SECCOMP_SET_MODE_FILTER, SECCOMP_FILTER_FLAG_NEW_LISTENER = 1, 8
FAN_REPORT_FID, FAN_REPORT_DIR_FID = 0x200, 0x400

BY_IO_URING = "calls that io_uring makes"
BY_HANDLE = "a file that is opened by its handle"
BY_FANOTIFY = "files that fanotify opens for its events"
BY_SENDING = "a connection that a send opens (MSG_FASTOPEN)"
BY_SUPERVISOR = "calls that a supervisor may let the kernel make unseen (seccomp_unotify)"
QUEUE = "a message queue that mq_open opens"
PINNED = "an object that bpf gives a name"
LIBRARY = "a library that uselib loads"
WITHOUT_FOLDERS = "a file that acct opens a second time: only rules on the file itself count (Linux 6.18)"

#: Errors with which open_by_handle_at(2) fails before it opens something.
BEFORE_OPENING = frozenset({"EBADF", "EFAULT", "EINVAL", "ELOOP", "EOPNOTSUPP", "EOVERFLOW", "EPERM", "ESTALE"})


def _io_uring_setup(scene: Scene, thread: Thread, call: Call) -> None:
    """With a thread of its own, the kernel takes entries without a system call."""
    flags = values.member(call.arguments[1], "flags")
    if call.ok and flags is not None and values.number(flags) & IORING_SETUP_SQPOLL:
        raise CannotSay(BY_IO_URING)


def _io_uring_enter(scene: Scene, thread: Thread, call: Call) -> None:
    if call.ok and arguments.number_at(call, 1):
        raise CannotSay(BY_IO_URING)


def _name_to_handle_at(scene: Scene, thread: Thread, call: Call) -> None:
    """Keeps the object of a handle; nobody knows which it is if another object has the same, in another file system."""
    handle = values.member(call.arguments[2], "f_handle")
    if call.ok and handle is not None:
        follow = bool(arguments.number_at(call, 4) & arguments.AT_SYMLINK_FOLLOW)
        node = arguments.spot_at(scene, thread, call, 0, 1, follow).node
        scene.handles[handle] = node if scene.handles.get(handle, node) is node else None


def _open_by_handle_at(scene: Scene, thread: Thread, call: Call) -> None:
    if call.error in BEFORE_OPENING:
        raise NotAsked(f"{call.error} before Landlock is asked")
    if call.ok and call.value is not None:
        scene.close(thread, call, call.value)
    handle = values.member(call.arguments[1], "f_handle")
    node = scene.handles.get(handle) if handle is not None else None
    path = scene.names.path_of(node) if node is not None else None
    if path is None or node is None:
        raise CannotSay(BY_HANDLE)
    flags = arguments.number_at(call, 2)
    if call.ok and call.value is not None:
        handle_at = Handle(path, close_on_exec=bool(flags & opening.O_CLOEXEC))
        scene.put(thread, call, call.value, handle_at)
        opening.succeeded(scene, thread, call, Descriptor(call.value, path), flags)
    elif not flags & opening.O_PATH and flags & opening.ACCESS_MODE < len(opening.MODES):
        mode = opening.MODES[flags & opening.ACCESS_MODE]
        _opened_and_closed(scene, thread, call, scene.there(path, node), mode)


def _opened_and_closed(scene: Scene, thread: Thread, call: Call, spot: Spot, mode: str) -> None:
    """A file that is opened under a number that the process never has."""
    number = thread.process.made_up()
    scene.say(thread, call, "open", path=spot.path, fd=number, mode=mode, **arguments.shown(spot))
    if spot.node is not None:
        scene.note_close(thread, call, number)


def _swap(scene: Scene, thread: Thread, call: Call) -> None:
    """The kernel opens the file or device that it swaps to, or that it stops to swap to, for reading and writing."""
    has_flags = call.name == "swapon"
    if call.error == "EPERM" or (has_flags and call.error == "EINVAL" and arguments.number_at(call, 1) & ~SWAP_FLAGS):
        raise NotAsked(f"{call.error} before Landlock is asked")
    _opened_inside(scene, thread, call, "rw")


def _acct(scene: Scene, thread: Thread, call: Call) -> None:
    """The kernel opens the file that it will write to; without one it stops writing."""
    if call.arguments[0] == "NULL":
        return
    if call.error == "EPERM":
        raise NotAsked(f"{call.error} before Landlock is asked")
    _opened_inside(scene, thread, call, "w")
    if call.error != "ENOENT":
        scene.leave_out(thread, call, WITHOUT_FOLDERS, asks=True)


def _opened_inside(scene: Scene, thread: Thread, call: Call, mode: str) -> None:
    spot = scene.spot(thread, None, arguments.path_at(call, 0), True)
    _opened_and_closed(scene, thread, call, arguments.object_at(scene, call, spot, "reg"), mode)


def _fanotify_init(scene: Scene, thread: Thread, call: Call) -> None:
    """Reading an event opens the file that it is about, unless events name files by handles."""
    if call.ok and not arguments.number_at(call, 0) & (FAN_REPORT_FID | FAN_REPORT_DIR_FID):
        raise CannotSay(BY_FANOTIFY)


def _mq_open(scene: Scene, thread: Thread, call: Call) -> None:
    """Queues are in a file system of their own, to which rules on directories of other file systems do not apply."""
    if call.ok or call.error == "EACCES":
        raise CannotSay(QUEUE)


def _bpf(scene: Scene, thread: Thread, call: Call) -> None:
    if arguments.number_at(call, 0) == BPF_OBJ_PIN and (call.ok or call.error == "EACCES"):
        raise CannotSay(PINNED)


def _uselib(scene: Scene, thread: Thread, call: Call) -> None:
    if call.error != "ENOSYS":
        raise CannotSay(LIBRARY)


def _seccomp(scene: Scene, thread: Thread, call: Call) -> None:
    """A filter with a listener: calls that its supervisor lets continue are made past the filter of strace."""
    is_filter = arguments.number_at(call, 0) == SECCOMP_SET_MODE_FILTER
    if call.ok and is_filter and arguments.number_at(call, 1) & SECCOMP_FILTER_FLAG_NEW_LISTENER:
        raise CannotSay(BY_SUPERVISOR)


def _send(scene: Scene, thread: Thread, call: Call) -> None:
    handle = thread.process.table.get(arguments.number_at(call, 0))
    if handle is None or handle.letters or (handle.foreign and handle.path is None):
        scopes.sent(scene, thread, call)
    if not arguments.number_at(call, 2 if call.name == "sendmsg" else 3) & MSG_FASTOPEN:
        return
    if handle is None or handle.foreign or handle.tcp is not None:
        raise CannotSay(BY_SENDING)


HANDLERS = {
    "io_uring_setup": _io_uring_setup,
    "io_uring_enter": _io_uring_enter,
    "name_to_handle_at": _name_to_handle_at,
    "open_by_handle_at": _open_by_handle_at,
    "swapon": _swap,
    "swapoff": _swap,
    "acct": _acct,
    "fanotify_init": _fanotify_init,
    "mq_open": _mq_open,
    "seccomp": _seccomp,
    "bpf": _bpf,
    "uselib": _uselib,
    "sendto": _send,
    "sendmsg": _send,
    "sendmmsg": _send,
}
