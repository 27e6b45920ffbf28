"""Mounts: mount(2), umount2(2), pivot_root(2), move_mount(2), and a file system that fsconfig(2) sets up anew.

Landlock refuses all of them in the same way, after the kernel has looked up what a call names. This module has what the
kernel looks at before.
"""

from __future__ import annotations

from .. import values
from ..unwritten import CannotSay, NotAsked
from ..processes import Handle, Thread
from ..scene import CLONE_NEWNET, CLONE_NEWNS, CLONE_NEWUSER, Handler, Scene
from ..strace_log import Call
from . import arguments, ptrace, users

MS_NOUSER = 1 << 31
MNT_EXPIRE = 4
MOVE_MOUNT_FLAGS = 0x377
FSCONFIG_CMD_CREATE, FSCONFIG_CMD_RECONFIGURE, FSCONFIG_CMD_CREATE_EXCL = 6, 7, 8
OPEN_TREE_CLONE, FSMOUNT_CLOEXEC = 1, 1
O_CLOEXEC = 0o2000000

_MAKING = (FSCONFIG_CMD_CREATE, FSCONFIG_CMD_CREATE_EXCL)

CHANGES_THE_TREE = "a mount that changes the tree"
OF_A_FILE = "a file system that may be in a file, which the kernel opens (erofs)"
WITHOUT_PLACE = "a mount that has no place in the tree"
OTHER_NAMESPACE = "a process that goes to another mount namespace"

#: Errors with which a call fails while the kernel looks for the objects that it names.
LOOKING = frozenset({"EBADF", "EFAULT", "ENAMETOOLONG", "ENOENT", "ENOTDIR"})
#: A context of fsopen(2) or fspick(2), as strace names the target of a descriptor.
CONTEXT = "anon_inode:[fscontext]"


def _mount(scene: Scene, thread: Thread, call: Call) -> None:
    """The kernel looks up the target before it asks Landlock, and the source after."""
    before = call.error == "EFAULT" or (call.error in LOOKING and not _is_target_there(scene, thread, call))
    _said(scene, thread, call, asked=not before and not (call.error == "EINVAL" and _has(call, 3, MS_NOUSER)))


def _is_target_there(scene: Scene, thread: Thread, call: Call) -> bool:
    return scene.find(thread, None, arguments.path_at(call, 1), True).node is not None


def _umount(scene: Scene, thread: Thread, call: Call) -> None:
    before = call.error in LOOKING or (call.error == "EINVAL" and not _has(call, 1, MNT_EXPIRE))
    _said(scene, thread, call, asked=not before)


def _pivot_root(scene: Scene, thread: Thread, call: Call) -> None:
    _said(scene, thread, call, asked=call.error not in LOOKING)


def _move_mount(scene: Scene, thread: Thread, call: Call) -> None:
    before = call.error in LOOKING or (call.error == "EINVAL" and _has(call, 4, ~MOVE_MOUNT_FLAGS))
    _said(scene, thread, call, asked=not before)


def _fsconfig(scene: Scene, thread: Thread, call: Call) -> None:
    """If the descriptor is a context, the kernel asks Landlock about a file system that is set up anew, and about the
    file in which one is that is made.
    """
    command = arguments.number_at(call, 1)
    is_context = values.descriptor(call.arguments[0]).behind == CONTEXT
    asked = is_context and call.error not in ("EBADF", "EBUSY", "EOPNOTSUPP")
    if command == FSCONFIG_CMD_RECONFIGURE or (command in _MAKING and not asked):
        _said(scene, thread, call, asked=asked)
    elif command in _MAKING:
        raise CannotSay(OF_A_FILE)


def _has(call: Call, index: int, flags: int) -> bool:
    return bool(arguments.number_at(call, index) & flags)


def _said(scene: Scene, thread: Thread, call: Call, *, asked: bool) -> None:
    if not asked:
        raise NotAsked(f"{call.error} of a mount call before Landlock is asked")
    scene.say(thread, call, "mount")
    if call.ok and call.name != "fsconfig":
        scene.leave_out(thread, call, CHANGES_THE_TREE, asks=True)


def _open_tree(scene: Scene, thread: Thread, call: Call) -> None:
    """A copy of a mount, for which rules on directories above it do not count."""
    if call.ok and _has(call, 2, OPEN_TREE_CLONE):
        _is_placeless(scene, thread, call, close_on_exec=_has(call, 2, O_CLOEXEC))


def _fsmount(scene: Scene, thread: Thread, call: Call) -> None:
    if call.ok:
        _is_placeless(scene, thread, call, close_on_exec=_has(call, 1, FSMOUNT_CLOEXEC))


def _is_placeless(scene: Scene, thread: Thread, call: Call, *, close_on_exec: bool) -> None:
    """The call opened an object in a mount without a place, and so does every call that starts from there."""
    if call.ok and call.value is not None:
        scene.put(thread, call, call.value, Handle("/", close_on_exec=close_on_exec, placeless=True))
        scene.placeless = True
    raise CannotSay(WITHOUT_PLACE)


def from_a_place(handler: Handler, base: int | None) -> Handler:
    """The handler of a call that opens files; it leaves out files in a mount without a place."""

    def opened(scene: Scene, thread: Thread, call: Call) -> None:
        if scene.placeless and base is not None:
            handle = thread.process.table.get(values.descriptor(call.arguments[base]).number)
            if handle is not None and handle.placeless:
                _is_placeless(scene, thread, call, close_on_exec=False)
        handler(scene, thread, call)

    return opened


def _setns(scene: Scene, thread: Thread, call: Call) -> None:
    """Another mount namespace has other objects under the same names, another network namespace some of them."""
    ptrace.by_pidfd(scene, thread, call)
    if _goes_to(call, "user", CLONE_NEWUSER) or _goes_to(call, "mnt", CLONE_NEWNS):
        users.lose(thread)
    if _goes_to(call, "net", CLONE_NEWNET):
        scene.to_other_network()
    if _goes_to(call, "mnt", CLONE_NEWNS):
        raise CannotSay(OTHER_NAMESPACE)


def _goes_to(call: Call, kind: str, flag: int) -> bool:
    """Whether a setns(2) may lead to a namespace of a kind: the name of a file on which one is mounted does not tell."""
    behind = values.descriptor(call.arguments[0]).behind or ""
    may_be_any = behind.startswith("/") and not arguments.number_at(call, 1)
    return call.ok and (may_be_any or behind.startswith(f"{kind}:") or _has(call, 1, flag))


HANDLERS = {
    "mount": _mount,
    "umount": _umount,
    "umount2": _umount,
    "pivot_root": _pivot_root,
    "move_mount": _move_mount,
    "fsconfig": _fsconfig,
    "open_tree": _open_tree,
    "open_tree_attr": _open_tree,
    "fsmount": _fsmount,
    "setns": _setns,
}
