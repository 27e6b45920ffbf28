"""Running programs and forking: execve(2), execveat(2), clone(2), fork(2), vfork(2)."""

from __future__ import annotations

from dataclasses import replace

from .. import formats, values
from ..disk import MOST_INTERPRETERS, Program
from ..names import UnknownWay
from ..unwritten import CannotSay, NotAsked
from ..processes import Thread
from ..scene import CLONE_FILES, CLONE_FS, CLONE_NEWNET, CLONE_NEWNS, CLONE_NEWUSER, Scene, Spot
from ..strace_log import Call
from . import arguments, users
from .descriptors import OWN_TABLE

CLONE_UNTRACED = 0x800000
AT_EXECVE_CHECK = 0x10000
#: The errors of arguments that can't be read, or are too long: the kernel has opened the program alone.
BEFORE_INTERPRETERS = frozenset({"E2BIG", "EFAULT"})
NOT_FOLLOWED = "a process that strace can't follow (CLONE_UNTRACED)"
UNKNOWN_PROGRAM = "a program whose interpreter or loader is not known: it was gone, or another, when it was read"
UNKNOWN_FORMAT = "a program that the kernel runs by a format which is not known (binfmt_misc)"


def _execve(scene: Scene, thread: Thread, call: Call) -> None:
    _run(scene, thread, call, _spot(scene, thread, call, None, 0, True))


def _execveat(scene: Scene, thread: Thread, call: Call) -> None:
    flags = arguments.number_at(call, 4)
    spot = _spot(scene, thread, call, 0, 1, not flags & arguments.AT_SYMLINK_NOFOLLOW)
    if flags & AT_EXECVE_CHECK:
        _check(scene, thread, call, spot)
    else:
        _run(scene, thread, call, spot)


def _spot(scene: Scene, thread: Thread, call: Call, base: int | None, path: int, follow: bool) -> Spot:
    """What a call runs. ENOENT does not say that nothing is there: an interpreter may be missing."""
    try:
        spot = arguments.spot_at(scene, thread, call, base, path, follow)
    except UnknownWay as reason:
        raise CannotSay(UNKNOWN_PROGRAM) if call.error == "ENOENT" else reason from None
    is_missing = call.error == "ENOENT" and spot.node is None and spot.in_directory
    if is_missing and scene.names.may_be_program(spot.real):
        raise CannotSay(UNKNOWN_PROGRAM)
    return spot


def _check(scene: Scene, thread: Thread, call: Call, spot: Spot) -> None:
    """Only asks whether a file may be run: the kernel opens it, and nothing else (execveat(2), AT_EXECVE_CHECK)."""
    spot = _program(scene, call, spot)
    number = None if values.is_in_memory(spot.real) else _run_one(scene, thread, call, spot, None)
    if number is not None:
        scene.note_close(thread, call, number)


def _run(scene: Scene, thread: Thread, call: Call, spot: Spot) -> None:
    """A program that is run: the files that the kernel opens for it, then the descriptors that it closes.

    Landlock is not asked about a program that is only in memory (memfd_create(2)), but about its loader.
    """
    in_memory = values.is_in_memory(spot.real)
    spot = _program(scene, call, spot)
    interpreters = _interpreters(scene, thread, call, spot) if spot.node is not None or in_memory else []
    files = [(one, "interpreter") for one in interpreters]
    made_up = [_run_one(scene, thread, call, *file) for file in ([] if in_memory else [(spot, None)]) + files]
    for number in made_up:
        if number is not None:
            scene.note_close(thread, call, number)
    if call.ok:
        _became(scene, thread, call, spot)


def _program(scene: Scene, call: Call, spot: Spot) -> Spot:
    """The file that a call runs, if Landlock was asked about it."""
    if call.error != "ENOENT" and not values.is_in_memory(spot.real):
        spot = arguments.object_at(scene, call, spot, "reg")
    if call.error == "EACCES" and _may_not_run(scene, spot):
        raise NotAsked("EACCES of what is no file that may be run")
    return spot


def _may_not_run(scene: Scene, spot: Spot) -> bool:
    """Whether the kind of a file forbids running it, whatever Landlock says (execve(2)), or its mode, which a chmod(2)
    after the call may have changed.
    """
    if spot.node is None or spot.node.kind != "reg":
        return spot.node is not None
    how = scene.names.program(spot.real)
    return how.known and not how.runs and scene.disk.mode(spot.real) is not None


def _run_one(scene: Scene, thread: Thread, call: Call, spot: Spot, role: str | None) -> int | None:
    """One file that the kernel opens and runs, with a descriptor of its own."""
    number = None
    if spot.node is not None:
        number = thread.process.made_up()
        scene.say(thread, call, "open", path=spot.path, fd=number, mode="r", role=role, **arguments.shown(spot))
    scene.say(thread, call, "exec", path=spot.path, role=role, **arguments.shown(spot))
    return number


def _interpreters(scene: Scene, thread: Thread, call: Call, program: Spot) -> list[Spot]:
    """What a program is run by: the interpreter of its format, or the program after `#!` and its like; then the loader.

    An interpreter that was opened when its format was registered is not asked about, but its loader is.
    """
    found: list[Spot] = []
    if call.error in BEFORE_INTERPRETERS or (call.error == "ENOENT" and _is_inaccessible(thread, call)):
        return found
    spot, called = program, _called(call)
    for _ in range(MOST_INTERPRETERS + 1):
        how = scene.names.program(spot.real)
        of = formats.first_of(scene.disk.formats, called, how.head)
        called = of.interpreter if of is not None else _named(scene, thread, call, how)
        if not called:
            return found
        spot = scene.spot(thread, None, called, True)
        if of is None or not of.opened:
            found.append(spot)
        if spot.node is None:
            return found
    return found


def _is_inaccessible(thread: Thread, call: Call) -> bool:
    """Whether an interpreter could not find a program, since the descriptor that names it is close-on-exec: then the
    kernel opens none (execveat(2), ENOENT).
    """
    if call.name != "execveat" or _called(call).startswith("/"):
        return False
    handle = thread.process.table.get(values.descriptor(call.arguments[0]).number)
    return handle is not None and handle.close_on_exec


def _called(call: Call) -> str:
    """The path by which a program is run, as the call has it."""
    return values.text(call.arguments[1 if call.name == "execveat" else 0]) or ""


def _named(scene: Scene, thread: Thread, call: Call, how: Program) -> str:
    """The interpreter or loader that a file names, if it names one; those that nobody knows are counted."""
    if how.known and not how.head:
        return how.interpreter or ""
    if call.error == "EACCES" and not how.known:
        raise CannotSay(UNKNOWN_PROGRAM)
    if call.ok:
        scene.leave_out(thread, call, UNKNOWN_FORMAT if how.known else UNKNOWN_PROGRAM, asks=True)
    return ""


def _became(scene: Scene, thread: Thread, call: Call, spot: Spot) -> None:
    """The process runs the program: close-on-exec descriptors are closed, and no other thread is left."""
    process = thread.process
    for tid in process.threads - {thread.tid}:
        scene.threads.pop(tid, None)
    process.threads = {thread.tid}
    process.program, process.image = spot.real, spot.node
    thread.user = thread.user.running()
    for number in sorted(process.table):
        if process.table[number].close_on_exec:
            scene.close(thread, call, number)


def _forked(scene: Scene, thread: Thread, call: Call) -> None:
    if not call.ok or call.value is None or call.line in scene.begun:
        return
    birth = scene.births.next(call.value)
    if birth is not None and birth.flags & CLONE_UNTRACED:
        raise CannotSay(NOT_FOLLOWED)
    if birth is not None:
        scene.begin(birth, call.value, call.line, call.text)
        scene.unmet[call.value] = False
        thread.forked = call.value


def _unshared(scene: Scene, thread: Thread, call: Call) -> None:
    """A thread that no longer shares its working directory or its descriptors; another mount or user namespace takes
    the working directory along (unshare(2)).
    """
    flags = arguments.number_at(call, 0)
    if call.ok and flags & (CLONE_NEWUSER | CLONE_NEWNS):
        users.lose(thread)
    if call.ok and flags & CLONE_NEWNET:
        scene.to_other_network()
    if call.ok and flags & (CLONE_FS | CLONE_NEWNS | CLONE_NEWUSER):
        thread.directories = replace(thread.directories)
    if call.ok and flags & CLONE_FILES and len(thread.process.threads) > 1:
        scene.leave_out(thread, call, OWN_TABLE, asks=True)


HANDLERS = {
    "unshare": _unshared,
    "execve": _execve,
    "execveat": _execveat,
    "clone": _forked,
    "clone3": _forked,
    "fork": _forked,
    "vfork": _forked,
}
