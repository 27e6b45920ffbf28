"""Landlock's rule on ptrace: a process under a layer may not trace a process that is not under the same layer.

The kernel checks it whenever a process looks into another one, whatever the rules for files are: by calls (ptrace(2),
process_vm_readv(2), pidfd_getfd(2), ...), by files of /proc that are opened, and by links of /proc that any call
follows (proc(5)). A trace has no records for these calls.
"""

from __future__ import annotations

import re
from collections.abc import Iterable

from ...common.reach import PTRACE
from .. import values
from ..unwritten import CannotSay
from ..looks import READLINKS
from ..names import Node
from ..processes import Process, Thread
from ..scene import Handler, Scene, ThreadLinks
from ..strace_log import Call
from ..values import Descriptor
from . import arguments, opening
from .path_arguments import PATH_ARGUMENTS, PathArgument

PTRACE_TRACEME, PTRACE_ATTACH, PTRACE_SEIZE = 0, 0x10, 0x4206
INTO_ANOTHER = "a look into another process, which Landlock's rule on ptrace may refuse"
BY_STRACE = "a program that traces others: it can't, since strace traces them"
NOT_TRACED = "a process that looks at others in /proc: which links it reads there is not recorded (run --readlink)"

#: The errors with which a path into another process fails, and a call that names one.
OF_PATHS, OF_CALLS = "EACCES", "EPERM"
#: The links of a process, which only those may follow who may trace it, as a path or a text in quotes has them; and
#: what only they may reach.
_LINK = re.compile(r"/proc/(\d+)/(?:task/\d+/)?(?:cwd|exe|root|(?:fd|map_files|ns)/[^/\"\\]+)(?!\w)")
_REACHED = re.compile(r"/proc/(\d+)/(?:task/\d+/)?fdinfo/.")
#: The directory of a process, and its files and directories that only those may open, or read, who may trace it.
_OF_PROCESS = re.compile(r"/proc/(\d+)(?=/|$)")
_OPENED = re.compile(
    r"/proc/(\d+)/(?:task/\d+/)?(?:auxv|environ|fdinfo|io|map_files|maps|mem|numa_maps|pagemap|personality|smaps|"
    r"smaps_rollup|stack|syscall|timers)"
)
#: Calls by which the kernel asks whether what is in a directory may be reached.
_SEARCHES = frozenset({"access", "faccessat", "faccessat2", "chdir", "inotify_add_watch", "getxattr", "lgetxattr"})
_RUNS = ("execve", "execveat")
_LISTED = "/proc"
#: Errors that the kernel answers after it has asked whether a process may be looked into (tried on Linux 6.18).
_AFTER: dict[str, tuple[str, ...]] = {
    "process_vm_readv": ("EFAULT",),
    "process_vm_writev": ("EFAULT",),
    "move_pages": ("EFAULT",),
    "migrate_pages": ("EINVAL",),
    "get_robust_list": ("EFAULT",),
    "kcmp": ("EBADF", "EINVAL"),
    "pidfd_getfd": ("EBADF",),
    "setns": ("EINVAL",),
}
#: Calls with two lists of memory, which the kernel reads first.
_WITH_LISTS = frozenset({"process_vm_readv", "process_vm_writev"})
#: The namespaces of setns(2).
_NAMESPACES = 0x7E020080
#: The commands of ioctl(2) that open a namespace of a process (PIDFD_GET_*_NAMESPACE), which fail as a path does.
NAMESPACE_OF_PROCESS = range(0xFF01, 0xFF0B)
#: A descriptor of a process: of pidfd_open(2), or of its directory (pidfd_send_signal(2)).
_PIDFD = re.compile(r"(?:pid:|/proc/)(\d+)$")


class _Passing(ThreadLinks):
    """Links as a thread resolves them when only the path matters: none of them is listed."""

    def passed(self, path: str, node: Node) -> None:
        """A link that is followed is not listed."""


def look(scene: Scene, thread: Thread, call: Call) -> bool:
    """Counts a call that leads into another process, and says whether it does.

    A call that failed under a layer gets no record: the kernel may have refused it by the rule on ptrace.
    """
    failed = _failed_after(scene, thread, call)
    if not failed and not _may_be_refused(scene, thread, call):
        return False
    led = [(argument, _led(scene, thread, call, argument, path)) for argument, path in _paths(call)]
    opened = _opened(scene, call)
    pids = {pid for argument, path in led for pid in _kept(call, path, follows=argument.follows_last(call))}
    pids |= scene.through | _numbers([_OPENED.fullmatch(opened)])
    if not failed and scene.hides_from(thread):
        pids |= _numbers(_OF_PROCESS.match(path) for path in [opened, *(path for _, path in led)])
    if any(may_refuse(scene, thread, pid) for pid in pids):
        _count(scene, thread, call, pids)
        return True
    reached(scene, thread, call, PTRACE, pids, error=OF_PATHS)
    if not failed and not scene.reads_links and not thread.process.looks:
        named = _numbers(_OF_PROCESS.match(path) for _, path in led)
        named |= _numbers(_LINK.finditer(call.text)) if call.name in _RUNS else set()
        if opened == _LISTED or any(may_refuse(scene, thread, pid) for pid in named):
            thread.process.looks = True
            scene.leave_out(thread, call, NOT_TRACED, asks=True)
    return False


def _count(scene: Scene, thread: Thread, call: Call, pids: Iterable[int]) -> None:
    """Counts a call that leads into other processes; with ENOENT, it may not lead there since one has ended."""
    if call.error is not None and thread.layers:
        raise CannotSay(INTO_ANOTHER)
    known = call.error != "ENOENT" or scene.threads.keys() >= set(pids)
    if known:
        reached(scene, thread, call, PTRACE, pids, error=OF_PATHS)
    scene.leave_out(thread, call, INTO_ANOTHER, asks=True, reach=known)


def reached(
    scene: Scene, thread: Thread, call: Call, asks: str, pids: Iterable[int], error: str = OF_CALLS
) -> None:
    """Writes which other processes a call reaches, and the error with which it fails if a layer refuses it."""
    own = thread.process.pid
    to = sorted({_process(scene, pid) for pid in pids} - {own})
    if to:
        about = {} if error == OF_CALLS else {"error": error}
        scene.recording.reaches(asks, own, to, call.line, call.text, **about)


def _process(scene: Scene, pid: int) -> int:
    """The number of the process that a thread is of."""
    thread = scene.threads.get(pid)
    return pid if thread is None else thread.process.pid


def passed_by_links(scene: Scene, thread: Thread, call: Call) -> None:
    """Counts a call whose path does not name /proc, and leads there by links."""
    asked = _failed_after(scene, thread, call) or _may_be_refused(scene, thread, call)
    if asked and any(may_refuse(scene, thread, pid) for pid in scene.through):
        _count(scene, thread, call, scene.through)


def _failed_after(scene: Scene, thread: Thread, call: Call) -> bool:
    """Whether a call failed with another error than a layer's, after the kernel had followed the links on its path.

    ELOOP says that it has not followed the last one (O_NOFOLLOW).
    """
    hidden = scene.hides_from(thread) or thread.process.confined
    others = ("EACCES", "EPERM", "ELOOP") if hidden else ("EACCES", "ELOOP")
    return call.error is not None and call.error not in others and not arguments.is_before_paths(call)


def _may_be_refused(scene: Scene, thread: Thread, call: Call) -> bool:
    """Whether a call succeeded, or a layer may have refused it; without a layer, no policy refused it."""
    refused = ("EACCES", "EPERM") if scene.hides_from(thread) else ("EACCES",)
    return call.ok or (thread.process.confined and call.error in refused)


def _paths(call: Call) -> Iterable[tuple[PathArgument, str]]:
    """The paths of a call; an empty one stands for an open descriptor, by which nothing is followed."""
    for argument in PATH_ARGUMENTS.get(call.name, ()):
        path = argument.text(call)
        if path:
            yield argument, path


def _led(scene: Scene, thread: Thread, call: Call, argument: PathArgument, path: str) -> str:
    """Where a path leads below the thread's root, as far as it does.

    The processes through whose links it goes are kept in `through`.
    """
    base = arguments.descriptor_at(call, argument.base)
    root, directory = thread.directories.root, (base.path if base is not None else None) or thread.directories.directory
    try:
        found = scene.names.find(root, directory, path, argument.follows_last(call), _Passing(scene, thread))
        return scene.names.places.in_proc(found.path if root == "/" else found.path.removeprefix(root))
    except CannotSay:
        return ""


def _opened(scene: Scene, call: Call) -> str:
    """The path of what a call opened, if it has one; O_PATH opens nothing."""
    if not call.ok or call.name not in opening.GIVEN or opening.flags_of(call) & opening.O_PATH:
        return ""
    return scene.names.places.in_proc(values.descriptor(f"{call.value}{call.note}").path or "")


def _kept(call: Call, path: str, *, follows: bool) -> set[int]:
    """The process into which a path leads that has no link on its way, if it leads into one."""
    link = _LINK.match(path)
    if link is not None:
        is_followed = link.end() < len(path) or follows or call.name in READLINKS
        return _numbers([link]) if is_followed else set()
    opens = call.name in opening.GIVEN and not opening.flags_of(call) & opening.O_PATH
    searched = path.endswith("/fdinfo") and call.name in _SEARCHES
    looked = (opens or searched) and call.error in (None, OF_PATHS, OF_CALLS)
    return _numbers([_REACHED.match(path), _OPENED.fullmatch(path) if looked else None])


def _numbers(matches: Iterable[re.Match[str] | None]) -> set[int]:
    return {int(match[1]) for match in matches if match is not None}


def may_refuse(scene: Scene, thread: Thread, pid: int) -> bool:
    """Whether a process may be under other layers than the process that looks into it.

    It is under the same layers if it is that process itself, or a child of it that has its layers.
    """
    mine, there = thread.process, scene.threads.get(pid)
    other = scene.ended.get(pid) if there is None else there.process
    if other is None:
        return True
    layers = len(mine.restricted)
    return not _comes_from(other, mine) or other.restricted[:layers] != mine.restricted


def _comes_from(process: Process, maker: Process) -> bool:
    """Whether a process is another one, or was forked from it."""
    at: Process | None = process
    while at is not None and at is not maker:
        at = at.maker
    return at is maker


def _by_pid(*indexes: int) -> Handler:
    """The handler of a call that names processes by their numbers."""

    def looked(scene: Scene, thread: Thread, call: Call) -> None:
        pids = [values.pid(call.arguments[index]) for index in indexes]
        _look(scene, thread, call, [pid for pid in pids if pid > 0])

    return looked


def by_pidfd(scene: Scene, thread: Thread, call: Call, error: str = OF_CALLS) -> None:
    """A call that names a process by a descriptor (pidfd_open(2))."""
    pid = pid_behind(call)
    if pid is not None:
        _look(scene, thread, call, [pid], error)


def pid_behind(call: Call) -> int | None:
    """The process that the first argument of a call is a descriptor of."""
    named = _PIDFD.match(values.descriptor(call.arguments[0]).behind or "")
    return int(named[1]) if named is not None else None


def _look(scene: Scene, thread: Thread, call: Call, pids: list[int], error: str = OF_CALLS) -> None:
    passed = call.ok or _is_after(call)
    if not passed and call.error not in (OF_CALLS, OF_PATHS):
        return
    judged = passed or thread.process.confined
    if judged:
        reached(scene, thread, call, PTRACE, pids, error)
    if any(may_refuse(scene, thread, pid) for pid in pids):
        scene.leave_out(thread, call, INTO_ANOTHER, asks=True, reach=judged)


def _is_after(call: Call) -> bool:
    """Whether a call failed after the kernel had asked whether the process may be looked into."""
    if call.name in _WITH_LISTS and not all(call.arguments[index].startswith("[") for index in (1, 3)):
        return False
    if call.name == "setns" and arguments.number_at(call, 1) & ~_NAMESPACES:
        return False
    return call.error in _AFTER.get(call.name, ())


def _ptrace(scene: Scene, thread: Thread, call: Call) -> None:
    """A process has one tracer: what a program does that can't trace a process of the recording is not what it does."""
    request = arguments.number_at(call, 0)
    attaches = request in (PTRACE_ATTACH, PTRACE_SEIZE)
    is_traced = request == PTRACE_TRACEME or (attaches and values.pid(call.arguments[1]) in scene.threads)
    if call.error == "EPERM" and is_traced:
        scene.leave_out(thread, call, BY_STRACE, asks=True)
    elif attaches:
        _by_pid(1)(scene, thread, call)


def _pidfd_getfd(scene: Scene, thread: Thread, call: Call) -> None:
    """A descriptor of another process, which becomes one of this process."""
    by_pidfd(scene, thread, call)
    if call.ok:
        scene.receive(thread, call, _result(call), close_on_exec=True)


def _result(call: Call) -> Descriptor:
    return values.descriptor(f"{call.value}{call.note}")


HANDLERS: dict[str, Handler] = {
    "ptrace": _ptrace,
    "process_vm_readv": _by_pid(0),
    "process_vm_writev": _by_pid(0),
    "kcmp": _by_pid(0, 1),
    "move_pages": _by_pid(0),
    "migrate_pages": _by_pid(0),
    "get_robust_list": _by_pid(0),
    "perf_event_open": _by_pid(1),
    "process_madvise": by_pidfd,
    "pidfd_getfd": _pidfd_getfd,
}
