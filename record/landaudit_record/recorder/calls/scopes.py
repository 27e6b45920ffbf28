"""Calls that a ruleset with scopes may refuse (ABI 6): signals, and connections to abstract UNIX sockets.

A process may reach processes under its own layers, as with the rule on ptrace. A trace has no records for these calls:
whom they reach is written beside it, and if nobody knows that, they are counted by the scope that may refuse them.
"""

from __future__ import annotations

import re

from ...common.reach import ABSTRACT, SIGNAL
from .. import values
from ..processes import Thread
from ..scene import Handler, Scene
from ..strace_log import Call
from . import arguments, ptrace

#: How strace begins an abstract name, a name that the kernel chose (unix(7)), and how a refusal by a scope ends.
_AT = "@"
_CHOSEN = re.compile("@[0-9a-f]{5}")
_REFUSED = "EPERM"
#: With it, a signal by a descriptor of a process is one to the process's group (pidfd_send_signal(2)).
_TO_GROUP = 4
#: The index of the address of sendto(2).
_ADDRESS = 4


def _signals(index: int) -> Handler:
    """The handler of a call that sends a signal to a process, which an argument names."""

    def sent(scene: Scene, thread: Thread, call: Call) -> None:
        pid = values.pid(call.arguments[index])
        if not _is_asked(thread, call):
            return
        if pid > 0:
            ptrace.reached(scene, thread, call, SIGNAL, [pid])
        else:
            _count(scene, thread, call, SIGNAL)

    return sent


def _by_pidfd(scene: Scene, thread: Thread, call: Call) -> None:
    pid = ptrace.pid_behind(call)
    if arguments.number_at(call, 3) & _TO_GROUP and _is_asked(thread, call):
        _count(scene, thread, call, SIGNAL)
    elif pid is not None and _is_asked(thread, call):
        ptrace.reached(scene, thread, call, SIGNAL, [pid])


def _is_asked(thread: Thread, call: Call) -> bool:
    """Whether a call reached its goal, or a layer may have refused it."""
    return call.ok or (thread.process.confined and call.error == _REFUSED)


def _count(scene: Scene, thread: Thread, call: Call, scope: str) -> None:
    """Counts a call of which nobody knows whom it reaches."""
    scene.recording.leave_to_scope(scope, call.line, thread.process.pid, call.text)


def owned(scene: Scene, thread: Thread, call: Call) -> None:
    """A process or a group gets the signals of a descriptor (F_SETOWN): the kernel says to nobody what it refuses."""
    owner = call.arguments[2].strip("[]")
    pid = values.pid(values.member(owner, "pid") or owner)
    named = scene.threads.get(pid)
    if call.ok and pid and (named is None or named.process is not thread.process):
        _count(scene, thread, call, SIGNAL)


def made(scene: Scene, thread: Thread, call: Call) -> None:
    """A UNIX socket: it is under the layers that its process has now."""
    result = values.descriptor(f"{call.value}{call.note}")
    thread.process.table[result.number].socket = behind = result.behind
    if behind is not None:
        scene.sockets[behind] = thread.process.pid, scene.recording.moment


def bound(scene: Scene, thread: Thread, call: Call) -> None:
    """An abstract name that a socket is bound to."""
    name = _abstract(call)
    if call.ok and name is not None:
        scene.abstract[name] = values.descriptor(call.arguments[0]).behind


def connected(scene: Scene, thread: Thread, call: Call) -> None:
    """A connection to an abstract name: of a socket of the recording, or of one outside of it.

    A name is free when no process has its socket open any more: then it may be that of any other, as it may be in
    another network namespace (network_namespaces(7)).
    """
    name = _abstract(call)
    if name is None or not _is_asked(thread, call):
        return
    named = scene.abstract.get(name) if not scene.networks else None
    maker = scene.sockets.get(named) if named is not None and _is_open(scene, named) else None
    if maker is None and (name in scene.abstract or _CHOSEN.fullmatch(name)):
        _count(scene, thread, call, ABSTRACT)
        return
    about = {} if maker is None else {"since": maker[1]}
    to = [] if maker is None else [maker[0]]
    scene.recording.reaches(ABSTRACT, thread.process.pid, to, call.line, call.text, name=name, **about)


def _is_open(scene: Scene, socket: str) -> bool:
    tables = (process.table.values() for process in scene.processes.values())
    return any(handle.socket == socket for table in tables for handle in table)


def connected_somewhere(scene: Scene, thread: Thread, call: Call) -> None:
    """A connection to an address that nobody knows, which may be an abstract name."""
    if _is_asked(thread, call):
        _count(scene, thread, call, ABSTRACT)


def sent(scene: Scene, thread: Thread, call: Call) -> None:
    """Datagrams of a UNIX socket: the log does not have their addresses, but whether sendto(2) has one."""
    if _is_asked(thread, call) and (call.name != "sendto" or arguments.number_at(call, _ADDRESS)):
        _count(scene, thread, call, ABSTRACT)


def _abstract(call: Call) -> str | None:
    """The abstract name of a call's address, after the sign by which strace and people write it."""
    name = values.member(call.arguments[1], "sun_path")
    if name is None or not name.startswith(_AT):
        return None
    return _AT + (values.text(name.removeprefix(_AT)) or "")


HANDLERS: dict[str, Handler] = {
    "kill": _signals(0),
    "tkill": _signals(0),
    "tgkill": _signals(0),
    "rt_sigqueueinfo": _signals(0),
    "rt_tgsigqueueinfo": _signals(0),
    "pidfd_send_signal": _by_pidfd,
}
