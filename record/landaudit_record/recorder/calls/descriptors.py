"""Descriptors: duplicates, closing, descriptors that open(2) did not make, and calls on open files.

Each takes effect at one moment, while other threads act. Closing takes effect at the beginning of the call, since the
number is free from then on. A call that installs a number (dup(2), F_DUPFD, socket(2), open(2), accept(2), pipe(2))
takes effect at its end, since nobody knows the number before. A call that looks up a number (ftruncate(2), ioctl(2))
takes effect at its beginning. dup2(2) and dup3(2) replace what a number stands for in one step, and the number is
never free: they take effect at their end. So does an exec, which closes numbers when no other thread is left.
"""

from __future__ import annotations

import re
from typing import Any

from .. import values
from ..unwritten import CannotSay, NotAsked
from ..processes import Handle, Thread
from ..scene import Scene
from ..strace_log import Call
from . import arguments, files, opening, ptrace, scopes
from .invalid import is_invalid

F_DUPFD = 0
F_SETFD = 2
F_SETOWN, F_SETOWN_EX = 8, 15
F_DUPFD_CLOEXEC = 1030
FD_CLOEXEC = 1
CLOSE_RANGE_UNSHARE, CLOSE_RANGE_CLOEXEC = 2, 4
SOCK_CLOEXEC = 0o2000000
#: What is not known of a file that ftruncate(2) may not change.
FIXED = "append-only or immutable"
AF_UNSPEC, AF_INET, AF_INET6 = 0, 2, 10
SOCK_STREAM, SOCK_DGRAM, SOCK_RAW, SOCK_TYPE = 1, 2, 3, 0xF
IPPROTO_TCP = 6
#: The families of addresses for which Landlock is asked about a socket of TCP.
_ASKED_TO_CONNECT = (AF_INET, AF_INET6)
_ASKED_TO_BIND = (*_ASKED_TO_CONNECT, AF_UNSPEC)
TIOCGPTN, TIOCGPTPEER = 0x80045430, 0x5441

FIOCLEX, FIONCLEX = 0x5451, 0x5450
FIOSETOWN, SIOCSPGRP = 0x8901, 0x8902

#: Commands that the kernel allows on a device whatever the policy is (docs/RECORDERS.md, "driver").
LET_THROUGH = frozenset(
    {
        FIOCLEX,
        FIONCLEX,
        0x5421,  # FIONBIO
        0x5452,  # FIOASYNC
        0x5460,  # FIOQSIZE
        0x2,  # FIGETBSZ
        0xC020660B,  # FS_IOC_FIEMAP
        0x40049409,  # FICLONE
        0x4020940D,  # FICLONERANGE
        0xC0189436,  # FIDEDUPERANGE
        0x80111500,  # FS_IOC_GETFSUUID
        0x80811501,  # FS_IOC_GETFSSYSFSPATH
        0xC0045877,  # FIFREEZE
        0xC0045878,  # FITHAW
    }
)
#: Where terminals are, by the paths of the device that makes them (pts(4)).
_TERMINALS = {"/dev/ptmx": "/dev/pts", "/dev/pts/ptmx": "/dev/pts"}
_NUMBER = re.compile(r"\[(\d+)\]")
_PORT = re.compile(r"htons\((\d+)\)")
_PORT_AND_ADDRESS = 6
#: The size of the longest address, that of `struct sockaddr_storage`.
_LONGEST_ADDRESS = 128
OWN_TABLE = "a thread with a descriptor table of its own"
UNREAD_ADDRESS = "an address that could not be read"
OTHER_FAMILY = "an address of another family than the socket's"
MAY_BE_A_DEVICE = "an ioctl on an object of which nothing says whether it is a device"
FOREIGN = "a descriptor that came from elsewhere: what Landlock kept with it is not known"


def _close(scene: Scene, thread: Thread, call: Call) -> None:
    if call.error != "EBADF":
        if call.understood.of is None:
            call.understood.of = values.descriptor(call.arguments[0]).number
        scene.close(thread, call, call.understood.of, is_last=True)


def _close_range(scene: Scene, thread: Thread, call: Call) -> None:
    if not call.ok:
        return
    if arguments.number_at(call, 2) & CLOSE_RANGE_UNSHARE and len(thread.process.threads) > 1:
        raise CannotSay(OWN_TABLE)
    first, last = arguments.number_at(call, 0), arguments.number_at(call, 1)
    chosen = [number for number in thread.process.table if first <= number <= last]
    for number in sorted(chosen):
        if arguments.number_at(call, 2) & CLOSE_RANGE_CLOEXEC:
            thread.process.table[number].close_on_exec = True
        else:
            scene.close(thread, call, number)


def _dup(scene: Scene, thread: Thread, call: Call) -> None:
    _duplicated(scene, thread, call, call.name == "dup3" and bool(arguments.number_at(call, 2) & opening.O_CLOEXEC))


def _duplicated(scene: Scene, thread: Thread, call: Call, close_on_exec: bool) -> None:
    if not call.ok or call.value is None:
        return
    of = values.descriptor(call.arguments[0])
    handle = scene.handle(thread, call, of)
    if handle is None or of.number == call.value:
        return
    table = thread.process.table
    if not handle.in_trace:
        scene.put(thread, call, call.value, handle.duplicate(close_on_exec=close_on_exec))
        return
    if call.value in table and table[call.value].ruleset is not None:
        scene.close(thread, call, call.value)
    scene.note(thread, call, "dup", fd=of.number, to=call.value)
    table[call.value] = handle.duplicate(close_on_exec=close_on_exec)


def _fcntl(scene: Scene, thread: Thread, call: Call) -> None:
    command = arguments.number_at(call, 1)
    if command in (F_DUPFD, F_DUPFD_CLOEXEC):
        _duplicated(scene, thread, call, command == F_DUPFD_CLOEXEC)
    elif command in (F_SETOWN, F_SETOWN_EX):
        scopes.owned(scene, thread, call)
    elif command == F_SETFD and call.ok:
        handle = scene.handle(thread, call, values.descriptor(call.arguments[0]))
        if handle is not None:
            handle.close_on_exec = bool(arguments.number_at(call, 2) & FD_CLOEXEC)


def _socket(scene: Scene, thread: Thread, call: Call) -> None:
    if call.ok and call.value is not None:
        scene.put(thread, call, call.value, _made_socket(call))
        if arguments.number_at(call, 0) == files.AF_UNIX:
            scopes.made(scene, thread, call)


def _socketpair(scene: Scene, thread: Thread, call: Call) -> None:
    for made in call.arguments[3].strip("[]").split(", ") if call.ok else ():
        scene.put(thread, call, values.descriptor(made).number, _made_socket(call))


def _made_socket(call: Call) -> Handle:
    domain, kind, protocol = (arguments.number_at(call, index) for index in range(3))
    tcp = domain in (AF_INET, AF_INET6) and kind & SOCK_TYPE == SOCK_STREAM and protocol in (0, IPPROTO_TCP)
    letters = domain == files.AF_UNIX and kind & SOCK_TYPE in (SOCK_DGRAM, SOCK_RAW)
    return Handle(close_on_exec=bool(kind & SOCK_CLOEXEC), tcp=domain if tcp else None, letters=letters)


def _bind(scene: Scene, thread: Thread, call: Call) -> None:
    if _is_unread(call):
        raise CannotSay(UNREAD_ADDRESS)
    if _family(call) != files.AF_UNIX:
        _on_port(scene, thread, call, "bind")
    elif call.error == "EAFNOSUPPORT" or (call.error == "EINVAL" and _is_tcp(scene, thread, call)):
        raise NotAsked(OTHER_FAMILY)
    else:
        files.bound(scene, thread, call)
        scopes.bound(scene, thread, call)


def _is_tcp(scene: Scene, thread: Thread, call: Call) -> bool:
    handle = scene.handle(thread, call, values.descriptor(call.arguments[0]))
    return handle is not None and handle.tcp is not None


def _connect(scene: Scene, thread: Thread, call: Call) -> None:
    if _is_unread(call):
        _connected_somewhere(scene, thread, call)
    elif _family(call) != files.AF_UNIX:
        _on_port(scene, thread, call, "connect")
    else:
        scopes.connected(scene, thread, call)


def _connected_somewhere(scene: Scene, thread: Thread, call: Call) -> None:
    handle = scene.handle(thread, call, values.descriptor(call.arguments[0]))
    if handle is None or handle.foreign or handle.tcp is not None:
        raise CannotSay(UNREAD_ADDRESS)
    scopes.connected_somewhere(scene, thread, call)


def _is_unread(call: Call) -> bool:
    """Whether the kernel read an address that strace could not read: of a process of which nobody may see the memory
    (PR_SET_DUMPABLE), if the recorder is not root.
    """
    return call.arguments[1].startswith("0x") and call.error not in ("EBADF", "EFAULT", "ENOTSOCK")


def _family(call: Call) -> int:
    family = values.member(call.arguments[1], "sa_family")
    return values.number(family) if family is not None else AF_UNSPEC


def _on_port(scene: Scene, thread: Thread, call: Call, op: str) -> None:
    """A call on a port, if the socket is one of TCP over IPv4 or IPv6."""
    handle = scene.handle(thread, call, values.descriptor(call.arguments[0]))
    if handle is None or call.error == "EBADF":
        return
    if call.error == "EINVAL" and arguments.number_at(call, 2) > _LONGEST_ADDRESS:
        raise NotAsked("EINVAL before Landlock is asked")
    if handle.foreign and _family(call) in (_ASKED_TO_BIND if op == "bind" else _ASKED_TO_CONNECT):
        raise CannotSay("a port of a socket that came from elsewhere")
    if handle.tcp is not None:
        handle.tcp = _family_now(call, handle.tcp)
        port = _port(call, handle.tcp, op)
        if port is not None:
            scene.say(thread, call, op, port=port)


def _family_now(call: Call, family: int) -> int:
    """The family of a socket, which becomes IPv4 by IPV6_ADDRFORM: else it takes no such address (ipv6(7))."""
    if _family(call) == AF_INET and call.error not in ("EINVAL", "EAFNOSUPPORT"):
        return AF_INET
    return family


def _port(call: Call, family: int, op: str) -> int | None:
    """The port that Landlock is asked about; None if it is not asked (bind(2), connect(2), ip(7)).

    An address of another family than the socket's fails with EINVAL or EAFNOSUPPORT before. An address of no family
    dissolves a connection, which is always allowed; bind(2) takes it for an IPv4 address if it is that of all
    interfaces.
    """
    named = _family(call)
    if named == AF_UNSPEC and op == "bind" and family == AF_INET:
        return _port_without_family(call.arguments[1])
    port = _PORT.search(call.arguments[1])
    if named != family or port is None:
        raise NotAsked(OTHER_FAMILY)
    return int(port[1])


def _port_without_family(address: str) -> int:
    """The port of an address of all interfaces without a family: port and address are the first six bytes."""
    data = values.member(address, "sa_data")
    text = values.raw(data) if data is not None else None
    if text is None or len(text) < _PORT_AND_ADDRESS or any(text[2:_PORT_AND_ADDRESS]):
        raise NotAsked(OTHER_FAMILY)
    return int.from_bytes(text[:2], "big")


def _ioctl(scene: Scene, thread: Thread, call: Call) -> None:
    of = values.descriptor(call.arguments[0])
    handle = scene.handle(thread, call, of)
    command = arguments.number_at(call, 1) & 0xFFFFFFFF
    if handle is not None and call.ok and command in (FIOCLEX, FIONCLEX):
        handle.close_on_exec = command == FIOCLEX
    elif handle is not None and call.ok and command == TIOCGPTN:
        handle.terminal = _terminal(call, of)
    elif command in (FIOSETOWN, SIOCSPGRP):
        scopes.owned(scene, thread, call)
    elif command in ptrace.NAMESPACE_OF_PROCESS:
        ptrace.by_pidfd(scene, thread, call, ptrace.OF_PATHS)
    if handle is None or call.error == "EBADF" or (not handle.in_trace and handle.adopted == "other"):
        return
    if handle.foreign and handle.adopted == "device" and command not in LET_THROUGH:
        raise CannotSay(FOREIGN)
    if handle.unsure and command not in LET_THROUGH:
        raise CannotSay(MAY_BE_A_DEVICE)
    scene.adopt(thread, call, of.number, handle)
    scene.say(thread, call, "ioctl", fd=of.number, driver=command not in LET_THROUGH)
    if command == TIOCGPTPEER and call.ok:
        _opened_peer(scene, thread, call, handle)


def _terminal(call: Call, of: values.Descriptor) -> str | None:
    """The path of the terminal whose number a program asks for, to which it has the master."""
    number = _NUMBER.fullmatch(call.arguments.get(2, ""))
    folder = _TERMINALS.get(of.path or "")
    return f"{folder}/{number[1]}" if number is not None and folder is not None else None


def _opened_peer(scene: Scene, thread: Thread, call: Call, master: Handle) -> None:
    """The other end of a terminal, which Landlock judges as an open (ioctl_tty(2)).

    strace 6.1 does not say the path behind the new descriptor; programs ask for the terminal's number before.
    """
    result = values.descriptor(f"{call.value}{call.note}")
    if result.behind is None and master.terminal is not None:
        result = values.Descriptor(result.number, master.terminal, "char")
    flags = arguments.number_at(call, 2)
    scene.put(thread, call, result.number, Handle(result.path, close_on_exec=bool(flags & opening.O_CLOEXEC)))
    opening.succeeded(scene, thread, call, result, flags)


def _ftruncate(scene: Scene, thread: Thread, call: Call) -> None:
    """Of an append-only file the kernel says EPERM before it asks Landlock, as if nothing were there to truncate; of an
    immutable one the file system says it afterwards.
    """
    if call.error == "EINVAL" and is_invalid(call):
        raise NotAsked("EINVAL before Landlock is asked")
    of = values.descriptor(call.arguments[0])
    handle = scene.handle(thread, call, of)
    if handle is None or call.error == "EBADF":
        return
    if handle.foreign and handle.adopted == "reg":
        raise CannotSay(FOREIGN)
    scene.adopt(thread, call, of.number, handle)
    node = handle.node
    others = [scene.there(of.path, other) for other in node.others] if node is not None and of.path is not None else []
    unknown = {"unknown": node.doubt} if node is not None and others else {}
    if call.error == "EPERM" and node is not None and of.path is not None:
        others.append(scene.missing(of.path))
        unknown = unknown or {"unknown": FIXED}
    scene.say(thread, call, "ftruncate", fd=of.number, **unknown)
    asked: list[dict[str, Any]] = [{"path": spot.path, **arguments.shown(spot), **unknown} for spot in others]
    scene.say_instead(thread, call, "truncate", *asked)


HANDLERS = {
    "close": _close,
    "close_range": _close_range,
    "dup": _dup,
    "dup2": _dup,
    "dup3": _dup,
    "fcntl": _fcntl,
    "fcntl64": _fcntl,
    "socket": _socket,
    "socketpair": _socketpair,
    "bind": _bind,
    "connect": _connect,
    "ioctl": _ioctl,
    "ftruncate": _ftruncate,
    "ftruncate64": _ftruncate,
}
