#!/usr/bin/env python3
"""Small programs, each of one thing that Landlock may judge and that a recorder may miss: probes.py NAME.

They run in a folder of their own, whose file `given` is there and whose folder `out` they may write to.
"""

from __future__ import annotations

import argparse
import contextlib
import ctypes
import errno
import fcntl
import mmap
import os
import resource
import signal
import socket
import struct
import subprocess
import sys
import threading
from collections.abc import Callable
from pathlib import Path

AT_FDCWD = -100
AT_EXECVE_CHECK = 0x10000
CLONE_FS = 0x200
CLONE_UNTRACED = 0x800000
CLONE_NEWPID = 0x20000000
MSG_FASTOPEN = 0x20000000
FSCONFIG_CREATE, FSCONFIG_RECONFIGURE = 6, 7
OPEN_TREE_CLONE = 1
MS_NOUSER = 1 << 31
THREADS, ROUNDS = 12, 60
KEPT = "PROBE_RULESET"
"""The environment's variable with the number of a ruleset that a program keeps."""

LET, NOT_LET = 18301, 18302
"""The policy lets one of these ports be used."""

#: Numbers of calls that the C library has no function for, on x86_64 (syscalls(2)).
CALLS = {
    "clone": 56,
    "pivot_root": 155,
    "acct": 163,
    "mount": 165,
    "umount2": 166,
    "swapon": 167,
    "swapoff": 168,
    "mq_open": 240,
    "mq_unlink": 241,
    "fanotify_init": 300,
    "name_to_handle_at": 303,
    "open_by_handle_at": 304,
    "process_vm_readv": 310,
    "kcmp": 312,
    "seccomp": 317,
    "execveat": 322,
    "io_uring_setup": 425,
    "io_uring_enter": 426,
    "open_tree": 428,
    "move_mount": 429,
    "fsopen": 430,
    "fsconfig": 431,
    "fsmount": 432,
    "fspick": 433,
    "pidfd_open": 434,
    "close_range": 436,
    "openat2": 437,
    "pidfd_getfd": 438,
    "landlock_create_ruleset": 444,
    "landlock_restrict_self": 446,
}

_libc = ctypes.CDLL(None, use_errno=True)


def call(name: str, *words: object) -> int:
    """Makes a call, and says what came of it; -1 if it failed."""
    found = _libc.syscall(ctypes.c_long(CALLS[name]), *words)
    tell(name, "ok" if found >= 0 else errno.errorcode[ctypes.get_errno()])
    return int(found)


def attempt(what: str, does: Callable[[], object]) -> None:
    """Does something that may be refused, and says what came of it."""
    try:
        does()
    except OSError as error:
        tell(what, errno.errorcode[error.errno or 0])
    else:
        tell(what, "ok")


def tell(what: str, answer: str) -> None:
    """Says what came of a step."""
    print(what, answer, flush=True)


class Ring:
    """A ring of io_uring(7) that takes one call at a time."""

    OPENAT, UNLINKAT, MKDIRAT, CONNECT = 18, 36, 37, 16
    _ENTRY = "<BBHiQQIIQHHI16x"

    def __init__(self) -> None:
        parameters = ctypes.create_string_buffer(120)
        self._fd = call("io_uring_setup", 4, parameters)
        if self._fd < 0:
            sys.exit(4)
        self._sq = struct.unpack_from("<7I", parameters.raw, 40)
        self._cq = struct.unpack_from("<6I", parameters.raw, 80)
        size = max(self._sq[6] + 16, self._cq[5] + 8 * 16)
        self._ring = mmap.mmap(self._fd, size, mmap.MAP_SHARED)
        self._entries = mmap.mmap(self._fd, 4 * 64, mmap.MAP_SHARED, offset=0x10000000)

    def _at(self, place: int) -> int:
        return int(struct.unpack_from("<I", self._ring, place)[0])

    def make(self, operation: int, fd: int, address: bytes, length: int, offset: int, flags: int) -> None:
        """Makes one call, and says what came of it."""
        kept = ctypes.create_string_buffer(address)
        entry = struct.pack(
            self._ENTRY, operation, 0, 0, fd, offset, ctypes.addressof(kept), length, flags, 0, 0, 0, 0
        )
        tail = self._at(self._sq[1])
        index = tail & self._at(self._sq[2])
        self._entries[index * 64 : index * 64 + 64] = entry
        struct.pack_into("<I", self._ring, self._sq[6] + 4 * index, index)
        struct.pack_into("<I", self._ring, self._sq[1], tail + 1)
        call("io_uring_enter", self._fd, 1, 1, 1, None, 0)
        head = self._at(self._cq[0])
        place = self._cq[5] + 16 * (head & self._at(self._cq[2]))
        found = struct.unpack_from("<i", self._ring, place + 8)[0]
        struct.pack_into("<I", self._ring, self._cq[0], head + 1)
        tell(f"io_uring {operation}", "ok" if found >= 0 else errno.errorcode[-found])


def io_uring() -> None:
    """Calls that io_uring makes."""
    ring = Ring()
    ring.make(Ring.OPENAT, AT_FDCWD, b"given", 0, 0, os.O_WRONLY)
    ring.make(Ring.MKDIRAT, AT_FDCWD, b"made", 0o755, 0, 0)
    with socket.socket() as unconnected:
        ring.make(Ring.CONNECT, unconnected.fileno(), _address(NOT_LET), 0, 16, 0)


def handles() -> None:
    """A file that is opened by its handle."""
    handle = ctypes.create_string_buffer(136)
    struct.pack_into("<I", handle, 0, 128)
    call("name_to_handle_at", AT_FDCWD, b"given", handle, ctypes.byref(ctypes.c_int()), 0)
    mount = os.open("out", os.O_RDONLY)
    call("open_by_handle_at", mount, handle, os.O_RDONLY)
    call("open_by_handle_at", mount, handle, os.O_WRONLY)


def inside() -> None:
    """Files that the kernel opens for swap and accounting."""
    call("swapon", b"given", 0)
    call("swapoff", b"given")
    call("acct", b"given")
    call("acct", b"nothere")
    call("acct", None)


def mounts() -> None:
    """Mount calls, with what the kernel looks at before it asks Landlock."""
    os.mkdir("out/at")
    call("umount2", b"out/at", 0)
    call("umount2", b"nothere", 0)
    call("mount", b"x", b"nothere", b"tmpfs", 0, None)
    call("mount", b"x", b"out/at", b"tmpfs", ctypes.c_ulong(MS_NOUSER), None)
    call("pivot_root", b"nothere", b"out/at")
    call("move_mount", AT_FDCWD, b"nothere", AT_FDCWD, b"out/at", 0)
    call("move_mount", AT_FDCWD, b"out", AT_FDCWD, b"out/at", 0x1000)
    call("mount", b"nothere", b"out/at", None, ctypes.c_ulong(0x1000), None)
    call("pivot_root", b"out/at", b"out/at")
    picked = call("fspick", AT_FDCWD, b"/proc", 0)
    call("fsconfig", picked, FSCONFIG_RECONFIGURE, None, None, 0)
    call("fsconfig", os.open("given", os.O_RDONLY), FSCONFIG_RECONFIGURE, None, None, 0)


def detached() -> None:
    """Mounts that have no place: no rule counts that is on a directory over them."""
    context = call("fsopen", b"tmpfs", 0)
    call("fsconfig", context, FSCONFIG_CREATE, None, None, 0)
    mounted = call("fsmount", context, 0, 0)
    attempt("open in a new mount", lambda: os.open(".", os.O_RDONLY, dir_fd=mounted))
    copied = call("open_tree", AT_FDCWD, b"out", OPEN_TREE_CLONE)
    attempt("open in a copied mount", lambda: os.open(".", os.O_RDONLY, dir_fd=copied))


def namespaces() -> None:
    """Children of children in another PID namespace, which run no program."""
    if _libc.unshare(CLONE_NEWPID):
        sys.exit(4)
    if (child := os.fork()) == 0:
        for number in range(3):
            if (grandchild := os.fork()) == 0:
                attempt("open given", lambda: os.open("given", os.O_WRONLY))
                attempt("open out", lambda: os.open(f"out/made{number}", os.O_WRONLY | os.O_CREAT))
                os._exit(0)
            os.waitpid(grandchild, 0)
        os._exit(0)
    os.waitpid(child, 0)


class Calls32:
    """Calls of 32-bit programs, which any x86 program may make by interrupt 128 (int $0x80)."""

    TRUNCATE64, FTRUNCATE64, FCNTL64, UMOUNT = 193, 194, 221, 22
    #: A function whose three arguments are a call's number and its first two arguments.
    _CODE = bytes.fromhex("53 89f8 89f3 87d1 cd80 5b 4898 c3")
    _MAP_32BIT = 0x40

    def __init__(self) -> None:
        if os.uname().machine != "x86_64":
            sys.exit(4)
        self._code = mmap.mmap(-1, mmap.PAGESIZE, prot=mmap.PROT_READ | mmap.PROT_WRITE | mmap.PROT_EXEC)
        self._code.write(self._CODE)
        of_code = ctypes.addressof(ctypes.c_char.from_buffer(self._code))
        self._function = ctypes.CFUNCTYPE(ctypes.c_long, *[ctypes.c_long] * 4)(of_code)
        _libc.mmap.restype = ctypes.c_void_p
        self._low = _libc.mmap(None, ctypes.c_size_t(mmap.PAGESIZE), 3, 0x22 | self._MAP_32BIT, -1, ctypes.c_long(0))

    def text(self, path: bytes) -> int:
        """The address of a text, which has no more than 32 bits."""
        ctypes.memmove(self._low, path + b"\0", len(path) + 1)
        return int(self._low)

    def make(self, what: str, number: int, *words: int) -> None:
        """Makes one call, and says what came of it."""
        found = self._function(number, *words, *[0] * (3 - len(words)))
        tell(what, "ok" if found >= 0 else errno.errorcode[-found])


def untraced() -> None:
    """A child that no tracer follows: there the kernel knows no call that strace traces by its filter."""
    child = _libc.syscall(CALLS["clone"], ctypes.c_long(CLONE_UNTRACED | signal.SIGCHLD), *[ctypes.c_long(0)] * 4)
    if child == 0:
        attempt("mkdir", lambda: os.mkdir("out/made"))
        os._exit(0)
    os.waitpid(child, 0)


def thirty_two() -> None:
    """Calls that only 32-bit programs have."""
    calls = Calls32()
    calls.make("truncate64", Calls32.TRUNCATE64, calls.text(b"given"), 0)
    opened = os.open("kept/cut", os.O_RDWR | os.O_CREAT)
    calls.make("fcntl64", Calls32.FCNTL64, opened, 0, 100)
    os.close(opened)
    calls.make("ftruncate64", Calls32.FTRUNCATE64, 100, 0)
    calls.make("umount", Calls32.UMOUNT, calls.text(b"/proc/sys/nothere"))


def supervised() -> None:
    """A folder that a thread makes under a filter whose supervisor lets the call continue (seccomp_unotify(2))."""
    mkdir, allow, ask = 83, 0x7FFF0000, 0x7FC00000
    steps = ((0x20, 0, 0, 0), (0x15, 0, 1, mkdir), (6, 0, 0, ask), (6, 0, 0, allow))
    code = ctypes.create_string_buffer(b"".join(struct.pack("<HBBI", *step) for step in steps))
    program = struct.pack("<H6xQ", len(steps), ctypes.addressof(code))
    _libc.prctl(38, ctypes.c_ulong(1), *[ctypes.c_ulong(0)] * 3)
    listeners: list[int] = []
    listening = threading.Event()

    def works() -> None:
        listeners.append(call("seccomp", 1, 8, program))
        listening.set()
        attempt("mkdir", lambda: os.mkdir("made"))

    worker = threading.Thread(target=works)
    worker.start()
    listening.wait()
    if listeners[0] < 0:
        sys.exit(4)
    asked = bytearray(80)
    fcntl.ioctl(listeners[0], 0xC0502100, asked)
    fcntl.ioctl(listeners[0], 0xC0182101, asked[:8] + struct.pack("<qiI", 0, 0, 1))
    worker.join()


def places() -> None:
    """Folders that are made where another process or another thread works."""
    ready, over = os.pipe()
    if (child := os.fork()) == 0:
        os.chdir("kept")
        os.write(over, b"x")
        signal.pause()
    os.read(ready, 1)
    os.chdir("out")
    attempt("mkdir by the child's cwd", lambda: os.mkdir(f"/proc/{child}/cwd/one"))
    moved, told = threading.Event(), threading.Event()

    def works() -> None:
        _libc.unshare(CLONE_FS)
        os.chdir("../kept")
        attempt("mkdir by the process's cwd", lambda: os.mkdir("/proc/self/cwd/two"))
        attempt("mkdir by the thread's cwd", lambda: os.mkdir("/proc/thread-self/cwd/three"))
        moved.set()
        told.wait()

    worker = threading.Thread(target=works)
    worker.start()
    moved.wait()
    attempt("mkdir by another thread's cwd", lambda: os.mkdir(f"/proc/{worker.native_id}/cwd/four"))
    attempt("mkdir by its task", lambda: os.mkdir(f"/proc/self/task/{worker.native_id}/cwd/five"))
    told.set()
    worker.join()
    os.kill(child, signal.SIGKILL)
    os.waitpid(child, 0)


def moving() -> None:
    """Threads that make folders where they work, while another one goes from one folder to another all the time."""
    folders = [os.open(name, os.O_PATH) for name in ("out", "kept")]
    over = threading.Event()

    def goes() -> None:
        for number in range(ROUNDS * 4):
            os.fchdir(folders[number % 2])
        over.set()

    def works(number: int) -> None:
        rounds = 0
        while not over.is_set():
            for name in (f"{number}-{rounds}", f"./{number}-{rounds}-again"):
                with contextlib.suppress(PermissionError):
                    os.mkdir(name)
            rounds += 1

    workers = [threading.Thread(target=goes), *(threading.Thread(target=works, args=(one,)) for one in range(3))]
    for worker in workers:
        worker.start()
    for worker in workers:
        worker.join()
    for folder in folders:
        os.fchdir(folder)
        with contextlib.suppress(PermissionError):
            os.mkdir("last")


def roots() -> None:
    """Folders that are made by the root of a child, and from a working folder that is outside of the root."""
    if os.geteuid():
        sys.exit(4)
    ready, over = os.pipe()
    here = Path.cwd().name
    if (child := os.fork()) == 0:
        os.chroot("kept")
        attempt("mkdir from outside", lambda: os.mkdir(f"../{here}/kept/two"))
        attempt("open from outside", lambda: os.open(f"../{here}/given", os.O_WRONLY))
        outside = os.open(".", os.O_PATH)
        os.chdir("/")
        attempt("mkdir from inside", lambda: os.mkdir("../../three"))
        attempt("mkdir from a folder outside", lambda: os.mkdir(f"../{here}/out/four", dir_fd=outside))
        os.write(over, b"x")
        signal.pause()
    os.read(ready, 1)
    attempt("mkdir by the child's root", lambda: os.mkdir(f"/proc/{child}/root/one"))
    attempt("mkdir over the child's root", lambda: os.mkdir(f"/proc/{child}/root/../out/five"))
    os.kill(child, signal.SIGKILL)
    os.waitpid(child, 0)


def in_root() -> None:
    """Files that are opened with their directory as root (openat2(2), RESOLVE_IN_ROOT)."""
    here = os.open(".", os.O_PATH)
    for path in (b"/given", b"../given"):
        call("openat2", here, path, struct.pack("<QQQ", os.O_WRONLY, 0, 0x10), 24)
        call("openat2", AT_FDCWD, path, struct.pack("<QQQ", os.O_RDONLY, 0, 0x10), 24)


def inheritable() -> None:
    """A ruleset that a program keeps which is run after it was made: only ioctl(2) says that it stays open."""
    ruleset = _ruleset()
    os.set_inheritable(ruleset, True)
    os.execve(sys.executable, [sys.executable, "-S", __file__, restricted.__name__], {KEPT: str(ruleset)})


def restricted() -> None:
    """What is run with a ruleset that it keeps."""
    restrict(int(os.environ[KEPT]))


def sent() -> None:
    """A ruleset that comes over a socket."""
    ruleset = _ruleset()
    here, there = socket.socketpair()
    if (child := os.fork()) == 0:
        os.close(ruleset)
        _, (got, *_), _, _ = socket.recv_fds(there, 1, 1)
        restrict(got)
        os._exit(0)
    socket.send_fds(here, [b"x"], [ruleset])
    os.waitpid(child, 0)


def _ruleset() -> int:
    """A ruleset that handles writing to files, without a rule."""
    return call("landlock_create_ruleset", struct.pack("<Q", 2), 8, 0)


def restrict(ruleset: int) -> None:
    """Restricts this process, and opens a file that only this layer refuses to open."""
    _libc.prctl(38, ctypes.c_ulong(1), *[ctypes.c_ulong(0)] * 3)
    call("landlock_restrict_self", ruleset, 0)
    attempt("open to write", lambda: os.open("out/made", os.O_WRONLY | os.O_CREAT))
    attempt("open to read", lambda: os.open("given", os.O_RDONLY))


def received() -> None:
    """Descriptors that come over a socket, or from another process, and are cut."""
    opened = os.open("out/cut", os.O_RDWR | os.O_CREAT)
    here, there = socket.socketpair()
    if (child := os.fork()) == 0:
        os.close(opened)
        _, (got, *_), _, _ = socket.recv_fds(there, 1, 1)
        attempt("ftruncate of what was sent", lambda: os.ftruncate(got, 0))
        os._exit(0)
    socket.send_fds(here, [b"x"], [opened])
    os.waitpid(child, 0)
    taken = call("pidfd_getfd", call("pidfd_open", os.getpid(), 0), opened, 0)
    attempt("ftruncate of what was taken", lambda: os.ftruncate(taken, 0))


def others() -> None:
    """Looks into the process that started this one."""
    outside = os.getppid()
    attempt("open mem", lambda: os.open(f"/proc/{outside}/mem", os.O_RDONLY))
    attempt("open ns", lambda: os.open(f"/proc/{outside}/ns/mnt", os.O_RDONLY))
    attempt("open through root", lambda: os.open(f"/proc/{outside}/root/etc/hostname", os.O_RDONLY))
    attempt("open status", lambda: os.open(f"/proc/{outside}/status", os.O_RDONLY))
    attempt("open own maps", lambda: os.open("/proc/self/maps", os.O_RDONLY))
    call("kcmp", os.getpid(), outside, 1, 0, 0)
    call("process_vm_readv", outside, None, 0, None, 0, 0)


def looks() -> None:
    """Calls that only look, through the links of the process that started this one, of this one, and of a child."""
    if (child := os.fork()) == 0:
        signal.pause()
    for whose, pid in (("", os.getppid()), ("own ", os.getpid()), ("child's ", child)):
        base = f"/proc/{pid}"
        attempt(f"readlink {whose}exe", lambda: os.readlink(f"{base}/exe"))
        attempt(f"readlink {whose}ns", lambda: os.readlink(f"{base}/ns/mnt"))
        attempt(f"stat {whose}root", lambda: os.stat(f"{base}/root/etc"))
        attempt(f"stat {whose}task", lambda: os.stat(f"{base}/task/{pid}/cwd"))
        attempt(f"statfs {whose}cwd", lambda: os.statvfs(f"{base}/cwd"))
        attempt(f"listxattr {whose}exe", lambda: os.listxattr(f"{base}/exe"))
        attempt(f"chdir {whose}root", lambda: os.chdir(f"{base}/root"))
        attempt(f"lstat {whose}exe", lambda: os.lstat(f"{base}/exe"))
        attempt(f"stat {whose}status", lambda: os.stat(f"{base}/status"))
        tell(f"access {whose}exe", "ok" if os.access(f"{base}/exe", os.R_OK) else "EACCES")
    os.chdir(f"/proc/{os.getppid()}")
    attempt("stat relative", lambda: os.stat("cwd"))
    here = os.open(".", os.O_PATH)
    attempt("stat from a directory", lambda: os.stat("exe", dir_fd=here))
    os.kill(child, signal.SIGKILL)
    os.waitpid(child, 0)


def queue() -> None:
    """A message queue."""
    if call("mq_open", b"landaudit-probe", os.O_RDWR | os.O_CREAT, 0o600, None) >= 0:
        call("mq_unlink", b"landaudit-probe")


def events() -> None:
    """A file that reading an event opens, here for writing too."""
    group = call("fanotify_init", 0, os.O_RDWR)
    if group < 0 or _libc.fanotify_mark(group, 1, ctypes.c_uint64(0x20), AT_FDCWD, b"given"):
        sys.exit(4)
    if (child := os.fork()) == 0:
        os.close(os.open("given", os.O_RDONLY))
        os._exit(0)
    os.waitpid(child, 0)
    attempt("read an event", lambda: os.read(group, 24))


def families() -> None:
    """Addresses of another family than the socket's."""
    for family in (socket.AF_INET, socket.AF_INET6):
        for said in (socket.AF_INET, socket.AF_INET6, socket.AF_UNSPEC, socket.AF_UNIX):
            for port in (LET, NOT_LET):
                for name in ("bind", "connect"):
                    with socket.socket(family) as one:
                        address = _address(port, said)
                        function = getattr(_libc, name)
                        failed = function(one.fileno(), address, len(address))
                        tell(f"{name} {said} on {family} {port}", errno.errorcode[ctypes.get_errno()] if failed else "ok")


def _address(port: int, family: int = socket.AF_INET) -> bytes:
    begin = struct.pack("<H", family) + struct.pack(">H", port)
    if family == socket.AF_INET6:
        return begin + bytes(4) + socket.inet_pton(socket.AF_INET6, "::1") + bytes(4)
    return begin + (bytes(4) if family == socket.AF_UNSPEC else socket.inet_aton("127.0.0.1")) + bytes(8)


def given_socket() -> None:
    """Standard input is a TCP socket without a connection."""
    for port in (LET, NOT_LET):
        address = _address(port)
        failed = _libc.connect(0, address, len(address))
        tell(f"connect to {port}", errno.errorcode[ctypes.get_errno()] if failed else "ok")


def reformed() -> None:
    """A socket over IPv6 that is made one over IPv4 (ipv6(7), IPV6_ADDRFORM)."""
    with socket.create_server(("127.0.0.1", LET)), socket.socket(socket.AF_INET6) as one:
        one.connect(("::ffff:127.0.0.1", LET))
        one.setsockopt(socket.IPPROTO_IPV6, 1, socket.AF_INET)
        for said, port in ((socket.AF_UNSPEC, 0), (socket.AF_INET, NOT_LET)):
            address = _address(port, said)
            failed = _libc.connect(one.fileno(), address, len(address))
            tell(f"connect {said}", errno.errorcode[ctypes.get_errno()] if failed else "ok")


def sending() -> None:
    """Connections that sends open."""
    for port in (LET, NOT_LET):
        with socket.socket() as one:
            attempt(f"sendto {port}", lambda: one.sendto(b"x", MSG_FASTOPEN, ("127.0.0.1", port)))


def threads() -> None:
    """Threads that open, cut and close files all the time, so that numbers go from one to another."""

    def work(number: int) -> None:
        for _ in range(ROUNDS):
            one = os.open(f"out/thread{number}", os.O_RDWR | os.O_CREAT)
            os.ftruncate(one, 0)
            two = os.dup(one)
            os.close(one)
            os.close(two)
            try:
                os.close(os.open("given", os.O_WRONLY))
            except PermissionError:
                os.close(os.open("given", os.O_RDONLY))

    workers = [threading.Thread(target=work, args=(number,)) for number in range(THREADS)]
    for worker in workers:
        worker.start()
    for worker in workers:
        worker.join()


def thread_runs() -> None:
    """A thread beside the leader runs programs: some that fail, then one that takes the process over."""

    def runs() -> None:
        attempt("run nothing", lambda: os.execv("nothere", ["nothere"]))
        attempt("run a file", lambda: os.execv("given", ["given"]))
        attempt("run", lambda: os.execv("/bin/cat", ["cat", "given"]))

    worker = threading.Thread(target=runs)
    worker.start()
    worker.join()


def memory() -> None:
    """A program that is in memory alone, run by its descriptor."""
    program = os.memfd_create("program")
    os.write(program, Path("/bin/true").read_bytes())
    if (child := os.fork()) == 0:
        attempt("run", lambda: os.execve(program, ["program"], {}))
        os._exit(9)
    os.waitpid(child, 0)


def core() -> None:
    """A process that leaves a core file."""
    resource.setrlimit(resource.RLIMIT_CORE, (1 << 20, 1 << 20))
    if (child := os.fork()) == 0:
        os.kill(os.getpid(), signal.SIGABRT)
    os.waitpid(child, 0)
    tell("core file", "ok" if list(Path().glob("core*")) else "none")


def many_closed() -> None:
    """A thread that closes all numbers while another opens files."""
    ready = threading.Event()

    def closes() -> None:
        ready.wait()
        for _ in range(ROUNDS):
            call("close_range", 100, ~0 & 0xFFFFFFFF, 0)

    worker = threading.Thread(target=closes)
    worker.start()
    ready.set()
    for _ in range(ROUNDS):
        os.close(os.open("given", os.O_RDONLY))
    worker.join()
    subprocess.run(["true"], check=True)


STATE = Path(f"{Path.cwd()}-state")
"""A folder beside the working directory, which is not listed before the run."""


def cut() -> None:
    """A file that was there is cut by an open that would have made it, and removed."""
    path = STATE / "pid"
    attempt("cut", lambda: os.close(os.open(path, os.O_WRONLY | os.O_CREAT | os.O_TRUNC, 0o644)))
    attempt("remove", path.unlink)


def made() -> None:
    """A file that the run makes and removes: nothing is cut, and nothing is refused."""
    path = STATE / "new"
    list(STATE.iterdir())
    attempt("make", lambda: os.close(os.open(path, os.O_WRONLY | os.O_CREAT | os.O_TRUNC, 0o644)))
    attempt("remove", path.unlink)


def kinds() -> None:
    """A directory and a named pipe that are renamed and removed."""
    for name, remove in (("directory", Path.rmdir), ("pipe", Path.unlink)):
        attempt(f"rename {name}", lambda: (STATE / name).rename(STATE / f"{name}-old"))
        attempt(f"remove {name}", lambda: remove(STATE / f"{name}-old"))


def swapped() -> None:
    """A directory is made by a link, which is then another one."""
    attempt("make by the first", lambda: (STATE / "now" / "sub").mkdir())
    attempt("make a link", lambda: (STATE / "then").symlink_to("second"))
    attempt("replace the link", lambda: (STATE / "then").rename(STATE / "now"))
    attempt("make by the second", lambda: (STATE / "now" / "sub").mkdir())


def unlike() -> None:
    """Calls for a directory about what is none, and the reverse: the kernel asks Landlock before it says so."""
    os.symlink("none", STATE / "far")
    attempt("make by a link and a slash", lambda: os.mkdir(f"{STATE}/far/"))
    attempt("make by the link", lambda: os.close(os.open(STATE / "far", os.O_WRONLY | os.O_CREAT)))
    attempt("unlink a directory", lambda: os.unlink("kept"))
    attempt("remove a file as a directory", lambda: os.rmdir("given"))
    attempt("put a file in a directory's place", lambda: os.rename("out/made", "kept"))
    attempt("put a directory in a file's place", lambda: os.rename("kept", "given"))
    attempt("link a directory", lambda: os.link("kept", "linked"))
    attempt("open a socket", lambda: os.open("socket", os.O_RDONLY))


def script() -> None:
    """A script that is made, run and removed; its program may not be run."""
    path = STATE / "script"
    path.write_text(f"#!{Path('program').resolve()}\n")
    path.chmod(0o755)
    attempt("run", lambda: subprocess.run([path], check=True))
    path.unlink()


def without_times() -> None:
    """A file system that does not keep when a file was made (ramfs): a file that is made, and not cut."""
    path = STATE / "ram" / "new"
    attempt("make", lambda: os.close(os.open(path, os.O_WRONLY | os.O_CREAT | os.O_TRUNC, 0o644)))


def for_ioctl() -> None:
    """Opens with access mode 3 (open(2)): a file is made, another one is cut."""
    attempt("make", lambda: os.close(os.open("kept-not", os.O_CREAT | 3, 0o644)))
    attempt("cut", lambda: os.close(os.open("given", os.O_TRUNC | 3)))
    attempt("open", lambda: os.close(os.open("given", 3)))


def busy() -> None:
    """A program that runs can't be written, whatever a policy says."""
    attempt("write", lambda: os.close(os.open(sys.executable, os.O_WRONLY)))
    attempt("cut", lambda: os.truncate(sys.executable, 0))


def checked() -> None:
    """Asks whether files may be run, and goes on (execveat(2), AT_EXECVE_CHECK)."""
    opened = os.open("out/cut", os.O_RDWR | os.O_CREAT | os.O_CLOEXEC)
    for path in (b"/bin/true", b"program", b"given"):
        words = (ctypes.c_char_p * 2)(path, None)
        found = _libc.syscall(ctypes.c_long(CALLS["execveat"]), AT_FDCWD, path, words, None, AT_EXECVE_CHECK)
        tell(f"check {path.decode()}", "ok" if found == 0 else errno.errorcode[ctypes.get_errno()])
    attempt("ftruncate", lambda: os.ftruncate(opened, 0))


def bound_twice() -> None:
    """A UNIX socket that has a name already: Landlock is asked about the second one before the socket says EINVAL."""
    with socket.socket(socket.AF_UNIX) as one:
        attempt("bind", lambda: one.bind("\0landaudit-probe"))
        attempt("bind again", lambda: one.bind("kept/socket"))


def without_direct() -> None:
    """Opens by O_DIRECT in a file system that does not have it, which says so after Landlock was asked."""
    for path in ("/proc/self/comm", "/proc/self/stat"):
        attempt(f"open {path}", lambda: os.open(path, os.O_WRONLY | os.O_DIRECT))


def merged() -> None:
    """A directory of a lower layer, which overlayfs does not rename: it says so after Landlock was asked."""
    attempt("rename", lambda: (STATE / "merged" / "lower").rename(STATE / "merged" / "other"))


def shown_twice() -> None:
    """A directory that is mounted a second and a third time, with and without what is mounted below it: a rule on it
    counts at all places.
    """
    for place in ("second", "shown", "whole"):
        attempt(f"make in {place}", lambda: (STATE / place / f"made-{place}").mkdir())


def duplicated() -> None:
    """A duplicate of a ruleset, and the first closed."""
    first = _ruleset()
    second = os.dup(first)
    os.close(first)
    restrict(second)


def of_owners() -> None:
    """Only its owner may open a file so that its times stay: another user gets EPERM, whatever a policy says."""
    if os.geteuid() == 0:
        os.setuid(65534)
    attempt("open", lambda: os.open("given", os.O_RDONLY | os.O_NOATIME))


PROBES: dict[str, Callable[[], None]] = {
    function.__name__: function
    for function in (
        io_uring,
        handles,
        inside,
        mounts,
        detached,
        namespaces,
        untraced,
        thirty_two,
        supervised,
        places,
        moving,
        roots,
        in_root,
        inheritable,
        restricted,
        sent,
        received,
        others,
        looks,
        queue,
        events,
        families,
        given_socket,
        reformed,
        sending,
        threads,
        thread_runs,
        memory,
        core,
        many_closed,
        cut,
        made,
        kinds,
        swapped,
        unlike,
        script,
        without_times,
        for_ioctl,
        busy,
        checked,
        bound_twice,
        without_direct,
        merged,
        shown_twice,
        duplicated,
        of_owners,
    )
}


def main() -> None:
    """Runs the probe that is named."""
    parser = argparse.ArgumentParser(description=__doc__, formatter_class=argparse.RawDescriptionHelpFormatter)
    parser.add_argument("name", choices=PROBES)
    PROBES[parser.parse_args().name]()


if __name__ == "__main__":
    main()
