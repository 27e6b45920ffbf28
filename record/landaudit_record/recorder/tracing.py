"""Running a command under strace(1)."""

from __future__ import annotations

import ctypes
import os
import re
import shutil
import signal
import subprocess
from collections.abc import Callable, Iterator
from contextlib import contextmanager
from dataclasses import dataclass
from pathlib import Path
from types import FrameType

from ..common.problems import WANTING, Problem
from ..common.stopping import SIGNALS
from .freeing import Freeing
from .looks import LOOKS, READLINKS
from .quieting import quiet

OLDEST = (6, 1)

#: With its filter (--seccomp-bpf, which makes recording faster) strace sets no_new_privs on the command.
SETS_NO_NEW_PRIVS = True

#: Signals that end no process by themselves (signal(7)); all others are kept, since strace reports that a signal ended
#: a process only if it keeps the signal.
HARMLESS_SIGNALS = ("SIGCHLD", "SIGCONT", "SIGURG", "SIGWINCH")

#: The calls that a conversion reads; `?` before a name that a strace, or a machine, may not know.
CALLS = """
execve execveat clone clone3 fork vfork unshare setns chdir fchdir chroot
open openat ?openat2 creat close ?close_range dup dup2 dup3 fcntl ?fcntl64 socket socketpair bind connect ioctl
ftruncate ?ftruncate64 truncate ?truncate64
mknod mknodat mkdir mkdirat symlink symlinkat unlink unlinkat rmdir rename renameat renameat2 link linkat
mount ?umount umount2 pivot_root ?move_mount ?fsconfig ?fsmount ?open_tree ?open_tree_attr prctl
?landlock_create_ruleset ?landlock_add_rule ?landlock_restrict_self
?io_uring_setup ?io_uring_enter name_to_handle_at open_by_handle_at swapon swapoff acct
?uselib fanotify_init ?bpf mq_open ?seccomp
sendto sendmsg sendmmsg
ptrace process_vm_readv process_vm_writev kcmp ?move_pages ?migrate_pages ?get_robust_list perf_event_open
?process_madvise ?pidfd_getfd
setuid setreuid setresuid setfsuid setgid setregid setresgid setfsgid setgroups capset
?setuid32 ?setreuid32 ?setresuid32 ?setfsuid32 ?setgid32 ?setregid32 ?setresgid32 ?setfsgid32 ?setgroups32
kill tkill tgkill rt_sigqueueinfo ?rt_tgsigqueueinfo ?pidfd_send_signal
""".split()

#: Calls of which only the flags are read: their data stay out of the log.
UNDECODED = ("sendto", "sendmsg", "sendmmsg")
#: Calls with long structures: these stay out of the log.
BRIEF = ("stat", "lstat", "newfstatat", "statx", "statfs", "stat64", "lstat64", "fstatat64", "statfs64", "seccomp")

#: The time that a command has to end before it is killed, in seconds.
PATIENCE = 5.0
#: The time between further attempts to kill what is left.
_AGAIN = 0.2
_PR_SET_CHILD_SUBREAPER = 36


def version() -> str:
    """The version of strace, as `6.1`."""
    if shutil.which("strace") is None:
        raise Problem("strace is not installed: install Debian's package strace", WANTING)
    said = subprocess.run(["strace", "--version"], capture_output=True, text=True, check=False).stdout
    match = re.search(r"version (\d+)\.(\d+)", said)
    if match is None or (int(match[1]), int(match[2])) < OLDEST:
        raise Problem("strace is older than 6.1: install a newer one", WANTING)
    return f"{match[1]}.{match[2]}"


def may_trace() -> None:
    """Checks that this user may trace a program."""
    run = subprocess.run(["strace", "-o", "/dev/null", "true"], capture_output=True, text=True, check=False)
    if run.returncode != 0:
        said = (run.stderr.strip().splitlines() or ["it gives no reason"])[-1]
        raise Problem(f"strace may not trace programs here: {said}", WANTING)


def command_line(log: Path, command: list[str], *, readlink: bool = False) -> list[str]:
    """The whole command that runs a command under strace; `readlink` says whether calls that read links are traced."""
    looks = [f"?{name}" for name in sorted(LOOKS | READLINKS if readlink else LOOKS)]
    return [
        "strace",
        "--follow-forks",
        "--seccomp-bpf",
        "--quiet=attach,personality",
        "--const-print-style=verbose",
        "--decode-fds=path,pidfd",
        "--decode-pids=pidns",
        f"--raw={','.join(UNDECODED)}",
        f"--signal=!{','.join(HARMLESS_SIGNALS)}",
        "--string-limit=4096",
        "--abbrev=execve,execveat",
        f"--verbose=!{','.join(f'?{name}' for name in BRIEF)}",
        f"--trace={','.join([*CALLS, *looks])}",
        f"--output={log}",
        "--",
        *command,
    ]


@dataclass(frozen=True)
class Outcome:
    """The result of a run: the command's status as a shell gives it, and whether the tracer ended by itself.

    `taken` has the places of file systems that were taken from their servers, since the tracer waited for these.
    """

    status: int
    ended: bool
    taken: tuple[str, ...] = ()


def run(log: Path, command: list[str], *, readlink: bool = False) -> Outcome:
    """Runs a command under strace; `readlink` is that of `command_line`.

    An interrupt from the terminal goes to the command, which decides how it ends. Other signals that ask for the end
    are passed to everything that strace traces, and what has not ended after a while is killed. Nothing is left
    running: if the tracer was killed, what it traced is killed too, since most of its calls would fail.
    """
    adopt_orphans()
    passing = SignalForwarder()
    with passing.installed():
        # Files that Python opens itself are not inherited (PEP 446), so these are the descriptors that it was given.
        words, environment = quiet(command_line(log, command, readlink=readlink), os.environ)
        tracer = subprocess.Popen(words, env=environment, close_fds=False)
        passing.reached = lambda: _traced_by(tracer.pid)
        with Freeing(tracer.pid, lambda: _traced_by(tracer.pid)) as freeing:
            tracer.returncode = _wait(tracer.pid)
    left = _kill_children() if tracer.returncode < 0 else 0
    status = tracer.returncode if tracer.returncode >= 0 else 128 - tracer.returncode
    return Outcome(status, left == 0, tuple(freeing.taken))


def adopt_orphans() -> None:
    """Makes this process the parent of orphans (prctl(2), PR_SET_CHILD_SUBREAPER)."""
    ctypes.CDLL(None).prctl(_PR_SET_CHILD_SUBREAPER, ctypes.c_ulong(1), *[ctypes.c_ulong(0)] * 3)


def _wait(tracer: int) -> int:
    """Waits for the end of the tracer, and reaps orphans that end; returns the tracer's status."""
    while True:
        pid, status = os.waitpid(-1, 0)
        if pid == tracer:
            return os.waitstatus_to_exitcode(status)


class SignalForwarder:
    """Passes signals that ask for the end to all that is recorded; kills it after a while, or at a second one."""

    def __init__(self) -> None:
        self.reached: Callable[[], list[int]] = list
        self._asked = False

    @contextmanager
    def installed(self) -> Iterator[None]:
        """Handles the signals with functions, since the command would also ignore what is ignored here (execve(2))."""
        handlers: dict[int, Callable[[int, FrameType | None], None]] = {
            signal.SIGINT: lambda *_: None,
            signal.SIGALRM: self._kill,
            **{number: self._pass for number in SIGNALS if signal.getsignal(number) is not signal.SIG_IGN},
        }
        before = {number: signal.signal(number, handler) for number, handler in handlers.items()}
        try:
            yield
        finally:
            signal.setitimer(signal.ITIMER_REAL, 0)
            for number, handler in before.items():
                signal.signal(number, handler)

    def _pass(self, number: int, frame: FrameType | None) -> None:
        signal.setitimer(signal.ITIMER_REAL, _AGAIN if self._asked else PATIENCE, _AGAIN)
        self._send(signal.SIGKILL if self._asked else number)
        self._asked = True

    def _kill(self, number: int, frame: FrameType | None) -> None:
        self._send(signal.SIGKILL)

    def _send(self, number: int) -> None:
        for pid in self.reached():
            try:
                os.kill(pid, number)
            except ProcessLookupError:
                continue


def _traced_by(tracer: int) -> list[int]:
    """The processes that a tracer traces."""
    return processes("TracerPid", tracer)


def processes(field: str, value: int) -> list[int]:
    """The processes whose status has a number in a field (proc(5))."""
    found = []
    for entry in os.scandir("/proc"):
        try:
            text = Path(entry.path, "status").read_text() if entry.name.isdecimal() else ""
        except OSError:
            continue
        if re.search(rf"^{field}:\t{value}$", text, re.MULTILINE):
            found.append(int(entry.name))
    return found


def _kill_children() -> int:
    """Kills all descendants of this process, and returns how many of them had not ended."""
    killed = 0
    while children := processes("PPid", os.getpid()):
        for child in children:
            ended, _ = os.waitpid(child, os.WNOHANG)
            if not ended:
                os.kill(child, signal.SIGKILL)
                os.waitpid(child, 0)
                killed += 1
    return killed
