"""Scopes and the rule on ptrace on a running kernel: it decides as `reach` does, and an audit tells what it refuses."""

from __future__ import annotations

import ctypes
import errno
import fcntl
import json
import os
import shutil
import signal
import socket
import struct
import subprocess
import tempfile
import threading
import time
import unittest
from collections.abc import Callable, Sequence
from pathlib import Path
from typing import Any

from landaudit_record.common.reach import ABSTRACT, PTRACE, SIGNAL, ProcessLayer, refusing
from landaudit_record.common.rights import ABI_OF_SCOPES
from landaudit_record.policy import landlock_calls

from .live_actor import CONFINER, PYTHON, RECORDER, wanting
from .live_exporting import MAIN
from .test_scopes import ROWS

NAME = f"landaudit-{os.getpid()}"
BOTH = ("abstract_unix_socket", "signal")
POLICY = '[[layer]]\nhandled_access_fs = ["make_sock"]\nscoped = [{}]\n'
#: What a program does to others, in the order of the scopes; it prints the error of each step.
STEPS = f"""
import os, socket, time
def attempt(does):
    try: does(); print("ok")
    except OSError as error: print(error.errno)
attempt(lambda: os.kill({os.getpid()}, 0))
attempt(lambda: socket.socket(socket.AF_UNIX).connect("\\0{NAME}"))
own = socket.socket(socket.AF_UNIX)
own.bind("\\0{NAME}-own"); own.listen()
attempt(lambda: socket.socket(socket.AF_UNIX).connect("\\0{NAME}-own"))
child = os.fork()
if child == 0: time.sleep(9)
attempt(lambda: os.kill(child, 9))
"""
EPERM, OK, REFUSED = "1", "ok", "EPERM"
#: Numbers of system calls on x86-64, and of requests (ptrace(2), kcmp(2), unshare(2)).
TKILL, TGKILL, SIGQUEUE, KCMP, NEW_PIDS = 200, 234, 129, 312, 0x20000000
SEIZE, DETACH = 0x4206, 17
_libc = ctypes.CDLL(None, use_errno=True)


def _wanting() -> str | None:
    if (missing := wanting()) is not None:
        return missing
    knows = landlock_calls.kernel_abi() >= ABI_OF_SCOPES
    return None if knows else "this kernel has no scopes"


def restrict(scoped: Sequence[str] = BOTH) -> None:
    """Puts a layer on this thread that handles one right, with scopes."""
    landlock_calls.set_no_new_privs()
    ruleset = landlock_calls.create_ruleset(["make_sock"], None, scoped)
    landlock_calls.restrict_self(ruleset)
    os.close(ruleset)


def answer(does: Callable[..., object], *words: object) -> str:
    """`ok`, or the name of the error of a call."""
    try:
        does(*words)
    except OSError as error:
        return errno.errorcode[error.errno or 0]
    return OK


def system(number: int, *words: Any) -> None:
    """A system call."""
    if _libc.syscall(ctypes.c_long(number), *words) < 0:
        raise OSError(ctypes.get_errno(), "")


def look(pid: int) -> None:
    """Looks into a process, as a debugger does."""
    for request in (SEIZE, DETACH):
        if _libc.ptrace(ctypes.c_long(request), ctypes.c_long(pid), None, None) < 0 and request == SEIZE:
            raise OSError(ctypes.get_errno(), "")


def connect(name: str, kind: int = socket.SOCK_STREAM) -> None:
    """Connects to an abstract name."""
    with socket.socket(socket.AF_UNIX, kind) as own:
        own.connect(name)


def in_child(does: Callable[[], Any]) -> Any:
    """What a function gives in a child."""
    reading, writing = os.pipe()
    child = os.fork()
    if child == 0:
        os.close(reading)
        try:
            os.write(writing, json.dumps(does()).encode())
        finally:
            os._exit(0)
    os.close(writing)
    with open(reading, "rb") as answered:
        said = answered.read()
    os.waitpid(child, 0)
    return json.loads(said)


def waiting(first: Callable[[], object] = lambda: None) -> int:
    """A child that does something first, and then waits for the end of its parent.

    A signal at the end of the parent (PR_SET_PDEATHSIG) is as one that the parent sends, and may be refused.
    """
    reading, writing = os.pipe()
    parent, child = os.getpid(), os.fork()
    if child == 0:
        kept = first()
        os.write(writing, b"x")
        os.close(writing)
        while os.getppid() == parent:
            time.sleep(0.01)
        os._exit(0 if kept is None else 1)
    os.close(writing)
    os.read(reading, 1)
    os.close(reading)
    return child


def server(name: str, kind: int = socket.SOCK_STREAM) -> Callable[[], socket.socket]:
    """What makes a socket with an abstract name."""

    def made() -> socket.socket:
        own = socket.socket(socket.AF_UNIX, kind)
        own.bind(name)
        if kind != socket.SOCK_DGRAM:
            own.listen()
        return own

    return made


def ended(child: int) -> bool:
    """Whether a signal has ended a child, which may take a while."""
    for _ in range(20):
        if os.waitpid(child, os.WNOHANG) != (0, 0):
            return True
        time.sleep(0.01)
    return False


class Kernel(unittest.TestCase):
    """Each test does something in a child that has a layer with both scopes; `outside` is a process without layers."""

    def setUp(self) -> None:
        if (missing := _wanting()) is not None:
            self.skipTest(missing)
        self.outside = waiting()
        self.sibling = waiting(restrict)
        self.addCleanup(self._end, self.outside, self.sibling)

    def _end(self, *children: int) -> None:
        for child in children:
            os.kill(child, signal.SIGKILL)
            os.waitpid(child, 0)

    def confined(self, does: Callable[[], Any]) -> Any:
        """What a function gives in a child under a layer."""

        def first() -> Any:
            restrict()
            return does()

        return in_child(first)

    def test_signals(self) -> None:
        def met() -> dict[str, str]:
            targets = {"self": os.getpid(), "child": waiting(), "nested": waiting(restrict), "parent": os.getppid(),
                       "outside": self.outside, "sibling": self.sibling}
            return {name: answer(os.kill, pid, 0) for name, pid in targets.items()}

        refused = {"parent", "outside", "sibling"}
        self.assertEqual({name for name, said in self.confined(met).items() if said != OK}, refused)

    def test_children_and_their_parents(self) -> None:
        def nested() -> str:
            restrict()
            return answer(os.kill, os.getppid(), 0)

        self.assertEqual(self.confined(lambda: in_child(lambda: answer(os.kill, os.getppid(), 0))), OK)
        self.assertEqual(self.confined(lambda: in_child(nested)), REFUSED)

    def test_ways_to_send_a_signal(self) -> None:
        info = ctypes.create_string_buffer(struct.pack("iii", signal.SIGUSR1, 0, -1) + bytes(116))
        word = ctypes.c_int(self.outside)
        ways: tuple[Callable[[], object], ...] = (
            lambda: system(TKILL, word, 0),
            lambda: system(TGKILL, word, word, 0),
            lambda: system(SIGQUEUE, word, signal.SIGUSR1, info),
            lambda: signal.pidfd_send_signal(os.pidfd_open(self.outside), 0),
        )
        self.assertEqual(self.confined(lambda: [answer(way) for way in ways]), [REFUSED] * len(ways))

    def test_threads_of_one_process(self) -> None:
        """A thread that alone has the layer may signal the others."""
        def met() -> list[str]:
            found: list[str] = []

            def of_thread() -> None:
                restrict()
                found.append(answer(system, TGKILL, os.getpid(), os.getpid(), 0))
                found.append(answer(os.kill, self.outside, 0))

            thread = threading.Thread(target=of_thread)
            thread.start()
            thread.join()
            return found

        self.assertEqual(in_child(met), [OK, REFUSED])

    def test_groups(self) -> None:
        """A signal to a group goes to those that it may, and is an error if there are none; that to all never is."""
        alone, mixed = (waiting(lambda: os.setpgid(0, 0)) for _ in range(2))
        self.addCleanup(self._end, alone, mixed)

        def met() -> list[object]:
            member = waiting(lambda: os.setpgid(0, mixed))
            said = [answer(os.kill, -alone, 0), answer(os.kill, -mixed, signal.SIGTERM), answer(os.kill, 0, 0)]
            return [*said, ended(member)]

        self.assertEqual(self.confined(met), [REFUSED, OK, OK, True])
        self.assertFalse(ended(mixed))

    def test_all_processes(self) -> None:
        if os.geteuid() != 0:
            self.skipTest("only root can make a PID namespace")

        def met() -> list[object]:
            member = waiting()
            return [answer(os.kill, -1, signal.SIGTERM), ended(member)]

        def first() -> list[object]:
            other = waiting()
            return [*self.confined(met), ended(other), self.confined(lambda: answer(os.kill, -1, signal.SIGTERM))]

        def apart() -> Any:
            if _libc.unshare(NEW_PIDS) < 0:
                raise OSError(ctypes.get_errno(), "unshare")
            return in_child(first)

        self.assertEqual(in_child(apart), [OK, True, False, OK])

    def test_signals_of_a_descriptor(self) -> None:
        """Those of F_SETOWN count as sent by the process that set it, at that time; no process is told what is refused."""
        def met(before: bool) -> int:
            got: list[int] = []
            signal.signal(signal.SIGIO, lambda number, _: got.append(number))
            me, (one, other) = os.getpid(), socket.socketpair()

            def own() -> None:
                fcntl.fcntl(one, fcntl.F_SETOWN, me)
                fcntl.fcntl(one, fcntl.F_SETFL, os.O_ASYNC)

            def send() -> None:
                for step in (own, restrict) if before else (restrict, own):
                    step()
                other.send(b"x")

            in_child(send)
            time.sleep(0.05)
            return len(got)

        self.assertEqual([in_child(lambda: met(True)), in_child(lambda: met(False))], [1, 0])

    def test_abstract_sockets(self) -> None:
        for kind in (socket.SOCK_STREAM, socket.SOCK_DGRAM, socket.SOCK_SEQPACKET):
            names = [f"\0{NAME}-{kind}-{number}" for number in range(5)]
            others = [waiting(server(names[0], kind)), waiting(lambda: (restrict(), server(names[1], kind)()))]
            before = server(names[2], kind)()

            def met() -> list[str]:
                waiting(server(names[3], kind))
                waiting(lambda: (restrict(), server(names[4], kind)()))
                return [answer(connect, name, kind) for name in names]

            with self.subTest(kind), before:
                self.assertEqual(self.confined(met), [REFUSED, REFUSED, REFUSED, OK, OK])
            self._end(*others)

    def test_datagrams_and_what_was_connected_before(self) -> None:
        first, second = f"\0{NAME}-first", f"\0{NAME}-second"
        with server(first, socket.SOCK_DGRAM)(), server(second, socket.SOCK_DGRAM)(), server(f"\0{NAME}-s")(), \
             socket.socket(socket.AF_UNIX, socket.SOCK_DGRAM) as old, socket.socket(socket.AF_UNIX) as stream:
            old.connect(first)
            stream.connect(f"\0{NAME}-s")

            def met() -> list[str]:
                new = socket.socket(socket.AF_UNIX, socket.SOCK_DGRAM)
                return [answer(new.sendto, b"x", first), answer(new.sendmsg, [b"x"], [], 0, first),
                        answer(old.send, b"x"), answer(old.sendto, b"x", first), answer(old.sendto, b"x", second),
                        answer(stream.send, b"x")]

            self.assertEqual(self.confined(met), [REFUSED, REFUSED, OK, OK, REFUSED, OK])

    def test_sockets_without_an_abstract_name(self) -> None:
        with tempfile.TemporaryDirectory() as folder, socket.socket(socket.AF_UNIX) as own:
            own.bind(f"{folder}/s")
            own.listen()
            one, _ = socket.socketpair()
            met = self.confined(lambda: [answer(connect, f"{folder}/s"), answer(one.send, b"x"),
                                         answer(connect, f"\0{NAME}-none")])
        self.assertEqual(met, [OK, OK, "ECONNREFUSED"])

    def test_a_socket_is_under_the_layers_of_its_making(self) -> None:
        def met() -> list[str]:
            name = f"\0{NAME}-made"
            with socket.socket(socket.AF_UNIX) as own:
                restrict()
                own.bind(name)
                own.listen()
                before = answer(connect, name)
            with server(name)():
                return [before, answer(connect, name)]

        self.assertEqual(in_child(met), [REFUSED, OK])

    def test_looks_into_others(self) -> None:
        def met() -> dict[str, list[str]]:
            ways: tuple[Callable[[int], object], ...] = (
                look, lambda pid: system(KCMP, pid, os.getpid(), 1, 0, 0), lambda pid: os.readlink(f"/proc/{pid}/exe")
            )
            targets = {"child": waiting(), "nested": waiting(restrict)}
            targets |= {"outside": self.outside, "sibling": self.sibling}
            return {name: [answer(way, pid) for way in ways] for name, pid in targets.items()}

        free, kept = [OK] * 3, [REFUSED, REFUSED, "EACCES"]
        self.assertEqual(self.confined(met), {"child": free, "nested": free, "outside": kept, "sibling": kept})


class Rows(unittest.TestCase):
    """The kernel answers as the decision does: to its rows, and to all processes under few layers."""

    def setUp(self) -> None:
        if (missing := _wanting()) is not None:
            self.skipTest(missing)

    def met(self, caller: Sequence[ProcessLayer], other: Sequence[ProcessLayer]) -> dict[str, bool]:
        """What the kernel refuses of each kind between two processes with some layers."""
        shared = next((at for at, (one, two) in enumerate(zip(caller, other)) if one is not two),
                      min(len(caller), len(other)))
        name = f"\0{NAME}-row"

        def target() -> socket.socket:
            for layer in other[shared:]:
                restrict(layer.scoped)
            return server(name)()

        def met() -> dict[str, bool]:
            for layer in caller[:shared]:
                restrict(layer.scoped)
            pid = waiting(target)
            for layer in caller[shared:]:
                restrict(layer.scoped)
            said = {SIGNAL: answer(os.kill, pid, 0), ABSTRACT: answer(connect, name), PTRACE: answer(look, pid)}
            return {asked: one == REFUSED for asked, one in said.items()}

        found: dict[str, bool] = in_child(met)
        return found

    def test_the_rows(self) -> None:
        for asked, caller, other, layers in ROWS:
            with self.subTest(asked=asked, caller=caller, other=other):
                self.assertEqual(self.met(caller, other)[asked], bool(layers))

    def test_all_processes_under_few_layers(self) -> None:
        rights = frozenset({"make_sock"})
        few = ((), ("",), ("s",), ("a",), ("s", ""), ("", "s"), ("a", "s"))
        words = {"": (), "s": ("signal",), "a": ("abstract_unix_socket",)}
        for common in few[:3]:
            for mine in few:
                for theirs in few[:4]:
                    three = (common, mine, theirs)
                    shared, own, others = ([ProcessLayer(rights, words[word]) for word in one] for one in three)
                    caller, other = (*shared, *own), (*shared, *others)
                    said = {asked: bool(refusing(asked, caller, [other], 7)) for asked in (SIGNAL, ABSTRACT, PTRACE)}
                    with self.subTest(common=common, mine=mine, theirs=theirs):
                        self.assertEqual(self.met(caller, other), said)


class LiveScopes(unittest.TestCase):
    def setUp(self) -> None:
        if (missing := _wanting()) is not None:
            self.skipTest(missing)
        self.folder = Path(self.enterContext(tempfile.TemporaryDirectory())).resolve()
        listening = self.enterContext(socket.socket(socket.AF_UNIX))
        listening.bind(f"\0{NAME}")
        listening.listen()

    def policy(self, *scopes: str) -> Path:
        """A policy with scopes."""
        policy = self.folder / f"{'-'.join(scopes)}.toml"
        policy.write_text(POLICY.format(", ".join(f'"{scope}"' for scope in scopes)))
        return policy

    def met(self, abi: int, *scopes: str) -> list[str]:
        """What the kernel answers to the steps under a policy with scopes."""
        words = [PYTHON, str(CONFINER), "confine", str(self.policy(*scopes)), "--abi", str(abi), "--"]
        return subprocess.run([*words, PYTHON, "-c", STEPS], capture_output=True, text=True, check=True).stdout.split()

    def audited(self, out: Path, scope: str, abi: str) -> tuple[int, list[tuple[str, str, str]]]:
        """The status of an audit under a policy with a scope, and what it refuses."""
        words = [str(RECORDER), "audit", str(out), "--policy", str(self.policy(scope)), "--json", "--abi", abi]
        run = subprocess.run(words, capture_output=True, text=True, check=False)
        audit: dict[str, Any] = json.loads(run.stdout)
        self.assertEqual(audit["not_judged"], [])
        refusals = [(one["call"], one["place"], one["error"]) for one in audit["refusals"] for _ in range(one["times"])]
        return run.returncode, refusals

    @unittest.skipIf(shutil.which("gcc") is None, "gcc is not installed")
    def test_a_policy_as_code(self) -> None:
        code, main, program = (self.folder / name for name in ("policy.c", "main.c", "program"))
        main.write_text(MAIN)
        words = [PYTHON, str(CONFINER), "export", str(self.policy(*BOTH)), "--c"]
        code.write_text(subprocess.run(words, capture_output=True, text=True, check=True).stdout)
        subprocess.run(["gcc", "-o", program, main, code], check=True)
        met = subprocess.run([program, PYTHON, "-c", STEPS], capture_output=True, text=True, check=True).stdout
        self.assertEqual(met.split(), [EPERM, EPERM, "ok", "ok"])

    def test_what_a_scope_refuses_is_told(self) -> None:
        self.assertEqual(self.met(7, "signal"), [EPERM, "ok", "ok", "ok"])
        self.assertEqual(self.met(6, "abstract_unix_socket"), ["ok", EPERM, "ok", "ok"])
        self.assertEqual(self.met(5, *BOTH), ["ok"] * 4)
        out = self.folder / "rec"
        subprocess.run([RECORDER, "run", out, "--", PYTHON, "-c", STEPS], capture_output=True, check=True)
        killed, connected = ("kill", "another process", REFUSED), ("connect", f"@{NAME}", REFUSED)
        self.assertEqual(self.audited(out, "signal", "6"), (1, [killed]))
        self.assertEqual(self.audited(out, "abstract_unix_socket", "6-7"), (1, [connected]))
        self.assertEqual(self.audited(out, "signal", "5"), (0, []))

    def test_a_run_under_a_policy_with_a_scope(self) -> None:
        """The layer is the program's own then, and strace before 6.7 does not show its scopes."""
        out = self.folder / "confined"
        words = [RECORDER, "run", out, "--policy", self.policy("signal"), "--", PYTHON, "-c", STEPS]
        run = subprocess.run(words, capture_output=True, text=True, check=False)
        self.assertRegex(run.stderr, "1 +kill +another process")
        audit = [str(RECORDER), "audit", str(out), "--json", "--abi", "5-6"]
        said = json.loads(subprocess.run(audit, capture_output=True, text=True, check=False).stdout)
        self.assertEqual([one["call"] for one in said["refusals"]], ["kill"])
        self.assertEqual([step["refused"] for step in said["abis"]], [0, 1])
