"""Each probe, recorded bare and under a policy: what the kernel refuses is foretold, or counted as what may be refused.

What is expected of each probe was seen on Linux 6.18; a refusal that a kernel adds makes a test fail.
"""

from __future__ import annotations

import json
import os
import shutil
import socket
import subprocess
import tempfile
import unittest
from dataclasses import dataclass
from pathlib import Path
from typing import Any

from landaudit_record.common.jsonl import numbered
from landaudit_record.recorder.calls import descriptors, inexpressible, landlock, mounts, programs, ptrace
from landaudit_record.recorder.converting import CORE_FILE
from landaudit_record.recorder.names import MADE_OR_THERE
from landaudit_record.recorder.scene import BY_UNSEEN_LAYER, MOVING

from .live_actor import CONFINER, HERE, POLICIES, PYTHON, RECORDER, wanting

WORK = "/tmp/landaudit-probes"
"""The folder that the policy names; here a temporary one stands for it."""

REFUSALS = frozenset({"EACCES", "EPERM", "EXDEV"})


@dataclass(frozen=True)
class Expected:
    """What a probe meets: the steps that the policy refuses, how the bare recording's audit foretells them (by the
    kinds of its refused calls), and the classes in which it counts calls that may be refused. It is recorded with some
    options of `run`, and with a TCP socket as standard input if `socket` says so. If it is `told`, it depends on how
    soon the recorder looks whether the audit foretells what is refused or tells that it may be. `unsure` is what the
    recorder can't know of it if it looks too late, with all privileges.
    """

    met: frozenset[str] = frozenset()
    foretold: frozenset[str] = frozenset()
    holes: frozenset[str] = frozenset()
    options: tuple[str, ...] = ()
    socket: bool = False
    told: bool = False
    unsure: str | None = None


def _of(
    met: str = "",
    foretold: str = "",
    holes: tuple[str, ...] = (),
    options: tuple[str, ...] = (),
    *,
    socket: bool = False,
    told: bool = False,
    unsure: str | None = None,
) -> Expected:
    split = (frozenset(filter(None, text.split(", "))) for text in (met, foretold))
    return Expected(*split, frozenset(holes), options, socket, told, unsure)


#: What the rule on ptrace refuses of the process that started a probe.
LOOKS = (
    "readlink exe, readlink ns, stat root, stat task, statfs cwd, listxattr exe, chdir root, access exe, stat relative, "
    "stat from a directory"
)


EXPECTED = {
    "io_uring": _of("io_uring 18, io_uring 37, io_uring 16", holes=(inexpressible.BY_IO_URING,)),
    "handles": _of("open_by_handle_at", "open"),
    "inside": _of("swapon, swapoff, acct", "open", holes=(inexpressible.WITHOUT_FOLDERS,)),
    "mounts": _of("mount, pivot_root, fsconfig", "mount"),
    "detached": _of("open in a new mount", holes=(mounts.OF_A_FILE, mounts.WITHOUT_PLACE)),
    "namespaces": _of("open given", "open"),
    "untraced": _of(holes=(programs.NOT_FOLLOWED,)),
    "thirty_two": _of("truncate64, ftruncate64", "truncate, ftruncate"),
    "supervised": _of("mkdir", holes=(inexpressible.BY_SUPERVISOR,)),
    "places": _of(
        "mkdir by the child's cwd, mkdir by the thread's cwd, mkdir by another thread's cwd, mkdir by its task", "mkdir"
    ),
    "roots": _of("mkdir from outside, open from outside, mkdir from inside, mkdir by the child's root", "mkdir, open"),
    "in_root": _of("openat2", "open"),
    "inheritable": _of(),
    "sent": _of(holes=(landlock.FOREIGN_RULESET, BY_UNSEEN_LAYER)),
    "received": _of(holes=(descriptors.FOREIGN,)),
    "others": _of("open mem, open ns, open through root, kcmp", holes=(ptrace.INTO_ANOTHER, ptrace.NOT_TRACED)),
    "looks": _of(LOOKS, holes=(ptrace.INTO_ANOTHER,), options=("--readlink",)),
    "queue": _of("mq_open", holes=(inexpressible.QUEUE,)),
    "events": _of("read an event", holes=(inexpressible.BY_FANOTIFY,)),
    "families": _of(
        "bind 2 on 2 18302, bind 10 on 10 18302, bind 0 on 2 18302, connect 2 on 2 18302, connect 10 on 10 18302",
        "bind, connect",
    ),
    "given_socket": _of("connect to 18302", "connect", socket=True),
    "reformed": _of("connect 2", "connect"),
    "sending": _of(holes=(inexpressible.BY_SENDING,)),
    "threads": _of(foretold="open"),
    "thread_runs": _of(),
    "memory": _of(told=True),
    "core": _of("core file", holes=(CORE_FILE,)),
    "many_closed": _of(),
    "cut": _of("cut", told=True),
    "made": _of(),
    "kinds": _of("rename directory, rename pipe", told=True),
    "swapped": _of("make by the first", told=True),
    "unlike": _of(
        "unlink a directory, remove a file as a directory, put a file in a directory's place, "
        "put a directory in a file's place, link a directory, open a socket",
        "unlink, rmdir, rename, mkdir, open",
    ),
    "script": _of("run", told=True),
    "without_times": _of(told=True, unsure=MADE_OR_THERE),
    "for_ioctl": _of("make, cut", "mknod, truncate"),
    "busy": _of(),
    "checked": _of("check program", "open, exec"),
    "bound_twice": _of("bind again", "mknod"),
    "without_direct": _of("open /proc/self/comm, open /proc/self/stat", "open"),
    "merged": _of("rename", "rename"),
    "shown_twice": _of(),
    "duplicated": _of(),
    "of_owners": _of(),
}


@unittest.skipIf(wanting() is not None, wanting() or "")
class LiveProbes(unittest.TestCase):
    def setUp(self) -> None:
        self.folder = Path(self.enterContext(tempfile.TemporaryDirectory())).resolve()
        self.work = self.folder / "work"
        self.policy = self.folder / "policy.toml"
        text = (POLICIES / "probes" / "read-all.toml").read_text()
        self.policy.write_text(text.replace(WORK, str(self.work)))
        self.confine = (PYTHON, str(CONFINER), "confine", str(self.policy), "--")

    def fill(self) -> None:
        """The folder that a probe works in."""
        shutil.rmtree(self.work, ignore_errors=True)
        for name in ("out", "kept"):
            (self.work / name).mkdir(parents=True)
        for name in ("given", "closed"):
            (self.work / name).write_text(f"{name}\n")
        shutil.copy(HERE / "probes.py", self.work)
        shutil.copy("/bin/true", self.work / "program")
        (self.work / "out" / "made").touch()
        with socket.socket(socket.AF_UNIX) as bound:
            bound.bind(str(self.work / "socket"))
        self.fill_state(Path(f"{self.work}-state"))

    def fill_state(self, state: Path) -> None:
        """A folder beside that one, which is not listed before the run."""
        places = [state / name for name in ("ram", "merged", "shown", "whole", "second/below")]
        subprocess.run(["umount", "-R", *places], stderr=subprocess.DEVNULL, check=False)
        shutil.rmtree(state, ignore_errors=True)
        layers = [state / "layers" / name for name in ("low/lower", "up", "work")]
        for folder in (*(state / name for name in ("directory", "first", "second")), *places, *layers):
            folder.mkdir(parents=True)
        (state / "pid").write_text("1\n")
        (state / "now").symlink_to("first")
        os.mkfifo(state / "pipe")
        layers = "lowerdir={0}/layers/low,upperdir={0}/layers/up,workdir={0}/layers/work".format(state)
        self.mount(state / "ram", "-t", "ramfs", "none")
        self.mount(state / "merged", "-t", "overlay", "-o", layers, "none")
        self.mount(state / "second" / "below", "-t", "ramfs", "none")
        self.mount(state / "shown", "--bind", state / "second")
        self.mount(state / "whole", "--rbind", state / "second")

    def mount(self, place: Path, *words: str | Path) -> None:
        """Mounts a file system for a test, if this user may."""
        if subprocess.run(["mount", *words, place], stderr=subprocess.DEVNULL, check=False).returncode == 0:
            self.addCleanup(subprocess.run, ["umount", "-R", place], stderr=subprocess.DEVNULL, check=False)

    def run_recorded(
        self, out: str, *command: str, options: tuple[str, ...] = (), stdin: socket.socket | None = None
    ) -> subprocess.CompletedProcess[str]:
        """Records a command."""
        ports = ["--port-rules", str(self.policy)]
        words = [str(RECORDER), "run", str(self.folder / out), *ports, *options, "--", *command]
        return subprocess.run(words, cwd=self.work, stdin=stdin, capture_output=True, text=True, check=False)

    def record(self, name: str, out: str, *by: str) -> dict[str, list[str]]:
        """Records a probe, and gives what it said of its steps."""
        self.fill()
        command = (*by, PYTHON, "-S", "probes.py", name)
        with socket.socket() as unconnected:
            stdin = unconnected if EXPECTED[name].socket else None
            run = self.run_recorded(out, *command, options=EXPECTED[name].options, stdin=stdin)
        if run.returncode == 4:
            self.skipTest(f"this kernel does not let {name} begin: {run.stdout}{run.stderr}")
        self.assertEqual(run.returncode, 0, run.stdout + run.stderr)
        steps: dict[str, list[str]] = {}
        for line in run.stdout.splitlines():
            step, _, answer = line.rpartition(" ")
            steps.setdefault(step, []).append(answer)
        return steps

    def said(self, *words: str, status: tuple[int, ...] = (0, 1, 5)) -> dict[str, Any]:
        run = subprocess.run([str(RECORDER), *words, "--json"], capture_output=True, text=True, check=False)
        self.assertIn(run.returncode, status, run.stdout + run.stderr)
        return json.loads(run.stdout)  # type: ignore[no-any-return]

    def test_what_is_refused_is_foretold_or_counted(self) -> None:
        for name, expected in EXPECTED.items():
            with self.subTest(name):
                shutil.rmtree(self.folder / "bare", ignore_errors=True)
                shutil.rmtree(self.folder / "confined", ignore_errors=True)
                bare = self.record(name, "bare")
                self.fill()
                audit = self.said("audit", str(self.folder / "bare"), "--policy", str(self.policy), "--abi", "5")
                confined = self.record(name, "confined", *self.confine)
                self.assertEqual(self.met(bare, confined), expected.met)
                self.assertNotIn("cut", str(audit["not_judged"]))
                ops = {refusal["call"].split(" ")[0] for refusal in audit["refusals"]}
                self.assertLessEqual(expected.foretold, ops)
                if not (expected.met or expected.foretold or expected.told):
                    self.assertEqual(self.foretold_by_policy(audit), set())
                if not expected.told:
                    self.assertEqual(self.holes("bare"), expected.holes)
                elif expected.met:
                    self.assertTrue(ops or audit["may_be_refused"] or audit["not_judged"])
                if expected.unsure is not None and os.geteuid() == 0:
                    # A recorder that looks in time knows it.
                    self.assertLessEqual({one["unknown"] for one in audit["may_be_refused"]}, {expected.unsure})
                compared = self.said("compare", str(self.folder / "confined"))
                self.assertEqual([one for one in compared["differences"] if not one["named"]], [])

    @unittest.skipIf(shutil.which("gcc") is None, "gcc is not installed")
    def test_numbers_that_go_from_thread_to_thread(self) -> None:
        self.fill()
        program = self.work / "threads"
        subprocess.run(["gcc", "-O1", "-pthread", "-o", program, HERE / "threads.c"], check=True)
        run = self.run_recorded("confined", *self.confine, str(program))
        self.assertEqual(run.returncode, 0, run.stderr)
        compared = self.said("compare", str(self.folder / "confined"))
        self.assertGreater(compared["calls"], 5000)
        self.assertEqual(compared["differences"], [])
        trace = [record for _, record in numbered(self.folder / "confined" / "trace.jsonl")]
        cut = {record["kernel"] for record in trace if record["op"] == "ftruncate"}
        self.assertEqual(cut, {"EACCES"})
        interrupted = (self.folder / "confined" / "strace.txt").read_text("latin-1").count("<... close resumed>")
        self.assertGreater(interrupted, 100)

    def test_a_working_folder_that_another_thread_changes(self) -> None:
        self.fill()
        run = self.run_recorded("confined", *self.confine, PYTHON, "-S", "probes.py", "moving")
        self.assertEqual(run.returncode, 0, run.stderr)
        compared = self.said("compare", str(self.folder / "confined"))
        self.assertEqual(compared["differences"], [])
        made = [record for _, record in numbered(self.folder / "confined" / "trace.jsonl") if record["op"] == "mkdir"]
        self.assertEqual({record["kernel"] for record in made}, {"ok", "EACCES"})
        self.assertEqual(self.holes("confined"), {MOVING})

    def met(self, bare: dict[str, list[str]], confined: dict[str, list[str]]) -> frozenset[str]:
        """The steps that a policy refused, and nothing else did."""
        refused = (step for step, answers in confined.items() if answers != bare.get(step))
        return frozenset(step for step in refused if REFUSALS & set(confined[step]) or confined[step] == ["none"])

    def foretold_by_policy(self, audit: dict[str, Any]) -> set[tuple[str, str]]:
        """What the policy's layers refuse by an audit, but for the working directory, which Python lists."""
        told = (one for one in audit["refusals"] if any(layer["policy"] is not None for layer in one["layers"]))
        return {(one["call"], one["place"]) for one in told} - {("open r", str(self.work))}

    def holes(self, out: str) -> frozenset[str]:
        """The classes in which a recording counts calls that may be refused."""
        lines = numbered(self.folder / out / "unsaid.jsonl")
        return frozenset(line["class"] for _, line in lines if line.get("asks"))
