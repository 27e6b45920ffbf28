"""Running landaudit-witness beside a recorded command, and reading what it heard."""

from __future__ import annotations

import contextlib
import errno
import os
import shutil
import socket
import subprocess
import sys
from collections.abc import Iterator, Sequence
from pathlib import Path

from ..common import jsonl
from ..common.problems import WANTING, Problem

PROGRAM = "landaudit-witness"
BUILT = Path(__file__).resolve().parents[3] / "witness" / "out" / PROGRAM
#: The file of a recording that has what the witness heard.
EVENTS = "witness.jsonl"
#: The file of a recording that has Landlock's own answers to calls, as far as the witness heard them.
ANSWERS = "landlock.jsonl"
READY = b"ready\n"
#: The hooks about changes of mounts, all of which Landlock refuses in the same way.
MOUNTS = ("sb_mount", "sb_umount", "sb_pivotroot", "sb_remount", "move_mount")
_MS_REMOUNT = 32
_TCP = (0, socket.IPPROTO_TCP)
#: The time that the witness has to write what it heard, in seconds.
PATIENCE = 120.0


def find() -> Path:
    """The program that `make witness` built, the one beside this program, or the one on PATH."""
    found = shutil.which(PROGRAM)
    for program in (BUILT, Path(sys.argv[0]).resolve().parent / PROGRAM, *([Path(found)] if found else [])):
        if os.access(program, os.X_OK) and program.is_file():
            return program
    raise Problem(f"{PROGRAM} is not built: run 'make witness', or install its package", WANTING)


#: Whom a witness hears: all processes which the children of this process start, or these children too.
BESIDE, CHILDREN = ("--beside",), ("--children",)
#: It also hears what Landlock alone answers.
OWN_ANSWERS = ("--landlock",)


class Witness:
    """A witness that hears what is asked about some processes; `whom` are the options that say about which.

    It is in a session of its own, since a signal from the terminal is for the command. It ends with this process, if
    not before.
    """

    def __init__(self, folder: Path, whom: Sequence[str] = BESIDE) -> None:
        words = [str(find()), *whom, str(folder / EVENTS)]
        self._process = subprocess.Popen(
            words, stdin=subprocess.PIPE, stdout=subprocess.PIPE, start_new_session=True
        )
        assert self._process.stdout is not None
        if self._process.stdout.readline() != READY:
            raise Problem(f"{PROGRAM} does not run here, for the reason above", WANTING)

    @property
    def pid(self) -> int:
        """Its process."""
        return self._process.pid

    def has_ended(self, status: int) -> None:
        """Notes that it has ended, as who waited for all children knows."""
        self._process.returncode = status

    def wait(self, seconds: float | None) -> None:
        """Waits until it has ended by itself, or for so long."""
        with contextlib.suppress(subprocess.TimeoutExpired):
            self._process.wait(seconds)

    def stop(self) -> None:
        """Lets it stop listening."""
        assert self._process.stdin is not None
        self._process.stdin.close()

    def end(self) -> None:
        """Waits until it has written what it heard; one that does not end in time is killed, and its file says so."""
        self.stop()
        try:
            self._process.wait(PATIENCE)
        except subprocess.TimeoutExpired:
            self._process.kill()
            self._process.wait()


class Heard:
    """What a witness heard. Its first and its last line are known when the events are read; None if it did not end."""

    def __init__(self, file: Path) -> None:
        self._file = file
        self.start: jsonl.Record = {}
        self.end: jsonl.Record | None = None

    def events(self) -> Iterator[tuple[int, jsonl.Record]]:
        """The events with the numbers of their lines. A line without an end is that of a witness that was killed."""
        with open(self._file, "rb") as lines:
            for number, line in enumerate(lines, start=1):
                if not line.endswith(b"\n"):
                    return
                record = jsonl.read(self._file, number, line)
                if "hook" in record:
                    yield number, record
                elif "end" in record:
                    self.end = record
                else:
                    self.start = record


def heard_beside(folder: Path) -> Heard | None:
    """What the witness of a recording heard; None if there was none."""
    file = folder / EVENTS
    return Heard(file) if file.is_file() else None


def text(of: str) -> str:
    """A path of an event as text: the witness writes a byte that is not ASCII as an escape of its own."""
    return os.fsdecode(os.fsencode(of))


def answer(event: jsonl.Record) -> str:
    """The answer to a question as a result: of Landlock alone if that was heard, else of all modules."""
    number = event.get("landlock", event["answer"])
    return "ok" if number == 0 else errno.errorcode.get(-number, "EIO")


def own_answers(folder: Path) -> dict[int, str]:
    """Landlock's own answers to the calls of a recording, by the numbers of the calls, as far as they are known."""
    file = folder / ANSWERS
    return {line["call"]: line["landlock"] for _, line in jsonl.numbered(file)} if file.is_file() else {}


def is_again(event: jsonl.Record, remounts: set[int]) -> bool:
    """Whether a change of mounts was asked about already, as mount(2) with MS_REMOUNT asks twice.

    `remounts` are the threads that were asked about one remount so far.
    """
    if event["hook"] == "sb_remount" and event["tid"] in remounts:
        remounts.discard(event["tid"])
        return True
    if event["hook"] == "sb_mount" and event["flags"] & _MS_REMOUNT:
        remounts.add(event["tid"])
    return False


def asks_port(event: jsonl.Record) -> bool:
    """Whether Landlock is asked about a port: of a TCP socket, with an address of the socket's family."""
    family, of = event["family"], event["of"]
    if event["type"] != socket.SOCK_STREAM or event["protocol"] not in _TCP:
        return False
    if of not in (socket.AF_INET, socket.AF_INET6):
        return False
    return bool(
        family == of or (family == socket.AF_UNSPEC and of == socket.AF_INET and event["hook"] == "socket_bind")
    )
