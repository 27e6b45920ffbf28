"""Random recordings: stories of processes that open, confine themselves, run programs and fork, the same for a seed."""

from __future__ import annotations

import random
from dataclasses import dataclass, field
from pathlib import Path
from typing import Any

from landaudit_record.recorder.disk import Disk, Seen
from landaudit_record.recorder.names import Names
from landaudit_record.recorder.writing import LIMITS, Limits, ListedTree, Recording

DIRECTORIES = ("/a", "/a/b", "/a/b/c", "/d", "/d/e", "/usr", "/usr/bin")
FILES = tuple(f"{directory}/f{number}" for directory in DIRECTORIES for number in range(3))
DEVICES = ("/d/tty", "/a/null")
PROGRAMS = ("/usr/bin/sh", "/usr/bin/cc", "/usr/bin/make")
LINKS = {"/bin": "usr/bin", "/usr/bin/gcc": "cc"}
RIGHTS = ("execute", "write_file", "read_file", "read_dir", "make_reg", "refer", "truncate", "ioctl_dev", "bit_40")
OF_FILES = ("execute", "write_file", "read_file", "truncate", "ioctl_dev")
INTERPRETER = "/usr/bin/ld"
THERE = {
    **dict.fromkeys(DIRECTORIES, Seen("dir")),
    **dict.fromkeys((*FILES, *PROGRAMS, INTERPRETER), Seen("reg")),
    **dict.fromkeys(DEVICES, Seen("char")),
    **{path: Seen("sym", target) for path, target in LINKS.items()},
}
NUMBERS = range(8)
MOST_PROCESSES = 12


@dataclass
class _Process:
    """What the teller remembers of a process: rulesets that it holds, by number what they handle."""

    rulesets: dict[int, list[str]] = field(default_factory=dict)


def names() -> Names:
    """The names of all objects that are there."""
    return Names(Disk(0.0, {}), THERE, ["/"])


def told(folder: Path, seed: int, calls: int, limits: Limits = LIMITS) -> Path:
    """The recording of a random story, in a folder."""
    objects = names()
    with Recording(folder, ListedTree(objects), limits) as recording:
        Story(seed, recording, objects).tell(calls)
        recording.finish(ended=True)
    return folder


class Story:
    """A story that is told to a recording.

    Descriptors go by few numbers, so openings of open numbers and duplicates of what is not open are among it; the
    numbers of rulesets are made once at a time, as a recorder does.
    """

    def __init__(self, seed: int, recording: Recording, objects: Names) -> None:
        self._names = objects
        self._random = random.Random(seed)
        self._recording = recording
        self._processes: dict[int, _Process] = {}
        self._call = 0
        self._pids = 100
        for path in LINKS:
            self._place(path)

    def tell(self, calls: int) -> None:
        """Tells of some calls, of which each stands by itself."""
        self._start()
        for path in PROGRAMS:
            self._run(path, "ok")
        choices = [
            (self._open, 30), (self._adopt, 4), (self._duplicate, 10), (self._close, 8), (self._cut, 10),
            (self._ask, 8), (self._remove, 4), (self._move, 4), (self._fork, 6), (self._exit, 3),
            (self._run_some, 6), (self._promise, 2),
            (self._make_ruleset, 4), (self._add, 8), (self._restrict, 4), (self._close_ruleset, 2), (self._start, 1),
            (self._bind, 3),
        ]
        tellers, weights = zip(*choices)
        for _ in range(calls):
            self._call += 1
            self._random.choices(tellers, weights)[0]()
            self._recording.commit()

    def _say(self, op: str, pid: int, kernel: str | None = None, **members: Any) -> None:
        self._recording.write(op, pid, self._call, kernel, **members)

    def _pid(self) -> int:
        return self._random.choice(list(self._processes))

    def _new_pid(self) -> int:
        """A number that no process has, now and then one that was used before."""
        self._pids += 1
        free = [pid for pid in range(100, self._pids) if pid not in self._processes]
        return self._random.choice(free) if free and self._random.random() < 0.3 else self._pids

    def _start(self) -> None:
        if len(self._processes) >= MOST_PROCESSES:
            return
        pid = self._new_pid()
        self._processes[pid] = _Process()
        self._say("start", pid, nnp=self._random.random() < 0.6, admin=self._random.random() < 0.3)
        for fd in range(3):
            self._say("adopt", pid, fd=fd, kind=self._random.choice(("reg", "device", "other")))

    def _file(self) -> str:
        return self._place(self._random.choice(FILES))

    def _place(self, path: str) -> str:
        """Lists an object that is there."""
        node = self._names.at(path)
        assert node is not None
        return self._recording.tree.place(path, node)

    def _open(self) -> None:
        roll = self._random.random()
        members: dict[str, Any] = {"mode": self._random.choice(("r", "w", "rw")), "trunc": self._random.random() < 0.3}
        if roll < 0.5:
            members["path"] = self._file()
        elif roll < 0.7:
            members["path"] = self._place(self._random.choice(DEVICES))
        elif roll < 0.8:
            members |= {"path": self._place(self._random.choice(DIRECTORIES)), "mode": "r", "trunc": False}
        elif roll < 0.95:
            directory = self._place(self._random.choice(DIRECTORIES))
            members |= {"path": f"{directory}/x~new~", "create": True, "shown": f"{directory}/x"}
        else:
            members["path"] = "/none"
        kernel = self._random.choice(("ok", "ok", "ok", "EACCES", "ENOENT"))
        self._say("open", self._pid(), kernel, fd=self._random.choice(NUMBERS), **members)

    def _adopt(self) -> None:
        kind = self._random.choice(("reg", "device", "other"))
        self._say("adopt", self._pid(), fd=self._random.choice(NUMBERS), kind=kind)

    def _duplicate(self) -> None:
        self._say("dup", self._pid(), fd=self._random.choice(NUMBERS), to=self._random.choice(NUMBERS))

    def _close(self) -> None:
        self._say("close", self._pid(), fd=self._random.choice(NUMBERS))

    def _cut(self) -> None:
        self._say("ftruncate", self._pid(), "ok", fd=self._random.choice(NUMBERS))

    def _ask(self) -> None:
        self._say("ioctl", self._pid(), "ok", fd=self._random.choice(NUMBERS), driver=self._random.random() < 0.8)

    def _remove(self) -> None:
        self._say("unlink", self._pid(), "ok", path=self._file())

    def _move(self) -> None:
        onto = self._place(self._random.choice(DIRECTORIES)) + "/y~new~"
        self._say("rename", self._pid(), "ok", **{"from": self._file()}, to=onto)

    def _bind(self) -> None:
        self._say("bind", self._pid(), "ok", port=self._random.choice((80, 443)))

    def _fork(self) -> None:
        if len(self._processes) < MOST_PROCESSES:
            pid, child = self._pid(), self._new_pid()
            self._processes[child] = _Process(dict(self._processes[pid].rulesets))
            self._say("fork", pid, child=child)

    def _exit(self) -> None:
        if len(self._processes) > 1:
            pid = self._pid()
            del self._processes[pid]
            self._say("exit", pid)

    def _run_some(self) -> None:
        """A program that is run; now and then it fails."""
        self._run(self._random.choice(PROGRAMS), self._random.choice(("ok", "ok", "ok", "EACCES")))

    def _run(self, program: str, kernel: str) -> None:
        """A program that is run as a recorder writes it."""
        pid, path = self._pid(), self._place(program)
        self._say("open", pid, kernel, path=path, fd=1_000_001, mode="r")
        self._say("exec", pid, kernel, path=path)
        self._say("exec", pid, kernel, path=self._place(INTERPRETER), role="interpreter")
        self._say("close", pid, fd=1_000_001)
        for fd in NUMBERS:
            if kernel == "ok" and self._random.random() < 0.2:
                self._say("close", pid, fd=fd)

    def _promise(self) -> None:
        self._say("nnp", self._pid())

    def _some(self, rights: tuple[str, ...]) -> list[str]:
        return [right for right in rights if self._random.random() < (0.03 if right == "bit_40" else 0.6)]

    def _make_ruleset(self) -> None:
        pid = self._pid()
        held = self._processes[pid].rulesets
        free = [number for number in NUMBERS if number not in held]
        if free:
            rs, fs = self._random.choice(free), self._some(RIGHTS)
            net = ["bind_tcp"] if self._random.random() < 0.2 else None
            held[rs] = fs
            self._say("create", pid, "ok", rs=rs, fs=fs or None, net=net)

    def _holder(self) -> tuple[int, int] | None:
        """A process with a ruleset that it holds."""
        held = [(pid, rs) for pid, process in self._processes.items() for rs in process.rulesets]
        return self._random.choice(held) if held else None

    def _add(self) -> None:
        holder = self._holder()
        if holder is None:
            return
        pid, rs = holder
        if self._random.random() < 0.15:
            self._say("add_port", pid, "ok", rs=rs, port=80, net=["bind_tcp"])
            return
        of_file = self._random.random() < 0.4
        path = self._file() if of_file else self._place(self._random.choice(DIRECTORIES))
        rights = [right for right in self._processes[pid].rulesets[rs] if not of_file or right in OF_FILES]
        granted = [right for right in rights if self._random.random() < 0.6]
        self._say("add_path", pid, "ok", rs=rs, path=path, fs=granted or None)

    def _restrict(self) -> None:
        holder = self._holder()
        if holder is not None:
            self._say("restrict", holder[0], "ok", rs=holder[1])

    def _close_ruleset(self) -> None:
        holder = self._holder()
        if holder is not None:
            del self._processes[holder[0]].rulesets[holder[1]]
            self._say("close_rs", holder[0], rs=holder[1])
