#!/usr/bin/env python3
"""A random actor: some thousand system calls that Landlock judges, the same ones for the same seed.

It acts in a folder: opens, makes, moves, links and removes objects, cuts files, asks devices, runs programs, uses
ports of this machine, and forks children that go on acting. With --confine it also restricts itself by rulesets of its
own, again and again. Calls that fail are part of it.

The skeleton (directories, the files `r`, the programs) stays as it is for the whole run, so a rule on one of its
objects means the same at every call: the kernel ties a rule to an object, a trace ties it to a path. Any other name
tells the kind of what may be there, so a path has one kind for the whole run.
"""

from __future__ import annotations

import argparse
import ctypes
import fcntl
import os
import random
import shutil
import socket
import stat
import sys
import termios
from collections.abc import Callable
from dataclasses import dataclass, field
from pathlib import Path

sys.path.insert(0, str(Path(__file__).resolve().parents[1]))

from landaudit_record.common.rights import FILE_RIGHTS, FS, NEWEST_ABI, OLDEST_ABI  # noqa: E402
from landaudit_record.policy import landlock_calls as landlock  # noqa: E402

SKELETON = ("a", "a/x", "a/x/u", "a/y", "b", "b/x", "b/y", "b/y/v", "c")
FIXED_FILES = ("r", "a/r", "a/x/r", "b/y/r")
PROGRAMS = ("a/program", "b/y/program")
SCRIPTS = ("a/x/script", "c/script")
POOLS = {
    "dir": ("d0", "d1", "d2", "d3"),
    "file": ("f0", "f1", "f2", "f3", "f4"),
    "link": ("l0", "l1", "l2"),
    "fifo": ("p0", "p1"),
    "sock": ("s0", "s1"),
    "char": ("c0",),
    "block": ("b0",),
    "missing": ("n0", "n1"),
}
WEIGHTED_KINDS = ("file",) * 8 + ("dir",) * 4 + ("link",) * 2 + ("fifo", "sock", "char", "block", "missing")
NO_DEVICE = os.makedev(242, 7)
"""A device of the range for local use, which no driver has."""
ZERO = os.makedev(1, 5)
PORTS = (0, 20081, 20082, 20083, 20443)
DESCRIPTORS_KEPT = 12
FORBIDDEN = 0.001
"""How often a call is one that the tree forbids, and that the kernel asks Landlock about all the same."""
FORK_DEPTH = 3
RENAME_NOREPLACE, RENAME_EXCHANGE = 1, 2
AT_FDCWD = -100
UNLOCK_TERMINAL, NUMBER_OF_TERMINAL = 0x40045431, 0x80045430
REQUESTS = (
    termios.TCGETS,
    termios.FIONREAD,
    termios.TIOCGWINSZ,
    termios.FIONBIO,
    termios.FIOCLEX,
    termios.FIONCLEX,
    termios.FIOASYNC,
    0x2,  # FIGETBSZ
    0x5460,  # FIOQSIZE
    0x5412 + 0x4000,  # no driver knows this one
)

_libc = ctypes.CDLL(None, use_errno=True)


def fill(root: Path) -> None:
    """Makes the skeleton, programs and some objects of every kind."""
    for name in SKELETON:
        (root / name).mkdir(parents=True)
    for name in FIXED_FILES + ("a/f0", "a/x/f1", "b/f0", "b/x/f2", "c/f3"):
        (root / name).write_bytes(b"content\n")
    for name in PROGRAMS:
        shutil.copy("/bin/true", root / name)
    for name in SCRIPTS:
        (root / name).write_text("#!/bin/sh\nexit 0\n")
        (root / name).chmod(0o755)
    for directory in ("a", "b"):
        os.mkfifo(root / directory / "p0")
        os.symlink("../b/f0", root / directory / "l0")
        os.symlink(root / "a" / "x", root / directory / "l1")
        (root / directory / "d0").mkdir()
        (root / directory / "d0" / "f0").write_bytes(b"deep\n")


@dataclass
class Actor:
    """One process that acts: its random numbers, the folder, the rights it may confine itself by, what it holds."""

    random: random.Random
    root: Path
    rights: list[str]
    depth: int = 0
    descriptors: list[int] = field(default_factory=list)
    directories: list[int] = field(default_factory=list)
    rulesets: list[int] = field(default_factory=list)

    def act(self, count: int) -> None:
        """Does a number of random things."""
        choices: list[Callable[[], None]] = [
            action
            for weight, action in self._actions()
            for _ in range(weight)
        ]
        for _ in range(count):
            try:
                self.random.choice(choices)()
            except OSError:
                continue

    def _actions(self) -> list[tuple[int, Callable[[], None]]]:
        actions: list[tuple[int, Callable[[], None]]] = [
            (24, self.open),
            (5, self.open_temporary),
            (8, self.open_in_directory),
            (3, self.list_directory),
            (8, self.duplicate),
            (4, self.close),
            (6, self.make_directory),
            (8, self.make_node),
            (4, self.make_link),
            (8, self.unlink),
            (5, self.remove_directory),
            (14, self.rename),
            (8, self.rename_with_flags),
            (6, self.link),
            (6, self.truncate),
            (8, self.truncate_open),
            (8, self.control),
            (2, self.open_terminal),
            (2, self.change_directory),
            (2, self.use_pipe),
            (4, self.use_port),
            (2, self.bind_unix),
            (3, self.execute),
            (1, self.mount),
            (2, self.fork),
        ]
        if self.rights:
            actions += [(2, self.fork_confined), (2, self.ruleset_alone)]
        return actions

    def forbidden(self) -> bool:
        """Whether it is time for a call that the tree forbids."""
        return self.random.random() < FORBIDDEN

    # Names

    def directory(self) -> str:
        """A directory of the skeleton mostly, else one that may be there."""
        name = self.random.choice(SKELETON)
        if self.random.random() < 0.2:
            return f"{name}/{self.random.choice(POOLS['dir'])}"
        if self.random.random() < 0.06:
            return f"{name}/{self.random.choice(POOLS['link'])}"
        return name

    def name(self, kind: str | None = None) -> str:
        """A name of a kind in some directory, relative to the folder."""
        kind = kind or self.random.choice(WEIGHTED_KINDS)
        return f"{self.directory()}/{self.random.choice(POOLS[kind])}"

    def present(self, kind: str | None = None) -> str:
        """A name that stands for an object mostly."""
        return self.sought(kind, os.path.lexists)

    def absent(self, kind: str | None = None) -> str:
        """A name that stands for nothing mostly."""
        return self.sought(kind, lambda path: not os.path.lexists(path))

    def sought(self, kind: str | None, fits: Callable[[str], bool]) -> str:
        """One of a few random names, the first that fits if one does."""
        names = [self.name(kind) for _ in range(self.random.randrange(1, 6))]
        return next((name for name in names if fits(os.fspath(self.root / name))), names[-1])

    def path(self, name: str) -> str:
        """The name as a path: absolute mostly, else with `..` or relative to the working directory."""
        form = self.random.random()
        if form < 0.06:
            return f"{self.root}/a/x/../../{name}"
        if form < 0.12:
            return f"{self.random.choice(('.', '..', '../..'))}/{name}"
        return os.fspath(self.root / name)

    def any_path(self) -> str:
        """A path of the folder, sometimes one of the skeleton, sometimes a device."""
        form = self.random.random()
        if form < 0.08:
            return self.random.choice(("/dev/null", "/dev/zero", "/dev/full"))
        if form < 0.16:
            return self.path(self.random.choice(FIXED_FILES))
        if form < 0.24:
            return self.path(self.random.choice(SKELETON))
        return self.path(self.present(self.kind_to_open()))

    def kind_to_open(self) -> str:
        """Any kind except a socket."""
        kind = self.random.choice(WEIGHTED_KINDS)
        return kind if kind != "sock" or self.forbidden() else "file"

    def kind_to_unlink(self) -> str:
        """Any kind except a directory."""
        kind = self.random.choice(WEIGHTED_KINDS)
        return kind if kind != "dir" or self.forbidden() else "file"

    # Opening

    def flags(self) -> int:
        """The flags of an open that waits for nobody."""
        flags = self.random.choice((os.O_RDONLY, os.O_RDONLY, os.O_WRONLY, os.O_RDWR)) | os.O_NONBLOCK
        for flag, chance in (
            (os.O_CREAT, 0.35),
            (os.O_EXCL, 0.06),
            (os.O_TRUNC, 0.2),
            (os.O_APPEND, 0.1),
            (os.O_NOFOLLOW, 0.1),
            (os.O_DIRECTORY, 0.05),
            (os.O_PATH, 0.04),
            (os.O_CLOEXEC, 0.5),
        ):
            if self.random.random() < chance:
                flags |= flag
        return flags

    def keep(self, descriptor: int) -> None:
        """Holds a descriptor, and drops one where there are many."""
        self.descriptors.append(descriptor)
        if len(self.descriptors) > DESCRIPTORS_KEPT:
            os.close(self.descriptors.pop(self.random.randrange(DESCRIPTORS_KEPT)))

    def open(self) -> None:
        """Opens any path, or makes a file."""
        flags = self.flags()
        path = self.path(self.name("file")) if flags & os.O_CREAT else self.any_path()
        self.keep(self.opened(path, flags))

    def opened(self, path: str, flags: int, directory: int | None = None) -> int:
        """The descriptor of an open.

        One that is refused may have made the file all the same: Landlock looks at the reading and writing of a file
        when it is there. A second open shows in a recording whether it is.
        """
        try:
            return os.open(path, flags, 0o666, dir_fd=directory)
        except PermissionError:
            if flags & os.O_CREAT:
                os.close(os.open(path, os.O_RDONLY | os.O_NONBLOCK | flags & os.O_NOFOLLOW, dir_fd=directory))
            raise

    def open_temporary(self) -> None:
        """Opens a file without a name."""
        mode = self.random.choice((os.O_WRONLY, os.O_RDWR))
        self.keep(os.open(self.path(self.directory()), mode | os.O_TMPFILE, 0o600))

    def open_in_directory(self) -> None:
        """Opens a name under a directory that is open."""
        if not self.directories or self.random.random() < 0.3:
            flags = os.O_RDONLY | self.random.choice((os.O_DIRECTORY, os.O_PATH | os.O_DIRECTORY))
            self.directories.append(os.open(self.path(self.random.choice(SKELETON)), flags))
            if len(self.directories) > 4:
                os.close(self.directories.pop(0))
        name = self.random.choice(POOLS["file"] + ("r", "l0", "../r"))
        self.keep(self.opened(name, self.flags(), self.random.choice(self.directories)))

    def list_directory(self) -> None:
        """Lists a directory."""
        os.listdir(self.path(self.directory()))

    def open_terminal(self) -> None:
        """Opens both ends of a new terminal."""
        master = os.open("/dev/ptmx", os.O_RDWR | os.O_NOCTTY)
        self.keep(master)
        fcntl.ioctl(master, UNLOCK_TERMINAL, bytes(4))
        number = int.from_bytes(fcntl.ioctl(master, NUMBER_OF_TERMINAL, bytes(4)), sys.byteorder)
        self.keep(os.open(f"/dev/pts/{number}", os.O_RDWR | os.O_NOCTTY))

    def use_pipe(self) -> None:
        """Opens both ends of a pipe."""
        for end in os.pipe():
            self.keep(end)

    # Descriptors

    def descriptor(self) -> int:
        """One of those held, else a number that nothing has."""
        return self.random.choice(self.descriptors) if self.descriptors else 77

    def duplicate(self) -> None:
        """Gives a descriptor another number, by dup(2), dup2(2) or fcntl(2)."""
        form = self.random.randrange(4)
        if form == 0:
            self.keep(os.dup(self.descriptor()))
        elif form == 1:
            self.keep(fcntl.fcntl(self.descriptor(), fcntl.F_DUPFD_CLOEXEC, 30))
        elif form == 2 and len(self.descriptors) > 1:
            os.dup2(*self.random.sample(self.descriptors, 2))
        else:
            self.keep(fcntl.fcntl(self.descriptor(), fcntl.F_DUPFD, 3))

    def close(self) -> None:
        """Closes one descriptor."""
        if self.descriptors:
            os.close(self.descriptors.pop(self.random.randrange(len(self.descriptors))))

    def truncate_open(self) -> None:
        """Cuts what is open."""
        os.ftruncate(self.descriptor(), self.random.randrange(100))

    def control(self) -> None:
        """Asks what is open something."""
        fcntl.ioctl(self.descriptor(), self.random.choice(REQUESTS), bytes(64))

    # Objects

    def make_directory(self) -> None:
        """Makes a directory."""
        os.mkdir(self.path(self.absent("dir")))

    def make_node(self) -> None:
        """Makes a file, a pipe, a socket or a device."""
        kind, mode, device = self.random.choice(
            (
                ("file", stat.S_IFREG, 0),
                ("fifo", stat.S_IFIFO, 0),
                ("sock", stat.S_IFSOCK, 0),
                ("char", stat.S_IFCHR, self.random.choice((ZERO, NO_DEVICE))),
                ("block", stat.S_IFBLK, NO_DEVICE),
            )
        )
        os.mknod(self.path(self.absent(kind)), mode | 0o600, device)

    def make_link(self) -> None:
        """Makes a symbolic link, to something or nothing."""
        target = self.random.choice(("f0", "../r", "../../b/f0", ".", "l1", os.fspath(self.root / "b" / "y")))
        os.symlink(target, self.path(self.absent("link")))

    def unlink(self) -> None:
        """Removes what is no directory."""
        os.unlink(self.path(self.random.choice(SKELETON) if self.forbidden() else self.present(self.kind_to_unlink())))

    def remove_directory(self) -> None:
        """Removes a directory, empty or not."""
        form = self.random.random()
        name = self.present("file" if self.forbidden() else "dir") if form < 0.85 else self.random.choice(SKELETON)
        os.rmdir(self.path(name))

    def move_pair(self) -> tuple[str, str]:
        """Two names of one kind, in one directory or two; now and then a move that the tree forbids."""
        kind = self.random.choice(WEIGHTED_KINDS)
        source = self.present(kind)
        form = self.random.random()
        if form < 0.35:
            target = f"{os.path.dirname(source)}/{self.random.choice(POOLS[kind])}"
        elif form < 0.39:
            source, target = self.present("dir"), self.random.choice(SKELETON)
        elif form < 0.43:
            source = self.random.choice(("a", "b", "b/y"))
            target = f"{source}/{self.random.choice(POOLS['dir'])}"
        elif self.forbidden():
            target = self.random.choice((source, *SKELETON, *FIXED_FILES))
        else:
            target = self.random.choice((self.present, self.absent))(kind)
        return source, target

    def rename(self) -> None:
        """Moves one object."""
        source, target = self.move_pair()
        if source != target or self.forbidden():
            os.rename(self.path(source), self.path(target))

    def rename_with_flags(self) -> None:
        """An exchange of two objects of one kind, or a rename that replaces nothing."""
        flags = self.random.choice((RENAME_EXCHANGE, RENAME_EXCHANGE, RENAME_NOREPLACE))
        kind = self.random.choice(("file", "file", "dir", "link"))
        names = [self.present(kind), self.present(kind)]
        if names[0] != names[1] or self.forbidden():
            source, target = (os.fsencode(self.path(name)) for name in names)
            _libc.renameat2(AT_FDCWD, source, AT_FDCWD, target, ctypes.c_uint(flags))

    def link(self) -> None:
        """Gives an object a second name."""
        kind = "dir" if self.forbidden() else self.random.choice(("file", "file", "file", "fifo", "link"))
        os.link(self.path(self.present(kind)), self.path(self.absent(kind)), follow_symlinks=False)

    def truncate(self) -> None:
        """Cuts what is at a path."""
        os.truncate(self.any_path(), self.random.randrange(100))

    # The process

    def change_directory(self) -> None:
        """Goes to another working directory."""
        os.chdir(self.path(self.random.choice(SKELETON)))

    def use_port(self) -> None:
        """Binds a socket to a port, or calls one where nobody answers."""
        family, here = self.random.choice(((socket.AF_INET, "127.0.0.1"), (socket.AF_INET6, "::1")))
        kind = self.random.choice((socket.SOCK_STREAM, socket.SOCK_STREAM, socket.SOCK_DGRAM))
        with socket.socket(family, kind) as end:
            end.setblocking(False)
            use = self.random.choice((end.bind, end.connect))
            use((here, self.random.choice(PORTS)))

    def bind_unix(self) -> None:
        """Makes a socket by binding to its name."""
        with socket.socket(socket.AF_UNIX) as end:
            os.chdir(self.root / self.random.choice(SKELETON))
            end.bind(self.random.choice(POOLS["sock"]))

    def mount(self) -> None:
        """A mount that fails in any case: its file system is one that no kernel has."""
        target = os.fsencode(self.root / "c")
        _libc.mount(b"none", target, b"nosuchfs", ctypes.c_ulong(0), None)

    def execute(self) -> None:
        """Runs a program in a child, and waits for it."""
        own = self.path(self.random.choice(PROGRAMS + SCRIPTS))
        program = self.random.choice((own, own, own, "/bin/true", "/bin/false", self.path(self.name("missing"))))
        child = os.fork()
        if child == 0:
            try:
                os.execv(program, ["program"])
            except OSError:
                os._exit(1)
        os.waitpid(child, 0)

    def fork(self) -> None:
        """A child that goes on acting, and is waited for."""
        self.in_child(lambda actor: actor.act(actor.random.randrange(5, 40)))

    def in_child(self, work: Callable[[Actor], None]) -> None:
        """Forks a child with random numbers of its own that does some work."""
        seed = self.random.randrange(1 << 48)
        if self.depth >= FORK_DEPTH:
            return
        child = os.fork()
        if child == 0:
            status = 1
            try:
                self.random = random.Random(seed)
                self.depth += 1
                work(self)
                status = 0
            finally:
                os._exit(status)
        os.waitpid(child, 0)

    # Confinement

    def subset(self, rights: list[str], chance: float) -> list[str]:
        """Each of some rights with a chance."""
        return [right for right in rights if self.random.random() < chance]

    def ruleset(self, strict: float) -> int:
        """A ruleset that handles random rights, with rules on random objects of the skeleton."""
        handled = self.subset(self.rights, strict)
        ruleset = landlock.create_ruleset(handled)
        for _ in range(self.random.randrange(1, 7)):
            self.add_rule(ruleset, handled)
        return ruleset

    def add_rule(self, ruleset: int, handled: list[str]) -> None:
        """One more rule, of rights that the ruleset handles except for a mistake now and then."""
        place = self.random.choice(SKELETON + FIXED_FILES + ("", "", "/", "/dev", "/usr"))
        allowed = self.subset(handled, 0.7)
        if self.random.random() < 0.05:
            allowed = self.subset(self.rights, 0.3)
        elif place in FIXED_FILES and self.random.random() < 0.8:
            allowed = [right for right in allowed if right in FILE_RIGHTS]
        parent = os.open(self.root / place, os.O_PATH | os.O_CLOEXEC)
        try:
            landlock.add_path_beneath(ruleset, parent, allowed)
        except OSError:
            pass
        finally:
            os.close(parent)

    def confine_self(self, strict: float = 0.12) -> None:
        """One more layer for this process."""
        ruleset = self.ruleset(strict)
        try:
            if self.random.random() < 0.9:
                landlock.set_no_new_privs()
            landlock.restrict_self(ruleset)
        finally:
            os.close(ruleset)

    def ruleset_alone(self) -> None:
        """Rulesets that are held for a while, are handed to children, and confine later."""
        if len(self.rulesets) < 3:
            self.rulesets.append(self.ruleset(0.15))
            return
        ruleset = self.rulesets.pop(0)
        try:
            self.add_rule(ruleset, ["read_file"])
            if self.depth and self.random.random() < 0.4:
                landlock.restrict_self(ruleset)
        finally:
            os.close(ruleset)

    def fork_confined(self) -> None:
        """A child under a few layers more, or under as many as there may be and one that is too many."""
        self.in_child(Actor.act_confined)

    def act_confined(self) -> None:
        """Comes under some layers more, and goes on acting."""
        layers = 17 if self.random.random() < 0.05 else self.random.randrange(1, 4)
        for _ in range(layers):
            try:
                self.confine_self(0.05 if layers == 17 else self.random.choice((0.2, 0.4, 0.7)))
            except OSError:
                continue
        self.act(self.random.randrange(20, 80))


def main() -> int:
    """Fills the folder where it must, and acts."""
    parser = argparse.ArgumentParser(description=__doc__, formatter_class=argparse.RawDescriptionHelpFormatter)
    parser.add_argument("seed", type=int, metavar="SEED")
    parser.add_argument("root", type=Path, metavar="DIR", help="the folder; it is filled if it is not there")
    parser.add_argument("count", type=int, metavar="COUNT", help="how many things the first process does")
    parser.add_argument("--confine", action="store_true", help="also restrict itself by random rulesets")
    parser.add_argument("--abi", type=int, choices=range(OLDEST_ABI, NEWEST_ABI + 1), default=NEWEST_ABI)
    arguments = parser.parse_args()
    root = arguments.root.absolute()
    if not root.exists():
        fill(root)
    rights = FS.ordered(FS.known(arguments.abi)) if arguments.confine else []
    Actor(random.Random(arguments.seed), root, rights).act(arguments.count)
    return 0


if __name__ == "__main__":
    sys.exit(main())
