"""Records a command, under strace or by the witness, or what runs already; and converts what was recorded."""

from __future__ import annotations

import argparse
import os
import shlex
import shutil
import subprocess
import sys
import time
from collections.abc import Iterator
from contextlib import contextmanager
from dataclasses import dataclass, replace
from pathlib import Path

from ... import PROGRAMS, RECORDER
from ...audit import surroundings
from ...common import variables
from ...common.options import add_abi
from ...common.problems import USAGE, WANTING, Problem
from ...common.variables import Given
from ...engine import landaudit, landaudit_rules
from ...policy import confining, policies
from ...policy.policies import Policy
from ...recorder import beside, formats, listening, mounted, recordings, tracing, witness
from ...recorder.listening import Running
from . import audit, convert

NAME = "run"
HELP = "record a command: run it under strace, and write its tree and its trace"
EXAMPLE = "landaudit-record run rec --watch /tmp/work -- tar xf archive.tar -C /tmp/work"
#: Where the kernel makes and removes objects while a command runs, and says of none when it was made: terminals and
#: other devices (pts(4), loop(4)), network interfaces (sysfs(5)), and their settings (proc_sys_net(5)).
MADE_BY_KERNEL = ("/dev", "/sys/devices/virtual", "/proc/sys/net")
#: The clock by which file systems say when objects were made and changed (CLOCK_REALTIME_COARSE, linux/time.h).
CLOCK_OF_FILES = 5
BEHIND_DASHES = "give a command after '--', as in 'landaudit-record run rec -- ls'"


def add_arguments(parser: argparse.ArgumentParser) -> None:
    parser.usage = (
        "landaudit-record run [-h] OUT [--watch DIR].. [--policy POLICY.toml] [--abi N] [--port-rules POLICY.toml] "
        "[--set NAME=VALUE].. [--readlink] [--witness] [--by RECORDER] -- COMMAND..\n"
        "       landaudit-record run OUT --pid N.. | --cgroup DIR [--for SECONDS]"
    )
    parser.add_argument("out", metavar="OUT", type=Path, help="the folder to make for the recording")
    parser.add_argument(
        "--watch",
        metavar="DIR",
        action="append",
        default=[],
        help="list DIR before the run, to know what the command overwrites, moves and removes there"
        " (the working directory is always listed); may be repeated",
    )
    parser.add_argument(
        "--policy",
        metavar="POLICY.toml",
        type=Path,
        help="run the command under this policy, as landaudit-policy confine does, keep the policy in OUT/policy.toml,"
        " and say at the end what it refused",
    )
    add_abi(parser, "with --policy, rights and scopes that this ABI or the kernel does not have are dropped", in_force=True)
    convert.add_port_rules(parser)
    variables.add_set(parser)
    parser.add_argument(
        "--readlink",
        action="store_true",
        help="trace readlink(2) too: a program may look into other processes with it (/proc/PID/exe), and Landlock"
        " refuses that; a build then took 1.4 times as much processor time",
    )
    parser.add_argument(
        "--witness",
        action="store_true",
        help="hear by landaudit-witness what the kernel asks Landlock about the command, and count what the recording"
        " does not have (needs CAP_BPF and CAP_PERFMON)",
    )
    _add_recorder(parser)


def _add_recorder(parser: argparse.ArgumentParser) -> None:
    """Adds the options for recordings by the witness alone."""
    parser.add_argument(
        "--by",
        metavar="RECORDER",
        choices=(recordings.STRACE, recordings.WITNESS),
        default=recordings.STRACE,
        help="record by strace (the default), or by landaudit-witness alone: it records what the kernel asks Landlock,"
        " without tracing the command (needs CAP_BPF and CAP_PERFMON)",
    )
    parser.add_argument(
        "--pid",
        metavar="N",
        type=int,
        action="append",
        default=[],
        help="record a running process, its descendants and what they start, by the witness, in place of a command;"
        " may be repeated",
    )
    parser.add_argument(
        "--cgroup",
        metavar="DIR",
        type=Path,
        help="record all processes of a cgroup (version 2), such as that of a systemd unit, by the witness",
    )
    parser.add_argument(
        "--for",
        metavar="SECONDS",
        type=float,
        dest="seconds",
        help="with --pid or --cgroup, end the recording after this time (default: at SIGINT, or when all processes"
        " that --pid names have ended)",
    )


def run(arguments: argparse.Namespace) -> int:
    """Records the command, under a policy or without one; the status is the command's."""
    if arguments.pid or arguments.cgroup is not None:
        return _record_running(arguments)
    if arguments.seconds is not None:
        raise Problem("--for goes with --pid or --cgroup: a command is recorded to its end", USAGE)
    by_witness = arguments.by == recordings.WITNESS
    return _record_by_witness(arguments) if by_witness else _record_by_strace(arguments)


def _record_by_strace(arguments: argparse.Namespace) -> int:
    """Records the command by strace."""
    command = _command(arguments)
    given = variables.given(arguments)
    policy = None if arguments.policy is None else _InForce.of(arguments.policy, arguments.abi, given)
    if arguments.port_rules is not None:
        policies.read(arguments.port_rules, given)
    given.check_used()
    strace = tracing.version()
    tracing.may_trace()
    directories = _directories(arguments.watch)
    with _made(arguments.out) as folder:
        about = replace(
            _about(command, _watched(folder, directories), strace),
            descriptors=recordings.given_descriptors(),
            nnp=tracing.SETS_NO_NEW_PRIVS,
            readlink=arguments.readlink,
        )
        command = _prepared(folder, about, policy, command)
        own = () if policy is None else witness.OWN_ANSWERS
        checking = witness.Witness(folder, (*witness.BESIDE, *own)) if arguments.witness else None
    log = folder / "strace.txt"
    following = beside.LogFollower(log, about.directory, about.started, about.watched, about.registered)
    following.start()
    outcome = tracing.run(folder / "strace.txt", command, readlink=arguments.readlink)
    following.stop(folder / recordings.BESIDE)
    if checking is not None:
        checking.end()
    replace(about, ended=outcome.ended, taken=list(outcome.taken)).write(folder)
    for place in outcome.taken:
        convert.say(f"strace waited for the file server of {place}: to end that, the file system was taken away")
    if not outcome.ended:
        convert.say("strace was ended, and with it all that it traced: the recording is not complete")
    _converted(folder, arguments, given)
    if policy is not None:
        policy.tell_refused(folder)
    return outcome.status


def _prepared(folder: Path, about: recordings.About, policy: _InForce | None, command: list[str]) -> list[str]:
    """Writes what is known before the run; the command to run, under a policy if there is one."""
    about.write(folder)
    surroundings.keep(folder, None if policy is None else policy.policy)
    return command if policy is None else confining.under(policy.kept_in(folder), policy.abi, command)


def _command(arguments: argparse.Namespace) -> list[str]:
    """The command to record, which must be there."""
    command: list[str] = arguments.behind
    if not command:
        raise Problem(BEHIND_DASHES, USAGE)
    if shutil.which(command[0]) is None:
        raise Problem(f"{command[0]} is not found, or is not a program", WANTING)
    return command


def _record_by_witness(arguments: argparse.Namespace) -> int:
    """Records the command by the witness alone."""
    _refuse(arguments, "--by witness", watch="--watch", port_rules="--port-rules", readlink="--readlink",
            witness="--witness")
    command = _command(arguments)
    given = variables.given(arguments)
    policy = None if arguments.policy is None else _InForce.of(arguments.policy, arguments.abi, given)
    given.check_used()
    with _made(arguments.out) as folder:
        about = replace(_about(command, recordings.Watched()), by=recordings.WITNESS)
        command = _prepared(folder, about, policy, command)
        own = () if policy is None else witness.OWN_ANSWERS
        hearing = witness.Witness(folder, (*witness.CHILDREN, *own))
    outcome = listening.run(hearing, command)
    _heard(hearing, about, folder, arguments, given)
    if policy is not None:
        policy.tell_refused(folder)
    return outcome.status


def _record_running(arguments: argparse.Namespace) -> int:
    """Records what runs already, by the witness, until a signal or the end of its time."""
    _refuse(arguments, "--pid and --cgroup", watch="--watch", policy="--policy", port_rules="--port-rules",
            readlink="--readlink", witness="--witness", behind="a command")
    running, given = Running(tuple(arguments.pid), arguments.cgroup), variables.given(arguments)
    given.check_used()
    elsewhere = running.is_elsewhere()
    with _made(arguments.out) as folder:
        about = replace(_about([], recordings.Watched()), by=recordings.WITNESS)
        if elsewhere:
            about = replace(about, machine="")
        else:
            surroundings.keep(folder, None)
        about.write(folder)
        hearing = witness.Witness(folder, running.options)
    convert.say("recording until SIGINT (Ctrl-C)" + ("" if arguments.seconds is None else f", {arguments.seconds:g} s"))
    listening.listen(hearing, arguments.seconds)
    _heard(hearing, about, folder, arguments, given)
    return 0


def _refuse(arguments: argparse.Namespace, what: str, **options: str) -> None:
    """Refuses what does not go with a way to record."""
    for member, name in options.items():
        if getattr(arguments, member):
            raise Problem(f"{name} does not go with {what}", USAGE)


def _heard(
    hearing: witness.Witness, about: recordings.About, folder: Path, arguments: argparse.Namespace, given: Given
) -> None:
    """Ends a witness, and converts what it heard."""
    hearing.end()
    replace(about, ended=True).write(folder)
    _converted(folder, arguments, given)


@dataclass(frozen=True)
class _InForce:
    """A policy under which a command is recorded, and the ABI at which it is in force."""

    policy: Policy
    given: Given
    abi: int

    @classmethod
    def of(cls, policy: Path, abi: int, given: Given) -> _InForce:
        """The policy, after checks that it reads, that the kernel has Landlock, and that both programs are built."""
        found = policies.read(policy, given)
        landaudit.find(None)
        landaudit_rules.find()
        return cls(found, given, confining.known_abi(abi))

    def kept_in(self, folder: Path) -> Path:
        """The policy's copy in a recording's folder, made here, with the values of its variables."""
        kept = folder / recordings.POLICY
        variables.keep(self.policy.path, self.given, kept)
        return kept

    def tell_refused(self, folder: Path) -> None:
        """Prints to standard error what the policy refused in a recording."""
        words = [sys.executable, str(PROGRAMS / RECORDER), audit.NAME, str(folder), "--abi", str(self.abi)]
        subprocess.run(words, stdout=sys.stderr, check=False)


def _converted(folder: Path, arguments: argparse.Namespace, given: Given) -> None:
    """Converts the log, which is kept if the conversion does not finish."""
    try:
        convert.converted(folder, convert.ports(folder, arguments.port_rules, given))
    except (KeyboardInterrupt, OSError):
        ports = ["--port-rules", str(arguments.port_rules)] if arguments.port_rules is not None else []
        words = ["landaudit-record", "convert", str(arguments.out), *ports]
        convert.say(f"the log is kept but not converted; next: {shlex.join(words)}")
        raise


@contextmanager
def _made(folder: Path) -> Iterator[Path]:
    """A new folder, which is removed if it can't be filled before the run."""
    try:
        folder.mkdir()
    except FileExistsError:
        raise Problem(f"{folder} exists already: name a new folder", USAGE) from None
    except FileNotFoundError:
        raise Problem(f"there is no directory {folder.parent} for {folder.name}: make it first", USAGE) from None
    try:
        yield folder.resolve()
    except BaseException:
        shutil.rmtree(folder, ignore_errors=True)
        raise


def _watched(folder: Path, directories: list[str]) -> recordings.Watched:
    """Lists directories before the run, and says for which parts that failed."""
    seen = recordings.watch(folder, directories)
    for directory in seen.too_large:
        convert.say(f"{directory} holds more than {recordings.MOST_WATCHED:,} objects and is not watched")
    of_kernel = tuple(f"{top}/" for top in MADE_BY_KERNEL)
    for directory in (one for one in seen.unread if not f"{one}/".startswith(of_kernel)):
        convert.say(f"{directory} can't be read: what the command overwrites, moves and removes there is not known")
    return seen


def _directories(named: list[str]) -> list[str]:
    """The directories to list: those that are named, the working one, and those where the kernel makes objects."""
    for name in named:
        if not os.path.isdir(name):
            raise Problem(f"--watch {name}: there is no such directory", USAGE)
        if not os.access(name, os.R_OK | os.X_OK):
            raise Problem(f"--watch {name}: it can't be read", USAGE)
    kernels = (top for top in MADE_BY_KERNEL if os.access(top, os.R_OK | os.X_OK))
    return list(dict.fromkeys([*(os.path.realpath(name) for name in named), _working_directory(), *kernels]))


def _working_directory() -> str:
    try:
        return os.getcwd()
    except FileNotFoundError:
        raise Problem("the working directory is gone: change to another one", USAGE) from None


def _about(command: list[str], seen: recordings.Watched, strace: str = "") -> recordings.About:
    hidepid, group = recordings.hides_processes()
    return recordings.About(
        command=command,
        directory=os.getcwd(),
        started=time.clock_gettime(CLOCK_OF_FILES),
        admin=recordings.is_admin(),
        nnp=False,
        descriptors={},
        watched=seen.watched,
        unlisted=[*seen.unread, *seen.of_kernel],
        too_large=seen.too_large,
        strace=strace,
        kernel=os.uname().release,
        errata=recordings.errata(),
        uid=recordings.user(),
        euid=os.geteuid(),
        groups=[os.getegid(), *os.getgroups()],
        ended=False,
        looks=True,
        formats=formats.registered(),
        hidepid=hidepid,
        hidepid_group=group,
        machine=surroundings.machine(),
        mounts=mounted.shown(),
        protected_hardlinks=recordings.protects_hardlinks(),
        confined=confining.is_confined(),
        keeps_privileges=recordings.keeps_privileges(),
    )
