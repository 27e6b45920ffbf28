"""Puts a policy in force: this process restricts itself by its layers, at best effort, and then becomes a command.

Best effort is advised by the kernel's documentation: rights that the ABI does not have are dropped, and rules whose
object does not exist are left out. As in a trace, a rule that the kernel refuses is an error in the policy.
"""

from __future__ import annotations

import errno
import os
import signal
import stat
import sys
from collections.abc import Iterator, Mapping, Sequence
from pathlib import Path
from typing import NoReturn

from .. import POLICIES, PROGRAMS
from ..common.problems import WANTING, Problem
from ..common.rights import ABI_OF_LOG, FILE_RIGHTS, NET
from . import fitting
from . import landlock_calls as landlock
from .fitting import FittedLayer, FittedPathRule
from .policies import MOST_LAYERS, Policy

#: Signals that Python ignores from its start (signal(7)); a program that is run gets them as they were.
IGNORED_BY_PYTHON = (signal.SIGPIPE, signal.SIGXFSZ)
#: The errors of opening the object of a rule that does not exist or can't be reached.
NOT_THERE = (errno.ENOENT, errno.ENOTDIR, errno.EACCES, errno.ELOOP)
GIVEN_ENVIRONMENT = Path("/proc/self/environ")
_MISSING = {
    errno.ENOSYS: "it is older than Linux 5.13 or was built without Landlock: run this on another kernel",
    errno.EOPNOTSUPP: "it is switched off: add 'landlock' to the boot parameter lsm=",
}


def known_abi(asked: int) -> int:
    """The ABI to use: the one that is asked for, or the kernel's if that is older."""
    try:
        return min(asked, landlock.kernel_abi())
    except OSError as error:
        raise Problem(f"this kernel has no Landlock: {_MISSING.get(error.errno or 0, error.strerror)}", WANTING) from error


def confine(policy: Policy, abi: int, *, log: bool = False) -> list[str]:
    """Restricts this process by each layer of a policy, the oldest first; returns notes on what is left out.

    With `log`, the kernel logs what the layers refuse of the programs that this process executes, if it can.
    """
    known = landlock.kernel_abi()
    abi, logs = min(abi, known), log and known >= ABI_OF_LOG
    layers, notes = fitting.in_force(policy, abi)
    if log and not logs:
        notes.append(f"the kernel logs no denials, which needs ABI {ABI_OF_LOG}: --log has no effect")
    landlock.set_no_new_privs()
    for layer in layers:
        notes.extend(_restrict(policy, layer, abi, logs=logs))
    return notes


def _restrict(policy: Policy, layer: FittedLayer, abi: int, *, logs: bool) -> Iterator[str]:
    """One layer: a ruleset with its rules."""
    ruleset = landlock.create_ruleset(layer.handled_fs, layer.handled_net if NET.known(abi) else None, layer.scoped)
    for rule in layer.path_rules:
        for parent in rule.parents:
            yield from _add_parent(policy, ruleset, layer.number, rule, parent)
    for port_rule in layer.port_rules:
        for port in port_rule.ports:
            landlock.add_net_port(ruleset, port, port_rule.on_port)
    try:
        landlock.restrict_self(ruleset, log_executed=logs)
    except OSError as error:
        at_most = "a process has at most sixteen layers, including those that it is under already"
        why = at_most if error.errno == errno.E2BIG else error.strerror
        raise Problem(f"{policy.path}: layer {layer.number} can't be put in force: {why}", WANTING) from error
    os.close(ruleset)


def _add_parent(policy: Policy, ruleset: int, layer: int, rule: FittedPathRule, parent: str) -> Iterator[str]:
    """A rule on an object, if the object exists; a link is followed."""
    where = f"layer {layer}, {rule.place}"
    try:
        place = os.open(parent, os.O_PATH | os.O_CLOEXEC)
    except OSError as error:
        if error.errno not in NOT_THERE:
            raise
        if rule.group is None:
            yield f"{where}: no rule on {parent}: {error.strerror}"
        return
    try:
        _add(policy, ruleset, f"{where}, parent {parent}", rule, place)
    finally:
        os.close(place)


def _add(policy: Policy, ruleset: int, where: str, rule: FittedPathRule, place: int) -> None:
    """A rule on what an open descriptor stands for."""
    is_directory = stat.S_ISDIR(os.fstat(place).st_mode)
    allowed = rule.on("dir" if is_directory else "reg")
    if not allowed:
        return
    try:
        landlock.add_path_beneath(ruleset, place, allowed)
    except OSError as error:
        why = error.strerror
        if error.errno == errno.EINVAL and not is_directory:
            of_directories = ", ".join(right for right in allowed if right not in FILE_RIGHTS)
            why = f"it is not a directory, and only directories have {of_directories}: leave these out, or name a group"
        raise Problem(f"{policy.path}: {where}: {why}") from error


def is_confined() -> bool:
    """Whether this process is under a layer of Landlock already: then it can get fewer than sixteen more."""
    try:
        child = os.fork()
    except OSError:
        return False
    if child == 0:
        os._exit(_more_layers())
    _, status = os.waitpid(child, 0)
    return os.waitstatus_to_exitcode(status) in range(MOST_LAYERS)


def _more_layers() -> int:
    """Puts as many layers on this process as the kernel lets it have, and counts them; more than it can have if the
    kernel does not say.
    """
    try:
        landlock.set_no_new_privs()
        ruleset = landlock.create_ruleset(["make_block"])
        for more in range(MOST_LAYERS):
            try:
                landlock.restrict_self(ruleset)
            except OSError as error:
                return more if error.errno == errno.E2BIG else MOST_LAYERS + 1
    except OSError:
        return MOST_LAYERS + 1
    return MOST_LAYERS


def given_environment() -> Mapping[bytes, bytes]:
    """The environment that this program was given: Python adds LC_CTYPE to its own in the C locale (PEP 538)."""
    try:
        texts = GIVEN_ENVIRONMENT.read_bytes().split(b"\0")
    except OSError:
        return os.environb
    return {name: value for name, _, value in (text.partition(b"=") for text in texts if b"=" in text)}


def under(policy: Path, abi: int, command: Sequence[str]) -> list[str]:
    """The command that runs another one under a policy, by this Python."""
    return [sys.executable, str(PROGRAMS / POLICIES), "confine", str(policy), "--abi", str(abi), "--", *command]


def become(command: Sequence[str], environment: Mapping[bytes, bytes]) -> NoReturn:
    """Becomes a command; if that fails, perhaps because of the policy, it is a Problem."""
    for number in IGNORED_BY_PYTHON:
        signal.signal(number, signal.SIG_DFL)
    try:
        os.execvpe(command[0], list(command), environment)
    except OSError as error:
        hint = ": does the policy allow reading and executing it, its interpreter and its loader?"
        denied = error.errno == errno.EACCES
        raise Problem(f"{command[0]}: {error.strerror}{hint if denied else ''}", WANTING) from error
