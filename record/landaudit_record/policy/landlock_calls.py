"""Landlock's three system calls, and prctl(2), as the running kernel answers them.

Numbers and structures are those of landlock_create_ruleset(2), landlock_add_rule(2) and landlock_restrict_self(2).
"""

from __future__ import annotations

import ctypes
import os
import struct
from collections.abc import Collection

from ..common.rights import FS, NET, SCOPES, Family

_CREATE_RULESET, _ADD_RULE, _RESTRICT_SELF = 444, 445, 446
_CREATE_RULESET_VERSION = 1
_RULE_PATH_BENEATH, _RULE_NET_PORT = 1, 2
#: Asks the kernel to log what a layer refuses of the programs that are executed under it (landlock_restrict_self(2)).
LOG_NEW_EXEC_ON = 2
_PR_SET_NO_NEW_PRIVS = 38

_libc = ctypes.CDLL(None, use_errno=True)


def kernel_abi() -> int:
    """The ABI of the running kernel; OSError if it has no Landlock."""
    return _call(_CREATE_RULESET, None, ctypes.c_size_t(0), ctypes.c_uint32(_CREATE_RULESET_VERSION))


def create_ruleset(fs: Collection[str], net: Collection[str] | None = None, scoped: Collection[str] = ()) -> int:
    """A new ruleset's descriptor, close-on-exec.

    With None for `net`, the structure is the shorter one of ABI 1; with scopes, it is the longer one of ABI 6.
    """
    attributes = struct.pack("=Q", _bits(FS, fs))
    if net is not None or scoped:
        attributes += struct.pack("=Q", _bits(NET, net or ()))
    if scoped:
        attributes += struct.pack("=Q", sum(1 << SCOPES.index(scope) for scope in scoped))
    return _call(_CREATE_RULESET, attributes, ctypes.c_size_t(len(attributes)), ctypes.c_uint32(0))


def add_path_beneath(ruleset: int, parent: int, allowed: Collection[str]) -> None:
    """Adds a rule on the object of an open descriptor."""
    rule = struct.pack("=Qi", _bits(FS, allowed), parent)
    _call(_ADD_RULE, ctypes.c_int(ruleset), ctypes.c_int(_RULE_PATH_BENEATH), rule, ctypes.c_uint32(0))


def add_net_port(ruleset: int, port: int, allowed: Collection[str]) -> None:
    """Adds a rule on a TCP port."""
    rule = struct.pack("=QQ", _bits(NET, allowed), port)
    _call(_ADD_RULE, ctypes.c_int(ruleset), ctypes.c_int(_RULE_NET_PORT), rule, ctypes.c_uint32(0))


def restrict_self(ruleset: int, *, log_executed: bool = False) -> None:
    """Restricts this thread by a ruleset as it is now; the kernel may log the denials of the programs that it executes.

    Without that, the kernel logs only those of the program that calls this.
    """
    flags = LOG_NEW_EXEC_ON if log_executed else 0
    _call(_RESTRICT_SELF, ctypes.c_int(ruleset), ctypes.c_uint32(flags))


def set_no_new_privs() -> None:
    """Sets no_new_privs, which restrict_self requires of a process without CAP_SYS_ADMIN."""
    unused = ctypes.c_ulong(0)
    if _libc.prctl(_PR_SET_NO_NEW_PRIVS, ctypes.c_ulong(1), unused, unused, unused):
        raise _error()


def _bits(family: Family, rights: Collection[str]) -> int:
    return sum(1 << family.bit(right) for right in rights)


def _call(number: int, *arguments: object) -> int:
    answer: int = _libc.syscall(ctypes.c_long(number), *arguments)
    if answer < 0:
        raise _error()
    return answer


def _error() -> OSError:
    number = ctypes.get_errno()
    return OSError(number, os.strerror(number))
