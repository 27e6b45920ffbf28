"""EINVAL: whether the kernel answered it for the arguments of a call, before it looked at a path.

Else a file system or a device answered it, after Landlock was asked (tried on Linux 6.18): O_DIRECT where it is not
supported, a flag of renameat2(2) that a file system does not know, a name that cgroups do not take, a UNIX socket that
is bound already.
"""

from __future__ import annotations

import stat
from collections.abc import Callable, Mapping

from .. import values
from ..strace_log import Call

_O_CREAT, _O_DIRECTORY, _O_TMPFILE = 0o100, 0o200000, 0o20000000
_RENAME_FLAGS = frozenset({0, 1, 2, 4, 5})
#: What openat2(2) takes: the size of its structure, flags, modes and bits of `resolve` (build_open_flags in fs/open.c).
_LEAST_SIZE, _OPEN_FLAGS, _ALL_MODES, _RESOLVE_FLAGS, _BENEATH_AND_IN_ROOT = 24, 0o37777703, 0o7777, 0x3F, 0x18
_LONGEST = (1 << 63) - 1
_LINK_FLAGS, _UNLINK_FLAGS, _EXEC_FLAGS = 0x1400, 0x200, 0x11100
#: What some version of name_to_handle_at(2) takes; it looks at the size of the handle once it has followed the path.
_HANDLE_FLAGS = 0x1603
_KINDS = frozenset({0, stat.S_IFREG, stat.S_IFCHR, stat.S_IFBLK, stat.S_IFIFO, stat.S_IFSOCK})
#: Calls without arguments that could be invalid.
_PLAIN = frozenset(
    "bind creat execve link mkdir mkdirat rename renameat rmdir symlink symlinkat unlink".split()
)


def _number(call: Call, index: int) -> int:
    argument = call.arguments.get(index)
    return 0 if argument is None else values.number(argument)


def _is_contradiction(flags: int) -> bool:
    """Whether flags of open(2) contradict each other; those that are not known are ignored."""
    return bool(flags & _O_TMPFILE or (flags & _O_CREAT and flags & _O_DIRECTORY))


def _is_invalid_how(call: Call) -> bool:
    """Whether openat2(2) may refuse its `struct open_how`: it takes no mode that it does not need."""
    flags, mode, resolve = (_member(call, name) for name in ("flags", "mode", "resolve"))
    modes = _ALL_MODES if flags & (_O_CREAT | _O_TMPFILE) else 0
    excess = flags & ~_OPEN_FLAGS or mode & ~modes or resolve & ~_RESOLVE_FLAGS or _number(call, 3) < _LEAST_SIZE
    return bool(excess) or _is_contradiction(flags) or resolve & _BENEATH_AND_IN_ROOT == _BENEATH_AND_IN_ROOT


def _member(call: Call, name: str) -> int:
    found = values.member(call.arguments.get(2, ""), name)
    return values.number(found) if found is not None else 0


#: Whether the arguments of a call may be invalid, by the call's name.
_INVALID: Mapping[str, Callable[[Call], bool]] = {
    "open": lambda call: _is_contradiction(_number(call, 1)),
    "openat": lambda call: _is_contradiction(_number(call, 2)),
    "openat2": _is_invalid_how,
    "execveat": lambda call: bool(_number(call, 4) & ~_EXEC_FLAGS),
    "mknod": lambda call: stat.S_IFMT(_number(call, 1)) not in _KINDS,
    "mknodat": lambda call: stat.S_IFMT(_number(call, 2)) not in _KINDS,
    "renameat2": lambda call: _number(call, 4) not in _RENAME_FLAGS,
    "linkat": lambda call: bool(_number(call, 4) & ~_LINK_FLAGS),
    "unlinkat": lambda call: bool(_number(call, 2) & ~_UNLINK_FLAGS),
    "name_to_handle_at": lambda call: bool(_number(call, 4) & ~_HANDLE_FLAGS),
    "ftruncate": lambda call: not 0 <= _number(call, 1) <= _LONGEST,
    "ftruncate64": lambda call: not 0 <= _number(call, 1) <= _LONGEST,
    "truncate": lambda call: not 0 <= _number(call, 1) <= _LONGEST,
    "truncate64": lambda call: not 0 <= _number(call, 1) <= _LONGEST,
}


def is_invalid(call: Call) -> bool:
    """Whether EINVAL may be about the arguments of a call; of a call that is not known here, it is."""
    may_be = _INVALID.get(call.name)
    return call.name not in _PLAIN and (may_be is None or may_be(call))
