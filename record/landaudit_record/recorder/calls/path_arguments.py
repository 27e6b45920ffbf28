"""Which arguments of calls are paths, and whether a link at the end of a path is followed."""

from __future__ import annotations

from dataclasses import dataclass

from .. import values
from ..strace_log import Call
from . import arguments, opening


@dataclass(frozen=True, slots=True)
class PathArgument:
    """A path of a call: the argument that it is, that with the directory from which it leads on, and how it ends.

    A link at its end is followed if `follows` says so; if `bits` are set in the argument `flags`, the other way round.
    `member` is that of a structure which has the path.
    """

    base: int | None
    path: int
    follows: bool = True
    flags: int | None = None
    bits: int = 0
    member: str | None = None

    def text(self, call: Call) -> str | None:
        """The path, if the call has one that can be read."""
        argument = call.arguments.get(self.path, "")
        if self.member is not None:
            argument = values.member(argument, self.member) or ""
        return values.text(argument)

    def follows_last(self, call: Call) -> bool:
        """Whether a call follows a link at the end of the path."""
        has = self.flags is not None and bool(arguments.number_at(call, self.flags) & self.bits)
        return self.follows is not has


_IN_DONT_FOLLOW = 0x2000000
_FAN_MARK_DONT_FOLLOW = 4
_FSPICK_SYMLINK_NOFOLLOW = 2
_UMOUNT_NOFOLLOW = 8
_MOVE_MOUNT_F_SYMLINKS, _MOVE_MOUNT_T_SYMLINKS = 1, 0x10

_FOLLOWED = PathArgument(None, 0)
_NAMED = PathArgument(None, 0, follows=False)


def _at(flags: int | None = None, bits: int = arguments.AT_SYMLINK_NOFOLLOW) -> PathArgument:
    """The path of a call with a directory's descriptor before it, followed unless a flag says otherwise."""
    return PathArgument(0, 1, True, flags, bits)


def _each(argument: PathArgument, names: str) -> dict[str, tuple[PathArgument, ...]]:
    return {name: (argument,) for name in names.split()}


#: The paths of each call by its name.
PATH_ARGUMENTS: dict[str, tuple[PathArgument, ...]] = {
    **_each(_FOLLOWED, "stat access statfs getxattr listxattr setxattr removexattr chmod chown utime utimes"),
    **_each(_FOLLOWED, "stat64 oldstat statfs64 chown32 truncate64"),
    **_each(_FOLLOWED, "creat truncate execve chdir chroot swapon swapoff acct uselib"),
    **_each(_NAMED, "lstat readlink lgetxattr llistxattr lsetxattr lremovexattr lchown mknod mkdir unlink rmdir"),
    **_each(_NAMED, "lstat64 oldlstat lchown32"),
    **_each(_at(), "faccessat fchmodat futimesat openat2"),
    **_each(_at(2), "statx getxattrat listxattrat setxattrat removexattrat mount_setattr open_tree open_tree_attr"),
    **_each(_at(3), "newfstatat fstatat64 faccessat2 fchmodat2 utimensat utimensat_time64"),
    **_each(_at(4), "fchownat file_getattr file_setattr execveat"),
    **_each(PathArgument(0, 1, follows=False), "readlinkat mknodat mkdirat unlinkat"),
    "open": (PathArgument(None, 0, True, 1, opening.O_NOFOLLOW),),
    "openat": (_at(2, opening.O_NOFOLLOW),),
    "fspick": (_at(2, _FSPICK_SYMLINK_NOFOLLOW),),
    "name_to_handle_at": (PathArgument(0, 1, False, 4, arguments.AT_SYMLINK_FOLLOW),),
    "inotify_add_watch": (PathArgument(None, 1, True, 2, _IN_DONT_FOLLOW),),
    "fanotify_mark": (PathArgument(3, 4, True, 1, _FAN_MARK_DONT_FOLLOW),),
    "quotactl": (PathArgument(None, 1),),
    "symlink": (PathArgument(None, 1, follows=False),),
    "symlinkat": (PathArgument(1, 2, follows=False),),
    "rename": (_NAMED, PathArgument(None, 1, follows=False)),
    "renameat": (PathArgument(0, 1, follows=False), PathArgument(2, 3, follows=False)),
    "renameat2": (PathArgument(0, 1, follows=False), PathArgument(2, 3, follows=False)),
    "link": (_NAMED, PathArgument(None, 1, follows=False)),
    "linkat": (PathArgument(0, 1, False, 4, arguments.AT_SYMLINK_FOLLOW), PathArgument(2, 3, follows=False)),
    "mount": (_FOLLOWED, PathArgument(None, 1)),
    "umount": (_FOLLOWED,),
    "umount2": (PathArgument(None, 0, True, 1, _UMOUNT_NOFOLLOW),),
    "pivot_root": (_FOLLOWED, PathArgument(None, 1)),
    "move_mount": (
        PathArgument(0, 1, False, 4, _MOVE_MOUNT_F_SYMLINKS),
        PathArgument(2, 3, False, 4, _MOVE_MOUNT_T_SYMLINKS),
    ),
    "bind": (PathArgument(None, 1, follows=False, member="sun_path"),),
    "connect": (PathArgument(None, 1, member="sun_path"),),
}
