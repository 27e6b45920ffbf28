"""Calls that only look at an object, or change something for which Landlock has no right.

Landlock is asked about them only by its rule on ptrace, if a path goes through /proc into another process. There are
very many of them, so a line of one is dropped at once unless it may be such a look.
"""

from __future__ import annotations

from dataclasses import dataclass

#: Calls that look at an object or change it; some of them are unknown to some machines, or to some versions of strace.
LOOKS = frozenset(
    """
    stat lstat newfstatat statx access faccessat faccessat2 statfs stat64 lstat64 fstatat64 oldstat oldlstat statfs64
    getxattr lgetxattr listxattr llistxattr setxattr lsetxattr removexattr lremovexattr
    getxattrat listxattrat setxattrat removexattrat file_getattr file_setattr
    chmod fchmodat fchmodat2 chown lchown fchownat chown32 lchown32 utime utimes futimesat utimensat utimensat_time64
    inotify_add_watch fanotify_mark quotactl fspick mount_setattr
    """.split()
)
#: Calls that read links. A compiler makes a thousand of them for each file, so they are traced only on request.
READLINKS = frozenset({"readlink", "readlinkat"})
#: Calls whose lines may be dropped; a recording without `--readlink` has no calls of READLINKS.
DROPPED = LOOKS | READLINKS


@dataclass(slots=True)
class Near:
    """Whether a relative path may lead on in /proc, since a process works or worked there, and the names of the
    directories at which proc(5) is mounted elsewhere, as paths have them."""

    relative: bool = False
    elsewhere: tuple[str, ...] = ()

    def is_look(self, text: str) -> bool:
        """Whether a call may lead through /proc, by its text with the paths of its descriptors."""
        if self.elsewhere and any(name in text for name in self.elsewhere):
            return True
        return "proc/" in text or "/proc>" in text or (self.relative and '("/' not in text)
