"""The names of the system calls that Landlock can refuse, by the number that an audit record has.

The numbers are those of the kernel's asm/unistd.h: a record names the architecture by AUDIT_ARCH_ of linux/audit.h.
"""

from __future__ import annotations

#: Calls that are younger than Linux 5.0 have one number on all architectures.
_ALIKE = {
    424: "pidfd_send_signal", 426: "io_uring_enter", 428: "open_tree", 429: "move_mount", 431: "fsconfig",
    432: "fsmount", 437: "openat2", 438: "pidfd_getfd", 439: "faccessat2", 440: "process_madvise",
    442: "mount_setattr",
}
_X86_64 = {
    1: "write", 2: "open", 4: "stat", 6: "lstat", 16: "ioctl", 21: "access", 42: "connect", 44: "sendto",
    46: "sendmsg", 49: "bind", 59: "execve", 62: "kill", 72: "fcntl", 76: "truncate", 77: "ftruncate", 80: "chdir",
    82: "rename", 83: "mkdir", 84: "rmdir", 85: "creat", 86: "link", 87: "unlink", 88: "symlink", 89: "readlink",
    101: "ptrace", 129: "rt_sigqueueinfo", 133: "mknod", 155: "pivot_root", 165: "mount", 166: "umount2",
    200: "tkill", 234: "tgkill", 257: "openat", 258: "mkdirat", 259: "mknodat", 262: "newfstatat", 263: "unlinkat",
    264: "renameat", 265: "linkat", 266: "symlinkat", 267: "readlinkat", 269: "faccessat", 274: "get_robust_list",
    297: "rt_tgsigqueueinfo", 304: "open_by_handle_at", 307: "sendmmsg", 310: "process_vm_readv",
    311: "process_vm_writev", 312: "kcmp", 316: "renameat2", 322: "execveat", 332: "statx",
}
_I386 = {
    4: "write", 5: "open", 8: "creat", 9: "link", 10: "unlink", 11: "execve", 12: "chdir", 14: "mknod",
    21: "mount", 22: "umount", 26: "ptrace", 33: "access", 37: "kill", 38: "rename", 39: "mkdir", 40: "rmdir",
    52: "umount2", 54: "ioctl", 55: "fcntl", 83: "symlink", 85: "readlink", 92: "truncate", 93: "ftruncate",
    102: "socketcall", 106: "stat", 107: "lstat", 178: "rt_sigqueueinfo", 193: "truncate64", 194: "ftruncate64",
    217: "pivot_root", 221: "fcntl64", 238: "tkill", 270: "tgkill", 295: "openat", 296: "mkdirat", 297: "mknodat",
    301: "unlinkat", 302: "renameat", 303: "linkat", 304: "symlinkat", 305: "readlinkat", 307: "faccessat",
    312: "get_robust_list", 335: "rt_tgsigqueueinfo", 342: "open_by_handle_at", 345: "sendmmsg",
    347: "process_vm_readv", 348: "process_vm_writev", 349: "kcmp", 353: "renameat2", 358: "execveat", 361: "bind",
    362: "connect", 369: "sendto", 370: "sendmsg", 383: "statx",
}
#: The table of aarch64, riscv64 and loongarch64.
_GENERIC = {
    25: "fcntl", 29: "ioctl", 33: "mknodat", 34: "mkdirat", 35: "unlinkat", 36: "symlinkat", 37: "linkat",
    38: "renameat", 39: "umount2", 40: "mount", 41: "pivot_root", 45: "truncate", 46: "ftruncate", 48: "faccessat",
    49: "chdir", 56: "openat", 64: "write", 78: "readlinkat", 100: "get_robust_list", 117: "ptrace", 129: "kill",
    130: "tkill", 131: "tgkill", 138: "rt_sigqueueinfo", 200: "bind", 203: "connect", 206: "sendto",
    211: "sendmsg", 221: "execve", 240: "rt_tgsigqueueinfo", 265: "open_by_handle_at", 269: "sendmmsg",
    270: "process_vm_readv", 271: "process_vm_writev", 272: "kcmp", 276: "renameat2", 281: "execveat", 291: "statx",
}
_BY_ARCHITECTURE = {
    0xC000003E: _X86_64,
    0x40000003: _I386,
    0xC00000B7: _GENERIC,
    0xC00000F3: _GENERIC,
    0xC0000102: _GENERIC,
}


def name(architecture: int, number: int) -> str:
    """The name of a system call, or its number if Landlock is not known to refuse it."""
    known = _BY_ARCHITECTURE.get(architecture, {})
    return known.get(number) or _ALIKE.get(number) or f"system call {number}"
