"""Calls that only look, through the links of another process in /proc: the rule on ptrace refuses them under any layer.

Which calls a running kernel (6.18) refuses, and on which files of /proc, was seen there; the probe `looks` repeats it.
"""

from __future__ import annotations

from pathlib import Path

from landaudit_record.common import finished, jsonl
from landaudit_record.recorder import recordings
from landaudit_record.recorder.calls import ptrace
from landaudit_record.recorder.calls.path_arguments import PATH_ARGUMENTS
from landaudit_record.recorder.looks import LOOKS, READLINKS
from landaudit_record.recorder.tracing import command_line

from .written_logs import CWD, DISK, WrittenLogs, told

EACCES = "-1 EACCES (Permission denied)"
ENOENT = "-1 ENOENT (No such file or directory)"
ENODATA = "-1 ENODATA (No data available)"
EINVAL = "-1 EINVAL (Invalid argument)"
NOFOLLOW = "0x100 /* AT_SYMLINK_NOFOLLOW */"
LOOK = (ptrace.INTO_ANOTHER, True)

#: Calls on a path (PATH) that follow a link at its end, as strace writes them.
FOLLOWING = (
    'stat("PATH", 0x7ffd) = 0',
    f'newfstatat({CWD}, "PATH", 0x7ffd, 0) = 0',
    f'statx({CWD}, "PATH", 0 /* AT_STATX_SYNC_AS_STAT */, 0x7ff, 0x7ffd) = 0',
    'access("PATH", 0x4 /* R_OK */) = 0',
    f'faccessat({CWD}, "PATH", 0 /* F_OK */) = 0',
    f'faccessat2({CWD}, "PATH", 0x4 /* R_OK */, 0x200 /* AT_EACCESS */) = 0',
    'statfs("PATH", 0x7ffd) = 0',
    f'getxattr("PATH", "user.x", 0x7ffd, 100) = {ENODATA}'.replace(ENODATA, "4"),
    'listxattr("PATH", NULL, 0) = 0',
    'inotify_add_watch(3<anon_inode:inotify>, "PATH", 0x2 /* IN_MODIFY */) = 1',
    f'name_to_handle_at({CWD}, "PATH", {{handle_bytes=8}}, [27], 0x400 /* AT_SYMLINK_FOLLOW */) = 0',
    f'utimensat({CWD}, "PATH", NULL, 0) = 0',
    'chmod("PATH", 0644) = 0',
    'chdir("PATH") = 0',
    'readlink("PATH", "/sbin/init", 4095) = 10',
    f'readlinkat({CWD}, "PATH", "/sbin/init", 4095) = 10',
)
#: And such as do not.
NOT_FOLLOWING = (
    'lstat("PATH", 0x7ffd) = 0',
    f'newfstatat({CWD}, "PATH", 0x7ffd, {NOFOLLOW}) = 0',
    f'statx({CWD}, "PATH", {NOFOLLOW}, 0x7ff, 0x7ffd) = 0',
    f'faccessat2({CWD}, "PATH", 0x4 /* R_OK */, {NOFOLLOW}) = 0',
    f'lgetxattr("PATH", "user.x", 0x7ffd, 100) = 4',
    'llistxattr("PATH", NULL, 0) = 0',
    f'openat({CWD}, "PATH", 0x220000 /* O_NOFOLLOW|O_PATH */) = 3<PATH>',
)


class Looks(WrittenLogs):
    def counted(self, *lines: str) -> list[tuple[str, bool]]:
        """The classes of what is counted, after lines of which none is said."""
        self.convert(*lines)
        return self.unsaid()

    def test_links_that_a_call_follows(self) -> None:
        links = ("exe", "cwd", "root", "fd/0", "ns/mnt", "map_files/400000-401000", "task/1/exe", "root/etc/passwd")
        for link in links:
            for call in FOLLOWING:
                with self.subTest(call, link=link):
                    self.assertEqual(self.counted(call.replace("PATH", f"/proc/1/{link}")), [LOOK])

    def test_links_that_a_call_does_not_follow(self) -> None:
        for call in NOT_FOLLOWING:
            with self.subTest(call):
                self.assertEqual(self.counted(call.replace("PATH", "/proc/1/exe")), [])
                self.assertEqual(self.counted(call.replace("PATH", "/proc/1/root/etc/passwd")), [LOOK])

    def test_what_is_in_fdinfo(self) -> None:
        self.assertEqual(self.counted('lstat("/proc/1/fdinfo/0", 0x7ffd) = 0'), [LOOK])
        self.assertEqual(self.counted('access("/proc/1/fdinfo", 0 /* F_OK */) = 0'), [LOOK])
        self.assertEqual(self.counted('stat("/proc/1/fdinfo", 0x7ffd) = 0'), [])

    def test_directories_that_are_listed(self) -> None:
        """Linux 6.18 lets any of them be opened but `fdinfo`; under a layer, getdents64(2) of `map_files` is EACCES."""
        for name, counted in {"fdinfo": [LOOK], "map_files": [LOOK], "fd": [], "ns": [], "task": []}.items():
            opened = f'openat({CWD}, "/proc/1/{name}", 0x10000 /* O_RDONLY|O_DIRECTORY */) = 3</proc/1/{name}>'
            self.assertEqual(self.counted(opened), counted, name)
            self.assertEqual(self.counted(f'stat("/proc/1/{name}", 0x7ffd) = 0'), [], name)

    def test_files_that_anyone_may_look_at(self) -> None:
        for name in ("", "/status", "/environ", "/fd", "/ns", "/task", "/mem"):
            with self.subTest(name):
                self.assertEqual(self.counted(f'stat("/proc/1{name}", 0x7ffd) = 0'), [])
                self.assertEqual(self.counted(f'access("/proc/1{name}", 0x4 /* R_OK */) = 0'), [])

    def test_own_links_and_those_of_children(self) -> None:
        for path in ("/proc/self/exe", "/proc/10/root/etc", "/proc/thread-self/cwd", "/proc/11/exe", "/dev/fd/0"):
            for call in FOLLOWING:
                with self.subTest(call, path=path):
                    self.assertEqual(self.counted("fork() = 11", call.replace("PATH", path)), [])

    def test_links_of_a_parent(self) -> None:
        self.assertEqual(self.counted("fork() = 11", '11  stat("/proc/10/exe", 0x7ffd) = 0'), [LOOK])

    def test_relative_paths(self) -> None:
        for lines in (
            ('newfstatat(5</proc/1>, "exe", 0x7ffd, 0) = 0',),
            ('newfstatat(5</proc>, "1/exe", 0x7ffd, 0) = 0',),
            ('chdir("/proc/1") = 0', 'stat("exe", 0x7ffd) = 0'),
            ("fchdir(5</proc>) = 0", 'readlink("1/exe", "/sbin/init", 4095) = 10'),
            ('chdir("/") = 0', 'access("proc/1/exe", 0x4 /* R_OK */) = 0'),
            ('stat("../proc/./1//exe", 0x7ffd) = 0',),
            ('stat("/proc/self/root/proc/1/exe", 0x7ffd) = 0',),
        ):
            with self.subTest(lines):
                self.assertEqual(self.counted(*lines), [LOOK])

    def test_a_root_with_a_proc_of_its_own(self) -> None:
        self.assertEqual(self.counted('chroot("/w/d") = 0', 'stat("/proc/1/exe", 0x7ffd) = 0'), [LOOK])

    def test_what_failed(self) -> None:
        call = 'stat("/proc/1/root/nothere", 0x7ffd)'
        self.assertEqual(self.counted(f"{call} = {EACCES}"), [])
        self.confined(f"{call} = {EACCES}")
        self.assertEqual(self.unsaid(), [LOOK])

    def test_what_failed_behind_a_link(self) -> None:
        """A layer refuses to follow the link before the kernel finds what else is wrong (tried on Linux 6.18)."""
        for call in (
            f'getxattr("/proc/1/cwd", "user.x", 0x7ffd, 100) = {ENODATA}',
            'open("/proc/1/exe", 0x1 /* O_WRONLY */) = -1 ETXTBSY (Text file busy)',
            'open("/proc/1/cwd", 0x1 /* O_WRONLY */) = -1 EISDIR (Is a directory)',
            'chdir("/proc/1/exe") = -1 ENOTDIR (Not a directory)',
            'mkdir("/proc/1/root/w", 0755) = -1 EEXIST (File exists)',
            'chmod("/proc/1/cwd", 0755) = -1 EPERM (Operation not permitted)',
            f'name_to_handle_at({CWD}, "/proc/1/cwd", {{handle_bytes=200}}, 0x7ffd, 0x400) = {EINVAL}',
        ):
            with self.subTest(call):
                self.assertIn(LOOK, self.counted(call))
                self.assertEqual(self.reached(), [[1]])
        for call in (
            'open("/proc/1/mem", 0) = -1 EIO (Input/output error)',
            'open("/proc/1/exe", 0x20000 /* O_NOFOLLOW */) = -1 ELOOP (Too many levels of symbolic links)',
            'stat(0x8, 0x7ffd) = -1 EFAULT (Bad address)',
            f'name_to_handle_at({CWD}, "/proc/1/cwd", {{handle_bytes=8}}, 0x7ffd, 0x800) = {EINVAL}',
        ):
            with self.subTest(call):
                self.assertNotIn(LOOK, self.counted(call))

    def test_a_link_may_be_missing_since_its_process_has_ended(self) -> None:
        call = f'stat("/proc/{{}}/root/nothere", 0x7ffd) = {ENOENT}'
        self.assertEqual(self.counted(call.format(1)), [LOOK])
        self.assertEqual(self.reached(), [])
        self.assertEqual(self.counted("fork() = 11", "11  " + call.format(10)), [LOOK])
        self.assertEqual(self.reached(), [[10]])
        self.assertEqual(self.counted("fork() = 11", "11  +++ exited with 0 +++", call.format(11)), [])

    def reached(self) -> list[list[int]]:
        """The processes that the calls of the last log reach."""
        return [said["to"] for _, said in jsonl.numbered(self.out / finished.REACH)]

    def test_looks_at_anything_else_tell_nothing(self) -> None:
        lines = (
            'stat("/w/f", 0x7ffd) = 0',
            f'newfstatat({CWD}, "d", 0x7ffd, {NOFOLLOW}) = 0',
            'newfstatat(3</w/f>, "", 0x7ffd, 0x1000 /* AT_EMPTY_PATH */) = 0',
            'access("/proc/cpuinfo", 0x4 /* R_OK */) = 0',
            'readlink("/w/process/x", "y", 4095) = 1',
        )
        self.assertEqual((self.convert(*lines), self.unsaid()), ([], []))

    def test_halves(self) -> None:
        lines = (
            "fork() = 11",
            '11  stat("/w/f",  <unfinished ...>',
            '10  stat("/proc/1/exe",  <unfinished ...>',
            "11  <... stat resumed>0x7ffd) = 0",
            "10  <... stat resumed>0x7ffd) = 0",
        )
        self.assertEqual(self.counted(*lines), [LOOK])

    def test_all_of_them_have_their_paths_known(self) -> None:
        self.assertLessEqual(LOOKS | READLINKS, set(PATH_ARGUMENTS))

    def test_readlink_is_traced_where_it_is_asked_for(self) -> None:
        for readlink, traced in ((False, LOOKS), (True, LOOKS | READLINKS)):
            with self.subTest(readlink=readlink):
                words = command_line(Path("strace.txt"), ["ls"], readlink=readlink)
                (trace,) = (word.removeprefix("--trace=") for word in words if word.startswith("--trace="))
                names = [name.removeprefix("?") for name in trace.split(",")]
                self.assertEqual(len(names), len(set(names)))
                self.assertEqual(set(names) & (LOOKS | READLINKS), traced)


class AtLivingProcesses(Looks):
    """The same, where the other process is still there at the conversion, and its links lead where they lead."""

    disk = [
        *DISK,
        {"path": "/proc", "kind": "dir"},
        {"path": "/proc/1", "kind": "dir"},
        {"path": "/proc/1/exe", "kind": "sym", "target": "/w/p"},
        {"path": "/proc/1/cwd", "kind": "sym", "target": "/"},
        {"path": "/proc/1/root", "kind": "sym", "target": "/"},
        {"path": "/proc/1/fd", "kind": "dir"},
        {"path": "/proc/1/fd/0", "kind": "sym", "target": "/w/f"},
        {"path": "/proc/1/fdinfo", "kind": "dir"},
        {"path": "/proc/1/ns", "kind": "dir"},
        {"path": "/proc/1/ns/mnt", "kind": "sym", "target": "mnt:[4026531841]"},
        {"path": "/proc/1/task", "kind": "dir"},
        {"path": "/proc/1/task/1", "kind": "dir"},
        {"path": "/proc/1/task/1/exe", "kind": "sym", "target": "/w/p"},
        {"path": "/proc/1/status", "kind": "reg"},
    ]


class OtherCalls(WrittenLogs):
    """Calls that are said and lead into another process on the way."""

    disk = [
        *DISK,
        {"path": "/w/to-other", "kind": "sym", "target": "/proc/1/root"},
        {"path": "/w/log", "kind": "sym", "target": "/proc/1/fd/1"},
        {"path": "/proc", "kind": "dir"},
        {"path": "/proc/1", "kind": "dir"},
    ]

    def test_what_is_said_is_counted_too(self) -> None:
        trace = self.convert('unlink("/proc/1/cwd/x") = 0')
        self.assertEqual(told(trace, "op"), [("unlink",)])
        self.assertEqual(self.unsaid(), [LOOK])

    def test_what_a_layer_may_have_refused_is_not_said(self) -> None:
        for call in ('unlink("/proc/1/cwd/x")', 'mkdir("/proc/1/root/w/n", 0755)', 'truncate("/proc/1/fd/3", 0)'):
            with self.subTest(call):
                self.assertEqual(self.confined(f"{call} = {EACCES}"), [])
                self.assertEqual(self.unsaid(), [LOOK])

    def test_a_program_that_is_run_through_a_link(self) -> None:
        self.convert('execve("/proc/1/exe", ["x"], 0x1 /* 2 vars */) = 0')
        self.assertIn(LOOK, self.unsaid())

    def test_a_socket_that_is_found_through_a_link(self) -> None:
        self.convert('connect(3<socket:[7]>, {sa_family=0x1 /* AF_UNIX */, sun_path="/proc/1/root/run/s"}, 110) = 0')
        self.assertEqual(self.unsaid(), [LOOK])

    def test_files_that_are_opened_by_links_of_the_disk(self) -> None:
        for call in (
            f'openat({CWD}, "to-other/w/f", 0 /* O_RDONLY */) = 3</w/f>',
            f'openat({CWD}, "log", 0x1 /* O_WRONLY */) = 3<pipe:[5]>',
            f'openat({CWD}, "log", 0x1 /* O_WRONLY */) = {ENOENT}'.replace(ENOENT, "3</w/g>"),
        ):
            with self.subTest(call):
                self.convert(call, call)
                self.assertEqual(self.unsaid(), [LOOK] * 2)


class Hidden(WrittenLogs):
    """A /proc that is mounted with hidepid: all of another process is only for those who may trace it."""

    hidepid = True

    def test_anything_of_another_process(self) -> None:
        for call in (
            'stat("/proc/1", 0x7ffd) = 0',
            'lstat("/proc/1/status", 0x7ffd) = 0',
            f'openat({CWD}, "/proc/1/status", 0 /* O_RDONLY */) = 3</proc/1/status>',
        ):
            with self.subTest(call):
                self.convert(call)
                self.assertEqual(self.unsaid(), [LOOK])

    def test_what_is_refused(self) -> None:
        self.assertEqual(self.confined('stat("/proc/1/status", 0x7ffd) = -1 EPERM (Operation not permitted)'), [])
        self.assertEqual(self.unsaid(), [LOOK])

    def test_what_is_of_no_process_or_of_its_own(self) -> None:
        self.convert('stat("/proc/cpuinfo", 0x7ffd) = 0', 'stat("/proc/self/status", 0x7ffd) = 0')
        self.assertEqual(self.unsaid(), [])

    def test_nothing_is_hidden_from_a_group(self) -> None:
        """Linux 6.18: from the group of the option `gid`, which is 0 by default, while a process is in it."""
        look = 'stat("/proc/1/status", 0x7ffd) = 0'
        self.hidepid_group = self.euid = 0
        for calls, counted in {
            (look,): [],
            ("setgid(5) = 0", look): [LOOK],
            ("setgid(5) = 0", "setgroups(2, [4, 0]) = 0", look): [],
            ("setns(3<user:[7]>, 0) = 0", look): [LOOK],
        }.items():
            with self.subTest(calls):
                self.convert(*calls)
                self.assertEqual(self.unsaid(), counted)

    def test_what_the_mounts_say(self) -> None:
        mounts = self.out / "mountinfo"
        begin = "22 1 0:21 / /proc rw,relatime - proc proc rw"
        said = {"": (False, None), ",hidepid=off": (False, None), ",hidepid=invisible": (True, 0), ",hidepid=2": (True, 0),
                ",gid=7,hidepid=1": (True, 7), ",gid=7,hidepid=ptraceable": (True, None), ",hidepid=4": (True, None)}
        for options, hides in said.items():
            with self.subTest(options):
                mounts.write_text(f"21 1 254:0 / / rw - ext4 /dev/vda rw,hidepid=2\n{begin}{options}\n")
                self.assertEqual(recordings.hides_processes(mounts), hides)


class WithoutReadlink(WrittenLogs):
    """A recording that has no readlink(2): who looks at other processes in any way may read their links."""

    readlink = False
    disk = [*DISK, {"path": "/proc", "kind": "dir"}]
    COUNTED = [(ptrace.NOT_TRACED, True)]

    def test_who_looks_at_other_processes(self) -> None:
        for call in (
            f'openat({CWD}, "/proc", 0x90800 /* O_RDONLY|O_NONBLOCK|O_CLOEXEC|O_DIRECTORY */) = 3</proc>',
            f'openat({CWD}, "/proc/1/status", 0 /* O_RDONLY */) = 3</proc/1/status>',
            'stat("/proc/1", 0x7ffd) = 0',
            'lstat("/proc/1/exe", 0x7ffd) = 0',
            'execve("/w/p", ["readlink", "/proc/1/exe"], 0x1 /* 2 vars */) = 0',
            'execve("/w/p", ["ls", "/proc/1/fd/3"], 0x1 /* 2 vars */) = 0',
            r'execve("/w/p", ["sh", "-c", "readlink \"/proc/1/ns/mnt\""], 0x1 /* 2 vars */) = 0',
        ):
            with self.subTest(call):
                self.convert(call, call)
                self.assertEqual(self.unsaid(), self.COUNTED)

    def test_each_process_is_counted_once(self) -> None:
        self.convert('stat("/proc/1", 0x7ffd) = 0', "fork() = 11", *['11  stat("/proc/2", 0x7ffd) = 0'] * 2)
        self.assertEqual(self.unsaid(), self.COUNTED * 2)

    def test_who_does_not(self) -> None:
        self.convert(
            "fork() = 11",
            f'openat({CWD}, "/proc", 0x210000 /* O_PATH|O_DIRECTORY */) = 3</proc>',
            'openat(3</proc>, "self/status", 0 /* O_RDONLY */) = 4</proc/10/status>',
            'stat("/proc/11/exe", 0x7ffd) = 0',
            'stat("/proc/cpuinfo", 0x7ffd) = 0',
            'execve("/w/p", ["cat", "/proc/1/status"], 0x1 /* 2 vars */) = 0',
        )
        self.assertEqual(self.unsaid(), [])
