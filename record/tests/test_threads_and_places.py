"""Whose folders, sockets and rulesets a call means: those of the process or thread that is named, or that has them.

What is expected follows from proc(5), path_resolution(7), ipv6(7) and from what a running kernel (6.18) answered; the
live tests repeat it.
"""

from __future__ import annotations

import os
import socket
from pathlib import Path

from landaudit_record.common import finished, jsonl
from landaudit_record.recorder import converting, recordings, tracing
from landaudit_record.recorder.calls import descriptors, landlock
from landaudit_record.recorder.scene import BY_UNSEEN_LAYER, MOVING

from .kept_logs import bare
from .written_logs import CONFINED, CWD, THREAD, WrittenLogs, told

EACCES = "-1 EACCES (Permission denied)"
EINVAL = "-1 EINVAL (Invalid argument)"
RULESET = "<anon_inode:[landlock-ruleset]>"
CREATED = f"landlock_create_ruleset({{handled_access_fs=0x2}}, 8, 0) = 3{RULESET}"
INET6 = "socket(0xa /* AF_INET6 */, 0x1 /* SOCK_STREAM */, 0) = 3<socket:[7]>"
PORT = 'sin_port="\\x47\\x7e" /* htons(18302) */'
IPV4 = f'{{sa_family=0x2 /* AF_INET */, {PORT}, sin_addr="\\x7f\\x00\\x00\\x01"}}, 16'


class Calls32(WrittenLogs):
    """Calls that only 32-bit programs have (syscalls(2))."""

    def test_they_are_like_their_namesakes(self) -> None:
        trace = self.confined(
            f'truncate64("f", 0) = {EACCES}',
            f'openat({CWD}, "g", 0x2 /* O_RDWR */) = 3</w/g>',
            "fcntl64(3</w/g>, 0 /* F_DUPFD */, 30) = 30</w/g>",
            f"ftruncate64(30</w/g>, 0) = {EACCES}",
            'umount("d") = -1 EPERM (Operation not permitted)',
        )
        self.assertEqual(
            told(trace, "op", "path", "fd", "kernel"),
            [
                ("truncate", "/w/f", None, "EACCES"),
                ("open", "/w/g", 3, "ok"),
                ("dup", None, 3, None),
                ("ftruncate", None, 30, "EACCES"),
                ("mount", None, None, "EPERM"),
            ],
        )

    def test_a_cut_takes_effect_where_it_begins(self) -> None:
        trace = self.convert(
            f"10  {THREAD} = 11",
            f'openat({CWD}, "g", 0x2 /* O_RDWR */) = 3</w/g>',
            "10  ftruncate64(3</w/g>, 0 <unfinished ...>",
            "11  close(3</w/g>) = 0",
            "10  <... ftruncate64 resumed>) = 0",
        )
        self.assertEqual([record["op"] for record in trace], ["open", "ftruncate", "close"])


class Folders(WrittenLogs):
    def made(self, *lines: str) -> list[str]:
        """Where the folders are that lines make."""
        return [record.get("shown") or record["path"] for record in self.convert(*lines) if record["op"] == "mkdir"]


class Places(Folders):
    def test_the_folders_of_a_child(self) -> None:
        moved = ("fork() = 11", '11  chdir("d") = 0', '11  chroot("/bin") = 0')
        self.assertEqual(self.made(*moved, 'mkdir("/proc/11/cwd/n", 0777) = 0'), ["/w/d/n"])
        self.assertEqual(self.made(*moved, 'mkdir("/proc/11/root/n", 0777) = 0'), ["/bin/n"])
        self.assertEqual(self.made(*moved, 'mkdir("/proc/self/cwd/n", 0777) = 0'), ["/w/n"])

    def test_the_folders_of_a_thread(self) -> None:
        apart = (f"10  {THREAD} = 11", "11  unshare(0x200 /* CLONE_FS */) = 0", '11  chdir("d") = 0')
        for path, where in (
            ("/proc/self/cwd/n", "/w/n"),
            ("/proc/10/cwd/n", "/w/n"),
            ("/proc/thread-self/cwd/n", "/w/d/n"),
            ("/proc/self/task/11/cwd/n", "/w/d/n"),
            ("/proc/11/cwd/n", "/w/d/n"),
            ("n", "/w/d/n"),
        ):
            with self.subTest(path):
                self.assertEqual(self.made(*apart, f'11  mkdir("{path}", 0777) = 0'), [where])

    def test_another_namespace_takes_the_folders_along(self) -> None:
        """unshare(2): CLONE_NEWNS and CLONE_NEWUSER imply CLONE_FS."""
        for flags in ("0x20000 /* CLONE_NEWNS */", "0x10000000 /* CLONE_NEWUSER */"):
            with self.subTest(flags):
                apart = ("clone(child_stack=NULL, flags=0x211 /* CLONE_FS|SIGCHLD */) = 11", f"11  unshare({flags}) = 0")
                self.assertEqual(self.made(*apart, '11  chdir("d") = 0', 'mkdir("n", 0777) = 0'), ["/w/n"])

    def test_a_thread_that_has_ended_has_no_folders(self) -> None:
        ended = (f"10  {THREAD} = 11", "11  +++ exited with 0 +++")
        (made,) = self.convert(*ended, 'mkdir("/proc/11/cwd/n", 0777) = -1 ENOENT (No such file or directory)')
        self.assertIn("~new~", made["path"])

    def test_what_is_outside_of_the_root(self) -> None:
        ways = (("n", "/w/n"), ("../n", "/n"), ("../../n", "/n"), ("d/../../n", "/w/d/n"), ("/../n", "/w/d/n"))
        for path, where in ways:
            with self.subTest(path):
                self.assertEqual(self.made('chroot("d") = 0', f'mkdir("{path}", 0777) = 0'), [where])
        self.assertEqual(self.made('chroot("d") = 0', 'chdir("/") = 0', 'mkdir("../n", 0777) = 0'), ["/w/d/n"])


class Moving(Folders):
    """Threads that go to another directory while others name something in the one where all of them work."""

    SHARED = (f"10  {THREAD} = 11", 'mkdir("d/e", 0777) = 0')
    GOES = "11  fchdir(3</w/d>"

    def moved(self, *lines: str) -> list[str]:
        """Where the folders are that lines make after a thread was made."""
        return [path for path in self.made(*self.SHARED, *lines) if path != "/w/d/e"]

    def assert_unsure(self, times: int) -> None:
        self.assertEqual(self.unsaid(), [(MOVING, True)] * times)

    def test_a_call_while_another_thread_goes_elsewhere(self) -> None:
        ends = "11  <... fchdir resumed>) = 0"
        self.assertEqual(self.moved(f"{self.GOES} <unfinished ...>", 'mkdir("n", 0777) = 0', ends), [])
        self.assert_unsure(1)
        around = ('10  mkdir("n", 0777 <unfinished ...>', f"{self.GOES}) = 0", "10  <... mkdir resumed>) = 0")
        self.assertEqual(self.moved(*around, 'mkdir("m", 0777) = 0'), ["/w/d/m"])
        self.assert_unsure(1)

    def test_a_call_before_or_after_it_and_one_of_another_place(self) -> None:
        goes = (f"{self.GOES} <unfinished ...>", 'mkdir("/w/m", 0777) = 0', "11  <... fchdir resumed>) = 0")
        self.assertEqual(self.moved('mkdir("n", 0777) = 0', *goes), ["/w/n", "/w/m"])
        self.assertEqual(self.moved(*goes, 'mkdir("n", 0777) = 0'), ["/w/m", "/w/d/n"])
        fails = (f"{self.GOES} <unfinished ...>", 'mkdir("n", 0777) = 0', f"11  <... fchdir resumed>) = {EACCES}")
        self.assertEqual(self.moved(*fails), ["/w/n"])
        apart = ("11  unshare(0x200 /* CLONE_FS */) = 0", *goes[:1], 'mkdir("n", 0777) = 0', *goes[2:])
        self.assertEqual(self.moved(*apart), ["/w/n"])
        self.assert_unsure(0)

    def test_where_a_call_began_tells_nothing_of_later_ones(self) -> None:
        begins = f'10  openat({CWD}, "f", 0 /* O_RDONLY */ <unfinished ...>'
        ends = "10  <... openat resumed>) = 5</w/f>"
        self.assertEqual(self.moved(begins, f"{self.GOES}) = 0", ends, 'mkdir("n", 0777) = 0'), ["/w/d/n"])

    def test_two_threads_that_go_elsewhere_at_the_same_time(self) -> None:
        begins, ends = "10  fchdir(4</w/d/e> <unfinished ...>", "10  <... fchdir resumed>) = 0"
        both = (begins, f"{self.GOES}) = 0", ends, 'mkdir("n", 0777) = 0', 'chdir("e") = 0', 'mkdir("m", 0777) = 0')
        self.assertEqual(self.moved(*both), [])
        self.assert_unsure(3)
        told = 'mkdirat(-100 /* AT_FDCWD */</w/d>, "k", 0777) = 0'
        self.assertEqual(self.moved(*both, told, 'mkdir("l", 0777) = 0'), ["/w/d/k", "/w/d/l"])
        self.assertEqual(self.moved(*both, 'chdir("/w") = 0', 'mkdir("l", 0777) = 0'), ["/w/l"])


class Sockets(WrittenLogs):
    descriptors = {"0": {"kind": "other", "path": None, "tcp": socket.AF_INET}}

    def test_a_socket_without_a_connection_as_standard_input(self) -> None:
        trace = self.convert(f"connect(0<socket:[7]>, {IPV4}) = -1 ECONNREFUSED (Connection refused)")
        self.assertEqual(told(trace, "op", "port"), [("connect", 18302)])

    def test_which_of_the_standard_descriptors_are_such_sockets(self) -> None:
        kinds = {
            "tcp": (socket.AF_INET, socket.SOCK_STREAM, socket.AF_INET),
            "tcp6": (socket.AF_INET6, socket.SOCK_STREAM, socket.AF_INET6),
            "udp": (socket.AF_INET, socket.SOCK_DGRAM, None),
            "unix": (socket.AF_UNIX, socket.SOCK_STREAM, None),
        }
        for name, (family, kind, expected) in kinds.items():
            with self.subTest(name), socket.socket(family, kind) as one:
                kept = os.dup(0)
                try:
                    os.dup2(one.fileno(), 0)
                    found = recordings.given_descriptors()["0"]
                finally:
                    os.dup2(kept, 0)
                    os.close(kept)
                self.assertEqual(found, {"kind": "other", "path": None, "tcp": expected})
                self.assertIs(converting.is_unknown(found), False)

    def test_a_socket_over_ipv6_that_becomes_one_over_ipv4(self) -> None:
        trace = self.convert(INET6, f"connect(3<socket:[7]>, {IPV4}) = -1 ECONNREFUSED (Connection refused)")
        self.assertEqual(told(trace, "op", "port"), [("connect", 18302)])
        for error in (EINVAL, "-1 EAFNOSUPPORT (Address family not supported by protocol)"):
            self.assertEqual(self.convert(INET6, f"connect(3<socket:[7]>, {IPV4}) = {error}"), [])
            self.assertEqual(self.unsaid(), [(descriptors.OTHER_FAMILY, False)])


class GivenSockets(WrittenLogs):
    """A recording that does not say which of the standard descriptors are sockets."""

    descriptors = {"0": {"kind": "other", "path": None}}

    def test_it_may_be_a_tcp_socket(self) -> None:
        self.convert(f"connect(0<socket:[7]>, {IPV4}) = 0")
        self.assertEqual(self.unsaid(), [("a port of a socket that came from elsewhere", True)])


class GivenFromElsewhere(WrittenLogs):
    """A directory of another mount namespace: strace shows a path for it that names another one."""

    descriptors = {"7": {"kind": "other", "path": "/w/d", "elsewhere": True}}

    def test_what_it_leads_to_is_not_known(self) -> None:
        self.convert('mkdirat(7</w/d>, "x", 0700) = 0')
        self.assertEqual(self.unsaid(), [(converting.ELSEWHERE, True)])


class Devices(WrittenLogs):
    """What is a device is known by its path: strace is not asked, since it would look at the object."""

    disk = [*WrittenLogs.disk, {"path": "/dev", "kind": "dir"}, {"path": "/dev/null", "kind": "char"}]

    def commands(self, *lines: str) -> list[object]:
        """The kinds of the objects whose descriptors are given commands."""
        trace = self.convert(*lines)
        paths = {record["fd"]: record["path"] for record in trace if record["op"] == "open"}
        kinds = {line["path"]: line["kind"] for _, line in jsonl.numbered(self.out / "tree.jsonl")}
        return [kinds[paths[record["fd"]]] for record in trace if record["op"] == "ioctl"]

    def test_strace_does_not_look_at_the_object_behind_a_descriptor(self) -> None:
        (decodes,) = [word for word in tracing.command_line(Path("log"), ["ls"]) if word.startswith("--decode-fds=")]
        self.assertEqual(decodes, "--decode-fds=path,pidfd")

    def test_a_device_of_the_disk_is_one_also_where_it_may_be_created(self) -> None:
        for flags in ("0x1 /* O_WRONLY */", "0x241 /* O_WRONLY|O_CREAT|O_TRUNC */"):
            opened = f'openat({CWD}, "/dev/null", {flags}, 0666) = 3</dev/null>'
            self.assertEqual(self.commands(opened, "ioctl(3</dev/null>, 0x5401 /* TCGETS */, 0x7f) = 0"), ["char"])

    def test_a_device_that_the_run_makes(self) -> None:
        made = 'mknod("t", 0020666 /* S_IFCHR|0666 */, 0x103 /* makedev(0x1, 0x3) */) = 0'
        opened = f'openat({CWD}, "t", 0x1 /* O_WRONLY */) = 3</w/t>'
        self.assertEqual(self.commands(made, opened, "ioctl(3</w/t>, 0x5401 /* TCGETS */, 0x7f) = 0"), ["char"])

    def test_a_terminal_that_is_gone(self) -> None:
        opened = f'openat({CWD}, "/dev/pts/9", 0x2 /* O_RDWR */) = 3</dev/pts/9>'
        self.assertEqual(self.commands(opened, "ioctl(3</dev/pts/9>, 0x5401 /* TCGETS */, 0x7f) = 0"), ["char"])

    def test_the_other_end_of_a_terminal_is_opened_by_its_number(self) -> None:
        """strace 6.1 does not say the path behind the descriptor that TIOCGPTPEER gives."""
        opened = f'openat({CWD}, "/dev/ptmx", 0x2 /* O_RDWR */) = 3</dev/ptmx<char 5:2>>'
        peer = "ioctl(3</dev/ptmx<char 5:2>>, 0x5441 /* TIOCGPTPEER */, 0x102 /* O_RDWR|O_NOCTTY */) = 4"
        number = "ioctl(3</dev/ptmx<char 5:2>>, 0x80045430 /* TIOCGPTN */, [7]) = 0"
        asks = "ioctl(4</dev/pts/7>, 0x5401 /* TCGETS */, 0x7f) = 0"
        trace = [bare(record) for record in self.convert(opened, number, peer, asks)]
        self.assertIn({"op": "open", "path": "/dev/pts/7", "fd": 4, "mode": "rw"}, trace)
        self.assertEqual(trace[-1], {"op": "ioctl", "fd": 4, "driver": True})
        self.assertEqual(self.unsaid(), [])
        self.convert(opened, peer)
        self.assertEqual(self.unsaid(), [("a path of more than 4096 bytes", True)])

    def test_what_is_gone_may_have_been_a_device(self) -> None:
        opened = f'openat({CWD}, "/dev/gone", 0x2 /* O_RDWR */) = 3</dev/gone>'
        closes = "ioctl(3</dev/gone>, 0x5450 /* FIONCLEX */) = 0"
        self.assertEqual(self.commands(opened, closes), ["reg"])
        self.assertEqual(self.unsaid(), [])
        asks = "ioctl(3</dev/gone>, 0x5401 /* TCGETS */, 0x7f) = 0"
        self.assertEqual(self.commands(opened, closes, asks), ["reg"])
        self.assertEqual(self.unsaid(), [(descriptors.MAY_BE_A_DEVICE, True)])


class Rulesets(WrittenLogs):
    def test_what_ioctl_keeps_open_stays_open_over_an_exec(self) -> None:
        runs = 'execve("/w/p", ["p"], 0x1 /* 2 vars */) = 0'
        restrict = f"landlock_restrict_self(3{RULESET}, 0) = 0"
        trace = self.convert(CREATED, f"ioctl(3{RULESET}, 0x5450 /* FIONCLEX */) = 0", runs, restrict)
        self.assertEqual([told([record], "op", "rs")[0] for record in trace if "rs" in record],
                         [("create", 3), ("restrict", 3)])
        opened = f'openat({CWD}, "f", 0 /* O_RDONLY */) = 4</w/f>'
        for command, closes in (("0x5451 /* FIOCLEX */", 1), ("0x5450 /* FIONCLEX */", 0)):
            trace = self.convert(opened, f"ioctl(4</w/f>, {command}) = 0", runs)
            self.assertEqual([record["fd"] for record in trace if record["op"] == "close"].count(4), closes)

    def test_a_layer_of_a_ruleset_that_came_over_a_socket(self) -> None:
        trace = self.convert(
            CREATED,
            "fork() = 11",
            f"11  landlock_add_rule(5{RULESET}, 0x1 /* LANDLOCK_RULE_PATH_BENEATH */, {{parent_fd=4</w>}}, 0) = 0",
            f"11  landlock_restrict_self(5{RULESET}, 0) = 0",
            f'11  openat({CWD}, "f", 0x1 /* O_WRONLY */) = {EACCES}',
            f'11  openat({CWD}, "f", 0 /* O_RDONLY */) = 5</w/f>',
            f'openat({CWD}, "g", 0x1 /* O_WRONLY */) = 6</w/g>',
        )
        self.assertEqual(
            told(trace, "op", "pid", "path"),
            [("create", 10, None), ("fork", 10, None), ("open", 11, "/w/f"), ("open", 10, "/w/g")],
        )
        asking = [reason for reason, asks in self.unsaid() if asks]
        self.assertEqual(asking, [landlock.FOREIGN_RULESET, BY_UNSEEN_LAYER])
        self.assertTrue(finished.opened(str(self.out)).has_layers())

    def test_a_call_that_fails_makes_no_layer(self) -> None:
        restrict = f"landlock_restrict_self(5{RULESET}, 0) = {EINVAL}"
        trace = self.convert(*CONFINED, restrict, f'truncate("f", 0) = {EACCES}')
        self.assertEqual(told(trace[-1:], "op", "kernel"), [("truncate", "EACCES")])
        self.assertEqual(self.unsaid(), [(landlock.FOREIGN_RULESET, False)])
