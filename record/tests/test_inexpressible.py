"""Calls by which the kernel asks Landlock in other ways than by a path of open(2): said, left out, or counted.

Which errors come before Landlock is asked follows from what a running kernel (6.18) answered under a layer; the live
tests repeat it.
"""

from __future__ import annotations


from landaudit_record.common import jsonl, reach
from landaudit_record.recorder.calls import descriptors, inexpressible, mounts, programs, ptrace

from .written_logs import CWD, DISK, WrittenLogs, told

EACCES = "-1 EACCES (Permission denied)"
EPERM = "-1 EPERM (Operation not permitted)"
EINVAL = "-1 EINVAL (Invalid argument)"
ENOENT = "-1 ENOENT (No such file or directory)"


class Beyond(WrittenLogs):
    def test_calls_that_io_uring_makes(self) -> None:
        self.assert_hole(inexpressible.BY_IO_URING, "io_uring_enter(3<anon_inode:[io_uring]>, 1, 1, 0x1, NULL, 0) = 1")
        self.assert_hole(
            inexpressible.BY_IO_URING,
            "io_uring_setup(4, {flags=0x2 /* IORING_SETUP_SQPOLL */, sq_thread_cpu=0}) = 3<anon_inode:[io_uring]>",
        )

    def test_a_ring_that_is_given_nothing_makes_no_calls(self) -> None:
        trace = self.convert(
            "io_uring_setup(4, {flags=0, sq_thread_cpu=0}) = 3<anon_inode:[io_uring]>",
            "io_uring_enter(3<anon_inode:[io_uring]>, 0, 1, 0x1, NULL, 0) = 0",
        )
        self.assertEqual((trace, self.unsaid()), ([], []))

    def test_a_file_by_a_handle_whose_path_was_seen(self) -> None:
        handle = r'{handle_bytes=8, handle_type=1, f_handle="\x25\x6e"}'
        trace = self.confined(
            f'name_to_handle_at({CWD}, "f", {handle}, [27], 0) = 0',
            f"open_by_handle_at(5</w>, {handle}, 0x80002 /* O_RDWR|O_CLOEXEC */) = 3",
            f"open_by_handle_at(5</w>, {handle}, 0 /* O_RDONLY */) = {EACCES}",
        )
        self.assertEqual(
            told(trace, "op", "path", "mode", "kernel"),
            [("open", "/w/f", "rw", "ok"), ("open", "/w/f", "r", "EACCES"), ("close", None, None, None)],
        )

    def test_a_file_that_was_moved_by_its_handle(self) -> None:
        """Linux 6.18 opens the object of the handle, at the name that it has by now (name_to_handle_at(2))."""
        self.disk = [{**line, "until": 0} for line in DISK]
        handle = r'{handle_bytes=8, handle_type=1, f_handle="\x25\x6e"}'
        known = f'name_to_handle_at({CWD}, "f", {handle}, [27], 0) = 0'
        opened = f"open_by_handle_at(5</w>, {handle}, 0x1 /* O_WRONLY */) = 3"
        found = self.convert(known, 'rename("/w/f", "/w/d/f") = 0', opened)
        self.assertEqual((found[-1]["op"], found[-1]["path"]), ("open", "/w/d/f"))
        moves = 'rename("/w/f", "/w/d/f") = 0', 'rename("/w/d", "/w/e") = 0'
        self.assertEqual(self.convert(known, *moves, opened)[-1]["path"], "/w/e/f")
        for gone in ('unlink("/w/f") = 0', f'name_to_handle_at({CWD}, "g", {handle}, [31], 0) = 0'):
            self.convert(known, gone, opened)
            self.assertEqual(self.unsaid(), [(inexpressible.BY_HANDLE, True)])

    def test_a_file_by_a_handle_of_which_nothing_is_known(self) -> None:
        handle = r'{handle_bytes=8, handle_type=1, f_handle="\x25\x6e"}'
        self.assert_hole(inexpressible.BY_HANDLE, f"open_by_handle_at(5</w>, {handle}, 0 /* O_RDONLY */) = 3")

    def test_files_that_the_kernel_opens_for_swap_and_accounting(self) -> None:
        trace = self.confined(f'swapon("f", 0) = {EINVAL}', f'acct("g") = {EACCES}', "acct(NULL) = 0")
        self.assertEqual(
            told(trace, "op", "path", "mode", "kernel"),
            [
                ("open", "/w/f", "rw", "EINVAL"),
                ("close", None, None, None),
                ("open", "/w/g", "w", "EACCES"),
                ("close", None, None, None),
            ],
        )

    def test_without_the_privilege_nothing_is_opened(self) -> None:
        trace = self.convert(f'swapon("f", 0) = {EPERM}', f'acct("g") = {EPERM}', f'swapon("f", 0x100000) = {EINVAL}')
        self.assertEqual(trace, [])
        self.assertEqual({asks for _, asks in self.unsaid()}, {False})

    def test_the_file_that_swapoff_opens(self) -> None:
        trace = self.confined(f'swapoff("f") = {EACCES}', f'swapoff("g") = {EPERM}')
        self.assertEqual(
            told(trace, "op", "path", "mode", "kernel"),
            [("open", "/w/f", "rw", "EACCES"), ("close", None, None, None)],
        )
        self.assertEqual(self.unsaid(), [("EPERM before Landlock is asked", False)])

    def test_calls_that_a_supervisor_lets_continue(self) -> None:
        begin, end = "seccomp(0x1 /* SECCOMP_SET_MODE_FILTER */, ", ", {len=4, filter=0x7f}) = "
        listens = "0x8 /* SECCOMP_FILTER_FLAG_NEW_LISTENER */"
        self.assert_hole(inexpressible.BY_SUPERVISOR, f"{begin}{listens}{end}5")
        self.convert(f"{begin}0{end}0", f"{begin}{listens}{end}{EINVAL}", "seccomp(0, 0x8, NULL) = 0")
        self.assertEqual(self.unsaid(), [])

    def test_what_fanotify_opens(self) -> None:
        self.assert_hole(inexpressible.BY_FANOTIFY, "fanotify_init(0 /* FAN_CLASS_NOTIF */, 0) = 3<anon_inode:[fanotify]>")
        named = "fanotify_init(0 /* FAN_CLASS_NOTIF */|0x200 /* FAN_REPORT_FID */, 0) = 3<anon_inode:[fanotify]>"
        self.assertEqual((self.convert(named), self.unsaid()), ([], []))

    def test_message_queues_and_pinned_objects(self) -> None:
        self.assert_hole(inexpressible.QUEUE, f'mq_open("q", 0x42 /* O_RDWR|O_CREAT */, 0600, NULL) = {EACCES}')
        self.assert_hole(inexpressible.PINNED, 'bpf(0x6 /* BPF_OBJ_PIN */, {pathname="/sys/fs/bpf/x", bpf_fd=3}, 16) = 0')
        self.assertEqual(self.convert("bpf(0x1 /* BPF_MAP_LOOKUP_ELEM */, {map_fd=3}, 32) = 0"), [])
        self.assertEqual(self.unsaid(), [])

    def test_a_library_that_uselib_loads(self) -> None:
        self.assert_hole(inexpressible.LIBRARY, 'uselib("f") = 0')
        self.convert('uselib("f") = -1 ENOSYS (Function not implemented)')
        self.assertEqual(self.unsaid(), [])

    def test_a_send_that_opens_a_connection(self) -> None:
        socket = "socket(0x2 /* AF_INET */, 0x1 /* SOCK_STREAM */, 0) = 3<socket:[7]>"
        self.assert_hole(inexpressible.BY_SENDING, socket, "sendto(0x3, 0x7f, 0x1, 0x20000000, 0x7f, 0x10) = 1")
        self.assert_hole(inexpressible.BY_SENDING, socket, "sendmsg(0x3, 0x7f, 0x20000000) = 1")
        self.assertEqual(self.convert(socket, "sendto(0x3, 0x7f, 0x1, 0, 0, 0) = 1"), [])
        self.assertEqual(self.unsaid(), [])

    RUN = 'execveat(3</memfd:x>(deleted), "", ["x"], 0x1 /* 2 vars */, 0x1000 /* AT_EMPTY_PATH */) = 0'

    def test_a_program_that_is_in_memory_alone_may_have_any_loader(self) -> None:
        self.assert_hole(programs.UNKNOWN_PROGRAM, self.RUN)

    def test_a_program_that_is_in_memory_alone_has_the_loader_that_it_was_seen_to_have(self) -> None:
        self.disk = [*DISK, {"program": "/memfd:x", "first": 1, "until": 1, "interpreter": "/w/loader"}]
        trace = self.convert(self.RUN)
        self.assertEqual(
            told(trace, "op", "path", "role")[:2],
            [("open", "/w/loader", "interpreter"), ("exec", "/w/loader", "interpreter")],
        )


class Mounts(WrittenLogs):
    def asked(self, *calls: str) -> list[object]:
        """What the kernel answered to the calls that are said."""
        return [record["kernel"] for record in self.convert(*calls)]

    def test_what_the_kernel_looks_at_before_it_asks(self) -> None:
        self.assertEqual(
            self.asked(
                f'umount2("/w/d", 0) = {EINVAL}',
                f'umount2("/nope", 0) = {ENOENT}',
                f'mount("x", "/nope", "tmpfs", 0, NULL) = {ENOENT}',
                f'mount("x", "/w/d", "tmpfs", 0x80000000 /* MS_NOUSER */, NULL) = {EINVAL}',
                f'pivot_root("/nope", "/w/d") = {ENOENT}',
                f'move_mount({CWD}, "/nope", {CWD}, "/w/d", 0) = {ENOENT}',
                f'move_mount({CWD}, "/w", {CWD}, "/w/d", 0x1000) = {EINVAL}',
                "fsconfig(4</w/f>, 0x7 /* FSCONFIG_CMD_RECONFIGURE */, NULL, NULL, 0) = " + EINVAL,
            ),
            [],
        )
        self.assertEqual({asks for _, asks in self.unsaid()}, {False})

    def test_what_comes_after(self) -> None:
        self.assertEqual(
            self.asked(
                f'umount2("/w/d", 0x4 /* MNT_EXPIRE */) = {EINVAL}',
                f'mount("/nope", "/w/d", NULL, 0x1000 /* MS_BIND */, NULL) = {ENOENT}',
                f'mount("x", "/w/d", "nofs", 0, NULL) = {EINVAL}',
                f'pivot_root("/w", "/w/d") = {EINVAL}',
                f'move_mount({CWD}, "/w", {CWD}, "/w/d", 0) = {EINVAL}',
                "fsconfig(4<anon_inode:[fscontext]>, 0x7 /* FSCONFIG_CMD_RECONFIGURE */, NULL, NULL, 0) = " + EPERM,
            ),
            ["EINVAL", "ENOENT", "EINVAL", "EINVAL", "EINVAL", "EPERM"],
        )

    def test_other_commands_of_a_context_ask_nothing(self) -> None:
        context = 'fsconfig(4<anon_inode:[fscontext]>, 0x1 /* FSCONFIG_SET_STRING */, "source", "f", 0) = 0'
        self.assertEqual((self.convert(context), self.unsaid()), ([], []))

    def test_a_file_system_may_be_in_a_file_that_the_kernel_opens(self) -> None:
        """erofs: its file is opened when the file system is made, also if it then is not one."""
        context = "fsconfig(4<anon_inode:[fscontext]>, 0x6 /* FSCONFIG_CMD_CREATE */, NULL, NULL, 0)"
        for result in ("0", EINVAL):
            self.assert_hole(mounts.OF_A_FILE, f"{context} = {result}")
        self.convert(f"{context} = -1 EBUSY (Device or resource busy)")
        self.assertEqual([asks for _, asks in self.unsaid()], [False])

    def test_what_is_mounted_changes_the_tree(self) -> None:
        self.assertEqual(self.asked('mount("x", "/w/d", "tmpfs", 0, NULL) = 0'), ["ok"])
        self.assertEqual(self.unsaid(), [(mounts.CHANGES_THE_TREE, True)])

    def test_a_namespace_that_is_mounted_on_a_file_may_be_of_any_kind(self) -> None:
        self.assert_hole(mounts.OTHER_NAMESPACE, "setns(7</w/f>, 0) = 0")
        trace = self.convert("setns(7</w/f>, 0x40000000 /* CLONE_NEWNET */) = 0", 'unlink("f") = 0')
        self.assertEqual([record["op"] for record in trace], ["unlink"])

    def test_mounts_without_a_place_and_other_namespaces(self) -> None:
        self.assert_hole(mounts.WITHOUT_PLACE, "fsmount(6<anon_inode:[fscontext]>, 0, 0) = 7</>")
        self.assert_hole(mounts.WITHOUT_PLACE, f'open_tree({CWD}, "d", 0x1 /* OPEN_TREE_CLONE */) = 7</>')
        self.assert_hole(mounts.OTHER_NAMESPACE, "setns(7<mnt:[4026531832]>, 0) = 0")
        self.assert_hole(mounts.OTHER_NAMESPACE, "setns(7<pid:10>, 0x20000 /* CLONE_NEWNS */) = 0")
        self.convert(
            "fsmount(6<anon_inode:[fscontext]>, 0, 0) = 7</>",
            'openat(7</>, "f", 0 /* O_RDONLY */) = 8</f>',
            f'openat(8</f>, ".", 0 /* O_RDONLY */) = {EACCES}',
        )
        self.assertEqual(self.unsaid(), [(mounts.WITHOUT_PLACE, True)] * 3)
        trace = self.convert(f'open_tree({CWD}, "d", 0) = 7</w/d>', "setns(7<net:[4026531832]>, 0) = 0")
        self.assertEqual((trace, self.unsaid()), ([], []))


class OtherProcesses(WrittenLogs):
    def test_calls_that_look_into_another_process(self) -> None:
        for call in (
            f"ptrace(0x10 /* PTRACE_ATTACH */, 1) = {EPERM}",
            f"ptrace(0x4206 /* PTRACE_SEIZE */, 1, NULL, 0) = {EPERM}",
            "process_vm_readv(1, [], 1, [], 1, 0) = 8",
            "process_vm_writev(1, [], 1, [], 1, 0) = 8",
            f"kcmp(10, 1, 0 /* KCMP_FILE */, 0, 0) = {EPERM}",
            "move_pages(1, 0, NULL, NULL, NULL, 0) = 0",
            "perf_event_open({type=0x1}, 1, -1, -1, 0) = 3<anon_inode:[perf_event]>",
            "process_madvise(3<pid:1>, [], 1, 0x4, 0) = 0",
            f"pidfd_getfd(3<pid:1>, 4, 0) = {EPERM}",
            "setns(3<pid:1>, 0x40000000 /* CLONE_NEWNET */) = 0",
            "ioctl(3<pid:1>, 0xff0a /* _IOC(_IOC_NONE, 0xff, 0xa, 0) */, 0) = 4",
            f"ioctl(3<pid:1>, 0xff0a /* PIDFD_GET_UTS_NAMESPACE */, 0) = {EACCES}",
        ):
            with self.subTest(call):
                self.assert_hole(ptrace.INTO_ANOTHER, call)

    def test_errors_that_come_after_the_kernel_asked(self) -> None:
        """Linux 6.18 answered each of them, and EPERM under a layer."""
        for call in (
            "process_vm_readv(1, [], 1, [], 1, 0) = -1 EFAULT (Bad address)",
            "process_vm_writev(1, [], 1, [], 1, 0) = -1 EFAULT (Bad address)",
            "move_pages(1, 1, 0x8, NULL, 0x8, 0) = -1 EFAULT (Bad address)",
            f"migrate_pages(1, 0, NULL, NULL) = {EINVAL}",
            "get_robust_list(1, 0x8, 0x8) = -1 EFAULT (Bad address)",
            "kcmp(10, 1, 0 /* KCMP_FILE */, 500, 500) = -1 EBADF (Bad file descriptor)",
            f"kcmp(10, 1, 0x63 /* KCMP_??? */) = {EINVAL}",
            "pidfd_getfd(3<pid:1>, 99, 0) = -1 EBADF (Bad file descriptor)",
            f"setns(3<pid:1>, 0x10000000 /* CLONE_NEWUSER */) = {EINVAL}",
        ):
            with self.subTest(call):
                self.assert_hole(ptrace.INTO_ANOTHER, call)

    def test_errors_that_come_before(self) -> None:
        """Linux 6.18 answered each of them under a layer too."""
        self.convert(
            "process_vm_readv(1, 0x8, 1, [], 1, 0) = -1 EFAULT (Bad address)",
            "process_vm_readv(1, [], 1, 0x8, 1, 0) = -1 EFAULT (Bad address)",
            f"move_pages(1, 1, 0x8, NULL, 0x8, 0x63) = {EINVAL}",
            "pidfd_getfd(77, 99, 0) = -1 EBADF (Bad file descriptor)",
            "process_madvise(3<pid:1>, 0x8, 1, 0x4, 0) = -1 EFAULT (Bad address)",
            f"setns(3<pid:1>, 0x1) = {EINVAL}",
            f"ioctl(3<pid:1>, 0xff0a /* PIDFD_GET_UTS_NAMESPACE */, 0x5) = {EINVAL}",
        )
        self.assertEqual(self.unsaid(), [])

    def test_calls_that_look_into_the_process_itself_or_its_children(self) -> None:
        self.convert(
            "fork() = 11",
            "process_vm_readv(10, [], 1, [], 1, 0) = 8",
            "kcmp(10, 11, 0 /* KCMP_FILE */, 0, 0) = 0",
            "move_pages(0, 0, NULL, NULL, NULL, 0) = 0",
            "ptrace(0 /* PTRACE_TRACEME */) = 0",
            "perf_event_open({type=0x1}, -1, 0, -1, 0) = 3<anon_inode:[perf_event]>",
        )
        self.assertEqual(self.unsaid(), [])

    def test_a_tracer_of_processes_that_strace_traces(self) -> None:
        """A process has one tracer (ptrace(2)): the recorded program does not do what it does when nobody traces it."""
        for call in (
            f"11  ptrace(0 /* PTRACE_TRACEME */) = {EPERM}",
            f"ptrace(0x10 /* PTRACE_ATTACH */, 11) = {EPERM}",
            f"ptrace(0x4206 /* PTRACE_SEIZE */, 11, NULL, 0) = {EPERM}",
        ):
            with self.subTest(call):
                self.convert("fork() = 11", call)
                self.assertEqual(self.unsaid(), [(ptrace.BY_STRACE, True)])

    def test_a_child_looks_into_its_parent(self) -> None:
        self.convert("fork() = 11", "11  process_vm_readv(10, [], 1, [], 1, 0) = 8")
        self.assertEqual(self.unsaid(), [(ptrace.INTO_ANOTHER, True)])

    def test_a_child_that_does_not_have_the_layers_of_its_parent(self) -> None:
        self.convert(
            "fork() = 11",
            "landlock_create_ruleset({handled_access_fs=0x4}, 8, 0) = 3<anon_inode:[landlock-ruleset]>",
            "landlock_restrict_self(3<anon_inode:[landlock-ruleset]>, 0) = 0",
            "process_vm_readv(11, [], 1, [], 1, 0) = -1 EPERM (Operation not permitted)",
        )
        self.assertEqual(self.unsaid(), [(ptrace.INTO_ANOTHER, True)])

    def test_files_of_another_process(self) -> None:
        for base, path, opened in (
            ("-100 /* AT_FDCWD */</w>", "/proc/1/environ", "/proc/1/environ"),
            ("-100 /* AT_FDCWD */</w>", "/proc/1/task/1/mem", "/proc/1/task/1/mem"),
            ("-100 /* AT_FDCWD */</proc/1>", "maps", "/proc/1/maps"),
            ("5</proc/1>", "fdinfo/0", "/proc/1/fdinfo/0"),
        ):
            with self.subTest(path):
                own = (("fdinfo", "dir"), ("fdinfo/0", "reg"), ("environ", "reg"), ("maps", "reg"), ("mem", "reg"))
                self.disk = [*DISK, *({"path": f"/proc/self/{name}", "kind": kind} for name, kind in own),
                             {"path": "/proc", "kind": "dir"}, {"path": "/proc/self/task", "kind": "dir"}]
                trace = self.convert(f'openat({base}, "{path}", 0 /* O_RDONLY */) = 3<{opened}>')
                self.assertEqual([record["op"] for record in trace], ["open"])
                self.assertEqual(self.unsaid(), [(ptrace.INTO_ANOTHER, True)])

    def test_links_of_another_process_that_a_layer_may_have_kept_from_being_followed(self) -> None:
        self.assertEqual(self.confined(f'openat({CWD}, "/proc/1/ns/mnt", 0 /* O_RDONLY */) = {EACCES}'), [])
        self.assertEqual(self.unsaid(), [(ptrace.INTO_ANOTHER, True)])

    def test_files_that_anyone_may_read(self) -> None:
        self.convert(
            f'openat({CWD}, "/proc/1/status", 0 /* O_RDONLY */) = 3</proc/1/status>',
            f'openat({CWD}, "/proc/10/environ", 0 /* O_RDONLY */) = 4</proc/10/environ>',
            f'openat({CWD}, "/proc/self/maps", 0 /* O_RDONLY */) = 5</proc/10/maps>',
            f'openat({CWD}, "/proc/1/environ", 0 /* O_RDONLY */) = {ENOENT}',
        )
        self.assertEqual(self.unsaid(), [])


class FromElsewhere(WrittenLogs):
    def test_a_file_that_was_received_is_adopted_nowhere_and_counted_where_it_is_cut(self) -> None:
        self.assert_hole(descriptors.FOREIGN, "ftruncate(7</w/f>, 0) = 0")
        self.assert_hole(descriptors.FOREIGN, "dup2(7</w/f>, 8) = 8</w/f>", "ftruncate(8</w/f>, 0) = 0")
        self.assert_hole(descriptors.FOREIGN, "pidfd_getfd(3<pid:10>, 4, 0) = 5</w/f>", "ftruncate(5</w/f>, 0) = 0")
        self.assert_hole(descriptors.FOREIGN, "ioctl(7</dev/x<char 4:1>>, 0x5401 /* TCGETS */, 0x7f) = 0")

    def test_what_landlock_never_refuses_is_adopted(self) -> None:
        trace = self.convert("ftruncate(7</memfd:x>(deleted), 0) = 0")
        self.assertEqual(told(trace, "op", "kind"), [("adopt", "reg"), ("ftruncate", None)])
        self.assertEqual(self.unsaid(), [])

    def test_a_number_that_stands_for_another_kind_of_thing_came_unseen(self) -> None:
        socket = "socket(0x1 /* AF_UNIX */, 0x1 /* SOCK_STREAM */, 0) = 7<socket:[7]>"
        self.assert_hole(descriptors.FOREIGN, socket, "ftruncate(7</w/f>, 0) = 0")

    def test_a_port_of_a_socket_that_was_received(self) -> None:
        address = '{sa_family=0x2 /* AF_INET */, sin_port=htons(80), sin_addr=inet_addr("127.0.0.1")}'
        hole = "a port of a socket that came from elsewhere"
        self.assert_hole(hole, f"connect(7<socket:[9]>, {address}, 16) = 0")
        self.assert_hole(hole, f"bind(7<socket:[9]>, {Families.TO_NONE}, 16) = 0")
        self.assertEqual(self.convert(f"connect(7<socket:[9]>, {Families.TO_NONE}, 16) = 0"), [])
        self.assertEqual(self.unsaid(), [])


class Families(WrittenLogs):
    IPV4 = "socket(0x2 /* AF_INET */, 0x1 /* SOCK_STREAM */, 0) = 3<socket:[7]>"
    IPV6 = "socket(0xa /* AF_INET6 */, 0x1 /* SOCK_STREAM */, 0) = 3<socket:[7]>"
    TO_IPV4 = '{sa_family=0x2 /* AF_INET */, sin_port=htons(80), sin_addr=inet_addr("127.0.0.1")}'
    TO_NONE = r'{sa_family=0 /* AF_UNSPEC */, sa_data="\x00\x50\x00\x00\x00\x00\x00\x00\x00\x00\x00\x00\x00\x00"}'

    def test_an_address_of_the_sockets_family_is_asked_about(self) -> None:
        trace = self.convert(self.IPV4, f"connect(3<socket:[7]>, {self.TO_IPV4}, 16) = 0")
        self.assertEqual(told(trace, "op", "port"), [("connect", 80)])

    def test_an_address_that_strace_could_not_read(self) -> None:
        """That of a process without PR_SET_DUMPABLE, if the recorder is not root."""
        datagrams = "socket(0x2 /* AF_INET */, 0x2 /* SOCK_DGRAM */, 0) = 3<socket:[7]>"
        for socket, call in (
            (self.IPV4, "bind(3<socket:[7]>, 0x7ffc552fecc0, 16) = 0"),
            (self.IPV4, "connect(3, 0x7ffc552fecc0, 16) = -1 ECONNREFUSED (Connection refused)"),
            ("socket(0x1 /* AF_UNIX */, 0x1 /* SOCK_STREAM */, 0) = 3", "bind(3, 0x7ffc552fecc0, 110) = 0"),
            (datagrams, "connect(7<socket:[9]>, 0x7ffc552fecc0, 16) = 0"),
        ):
            with self.subTest(call):
                self.assert_hole(descriptors.UNREAD_ADDRESS, socket, call)
        fault = "bind(3<socket:[7]>, 0x8, 16) = -1 EFAULT (Bad address)"
        self.assertEqual(self.convert(self.IPV4, fault), [])
        self.assertEqual([asks for _, asks in self.unsaid()], [False])
        self.convert(datagrams, "connect(3<socket:[7]>, 0x7ffc552fecc0, 16) = 0")
        scopes = [line.get("scope") for _, line in jsonl.numbered(self.out / "unsaid.jsonl")]
        self.assertEqual(scopes, [reach.ABSTRACT])

    def test_an_address_of_another_family_is_not(self) -> None:
        trace = self.convert(
            self.IPV6,
            f"connect(3<socket:[7]>, {self.TO_IPV4}, 16) = {EINVAL}",
            f"bind(3<socket:[7]>, {self.TO_IPV4}, 16) = {EINVAL}",
            'bind(3<socket:[7]>, {sa_family=0x1 /* AF_UNIX */, sun_path="s"}, 110) = '
            "-1 EAFNOSUPPORT (Address family not supported by protocol)",
        )
        self.assertEqual((trace, self.unsaid()), ([], [(descriptors.OTHER_FAMILY, False)] * 3))

    def test_a_connection_is_dissolved_whatever_the_policy(self) -> None:
        trace = self.convert(self.IPV4, f"connect(3<socket:[7]>, {self.TO_NONE}, 16) = 0")
        self.assertEqual((trace, self.unsaid()), ([], [(descriptors.OTHER_FAMILY, False)]))

    def test_binding_to_all_interfaces_without_a_family(self) -> None:
        trace = self.confined(self.IPV4, f"bind(3<socket:[7]>, {self.TO_NONE}, 16) = {EACCES}")
        self.assertEqual(told(trace, "op", "port", "kernel"), [("bind", 80, "EACCES")])
        one = self.TO_NONE.replace(r"\x50\x00", r"\x50\x7f")
        trace = self.convert(self.IPV4, f"bind(3<socket:[7]>, {one}, 16) = -1 EAFNOSUPPORT (Address family)")
        self.assertEqual((trace, self.unsaid()), ([], [(descriptors.OTHER_FAMILY, False)]))
