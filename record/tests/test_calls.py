"""What single calls become: by lines of strace written here, over a small listed disk.

The expected records follow from docs/RECORDERS.md, "Writing a recorder", and from what a running kernel
was seen to answer.
"""

from __future__ import annotations

from unittest import mock

from landaudit_record.common import finished, jsonl
from landaudit_record.common.trace_lines import FIRST_MADE_UP
from landaudit_record.recorder import recordings
from landaudit_record.recorder.calls import descriptors

from . import strace_lines
from .kept_logs import bare
from .strace_lines import CONFINED, CWD, StraceLines


class Calls(StraceLines):
    def test_an_open_of_a_path_that_strace_does_not_show_is_counted(self) -> None:
        self.assertEqual(self.convert('openat(-100 /* AT_FDCWD */, "far", 0 /* O_RDONLY */) = 3'), [])
        (line,) = (line for _, line in jsonl.numbered(self.out / "unsaid.jsonl"))
        self.assertEqual((line["class"], line["asks"]), ("a path of more than 4096 bytes", True))

    def test_no_open_makes_a_file_in_a_file_system_in_which_the_kernel_shows_what_it_has(self) -> None:
        """A shell that writes there opens with O_CREAT and O_TRUNC; Linux 6.18 asks write_file and truncate."""
        self.mounts = [["/", "8:1", "/", "ext4"], ["/proc", "0:5", "/", "proc"], ["/proc/w", "0:6", "/", "tmpfs"]]
        for path, made in (("/proc/sys/new", None), ("/proc/w/new", True)):
            opened = self.one(f'openat({CWD}, "{path}", 0x241 /* O_WRONLY|O_CREAT|O_TRUNC */, 0666) = 3<{path}>')
            self.assertEqual((opened.get("create"), opened["trunc"]), (made, True), path)

    def test_a_network_namespace_has_objects_of_its_own_in_proc(self) -> None:
        path = "/proc/sys/net/ipv4/ip_forward"
        listed = [{"path": over, "kind": "dir"} for over in ("/proc/sys", "/proc/sys/net", "/proc/sys/net/ipv4")]
        disk = [*strace_lines.DISK, *listed, {"path": path, "kind": "reg"}]
        self.enterContext(mock.patch.object(strace_lines, "DISK", disk))
        jsonl.write(self.out / recordings.BEFORE, listed)
        opened = f'openat({CWD}, "{path}", 1 /* O_WRONLY */) = 3<{path}>'
        for call, other in (
            ("unshare(0x40000000 /* CLONE_NEWNET */) = 0", True),
            ("setns(4<net:[4026531840]>, 0) = 0", True),
            ("unshare(0x8000000 /* CLONE_NEWIPC */) = 0", False),
            ("unshare(0x40000000 /* CLONE_NEWNET */) = -1 EPERM (Operation not permitted)", False),
        ):
            first, second = (record for record in self.convert(opened, call, opened) if record["op"] == "open")
            found = (first["path"], second["path"] != path, second.get("shown", path))
            self.assertEqual(found, (path, other, path), call)

    def test_a_file_without_a_name_asks_no_make_reg_and_no_truncate(self) -> None:
        opened = self.one(
            f'openat({CWD}, "d", 0x410202 /* O_RDWR|O_TRUNC|O_TMPFILE */, 0600) = 3</w/d/#7>(deleted)',
        )
        self.assertEqual(opened, {"op": "open", "path": "/w/d/#7", "fd": 3, "mode": "rw"})
        self.assertEqual(self.tree()["/w/d/#7"], "reg")

    def test_a_file_without_a_name_that_is_refused(self) -> None:
        _, refused, _ = self.convert(
            CONFINED,
            f'openat({CWD}, "d", 0x410002 /* O_RDWR|O_TMPFILE */, 0600) = -1 EACCES (Permission denied)',
        )
        self.assertEqual((refused["path"], refused.get("create")), ("/w/d/#tmpfile", None))
        self.assertEqual(self.tree()["/w/d/#tmpfile"], "reg")

    def test_a_file_without_a_name_where_no_directory_is(self) -> None:
        missing = self.one(f'openat({CWD}, "f", 0x410002 /* O_RDWR|O_TMPFILE */, 0600) = -1 ENOTDIR (Not a directory)')
        self.assertEqual((missing["path"], missing.get("create")), ("/w/f~new~", None))

    def test_a_directory_that_is_asked_for_and_is_none_is_not_judged(self) -> None:
        missing = self.one(f'openat({CWD}, "f", 0x10000 /* O_RDONLY|O_DIRECTORY */) = -1 ENOTDIR (Not a directory)')
        self.assertEqual(missing["path"], "/w/f~new~")

    def test_creating_a_directory_by_open_is_moot(self) -> None:
        moot = self.one(f'openat({CWD}, "to-d", 0x40 /* O_RDONLY|O_CREAT */, 0600) = -1 EISDIR (Is a directory)')
        self.assertEqual((moot["path"], moot["create"]), ("/w/d", True))

    def test_a_loop_of_links_makes_nothing(self) -> None:
        looped = self.one(f'openat({CWD}, "loop", 0x40 /* O_RDONLY|O_CREAT */, 0600) = -1 ELOOP (Too many levels)')
        self.assertEqual((looped["path"], looped.get("create")), ("/w/loop~new~", None))

    def test_a_refused_creation_that_made_the_file_is_seen_by_a_later_call(self) -> None:
        _, refused, _, later, *_ = self.convert(
            CONFINED,
            f'openat({CWD}, "n", 0x42 /* O_RDWR|O_CREAT */, 0600) = -1 EACCES (Permission denied)',
            f'openat({CWD}, "n", 0 /* O_RDONLY */) = -1 EACCES (Permission denied)',
        )
        self.assertEqual((refused["path"], refused["create"]), ("/w/n~new~", True))
        self.assertEqual((later["path"], self.tree()["/w/n"]), ("/w/n", "reg"))

    def test_what_file_modes_refuse_is_no_question_to_landlock(self) -> None:
        calls = (
            f'openat({CWD}, "f", 0 /* O_RDONLY */) = -1 EACCES (Permission denied)',
            'mkdir("d/x", 0777) = -1 EACCES (Permission denied)',
        )
        self.assertEqual(self.convert(*calls), [])
        self.assertEqual(self.unsaid(), ["EACCES by file modes, whatever a policy says"] * 2)
        self.assertEqual([record["op"] for record in self.convert(CONFINED, *calls)],
                         ["restrict", "open", "close", "mkdir"])

    def test_an_exchange_that_is_refused_says_that_both_are_there(self) -> None:
        exchange = f'renameat2({CWD}, "f", {CWD}, "d/in", 0x2 /* RENAME_EXCHANGE */)'
        _, said = self.convert(CONFINED, f"{exchange} = -1 EXDEV (Invalid cross-device link)")
        self.assertEqual(bare(said), {"op": "rename", "from": "/w/f", "to": "/w/d/in", "exchange": True})

    def test_a_move_between_file_systems_is_no_question_to_landlock(self) -> None:
        self.assertEqual(self.convert('rename("f", "d/g") = -1 EXDEV (Invalid cross-device link)'), [])
        self.assertEqual(self.unsaid(), ["EXDEV before Landlock is asked"])

    def test_a_path_that_ends_in_a_slash_and_leads_to_a_file(self) -> None:
        """open(2), unlink(2) and truncate(2) fail before Landlock is asked; of rmdir(2), Landlock is asked first."""
        error = "-1 ENOTDIR (Not a directory)"
        calls = (f'openat({CWD}, "f/", 0 /* O_RDONLY */)', 'unlink("f/")', 'truncate("f/", 0)')
        self.assertEqual(self.convert(*(f"{call} = {error}" for call in calls)), [])
        self.assertEqual(self.unsaid(), ["ENOTDIR of a path that ends in a slash, before Landlock is asked"] * 3)
        (removed,) = self.convert(f'rmdir("f/") = {error}')
        self.assertEqual(removed["op"], "rmdir")

    def test_a_link_before_a_slash_is_not_followed_where_a_name_is_made_or_removed(self) -> None:
        """The kernel looks up the name itself (filename_create, do_rmdir): what the link leads to is as it was."""
        made = f'openat({CWD}, "far", 0x41 /* O_WRONLY|O_CREAT */, 0644) = 3</w/d/none>'
        exists = "-1 EEXIST (File exists)"
        address = '{sa_family=1 /* AF_UNIX */, sun_path="far/"}'
        for call in (
            f'mkdir("far/", 0777) = {exists}',
            f'mknod("far/", 0x81a4 /* S_IFREG|0644 */) = {exists}',
            f"bind(9<UNIX:[7]>, {address}, 7) = -1 EADDRINUSE (Address already in use)",
        ):
            trace = self.convert('symlink("d/none", "far") = 0', call, made)
            self.assertEqual((trace[-1]["path"], trace[-1].get("create")), ("/w/d/none~new~", True), call)
        (removed,) = self.convert('rmdir("to-d/") = -1 ENOTDIR (Not a directory)')
        self.assertEqual((removed["op"], removed["shown"]), ("rmdir", "/w/to-d"))

    def test_removals_that_fail_since_one_object_is_a_directory_ask_as_those_of_the_other_kind(self) -> None:
        for call, op, kind in (
            ('unlink("d") = -1 EISDIR (Is a directory)', "unlink", "reg"),
            (f'unlinkat({CWD}, "d", 0) = -1 EISDIR (Is a directory)', "unlink", "reg"),
            ('rmdir("f") = -1 ENOTDIR (Not a directory)', "rmdir", "dir"),
            (f'unlinkat({CWD}, "f", 0x200 /* AT_REMOVEDIR */) = -1 ENOTDIR (Not a directory)', "rmdir", "dir"),
        ):
            (asked,) = self.convert(call)
            self.assertEqual((asked["op"], asked["path"]), (op, f"{asked['shown']}~2~"), call)
            self.assertEqual(self.tree()[asked["path"]], kind, call)
        _, refused = self.convert(CONFINED, 'unlink("d") = -1 EACCES (Permission denied)')
        self.assertEqual((refused["path"], refused["kernel"]), ("/w/d~2~", "EACCES"))
        self.assertEqual(self.convert('unlink("d/") = -1 EISDIR (Is a directory)'), [])

    def test_a_rename_to_an_object_of_another_kind_asks_for_the_removal_and_the_move(self) -> None:
        for call, removed, move in (
            ('rename("f", "d") = -1 EISDIR (Is a directory)', ("rmdir", "/w/d"), ("/w/f", "/w/d~new~")),
            ('rename("e", "d/in") = -1 ENOTDIR (Not a directory)', ("unlink", "/w/d/in"), ("/w/e", "/w/d/in~new~")),
        ):
            first, second = self.convert(call)
            self.assertEqual((first["op"], first["path"]), removed)
            self.assertEqual((second["op"], second["from"], second["to"]), ("rename", *move))
        above = 'rename("d/in", "d") = -1 ENOTEMPTY (Directory not empty)'
        self.assertEqual([record["op"] for record in self.convert(above)], ["rename"])

    def test_a_link_of_a_directory_asks_to_make_one(self) -> None:
        error = "-1 EPERM (Operation not permitted)"
        self.assertEqual(self.one(f'link("d", "e2") = {error}'), {"op": "mkdir", "path": "/w/e2~new~"})
        self.assertEqual(self.convert(f'link("d", "e/d") = {error}'), [])
        self.assertEqual(self.unsaid(), ["a link of a directory to another directory"])

    def test_a_socket_is_opened_like_a_pipe_with_the_same_rules(self) -> None:
        disk = [*strace_lines.DISK, {"path": "/w/s", "kind": "sock"}]
        self.enterContext(mock.patch.object(strace_lines, "DISK", disk))
        opened = f'openat({CWD}, "s", 0x1 /* O_WRONLY */) = -1 ENXIO (No such device or address)'
        self.assertEqual([one["path"] for one in self.convert(opened, opened) if one["op"] == "open"], ["/w/s~2~"] * 2)
        self.assertEqual(self.listed()["/w/s~2~"], {"kind": "fifo", "made": True, "same": "/w/s", "shown": "/w/s"})
        bound = 'bind(9<UNIX:[7]>, {sa_family=1 /* AF_UNIX */, sun_path="new"}, 7) = 0'
        _, first, _, second, _ = self.convert(bound, *[opened.replace('"s"', '"new"')] * 2)
        self.assertEqual((first["path"], second["path"]), ("/w/new", "/w/new"))
        self.assertEqual(self.listed()["/w/new"], {"kind": "fifo", "made": True})

    def test_a_socket_that_is_bound_on_a_read_only_file_system_and_an_address_that_is_too_long(self) -> None:
        unix = 'bind(9<UNIX:[7]>, {sa_family=1 /* AF_UNIX */, sun_path="s"}, 4) = -1 EROFS (Read-only file system)'
        tcp = "socket(0x2 /* AF_INET */, 0x1 /* SOCK_STREAM */, 0) = 3<TCP:[5]>"
        port = '{sa_family=0x2 /* AF_INET */, sin_port=htons(80), sin_addr=inet_addr("127.0.0.1")}'
        error = "= -1 EINVAL (Invalid argument)"
        self.assertEqual(self.convert(unix, tcp, f"connect(3<TCP:[5]>, {port}, 129) {error}"), [])
        self.assertEqual(self.unsaid(), ["EROFS before Landlock is asked", "EINVAL before Landlock is asked"])
        asked = self.convert(tcp, f"connect(3<TCP:[5]>, {port}, 128) {error}")
        self.assertEqual([bare(record) for record in asked], [{"op": "connect", "port": 80}])

    def test_a_made_up_number_is_none_that_the_process_has(self) -> None:
        """A process may have up to 1,048,576 descriptors (/proc/sys/fs/nr_open)."""
        trace = self.convert(
            f'openat({CWD}, "f", 0x1 /* O_WRONLY */) = 3</w/f>',
            *(f"dup2(3</w/f>, {number}) = {number}</w/f>" for number in range(FIRST_MADE_UP, FIRST_MADE_UP + 3)),
            f'openat({CWD}, "none", 0 /* O_RDONLY */) = -1 ENOENT (No such file or directory)',
            f"ftruncate({FIRST_MADE_UP}</w/f>, 0) = 0",
        )
        missing = next(record for record in trace if record.get("path") == "/w/none~new~")
        self.assertGreaterEqual(missing["fd"], FIRST_MADE_UP + 3)
        self.assertNotIn(FIRST_MADE_UP, [record.get("fd") for record in trace if record["op"] == "close"])

    def test_what_a_file_forbids_comes_before_landlock(self) -> None:
        for error in ("ETXTBSY (Text file busy)", "EPERM (Operation not permitted)", "EROFS (Read-only file system)"):
            with self.subTest(error):
                calls = (f'openat({CWD}, "f", 0x1 /* O_WRONLY */) = -1 {error}', f'truncate("f", 0) = -1 {error}')
                self.assertEqual(self.convert(*calls), [])
                self.assertEqual(self.unsaid(), [f"{error.split()[0]} before Landlock is asked"] * 2)

    def test_a_program_that_runs_is_opened_for_reading_before_it_is_not_cut(self) -> None:
        call = f'openat({CWD}, "p", 0x200 /* O_RDONLY|O_TRUNC */) = -1 ETXTBSY (Text file busy)'
        said = self.convert(call)[0]
        self.assertEqual((said["op"], said["mode"], said["path"], said.get("trunc")), ("open", "r", "/w/p", None))

    def test_a_file_that_an_immutable_directory_does_not_get(self) -> None:
        """chattr(1), +i: the kernel asks Landlock for make_reg before it finds that the directory can't be changed."""
        call = f'openat({CWD}, "d/n", 0x41 /* O_WRONLY|O_CREAT */, 0600) = -1 EPERM (Operation not permitted)'
        said = self.convert(call)[0]
        self.assertEqual((said["op"], said["create"], said["shown"]), ("open", True, "/w/d/n"))

    def test_nothing_is_asked_where_nothing_can_be_written(self) -> None:
        error = "-1 EROFS (Read-only file system)"
        calls = ("mkdir", "rmdir", "unlink", "symlink", "rename", "link", "mknod", "creat")
        more = {"symlink": ', "n"', "rename": ', "n"', "link": ', "n"', "mknod": ", 0100600, 0", "mkdir": ", 0700"}
        self.assertEqual(self.convert(*(f'{name}("f"{more.get(name, "")}) = {error}' for name in calls)), [])

    def test_access_mode_3_asks_to_make_and_to_truncate(self) -> None:
        made, cut = self.convert(
            f'openat({CWD}, "d/n", 0x43 /* O_ACCMODE|O_CREAT */, 0600) = 3</w/d/n>',
            f'openat({CWD}, "f", 0x203 /* O_ACCMODE|O_TRUNC */) = 4</w/f>',
            f'openat({CWD}, "f", 0x3 /* O_ACCMODE */) = 5</w/f>',
        )
        self.assertEqual(bare(made), {"op": "mknod", "path": "/w/d/n~new~", "kind": "reg"})
        self.assertEqual(bare(cut), {"op": "truncate", "path": "/w/f"})

    def test_a_device_opened_with_access_mode_3_remembers_what_it_may(self) -> None:
        self.convert(f'openat({CWD}, "/dev/x", 0x3 /* O_ACCMODE */) = 3</dev/x<char 7:1>>',
                     "ioctl(3</dev/x<char 7:1>>, 0x5401 /* TCGETS */, 0x1) = -1 ENOTTY (Inappropriate ioctl)")
        self.assertEqual(self.unsaid(), [descriptors.FOREIGN])

    def test_a_path_that_was_one_kind_and_then_another(self) -> None:
        trace = self.convert(
            f'unlinkat({CWD}, "f", 0) = 0',
            f'mkdirat({CWD}, "f", 0700) = 0',
            f'openat({CWD}, "f/x", 0x41 /* O_WRONLY|O_CREAT */, 0600) = 3</w/f/x>',
        )
        self.assertEqual([record["path"] for record in trace], ["/w/f", "/w/f~new~", "/w/f~2~/x~new~"])

    def test_running_what_may_not_be_run_is_no_question_to_landlock(self) -> None:
        self.assertEqual(self.convert('execve("/w/text", ["text"], 0x1) = -1 EACCES (Permission denied)'), [])
        self.assertEqual(self.unsaid(), ["EACCES of what is no file that may be run"])

    def test_calls_of_landlocks_with_flags_are_left_out(self) -> None:
        rule = "{allowed_access=0x4 /* LANDLOCK_ACCESS_FS_READ_FILE */, parent_fd=3</w>}"
        beneath = "0x1 /* LANDLOCK_RULE_PATH_BENEATH */"
        trace = self.convert(
            "landlock_create_ruleset(NULL, 0, 0x1 /* LANDLOCK_CREATE_RULESET_VERSION */) = 7",
            f"landlock_add_rule(4, {beneath}, {rule}, 0xffffffff) = -1 EINVAL (Invalid argument)",
            "landlock_restrict_self(4, 0x80000000) = -1 EINVAL (Invalid argument)",
        )
        self.assertEqual(trace, [])
        self.assertEqual(self.unsaid(), ["a call of Landlock's with flags"] * 2)

    def test_flags_that_say_what_is_logged_change_no_layer(self) -> None:
        (restrict,) = self.convert("landlock_restrict_self(4, 0x2 /* LANDLOCK_RESTRICT_SELF_LOG_NEW_EXEC_ON */) = 0")
        self.assertEqual((restrict["op"], restrict["rs"], self.unsaid()), ("restrict", 4, []))

    def test_what_is_logged_without_a_ruleset_is_no_layer(self) -> None:
        self.assertEqual(self.convert("landlock_restrict_self(-1, 0x4) = 0"), [])
        self.assertEqual(self.unsaid(), ["a call of Landlock's with flags"])

    def test_scopes_of_a_ruleset_are_named(self) -> None:
        attributes = "{handled_access_fs=0x4, handled_access_net=0, scoped=0x6 /* LANDLOCK_SCOPE_SIGNAL|0x4 */}"
        (made,) = self.convert(f"landlock_create_ruleset({attributes}, 24, 0) = 3<anon_inode:[landlock-ruleset]>")
        self.assertEqual((made["fs"], made["scoped"]), (["read_file"], ["signal", "bit_2"]))
        self.assertEqual(self.unsaid(), ["scopes of a ruleset"])
        call = f"landlock_create_ruleset({attributes}, 24, 0) = 3<anon_inode:[landlock-ruleset]>"
        self.convert(call.replace("0x6", "0x2"))
        self.assertEqual(self.unsaid(), [])
        self.convert(call.replace("0x6", "0x2").replace("0x4,", "0,"))
        self.assertEqual(self.unsaid(), ["scopes of a ruleset"])

    def test_a_ruleset_of_scopes_alone_restricts_under_each_of_its_numbers(self) -> None:
        """Linux 6.18 restricts by it, also by a duplicate, and gives a next ruleset the number that is free again."""
        attributes = "{handled_access_fs=0, handled_access_net=0, scoped=0x2 /* LANDLOCK_SCOPE_SIGNAL */}"
        for attached, copy in (("3<anon_inode:[landlock-ruleset]>", "7<anon_inode:[landlock-ruleset]>"), ("3", "7")):
            with self.subTest(attached):
                trace = self.convert(
                    "landlock_create_ruleset({handled_access_fs=0x4}, 8, 0) = 3<anon_inode:[landlock-ruleset]>",
                    "dup2(3<anon_inode:[landlock-ruleset]>, 5) = 5<anon_inode:[landlock-ruleset]>",
                    "close(3) = 0",
                    f"landlock_create_ruleset({attributes}, 24, 0) = {attached}",
                    f"dup2({attached}, 7) = {copy}",
                    f"landlock_add_rule({attached}, 0x1, {{allowed_access=0x4, parent_fd=4</w>}}, 0) = -1 EINVAL (X)",
                    f"landlock_restrict_self({attached}, 0) = 0",
                    f"close({attached}) = 0",
                    f"landlock_restrict_self({copy}, 0) = 0",
                    f"close({copy}) = 0",
                    "landlock_restrict_self(5, 0) = 0",
                )
                self.assertEqual([(one["op"], one["rs"]) for one in trace], [("create", 3), ("restrict", 3)])

    def test_a_layer_that_the_trace_does_not_have_is_one(self) -> None:
        for beside in ("scoped=0x2", "..."):
            made = f"landlock_create_ruleset({{handled_access_fs=0, {beside}}}, 24, 0) = 3"
            self.assertEqual(self.convert(made, "landlock_restrict_self(3, 0) = 0"), [])
            self.assertTrue(finished.opened(str(self.out)).has_layers())

    def test_a_number_that_is_another_rulesets_in_the_trace(self) -> None:
        """The descriptor is no ruleset (landlock_restrict_self(2), EBADFD)."""
        *_, restrict = self.convert(
            "landlock_create_ruleset({handled_access_fs=0x4}, 8, 0) = 3<anon_inode:[landlock-ruleset]>",
            "dup2(3<anon_inode:[landlock-ruleset]>, 5) = 5<anon_inode:[landlock-ruleset]>",
            "close(3) = 0",
            f'openat({CWD}, "f", 0) = 3</w/f>',
            "landlock_restrict_self(3</w/f>, 0) = -1 EBADFD (File descriptor in bad state)",
        )
        self.assertGreater(restrict["rs"], 1_000_000)

    def test_a_ruleset_that_no_number_names(self) -> None:
        restrict = self.one("landlock_restrict_self(-1, 0) = -1 EBADF (Bad file descriptor)")
        self.assertEqual(restrict["op"], "restrict")
        self.assertGreater(restrict["rs"], 1_000_000)

    def test_structures_of_no_known_size_are_left_out(self) -> None:
        self.assertEqual(self.convert("landlock_create_ruleset(0x7ffe, 0, 0) = -1 EINVAL (Invalid argument)"), [])
        self.assertEqual(self.unsaid(), ["a ruleset whose structure has no size that is known"])

    def test_what_openat2_may_not_resolve_is_left_out(self) -> None:
        how = "{flags=0x2 /* O_RDWR */, resolve=0x8 /* RESOLVE_BENEATH */}"
        trace = self.convert(f'openat2({CWD}, "/etc/passwd", {how}, 24) = -1 EXDEV (Invalid cross-device link)')
        self.assertEqual(trace, [])
        self.assertEqual(self.unsaid(), ["a path that openat2 may not resolve so"])

    def test_a_lease_ends_an_open_that_does_not_wait(self) -> None:
        """Another process has one on the file (fcntl(2), F_SETLEASE), which the kernel sees after it asked Landlock."""
        call = 'openat2(%s, "f", {flags=0x800 /* O_RDONLY|O_NONBLOCK */, resolve=%d}, 24) = -1 EAGAIN (X)'
        for resolve, asked in ((0, True), (0x2, True), (0x8, True), (0x20, False)):
            self.assertEqual([record["op"] for record in self.convert(call % (CWD, resolve))][:1], ["open"] * asked)
        self.assertEqual(self.convert(call.replace("0x800", "0") % (CWD, 0x8)), [])

    def test_the_root_of_openat2_is_its_directory(self) -> None:
        how = "{flags=0x1 /* O_WRONLY */, resolve=0x10 /* RESOLVE_IN_ROOT */}"
        refused = "-1 EACCES (Permission denied)"
        for base, path, where in (
            ("5</w/d>", "/in", "/w/d/in"),
            ("5</w/d>", "../../in", "/w/d/in"),
            (CWD, "/f", "/w/f"),
            (CWD, "/d/../to-d/in", "/w/d/in"),
        ):
            with self.subTest(path):
                _, opened, _, made = self.convert(
                    CONFINED, f'openat2({base}, "{path}", {how}, 24) = {refused}', 'mkdir("/w/n", 0777) = 0'
                )
                self.assertEqual((opened["path"], made["shown"]), (where, "/w/n"))

    def test_names_and_paths_that_a_trace_cannot_hold(self) -> None:
        long = "/".join(["name"] * 900)
        trace = self.convert(
            rf'openat({CWD}, "\377", 0 /* O_RDONLY */) = -1 ENOENT (No such file or directory)',
            f'mkdirat({CWD}, "{long}", 0700) = -1 ENOENT (No such file or directory)',
        )
        self.assertEqual(trace, [])
        self.assertEqual(self.unsaid(), ["a name that is not UTF-8", "a path of more than 4096 bytes"])

    def test_what_only_looks_at_a_file_is_adopted_where_it_is_needed(self) -> None:
        trace = self.convert(
            f'openat({CWD}, "f", 0x200000 /* O_RDONLY|O_PATH */) = 3</w/f>',
            "close(3</w/f>) = 0",
            "pipe2([3<pipe:[7]>, 4<pipe:[7]>], 0) = 0",
            "dup2(3<pipe:[7]>, 9) = 9<pipe:[7]>",
        )
        self.assertEqual(trace, [])

    def test_a_number_that_is_used_again_ends_what_had_it(self) -> None:
        trace = self.convert("fork() = 11", "fork() = 11")
        self.assertEqual(
            [(record["op"], record["pid"]) for record in trace], [("fork", 10), ("exit", 11), ("fork", 10)]
        )

    def test_a_process_that_a_signal_ends_exits(self) -> None:
        trace = self.convert("fork() = 11", "--- SIGTERM {si_signo=SIGTERM} ---", "+++ killed by SIGTERM +++")
        self.assertEqual([(record["op"], record["pid"]) for record in trace], [("fork", 10), ("exit", 10)])

    def test_a_file_in_memory_has_no_path(self) -> None:
        opened = f'openat({CWD}, "/proc/self/fd/3", 0x2 /* O_RDWR */) = 4</memfd:x>(deleted)'
        trace = self.convert(
            'memfd_create("x", 0) = 3</memfd:x>(deleted)',
            "fcntl(3</memfd:x>(deleted), 0 /* F_DUPFD */, 3) = 5</memfd:x>(deleted)",
            opened,
            "ftruncate(4</memfd:x>(deleted), 1) = 0",
            'truncate("/proc/self/fd/3", 0) = 0',
        )
        self.assertEqual([bare(record) for record in trace],
                         [{"op": "adopt", "fd": 4, "kind": "reg"}, {"op": "ftruncate", "fd": 4}])
        self.assertEqual(self.unsaid(), ["a file without a path"])

    def test_a_path_that_ends_in_no_name(self) -> None:
        trace = self.convert(
            'rmdir("d/..") = -1 ENOTEMPTY (Directory not empty)',
            'rmdir("d/../") = -1 ENOTEMPTY (Directory not empty)',
            'unlink("d/..") = -1 EISDIR (Is a directory)',
            'mkdir("/", 0777) = -1 EEXIST (File exists)',
            'rename("d/.", "e") = -1 EBUSY (Device or resource busy)',
            'rename("d", "e/..") = -1 EBUSY (Device or resource busy)',
            'link("f", "d/..") = -1 EEXIST (File exists)',
        )
        self.assertEqual(trace, [])
        self.assertEqual(set(self.unsaid()), {"a path that ends in no name, before Landlock is asked"})

    def test_umount_and_its_like_are_mounts(self) -> None:
        trace = self.convert(
            'umount2("/mnt", 0) = -1 EPERM (Operation not permitted)',
            'pivot_root("/a", "/b") = -1 EPERM (Operation not permitted)',
            'move_mount(3, "", 4, "", 0x4) = -1 EPERM (Operation not permitted)',
        )
        self.assertEqual([record["op"] for record in trace], ["mount"] * 3)
