"""Which errors come before Landlock is asked, and which after: each as Linux 6.18 answered it under a layer."""

from __future__ import annotations

import tempfile
import unittest
from pathlib import Path

from landaudit_record.common import trees
from landaudit_record.common.jsonl import numbered
from landaudit_record.recorder.calls import descriptors, inexpressible, landlock, opening, ptrace
from landaudit_record.recorder import disk, mounted
from landaudit_record.recorder.mounted import MountPlaces
from landaudit_record.recorder.names import MADE_OR_THERE, OF_KIND, UNKNOWN_WAY, Names
from landaudit_record.recorder.writing import ListedTree

from .written_logs import CWD, DISK, WrittenLogs, told

EINVAL = "-1 EINVAL (Invalid argument)"
EXDEV = "-1 EXDEV (Invalid cross-device link)"
ENXIO = "-1 ENXIO (No such device or address)"
RULESET = "<anon_inode:[landlock-ruleset]>"
MADE = f"landlock_create_ruleset({{handled_access_fs=0x4}}, 8, 0) = 3{RULESET}"
#: A disk is mounted at /, and its directory /w/d a second time at /b; another disk is at /m.
TWICE = [["/", "8:1", "/", "ext4"], ["/b", "8:1", "/w/d", "ext4"], ["/m", "8:2", "/", "ext4"]]


class Invalid(WrittenLogs):
    """EINVAL that a file system, a device or a socket says, or the kernel of the arguments."""

    def test_what_comes_after_landlock_was_asked(self) -> None:
        calls = {
            f'openat({CWD}, "f", 0x4000 /* O_RDONLY|O_DIRECT */) = {EINVAL}': "open",
            f'openat2({CWD}, "f", {{flags=0x4000 /* O_RDONLY|O_DIRECT */, resolve=0}}, 24) = {EINVAL}': "open",
            f'renameat2({CWD}, "f", {CWD}, "g", 0x2 /* RENAME_EXCHANGE */) = {EINVAL}': "rename",
            f'mkdir("d/a", 0755) = {EINVAL}': "mkdir",
            f'execve("/w/p", ["p"], 0x1 /* 2 vars */) = {EINVAL}': "exec",
            f'bind(3<socket:[7]>, {{sa_family=0x1 /* AF_UNIX */, sun_path="d/s"}}, 110) = {EINVAL}': "mknod",
        }
        for call, op in calls.items():
            with self.subTest(call):
                self.assertIn((op, "EINVAL"), told(self.convert(call), "op", "kernel"))

    def test_what_comes_before(self) -> None:
        for call in (
            f'openat({CWD}, "d", 0x410002 /* O_RDWR|O_TMPFILE */ ^ 0, 0600)',
            f'openat({CWD}, "d", 0x10040 /* O_RDONLY|O_CREAT|O_DIRECTORY */, 0600)',
            f'renameat2({CWD}, "f", {CWD}, "g", 0x3 /* RENAME_NOREPLACE|RENAME_EXCHANGE */)',
            f'linkat({CWD}, "f", {CWD}, "h", 0x1)',
            f'unlinkat({CWD}, "f", 0x1)',
            'mknod("x", 0160644)',
            "ftruncate(0, -1)",
            'truncate("f", -1)',
            'truncate("f", 18446744073709551615)',
            f'openat2({CWD}, "f", {{flags=0, resolve=0x100000}}, 24)',
            f'openat2({CWD}, "f", {{flags=0, resolve=0x18 /* RESOLVE_BENEATH|RESOLVE_IN_ROOT */}}, 24)',
            f'openat2({CWD}, "f", {{flags=0, mode=0600, resolve=0}}, 24)',
            f'openat2({CWD}, "f", {{flags=0x80000000, resolve=0}}, 24)',
            f'openat2({CWD}, "f", 0x7ffc552fecc0, 8)',
        ):
            with self.subTest(call):
                self.assertEqual(self.convert(f"{call.replace(' ^ 0', '')} = {EINVAL}"), [])
                self.assertEqual(self.unsaid(), [("EINVAL before Landlock is asked", False)])

    def test_what_can_not_be_made(self) -> None:
        """In a directory that is removed, and by a path that ends in a slash."""
        for call, error in (
            ('mkdir("x", 0755)', "ENOENT"),
            ('symlink("f", "d/x/")', "ENOENT"),
            ('mknod("d/x/", 0100644)', "ENOENT"),
            (f'openat({CWD}, "x", 0x41 /* O_WRONLY|O_CREAT */, 0644)', "ENOENT"),
            (f'openat({CWD}, "d/x/", 0x41 /* O_WRONLY|O_CREAT */, 0644)', "EISDIR"),
        ):
            with self.subTest(call):
                self.assertEqual(self.convert(f"{call} = -1 {error} (X)"), [])
                self.assertEqual([asks for _, asks in self.unsaid()], [False])

    def test_an_address_of_another_kind_of_socket(self) -> None:
        call = f'bind(3<socket:[7]>, {{sa_family=0x1 /* AF_UNIX */, sun_path="d/s"}}, 16) = {EINVAL}'
        trace = self.convert("socket(0xa /* AF_INET6 */, 0x1 /* SOCK_STREAM */, 0) = 3<socket:[7]>", call)
        self.assertEqual((trace, self.unsaid()), ([], [(descriptors.OTHER_FAMILY, False)]))

    def test_a_structure_that_is_too_long(self) -> None:
        self.assertEqual(self.convert(f'openat2({CWD}, "f", {{flags=0}}, 32) = -1 E2BIG (Argument list too long)'), [])
        self.assertEqual(self.unsaid(), [("E2BIG before Landlock is asked", False)])

    def test_only_its_owner_reads_a_file_without_changing_its_times(self) -> None:
        call = f'openat({CWD}, "f", 0x40000 /* O_RDONLY|O_NOATIME */) = -1 EPERM (Operation not permitted)'
        self.assertEqual((self.convert(call), self.unsaid()), ([], [("EPERM before Landlock is asked", False)]))


class Gone(WrittenLogs):
    disk = [*DISK, {"path": "/s", "kind": "dir"}]

    def test_an_object_that_nobody_serves_was_there(self) -> None:
        """A pipe without a reader that is removed before the recorder looks at it; a link may have led to it."""
        opens, removed = f'openat({CWD}, "/s/pipe", %s) = {ENXIO}', 'unlink("/s/pipe") = 0'
        trace = self.convert(opens % "0x20801 /* O_WRONLY|O_NONBLOCK|O_NOFOLLOW */", removed)
        self.assertEqual(told(trace, "op", "kernel")[0], ("open", "ENXIO"))
        self.convert(opens % "0x801 /* O_WRONLY|O_NONBLOCK */", removed)
        self.assertEqual(self.unsaid(), [(UNKNOWN_WAY, True)])


    def test_an_object_that_is_removed_and_open(self) -> None:
        """Of one that is not known, only O_DIRECTORY says that it is a directory."""
        for flags, unknown in (("0x10000 /* O_RDONLY|O_DIRECTORY */", None), ("0 /* O_RDONLY */", OF_KIND)):
            opened, *_ = self.convert(f'openat({CWD}, "/proc/self/fd/5", {flags}) = 3</s/x>(deleted)')
            kinds = {line["path"]: line["kind"] for _, line in numbered(self.out / "tree.jsonl")}
            self.assertEqual((opened.get("unknown"), kinds[opened["path"]] == "dir"), (unknown, unknown is None))


class Mounts(WrittenLogs):
    mounts = TWICE
    disk = [*DISK, {"path": "/b", "kind": "dir"}, {"path": "/b/in", "kind": "reg"}, {"path": "/w/d/in", "kind": "reg"},
            {"path": "/m", "kind": "dir"}, {"path": "/proc", "kind": "dir"}, {"path": "/proc/self/fd", "kind": "dir"}]

    def test_a_move_within_a_mount_is_asked_about_before_the_file_system_can_say_that_it_can_not(self) -> None:
        moves = f'rename("f", "d/f") = {EXDEV}', f'rename("d", "e") = {EXDEV}'
        self.assertEqual(told(self.convert(*moves), "op", "kernel"), [("rename", "EXDEV")] * 2)

    def test_a_move_between_mounts_is_not(self) -> None:
        """Also not in a process with a layer."""
        for move in (f'rename("f", "/m/f") = {EXDEV}', f'rename("d/in", "/b/x") = {EXDEV}'):
            self.assertEqual((self.convert(move), self.confined(move)), ([], []))

    def test_an_object_that_a_second_mount_shows_has_both_names(self) -> None:
        trace = self.convert(*(f'openat({CWD}, "{path}", 0 /* O_RDONLY */) = 3<{path}>' for path in ("/b/in", "/w/d/in")))
        self.assertEqual([path for (path,) in told(trace, "path") if path], ["/b/in", "/w/d/in"])
        tree = (self.out / "tree.jsonl").read_text()
        for line in ('"path":"/w/d/in","kind":"reg","same":"/b/in"', '"path":"/w/d","kind":"dir","same":"/b"'):
            self.assertIn(f"{{{line}}}", tree)


    def test_a_descriptor_leads_to_the_mount_by_which_it_was_opened(self) -> None:
        trace = self.convert(
            f'openat({CWD}, "/b", 0x200000 /* O_RDONLY|O_PATH */) = 3</b>',
            f'openat({CWD}, "/w/d/in", 0 /* O_RDONLY */) = 4</w/d/in>',
            'mkdir("/proc/self/fd/3/new", 0755) = 0',
            'truncate("/proc/self/fd/3/in", 0) = 0',
        )
        self.assertEqual([path for (path,) in told(trace, "path") if path][-2:], ["/b/new~new~", "/b/in"])


class SplitLinks(WrittenLogs):
    """Two names of one inode's number, where a rule on the one is not on the other: so Linux 6.18 answered."""

    disk = [*DISK, {"path": "/m", "kind": "dir"},
            *({"path": f"/m/{name}", "kind": "reg", "inode": "0:9:7"} for name in ("a", "b"))]

    def same(self, kind: str) -> str | None:
        """The name of what the second name is another name of, on a file system of a type."""
        self.mounts = [["/", "8:1", "/", "ext4"], ["/m", "0:9", "/", kind]]
        self.convert(*(f'openat({CWD}, "{path}", 0 /* O_RDONLY */) = 3<{path}>' for path in ("/m/a", "/m/b")))
        return next(line.get("same") for _, line in numbered(self.out / "tree.jsonl") if line["path"] == "/m/b")

    def test_names_of_one_object(self) -> None:
        """On ext4, and on an overlayfs that mountinfo shows with an index (Linux 6.18)."""
        shown = self.out.with_name("mountinfo")
        line = "49 27 0:9 / /m rw,relatime - overlay none rw,lowerdir=l,upperdir=u,workdir=w{},uuid=on\n"
        shown.write_text(line.format(",index=on") + line.format(""))
        with_index, without = mounted.mounts(shown)
        self.assertEqual([self.same("ext4"), self.same(with_index.kind), self.same(without.kind)], ["/m/a", "/m/a", None])

    def test_an_index_by_default(self) -> None:
        """mountinfo shows the option where it differs from the default of the module (Linux 6.18)."""
        shown, default = (self.out.with_name(name) for name in ("mountinfo", "index"))
        line = "49 27 0:9 / /m rw,relatime - overlay none rw,lowerdir=l,upperdir=u,workdir=w{}\n"
        shown.write_text(line.format(",index=on") + line.format("") + line.format(",index=off"))
        found = {}
        for text in ("Y\n", "N\n", None):
            default.unlink(missing_ok=True) if text is None else default.write_text(text)
            found[text] = [self.same(mount.kind) for mount in mounted.mounts(shown, default)]
        self.assertEqual(found["Y\n"], ["/m/a", "/m/a", None])
        self.assertEqual([found["N\n"], found[None]], [["/m/a", None, None]] * 2)

    def test_names_of_objects_apart(self) -> None:
        for kind in ("overlay", "fuse", "fuse.bindfs"):
            self.assertIsNone(self.same(kind))


class BoundDirectories(WrittenLogs):
    """A directory is bound without what is mounted below it: a rule on it is on both, and not what is in it."""

    mounts = [*TWICE, ["/w/d/in", "8:3", "/", "xfs"]]
    disk = [*DISK, *({"path": path, "kind": "dir"} for path in ("/b", "/b/in", "/w/d", "/w/d/in")),
            *({"path": path, "kind": "reg"} for path in ("/b/x", "/b/in/y", "/w/d/x", "/w/d/in/y"))]

    def test_a_rule_is_on_both(self) -> None:
        """As Linux 6.18 answers: a file in either directory is below a rule on the other one."""
        opens = [f'openat({CWD}, "{path}", 0 /* O_RDONLY */) = 3<{path}>' for path in ("/b/x", "/w/d/in/y", "/b/in/y")]
        for calls in (opens, opens[::-1]):
            with self.subTest(calls[0]):
                self.convert(*calls)
                tree = trees.read(self.out / "tree.jsonl")
                paths = ("/w/d", "/w/d/in", "/b/in", "/w/d/in/y", "/b/in/y")
                names = {path: sorted(tree.names(path)) for path in paths}
                apart = {path: [path] for path in names if path != "/w/d"}
                self.assertEqual(names, {"/w/d": ["/b", "/w/d"], **apart})

    def test_the_rule_of_a_program_is_on_both(self) -> None:
        rule = "{allowed_access=0x4 /* LANDLOCK_ACCESS_FS_READ_FILE */, parent_fd=5</w/d>}"
        trace = self.convert(
            f'openat({CWD}, "/w/d", 0x200000 /* O_PATH */) = 5</w/d>', MADE,
            f"landlock_add_rule(3{RULESET}, 0x1 /* LANDLOCK_RULE_PATH_BENEATH */, {rule}, 0) = 0",
            f'openat({CWD}, "/b/x", 0 /* O_RDONLY */) = 6</b/x>',
        )
        self.assertEqual([path for op, path in told(trace, "op", "path") if op == "add_path"], ["/w/d", "/b"])


    def test_a_directory_that_is_met_and_not_listed_has_no_name(self) -> None:
        names = Names(disk.Disk(0.0, {}), {}, [], places=MountPlaces(self.mounts))
        tree = ListedTree(names)
        node = names.ensure("/w/d", "dir")
        tree.place("/w/d", node)
        bound = names.ensure("/b", "dir")
        self.assertEqual((names.bound(node), tree.names_of(node)), ([bound], ["/w/d"]))


class OtherProc(WrittenLogs):
    """proc(5) is mounted a second time, as in a container that sees the processes of its machine."""

    mounts = [["/", "8:1", "/", "ext4"], ["/proc", "0:4", "/", "proc"], ["/host/p", "0:9", "/", "proc"]]
    disk = [*DISK, *({"path": path, "kind": "dir"} for path in ("/host", "/host/p", "/host/p/7"))]

    def test_looks_into_other_processes_are_counted_there_too(self) -> None:
        for call in (
            f'openat({CWD}, "/host/p/7/environ", 0 /* O_RDONLY */) = 3</host/p/7/environ>',
            'stat("/host/p/7/cwd/x", 0x1) = 0',
            f'newfstatat({CWD}, "../host/p/7/exe", 0x1, 0) = 0',
        ):
            with self.subTest(call):
                self.convert(call)
                self.assertEqual(self.unsaid(), [(ptrace.INTO_ANOTHER, True)])

    def test_where_its_links_lead_is_not_known(self) -> None:
        """They lead each process elsewhere: the recorder that looked at them, too."""
        links = {"self": "7", "7/cwd": "/w/d"}
        links_there = ({"path": f"/host/p/{path}", "kind": "sym", "target": to} for path, to in links.items())
        self.disk = [*self.disk, *links_there]
        for call in ('mkdir("/host/p/self/cwd/x", 0700) = 0', 'truncate("/host/p/self/fd/3", 0) = -1 EISDIR (X)'):
            with self.subTest(call):
                self.assertEqual(self.convert(call), [])
                self.assertIn((UNKNOWN_WAY, True), self.unsaid())

    def test_what_anyone_may_see_is_not(self) -> None:
        self.convert('stat("/host/p/7/status", 0x1) = 0', 'stat("/host/q/7/cwd", 0x1) = 0')
        self.assertEqual(self.unsaid(), [])


class SeveralPaths(unittest.TestCase):
    def test_the_other_paths_of_an_object(self) -> None:
        places = MountPlaces(TWICE)
        for path, others in {"/b": ["/w/d"], "/b/x/y": ["/w/d/x/y"], "/w/d/x": ["/b/x"], "/w": [], "/m/x": []}.items():
            self.assertEqual(places.others(path), others, path)

    def test_a_directory_with_a_mount_below_it_is_not_the_same_everywhere(self) -> None:
        places = MountPlaces([*TWICE, ["/w/d/in", "8:3", "/", "xfs"]])
        self.assertEqual((places.others("/b"), places.others("/b/in"), places.others("/b/x")), ([], [], ["/w/d/x"]))
        self.assertEqual((places.shown_at("/b"), places.shown_at("/b/in"), places.shown_at("/")), (["/w/d"], [], []))

    def test_mounts_that_are_bound_with_all_below_them(self) -> None:
        """As `mount --rbind` does it; Linux 6.18 finds a rule on either directory from the other."""
        below = [["/w/d/in", "8:3", "/", "xfs"], ["/b/in", "8:3", "/", "xfs"]]
        places = MountPlaces([*TWICE, *below])
        for path, others in {"/b": ["/w/d"], "/w/d/in": ["/b/in"], "/b/in/x": ["/w/d/in/x"], "/w": []}.items():
            self.assertEqual(places.others(path), others, path)
        for other in (["/b/in", "8:3", "/x", "xfs"], ["/b/in", "8:4", "/", "xfs"], ["/b/on", "8:3", "/", "xfs"]):
            self.assertEqual(MountPlaces([*TWICE, below[0], other]).others("/b"), [], other)

    def test_a_directory_that_is_mounted_in_itself(self) -> None:
        places = MountPlaces([["/", "8:1", "/", "ext4"], ["/w/d", "8:1", "/w", "ext4"]])
        found = [places.others(path) for path in ("/w", "/w/d", "/w/d/d", "/w/x")]
        self.assertEqual(found, [[], [], [], ["/w/d/x"]])

    def test_what_another_mount_hides(self) -> None:
        """Linux 6.18: a directory is bound at /b with what is mounted below it, and then over itself without that."""
        shown = Path(self.enterContext(tempfile.TemporaryDirectory())) / "mountinfo"
        lines = ("27 1 8:1 / / rw - ext4 d rw", "47 27 0:42 / /a/in rw - tmpfs n rw", "48 27 8:1 /a /b rw - ext4 d rw",
                 "49 48 0:42 / /b/in rw - tmpfs n rw", "50 27 8:1 /a /a rw - ext4 d rw",
                 "51 49 8:1 /c /b/in rw - ext4 d rw", "52 47 0:43 / /a/in/x rw - tmpfs n rw")
        shown.write_text("".join(f"{line}\n" for line in lines))
        hidden = [number for number, mount in enumerate(mounted.mounts(shown)) if mount.hidden]
        self.assertEqual([lines[number][:2] for number in hidden], ["47", "49", "52"])

    def test_without_mounts_nothing_is_known(self) -> None:
        self.assertEqual((MountPlaces().others("/w"), MountPlaces().are_one("/w", "/w")), ([], None))


class OpenedInside(WrittenLogs):
    def test_a_check_opens_the_program_alone_and_runs_nothing(self) -> None:
        trace = self.convert(
            f'openat({CWD}, "f", 0x80002 /* O_RDWR|O_CLOEXEC */) = 3</w/f>',
            f'execveat({CWD}, "/w/p", ["p"], 0x1 /* 0 vars */, 0x10000 /* AT_??? */) = 0',
            "ftruncate(3</w/f>, 0) = 0",
        )
        self.assertEqual(
            told(trace, "op", "path"),
            [("open", "/w/f"), ("open", "/w/p"), ("exec", "/w/p"), ("close", None), ("ftruncate", None)],
        )

    def test_a_script_by_a_descriptor_that_is_closed(self) -> None:
        """Its interpreter could not open it by that: it is not run, and Landlock is asked about the script alone."""
        self.disk = [*DISK, {"path": "/w/s", "kind": "reg", "runs": True, "interpreter": "/bin/sh"}]
        enoent = "-1 ENOENT (No such file or directory)"
        for flags, error, paths in (("0x200000 /* O_PATH */", "0", ["/w/s", "/bin/sh", "/w/loader"]),
                                    ("0x280000 /* O_PATH|O_CLOEXEC */", enoent, ["/w/s"])):
            run = f'execveat(3</w/s>, "", ["s"], 0x1 /* 0 vars */, 0x1000 /* AT_EMPTY_PATH */) = {error}'
            trace = self.convert(f'openat({CWD}, "s", {flags}) = 3</w/s>', run)
            self.assertEqual([path for op, path in told(trace, "op", "path") if op == "exec"], paths)

    def test_a_program_whose_arguments_can_not_be_read_or_are_too_long(self) -> None:
        """The kernel opens it first, but no interpreter."""
        self.disk = [*DISK, {"path": "/w/s", "kind": "reg", "runs": True, "interpreter": "/bin/sh"}]
        for call in (
            'execve("/w/s", 0x8, 0x1 /* 0 vars */) = -1 EFAULT (Bad address)',
            f'execveat({CWD}, "s", ["s"], 0x8, 0) = -1 EFAULT (Bad address)',
            'execve("/w/s", ["s", "a"...], 0x1 /* 0 vars */) = -1 E2BIG (Argument list too long)',
        ):
            with self.subTest(call):
                trace = self.convert(call)
                self.assertEqual(told(trace, "op", "path")[:2], [("open", "/w/s"), ("exec", "/w/s")])
                self.assertNotIn("/bin/sh", {record.get("path") for record in trace})
        self.assertEqual(self.convert('execve(0x8, ["s"], 0x1 /* 0 vars */) = -1 EFAULT (Bad address)'), [])
        self.assertEqual(self.unsaid(), [("EFAULT before Landlock is asked", False)])

    def test_the_file_of_acct_is_opened_again_without_its_folders(self) -> None:
        self.convert('acct("f") = 0', 'acct("nothere") = -1 ENOENT (No such file or directory)')
        self.assertEqual(self.unsaid(), [(inexpressible.WITHOUT_FOLDERS, True)])

    def test_a_file_whose_path_is_written_into_another_one(self) -> None:
        register = "/proc/sys/fs/binfmt_misc/register"
        trace = self.convert(f'openat({CWD}, "{register}", 0x1 /* O_WRONLY */) = 3<{register}>')
        self.assertEqual(told(trace, "op", "path"), [("open", register)])
        self.assertEqual(self.unsaid(), [(opening.BY_WRITING, True)])


class AppendOnly(WrittenLogs):
    """Linux 6.18 says EPERM of ftruncate(2): of an append-only file before it asks Landlock, of an immutable one after."""

    EPERM = "-1 EPERM (Operation not permitted)"

    def test_the_call_may_be_refused_or_not_be_asked_about(self) -> None:
        trace = self.convert(
            f'openat({CWD}, "f", 0x401 /* O_WRONLY|O_APPEND */) = 3</w/f>', f"ftruncate(3</w/f>, 0) = {self.EPERM}"
        )
        self.assertEqual(
            told(trace[1:], "op", "fd", "path", "unknown", "otherwise"),
            [("ftruncate", 3, None, descriptors.FIXED, None), ("truncate", None, "/w/f~new~", descriptors.FIXED, True)],
        )

    def test_what_else_is_not_known_stays(self) -> None:
        """The file was made by the open, or was there: then it may be refused to truncate that one."""
        self.disk = [line for line in DISK if line["path"] != "/w/f"] + [{"path": "/w/f", "kind": "reg", "new": None}]
        trace = self.convert(
            f'openat({CWD}, "f", 0x441 /* O_WRONLY|O_CREAT|O_APPEND */, 0600) = 3</w/f>',
            f"ftruncate(3</w/f>, 0) = {self.EPERM}",
        )
        cut = [record for record in trace if record["op"] in ("ftruncate", "truncate")]
        self.assertEqual([record["path"] for record in cut[1:]], ["/w/f~2~", "/w/f~new~"])
        self.assertEqual({record["unknown"] for record in cut}, {MADE_OR_THERE})

    def test_files_in_memory_are_never_refused(self) -> None:
        memfd = "</memfd:m>(deleted)"
        trace = self.convert(f'memfd_create("m", 0) = 3{memfd}', f"ftruncate(3{memfd}, 0) = {self.EPERM}")
        self.assertEqual(told(trace, "op", "unknown"), [("adopt", None), ("ftruncate", None)])


class Rulesets(WrittenLogs):
    RULE = "{allowed_access=0x4 /* LANDLOCK_ACCESS_FS_READ_FILE */, parent_fd=5</w/d>}"

    def test_a_duplicate_is_the_same_ruleset(self) -> None:
        trace = self.convert(
            MADE,
            f"dup(3{RULESET}) = 4{RULESET}",
            f"landlock_add_rule(4{RULESET}, 0x1 /* LANDLOCK_RULE_PATH_BENEATH */, {self.RULE}, 0) = 0",
            f"close(3{RULESET}) = 0",
            f"landlock_restrict_self(4{RULESET}, 0) = 0",
            f"close(4{RULESET}) = 0",
        )
        self.assertEqual(told(trace, "op", "rs"), [("create", 3), ("add_path", 3), ("restrict", 3), ("close_rs", 3)])
        self.assertEqual(self.unsaid(), [])

    def test_a_number_that_is_used_again_while_a_duplicate_is_open(self) -> None:
        first, second = self.convert(MADE, f"dup(3{RULESET}) = 4{RULESET}", f"close(3{RULESET}) = 0", MADE)
        self.assertEqual((first["op"], second["op"]), ("create", "create"))
        self.assertNotEqual(first["rs"], second["rs"])

    def test_flags_for_logging_change_no_answer(self) -> None:
        trace = self.convert(MADE, "landlock_restrict_self(-1, 0x4) = 0", f"landlock_restrict_self(3{RULESET}, 0x1) = 0")
        self.assertEqual(told(trace, "op", "rs"), [("create", 3), ("restrict", 3)])
        self.assertEqual(self.unsaid(), [(landlock.WITH_FLAGS, False)])

    def test_a_rule_on_a_file_in_memory_is_none(self) -> None:
        rule = "{allowed_access=0x4, parent_fd=5</memfd:x>(deleted)}"
        added = f"landlock_add_rule(3{RULESET}, 0x1 /* LANDLOCK_RULE_PATH_BENEATH */, {rule}, 0) = -1 EBADFD (X)"
        self.assertEqual(told(self.convert(MADE, added), "op"), [("create",)])
