"""Which object a name is: what the run replaces, moves, links and makes again has a name of its own in the tree.

That a rule stays with the object that it was put on, whatever names it has, was seen on a running kernel: see
live_objects.py, which asks the kernel for each of these shapes.
"""

from __future__ import annotations

import random

from landaudit_record.common import jsonl
from landaudit_record.recorder.names import OF_KIND, REPLACED_OR_NOT

from .drawn import by_chance
from .strace_lines import CONFINED, CWD, DISK, StraceLines
from .written_logs import WrittenLogs

MADE = "0x241 /* O_WRONLY|O_CREAT|O_TRUNC */, 0666"


def reads(path: str) -> str:
    """An open that the kernel lets through."""
    return f'openat({CWD}, "{path}", 0 /* O_RDONLY */) = 3</w/{path}>'


def makes(path: str) -> str:
    """An open that makes a file, or cuts one that is there."""
    return f'openat({CWD}, "{path}", {MADE}) = 3</w/{path}>'


class Objects(StraceLines):
    """In a directory that was listed before the run."""

    watched = True

    def paths(self, *calls: str, op: str = "open") -> list[str]:
        """The paths of one kind of record."""
        return [record["path"] for record in self.convert(*calls) if record["op"] == op]

    def moves(self, *calls: str) -> list[tuple[str, str]]:
        """The paths of moves."""
        return [(record["from"], record["to"]) for record in self.convert(*calls) if "from" in record]

    def test_a_file_that_is_replaced_by_a_rename(self) -> None:
        trace = self.convert(reads("f"), makes("new"), 'rename("new", "f") = 0', reads("f"))
        opens, (move,) = ([record for record in trace if record["op"] == op] for op in ("open", "rename"))
        self.assertEqual([record["path"] for record in opens], ["/w/f", "/w/new~new~", "/w/f~2~"])
        self.assertEqual((move["from"], move["to"], opens[-1]["shown"]), ("/w/new", "/w/f", "/w/f"))
        listed = self.listed()
        self.assertEqual(listed["/w/f"], {"kind": "reg"})
        self.assertEqual(listed["/w/new"], {"kind": "reg", "made": True})
        self.assertEqual(listed["/w/f~2~"], {"kind": "reg", "made": True, "shown": "/w/f"})

    def test_a_file_that_is_replaced_by_one_that_was_there(self) -> None:
        self.convert('rename("text", "f") = 0', reads("f"))
        self.assertEqual(self.listed()["/w/f~2~"], {"kind": "reg", "made": True, "same": "/w/text", "shown": "/w/f"})

    def test_a_rename_of_a_path_with_itself_asks_to_remove_and_to_make_the_object(self) -> None:
        for name, call in (("f", 'rename("f", "f") = 0'), ("d", 'rename("d", "./d") = 0')):
            ((start, end),) = self.moves(call)
            self.assertEqual((start, end), (f"/w/{name}", f"/w/{name}~new~"))
        self.assertEqual(self.moves('rename("f", "f") = 0', 'rename("f", "new") = 0')[1], ("/w/f", "/w/new~new~"))

    def test_a_file_that_is_replaced_again_and_again_shares_one_name(self) -> None:
        found = self.paths(*[makes("new"), 'rename("new", "f") = 0', reads("f")] * 3)
        self.assertEqual([path for path in found if "new" not in path], ["/w/f~2~"] * 3)
        self.assertEqual(sorted(self.listed()), ["/w", "/w/f", "/w/f~2~", "/w/new", "/w/p"])

    def test_a_file_that_is_removed_and_made_again(self) -> None:
        self.assertEqual(self.paths('unlink("f") = 0', makes("f"), reads("f")), ["/w/f~new~", "/w/f~2~"])

    def test_an_error_that_is_about_something_else_changes_no_object(self) -> None:
        found = self.paths(
            f'openat({CWD}, "f", 0x10000 /* O_RDONLY|O_DIRECTORY */) = -1 ENOTDIR (Not a directory)',
            f'renameat2({CWD}, "f", {CWD}, "none", 0x2 /* RENAME_EXCHANGE */) = -1 ENOENT (No such file or directory)',
            'rename("f", "none/f") = -1 ENOENT (No such file or directory)',
            reads("f"),
        )
        self.assertEqual(found, ["/w/f~new~", "/w/f"])

    def test_a_file_that_is_cut_is_the_same(self) -> None:
        self.assertEqual(self.paths(makes("f"), reads("f")), ["/w/f", "/w/f"])

    def test_a_file_that_is_moved_away_and_comes_back(self) -> None:
        found = self.paths('rename("f", "g") = 0', reads("g"), 'rename("g", "f") = 0', reads("f"))
        self.assertEqual(found, ["/w/g", "/w/f"])
        self.assertEqual(self.listed()["/w/g"], {"kind": "reg", "made": True, "same": "/w/f"})
        self.assertEqual(self.listed()["/w/f"], {"kind": "reg"})

    def test_a_hard_link_is_another_name_of_the_same(self) -> None:
        self.assertEqual(self.paths('link("f", "g") = 0', reads("g"), reads("f")), ["/w/g", "/w/f"])
        self.assertEqual(self.listed()["/w/g"], {"kind": "reg", "made": True, "same": "/w/f"})

    def test_a_rename_onto_a_hard_link_of_the_same_moves_nothing(self) -> None:
        found = self.paths('link("f", "g") = 0', 'rename("f", "g") = 0', reads("f"), reads("g"))
        self.assertEqual(found, ["/w/f", "/w/g"])

    def test_an_exchange(self) -> None:
        swap = f'renameat2({CWD}, "f", {CWD}, "text", 0x2 /* RENAME_EXCHANGE */) = 0'
        self.assertEqual(self.paths(swap, reads("f"), reads("text")), ["/w/f~2~", "/w/text~2~"])
        self.assertEqual(self.listed()["/w/f~2~"]["same"], "/w/text")
        self.assertEqual(self.listed()["/w/text~2~"]["same"], "/w/f")

    def test_a_directory_that_is_moved_away_and_made_again(self) -> None:
        found = self.paths(
            'rename("d", "old") = 0', 'mkdir("d", 0777) = 0', makes("d/in"), reads("d/in"), reads("old/in")
        )
        self.assertEqual(found, ["/w/d~2~/in~new~", "/w/d~2~/in", "/w/old/in"])
        listed = self.listed()
        self.assertEqual(listed["/w/old/in"], {"kind": "reg", "made": True, "same": "/w/d/in"})
        self.assertEqual(listed["/w/d/in"], {"kind": "reg"})
        self.assertEqual(listed["/w/d~2~/in"], {"kind": "reg", "made": True, "shown": "/w/d/in"})

    def test_what_works_in_a_directory_goes_with_it(self) -> None:
        found = self.paths(CONFINED, 'chdir("d") = 0', 'rename("/w/d", "/w/old") = 0', 'open("in", 0) = 3</w/old/in>',
                           'open("in", 0x1 /* O_WRONLY */) = -1 EACCES (Permission denied)')
        self.assertEqual(found, ["/w/old/in", "/w/old/in"])

    def test_what_works_in_a_directory_that_is_exchanged(self) -> None:
        found = self.paths(CONFINED, 'chdir("d") = 0',
                           'renameat2(-100, "/w/d", -100, "/w/e", 0x2 /* RENAME_EXCHANGE */) = 0',
                           'open("in", 0x1 /* O_WRONLY */) = -1 EACCES (Permission denied)')
        self.assertEqual(found, ["/w/e~2~/in"])

    def test_a_link_that_is_replaced(self) -> None:
        self.convert('symlink("e", "tmp") = 0', 'rename("tmp", "to-d") = 0',
                     f'openat({CWD}, "to-d/x", 0 /* O_RDONLY */) = -1 ENOENT (No such file or directory)')
        listed = self.listed()
        self.assertEqual(listed["/w/to-d"], {"kind": "sym", "target": "d"})
        self.assertEqual(
            listed["/w/to-d~2~"], {"kind": "sym", "target": "e", "made": True, "shown": "/w/to-d"}
        )

    def test_a_socket_that_is_made_again(self) -> None:
        bound = 'bind(3<socket:[7]>, {sa_family=0x1 /* AF_UNIX */, sun_path="s"}, 110) = 0'
        made = self.paths(bound, 'unlink("s") = 0', bound, 'unlink("s") = 0', op="mknod")
        self.assertEqual(made, ["/w/s~new~", "/w/s~new~"])
        self.assertEqual(self.listed()["/w/s"], {"kind": "sock", "made": True})

    def test_a_file_without_a_name_gets_one(self) -> None:
        trace = self.convert(
            f'openat({CWD}, "d", 0x410002 /* O_RDWR|O_TMPFILE */, 0600) = 3</w/d/#7>(deleted)',
            f'linkat({CWD}, "/proc/self/fd/3", {CWD}, "g", 0x400 /* AT_SYMLINK_FOLLOW */) = 0',
            f'linkat(3</w/d/#7>(deleted), "", {CWD}, "d/h", 0x1000 /* AT_EMPTY_PATH */) = 0',
            reads("g"),
        )
        links = [(record["from"], record["to"]) for record in trace if record["op"] == "link"]
        self.assertEqual(links, [("/w/d/#7", "/w/g~new~"), ("/w/d/#7", "/w/d/h~new~")])
        self.assertEqual((trace[-1]["path"], self.listed()["/w/g"]), ("/w/g", {"kind": "reg", "made": True}))

    def test_a_file_that_can_get_no_name_is_asked_about(self) -> None:
        """One that is removed, or made with O_EXCL: the kernel says ENOENT after it has asked Landlock."""
        none = "-1 ENOENT (No such file or directory)"
        trace = self.convert(
            f'openat({CWD}, "d", 0x410082 /* O_RDWR|O_EXCL|O_TMPFILE */, 0600) = 3</w/d/#7>(deleted)',
            reads("f").replace("= 3", "= 4"),
            'unlink("f") = 0',
            f'linkat({CWD}, "/proc/self/fd/3", {CWD}, "g", 0x400 /* AT_SYMLINK_FOLLOW */) = {none}',
            f'linkat(4</w/f>(deleted), "", {CWD}, "d/h", 0x1000 /* AT_EMPTY_PATH */) = {none}',
            f'linkat({CWD}, "f", {CWD}, "d/h", 0) = {none}',
        )
        links = [(record["from"], record["to"]) for record in trace if record["op"] == "link"]
        self.assertEqual(links, [("/w/d/#7", "/w/g~new~"), ("/w/f", "/w/d/h~new~"), ("/w/f~new~", "/w/d/h~new~")])

    def test_a_removed_file_is_opened_by_its_descriptor(self) -> None:
        found = self.paths(
            reads("f"), 'unlink("f") = 0', makes("f").replace("= 3", "= 4"),
            f'openat({CWD}, "/proc/self/fd/3", 0 /* O_RDONLY */) = 5</w/f>(deleted)', reads("f"),
        )
        self.assertEqual(found, ["/w/f", "/w/f~new~", "/w/f", "/w/f~2~"])

    def test_a_descriptor_leads_to_the_name_by_which_it_was_opened(self) -> None:
        """And not to the name that was met last."""
        by_name = f'openat({CWD}, "hard-1", 0x200000 /* O_RDONLY|O_PATH */) = 3</w/hard-1>'
        found = self.convert(by_name, reads("hard-2").replace("= 3", "= 4"), 'truncate("/proc/self/fd/3", 0) = 0')
        self.assertEqual(found[-1]["path"], "/w/hard-1")

    def test_a_descriptor_goes_with_its_name(self) -> None:
        by_name = f'openat({CWD}, "%s", 0x200000 /* O_RDONLY|O_PATH */) = %d</w/%s>'
        opened = by_name % ("hard-1", 3, "hard-1"), by_name % ("hard-2", 4, "hard-2"), by_name % ("f", 5, "f")
        cut = [f'truncate("/proc/self/fd/{number}", 0) = 0' for number in (3, 4, 5)]
        self.assertEqual(
            self.paths(*opened, 'rename("hard-1", "d/x") = 0', *cut, op="truncate"), ["/w/d/x", "/w/hard-2", "/w/f"]
        )
        exchanged = f'renameat2({CWD}, "hard-2", {CWD}, "f", 0x2 /* RENAME_EXCHANGE */) = 0'
        found = self.convert(*opened, exchanged, *cut)[-3:]
        self.assertEqual([one.get("shown", one["path"]) for one in found], ["/w/hard-1", "/w/f", "/w/hard-2"])

    def test_a_descriptor_that_came_from_elsewhere_goes_with_its_name(self) -> None:
        found = self.paths(
            "fcntl(5</w/f>, 0 /* F_DUPFD */, 20) = 20</w/f>", 'rename("f", "d/f") = 0',
            *(f'truncate("/proc/self/fd/{number}", 0) = 0' for number in (5, 20)), op="truncate",
        )
        self.assertEqual(found, ["/w/d/f"] * 2)

    def test_a_program_goes_with_its_name(self) -> None:
        cut = 'truncate("/proc/self/exe", 0) = 0'
        self.assertEqual(self.paths('rename("p", "d/p") = 0', cut, 'rename("d", "g") = 0', cut, op="truncate"),
                         ["/w/d/p", "/w/g/p"])
        self.assertEqual(self.paths('rename("text", "p") = 0', 'rename("p", "q") = 0', cut, op="truncate"), ["/w/p"])

    def test_a_descriptor_of_what_was_replaced_stays(self) -> None:
        """It leads to the object that has no name any more, also when what replaced it is renamed."""
        found = self.convert(
            f'openat({CWD}, "f", 0x200000 /* O_RDONLY|O_PATH */) = 3</w/f>', 'rename("text", "f") = 0',
            'rename("f", "g") = 0', 'truncate("/proc/self/fd/3", 0) = 0',
        )
        self.assertEqual(found[-1]["path"], "/w/f")

    def test_a_rule_of_the_program_is_on_all_names_of_its_object(self) -> None:
        rule = "{allowed_access=0x4 /* LANDLOCK_ACCESS_FS_READ_FILE */, parent_fd=4</w/f>}"
        trace = self.convert(
            f'openat({CWD}, "f", 0x200000 /* O_RDONLY|O_PATH */) = 4</w/f>',
            f"landlock_add_rule(3, 0x1 /* LANDLOCK_RULE_PATH_BENEATH */, {rule}, 0) = 0",
            'rename("f", "g") = 0',
            reads("g"),
        )
        self.assertEqual([record["path"] for record in trace if record["op"] == "add_path"], ["/w/f", "/w/g"])
        self.assertEqual(len({record["call"] for record in trace if record["op"] == "add_path"}), 1)

    def test_a_rule_of_the_program_on_what_it_made_is_on_that_alone(self) -> None:
        rule = "{allowed_access=0x4 /* LANDLOCK_ACCESS_FS_READ_FILE */, parent_fd=3</w/new>}"
        trace = self.convert(
            makes("new"),
            f"landlock_add_rule(4, 0x1 /* LANDLOCK_RULE_PATH_BENEATH */, {rule}, 0) = 0",
            'unlink("new") = 0', makes("new"), reads("new"),
        )
        self.assertEqual([record["path"] for record in trace if record["op"] == "add_path"], ["/w/new"])
        self.assertEqual(trace[-1]["path"], "/w/new~2~")

    def test_names_that_look_like_those_of_the_tree(self) -> None:
        found = self.paths(
            makes("f~2~"), 'rename("f~2~", "f") = 0', reads("f"), makes("x~new~"), reads("x~new~"),
            f'openat({CWD}, "x", 0 /* O_RDONLY */) = -1 ENOENT (No such file or directory)',
        )
        self.assertEqual(found[1:], ["/w/f~3~", "/w/x~new~~new~", "/w/x~new~~2~", "/w/x~new~"])


class Linked(StraceLines):
    """A file with two names from before the run."""

    watched = True

    def test_it_is_one_object(self) -> None:
        self.convert(reads("hard-2"), reads("hard-1"), 'unlink("hard-1") = 0', makes("hard-1"), reads("hard-1"))
        listed = self.listed()
        self.assertEqual(listed["/w/hard-2"], {"kind": "reg"})
        self.assertEqual(listed["/w/hard-1"], {"kind": "reg", "same": "/w/hard-2"})
        self.assertEqual(listed["/w/hard-1~2~"], {"kind": "reg", "made": True, "shown": "/w/hard-1"})


class Unwatched(StraceLines):
    """In a directory of which only the disk after the run tells."""

    def test_a_file_of_which_a_name_is_gone_may_be_another_one(self) -> None:
        """A rule on the name that is gone is not known to be on the other one: an audit may raise a false alarm."""
        self.convert(reads("hard-1"), 'unlink("gone") = 0')
        self.assertEqual([self.listed()[path] for path in ("/w/hard-1", "/w/gone")], [{"kind": "reg"}] * 2)

    def test_what_is_replaced_has_no_further_names_of_what_replaces_it(self) -> None:
        """After the run, the name is one of the object that was moved there: a rule on what was there is not on that."""
        for calls in (('rename("gone", "hard-1") = 0', reads("hard-2")),
                      (reads("hard-2"), 'rename("gone", "hard-1") = 0'),
                      (f'renameat2({CWD}, "f", {CWD}, "hard-1", 0x2 /* RENAME_EXCHANGE */) = 0', reads("hard-2"))):
            with self.subTest(calls[0]):
                self.convert(*calls)
                listed = self.listed()
                self.assertEqual((listed["/w/hard-1"], listed["/w/hard-2"]), ({"kind": "reg"}, {"kind": "reg"}))

    def test_what_is_known_by_a_call_alone_was_there(self) -> None:
        trace = self.convert(reads("conf"), makes("new"), 'rename("new", "conf") = 0', reads("conf"))
        self.assertEqual([record for record in trace if record.get("unknown") == OF_KIND], [])
        read = [record["path"] for record in trace if record.get("mode") == "r" and "otherwise" not in record]
        self.assertEqual((read[0], read[-1]), ("/w/conf", "/w/conf~2~"))
        self.assertEqual(self.listed()["/w/conf"], {"kind": "reg"})

    def test_what_was_missing_before_was_made(self) -> None:
        missing = f'openat({CWD}, "conf", 0 /* O_RDONLY */) = -1 ENOENT (No such file or directory)'
        self.convert(missing, makes("conf"), reads("conf"))
        self.assertEqual(self.listed()["/w/conf"], {"kind": "reg", "made": True})

    def test_a_rename_onto_a_name_of_which_nothing_is_known_may_replace_something(self) -> None:
        moved, otherwise = self.convert('rename("f", "text") = 0')
        self.assertEqual((moved["from"], moved["to"], moved["unknown"]), ("/w/f", "/w/text", REPLACED_OR_NOT))
        self.assertEqual((otherwise["from"], otherwise["to"]), ("/w/f", "/w/text~new~"))
        self.assertTrue(otherwise["otherwise"])

    def test_a_rename_that_replaces_nothing(self) -> None:
        (moved,) = self.convert(f'renameat2({CWD}, "f", {CWD}, "unknown", 0x1 /* RENAME_NOREPLACE */) = 0')
        self.assertEqual((moved["from"], moved["to"]), ("/w/f", "/w/unknown~new~"))


class LateLooks(WrittenLogs):
    """What was seen when the run had ended: another file than the one that the first call opened."""

    disk = [*DISK, {"path": "/o", "kind": "dir"}, {"path": "/o/d", "kind": "dir"},
            {"path": "/o/d/x", "kind": "reg", "new": True}]

    def assert_in_doubt(self, *calls: str) -> None:
        """The first call may have made its file, or cut one that was there."""
        opens = [record for record in self.convert(*calls) if record["op"] == "open" and record["call"] == 2]
        self.assertEqual([record.get("create", False) for record in opens], [False, True])

    def test_in_a_directory_that_was_moved_and_came_back(self) -> None:
        self.assert_in_doubt(
            f'openat({CWD}, "/o/d/x", {MADE}) = 3</o/d/x>', 'rename("/o/d", "/o/e") = 0', 'unlink("/o/e/x") = 0',
            f'openat({CWD}, "/o/e/x", {MADE}) = 3</o/e/x>', 'rename("/o/e", "/o/d") = 0',
        )

    def test_by_another_mount(self) -> None:
        self.mounts = [["/", "8:1", "/", "ext4"], ["/m", "8:1", "/o", "ext4"]]
        self.disk = [*self.disk, {"path": "/m", "kind": "dir"}, {"path": "/m/d", "kind": "dir"},
                     {"path": "/m/d/x", "kind": "reg", "new": True}]
        made = f'openat({CWD}, "%s/d/x", {MADE}) = 3<%s/d/x>'
        for one, other in (("/o", "/m"), ("/m", "/o")):
            with self.subTest(one):
                self.assert_in_doubt(made % (one, one), f'unlink("{other}/d/x") = 0', made % (other, other))


class WrittenPaths(StraceLines):
    """Whatever paths a program uses, the recording reads."""

    NAMES = ("..", ".", "", "f", "d", "e", "to-d", "loop", "nothere", "f~2~", "d~new~", "~new~", "p" * 250,
             "\\303\\244", "\\377", "\\001", "\\n", "#7")

    def test_dots_behind_what_is_missing(self) -> None:
        trace = self.convert(
            f'openat({CWD}, "nothere/../x", 0 /* O_RDONLY */) = -1 ENOENT (No such file or directory)',
            f'openat({CWD}, "nothere/..", 0 /* O_RDONLY */) = -1 ENOENT (No such file or directory)',
        )
        self.assertEqual([record["path"] for record in trace], ["/w/nothere~new~/x", "/w/nothere~new~/~new~"])
        self.assertEqual(trace[0]["shown"], "/w/nothere/../x")

    @by_chance(examples=25)
    def test_random_paths(self, chance: random.Random) -> None:
        self.convert(*(self.call(chance) for _ in range(chance.randint(1, 60))))
        kinds = {"": "dir"}
        for line in self.lines("tree.jsonl"):
            path = line["path"]
            self.assertTrue(reads_as_path(path), path)
            self.assertNotIn(path, kinds)
            self.assertEqual(kinds.get(path.rpartition("/")[0]), "dir", path)
            kinds[path] = line["kind"]
        for line in self.lines("trace.jsonl"):
            for member in ("path", "from", "to"):
                self.assertTrue(reads_as_path(line.get(member, "/")), line)

    def test_the_target_of_a_link_that_is_no_text_is_left_out(self) -> None:
        self.convert('symlink("\\377", "new") = 0', reads("new/x").replace("= 3</w/new/x>", "= -1 ENOENT (No)"))
        self.assertEqual(self.listed()["/w/new"], {"kind": "sym", "made": True})

    def call(self, chosen: random.Random) -> str:
        """A call on random paths, with a random answer."""
        one, other = (self.path(chosen) for _ in range(2))
        answer = chosen.choice(("0", "-1 ENOENT (No such file)", "-1 EACCES (Permission denied)", "-1 ENOTDIR (No)"))
        return chosen.choice((
            f'openat({CWD}, "{one}", {MADE}) = -1 EACCES (Permission denied)',
            f'openat({CWD}, "{one}", 0 /* O_RDONLY */) = -1 ENOENT (No such file or directory)',
            f'mkdir("{one}", 0777) = {answer}',
            f'rename("{one}", "{other}") = {answer}',
            f'link("{one}", "{other}") = {answer}',
            f'symlink("{one}", "{other}") = {answer}',
            f'unlink("{one}") = {answer}',
            f'rmdir("{one}") = {answer}',
            f'truncate("{one}", 0) = {answer}',
            f'chdir("{one}") = {answer}',
            f'execve("{one}", ["x"], 0x1) = -1 EACCES (Permission denied)',
        ))

    def path(self, chosen: random.Random) -> str:
        names = [chosen.choice(self.NAMES) for _ in range(chosen.choice((1, 1, 2, 3, 5, 20)))]
        return chosen.choice(("", "/", "/w/")) + "/".join(names) + chosen.choice(("", "", "/"))

    def lines(self, name: str) -> list[jsonl.Record]:
        """The lines of a file, which are UTF-8 without halves of characters."""
        lines = [line for _, line in jsonl.numbered(self.out / name)]
        for line in lines:
            jsonl.line(line).encode()
        return lines


def reads_as_path(path: str) -> bool:
    """Whether landaudit reads a path: the rule of docs/FORMATS.md, "Paths", written out a second time."""
    names = path.split("/")
    return path == "/" or (
        1 <= len(path.encode()) <= 4096
        and names[0] == ""
        and all(name not in ("", ".", "..") and "\0" not in name for name in names[1:])
    )
