"""What is not known of the state before a call: written logs over disks of which each line says when it was seen."""

from __future__ import annotations

import unittest
from collections import Counter
from pathlib import Path

from landaudit_record.audit.comparing import agree
from landaudit_record.audit.kernel_calls import judged_calls
from landaudit_record.common import jsonl, trees
from landaudit_record.common.finished import Finished
from landaudit_record.engine import reports
from landaudit_record.engine.answers import ALLOWED, MOOT, REFUSED, Answer, Refusing
from landaudit_record.engine.processes import ProcessState
from landaudit_record.recorder.calls import programs
from landaudit_record.recorder.scene import BY_MODES
from landaudit_record.recorder.names import MADE_OR_THERE, OF_KIND, REPLACED_OR_NOT, UNKNOWN_WAY

from .strace_lines import CONFINED, CWD
from .written_logs import WrittenLogs

FIRST = 2
"""The line of the first call of a test."""
MAKES = "0x41 /* O_WRONLY|O_CREAT */, 0644"
CUTS = "0x241 /* O_WRONLY|O_CREAT|O_TRUNC */, 0644"
TREE: list[jsonl.Record] = [
    {"path": path, "kind": "dir", "until": 0} for path in ("/w", "/w/d", "/s", "/s/v1", "/s/v2", "/s/d")
]


def seen(path: str, kind: str | None, until: int | None = None, **more: object) -> jsonl.Record:
    """What was seen at a path when the log had so many lines, or after the run."""
    return {"path": path, "kind": kind, **({} if until is None else {"until": until}), **more}


def opens(path: str, flags: str = "0 /* O_RDONLY */", fd: int = 3) -> str:
    return f'openat({CWD}, "{path}", {flags}) = {fd}<{path}>'


class Refused(WrittenLogs):
    """A call that Landlock refuses tells less of what is there than the kernel's other answers."""

    disk = [*TREE, {"path": "/w/p", "kind": "reg", "runs": True}]
    EACCES = "-1 EACCES (Permission denied)"

    def test_a_refused_removal_does_not_tell_the_kind(self) -> None:
        """Linux 6.18 asks before it sees of which kind the object is (docs/SEMANTICS.md, "Landlock asked before the
        tree"): what rmdir(2) was refused may be a file that is opened later.
        """
        for call, op in ((f'rmdir("/w/x") = {self.EACCES}', "rmdir"), (f'unlink("/w/x") = {self.EACCES}', "unlink")):
            with self.subTest(call):
                (removed, *opened) = self.confined(call, f'openat({CWD}, "/w/x", 0x20000 /* O_NOFOLLOW */) = {self.EACCES}')
                self.assertEqual((removed["op"], removed["shown"], "unknown" in removed), (op, "/w/x", False))
                kinds = {path: line["kind"] for path, line in self.tree().items()}
                self.assertEqual(kinds[removed["path"]], "dir" if op == "rmdir" else "reg")
                self.assertLess({"reg", "dir"}, {kinds[one["path"]] for one in opened if one["op"] == "open"})

    def test_an_answer_that_comes_after_the_kind(self) -> None:
        """rmdir(2): only a directory can be not empty."""
        (removed,) = self.confined('rmdir("/w/x") = -1 ENOTEMPTY (Directory not empty)')
        self.assertEqual((removed["path"], self.tree()["/w/x"]["kind"]), ("/w/x", "dir"))

    def test_a_refusal_in_a_directory_of_which_nothing_is_known(self) -> None:
        """The kernel walked to the object, so it is there, by whatever way; a record of what is missing would be moot."""
        for call in (f'openat({CWD}, "/s/gone/x", 0 /* O_RDONLY */)', f'openat({CWD}, "/s/gone/x", {MAKES})',
                     'mkdir("/s/gone/x", 0777)', 'unlink("/s/gone/x")', 'truncate("/s/gone/x", 0)'):
            with self.subTest(call):
                self.assertEqual(self.confined(f"{call} = {self.EACCES}"), [])
                self.assertEqual(self.unsaid(), [(UNKNOWN_WAY, True)])
                self.assertEqual(self.convert(f"{call} = {self.EACCES}"), [])
                self.assertEqual(self.unsaid(), [(BY_MODES, False)])

    def tree(self) -> dict[str, jsonl.Record]:
        """What is listed."""
        return {line["path"]: line for _, line in jsonl.numbered(self.out / "tree.jsonl")}


class Unknown(WrittenLogs):
    """A folder `/s` that was not listed before the run."""

    def run_over(self, objects: list[jsonl.Record], *calls: str) -> list[jsonl.Record]:
        """The records of calls, where the disk was seen to be so."""
        self.disk = [*TREE, seen("/w/p", "reg", 0, runs=True), *objects]
        return self.convert(*calls)

    def trace(self) -> list[jsonl.Record]:
        """The records that were written last."""
        return [record for _, record in jsonl.numbered(self.out / "trace.jsonl")]

    def doubts(self, objects: list[jsonl.Record], *calls: str) -> Counter[str]:
        """What is not known of the calls, and how often."""
        found = self.run_over(objects, *calls)
        return Counter(record["unknown"] for record in found if "unknown" in record and "otherwise" not in record)


class Unlisted(unittest.TestCase):
    def test_an_audit_notes_what_was_too_large_to_be_listed(self) -> None:
        recording = Finished(Path("rec"), (), Counter(), Counter(), True, too_large=("/big",))
        self.assertEqual([note.split(" ")[0] for note in recording.notes], ["/big"])


class Making(Unknown):
    """open(2) with O_CREAT."""

    def test_what_was_seen_before_the_call_is_known(self) -> None:
        (there,) = self.run_over([seen("/s/f", "reg", FIRST - 1)], opens("/s/f", CUTS))
        self.assertEqual((there["path"], there.get("create")), ("/s/f", None))
        (made,) = self.run_over([seen("/s/f", None, FIRST - 1)], opens("/s/f", CUTS))
        self.assertEqual((made["path"], made["create"]), ("/s/f~new~", True))

    def test_what_was_seen_later_tells_when_it_was_made(self) -> None:
        for new, made in ((False, None), (True, True)):
            (record,) = self.run_over([seen("/s/f", "reg", FIRST, new=new)], opens("/s/f", MAKES))
            self.assertEqual(record.get("create"), made)

    def test_a_file_system_without_times_leaves_it_unknown(self) -> None:
        there, made, closed = self.run_over([seen("/s/f", "reg", FIRST, new=None)], opens("/s/f", CUTS))
        self.assertEqual((there["unknown"], there["path"], there.get("create")), (MADE_OR_THERE, "/s/f", None))
        self.assertEqual((made["otherwise"], made["path"], made["create"]), (True, "/s/f~new~", True))
        self.assertEqual((closed["op"], closed["fd"]), ("close", made["fd"]))
        self.assertGreater(made["fd"], 1_000_000)

    def test_what_was_gone_when_it_was_looked_at(self) -> None:
        calls = (opens("/s/f", CUTS), "close(3) = 0", 'unlink("/s/f") = 0')
        for until in (FIRST + 2, None):
            with self.subTest(until):
                self.assertEqual(self.doubts([seen("/s/f", None, until)], *calls), {MADE_OR_THERE: 2})
                self.assertEqual({line["op"] for line in self.trace() if "unknown" in line}, {"open", "unlink"})

    def test_what_was_gone_later_and_was_seen_in_time(self) -> None:
        calls = (opens("/s/f", CUTS), "close(3) = 0", 'unlink("/s/f") = 0')
        self.assertEqual(self.doubts([seen("/s/f", "reg", FIRST + 1, new=False)], *calls), {})

    def test_the_call_itself_tells(self) -> None:
        disk = [seen("/s/f", None)]
        alone = opens("/s/f", "0xc1 /* O_WRONLY|O_CREAT|O_EXCL */, 0600")
        missing = f'openat({CWD}, "/s/f", 0 /* O_RDONLY */) = -1 ENOENT (No such file or directory)'
        for first in (alone, missing):
            calls = (first, opens("/s/f", CUTS, 4), 'unlink("/s/f") = 0')
            self.assertEqual(self.doubts(disk, *calls), {})

    def test_later_calls_are_about_either_object(self) -> None:
        *_, there, other, closed = self.run_over(
            [seen("/s/f", "reg", FIRST, new=None)], opens("/s/f", MAKES), 'truncate("/s/f", 0) = 0', opens("/s/f", fd=4)
        )
        self.assertEqual((there["path"], other["path"], other["shown"]), ("/s/f", "/s/f~2~", "/s/f"))
        self.assertEqual((other["otherwise"], closed["op"]), (True, "close"))

    def test_an_open_file_that_is_cut(self) -> None:
        calls = (opens("/s/f", MAKES), "ftruncate(3</s/f>, 0) = 0")
        *_, cut, other = self.run_over([seen("/s/f", "reg", FIRST, new=None)], *calls)
        self.assertEqual((cut["op"], cut["fd"], cut["unknown"]), ("ftruncate", 3, MADE_OR_THERE))
        self.assertEqual((other["op"], other["path"], other["otherwise"]), ("truncate", "/s/f~2~", True))

    def test_a_refused_creation(self) -> None:
        """Also one that the file system can't open as it was to be opened (EINVAL), after it was made."""
        for error in ("EACCES (Permission denied)", "EINVAL (Invalid argument)"):
            failed = f'openat({CWD}, "/s/f", {CUTS}) = -1 {error}'
            found = self.doubts([seen("/s/f", "reg", new=None)], CONFINED, failed)
            self.assertEqual(found, {MADE_OR_THERE: 1}, error)


class MadeByOthers(Unknown):
    """What the kernel, or a process outside of the recording, makes in the run: no recorded call makes it."""

    def made(self, objects: list[jsonl.Record], *calls: str) -> set[str]:
        """The names of the tree that were not there when the run began."""
        self.run_over(objects, *calls)
        return trees.read(self.out / "tree.jsonl").made

    def test_what_was_missing_when_it_was_looked_at_in_time(self) -> None:
        """As loop(4) makes it in debugfs: no rule of a policy can be on it."""
        self.assertEqual(self.made([seen("/s/f", None, FIRST - 1)], opens("/s/f")), {"/s/f", "/s/f~2~"})
        self.assertEqual(self.made([seen("/s/n", None, FIRST - 1)], opens("/s/n/f", "0x1 /* O_WRONLY */")),
                         {"/s/n", "/s/n/f"})

    def test_what_was_looked_at_too_late_or_in_another_directory(self) -> None:
        missing = [seen("/s/f", None, FIRST), seen("/s/v1/f", None, FIRST - 1)]
        self.assertEqual(self.made(missing, opens("/s/f", "0x1 /* O_WRONLY */")), set())
        moved = ('rename("/s/v1", "/s/v3") = 0', 'rename("/s/v2", "/s/v1") = 0', opens("/s/v1/f", "0x1 /* O_WRONLY */"))
        self.assertNotIn("/s/v2/f", self.made(missing, *moved))


class Others(Unknown):
    """Kinds of objects, and names onto which something is renamed."""

    def test_an_object_that_is_renamed_and_gone_may_be_of_any_kind(self) -> None:
        disk = [seen("/s/x", None, FIRST + 1), seen("/s/d/y", None, 0)]
        records = self.run_over(disk, 'rename("/s/x", "/s/d/y") = 0', 'unlink("/s/d/y") = 0')
        moves = [record for record in records if record["op"] == "rename"]
        self.assertEqual({record["unknown"] for record in moves}, {OF_KIND})
        tree = {line["path"]: line["kind"] for _, line in jsonl.numbered(self.out / "tree.jsonl")}
        kinds = {tree[record["from"]] for record in moves}
        self.assertEqual(kinds, {"reg", "sym", "fifo", "sock", "char", "block"})

    def test_what_was_seen_later_at_the_new_name_tells_the_kind(self) -> None:
        """That one is what was renamed: so a folder needs `make_dir`, whatever else was there."""
        for kind in ("dir", "reg", "sym"):
            disk = [seen("/s/x", None), seen("/s/y", kind)]
            found = self.run_over(disk, 'rename("/s/x", "/s/y") = 0')
            self.assertEqual([line.get("unknown") for line in found], [REPLACED_OR_NOT] * 2)
            kinds = {line["path"]: line["kind"] for _, line in jsonl.numbered(self.out / "tree.jsonl")}
            self.assertEqual([kinds[line["from"]] for line in found], [kind] * 2)
        exchanged = f'renameat2({CWD}, "/s/x", {CWD}, "/s/y", 0x2 /* RENAME_EXCHANGE */) = 0'
        self.run_over([seen("/s/x", "dir"), seen("/s/y", "sym")], exchanged)
        kinds = {line["path"]: line["kind"] for _, line in jsonl.numbered(self.out / "tree.jsonl")}
        self.assertEqual((kinds["/s/x"], kinds["/s/y"]), ("sym", "dir"))

    def test_what_was_seen_later_at_the_new_name_may_be_another_object(self) -> None:
        """Each kind that was renamed, and whether it replaced something: a folder that did not is among them."""
        disk = [seen("/s/x", None), seen("/s/y", "reg")]
        found = self.run_over(disk, 'rename("/s/x", "/s/y") = 0', 'unlink("/s/y") = 0', opens("/s/y", MAKES))
        kinds = {line["path"]: line["kind"] for _, line in jsonl.numbered(self.out / "tree.jsonl")}
        moves = {(kinds[line["from"]], kinds.get(line["to"])) for line in found if line["op"] == "rename"}
        self.assertGreaterEqual(moves, {("reg", None), ("sym", None), ("reg", "reg")})
        found = self.run_over(disk, 'rename("/s/x", "/s/y") = 0', 'rename("/s/y", "/w/d/y") = 0',
                              'rename("/w/p", "/s/y") = 0', 'rename("/w/d/y", "/w/gone") = 0')
        kinds = {line["path"]: line["kind"] for _, line in jsonl.numbered(self.out / "tree.jsonl")}
        moves = {(kinds[line["from"]], kinds.get(line["to"])) for line in found if line["call"] == FIRST}
        self.assertGreaterEqual(moves, {("dir", None), ("dir", "dir"), ("reg", None), ("reg", "reg")})

    def test_a_folder_by_what_is_in_it_later(self) -> None:
        """So a rule on it stays with it."""
        disk = [seen("/s/x", "dir", None, new=True), seen("/s/y", None)]
        calls = ('rename("/s/x", "/s/y") = 0', 'mkdir("/s/x", 0755) = 0', opens("/s/y/f", "0x1 /* O_WRONLY */"))
        found = self.run_over(disk, *calls)
        self.assertNotIn(OF_KIND, {line.get("unknown") for line in found})
        (line,) = (one for _, one in jsonl.numbered(self.out / "tree.jsonl") if one["path"] == "/s/y")
        self.assertEqual((line["kind"], line["same"]), ("dir", "/s/x"))

    def test_a_file_is_what_is_cut(self) -> None:
        disk = [seen("/s/x", None), seen("/proc", "dir"), seen("/proc/self/fd", "dir")]
        opened = f'openat({CWD}, "/s/x", 0x200000 /* O_RDONLY|O_PATH */) = 3</s/x>'
        found = self.run_over(disk, opened, 'rename("/s/x", "/s/y") = 0', 'truncate("/proc/self/fd/3", 0) = 0')
        self.assertNotIn(OF_KIND, {line.get("unknown") for line in found})
        self.assertEqual(found[-1]["path"], "/s/y")

    def test_a_rule_of_the_program_is_on_all_names_whatever_the_kind(self) -> None:
        rule = "{allowed_access=0x4 /* LANDLOCK_ACCESS_FS_READ_FILE */, parent_fd=4</s/x>}"
        found = self.run_over(
            [seen("/s/x", None), seen("/s/y", None, 0)],
            f'openat({CWD}, "/s/x", 0x200000 /* O_RDONLY|O_PATH */) = 4</s/x>',
            f"landlock_add_rule(3, 0x1 /* LANDLOCK_RULE_PATH_BENEATH */, {rule}, 0) = 0",
            'rename("/s/x", "/s/y") = 0', opens("/s/y"),
        )
        ruled = {line["path"] for line in found if line["op"] == "add_path"}
        opened = {line["path"] for line in found if line["op"] == "open"}
        tree = {line["path"]: line["kind"] for _, line in jsonl.numbered(self.out / "tree.jsonl")}
        self.assertEqual({tree[path] for path in opened}, {"reg", "dir", "fifo", "sock", "char", "block"})
        self.assertEqual(opened - ruled, set())

    def test_a_later_call_tells_the_kind(self) -> None:
        disk = [seen("/s/x", None, FIRST + 1), seen("/s/y", None, 0)]
        moved, removed = self.run_over(disk, 'rename("/s/x", "/s/y") = 0', 'rmdir("/s/y") = 0')
        self.assertNotIn("unknown", moved)
        tree = {line["path"]: line["kind"] for _, line in jsonl.numbered(self.out / "tree.jsonl")}
        self.assertEqual((tree[moved["from"]], tree[removed["path"]]), ("dir", "dir"))

    def test_a_file_or_a_directory_that_is_read(self) -> None:
        calls = (opens("/s/x"), 'rename("/s/x", "/s/y") = 0')
        self.assertEqual(self.doubts([seen("/s/x", None)], *calls)[OF_KIND], 2)
        self.assertEqual(self.doubts([seen("/s/x", None)], opens("/s/x", "0x10000 /* O_RDONLY|O_DIRECTORY */")), {})
        self.assertEqual(self.doubts([seen("/s/x", "reg", FIRST)], *calls)[OF_KIND], 0)

    def test_a_name_onto_which_something_is_renamed(self) -> None:
        known = seen("/s/x", "reg", 0)
        for there, doubts in (
            (seen("/s/y", "reg", FIRST - 1), {}),
            (seen("/s/y", None, FIRST - 1), {}),
            (seen("/s/y", "reg", FIRST), {REPLACED_OR_NOT: 1}),
            (seen("/s/y", "reg"), {REPLACED_OR_NOT: 1}),
        ):
            with self.subTest(there):
                self.assertEqual(self.doubts([known, there], 'rename("/s/x", "/s/y") = 0'), doubts)

    def test_a_link_that_another_one_replaced(self) -> None:
        swap = ('symlink("v2", "/s/t") = 0', 'rename("/s/t", "/s/now") = 0')
        disk = [seen("/s/now", "sym", FIRST + 2, target="v2", new=True), seen("/s/t", None, FIRST + 2)]
        self.run_over(disk, 'mkdir("/s/now/sub", 0755) = 0', *swap)
        self.assertEqual(self.unsaid(), [(UNKNOWN_WAY, True)])
        disk = [seen("/s/now", "sym", FIRST - 1, target="v1"), *disk[1:]]
        made, *_ = self.run_over(disk, 'mkdir("/s/now/sub", 0755) = 0', *swap)
        self.assertEqual((made["path"], self.unsaid()), ("/s/v1/sub~new~", []))

    def test_two_names_of_one_file_that_the_run_writes(self) -> None:
        disk = [seen("/s/f", "reg", FIRST, inode="1:7", new=False), seen("/s/g", "reg", inode="1:7", new=False)]
        self.run_over(disk, opens("/s/f", "0x1 /* O_WRONLY */"), opens("/s/g", fd=4))
        same = {line["path"]: line.get("same") for _, line in jsonl.numbered(self.out / "tree.jsonl")}
        self.assertEqual((same["/s/f"], same["/s/g"]), (None, "/s/f"))

    def test_links_that_are_exchanged_before_they_are_seen(self) -> None:
        exchanged = f'renameat2({CWD}, "/s/one", {CWD}, "/s/two", 0x2 /* RENAME_EXCHANGE */) = 0'
        calls = (exchanged, 'mkdir("/s/one/sub", 0755) = 0')
        links = [(path, target) for path, target in (("/s/one", "v2"), ("/s/two", "v1"))]
        _, made = self.run_over([seen(path, "sym", target=target) for path, target in links], *calls)
        self.assertEqual(made["path"], "/s/v2/sub~new~")
        self.run_over([seen(path, "sym", FIRST, target=target) for path, target in links], *calls)
        self.assertEqual(self.unsaid(), [(UNKNOWN_WAY, True)])

    def test_what_was_seen_in_a_folder_that_is_moved(self) -> None:
        """It is not in the one that takes its place; what was seen there after that is."""
        folders = [seen(f"/s/{name}", "dir", 0) for name in ("a", "b", "c")]
        link = ("/s/a/l", "sym")
        moves = {
            "moved": ('rename("/s/a", "/s/d/a") = 0', 'rename("/s/b", "/s/a") = 0'),
            "exchanged": (f'renameat2({CWD}, "/s/a", {CWD}, "/s/b", 0x2 /* RENAME_EXCHANGE */) = 0',),
        }
        last = 'mkdir("/s/a/l/y", 0755) = 0'
        for how, moved in moves.items():
            calls = ('mkdir("/s/a/l/x", 0755) = 0', *moved, last)
            with self.subTest(how):
                early = seen(*link, FIRST, target="../v1")
                found = self.run_over([*folders, early, seen("/s/d/a", None, 0)], *calls)
                self.assertEqual([line["path"] for line in found if line["op"] == "mkdir"][-1:], ["/s/v1/x~new~"])
                self.assertEqual(self.unsaid(), [(UNKNOWN_WAY, True)])
                late = seen(*link, target="../v2")
                found = self.run_over([*folders, late, seen("/s/d/a", None, 0)], *calls[1:])
                self.assertEqual(found[-1]["path"], "/s/v2/y~new~")

    def test_what_is_in_a_folder_below_one_that_is_moved(self) -> None:
        disk = [seen("/s/a", "dir", 0), seen("/s/a/in", "dir", 0), seen("/s/c", None, 0),
                seen("/s/c/in/l", "sym", target="../../v2"), seen("/s/a/in/l", "sym", target="../../v1")]
        listed = opens("/s/a/in", "0x10000 /* O_RDONLY|O_DIRECTORY */")
        found = self.run_over(disk, listed, 'rename("/s/a", "/s/c") = 0', 'mkdir("/s/c/in/l/y", 0755) = 0')
        self.assertEqual(found[-1]["path"], "/s/v2/y~new~")

    def test_a_path_that_leads_nowhere_is_no_question(self) -> None:
        calls = ('mkdir("/s/no/sub", 0755) = -1 ENOENT (No such file or directory)', 'rename("/s/d", "/s/no") = 0')
        self.run_over([seen("/s/no", "dir", new=True)], *calls)
        self.assertEqual(self.unsaid(), [(UNKNOWN_WAY, False)])


class Programs(Unknown):
    """Files that are run, of which the interpreters were read when the log had so many lines."""

    RUNS = 'execve("/s/x", ["x"], 0x1 /* 2 vars */) = 0'
    SCRIPT = seen("/s/x", "reg", 0, runs=True)
    READ: jsonl.Record = {"program": "/s/x", "first": FIRST, "until": FIRST + 1, "interpreter": "/s/i"}

    def run_by(self, read: list[jsonl.Record], *calls: str) -> list[str]:
        """The interpreters of what is run, by their paths."""
        found = self.run_over([self.SCRIPT, seen("/s/i", "reg", 0, runs=True), *read], *calls)
        return [record["path"] for record in found if record["op"] == "exec" and "role" in record]

    def test_what_was_read_in_time(self) -> None:
        self.assertEqual(self.run_by([{**self.READ, "until": FIRST}], self.RUNS, 'unlink("/s/x") = 0'), ["/s/i"])
        self.assertEqual(self.unsaid(), [])

    def test_what_was_rewritten_before_it_was_read(self) -> None:
        opened = opens("/s/x", "0x201 /* O_WRONLY|O_TRUNC */")
        for change in ('unlink("/s/x") = 0', opened, 'rename("/s/i", "/s/x") = 0'):
            with self.subTest(change):
                self.assertEqual(self.run_by([self.READ], self.RUNS, change.replace("= 3", "= 5")), [])
                self.assertEqual(self.unsaid(), [(programs.UNKNOWN_PROGRAM, True)])

    def test_what_was_rewritten_by_a_further_name(self) -> None:
        """A hard link."""
        self.SCRIPT = {**self.SCRIPT, "inode": "1:7"}
        opened = opens("/s/h", "0x201 /* O_WRONLY|O_TRUNC */").replace("= 3", "= 5")
        link = seen("/s/h", "reg", 0, inode="1:7")
        self.assertEqual(self.run_by([self.READ, link], self.RUNS, opened), [])
        self.assertEqual(self.unsaid(), [(programs.UNKNOWN_PROGRAM, True)])

    def test_what_was_gone(self) -> None:
        gone = {"program": "/s/x", "first": FIRST, "until": FIRST + 1, "known": False}
        self.assertEqual(self.run_by([gone], self.RUNS), [])
        self.assertEqual(self.unsaid(), [(programs.UNKNOWN_PROGRAM, True)])

    def test_a_run_that_found_no_interpreter_of_what_was_gone_when_it_was_looked_at(self) -> None:
        """ENOENT: nothing was there, or its interpreter was missing; a later call shows which."""
        run, opened = self.RUNS.replace("= 0", "= -1 ENOENT (No such file or directory)"), opens("/s/x", "0")
        for later in ('unlink("/s/x") = 0', 'rename("/s/x", "/s/y") = 0', opened):
            with self.subTest(later):
                self.run_over([seen("/s/x", None)], run, later)
                self.assertIn((programs.UNKNOWN_PROGRAM, True), self.unsaid())
        for disk in ([seen("/s/x", None)], [seen("/s/x", None, 0)]):
            with self.subTest(disk):
                self.assertEqual(self.run_over(disk, run, 'mkdir("/s/x", 0700) = 0')[0]["op"], "exec")
                self.assertEqual(self.unsaid(), [])

    def test_a_run_of_a_name_at_which_a_later_call_shows_that_nothing_was(self) -> None:
        """Such calls end in EEXIST or ENOTEMPTY else (open(2), mkdir(2), link(2), rename(2), rmdir(2))."""
        run, there = self.RUNS.replace("= 0", "= -1 ENOENT (No such file or directory)"), seen("/s/y", "reg", 0)
        for kind, later in (
            ("reg", opens("/s/x", "0xc1 /* O_WRONLY|O_CREAT|O_EXCL */, 0755")),
            ("dir", 'mkdir("/s/x", 0755) = 0'),
            ("sym", 'symlink("/bin/sh", "/s/x") = 0'),
            ("reg", 'link("/s/y", "/s/x") = 0'),
            ("reg", f'renameat2({CWD}, "/s/y", {CWD}, "/s/x", 0x1 /* RENAME_NOREPLACE */) = 0'),
        ):
            for disk in ([seen("/s/x", kind, runs=True)], [seen("/s/x", None)]):
                with self.subTest(later, disk=disk):
                    self.assertEqual(self.run_over([*disk, there], run, later)[0]["op"], "exec")
                    self.assertEqual(self.unsaid(), [])
        for kind, later in ((None, 'rmdir("/s/e") = 0'), ("dir", 'mkdir("/s/e", 0755) = 0')):
            with self.subTest(later):
                disk = [seen("/s/e", kind), seen("/s/e/x", "reg" if kind else None, runs=True)]
                found = self.run_over(disk, run.replace("/s/x", "/s/e/x"), later)
                self.assertEqual([record["op"] for record in found], ["exec", later[:5]])
                self.assertEqual(self.unsaid(), [])

    def test_a_later_call_shows_nothing_of_a_name_that_another_one_changed(self) -> None:
        run, made = self.RUNS.replace("= 0", "= -1 ENOENT (No such file or directory)"), 'mkdir("/s/x", 0755) = 0'
        self.run_over([seen("/s/x", None)], run, 'unlink("/s/x") = 0', made)
        self.assertIn((programs.UNKNOWN_PROGRAM, True), self.unsaid())

    def test_a_file_that_was_not_to_be_run_when_it_was_first_seen(self) -> None:
        """Its mode at the call is known only if it stays the same: a chmod(2) may come between the call and the look."""
        refused = 'execve("/s/x", ["x"], 0x1 /* 2 vars */) = -1 EACCES (Permission denied)'
        asked, stays = ["restrict", "open", "exec"], {"mode": [0o644, 0, 0]}
        for runs, more, ops in ((True, {}, asked), (False, stays, ["restrict"]), (False, {}, asked)):
            with self.subTest(runs, **more):
                found = self.run_over([seen("/s/x", "reg", 0, **more), {**self.READ, "runs": runs}], CONFINED, refused)
                self.assertEqual([record["op"] for record in found][:3], ops)

    def test_each_run_of_a_file_that_changes(self) -> None:
        again = {"program": "/s/x", "first": FIRST + 2, "until": FIRST + 2, "interpreter": "/s/x2"}
        read = [{**self.READ, "until": FIRST}, again, seen("/s/x2", "reg", 0, runs=True)]
        calls = (self.RUNS, opens("/s/x", "0x201 /* O_WRONLY|O_TRUNC */"), self.RUNS)
        self.assertEqual(self.run_by(read, *calls), ["/s/i", "/s/x2"])


def said(line: int, *answers: tuple[int, int, str], **more: object) -> bytes:
    """The line of a report on a record."""
    told = [
        {"abi": [oldest, newest], "answer": answer,
         **({"error": "EACCES", "layers": [{"layer": 1}]} if answer == REFUSED else {})}
        for oldest, newest, answer in answers
    ]
    return jsonl.line({"line": line, "pid": 1, "op": "open", "answers": told, **more}).encode()


class United(unittest.TestCase):
    """The answers to a record in doubt, and to what it would be otherwise."""

    def known(self, *lines: bytes) -> tuple[list[dict[int, str]], frozenset[int]]:
        """What is told of each line, by ABI, and where a call may be refused."""
        found, unsure = reports.united(lines, range(1, 4))
        told = []
        for line in found:
            answers = reports.not_allowed(reports.split(line)[3]) if line else ()
            told.append({abi: answer.verdict for abis, answer in answers for abi in abis})
        return told, unsure

    def test_all_cases_refused(self) -> None:
        found = self.known(said(1, (1, 3, REFUSED)), said(2, (1, 3, REFUSED)))
        self.assertEqual(found, ([dict.fromkeys((1, 2, 3), "refused"), {}], frozenset()))

    def test_one_case_refused(self) -> None:
        both = said(1, (1, 2, ALLOWED), (3, 3, REFUSED)), said(2, (1, 1, ALLOWED), (2, 3, REFUSED))
        self.assertEqual(self.known(*both), ([{3: "refused"}, {2: "unsure"}], frozenset({2})))
        self.assertEqual(self.known(*both[::-1]), ([{2: "unsure", 3: "refused"}, {}], frozenset({2})))

    def test_no_case_refused(self) -> None:
        moot = said(2, (1, 3, "moot"))
        self.assertEqual(self.known(said(1, (1, 3, ALLOWED)), moot), ([{}, {}], frozenset()))
        self.assertEqual(self.known(moot, said(1, (1, 3, ALLOWED)))[0][0], dict.fromkeys((1, 2, 3), "moot"))

    def test_a_report_of_refused_records_alone(self) -> None:
        self.assertEqual(self.known(b"", said(2, (1, 3, REFUSED)))[1], frozenset({1, 2, 3}))

    def test_the_kernel_agrees_with_either_case(self) -> None:
        refused = Answer(REFUSED, "EACCES", (Refusing(1),))
        record = {"op": "open", "pid": 1, "path": "/f", "fd": 1, "mode": "w", "call": 1, "unknown": MADE_OR_THERE}
        for kernel in ("ok", "EACCES"):
            for one, other in ((refused, Answer(ALLOWED)), (Answer(ALLOWED), refused)):
                process = ProcessState(domain=(object(),))  # type: ignore[arg-type]
                both = [({**record, "kernel": kernel}, one, process),
                        ({**record, "kernel": kernel, "otherwise": True}, other, process)]
                (call,) = judged_calls(both, 5)
                self.assertTrue(agree(call))

    def test_the_kernel_agrees_with_one_of_several_cases(self) -> None:
        record = {"op": "unlink", "pid": 1, "path": "/f", "call": 1, "unknown": OF_KIND, "kernel": "ok"}
        others = [Answer(MOOT), Answer(ALLOWED)]
        for cases in (others, others[::-1]):
            answers = [Answer(REFUSED, "EACCES", (Refusing(1),)), *cases]
            process = ProcessState(domain=(object(),))  # type: ignore[arg-type]
            told = [({**record, **({"otherwise": True} if number else {})}, answer, process)
                    for number, answer in enumerate(answers)]
            (call,) = judged_calls(told, 5)
            self.assertTrue(agree(call))
