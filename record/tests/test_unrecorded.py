"""Each question that a witness heard must have a record that asks it; others are counted as what may be refused."""

from __future__ import annotations

import json
import shutil
import tempfile
import unittest
from pathlib import Path
from typing import Any

from landaudit_record.common import jsonl
from landaudit_record.common.jsonl import Record
from landaudit_record.recorder import converting, witness
from landaudit_record.recorder.calls.mounts import CHANGES_THE_TREE
from landaudit_record.recorder.calls.ptrace import INTO_ANOTHER
from landaudit_record.recorder.ports import Ports
from landaudit_record.recorder.unrecorded import AT_ANOTHER, LOST, MISSED, NOT_ENDED, NOT_RECORDED, UNHEARD

from .written_logs import CONFINED, CWD, WrittenLogs

START: Record = {"witness": 1, "kernel": "6.12", "by": "fexit", "unheard": []}
END: Record = {"end": True, "heard": 0, "lost": 0, "missed": 0, "cut": 0, "left": 0}
KIND = {"/w": "dir", "/w/d": "dir", "/w/m": "none", "/dev/tty": "char", "/w/fifo": "fifo"}


def node(path: str, inode: int, flags: str) -> list[Any]:
    return ["8:1", inode, 0, path.rpartition("/")[2] or "/", KIND.get(path, "reg"), flags]


def event(hook: str, path: str | None = None, *, inode: int = 7, **members: Any) -> Record:
    """An event of process 10, by docs/recording.schema.json."""
    base: Record = {"time": 1, "pid": 10, "tid": 10, "comm": "p", "hook": hook, "answer": 0, **members}
    if path is not None:
        base |= {"path": path, "chain": [node(path, inode, "o"), node("/", 2, "mr")]}
    if "to" in members:
        base["to_chain"] = [["8:1", 0, 0, "x", members.get("over", "none"), "o?"]]
    return base


def opened(path: str, rights: str = "r", file: str = "1", **members: Any) -> Record:
    return event("file_open", path, file=file, flags=0, rights=rights, **members)


def connected(port: int, **members: Any) -> Record:
    about: Record = {"family": 2, "port": port, "type": 1, "protocol": 6, "of": 2, "length": 16}
    return event("socket_connect", **{**about, **members})


#: A recording and what a witness heard beside it, on Linux 6.12: the probe `ordinary` of `make kernels`.
ORDINARY = Path(__file__).parent / "heard" / "ordinary"
#: Calls of that recording, each with the hook of what is told without it: the last question of those that are alike.
ASKED = {
    'openat(-100 /* AT_FDCWD */</tmp/probes/ordinary/work>, "rw/a", 0x242': "path_mknod",
    'openat(-100 /* AT_FDCWD */</tmp/probes/ordinary/work>, "/dev/null"': "file_open",
    'openat(-100 /* AT_FDCWD */</tmp/probes/ordinary/work>, "rw/a", 0x201': "file_open",
    'openat(-100 /* AT_FDCWD */</tmp/probes/ordinary/work>, "rw/d"': "file_open",
    "ftruncate(": "path_truncate",
    'truncate("rw/a"': "path_truncate",
    "ioctl(": "file_ioctl",
    "mkdir(": "path_mkdir",
    'link("rw/a"': "path_link",
    "symlink(": "path_symlink",
    "mknodat(": "path_mknod",
    'rename("rw/b"': "path_rename",
    'rename("rw/p"': "path_rename",
    "renameat2(": "path_rename",
    "unlink(": "path_unlink",
    "rmdir(": "path_rmdir",
    "bind(": "socket_bind",
    'execve("/proc/self/exe"': "file_open",
}

OPEN_F = f'openat({CWD}, "/w/f", 0 /* O_RDONLY */) = 3</w/f>'


class Unrecorded(WrittenLogs):
    def heard(self, events: list[Record], *lines: str, end: Record | None = END, start: Record = START) -> list[str]:
        """The classes of what is counted, with `asks`, after lines and the events of a witness."""
        told = [start, *events] if end is None else [start, *events, end]
        (self.out / witness.EVENTS).write_text("".join(json.dumps(line) + "\n" for line in told), encoding="ascii")
        self.conversion(*lines)
        lines_ = [entry for _, entry in jsonl.numbered(self.out / "unsaid.jsonl")]
        return [entry["class"] for entry in lines_ if entry.get("asks") and entry["class"] != CHANGES_THE_TREE]

    def test_a_question_that_a_record_asks_is_not_counted(self) -> None:
        self.assertEqual(self.heard([opened("/w/f")], OPEN_F), [])

    def test_a_question_without_a_record(self) -> None:
        self.assertEqual(self.heard([opened("/w/f")]), [NOT_RECORDED + "file_open"])
        entry = json.loads((self.out / "unsaid.jsonl").read_text(encoding="utf-8"))
        self.assertEqual((entry["call"], entry["line"], entry["pid"]), ("file_open r /w/f", 2, 10))

    def test_a_question_that_is_asked_twice_needs_two_records(self) -> None:
        self.assertEqual(self.heard([opened("/w/f"), opened("/w/f")], OPEN_F), [NOT_RECORDED + "file_open"])

    def test_a_question_of_another_process(self) -> None:
        self.assertEqual(self.heard([opened("/w/f") | {"pid": 11}], OPEN_F), [NOT_RECORDED + "file_open"])

    def test_another_path_kind_or_right(self) -> None:
        for other in (opened("/w/g"), opened("/w/f", "w"), opened("/w/f", "rw")):
            self.assertEqual(self.heard([other], OPEN_F), [NOT_RECORDED + "file_open"])
        as_directory = f'openat({CWD}, "/w/d", 0 /* O_RDONLY */) = 3</w/d>'
        self.assertEqual(self.heard([opened("/w/d")], as_directory), [])

    def test_a_program_is_opened_and_executed(self) -> None:
        run = opened("/w/p", "rx")
        self.assertEqual(self.heard([run]), [])
        self.assertEqual(self.heard([run, run]), [NOT_RECORDED + "file_open"] * 2)

    def test_what_a_record_makes_is_asked_to_be_made(self) -> None:
        makes = f'openat({CWD}, "/w/new", 0x41 /* O_WRONLY|O_CREAT */, 0600) = 3</w/new>'
        made = [event("path_mknod", "/w/new", kind="reg"), opened("/w/new", "w")]
        self.assertEqual(self.heard(made, makes), [])
        there = f'openat({CWD}, "/w/f", 0x41 /* O_WRONLY|O_CREAT */, 0600) = 3</w/f>'
        made = [event("path_mknod", "/w/f", kind="reg"), opened("/w/f", "w")]
        self.assertEqual(self.heard(made, there), [NOT_RECORDED + "path_mknod"])

    def test_what_is_truncated(self) -> None:
        opens = f'openat({CWD}, "/w/f", 0x201 /* O_WRONLY|O_TRUNC */) = 3</w/f>'
        cut = event("file_truncate", "/w/f", file="1", flags=0, rights="w")
        self.assertEqual(self.heard([opened("/w/f", "w"), cut], opens), [])
        self.assertEqual(self.heard([opened("/w/f", "w"), cut, cut], opens, "ftruncate(3</w/f>, 0) = 0"), [])
        self.assertEqual(self.heard([opened("/w/f", "w"), cut, cut], opens), [NOT_RECORDED + "file_truncate"])

    def test_a_descriptor_from_before_is_never_refused(self) -> None:
        self.assertEqual(self.heard([event("file_truncate", "/w/f", file="9", flags=0, rights="w")]), [])
        self.assertEqual(self.heard([event("file_ioctl", "/dev/tty", file="9", flags=0, rights="r", command=1)]), [])

    def test_a_device_is_asked_for_each_command(self) -> None:
        opens = f'openat({CWD}, "/dev/tty", 0x2 /* O_RDWR */) = 3</dev/tty<char 5:0>>'
        asked = event("file_ioctl", "/dev/tty", file="1", flags=0, rights="rw", command=1)
        call = "ioctl(3</dev/tty<char 5:0>>, 0x5401 /* TCGETS */, 0x7ffd) = 0"
        self.assertEqual(self.heard([opened("/dev/tty", "rw"), asked], opens, call), [])
        self.assertEqual(self.heard([opened("/dev/tty", "rw"), asked], opens), [NOT_RECORDED + "file_ioctl"])
        on_file = event("file_ioctl", "/w/f", file="1", flags=0, rights="r", command=1)
        self.assertEqual(self.heard([opened("/w/f"), on_file], OPEN_F), [])

    def test_a_rename_has_both_paths_and_both_kinds(self) -> None:
        moved = event("path_rename", "/w/f", to="/w/x", flags=0)
        self.assertEqual(self.heard([moved], 'rename("/w/f", "/w/x") = 0'), [])
        self.assertEqual(self.heard([moved], 'rename("/w/f", "/w/g") = 0'), [NOT_RECORDED + "path_rename"])
        over_directory = moved | {"to_chain": [["8:1", 0, 0, "x", "dir", "o"]]}
        self.assertEqual(self.heard([over_directory], 'rename("/w/f", "/w/x") = 0'), [NOT_RECORDED + "path_rename"])
        over = event("path_rename", "/w/f", to="/w/g", flags=0, over="reg")
        self.assertEqual(self.heard([over], 'rename("/w/f", "/w/g") = 0'), [])
        exchanged = over | {"flags": 2}
        self.assertEqual(self.heard([exchanged], 'rename("/w/f", "/w/g") = 0'), [NOT_RECORDED + "path_rename"])
        other = over | {"chain": [["8:1", 7, 0, "f", "fifo", "o"]]}
        self.assertEqual(self.heard([other], 'rename("/w/f", "/w/g") = 0'), [NOT_RECORDED + "path_rename"])

    def test_names_that_are_made_and_removed(self) -> None:
        lines = ('mkdir("/w/m", 0700) = 0', 'symlink("a", "/w/l") = 0', 'unlink("/w/f") = 0', 'rmdir("/w/d") = 0')
        asked = [event("path_mkdir", "/w/m"), event("path_symlink", "/w/l"), event("path_unlink", "/w/f"),
                 event("path_rmdir", "/w/d")]
        self.assertEqual(self.heard(asked, *lines), [])
        self.assertEqual(self.heard(asked), [NOT_RECORDED + one["hook"] for one in asked])

    def test_a_call_that_seems_to_end_before_it_is_asked(self) -> None:
        """A file server or a device may answer so, after Landlock was asked."""
        for error in ("EROFS (Read-only file system)", "ENOSYS (Function not implemented)", "EBADF (Bad file descriptor)"):
            made = event("path_mkdir", "/w/m")
            self.assertEqual(self.heard([made], f'mkdir("/w/m", 0700) = -1 {error}'), [NOT_RECORDED + "path_mkdir"])

    def test_another_object_at_the_same_name(self) -> None:
        twice = [opened("/w/f", inode=7), opened("/w/f", inode=8)]
        self.assertEqual(self.heard(twice, OPEN_F, OPEN_F.replace("3<", "4<")), [AT_ANOTHER + "file_open"])

    def test_ports_of_tcp_alone_are_asked(self) -> None:
        self.assertEqual(self.heard([connected(80)]), [NOT_RECORDED + "socket_connect"])
        for other in ({"type": 2, "protocol": 17}, {"of": 1}, {"family": 0}, {"family": 10}):
            self.assertEqual(self.heard([connected(80, **other)]), [])
        call = ("connect(3<TCP:[1]>, {sa_family=0x2 /* AF_INET */, sin_port=htons(80), "
                'sin_addr=inet_addr("127.0.0.1")}, 16) = 0')
        made = "socket(0x2 /* AF_INET */, 0x1 /* SOCK_STREAM */, 0x6 /* IPPROTO_TCP */) = 3<TCP:[1]>"
        self.assertEqual(self.heard([connected(80)], made, call), [])
        self.assertEqual(self.heard([connected(81)], made, call), [NOT_RECORDED + "socket_connect"])

    def test_a_remount_asks_twice_for_one_call(self) -> None:
        asked = [event("sb_mount", "/w/d", flags=32), event("sb_remount")]
        call = 'mount("none", "/w/d", "", 0x20 /* MS_REMOUNT */, NULL) = 0'
        self.assertEqual(self.heard(asked, call), [])
        self.assertEqual(self.heard([event("sb_remount")], call), [])
        self.assertEqual(self.heard([*asked, event("sb_remount")], call), [NOT_RECORDED + "sb_remount"])

    def test_what_landlock_allows_or_asks_of_another_is_left(self) -> None:
        pipe = opened("/x") | {"chain": [["0:14", 1, 0, "/", "fifo", "odi"]]}
        self.assertEqual(self.heard([pipe, opened("/w/f", other=True), opened("/w/f", "")]), [])

    def test_other_processes(self) -> None:
        look = event("ptrace_access_check", target=1, followed=False)
        self.assertEqual(self.heard([look]), [NOT_RECORDED + "ptrace_access_check"])
        self.assertEqual(self.heard([look | {"followed": True}]), [])
        self.assertEqual(self.heard([look], 'stat("/proc/1/root", 0x7ffd) = 0'), [INTO_ANOTHER])
        self.heard([event("task_kill", target=1, followed=False, signal=15)])
        self.assertIn('"scope":"signal"', (self.out / "unsaid.jsonl").read_text(encoding="utf-8"))

    def test_a_layer_without_a_ruleset(self) -> None:
        layer = event("restrict")
        self.assertEqual(self.heard([layer], *CONFINED), [])
        self.assertEqual(self.heard([layer, layer], *CONFINED), [NOT_RECORDED + "restrict"])
        self.assertEqual(self.heard([layer, layer | {"tid": 11}], *CONFINED), [])
        self.assertIn(NOT_RECORDED + "restrict", self.heard([layer], CONFINED[1]))

    def test_what_the_witness_did_not_hear(self) -> None:
        self.assertEqual(self.heard([], end=None), [NOT_ENDED])
        with open(self.out / witness.EVENTS, "a", encoding="ascii") as out:
            out.write('{"end":')
        self.conversion()
        self.assertEqual(self.unsaid(), [(NOT_ENDED, True)])
        self.assertEqual(self.heard([], end=END | {"lost": 3, "missed": 2}), [LOST, MISSED])
        self.assertEqual(self.heard([], start=START | {"by": "lsm"}), [])
        self.assertEqual(self.heard([], *CONFINED, start=START | {"by": "lsm"}), [UNHEARD])

    def test_a_path_that_is_not_whole(self) -> None:
        self.assertEqual(self.heard([opened("/f", cut=True)], OPEN_F), [NOT_RECORDED + "file_open"])
        self.assertIn("(a part of its path)", (self.out / "unsaid.jsonl").read_text(encoding="utf-8"))

    def test_what_landlock_alone_answered_is_kept(self) -> None:
        makes = f'openat({CWD}, "/w/new", 0x41 /* O_WRONLY|O_CREAT */, 0600) = -1 EACCES (Permission denied)'
        made = event("path_mknod", "/w/new", kind="reg", landlock=0)
        self.assertEqual(self.heard([made, opened("/w/new", "w", answer=-13, landlock=-13)], *CONFINED, makes), [])
        self.assertEqual(witness.own_answers(self.out), {4: "EACCES"})
        self.assertEqual(self.heard([opened("/w/f", landlock=0)], OPEN_F), [])
        self.assertEqual(witness.own_answers(self.out), {2: "ok"})
        self.heard([opened("/w/f")], OPEN_F)
        self.assertEqual(witness.own_answers(self.out), {})

    def test_a_name_that_is_not_ascii(self) -> None:
        opens = f'openat({CWD}, "/w/f\\303\\251", 0x41 /* O_WRONLY|O_CREAT */, 0600) = 3</w/f\\303\\251>'
        asked = [event("path_mknod", "/w/f\udcc3\udca9", kind="reg"), opened("/w/f\udcc3\udca9", "w")]
        self.assertEqual(self.heard(asked, opens), [])

    def test_a_name_that_is_not_utf_8_is_told(self) -> None:
        self.assertEqual(self.heard([opened("/w/\udcff")]), [NOT_RECORDED + "file_open"])
        (entry,) = [entry for _, entry in jsonl.numbered(self.out / "unsaid.jsonl")]
        self.assertEqual(entry["call"], "file_open r /w/\\xff")

    def test_a_recording_without_a_witness(self) -> None:
        self.conversion(OPEN_F)
        self.assertEqual(self.unsaid(), [])


class Kept(unittest.TestCase):
    """Events that a witness wrote beside strace."""

    def setUp(self) -> None:
        folder = Path(self.enterContext(tempfile.TemporaryDirectory()))
        self.out = Path(shutil.copytree(ORDINARY, folder / "ordinary"))
        self.log = (self.out / "strace.txt").read_text(encoding="ascii")

    def told(self, log: str) -> list[str]:
        """What is told of the recording with a log."""
        (self.out / "strace.txt").write_text(log, encoding="ascii")
        converting.convert(self.out, Ports())
        return [entry["class"] for _, entry in jsonl.numbered(self.out / "unsaid.jsonl")]

    def test_each_question_has_a_record(self) -> None:
        self.assertEqual(self.told(self.log), [])

    def test_a_call_that_the_log_does_not_have_is_told(self) -> None:
        for call, hook in ASKED.items():
            with self.subTest(call):
                lines = self.log.splitlines(keepends=True)
                rest = [line for line in lines if not line.split(maxsplit=1)[1].startswith(call)]
                self.assertEqual(len(rest), len(lines) - 1)
                self.assertIn(NOT_RECORDED + hook, self.told("".join(rest)))
