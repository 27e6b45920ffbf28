"""From events of a witness to a tree and a trace, by docs/FORMATS.md and the sources of the programs that were heard."""

from __future__ import annotations

import json
import shutil
import tempfile
import unittest
from dataclasses import replace
from pathlib import Path
from typing import Any

from landaudit_record.audit.leftovers import cut_files
from landaudit_record.common import finished, jsonl, trees
from landaudit_record.common.finished import FOREIGN_RULESET
from landaudit_record.common.jsonl import Record
from landaudit_record.policy import applying
from landaudit_record.recorder import converting, recordings, witness
from landaudit_record.recorder.calls.descriptors import FOREIGN
from landaudit_record.recorder.hearing import (
    FEWER_LAYERS,
    NOT_SEEN_TO_START,
    OF_ONE_THREAD,
    RAN_BEFORE,
    RUNS_ON,
    WITHOUT_RIGHTS,
)
from landaudit_record.recorder.identities import NOT_WHOLE, NO_WAY, OTHER_ROOT
from landaudit_record.recorder.ports import Ports
from landaudit_record.recorder.unrecorded import LOST, MISSED, NOT_ENDED, NOT_RECORDED, UNHEARD

HEARD = Path(__file__).parent / "heard"
START: Record = {"witness": 1, "kernel": "6.12", "by": "fexit", "unheard": []}
END: Record = {"end": True, "heard": 0, "lost": 0, "missed": 0, "cut": 0, "left": 0}
#: What each event is about that has a path, by its last name; other names are regular files.
KINDS = {"d": "dir", "e": "dir", "tty": "char"}
#: The folder of the probe that was kept.
RW = "/tmp/probes/ordinary/work/rw"


def inode(path: str) -> int:
    """A number of its own for each path."""
    return 100 + sum(ord(letter) * 31**at for at, letter in enumerate(path))


def chain(path: str, number: int | None = None, *, missing: bool = False) -> list[list[Any]]:
    """The objects from a path up to the root, the first one with a number of its own."""
    links: list[list[Any]] = []
    names = path.split("/")[1:]
    for count in range(len(names), 0, -1):
        name, at = names[count - 1], "/" + "/".join(names[:count])
        if links or not missing:
            kind = "dir" if links else KINDS.get(name, "reg")
            links.append(["8:1", inode(at) if links or number is None else number, 0, name, kind, "" if links else "o"])
        else:
            links.append(["8:1", 0, 0, name, "none", "o?"])
    return [*links, ["8:1", 2, 0, "/", "dir", "mr"]]


def event(hook: str, path: str | None = None, *, pid: int = 10, number: int | None = None, **members: Any) -> Record:
    """An event, with a path to what is missing if it makes something."""
    found: Record = {"time": 1, "pid": pid, "tid": pid, "comm": "p", "hook": hook, "answer": 0}
    if path is not None:
        missing = hook in ("path_mknod", "path_mkdir", "path_symlink")
        found |= {"path": path, "chain": chain(path, number, missing=missing)}
    return found | members


def opened(path: str, rights: str = "r", file: str = "1", **members: Any) -> Record:
    return event("file_open", path, file=file, flags=0, rights=rights, **members)


def on_file(hook: str, path: str, file: str = "1", rights: str = "rw", **members: Any) -> Record:
    return event(hook, path, file=file, flags=0, rights=rights, **{"command": 1, **members})


def moved(hook: str, path: str, to: str, **members: Any) -> Record:
    return event(hook, path, to=to, to_chain=chain(to, missing=True), flags=0, **members)


FIRST = opened("/bin/p", "rx", "0")
RULESET = event("create", ruleset="a", fs=0b1000, net=0, scoped=0)
LAYER = event("restrict", ruleset="a", nnp=True)


class Hearing(unittest.TestCase):
    """A test on events that are written one by one; the first one is the open of a program by process 10."""

    def setUp(self) -> None:
        self.out = Path(self.enterContext(tempfile.TemporaryDirectory()))

    def hear(self, *events: Record, end: Record | None = END, start: Record = START) -> list[Record]:
        """The records that events become behind the first program's; each recording must be whole for an audit."""
        told = [start, FIRST, *events, *([end] if end is not None else [])]
        recordings.About(["p"], "/", 0.0, False, False, {}, by=recordings.WITNESS).write(self.out)
        (self.out / witness.EVENTS).write_text("".join(json.dumps(line) + "\n" for line in told), encoding="ascii")
        converting.convert(self.out, Ports())
        return [record for _, record in jsonl.numbered(self.out / "trace.jsonl") if record["call"] > 2]

    def holes(self) -> list[str]:
        """The classes of what an audit can't foresee."""
        return [entry["class"] for _, entry in jsonl.numbered(self.out / "unsaid.jsonl") if entry.get("asks") and "reach" not in entry]

    def reached(self) -> list[tuple[str, int, list[int]]]:
        """What reaches other processes."""
        said = (entry for _, entry in jsonl.numbered(self.out / finished.REACH))
        return [(entry["asks"], entry["pid"], entry["to"]) for entry in said]

    def assert_hole(self, reason: str, *events: Record) -> None:
        """The last event becomes no record, and is counted."""
        records = self.hear(*events)
        self.assertEqual([one for one in records if one["call"] == len(events) + 2 and one["op"] != "close_rs"], [])
        self.assertEqual(self.holes(), [reason])

    def said(self, *events: Record) -> list[tuple[Any, ...]]:
        """The records but for closes, each as its operation, its path or number, and the kernel's answer."""
        return [(one["op"], one.get("path", one.get("fd")), one.get("kernel"))
                for one in self.hear(*events) if one["op"] != "close"]

    def lines(self) -> dict[str, Record]:
        """The lines of the tree by their names."""
        return {line["path"]: line for _, line in jsonl.numbered(self.out / "tree.jsonl")}

    def test_what_is_made_and_what_was_there(self) -> None:
        made = self.said(event("path_mknod", "/d/new", kind="reg"), opened("/d/new", "w"), opened("/d/old"))
        self.assertEqual([op for op, _, _ in made], ["mknod", "open", "open"])
        self.assertIsNone(self.lines().get(made[0][1]))
        self.assertEqual(("made" in self.lines()["/d/new"], "made" in self.lines()["/d/old"]), (True, False))
        self.assertEqual(self.holes(), [])

    def test_a_file_that_the_next_run_cuts(self) -> None:
        made, old = opened("/d/new", "w") | {"flags": 0o1101}, opened("/d/old", "w") | {"flags": 0o1101}
        self.hear(event("path_mknod", "/d/new", kind="reg"), made, old, opened("/d/new", "w"))
        self.assertEqual(cut_files([self.out / "trace.jsonl"]), {"/d/new"})

    def test_an_inode_that_is_used_again_is_another_object(self) -> None:
        self.hear(opened("/d/f", number=7), event("path_unlink", "/d/f", number=7),
                  event("path_mknod", "/d/f", kind="reg"), opened("/d/f", number=7))
        lines = self.lines()
        self.assertEqual([line.get("made") for line in lines.values() if line.get("shown", line["path"]) == "/d/f"],
                         [None, True])

    def test_a_further_name_of_an_object(self) -> None:
        self.hear(moved("path_link", "/d/f", "/d/g", number=7), opened("/d/g", number=7))
        self.assertEqual(self.lines()["/d/g"]["same"], "/d/f")

    def test_the_same_number_at_another_name_is_another_object(self) -> None:
        self.hear(opened("/d/f", number=7), opened("/d/g", number=7))
        self.assertNotIn("same", self.lines()["/d/g"])

    def test_a_directory_that_is_mounted_elsewhere_is_the_same(self) -> None:
        bound = chain("/e/f")
        bound[1] = [*chain("/d")[0][:3], "e", "dir", "m"]
        self.hear(opened("/d"), opened("/e/f") | {"chain": bound})
        self.assertEqual(self.lines()["/e"]["same"], "/d")

    def test_names_after_an_exchange(self) -> None:
        exchanged = event("path_rename", "/d/f", to="/d/g", to_chain=chain("/d/g"), flags=2)
        self.hear(exchanged, opened("/d/f", number=inode("/d/g")), opened("/d/g", number=inode("/d/f")))
        told = {name: line.get("same") for name, line in self.lines().items() if line["kind"] == "reg"}
        self.assertEqual(told, {"/bin/p": None, "/d/f": None, "/d/g": None, "/d/f~2~": "/d/g", "/d/g~2~": "/d/f"})

    def test_an_object_below_a_directory_that_moved_was_there(self) -> None:
        below = chain("/d/f")
        below[1][3] = "moved"
        self.hear(opened("/d"), moved("path_rename", "/d", "/moved"), opened("/d/f") | {"chain": below})
        lines = self.lines()
        self.assertNotIn("made", lines["/d/f"])
        self.assertEqual(lines["/moved/f"]["same"], "/d/f")

    def test_an_answer_of_the_kernel(self) -> None:
        self.assertEqual(self.said(opened("/d/f", answer=-13)), [("open", "/d/f", "EACCES")])
        self.assertEqual(self.said(opened("/d/f", answer=-13, landlock=0)), [("open", "/d/f", "ok")])

    def test_a_program_and_its_interpreters_are_one_call(self) -> None:
        records = self.hear(opened("/bin/sh", "rx"), opened("/lib/ld", "rx"), event("exec"), opened("/bin/ls", "rx"))
        runs = [(one["path"], one.get("role"), one["call"]) for one in records if one["op"] == "exec"]
        self.assertEqual(runs, [("/bin/ls", None, 6)])
        runs = [(one["path"], one.get("role")) for _, one in jsonl.numbered(self.out / "trace.jsonl")
                if one["op"] == "exec" and one["call"] == 2]
        self.assertEqual(runs, [("/bin/p", None), ("/bin/sh", "interpreter"), ("/lib/ld", "interpreter")])

    def test_an_open_file_is_known_by_its_address(self) -> None:
        cut, told = on_file("file_truncate", "/d/f"), ("ftruncate", 3, "ok")
        self.assertEqual(self.said(opened("/d/f", "rw"), cut)[1], told)
        fork = event("fork", child=11, thread=11)
        self.assertEqual(self.said(opened("/d/f", "rw"), fork, cut | {"pid": 11, "tid": 11})[2], told)
        self.assert_hole(FOREIGN, fork, opened("/d/f", "rw"), cut | {"pid": 11, "tid": 11})

    def test_an_address_that_is_used_again(self) -> None:
        fork, cut = event("fork", child=11, thread=11), on_file("file_truncate", "/d/f")
        again = opened("/d/g", "rw", pid=11)
        self.assert_hole(FOREIGN, opened("/d/f", "rw"), fork, cut, again, on_file("file_truncate", "/d/g"))

    def test_a_descriptor_from_before_is_never_refused(self) -> None:
        self.assertEqual(self.hear(on_file("file_truncate", "/d/f"), on_file("file_ioctl", "/d/tty")), [])
        self.assertEqual(self.holes(), [])

    def test_commands_of_devices_alone_are_asked(self) -> None:
        ioctl = on_file("file_ioctl", "/d/tty", command=0x5401)
        self.assertEqual(self.said(opened("/d/tty", "rw"), ioctl)[1:], [("ioctl", 3, "ok")])
        self.assertEqual(self.said(opened("/d/f", "rw"), on_file("file_ioctl", "/d/f"))[1:], [])
        (let_through,) = [one for one in self.hear(opened("/d/tty", "rw"), ioctl | {"command": 0x5421})
                          if one["op"] == "ioctl"]
        self.assertIs(let_through["driver"], False)

    def test_access_mode_three(self) -> None:
        bare = opened("/d/f", "")
        self.assertEqual(self.said(bare, on_file("file_truncate", "/d/f", rights="")), [("truncate", "/d/f", "ok")])
        self.assert_hole(WITHOUT_RIGHTS, opened("/d/tty", ""), on_file("file_ioctl", "/d/tty", rights=""))

    def test_moves(self) -> None:
        (one,) = self.hear(moved("path_rename", "/d/f", "/e/g"))
        self.assertEqual((one["op"], one["from"], one["shown_to"]), ("rename", "/d/f", "/e/g"))
        self.assert_hole("a rename that leaves a whiteout", moved("path_rename", "/d/f", "/e/g") | {"flags": 4})

    def test_ports_and_mounts(self) -> None:
        of_tcp = {"family": 2, "port": 80, "type": 1, "protocol": 6, "of": 2, "length": 16}
        records = self.hear(event("socket_connect", **of_tcp), event("socket_bind", **{**of_tcp, "type": 2}),
                            event("sb_mount", "/d", flags=32), event("sb_remount"))
        self.assertEqual([(one["op"], one.get("port")) for one in records], [("connect", 80), ("mount", None)])

    def test_what_a_tree_cannot_say(self) -> None:
        top = chain("/d/f")
        self.assert_hole(NO_WAY, opened("/d/f") | {"chain": [*top[:-1], ["8:1", 2, 0, "/", "dir", "d"]]})
        self.assert_hole(OTHER_ROOT, opened("/d/f") | {"chain": [*top[:-1], ["8:1", 3, 0, "/", "dir", "mr"]]})
        self.assert_hole(NOT_WHOLE, opened("/d/f", cut=True))
        self.assert_hole("a name that is not UTF-8", opened("/d/\udcff"))

    def test_what_landlock_allows_or_asks_of_another(self) -> None:
        pipe = opened("/x") | {"chain": [["0:14", 1, 0, "/", "fifo", "odi"]]}
        layer = opened("/d/f", other=True)
        layer["chain"][-1] = ["0:40", 5, 0, "/", "dir", "mr"]
        self.assertEqual((self.hear(pipe, layer), self.holes()), ([], []))
        self.assertEqual(self.said(opened("/d/core", "w", other=True)), [("open", "/d/core", "ok")])

    def test_a_ruleset_becomes_records_where_it_is_used(self) -> None:
        rule = event("add_path", "/d", ruleset="a", allowed=0b100)
        port = event("add_port", ruleset="a", allowed=0b10, port=80)
        handled = RULESET | {"net": 2}
        names = [(one["op"], one.get("path"), one.get("fs"), one.get("net"), one.get("port"))
                 for one in self.hear(handled, rule, port, LAYER, opened("/d/f"))][:6]
        self.assertEqual(names, [
            ("nnp", None, None, None, None),
            ("create", None, ["read_dir"], ["connect_tcp"], None),
            ("add_path", "/d", ["read_file"], None, None),
            ("add_port", None, None, ["connect_tcp"], 80),
            ("restrict", None, None, None, None),
            ("close_rs", None, None, None, None),
        ])

    def test_a_child_has_the_layers_of_its_maker(self) -> None:
        fork, call = event("fork", child=11, thread=11), opened("/d/f", pid=11)
        own = [RULESET | {"ruleset": "b"}, LAYER | {"ruleset": "b"}]
        records = self.hear(RULESET, LAYER, fork, call, *(one | {"pid": 11, "tid": 11} for one in own), call)
        self.assertEqual([one["op"] for one in records if one["pid"] == 11],
                         ["open", "close", "create", "restrict", "close_rs", "open", "close"])
        self.assertEqual(self.holes(), [])

    def test_a_rule_is_on_all_names_of_its_object(self) -> None:
        rule = event("add_path", "/d/f", ruleset="a", allowed=0b100, number=7)
        linked = moved("path_link", "/d/f", "/d/g", number=7)
        records = self.hear(RULESET, rule, LAYER, linked, opened("/d/g", number=7))
        self.assertEqual([one["path"] for one in records if one["op"] == "add_path"], ["/d/f", "/d/g"])

    def test_a_ruleset_that_nobody_made(self) -> None:
        self.assert_hole(FOREIGN_RULESET, LAYER)

    def test_a_layer_counts_when_all_threads_have_it(self) -> None:
        thread, other = event("fork", child=10, thread=11), {"tid": 11}
        call = opened("/d/f")
        self.assertEqual([one["op"] for one in self.hear(RULESET, thread, LAYER)], [])
        self.hear(RULESET, thread, LAYER, call)
        self.assertEqual(self.holes(), [FEWER_LAYERS])
        records = self.hear(RULESET, thread, LAYER, LAYER | other, call)
        self.assertEqual([one["op"] for one in records], ["nnp", "create", "restrict", "close_rs", "open", "close"])
        self.assertEqual(self.holes(), [])
        self.hear(RULESET, thread, LAYER, event("exit", last=False) | other, call)
        self.assertEqual(self.holes(), [])
        self.hear(RULESET, thread, LAYER, event("fork", child=12, thread=12))
        self.assertEqual(self.holes(), [OF_ONE_THREAD])

    def test_other_processes(self) -> None:
        fork = event("fork", child=11, thread=11)
        look = event("ptrace_access_check", target=11, followed=True)
        self.assertEqual((self.hear(fork, look)[1:], self.holes()), ([], []))
        for target, asker in ((1, 10), (10, 11)):
            self.hear(fork, look | {"target": target, "pid": asker, "tid": asker})
            self.assertEqual((self.holes(), self.reached()), ([], [("ptrace", asker, [target])]))
        self.hear(event("task_kill", target=1, followed=False, signal=15))
        self.assertEqual(self.reached(), [("signal", 10, [1])])
        recording = finished.opened(str(self.out))
        self.assertEqual(recording.untraced, ("abstract_unix_socket", "owners"))

    def test_scopes_whose_calls_are_not_heard(self) -> None:
        """Signals that a descriptor sends (F_SETOWN) reach no hook that is heard, and fail silently."""
        self.hear(opened("/d/f"))
        for scope, begin in (("signal", "scoped = signal: signals of descriptors (F_SETOWN) were not heard"),
                             ("abstract_unix_socket", "scoped = abstract_unix_socket: calls that it may refuse")):
            (told,) = replace(finished.opened(str(self.out)), scoped=(scope,)).missing
            self.assertTrue(told.startswith(begin), told)

    def test_processes_begin_and_end(self) -> None:
        fork, end = event("fork", child=11, thread=11), event("exit", last=True, pid=11)
        self.assertEqual([one["op"] for one in self.hear(fork, end, fork, fork)], ["fork", "exit", "fork", "exit", "fork"])
        self.hear(opened("/d/f", pid=12))
        self.assertEqual(self.holes(), [NOT_SEEN_TO_START])

    def test_a_hook_of_which_nothing_is_known(self) -> None:
        self.assert_hole(NOT_RECORDED + "path_new", event("path_new", "/d/f"))

    def test_what_was_not_heard(self) -> None:
        self.hear(end=None)
        self.assertEqual((self.holes(), finished.opened(str(self.out)).ended), ([NOT_ENDED], False))
        self.hear(end=END | {"lost": 3, "missed": 2, "left": 1})
        self.assertEqual(self.holes(), [LOST, MISSED, RUNS_ON])
        self.hear(start=START | {"by": "lsm"})
        self.assertEqual(self.holes(), [UNHEARD])


class Kept(unittest.TestCase):
    """Events of `run --by witness` and `--cgroup` on Linux 6.12.117, in QEMU."""

    def kept(self, name: str) -> list[Record]:
        """The records of a kept recording, converted again."""
        folder = Path(self.enterContext(tempfile.TemporaryDirectory()))
        self.out = Path(shutil.copytree(HEARD / name, folder / name))
        converting.convert(self.out, Ports())
        return [record for _, record in jsonl.numbered(self.out / "trace.jsonl")]

    def test_an_ordinary_program(self) -> None:
        """The calls of `ordinary` in witness/tests/probes.c, each with the real path."""
        told = [(one["op"], str(one.get("shown", one.get("path", one.get("from", one.get("port"))))).removeprefix(RW))
                for one in self.kept("by_witness") if "kernel" in one]
        self.assertEqual(told, [
            ("open", "/tmp/out/probes"), ("exec", "/tmp/out/probes"),
            ("mknod", "/a"), ("open", "/a"), ("open", "/dev/null"), ("ftruncate", "None"),
            ("open", "/a"), ("ftruncate", "None"), ("truncate", "/a"), ("ioctl", "None"), ("mkdir", "/d"), ("open", "/d"),
            ("link", "/a"), ("symlink", "/s"), ("open", "/b"), ("mknod", "/p"), ("rename", "/b"),
            ("rename", "/p"), ("rename", "/d"), ("unlink", "/d"), ("rmdir", "/c"), ("bind", "0"),
            ("open", "/tmp/out/probes"), ("exec", "/tmp/out/probes"),
        ])
        self.assertEqual((self.out / "unsaid.jsonl").read_text(encoding="utf-8"), "")

    def test_a_layer_of_a_ruleset_that_another_process_made(self) -> None:
        records = self.kept("received_ruleset")
        child = next(one["child"] for one in records if one["op"] == "fork")
        self.assertEqual([(one["op"], one.get("fs")) for one in records if one["pid"] == child][:3],
                         [("nnp", None), ("create", ["make_dir"]), ("restrict", None)])
        self.assertEqual((self.out / "unsaid.jsonl").read_text(encoding="utf-8"), "")

    def test_a_unit_that_ran_before(self) -> None:
        """A shell in a cgroup that writes a file and runs programs: the policy has a place before all it asks."""
        records = self.kept("unit")
        found = [entry["class"] for _, entry in jsonl.numbered(self.out / "unsaid.jsonl")]
        self.assertEqual(found, [RAN_BEFORE, RAN_BEFORE, RUNS_ON])
        shell = next(one["pid"] for one in records if one.get("path") == "/tmp/hn")
        plan = applying.places(self.out / "trace.jsonl", trees.read(self.out / "tree.jsonl"), None)
        first = {pid: line for line, pid in reversed(plan.before.items())}[shell]
        asked = [line for line, one in enumerate(records, start=1) if one["pid"] == shell and "kernel" in one]
        self.assertEqual(first, asked[0])
        self.assertEqual(records[first]["path"], "/usr/bin/dash")
