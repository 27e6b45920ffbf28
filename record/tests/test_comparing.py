"""Comparing answers with what the kernel did: what agrees, and the class of each difference.

The expected classes are those of docs/SEMANTICS.md, "Where a running kernel differs".
"""

from __future__ import annotations

import os
import stat
import tempfile
import unittest
from dataclasses import replace
from pathlib import Path
from typing import Any

from landaudit_record.audit import comparing, comparing_text
from landaudit_record.audit.comparing import Class, Classes, Difference, Tally
from landaudit_record.audit.kernel_calls import judged_calls
from landaudit_record.common.rights import alone
from landaudit_record.common.trees import Tree
from landaudit_record.engine.reading import judged

from .recorded import Said, unexplained, write_lines, write_report

Row = tuple[dict[str, Any], Said]
"""A record without its pid, and landaudit's answer to it."""

PID = 10
BY_A_LAYER = unexplained("EACCES", 1)
TREE = Tree(
    {
        "/": "dir",
        "/a": "dir",
        "/a/d": "dir",
        "/a/f": "reg",
        "/a/c": "char",
        "/a/s": "sock",
        "/b": "dir",
        "/b/f": "reg",
        "/ld.so": "reg",
    }
)


def confined(fs: list[str], net: list[str] | None = None, rs: int = 3) -> list[Row]:
    """The records by which a process comes under a layer, with answers that agree."""
    return [
        ({"op": "create", "rs": rs, "fs": fs, "net": net or [], "call": rs, "kernel": "ok"}, "allowed"),
        ({"op": "restrict", "rs": rs, "call": rs + 100, "kernel": "ok"}, "allowed"),
    ]


def compared(
    rows: list[Row], abi: int = 5, standing: dict[str, os.stat_result] | None = None, own: dict[int, str] | None = None
) -> Tally:
    """Compares a trace of one process, of which `start` and nnp come before the rows; `own` are Landlock's answers."""
    begun: list[Row] = [({"op": "start"}, "allowed"), ({"op": "nnp"}, "allowed")]
    records = [({"pid": PID, **record}, answer) for record, answer in begun + rows]
    with tempfile.TemporaryDirectory() as folder:
        calls = [record for record, _ in records]
        trace = write_lines(Path(folder, "trace.jsonl"), calls)
        report = write_report(Path(folder, "report.jsonl"), calls, [answer for _, answer in records], alone(abi))
        tally = Tally()
        classes = Classes(TREE, abi, (standing or {}).get)
        found = judged_calls(judged(trace, report, abi), abi)
        told = (replace(call, own=(own or {}).get(call.number)) for call in found)
        list(comparing.compare(told, classes, tally))
    return tally


def seen(mode: int, device: int = 1) -> os.stat_result:
    """What stat(2) says of an object with a mode on a file system."""
    return os.stat_result((mode, 1, device, 1, 0, 0, 0, 0, 0, 0))


def opened(kernel: str, path: str = "/a/f") -> dict[str, Any]:
    return {"op": "open", "path": path, "fd": 4, "mode": "r", "call": 9, "kernel": kernel}


class Agreement(unittest.TestCase):
    """What counts, and what agrees."""

    def test_calls_outside_of_a_layer_do_not_count(self) -> None:
        tally = compared([(opened("ok"), "allowed")])
        self.assertEqual(tally.calls, 0)

    def test_calls_on_rulesets_count_everywhere_and_others_under_a_layer(self) -> None:
        tally = compared(confined(["read_file"]) + [(opened("EACCES"), BY_A_LAYER)])
        self.assertEqual((tally.calls, tally.agreed), (3, 3))
        self.assertEqual(tally.by_op, {"create": 1, "restrict": 1, "open": 1})

    def test_the_answer_of_landlock_alone_counts_if_it_is_known(self) -> None:
        by_another = [*confined(["read_file"]), (opened("EACCES"), "allowed")]
        self.assertEqual((compared(by_another).unnamed, compared(by_another, own={9: "ok"}).unnamed), (1, 0))
        refused = [*confined(["read_file"]), (opened("EACCES"), BY_A_LAYER)]
        self.assertEqual((compared(refused).unnamed, compared(refused, own={9: "ok"}).unnamed), (0, 1))

    def test_a_call_is_refused_if_one_of_its_records_is(self) -> None:
        program = {"op": "exec", "path": "/a/f", "call": 9, "kernel": "ok"}
        loader = {"op": "exec", "path": "/ld.so", "role": "interpreter", "call": 9, "kernel": "EACCES"}
        rows: list[Row] = [*confined(["execute"]), (program, "allowed"), (loader, BY_A_LAYER)]
        self.assertEqual((compared(rows).calls, compared(rows).agreed), (3, 3))

    def test_books_alone_are_no_call(self) -> None:
        tally = compared(confined(["read_file"]) + [({"op": "adopt", "fd": 0, "kind": "other"}, "allowed")])
        self.assertEqual(tally.calls, 2)

    def test_a_forked_child_is_under_its_parents_layers(self) -> None:
        forked: list[Row] = [({"op": "fork", "child": 11}, "allowed"), ({**opened("ok"), "pid": 11}, "allowed")]
        self.assertEqual(compared(confined(["read_file"]) + forked).by_op["open"], 1)

    def test_the_error_must_be_the_same(self) -> None:
        for kernel in ("ok", "EXDEV", "ENOENT"):
            with self.subTest(kernel=kernel):
                tally = compared(confined(["read_file"]) + [(opened(kernel), BY_A_LAYER)])
                self.assertEqual(tally.differences, {Class.UNNAMED: 1})

    def test_what_the_kernel_refuses_for_another_reason_is_let_through_by_both(self) -> None:
        for kernel in ("ENOENT", "EEXIST", "ETXTBSY", "EDQUOT"):
            for answer in ("allowed", "moot"):
                with self.subTest(kernel=kernel, answer=answer):
                    tally = compared(confined(["read_file"]) + [(opened(kernel), answer)])
                    self.assertEqual((tally.calls, tally.agreed), (3, 3))

    def test_a_refusal_that_landaudit_does_not_know_has_no_name(self) -> None:
        tally = compared(confined(["read_file"]) + [(opened("EACCES"), "allowed")])
        self.assertEqual((tally.differences, tally.unnamed), ({Class.UNNAMED: 1}, 1))

    def test_an_exec_is_one_call_with_the_first_refusal(self) -> None:
        group = {"call": 9, "kernel": "EACCES"}
        rows: list[Row] = [
            ({"op": "open", "path": "/a/f", "fd": 4, "mode": "r", **group}, "allowed"),
            ({"op": "exec", "path": "/a/f", **group}, "allowed"),
            ({"op": "exec", "path": "/ld.so", "role": "interpreter", **group}, BY_A_LAYER),
            ({"op": "close", "fd": 4, "call": 9}, "allowed"),
        ]
        tally = compared(confined(["execute"]) + rows)
        self.assertEqual((tally.by_op["exec"], tally.calls, tally.agreed), (1, 3, 3))

    def test_a_ruleset_call_must_have_the_same_outcome(self) -> None:
        refused = {"op": "create", "rs": 3, "fs": [], "call": 1, "kernel": "ENOMSG"}
        self.assertEqual(compared([(refused, unexplained("ENOMSG"))]).agreed, 1)
        self.assertEqual(compared([({**refused, "kernel": "EINVAL"}, unexplained("ENOMSG"))]).agreed, 0)
        self.assertEqual(compared([({**refused, "kernel": "ENOMSG"}, "allowed")]).agreed, 0)

    def test_a_process_is_confined_too_where_the_kernel_alone_says_so(self) -> None:
        rows = confined(["read_file"])
        rows[1] = (rows[1][0], unexplained("EPERM"))
        made = {"op": "mknod", "path": "/a/w", "kind": "char", "call": 10, "kernel": "EACCES"}
        tally = compared(rows + [(opened("EACCES"), "allowed"), (made, "allowed")])
        self.assertEqual((tally.calls, tally.differences), (4, {Class.UNNAMED: 3}))


class NamedClasses(unittest.TestCase):
    """Each class of difference once."""

    def assert_class(self, because: Class, rows: list[Row], **how: Any) -> None:
        tally = compared(rows, **how)
        self.assertEqual(tally.differences, {because: 1})

    def test_rights_newer_than_the_abi(self) -> None:
        """Beside the create, all that comes of the ruleset differs."""
        rows = confined(["read_file", "truncate"])
        rows = [(rows[0][0], unexplained("EINVAL")), (rows[1][0], unexplained("EBADF")), (opened("EACCES"), "allowed")]
        tally = compared(rows, abi=2)
        self.assertEqual((tally.calls, tally.differences, tally.unnamed), (3, {Class.NEWER: 3}, 0))

    def test_an_error_that_is_left_out(self) -> None:
        call = {"op": "add_path", "rs": 3, "path": "/a", "fs": ["read_file"], "call": 9, "kernel": "EBADFD"}
        self.assert_class(Class.LEFT_OUT, confined(["read_file"]) + [(call, "allowed")])

    def test_running_a_file_also_reads_it(self) -> None:
        call = {"op": "exec", "path": "/a/f", "call": 9, "kernel": "EACCES"}
        self.assert_class(Class.RUNNING_READS, confined(["read_file"]) + [(call, "allowed")])

    def test_a_layer_of_ports_and_moves(self) -> None:
        call = {"op": "rename", "from": "/a/f", "to": "/b/g", "call": 9, "kernel": "EXDEV"}
        layers = confined(["read_file"]) + confined([], ["bind_tcp"], rs=4)
        self.assert_class(Class.PORTS_AND_MOVES, layers + [(call, "allowed")])

    def test_landlock_asked_before_the_tree(self) -> None:
        shapes: list[dict[str, Any]] = [
            {"op": "unlink", "path": "/a/d"},
            {"op": "rmdir", "path": "/a/f"},
            {"op": "link", "from": "/a/d", "to": "/b/d"},
            {"op": "rename", "from": "/a/f", "to": "/a/f"},
            {"op": "rename", "from": "/a/d", "to": "/b/f"},
            {"op": "open", "path": "/a/s", "fd": 4, "mode": "r"},
        ]
        for shape in shapes:
            with self.subTest(shape=shape):
                call = {**shape, "call": 9, "kernel": "EACCES"}
                self.assert_class(Class.BEFORE_THE_TREE, confined(["remove_dir"]) + [(call, "moot")])

    def test_a_whiteout_written_as_a_device(self) -> None:
        for call in ({"op": "mknod", "path": "/a/w", "kind": "char"}, {"op": "rename", "from": "/a/c", "to": "/a/x"}):
            with self.subTest(call=call):
                rows = confined(["make_char"]) + [({**call, "call": 9, "kernel": "ok"}, BY_A_LAYER)]
                self.assert_class(Class.WHITEOUTS, rows)

    def test_an_ioctl_with_the_wrong_driver(self) -> None:
        for driver, answer, kernel in ((True, BY_A_LAYER, "ok"), (False, "allowed", "EACCES")):
            with self.subTest(driver=driver):
                call = {"op": "ioctl", "fd": 4, "driver": driver, "call": 9, "kernel": kernel}
                self.assert_class(Class.IOCTL, confined(["ioctl_dev"]) + [(call, answer)])

    def test_a_file_that_may_not_be_run(self) -> None:
        group = {"path": "/a/f", "call": 9, "kernel": "EACCES"}
        rows = confined(["execute"])
        rows += [({"op": "open", "fd": 4, "mode": "r", **group}, "allowed"), ({"op": "exec", **group}, "allowed")]
        self.assert_class(Class.MODES, rows, standing={"/a/f": seen(stat.S_IFREG | 0o644)})
        self.assert_class(Class.UNNAMED, rows, standing={"/a/f": seen(stat.S_IFREG | 0o755)})

    def test_a_move_between_file_systems(self) -> None:
        move = {"op": "rename", "from": "/a/f", "to": "/b/g", "call": 9, "kernel": "EXDEV"}
        rows = confined(["read_file"]) + [(move, "allowed")]
        directory = stat.S_IFDIR | 0o755
        self.assert_class(Class.MOUNTS, rows, standing={"/a": seen(directory, 1), "/b": seen(directory, 2)})
        self.assert_class(Class.UNNAMED, rows, standing={"/a": seen(directory, 1), "/b": seen(directory, 1)})

    def test_what_the_tree_lacks(self) -> None:
        for kernel in ("ok", "EACCES"):
            with self.subTest(kernel=kernel):
                self.assert_class(Class.NOT_LISTED, confined(["read_file"]) + [(opened(kernel, "/nothing"), "moot")])


class WrittenOut(unittest.TestCase):
    """The comparison as lines and as data."""

    def tally(self) -> Tally:
        calls: list[Row] = [(opened("ok"), BY_A_LAYER), ({**opened("ok"), "call": 10}, "allowed")]
        return compared(confined(["read_file"]) + calls)

    def test_lines(self) -> None:
        self.assertEqual(
            list(comparing_text.lines(self.tally(), "rec at ABI 5")),
            [
                "rec at ABI 5",
                "        4  calls on rulesets or under a layer",
                "        3  agree, 75.000 %",
                "        0  of these, moot (Landlock is not asked)",
                "",
                "differences by class",
                "        1  unnamed",
                "           line 9: open r /a/f: landaudit refused EACCES 1, kernel ok",
            ],
        )

    def test_data(self) -> None:
        data = comparing_text.as_data(self.tally(), 5)
        self.assertEqual((data["calls"], data["agree"], data["percent"]), (4, 3, 75.0))
        [difference] = data["differences"]
        self.assertEqual((difference["class"], difference["named"], difference["times"]), ("unnamed", False, 1))
        self.assertEqual(difference["example"]["place"], "/a/f")

    def test_all_is_all(self) -> None:
        """A share that is nearly all is not rounded up to it."""
        tally = Tally(calls=1_000_000)
        call = next(iter(self.tally().examples.values())).call
        tally.differences[Class.UNNAMED] += 1
        tally.examples[Class.UNNAMED] = Difference(call, Class.UNNAMED)
        self.assertIn("  999,999  agree, 99.999 %", list(comparing_text.lines(tally, "rec")))
