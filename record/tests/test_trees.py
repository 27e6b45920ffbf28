"""The listed tree, and paths through its symbolic links as path_resolution(7) has them."""

from __future__ import annotations

import tempfile
import unittest
from pathlib import Path
from typing import Any

from landaudit_record.common import trees
from landaudit_record.common.problems import Problem
from landaudit_record.common.trees import LinkLoop, Tree

from .recorded import write_lines

LINES: list[dict[str, Any]] = [
    {"path": "/usr", "kind": "dir"},
    {"path": "/usr/lib", "kind": "dir"},
    {"path": "/usr/lib/libc.so", "kind": "reg"},
    {"path": "/lib", "kind": "sym", "target": "usr/lib"},
    {"path": "/lib64", "kind": "sym", "target": "/lib"},
    {"path": "/usr/up", "kind": "sym", "target": "../lib64/./libc.so"},
    {"path": "/loop", "kind": "sym", "target": "/usr/../loop"},
    {"path": "/untold", "kind": "sym"},
]


def listed(lines: list[dict[str, Any]]) -> Tree:
    """The tree of some lines."""
    with tempfile.TemporaryDirectory() as folder:
        return trees.read(write_lines(Path(folder, "tree.jsonl"), lines))


class Trees(unittest.TestCase):
    def setUp(self) -> None:
        self.tree = listed(LINES)

    def test_the_root_is_there_without_a_line(self) -> None:
        self.assertEqual(listed([]).kind("/"), "dir")

    def test_however_a_line_is_written_the_first_on_a_path_counts(self) -> None:
        lines = [b'{"path":"/a b","kind":"dir"}\n', b'{"path":"/\xc3\xa9","kind":"reg"}\n',
                 b'{"path":"/a\\"b","kind":"reg"}\n', b"  \n", b'{"kind":"reg", "path":"/a b"}\n',
                 b'{"path":"/x","kind":"sym","target":"/a b"}\n', b'{"path":"/x","kind":"reg"}\n',
                 b'{"path":"/last","kind":"fifo"}']
        with tempfile.TemporaryDirectory() as folder:
            file = Path(folder, "tree.jsonl")
            file.write_bytes(b"".join(lines))
            tree = trees.read(file)
            self.assertEqual(tree.kinds, {"/": "dir", "/a b": "dir", "/\xe9": "reg", '/a"b': "reg", "/x": "sym",
                                          "/last": "fifo"})
            self.assertEqual(tree.targets, {"/x": "/a b"})
            file.write_bytes(lines[0] + b'{"path":"/\xff","kind":"dir"}\n')
            with self.assertRaisesRegex(Problem, "line 2 is not JSON"):
                trees.read(file)

    def test_what_the_run_makes_moves_and_replaces(self) -> None:
        tree = listed([
            *LINES,
            {"path": "/usr/new", "kind": "dir", "made": True},
            {"path": "/usr/new/x", "kind": "reg", "made": True},
            {"path": "/usr/lib/libc.so~2~", "kind": "reg", "made": True, "shown": "/usr/lib/libc.so"},
            {"path": "/moved", "kind": "dir", "made": True, "same": "/usr/lib"},
            {"path": "/moved/in", "kind": "reg", "made": True},
            {"path": "/hard", "kind": "reg", "same": "/usr/lib/libc.so"},
            {"path": "/link", "kind": "sym", "target": "usr", "made": True},
        ])
        self.assertEqual(tree.names("/moved"), ["/usr/lib", "/moved"])
        self.assertEqual(tree.names("/hard"), ["/usr/lib/libc.so", "/hard"])
        for path, before in (
            ("/usr/lib", "/usr/lib"),
            ("/usr/new/x", "/usr"),
            ("/usr/lib/libc.so~2~", "/usr/lib"),
            ("/moved", "/usr/lib"),
            ("/moved/in", "/usr/lib"),
        ):
            with self.subTest(path=path):
                self.assertEqual(tree.before(path), before)
        self.assertTrue(tree.is_replaced("/usr/lib/libc.so"))
        self.assertFalse(tree.is_replaced("/usr/new"))
        self.assertEqual(tree.real("/usr/lib/libc.so~2~"), "/usr/lib/libc.so")
        self.assertEqual(tree.resolved("/link/lib"), "/usr/lib")
        self.assertEqual(tree.resolved("/link/lib", before_run=True), "/link/lib")

    def test_of_objects_that_are_made_at_one_path_the_first_one_is_named(self) -> None:
        names = [f"/a/x~{number}~" for number in range(40)]
        tree = Tree({"/": "dir", "/a": "dir"} | dict.fromkeys(names, "reg"), made=set(names),
                    shown=dict.fromkeys(names, "/a/x"))
        self.assertEqual(tree.put, {"/a/x": "/a/x~0~"})

    def test_a_line_without_a_kind_lists_nothing(self) -> None:
        with self.assertRaisesRegex(Problem, "tree.jsonl line 2 lists no object"):
            listed([LINES[0], {"path": "/a"}])

    def test_paths_resolve_through_links(self) -> None:
        for path, resolved in (
            ("/", "/"),
            ("/usr/lib", "/usr/lib"),
            ("/lib", "/usr/lib"),
            ("/lib64/libc.so", "/usr/lib/libc.so"),
            ("/usr/up", "/usr/lib/libc.so"),
            ("/lib/..", "/usr"),
            ("//usr/./lib/", "/usr/lib"),
            ("/../usr", "/usr"),
            ("/lib/none/x", "/usr/lib/none/x"),
            ("/untold/x", "/untold/x"),
        ):
            with self.subTest(path=path):
                self.assertEqual(self.tree.resolved(path), resolved)

    def test_a_loop_of_links(self) -> None:
        with self.assertRaises(LinkLoop):
            self.tree.resolved("/loop/x")

    def test_upwards(self) -> None:
        self.assertEqual(list(trees.upwards("/usr/lib/libc.so")), ["/usr/lib/libc.so", "/usr/lib", "/usr", "/"])
        self.assertEqual(list(trees.upwards("/")), ["/"])
