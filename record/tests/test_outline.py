"""Where things are in a policy's file: by hand, and by what tomllib reads."""

from __future__ import annotations

import time
import tomllib
import unittest
from collections.abc import Iterator
from typing import Any

from landaudit_record.common import comments, outline
from landaudit_record.common.numbered import Numbered
from landaudit_record.common.problems import UNREADABLE, Problem
from landaudit_record.policy.forms import c

from .test_policies import read

HARD = '''# whole
"quoted key" = 'it # is' # behind
dotted . "key\\u0020" . x = { inner = [1, 2.5, [1979-05-27 07:32:00Z, +inf]], b . c = {} } # behind
text = """
[[layer]] # no comment
\\""" "" ""more\\\\"""""
literal = \'\'\'
'# [a]'\'\'\'\'
[[layer]] # of the layer
# of a key
list = [ # of an item
  "]", # of another
  \'}\' , { x = "=" },
]
[layer.sub]
x = -1e3
[[ layer . "path_beneath" ]]
y = ["a", ] # "
[[layer]]
[[layer.path_beneath]]
[[layer.path_beneath]]
y.z = true
[other.table]
[[layer.path_beneath]]
z = 1
'''
LAYER = '[[layer]]\nhandled_access_fs = ["all"]\n'
RULE = '[[layer.path_beneath]]\nallowed_access = ["read"]\nparent = "/a"\n'


def leaves(value: Any, path: outline.Path = ()) -> Iterator[outline.Path]:
    """The path of each value that is no table with a header or a dotted key of its own."""
    if isinstance(value, dict):
        for key, of in value.items():
            yield from leaves(of, (*path, key))
    else:
        yield path
        if isinstance(value, list):
            for number, of in enumerate(value):
                yield from leaves(of, (*path, number))


class Places(unittest.TestCase):
    def test_each_value_that_tomllib_reads_has_a_place(self) -> None:
        found = outline.of(HARD)
        known = set(found.values) | set(found.keys)
        lists = {("layer",), ("layer", 0, "path_beneath"), ("layer", 1, "path_beneath")}
        self.assertEqual(set(leaves(tomllib.loads(HARD))) - known, lists, "lists of tables have one for each table")
        self.assertEqual({path for path in found.values if path not in set(leaves(tomllib.loads(HARD)))},
                         {("dotted", "key ", "x"), ("dotted", "key ", "x", "b", "c"), ("layer", 0, "list", 2)})

    def test_where_values_begin(self) -> None:
        found = outline.of(HARD)
        for path, text in ((("quoted key",), "'it # is"), (("layer", 0, "list", 2, "x"), '"="'),
                           (("literal",), "'''\n'#"),
                           (("dotted", "key ", "x", "inner", 2, 1), "+inf"), (("layer", 0, "list", 1), "'}'"),
                           (("layer", 1, "path_beneath", 1, "y", "z"), "true"), (("layer", 0, "sub", "x"), "-1e3"),
                           (("layer", 1, "path_beneath", 2, "z"), "1\n")):
            with self.subTest(path):
                offset = found.values[path]
                self.assertEqual(HARD[offset : offset + len(text)], text)

    def test_the_comments_and_their_tables(self) -> None:
        self.assertEqual(outline.of(HARD).comments, [
            ((), "whole"), ((), "behind"), ((), "behind"), (("layer", 0), "of the layer"), (("layer", 0), "of a key"),
            (("layer", 0), "of an item"), (("layer", 0), "of another"), (("layer", 0, "path_beneath", 0), '"')])

    def test_a_fault_names_its_line_and_column(self) -> None:
        for text, place in (
            (LAYER + RULE.replace('"read"', '"read", "reed"'), (4, 27)),
            (LAYER + RULE.replace('"/a"', '[\n  "/b", # b\n  "a"]'), (7, 3)),
            (LAYER + RULE.replace("parent", "parrent"), (5, 1)),
            (LAYER + RULE.replace('parent = "/a"\n', ""), (3, 1)),
            (LAYER + "\r\n" + RULE.replace('"read"', '"make_sock", "x"'), (5, 32)),
            (LAYER + LAYER.replace("fs", "net").replace("all", "bind"), (4, 23)),
            (LAYER + '[[layer.net_port]]\nallowed_access = ["all"]\nport = [1,70000]\n', (4, 18)),
            (LAYER + "include = ['base', 'bass']\n", (3, 20)),
            (LAYER + "scoped = ['signals']\n", (3, 11)),
            ("x = 1\n" + LAYER, (1, 1)),
            ("layer = 3\n", (1, 1)),
            (LAYER + "path_beneath = 3\n", (3, 1)),
        ):
            with self.subTest(text), self.assertRaises(Problem) as caught:
                read(text)
            self.assertRegex(str(caught.exception), rf" \(at line {place[0]}, column {place[1]}\)\Z", text)

    def test_words_that_help(self) -> None:
        for text, said in (
            (LAYER.replace("all", "LANDLOCK_ACCESS_FS_READ_FILE"), "_FS_READ_FILE' is written 'read_file' here"),
            (LAYER.replace("all", "READ_DIR"), "'READ_DIR' is written 'read_dir' here"),
            (LAYER.replace("fs", "net").replace("all", "LANDLOCK_ACCESS_NET_BIND_TCP"), "is written 'bind_tcp' here"),
            (LAYER.replace("all", "resolve_unix"), "'resolve_unix' is a right of a newer ABI than 5, the newest"),
            ("\ufeff" + LAYER, "begins with a byte order mark, which TOML does not have: save it as UTF-8 without one"),
        ):
            with self.subTest(text), self.assertRaises(Problem) as caught:
                read(text)
            self.assertIn(said, str(caught.exception))

    def test_a_key_of_very_many_parts(self) -> None:
        began = time.process_time()
        for key in ("a." * 20_000, '"a" . ' * 9_000, "[b." + "a." * 20_000):
            with self.subTest(key[:9]), self.assertRaises(Problem) as caught:
                read(f"{LAYER}# x\n{key}b = 1\n")
            self.assertEqual(caught.exception.status, UNREADABLE)
            self.assertIn("line 4: a key has more than 64 parts", str(caught.exception))
        for text in ("a" * 10**6, '\\"' * 10**5, '"' * 10**5, "'" * 10**5, "a." * 60 + "a" * 10**5, '" ' * 10**5,
                     "." * 10**6, "a . " * 60 + "= " * 10**5, '"""' + '\\"""' * 10**5):
            with self.subTest(text[:9]):
                self.assertIsNone(outline.long_key(text))
        self.assertLess(time.process_time() - began, 5)
        read(LAYER + RULE.replace("/a", "/" + "a." * 200))


class Comments(unittest.TestCase):
    def exported(self, text: str) -> list[str]:
        """The comments that the exported code of a policy has of its own."""
        lines = c.written(read(text), comments.read(text), False).lines
        return [line.strip() for line in lines if "of mine" in line]

    def test_a_line_of_a_text_is_no_comment(self) -> None:
        rule = RULE.replace('"/a"', '"""/a\n# x of mine\n"""')
        self.assertEqual([line for line in self.exported(LAYER + rule) if line.startswith("/*")], [])

    def test_a_header_in_a_text_takes_no_comments(self) -> None:
        rule = RULE.replace('"/a"', '"""/a\n[[layer]]\n"""')
        other = "# of mine\n" + RULE
        self.assertEqual(self.exported(LAYER + rule + other), ["/* of mine */"])
        self.assertEqual(comments.read(LAYER + rule + other).on_rule(1, Numbered("path_beneath", 2)), ["of mine"])

    def test_rules_of_both_kinds_by_turns(self) -> None:
        port = '[[layer.net_port]]\nallowed_access = ["all"]\nport = 1\n'
        accepted = "# d\n[[accepted]]\n# e\ncall = 'x'\n"
        found = comments.read(f"{LAYER}# a\n{RULE}# b\n{port}# c\n{RULE}{accepted}# f\n{LAYER}# g\n")
        self.assertEqual(found.parts, {(1, Numbered("path_beneath", 1)): ["a"], (1, Numbered("net_port", 1)): ["b"],
                                       (1, Numbered("path_beneath", 2)): ["c"], (2, None): ["f", "g"]})
