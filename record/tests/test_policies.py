"""Policies: what reads, and which line says what is wrong with one that doesn't."""

from __future__ import annotations

import tempfile
import unittest
from pathlib import Path

from landaudit_record.common.numbered import Numbered
from landaudit_record.common.problems import UNREADABLE, Problem
from landaudit_record.common.rights import FS, NET
from landaudit_record.policy import policies
from landaudit_record.policy.policies import Access, Policy

EXAMPLE = """
[[layer]]
handled_access_fs = ["all"]
handled_access_net = ["connect_tcp"]
[[layer.path_beneath]]
allowed_access = ["read", "execute"]
parent = ["/usr", "/lib"]
[[layer.net_port]]
allowed_access = ["connect_tcp"]
port = 443
"""
READING = '[[layer]]\nhandled_access_fs = ["read_file"]\n'
RULE = "[[layer.path_beneath]]\n"


def read(text: str | bytes) -> Policy:
    """The policy of a text, which is in a file P.toml."""
    with tempfile.TemporaryDirectory() as folder:
        path = Path(folder, "P.toml")
        path.write_bytes(text if isinstance(text, bytes) else text.encode())
        return policies.read(path)


class Reading(unittest.TestCase):
    def test_the_example_reads(self) -> None:
        (layer,) = read(EXAMPLE).layers
        self.assertEqual(layer.number, 1)
        self.assertEqual(layer.handled_access_fs, Access(grouped=frozenset(FS.since)))
        self.assertEqual(layer.handled_access_net, Access(outright=frozenset({"connect_tcp"})))
        (beneath,), (port,) = layer.path_beneath, layer.net_port
        self.assertEqual((str(beneath.place), beneath.parents), ("path_beneath 1", ("/usr", "/lib")))
        self.assertEqual(beneath.allowed_access.rights, {"read_file", "read_dir", "execute"})
        self.assertEqual((str(port.place), port.ports), ("net_port 1", (443,)))

    def test_scopes_are_kept_in_a_layer_with_rights_and_alone(self) -> None:
        scoped = 'scoped = ["signal", "abstract_unix_socket"]\n'
        for text in (READING + scoped, "[[layer]]\n" + scoped):
            with self.subTest(text):
                self.assertEqual(read(text).layers[0].scoped, ("signal", "abstract_unix_socket"))
        self.assertEqual(read(READING).layers[0].scoped, ())

    def test_a_scope_that_there_is_not(self) -> None:
        for value, said in (
            ('["signals"]', "unknown scope 'signals', did you mean 'signal'"),
            ('"signal"', "list of scopes"),
            ("[1]", "unknown scope '1'"),
        ):
            with self.subTest(value), self.assertRaisesRegex(Problem, f"layer 1, scoped: .*{said}"):
                read(f"{READING}scoped = {value}\n")

    def test_layers_and_rules_are_numbered_in_their_order(self) -> None:
        rule = '[[layer.path_beneath]]\nallowed_access = ["read_file"]\nparent = "/a"\n'
        layers = read(READING + rule + rule + READING + rule).layers
        self.assertEqual([layer.number for layer in layers], [1, 2])
        self.assertEqual([rule.place for rule in layers[0].path_beneath],
                         [Numbered("path_beneath", 1), Numbered("path_beneath", 2)])
        self.assertEqual([rule.place for rule in layers[1].path_beneath], [Numbered("path_beneath", 1)])

    def test_groups_are_those_of_the_libraries(self) -> None:
        (layer,) = read('[[layer]]\nhandled_access_fs = ["write"]\n').layers
        self.assertEqual(
            FS.ordered(layer.handled_access_fs.rights),
            ["write_file", "remove_dir", "remove_file", "make_char", "make_dir", "make_reg", "make_sock", "make_fifo",
             "make_block", "make_sym", "refer", "truncate", "ioctl_dev"],
        )
        (layer,) = read('[[layer]]\nhandled_access_net = ["all"]\n').layers
        self.assertEqual(NET.ordered(layer.handled_access_net.rights), ["bind_tcp", "connect_tcp"])


class Faults(unittest.TestCase):
    def assert_fault(self, text: str | bytes, *words: str) -> None:
        """The policy is a Problem of status 3 in one line that has all these words."""
        with self.assertRaises(Problem) as caught:
            read(text)
        said = str(caught.exception)
        self.assertEqual(caught.exception.status, UNREADABLE)
        self.assertNotIn("\n", said)
        for word in ("P.toml", *words):
            self.assertIn(word, said)

    def test_a_file_that_is_not_there(self) -> None:
        with self.assertRaisesRegex(Problem, "cannot read /nowhere/P.toml"):
            policies.read(Path("/nowhere/P.toml"))

    def test_what_is_no_toml(self) -> None:
        self.assert_fault("[[layer]", "not TOML", "line 1")
        self.assert_fault(b"# \xff\n", "not TOML")

    def test_an_unknown_key_names_a_near_one_and_all(self) -> None:
        self.assert_fault('[[layers]]\nhandled_access_fs = ["all"]\n', "'layers', did you mean 'layer'?")
        self.assert_fault('[[layer]]\nhandled_access = ["all"]\n', "layer 1", "handled_access_fs, handled_access_net")
        misspelt = READING + RULE + 'allowed_acess = []\nparent = "/"\n'
        self.assert_fault(misspelt, "layer 1, path_beneath 1", "'allowed_access'")

    def test_an_unknown_right_names_a_near_one_and_all(self) -> None:
        for key, right, words in (
            ("handled_access_fs", "raed_file", "did you mean 'read_file'?"),
            ("handled_access_fs", "bind_tcp", "use all, read, write, execute, write_file, read_file"),
            ("handled_access_net", "read", "use all, bind_tcp, connect_tcp"),
        ):
            self.assert_fault(f'[[layer]]\n{key} = ["{right}"]\n', f"layer 1, {key}", f"'{right}'", words)

    def test_an_unknown_kind_of_rule(self) -> None:
        under = READING + "[[layer.path_under]]\n"
        self.assert_fault(under, "layer 1: unknown key 'path_under'", "path_beneath, net_port")

    def test_wrong_types(self) -> None:
        self.assert_fault("layer = 1\n", "write each as [[layer]]")
        self.assert_fault('[layer]\nhandled_access_fs = ["all"]\n', "write each as [[layer]]")
        self.assert_fault('[[layer]]\nhandled_access_fs = "all"\n', "layer 1, handled_access_fs", "must be a list")
        self.assert_fault("[[layer]]\nhandled_access_fs = [1]\n", "1 is not the name of a right")
        self.assert_fault(READING + 'path_beneath = "/usr"\n', "layer 1: layer.path_beneath must be tables")

    def test_what_is_empty(self) -> None:
        self.assert_fault("", "no layer")
        self.assert_fault("[[layer]]\n", "layer 1: handles nothing")
        for rule, word in (
            ('allowed_access = []\nparent = "/a"\n', "path_beneath 1, allowed_access: is empty"),
            ('allowed_access = ["read"]\nparent = []\n', "path_beneath 1, parent: is empty"),
        ):
            self.assert_fault(READING + RULE + rule, word)

    def test_what_is_missing(self) -> None:
        self.assert_fault(READING + RULE + 'allowed_access = ["read"]\n', "layer 1, path_beneath 1: parent is missing")
        self.assert_fault(READING + RULE + 'parent = "/a"\n', "layer 1, path_beneath 1: allowed_access is missing")

    def test_a_right_that_the_layer_does_not_handle(self) -> None:
        self.assert_fault(
            READING + RULE + 'allowed_access = ["read_file", "read_dir"]\nparent = "/a"\n',
            "layer 1, path_beneath 1, allowed_access", "does not handle read_dir", "handled_access_fs",
        )
        writing = READING + RULE + 'allowed_access = ["write"]\nparent = "/a"\n'
        self.assert_fault(writing, "handles none of these", "read_file")

    def test_a_group_stands_for_what_the_layer_handles(self) -> None:
        (layer,) = read(READING + RULE + 'allowed_access = ["read", "execute"]\nparent = "/a"\n').layers
        self.assertEqual(layer.path_beneath[0].allowed_access.grouped, {"read_file", "read_dir", "execute"})

    def test_ports(self) -> None:
        rule = '[[layer]]\nhandled_access_net = ["all"]\n[[layer.net_port]]\nallowed_access = ["all"]\n'
        for port in ("-1", "65536", "true", '"80"', "80.0"):
            with self.subTest(port=port):
                self.assert_fault(rule + f"port = [80, {port}]\n", "layer 1, net_port 1, port", "from 0 to 65535")

    def test_parents(self) -> None:
        rule = READING + RULE + 'allowed_access = ["read"]\n'
        for parent, word in (
            ("usr", "'usr' is not absolute"),
            ("", "'' is not absolute"),
            ("/a\\u0000b", "has a NUL character"),
            ("/" + "a" * 4096, "longer than 4096 bytes"),
        ):
            with self.subTest(word=word):
                self.assert_fault(rule + f'parent = ["/a", "{parent}"]\n', "path_beneath 1, parent", word)
        self.assert_fault(rule + "parent = 3\n", "path_beneath 1, parent", "3 is not a path")

    def test_seventeen_layers(self) -> None:
        self.assertEqual(len(read(READING * 16).layers), 16)
        self.assert_fault(READING * 17, "at most 16")
