"""What lint finds in a policy, in a folder of real files."""

from __future__ import annotations

import functools
import tempfile
import unittest
from pathlib import Path
from unittest import mock

from landaudit_record import cli
from landaudit_record.policy import parents
from landaudit_record.recorder.mounted import MountPlaces

from .calling import called

WARNED = "warning: without effect unless it is moved or linked: "
LAYER = '[[layer]]\nhandled_access_fs = ["all"]\nhandled_access_net = ["all"]\n'


class Linting(unittest.TestCase):
    def setUp(self) -> None:
        self.folder = Path(self.enterContext(tempfile.TemporaryDirectory())).resolve()
        for directory in ("d", "d/e", "o", "home/.ssh"):
            (self.folder / directory).mkdir(parents=True)
        for file in ("d/f", "o/f"):
            (self.folder / file).write_text("")
        (self.folder / "link").symlink_to("d")

    def rule(self, rights: str, *parents: str) -> str:
        named = ", ".join(f'"{self.folder}/{parent}"' for parent in parents)
        return f"[[layer.path_beneath]]\nallowed_access = [{rights}]\nparent = [{named}]\n"

    def port(self, rights: str, ports: str) -> str:
        return f"[[layer.net_port]]\nallowed_access = [{rights}]\nport = {ports}\n"

    def lint(self, text: str) -> tuple[int, list[str]]:
        """The status, and the remarks without the folder; the last line counts them."""
        policy = self.folder / "P.toml"
        policy.write_text(text)
        status, out, _ = called(["lint", policy], cli.POLICY)
        *lines, last = out.replace(f"{self.folder}/", "").splitlines()
        notes = sum(": note: " in line for line in lines)
        warnings = len(lines) - notes
        self.assertEqual(last, f"P.toml: {warnings} warning{'s' * (warnings != 1)}, {notes} note{'s' * (notes != 1)}")
        self.assertEqual(status, 1 if warnings else 0)
        return status, lines

    def found(self, text: str) -> list[str]:
        return self.lint(text)[1]

    def test_a_policy_of_which_nothing_is_to_be_said(self) -> None:
        self.assertEqual(self.found(LAYER + self.rule('"read"', "d", "o/f") + self.port('"bind_tcp"', "80")), [])

    def test_what_this_machine_has_at_parents(self) -> None:
        self.assertEqual(self.found(LAYER + self.rule('"read"', "no", "link", "d/f/..")), [
            "layer 1, path_beneath 1, parent no: warning: is not on this machine, so there is no rule on it",
            "layer 1, path_beneath 1, parent link: note: leads by a link to d, on which the rule is",
            "layer 1, path_beneath 1, parent d/f/..: warning: d/f is no directory, so the path leads nowhere",
        ])

    def test_links_alone_are_notes(self) -> None:
        self.assertEqual(self.lint(LAYER + self.rule('"read"', "link"))[0], 0)

    def test_rights_for_directories_on_a_file(self) -> None:
        place = "layer 1, path_beneath 1, parent d/f: warning: is no directory, "
        for rights, said in (('"read_file", "read_dir"', "so the kernel refuses the rule for read_dir"),
                             ('"read_dir", "make_reg"', "so the kernel refuses the rule for read_dir, make_reg")):
            self.assertEqual(self.found(LAYER + self.rule(rights, "d/f")), [place + said])
        text = '[[layer]]\nhandled_access_fs = ["read_dir"]\n' + self.rule('"read"', "d/f")
        self.assertEqual(self.found(text)[0], place + "and the rule has no right that a file can have")
        self.assertEqual(self.found(LAYER + self.rule('"read"', "d/f")), [])

    def test_secrets(self) -> None:
        self.assertEqual(self.found(LAYER + self.rule('"read"', "home", "home/.ssh")), [
            "layer 1, path_beneath 1, parent home: warning: this reaches home/.ssh",
            "layer 1, path_beneath 1, parent home/.ssh: warning: home/.ssh holds secrets",
            f"layer 1, path_beneath 1, parent home/.ssh: {WARNED}path_beneath 1 on home grants as much",
        ])

    def test_what_rules_above_or_before_grant_too(self) -> None:
        text = LAYER + self.rule('"read"', "d") + self.rule('"read_file"', "d/f", "o") + self.rule('"read"', "d", "o")
        self.assertEqual(self.found(text), [
            f"layer 1, path_beneath 2, parent d/f: {WARNED}path_beneath 1 on d grants as much",
            f"layer 1, path_beneath 3, parent d: {WARNED}path_beneath 1 on d grants as much",
        ])

    def test_two_rules_together_grant_as_much(self) -> None:
        text = LAYER + self.rule('"read_file"', "d") + self.rule('"read_dir"', "d") + self.rule('"read"', "d/e")
        self.assertEqual(self.found(text), [
            f"layer 1, path_beneath 3, parent d/e: {WARNED}path_beneath 1 on d, path_beneath 2 on d grants as much"])

    def test_what_another_layer_refuses(self) -> None:
        second = '[[layer]]\nhandled_access_fs = ["write_file"]\n'
        text = LAYER + self.rule('"write_file", "read"', "d", "o") + second + self.rule('"write_file"', "d/e")
        self.assertEqual(self.found(text), [
            "layer 1, path_beneath 1, parent o: warning: write_file without effect: layer 2 grants it neither there "
            "nor beneath"])

    def test_an_object_with_several_paths(self) -> None:
        """Each path of it counts: a bind mount shows o at d/e, and g/f is o/f by a hard link (Linux 6.18)."""
        (self.folder / "g").mkdir()
        (self.folder / "g/f").hardlink_to(self.folder / "o/f")
        mounts = [["/", "8:1", "/", "ext4"], [f"{self.folder}/d/e", "8:1", f"{self.folder}/o", "ext4"]]
        layer = '[[layer]]\nhandled_access_fs = ["read_file", "write_file"]\n'
        both = '[[layer]]\nhandled_access_fs = ["write_file", "execute"]\n'
        run = "files {} may be both written and executed"
        for text, mounted, alone in (
            # The rule on d grants as much at d/e, but not at o; nor does a rule on o, at g.
            (LAYER + self.rule('"read"', "d", "d/e"), [], ["d/e"]),
            (LAYER + self.rule('"read_file"', "o", "g/f"), [], []),
            # Each layer grants it by another path of the object, or by a path in what the other one is on.
            (layer + self.rule('"read_file"', "d/e") + layer + self.rule('"read_file"', "o"), [], ["d/e", "o"]),
            (layer + self.rule('"read_file"', "d") + layer + self.rule('"read_file"', "o"), [], ["d", "o"]),
            (layer + self.rule('"read_file"', "g/f") + layer + self.rule('"read_file"', "o/f"), [], []),
            (both + self.rule('"write_file"', "d") + self.rule('"execute"', "o"), [run.format("at d/e and beneath")], []),
            (both + self.rule('"write_file"', "o/f") + self.rule('"execute"', "g/f"), [run.format("at g/f"), run.format("at o/f")],
             [run.format("at g/f"), run.format("at o/f")]),
        ):
            with self.subTest(text):
                with mock.patch.object(parents, "_places", lambda: MountPlaces(mounts)):
                    self.assert_said(text, mounted)
                self.assert_said(text, alone)

    def test_a_file_with_a_further_name(self) -> None:
        """A rule on it is on each, so that it has an effect by the other one (Linux 6.18)."""
        (self.folder / "g").mkdir()
        (self.folder / "g/f").hardlink_to(self.folder / "o/f")
        layer = '[[layer]]\nhandled_access_fs = ["read_file"]\n'
        read = functools.partial(self.rule, '"read_file"')
        for text, said in (
            # By o/f it may be read only by the rule on g/f, in the second case by g/f only, in the third by o/f only.
            (layer + read("g") + read("g/f"), []),
            (layer + read("o/f") + layer + read("g"), []),
            (layer + read("o") + layer + read("g/f"), []),
            # Where the other name is, lint does not know; it is no name of another file.
            (layer + read("d/e") + layer + read("g/f"), []),
            (layer + read("d/f") + layer + read("g/f"), ["read_file without effect: layer 2"]),
        ):
            with self.subTest(text):
                self.assert_said(text + '[[layer]]\nhandled_access_fs = ["write_file"]\n', said)

    def assert_said(self, text: str, said: list[str]) -> None:
        """Checks that each remark has one of some texts, all of which occur."""
        found = [line for line in self.found(text) if ": warning: " in line]
        self.assertEqual(len(found), len(said), found)
        for line, part in zip(found, said):
            self.assertIn(part, line)

    def test_a_secret_by_another_path(self) -> None:
        places = MountPlaces([["/", "8:1", "/", "ext4"], [f"{self.folder}/d", "8:1", "/etc", "ext4"]])
        with mock.patch.object(parents, "_places", lambda: places):
            self.assertIn("this reaches /etc/shadow", self.found(LAYER + self.rule('"read"', "d"))[0])

    def test_ports(self) -> None:
        second = '[[layer]]\nhandled_access_net = ["connect_tcp"]\n'
        text = (LAYER + self.port('"all"', "80") + self.port('"bind_tcp"', "[80, 443]") + second +
                self.port('"connect_tcp"', "80"))
        self.assertEqual(self.found(text), [
            "layer 1, net_port 2, port 80: warning: without effect: rules before it grant as much"])
        text = LAYER + self.port('"all"', "443") + second
        self.assertEqual(self.found(text), [
            "layer 1, net_port 1, port 443: warning: connect_tcp without effect: layer 2 does not grant it there"])

    def test_written_and_executed(self) -> None:
        both = '"write_file", "execute"'
        self.assertEqual(self.found(LAYER + self.rule(both, "d") + self.rule('"read"', "d/e")),
                         ["P.toml: warning: files at d and beneath may be both written and executed"])
        self.assertEqual(self.found(LAYER + self.rule('"write_file"', "d") + self.rule('"execute"', "d/f")),
                         ["P.toml: warning: files at d/f may be both written and executed"])
        self.assertEqual(self.found(LAYER + self.rule('"write_file"', "d") + self.rule('"execute"', "o")), [])
        only = '[[layer]]\nhandled_access_fs = ["write_file"]\n'
        self.assertEqual(self.found(only + self.rule('"write_file"', "d")),
                         ["P.toml: warning: files at d and beneath may be both written and executed"])
        self.assertEqual(self.found('[[layer]]\nhandled_access_net = ["bind_tcp"]\n'),
                         ["P.toml: warning: files everywhere may be both written and executed"])
        other = '[[layer]]\nhandled_access_fs = ["execute"]\n'
        text = only + self.rule('"write_file"', "d") + other + self.rule('"execute"', "o")
        self.assertEqual(self.found(text), [])

    def test_groups_of_rules_are_for_many_machines(self) -> None:
        self.assertEqual(self.found('include = ["python", "base"]\n' + LAYER), [])
