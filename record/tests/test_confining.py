"""A policy in force: which calls of Landlock are made, in which order, and what is told. No process is confined here."""

from __future__ import annotations

import contextlib
import errno
import io
import os
import tempfile
import unittest
from collections.abc import Collection
from pathlib import Path
from typing import Any
from unittest import mock

from landaudit_record import cli
from landaudit_record.common.problems import UNREADABLE, WANTING, Problem
from landaudit_record.common.rights import NET, NEWEST_ABI, OLDEST_ABI
from landaudit_record.engine import landaudit_rules
from landaudit_record.policy import called, confining, policies
from landaudit_record.policy.policies import Policy

from . import proved_calls

LAYERS = """[[layer]]
handled_access_fs = ["read", "refer"]
handled_access_net = ["connect_tcp"]
[[layer.path_beneath]]
allowed_access = ["read"]
parent = ["{folder}", "{folder}/file", "{folder}/missing"]
[[layer.net_port]]
allowed_access = ["connect_tcp"]
port = [443, 80]
[[layer]]
handled_access_fs = ["execute"]
"""


class Kernel:
    """Stands for the kernel: keeps what it is asked, and refuses what it is told to refuse."""

    def __init__(self, abi: int, refused: dict[str, int] | None = None) -> None:
        self.abi = abi
        self.refused = refused or {}
        self.calls: list[tuple[object, ...]] = []

    def kernel_abi(self) -> int:
        self._refuse("version")
        return self.abi

    def set_no_new_privs(self) -> None:
        self.calls.append(("nnp",))

    def create_ruleset(
        self, fs: Collection[str], net: Collection[str] | None = None, scoped: Collection[str] = ()
    ) -> int:
        self.calls.append(("create", sorted(fs), None if net is None else sorted(net), *scoped))
        return os.open(os.devnull, os.O_RDONLY)

    def add_path_beneath(self, ruleset: int, parent: int, allowed: Collection[str]) -> None:
        self.calls.append(("path", os.readlink(f"/proc/self/fd/{parent}"), sorted(allowed)))
        self._refuse("path")

    def add_net_port(self, ruleset: int, port: int, allowed: Collection[str]) -> None:
        self.calls.append(("port", port, sorted(allowed)))

    def restrict_self(self, ruleset: int, *, log_executed: bool = False) -> None:
        self.calls.append(("restrict", "log") if log_executed else ("restrict",))
        self._refuse("restrict")

    def _refuse(self, call: str) -> None:
        if call in self.refused:
            raise OSError(self.refused[call], os.strerror(self.refused[call]))


def as_told(call: dict[str, Any], abi: int) -> tuple[object, ...] | None:
    """A call of landaudit-rules as the stand-in for the kernel tells it. No right for ports is handled before ABI 4."""
    match call:
        case {"op": "nnp"}:
            return ("nnp",)
        case {"op": "create", "fs": fs, "net": net}:
            return "create", sorted(fs), sorted(net) if abi >= min(NET.since.values()) else None
        case {"op": "add_path", "path": path, "fs": fs}:
            return "path", path, sorted(fs)
        case {"op": "add_port", "port": port, "net": net}:
            return "port", port, sorted(net)
        case {"op": "restrict"}:
            return ("restrict",)
    return None


class Confining(unittest.TestCase):
    def setUp(self) -> None:
        self.folder = Path(self.enterContext(tempfile.TemporaryDirectory())).resolve()
        (self.folder / "file").touch()

    def policy(self, text: str) -> Policy:
        file = self.folder / "P.toml"
        file.write_text(text.replace("{folder}", str(self.folder)))
        return policies.read(file)

    def confined(self, text: str, kernel: Kernel, abi: int, *, log: bool = False) -> list[str]:
        """The notes of a policy that is put in force."""
        policy = self.policy(text)
        with mock.patch.object(confining, "landlock", kernel):
            return confining.confine(policy, abi, log=log)

    def fault(self, text: str, kernel: Kernel) -> Problem:
        with self.assertRaises(Problem) as caught:
            self.confined(text, kernel, 5)
        return caught.exception

    def test_the_calls_are_those_that_are_proved(self) -> None:
        """A rule on a missing object is left out; the stand-in for the kernel refuses nothing."""
        kinds = {str(self.folder): "dir", f"{self.folder}/file": "reg", f"{self.folder}/missing": None}
        tried = proved_calls.policies(kinds)
        for abi in range(OLDEST_ABI, NEWEST_ABI + 1):
            for policy, calls in zip(tried, proved_calls.of(tried, kinds, abi)):
                kernel = Kernel(abi)
                with self.subTest(abi), mock.patch.object(confining, "landlock", kernel):
                    confining.confine(policy, abi)
                    wanted = (as_told(call, abi) for call in calls if kinds.get(call.get("path", ""), "dir"))
                    self.assertEqual(kernel.calls, list(filter(None, wanted)))

    def test_nothing_is_put_in_force_without_landaudit_rules(self) -> None:
        kernel = Kernel(5)
        missing = mock.patch.object(landaudit_rules, "find", side_effect=Problem("not built", WANTING))
        with missing, mock.patch.object(called, "_said", {}):
            self.assertEqual(self.fault(LAYERS, kernel).status, WANTING)
        self.assertEqual(kernel.calls, [])

    def test_layers_come_in_their_order_each_with_its_rules(self) -> None:
        kernel = Kernel(5)
        notes = self.confined(LAYERS, kernel, 5)
        self.assertEqual(
            kernel.calls,
            [
                ("nnp",),
                ("create", ["read_dir", "read_file", "refer"], ["connect_tcp"]),
                ("path", str(self.folder), ["read_dir", "read_file"]),
                ("path", str(self.folder / "file"), ["read_file"]),
                ("port", 443, ["connect_tcp"]),
                ("port", 80, ["connect_tcp"]),
                ("restrict",),
                ("create", ["execute"], []),
                ("restrict",),
            ],
        )
        missing = f"layer 1, path_beneath 1: no rule on {self.folder}/missing: No such file or directory"
        self.assertEqual(notes, [missing])

    def test_an_older_abi_gets_what_it_has_in_the_structure_that_it_knows(self) -> None:
        kernel = Kernel(1)
        notes = self.confined(LAYERS, kernel, 1)
        created = [call for call in kernel.calls if call[0] == "create"]
        self.assertEqual(created, [("create", ["read_dir", "read_file"], None), ("create", ["execute"], None)])
        self.assertNotIn("port", [call[0] for call in kernel.calls])
        self.assertIn("layer 1, handled_access_fs: ABI 1 does not know refer: dropped", notes)

    def test_a_rule_on_a_file_of_which_an_older_abi_knows_only_what_directories_have(self) -> None:
        """Rules on files have no make_reg (landlock_add_rule(2), EINVAL), and truncate is known from ABI 3 on."""
        text = """[[layer]]
handled_access_fs = ["truncate", "make_reg"]
[[layer.path_beneath]]
allowed_access = ["truncate", "write"]
parent = ["{folder}", "{folder}/file"]
"""
        for abi, asked in ((2, {"": ["make_reg"]}), (3, {"": ["make_reg", "truncate"], "/file": ["truncate"]})):
            kernel = Kernel(abi)
            self.confined(text, kernel, abi)
            rules = [call for call in kernel.calls if call[0] == "path"]
            self.assertEqual(rules, [("path", f"{self.folder}{name}", rights) for name, rights in asked.items()])

    def test_scopes_where_the_kernel_has_them(self) -> None:
        text = '[[layer]]\nhandled_access_fs = ["refer"]\nscoped = ["signal"]\n[[layer]]\nscoped = ["abstract_unix_socket"]\n'
        newer, older = Kernel(6), Kernel(5)
        notes = self.confined(text, newer, 7)
        created = [call for call in newer.calls if call[0] == "create"]
        self.assertEqual(created, [("create", ["refer"], [], "signal"), ("create", [], [], "abstract_unix_socket")])
        self.assertFalse(any("scopes" in note for note in notes))
        for kernel, abi in ((older, 7), (Kernel(6), 5)):
            notes = self.confined(text, kernel, abi)
            self.assertEqual([call for call in kernel.calls if call[0] == "create"], [("create", ["refer"], [])])
            self.assertIn("layer 2: ABI 5 does not know scopes: dropped", notes)

    def test_a_layer_of_which_only_the_scope_is_in_force_is_not_said_to_be_left_out(self) -> None:
        alone = '[[layer]]\nscoped = ["signal"]\n'
        kernel = Kernel(6)
        self.assertEqual(self.confined(alone, kernel, 6), [])
        self.assertEqual(kernel.calls, [("nnp",), ("create", [], [], "signal"), ("restrict",)])
        self.assertEqual(self.confined(alone, Kernel(5), 6), ["layer 1: ABI 5 does not know scopes: dropped"])
        kernel = Kernel(6)
        notes = self.confined('[[layer]]\nhandled_access_fs = ["refer"]\nscoped = ["signal"]\n', kernel, 1)
        self.assertEqual(kernel.calls, [("nnp",)])
        self.assertEqual(notes, ["layer 1, handled_access_fs: ABI 1 does not know refer: dropped",
                                 "layer 1 is left out: ABI 1 knows nothing that it handles",
                                 "layer 1: ABI 1 does not know scopes: dropped"])

    def test_each_layer_has_its_denials_logged_where_the_kernel_logs(self) -> None:
        """LANDLOCK_RESTRICT_SELF_LOG_NEW_EXEC_ON is of ABI 7 (landlock_restrict_self(2)); older kernels give EINVAL."""
        kernel = Kernel(7)
        notes = self.confined(LAYERS, kernel, 5, log=True)
        self.assertEqual([call for call in kernel.calls if call[0] == "restrict"], [("restrict", "log")] * 2)
        self.assertFalse(any("--log" in note for note in notes))
        kernel = Kernel(6)
        notes = self.confined(LAYERS, kernel, 5, log=True)
        self.assertEqual([call for call in kernel.calls if call[0] == "restrict"], [("restrict",)] * 2)
        self.assertIn("the kernel logs no denials, which needs ABI 7: --log has no effect", notes)

    def test_descriptors_are_closed_again(self) -> None:
        before = len(os.listdir("/proc/self/fd"))
        self.confined(LAYERS, Kernel(5), 5)
        self.assertEqual(len(os.listdir("/proc/self/fd")), before)

    def test_a_right_of_directories_on_a_file(self) -> None:
        text = LAYERS.replace('allowed_access = ["read"]', 'allowed_access = ["read_dir"]')
        problem = self.fault(text.replace('"{folder}", ', ""), Kernel(5, {"path": errno.EINVAL}))
        self.assertEqual(problem.status, UNREADABLE)
        where = f"{self.folder}/P.toml: layer 1, path_beneath 1, parent {self.folder}/file"
        why = "it is not a directory, and only directories have read_dir: leave these out, or name a group"
        self.assertEqual(str(problem), f"{where}: {why}")

    def test_too_many_layers(self) -> None:
        problem = self.fault(LAYERS, Kernel(5, {"restrict": errno.E2BIG}))
        self.assertEqual(problem.status, WANTING)
        self.assertIn("layer 1 can't be put in force: a process has at most sixteen layers", str(problem))


class Known(unittest.TestCase):
    def known(self, kernel: Kernel, asked: int) -> int:
        with mock.patch.object(confining, "landlock", kernel):
            return confining.known_abi(asked)

    def test_the_older_of_the_two_counts(self) -> None:
        self.assertEqual(self.known(Kernel(3), 5), 3)
        self.assertEqual(self.known(Kernel(7), 4), 4)

    def test_a_kernel_without_landlock_is_one_line_and_status_4(self) -> None:
        for number, wanted in ((errno.ENOSYS, "older than Linux 5.13"), (errno.EOPNOTSUPP, "boot parameter lsm=")):
            with self.subTest(number), self.assertRaises(Problem) as caught:
                self.known(Kernel(0, {"version": number}), 5)
            self.assertEqual(caught.exception.status, WANTING)
            self.assertRegex(str(caught.exception), rf"\Athis kernel has no Landlock: .*{wanted}[^\n]*\Z")


class Words(unittest.TestCase):
    """The subcommand before anything is confined."""

    def said(self, *words: str) -> tuple[int, str]:
        error = io.StringIO()
        with contextlib.redirect_stderr(error), mock.patch.object(confining, "confine") as confine:
            status = cli.main(words, cli.POLICY)
        confine.assert_not_called()
        return status, error.getvalue()

    def test_no_command(self) -> None:
        hint = "landaudit-policy: give a command after '--', as in 'landaudit-policy confine policy.toml -- ls'\n"
        self.assertEqual(self.said("confine", "P.toml"), (2, hint))

    def test_no_policy(self) -> None:
        told = (3, "landaudit-policy: cannot read /nowhere/P.toml: No such file or directory\n")
        self.assertEqual(self.said("confine", "/nowhere/P.toml", "--", "true"), told)

    def test_no_such_program(self) -> None:
        with tempfile.TemporaryDirectory() as folder, mock.patch.object(confining, "known_abi", lambda asked: asked):
            policy = Path(folder, "P.toml")
            policy.write_text('[[layer]]\nhandled_access_fs = ["all"]\n')
            told = (4, "landaudit-policy: no-such-command is not found, or is not a program\n")
            self.assertEqual(self.said("confine", str(policy), "--", "no-such-command"), told)
