"""A policy at an older ABI, which knows the rights of docs/FORMATS.md, "Names of rights"; all others are dropped."""

from __future__ import annotations

import unittest
from pathlib import Path

from landaudit_record.common.numbered import Numbered
from landaudit_record.common.rights import FS, NET
from landaudit_record.policy.fitting import FittedPathRule, fit, in_force, stands_for
from landaudit_record.policy.policies import Access, Layer, PathRule, Policy, PortRule

ALL_FS = Access(grouped=FS.groups["all"])
ALL_NET = Access(grouped=NET.groups["all"])


def policy(
    fs: Access, net: Access = Access(), paths: tuple[PathRule, ...] = (), ports: tuple[PortRule, ...] = ()
) -> Policy:
    """A policy of one layer."""
    return Policy(Path("P.toml"), (Layer(1, fs, net, paths, ports),))


class Fitting(unittest.TestCase):
    def test_a_group_is_what_each_abi_knows_of_it(self) -> None:
        known = ["execute", "write_file", "read_file", "read_dir", "remove_dir", "remove_file", "make_char", "make_dir",
                 "make_reg", "make_sock", "make_fifo", "make_block", "make_sym"]
        for abi, new in ((1, []), (2, ["refer"]), (3, ["truncate"]), (4, []), (5, ["ioctl_dev"])):
            known = known + new
            (layer,), notes = fit(policy(ALL_FS), abi)
            self.assertEqual((layer.handled_fs, notes), (known, []))

    def test_ports_are_dropped_before_abi_4(self) -> None:
        ports = (PortRule(Numbered("net_port", 1), ALL_NET, (443,)),)
        (layer,), notes = fit(policy(ALL_FS, ALL_NET, ports=ports), 3)
        self.assertEqual((layer.handled_net, layer.port_rules), ([], ()))
        self.assertEqual(notes, ["layer 1, net_port 1 is left out: ABI 3 knows nothing that it allows"])
        (layer,), notes = fit(policy(ALL_FS, ALL_NET, ports=ports), 4)
        self.assertEqual((layer.handled_net, layer.port_rules[0].on_port), (["bind_tcp", "connect_tcp"],) * 2)
        self.assertEqual(notes, [])

    def test_layers_of_ports_or_scopes_refuse_moves_beside_one_for_files(self) -> None:
        files = Layer(1, Access(outright=frozenset({"read_file", "refer"})), Access(), (), ())
        ports, scopes = Layer(2, Access(), ALL_NET, (), ()), Layer(3, Access(), Access(), (), (), ("signal",))
        for abi, layers, handled in (
            (3, (files, ports), [["read_file", "refer"]]),
            (4, (files, ports, scopes), [["read_file", "refer"], ["refer"]]),
            (5, (files, ports, scopes), [["read_file", "refer"], ["refer"], ["refer"]]),
            (5, (scopes, ports), [[]]),
        ):
            with self.subTest(abi=abi, layers=len(layers)):
                found, _ = fit(Policy(Path("P.toml"), layers), abi)
                self.assertEqual([layer.handled_fs for layer in found], handled)
        found, _ = fit(Policy(Path("P.toml"), (files, scopes)), 5, scopes=False)
        self.assertEqual([layer.number for layer in found], [1])
        made, _ = in_force(Policy(Path("P.toml"), (files, ports)), 5)
        self.assertEqual([layer.handled_fs for layer in made], [["read_file", "refer"], []])

    def test_what_a_newer_abi_stands_for(self) -> None:
        files = Layer(1, ALL_FS, Access(), (), ())
        device, ports = (Layer(2, Access(outright=frozenset(fs)), ALL_NET, (), ()) for fs in (["ioctl_dev"], []))
        for layers, apart in (((files,), []), ((files, ports), [3]), ((files, device), [3, 4]), ((device,), [3])):
            tried = Policy(Path("P.toml"), layers)
            found = [abi for abi in range(1, 5) if not stands_for(tried, abi + 1, abi)]
            self.assertEqual(found, apart)

    def test_a_right_that_is_named_is_dropped_with_a_note(self) -> None:
        named = Access(outright=frozenset({"read_file", "truncate"}))
        (layer,), notes = fit(policy(named, paths=(PathRule(Numbered("path_beneath", 1), named, ("/a",)),)), 2)
        self.assertEqual(layer.handled_fs, ["read_file"])
        self.assertEqual(layer.path_rules[0].on_directory, ["read_file"])
        self.assertEqual(
            notes,
            ["layer 1, handled_access_fs: ABI 2 does not know truncate: dropped",
             "layer 1, path_beneath 1: ABI 2 does not know truncate: dropped"],
        )

    def test_a_layer_of_which_nothing_is_left_is_left_out(self) -> None:
        layers, notes = fit(policy(Access(), ALL_NET), 3)
        self.assertEqual(layers, ())
        self.assertEqual(notes, ["layer 1 is left out: ABI 3 knows nothing that it handles"])

    def test_a_group_in_a_rule_is_what_the_layer_handles(self) -> None:
        rule = PathRule(Numbered("path_beneath", 1), Access(grouped=FS.groups["write"]), ("/a",))
        (layer,), _ = fit(policy(Access(outright=frozenset({"read_file", "write_file", "make_reg"})), paths=(rule,)), 5)
        self.assertEqual(layer.path_rules[0].on_directory, ["write_file", "make_reg"])

    def test_a_group_on_a_file_is_what_applies_to_files(self) -> None:
        rule = FittedPathRule(Numbered("path_beneath", 1), ("/a",), ["read_file", "read_dir"], ["read_file"])
        self.assertEqual(rule.on("reg"), ["read_file"])
        self.assertEqual(rule.on("dir"), ["read_file", "read_dir"])
        self.assertEqual(rule.on(None), ["read_file", "read_dir"])

    def test_a_right_on_directories_that_is_named_stays_on_a_file(self) -> None:
        access = Access(outright=frozenset({"read_dir"}), grouped=FS.groups["read"] | FS.groups["write"])
        handled = Access(outright=frozenset({"read_dir", "read_file", "make_reg"}))
        (layer,), _ = fit(policy(handled, paths=(PathRule(Numbered("path_beneath", 1), access, ("/a",)),)), 5)
        self.assertEqual(layer.path_rules[0].on("reg"), ["read_file", "read_dir"])

    def test_a_rule_without_a_right_for_files_asks_for_all_of_it(self) -> None:
        making = Access(grouped=frozenset({"make_reg"}))
        for group, on_file in ((None, ["make_reg"]), ("base", [])):
            rule = PathRule(Numbered("path_beneath", 1), making, ("/a",), group)
            for handled in (ALL_FS, making):
                (layer,), _ = fit(policy(handled, paths=(rule,)), 1)
                self.assertEqual(layer.path_rules[0].on("reg"), on_file)

    def test_what_counts_on_a_file_is_the_same_at_each_abi(self) -> None:
        """The kernel knows truncate from ABI 3 on, and refer, which only directories have, from ABI 2 on."""
        for named, since in (("truncate", 3), ("refer", 2)):
            access = Access(outright=frozenset({named}), grouped=FS.groups["write"])
            handled = Access(outright=frozenset({named, "make_reg"}))
            for abi in range(1, 6):
                with self.subTest(named, abi=abi):
                    rule = PathRule(Numbered("path_beneath", 1), access, ("/a",))
                    (layer,), _ = fit(policy(handled, paths=(rule,)), abi)
                    (rule,) = layer.path_rules
                    self.assertEqual(rule.on("reg"), [named] if abi >= since else [])
                    self.assertEqual(set(rule.on("dir")), {"make_reg", named} if abi >= since else {"make_reg"})

    def test_a_group_that_lacks_a_right_counts_as_it_is_written(self) -> None:
        """It is written by names, and on a file the kernel refuses those that only directories have."""
        lacking = PathRule(Numbered("path_beneath", 1), Access(grouped=FS.groups["write"] - {"make_sym"}), ("/a",))
        (layer,), _ = fit(policy(ALL_FS, paths=(lacking,)), 5)
        self.assertEqual(layer.path_rules[0].on("reg"), FS.ordered(FS.groups["write"] - {"make_sym"}))

    def test_a_right_that_the_layer_does_not_handle_counts_nowhere(self) -> None:
        rule = PathRule(Numbered("path_beneath", 1), Access(grouped=FS.groups["write"]), ("/a",))
        (layer,), _ = fit(policy(Access(outright=frozenset({"make_reg", "refer"})), paths=(rule,)), 1)
        self.assertEqual(layer.path_rules[0].on("reg"), ["make_reg"])
