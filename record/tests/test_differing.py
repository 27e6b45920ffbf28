"""Policies compared on every tree: regions in words, the command as it is called, random policies by random calls."""

from __future__ import annotations

import os
import tempfile
import time
import unittest
from pathlib import Path
from unittest import mock

from landaudit_record import cli
from landaudit_record.engine import landaudit_rules
from landaudit_record.engine.landaudit import BUILT
from landaudit_record.policy import parents, policies
from landaudit_record.policy.regions import Region, Regions, areas, as_named
from landaudit_record.recorder.mounted import MountPlaces

from . import brute, covering
from .calling import InFolder, called
from .random_calls import Call, Right

OLD = """[[layer]]
handled_access_fs = ["all"]
handled_access_net = ["connect_tcp"]
[[layer.path_beneath]]
allowed_access = ["read"]
parent = ["/srv", "/data/shared"]
[[layer.path_beneath]]
allowed_access = ["read", "write"]
parent = "/data/in"
[[layer.path_beneath]]
allowed_access = ["read", "write", "execute"]
parent = "/data/out"
"""


class InRegions(unittest.TestCase):
    regions = Regions(("/", "/a", "/a/b", "/a/b/c", "/a/d"), ((80,),))

    def said(self, differing: set[Region], of_files: bool = False) -> list[str]:
        return list(map(str, areas(self.regions, differing, of_files)))

    def test_a_region_is_named_with_what_is_not_as_it(self) -> None:
        self.assertEqual(self.said({Region("/a"), Region("/a/d")}), ["under /a, but for /a/b"])
        self.assertEqual(
            self.said({Region("/"), Region("/a/b"), Region("/a/b/c")}), ["under /, but for /a", "under /a/b"]
        )

    def test_a_path_that_is_a_file(self) -> None:
        alone = Region("/a/d", as_file=True)
        self.assertEqual(self.said({alone}, of_files=True), ["on /a/d as a file"])
        self.assertEqual(self.said({Region("/a/d"), alone}, of_files=True), ["under /a/d"])
        self.assertEqual(self.said({Region("/a/d")}, of_files=True), ["under /a/d, but for /a/d as a file"])

    def test_of_policies(self) -> None:
        with tempfile.TemporaryDirectory() as folder:
            file = Path(folder, "P.toml")
            file.write_text(OLD.replace("/srv", "/srv//x/../y"))
            found = Regions.of([policies.read(file)])
        self.assertEqual(found.paths, ("/", "/data/in", "/data/out", "/data/shared", "/srv/y"))
        self.assertEqual((found.ports, found.numbered_ports), ((), (None,)))

    def test_names_follow_no_link(self) -> None:
        self.assertEqual(as_named("/lib/./x//../y/"), "/lib/y")

    def test_ports_with_a_rule_by_groups_and_all_without_one(self) -> None:
        self.assertEqual(Regions(("/",), ((0, 3), (1,))).numbered_ports, (0, 1, None))
        self.assertEqual(Regions(("/",), (tuple(range(65536)),)).numbered_ports, (0,))


@unittest.skipUnless(BUILT.exists(), f"{BUILT} is not built")
class Differing(InFolder):
    def said(self, old: str, new: str, *words: str) -> tuple[int, list[str], str]:
        """The status, the lines and the errors of a comparison."""
        for name, text in (("old", old), ("new", new)):
            (self.folder / name).write_text(text)
        status, *said = called(["diff", self.folder / "old", self.folder / "new", *words], cli.POLICY)
        out, errors = (it.replace(f"{self.folder}/", "") for it in said)
        return status, out.splitlines(), errors

    def test_the_same_policy(self) -> None:
        status, lines, _ = self.said(OLD, OLD)
        self.assertEqual((status, len(lines)), (0, 1))
        self.assertRegex(lines[0], r"\Ano call differs: \d+ calls compared, at ABI 1-5\Z")

    def test_a_policy_in_other_words(self) -> None:
        """Rules that are split or written twice; a layer that is there twice."""
        other = OLD + '[[layer.path_beneath]]\nallowed_access = ["read_dir"]\nparent = "/srv"\n'
        self.assertEqual(self.said(OLD, other + OLD)[0], 0)

    def test_a_rule_beneath_one_that_grants_as_much(self) -> None:
        """Its object may be moved from there, and have another name elsewhere; there it is a place to gain the right."""
        other = OLD + '[[layer.path_beneath]]\nallowed_access = ["read_dir"]\nparent = ["/srv/x", "/srv"]\n'
        status, lines, _ = self.said(OLD, other)
        line = "  read_dir by the rule on /srv/x, wherever that is moved or linked (refused by layer 1)"
        self.assertEqual((status, lines[:2]), (1, ["new lets pass what old refuses:", line]))
        gained = "  perhaps moves to under /srv/x, which give read_dir (refused by layer 1) (at ABI 2-5)"
        self.assertEqual(lines[2:4], ["old lets pass what new refuses:", gained])
        status, lines, _ = self.said(other, OLD)
        self.assertEqual((status, lines[:3]), (1, ["new lets pass what old refuses:", gained, "old lets pass what new refuses:"]))
        self.assertEqual(self.said(other, OLD, "--abi", "1")[0], 0)
        # A layer that stays as it is refuses what the old one does, wherever the object is.
        self.assertEqual(self.said(OLD, OLD + other)[0], 0)
        file = OLD + '[[layer.path_beneath]]\nallowed_access = ["read_file"]\nparent = "/data/in/f"\n'
        status, lines, _ = self.said(OLD, file, "--abi", "5")
        line = "  read_file by the rule on /data/in/f, wherever that is moved or linked (refused by layer 1)"
        self.assertEqual((status, lines[1]), (1, line))

    def test_what_depends_on_no_answer_is_asked_together(self) -> None:
        """As paths are named, then once objects are moved, and then without those by which alone something passes."""
        beside = OLD + '[[layer.path_beneath]]\nallowed_access = ["read_dir"]\nparent = "/srv/x"\n'
        for new, times in ((OLD, 2), (OLD.replace("/data/shared", "/data/other"), 2), (beside, 3)):
            with mock.patch.object(landaudit_rules, "ask", wraps=landaudit_rules.ask) as asked:
                self.said(OLD, new)
            self.assertEqual(sum("--calls" not in call.args for call in asked.call_args_list), times)

    def test_rules_of_two_layers_on_objects_that_may_be_in_one_another(self) -> None:
        layer = '[[layer]]\nhandled_access_fs = ["read_file"]\n[[layer.path_beneath]]\nallowed_access = ["read_file"]\n'
        old, new = layer + 'parent = "/a"\n', layer + 'parent = ["/a", "/x"]\n' + layer + 'parent = ["/a", "/y"]\n'
        status, lines, _ = self.said(old, new)
        line = "  read_file by the rules on /x, /y, if these are moved or linked into one another (refused by layer 1)"
        self.assertEqual((status, lines[:2]), (1, ["new lets pass what old refuses:", line]))

    def test_what_moves_give_in_a_layer_that_is_no_more(self) -> None:
        """Moves as paths are named are told as such; where no object can be moved, none is."""
        layer = '[[layer]]\nhandled_access_fs = [{}"execute", "make_reg"]\n'
        making = '[[layer.path_beneath]]\nallowed_access = ["make_reg"{}]\nparent = "/a"\n'
        rule = '[[layer.path_beneath]]\nallowed_access = ["execute"]\nparent = "/b"\n'
        with_refer, without = (layer.format(one) + making.format(two) for one, two in (('"refer", ', ', "refer"'), ("", "")))
        status, lines, _ = self.said(with_refer + rule + with_refer, with_refer + with_refer)
        gained = "  perhaps moves to under /b, which give execute (refused by layer 1) (at ABI 2-5)"
        self.assertEqual((status, lines[:2]), (1, ["new lets pass what old refuses:", gained]))
        self.assertEqual(self.said(without + rule + without, without + without)[0], 0)

    def test_a_path_is_not_moved_under_itself(self) -> None:
        """Nor is it a file that something is under; and each move that is named can be made."""
        old = '[[layer]]\nhandled_access_fs = ["refer", "make_reg", "make_dir", "remove_file", "remove_dir"]\n'
        rule = '[[layer.path_beneath]]\nallowed_access = ["refer", "make_reg", "make_dir"]\n'
        rule += 'parent = ["/", "/f", "/f/g"]\n'
        _, lines, _ = self.said(old, old + rule, "--abi", "5")
        moves = [line for line in lines if line.startswith("  moves")]
        self.assertTrue(moves)
        for line in moves:
            sources, _, targets = line.partition(" to under ")
            for path in ("/f/g", "/f"):
                if f"{path} as a file" in sources or f"{path} itself" in sources:
                    self.assertNotIn(f"under {path}", f"under {targets}".replace(f"but for {path}", ""), line)

    def test_rights_by_region_ports_and_moves(self) -> None:
        port = '[[layer.net_port]]\nallowed_access = ["connect_tcp"]\nport = 443\n'
        new = OLD.replace('parent = ["/srv", "/data/shared"]', 'parent = ["/srv", "/data"]').replace(
            '"read", "write"]', '"read", "write", "execute"]') + port
        status, lines, _ = self.said(OLD, new, "--abi", "4-5")
        self.assertEqual(status, 1)
        self.assertEqual(lines[0], "new lets pass what old refuses:")
        self.assertEqual(
            set(lines[1 : lines.index("old lets pass what new refuses:")]),
            {
                "  execute under /data/in",
                "  read_file, read_dir under /data, but for /data/in, /data/out, /data/shared",
                "  connect_tcp on port 443",
                "  moves of objects of every kind from under /data/in to under /data/out",
            },
        )
        # The rule on /data/shared stays with its object, also where that is moved out of /data.
        moved = "  read_file, read_dir by the rule on /data/shared, wherever that is moved or linked (refused by layer 1)"
        self.assertIn(moved, lines[lines.index("old lets pass what new refuses:") :])

    def test_ports_on_which_the_same_is_granted_are_named_together(self) -> None:
        """By several rules or by one, and each of a group of ports, although one of them is asked about."""
        layer = '[[layer]]\nhandled_access_net = ["all"]\n'
        rule = '[[layer.net_port]]\nallowed_access = ["{}"]\nport = {}\n'
        old = layer + rule.format("connect_tcp", "[1, 2, 3, 4, 80, 443]") + rule.format("bind_tcp", "[4, 5]")
        new = "".join([layer, rule.format("all", "[1, 2, 3]"), rule.format("connect_tcp", "[80, 4]"),
                       rule.format("bind_tcp", 80)])
        status, lines, _ = self.said(old, new, "--abi", "5")
        self.assertEqual((status, lines[:-1]), (1, [
            "new lets pass what old refuses:", "  bind_tcp on ports 1-3, port 80",
            "old lets pass what new refuses:", "  bind_tcp on port 4, port 5", "  connect_tcp on port 443"]))

    def test_as_many_ports_as_there_are(self) -> None:
        """In seconds: a comparison that is quadratic in ports takes half a minute of processor time here."""
        layer = '[[layer]]\nhandled_access_net = ["all"]\n'
        rule = f'[[layer.net_port]]\nallowed_access = ["bind_tcp"]\nport = {list(range(1, 65536))}\n'
        began = time.process_time()
        status, lines, _ = self.said(layer + rule, layer + rule + rule.replace("bind", "connect"), "--abi", "5")
        more = ["new lets pass what old refuses:", "  connect_tcp on ports 1-65535"]
        self.assertEqual((status, lines[:2]), (1, more))
        self.assertLess(time.process_time() - began, 10)

    def test_less_is_no_fault(self) -> None:
        status, lines, _ = self.said(OLD, OLD + "[[layer]]\nhandled_access_fs = [\"read_dir\"]\n")
        heads = ["new lets nothing pass that old refuses", "old lets pass what new refuses:"]
        self.assertEqual((status, lines[:2]), (0, heads))
        self.assertIn("  read_dir under /data/in", lines)

    def test_mounts_and_ports_without_a_rule(self) -> None:
        nothing = '[[layer]]\nhandled_access_net = ["bind_tcp"]\n'
        files = '[[layer]]\nhandled_access_fs = ["make_sym"]\n'
        status, lines, _ = self.said(files, nothing, "--abi", "5")
        self.assertEqual(status, 1)
        self.assertIn("  mounts", lines)
        self.assertIn("  bind_tcp on every port", lines)
        self.assertIn("  make_sym under /", lines)

    def test_a_right_that_came_later(self) -> None:
        more = '[[layer]]\nhandled_access_fs = ["make_sym"]\n'
        status, lines, _ = self.said(more.replace("make_sym", "truncate"), more.replace('"]', '", "truncate"]'))
        self.assertEqual((status, lines[0]), (0, "new lets nothing pass that old refuses"))
        self.assertIn("  make_sym under /", lines)
        # Before ABI 3 the old policy handles nothing, and so leaves what is mounted to anyone.
        self.assertIn("  mounts (at ABI 1-2)", lines)
        status, lines, _ = self.said(more.replace('"]', '", "truncate"]'), more)
        self.assertEqual((status, lines[1]), (1, "  truncate under / (at ABI 3-5)"))

    def test_a_right_of_directories_that_a_file_can_t_have(self) -> None:
        """By its name such a right makes the kernel refuse the whole rule on a file: no program runs under the policy."""
        rule = '[[layer]]\nhandled_access_fs = ["read", "refer"]\n[[layer.path_beneath]]\nparent = "/x"\nallowed_access = '
        self.assertEqual(self.said(rule + '["read_file", "read_dir"]', rule + '["read"]')[0], 0)
        # ABI 1 does not know refer, and so leaves a rule that a file can have.
        status, lines, _ = self.said(rule + '["refer"]', rule + '["read_file", "refer"]')
        self.assertEqual((status, lines[1:3]), (1, [
            "  read_file on /x as a file (at ABI 1)", "  read_file under /x, but for /x as a file"]))

    def linked(self, parent: str, layers: str = "") -> str:
        """A policy with a rule on a path in the folder."""
        rule = f'[[layer.path_beneath]]\nallowed_access = ["read"]\nparent = "{self.folder}/{parent}"\n'
        return f'[[layer]]\nhandled_access_fs = ["read"]\n{rule}{layers}'

    def test_a_link_is_what_it_leads_to_here_and_told(self) -> None:
        (self.folder / "real").mkdir()
        (self.folder / "link").symlink_to("real")
        status, _, errors = self.said(self.linked("real"), self.linked("link"))
        told = "landaudit-policy: note: new: layer 1, path_beneath 1, parent link: it is compared as real, to which it "
        self.assertEqual((status, errors), (0, told + "leads on this machine\n"))
        status, lines, _ = self.said(self.linked("link"), self.linked("../"))
        self.assertEqual(status, 1)
        self.assertIn(f"  read_dir under {self.folder.parent}, but for real", lines)

    def test_a_link_of_a_process_is_compared_by_its_name(self) -> None:
        """It leads elsewhere for the program that is confined than for this one."""
        rule = '[[layer]]\nhandled_access_fs = ["read_file"]\n[[layer.path_beneath]]\nallowed_access = ["read_file"]\nparent = "{}"\n'
        status, lines, errors = self.said(rule.format(os.getcwd()), rule.format("/proc/self/cwd"))
        self.assertEqual((status, lines[1]), (1, "  read_file under /proc/self/cwd"))
        self.assertIn("/proc/self/cwd: not known where it leads, so it is compared by its name", errors)
        some = next(Path.cwd().iterdir())
        status, lines, _ = self.said(rule.format(some), rule.format(f"/proc/self/cwd/{some.name}"))
        self.assertEqual((status, lines[1]), (1, f"  read_file under /proc/self/cwd/{some.name}"))

    def test_above_what_is_behind_a_link(self) -> None:
        """`..` after a link leads to what is above the link's target, and not to what is above the link."""
        (self.folder / "real" / "deep").mkdir(parents=True)
        (self.folder / "link").symlink_to("real/deep")
        self.assertEqual(self.said(self.linked("real/f"), self.linked("link/../f"))[0], 0)
        status, lines, _ = self.said(self.linked("f"), self.linked("link/../f"))
        self.assertEqual((status, lines[1]), (1, "  read_file, read_dir under real/f"))

    def test_a_file_with_a_name_that_no_policy_has(self) -> None:
        """A hard link of a file with a rule is known if a policy names it; else what is compared is not all."""
        (self.folder / "f").write_text("")
        (self.folder / "g").hardlink_to(self.folder / "f")
        (self.folder / "folder").mkdir()
        told = ("landaudit-policy: note: NOT ALL IS COMPARED: f has other names (hard links), on which the rule is too: name "
                "them in a policy\n")
        self.assertEqual(self.said(self.linked("f"), self.linked("g"))[::2], (0, ""))
        self.assertEqual(self.said(self.linked("f"), self.linked("f"))[::2], (5, told))
        self.assertEqual(self.said(self.linked("f"), self.linked("folder"))[::2], (1, told))
        self.assertEqual(self.said(self.linked("folder"), self.linked("folder"))[::2], (0, ""))

    def test_a_file_whose_names_may_be_objects_apart(self) -> None:
        """On an overlayfs without an index (Linux 6.18), a rule on one hard link is not on the other."""
        (self.folder / "f").write_text("")
        (self.folder / "g").hardlink_to(self.folder / "f")
        for kind, status in (("ext4", 0), ("overlay", 1), ("fuse.bindfs", 1)):
            with mock.patch.object(parents, "_places", lambda: MountPlaces([["/", "0:9", "/", kind]])):
                self.assertEqual(self.said(self.linked("f"), self.linked("g"))[0], status, kind)

    def test_a_link_across_layers(self) -> None:
        """What the first layer grants, the second does by a link alone."""
        (self.folder / "real").mkdir()
        (self.folder / "link").symlink_to("real")
        second = '[[layer]]\nhandled_access_fs = ["read"]\n'
        rule = f'[[layer.path_beneath]]\nallowed_access = ["read"]\nparent = "{self.folder}/link"\n'
        status, lines, _ = self.said(self.linked("real", second), self.linked("real", second + rule))
        self.assertEqual((status, lines[1]), (1, "  read_file, read_dir under real"))

    @unittest.skipUnless(Path("/lib").is_symlink(), "/lib is no link here")
    def test_a_group_across_layers(self) -> None:
        """A group's path that is a link is what it leads to as well."""
        base = '[[layer]]\nhandled_access_fs = ["read_file"]\ninclude = "base"\n'
        on_target = base.replace('include = "base"\n', '[[layer.path_beneath]]\nallowed_access = ["read_file"]\n'
                                 f'parent = "{Path("/lib").resolve()}"\n')
        status, lines, errors = self.said(on_target + base.replace('include = "base"\n', ""), on_target + base)
        self.assertEqual((status, lines[1]), (1, f"  read_file under {Path('/lib').resolve()}"))
        self.assertIn("new: paths of groups are compared as what they lead to on this machine: ", errors)

    def test_two_names_of_one_file(self) -> None:
        """Each of two layers has a rule on one name of a file by a hard link, so that both let it be read."""
        (self.folder / "f").touch()
        (self.folder / "g").hardlink_to(self.folder / "f")
        old = '[[layer]]\nhandled_access_fs = ["read"]\n'
        status, lines, _ = self.said(old, self.linked("f", self.linked("g")))
        self.assertEqual(status, 1)
        self.assertTrue(any("read_file on f as a file" in line or "under f" in line for line in lines), lines)

    def test_a_path_that_leads_nowhere_here(self) -> None:
        (self.folder / "file").touch()
        for parent in ("none/../x", "file/", "file/../x"):
            with self.subTest(parent):
                status, _, errors = self.said(self.linked("x"), self.linked(parent))
                self.assertEqual(status, 3)
                self.assertIn(f"layer 1, path_beneath 1, parent {parent}: {parent.split('/')[0]} is no directory", errors)

    def test_a_path_with_a_slash_at_its_end_is_no_file(self) -> None:
        status, lines, _ = self.said(self.linked("x/"), self.linked("x"))
        self.assertEqual((status, lines[1]), (1, "  read_file on x as a file"))

    def test_a_device_that_can_be_opened_only_where_it_is_moved(self) -> None:
        """ioctl(2) needs an open file: where no path is opened as it is named, a device that is moved may be."""
        layer = '[[layer]]\nhandled_access_fs = ["read_file", "write_file", {}]\n'
        rule = '[[layer.path_beneath]]\nallowed_access = [{}]\nparent = "{}"\n'
        handled = layer.format('"ioctl_dev"')
        not_handled = layer.replace(", {}", "")
        inside = rule.format('"ioctl_dev"', "/x")
        reading = rule.format('"read_file"', "/x/d")
        status, lines, _ = self.said(handled + inside + reading, not_handled + reading)
        line = "  ioctl_dev by the rule on /x/d, wherever that is moved or linked (refused by layer 1) (at ABI 5)"
        self.assertEqual((status, lines[:2]), (1, ["new lets pass what old refuses:", line]))
        # What is opened by the rule on /x alone has that object above it, on which the old policy grants the right.
        reading = rule.format('"read_file"', "/x")
        self.assertEqual(self.said(handled + inside + reading, not_handled + reading)[0], 0)
        # Nothing is opened, wherever it is.
        self.assertEqual(self.said(handled, not_handled)[0], 0)

    def test_a_layer_of_scopes_alone_and_moves(self) -> None:
        """From ABI 6 on it refuses moves to other directories; Linux of ABI 5 does not know it (docs/SEMANTICS.md)."""
        scoped = '[[layer]]\nscoped = ["signal"]\n'
        old, new = (f'[[layer]]\nhandled_access_fs = ["read_file"{more}' for more in (
            "]\n", ', "refer"]\n[[layer.path_beneath]]\nallowed_access = ["refer"]\nparent = "/srv"\n'))
        for abis, status in (("5", 1), ("5-7", 1), ("6", 0), ("6-7", 0)):
            with self.subTest(abis):
                self.assertEqual(self.said(old + scoped, new + scoped, "--abi", abis)[0], status)

    def test_scopes_are_sets_of_which_less_is_a_difference(self) -> None:
        scoped = '[[layer]]\nscoped = ["signal", "abstract_unix_socket"]\n'
        status, lines, errors = self.said(OLD + scoped, OLD + '[[layer]]\nscoped = ["signal"]\n')
        line = "  connections to abstract UNIX sockets of processes that it does not confine (no scope; from ABI 6 on)"
        self.assertEqual((status, lines[:2], errors), (1, ["new lets pass what old refuses:", line], ""))
        self.assertEqual(lines[2], "old lets nothing pass that new refuses")
        status, lines, _ = self.said(OLD + '[[layer]]\nscoped = []\nhandled_access_fs = ["read"]\n', OLD + scoped)
        self.assertEqual(status, 1)
        self.assertIn("  signals to processes that it does not confine (no scope; from ABI 6 on)", lines)
        # Which of its layers has a scope is all the same to a program that starts under all of them.
        both = '[[layer]]\nscoped = ["signal"]\n[[layer]]\nscoped = ["abstract_unix_socket"]\n'
        status, lines, _ = self.said(both, scoped + '[[layer]]\nhandled_access_fs = ["make_sym"]\n')
        self.assertFalse([line for line in lines if "scope" in line], lines)
        self.assertEqual(status, 0)

    def test_fewer_layers_leave_room_for_one_of_the_program_s_own(self) -> None:
        layer = '[[layer]]\nhandled_access_fs = ["read"]\n'
        status, lines, _ = self.said(16 * layer, 15 * layer)
        self.assertEqual((status, lines[:3]), (1, [
            "new lets pass what old refuses:",
            "  1 more restriction of the program by itself: 15 of at most 16 layers are used, and not 16",
            "old lets nothing pass that new refuses"]))
        self.assertEqual(self.said(15 * layer, 16 * layer)[0], 0)
        # Before ABI 4 the layer of ports is left out, and it handles nothing else.
        status, lines, _ = self.said(layer + '[[layer]]\nhandled_access_net = ["bind_tcp"]\n', layer)
        self.assertEqual(status, 1)
        used = "  1 more restriction of the program by itself: 1 of at most 16 layers are used, and not 2 (at ABI 4-5)"
        self.assertIn(used, lines)
        # A layer that has only scopes is there from ABI 6 on, whatever rights are asked about.
        status, lines, _ = self.said(layer + '[[layer]]\nscoped = ["signal"]\n', layer + layer)
        self.assertEqual(len([line for line in lines if "more restriction" in line]), 1, lines)
        status, lines, _ = self.said('[[layer]]\nscoped = ["signal"]\n' + layer, layer + 'scoped = ["signal"]\n')
        self.assertEqual(status, 1, lines)
        self.assertIn("  1 more restriction of the program by itself: 1 of at most 16 layers are used, and not 2", lines)

    def test_what_does_not_read(self) -> None:
        self.assertEqual(self.said("[[layer]]", OLD)[0], 3)

    def test_ports_but_for_one_with_a_rule(self) -> None:
        """Every port is not every port where one with a rule does not differ."""
        rule = '[[layer.net_port]]\nallowed_access = ["bind_tcp"]\nport = 80\n'
        on = '[[layer]]\nhandled_access_net = ["bind_tcp"]\n'
        _, lines, _ = self.said(on + rule, '[[layer]]\nhandled_access_net = ["connect_tcp"]\n', "--abi", "5")
        self.assertIn("  bind_tcp on every port, but for port 80", lines)
        self.assertIn("  connect_tcp on every port", lines)

    def accepted(self, text: str, *words: str, new: str = OLD) -> tuple[int, list[str], str]:
        """What is said where a file accepts differences from a policy that refuses more."""
        (self.folder / "accepted").write_text(text)
        narrow = OLD.replace('parent = ["/srv", "/data/shared"]', 'parent = "/srv"')
        return self.said(narrow, new, "--accepted", str(self.folder / "accepted"), *words)

    def test_what_is_accepted(self) -> None:
        known = '[[accepted]]\nrights = ["read"]\nunder = "{}"\nreason = "it is shared"\n'
        status, lines, errors = self.accepted(known.format("/data/shared"), "--abi", "1")
        self.assertEqual((status, lines[:-1], errors), (0, [
            "new lets nothing pass that old refuses, but for what is accepted", "old lets nothing pass that new refuses",
            "accepted (it is shared):", "  read_file, read_dir under /data/shared"], ""))
        # What is above a path is not at or under it, and what is under it is.
        self.assertEqual(self.accepted(known.format("/data"))[0], 0)
        status, lines, errors = self.accepted(known.format("/data/shared/x"))
        self.assertEqual((status, lines[1]), (1, "  read_file, read_dir under /data/shared"))
        self.assertEqual(errors, "landaudit-policy: note: accepted, but no longer there: read_file, read_dir under "
                                 "/data/shared/x (it is shared)\n")

    def test_one_right_of_several_is_accepted(self) -> None:
        known = '[[accepted]]\nrights = ["read_dir"]\nunder = "/data/shared"\nreason = "names are no secret"\n'
        status, lines, _ = self.accepted(known, new=OLD + '[[layer.path_beneath]]\nallowed_access = ["execute"]\nparent = "/x"\n')
        self.assertEqual((status, lines[:3]), (1, [
            "new lets pass what old refuses:", "  execute under /x", "  read_file under /data/shared"]))
        self.assertEqual(lines[-3:-1], ["accepted (names are no secret):", "  read_dir under /data/shared"])

    def test_ports_moves_and_changes_without_a_place_are_accepted(self) -> None:
        layer = '[[layer]]\nhandled_access_fs = ["all"]\nhandled_access_net = ["all"]\n'
        old, new = layer + 'scoped = ["signal"]\n' + layer, layer + (
            '[[layer.net_port]]\nallowed_access = ["bind_tcp"]\nport = [80, 81]\n'
            '[[layer.path_beneath]]\nallowed_access = ["refer", "make_reg"]\nparent = "/x"\n')
        known = ('[[accepted]]\nrights = ["all"]\nport = [80{}]\nreason = "a"\n[[accepted]]\nchange = "signal"\nreason = "b"\n'
                 '[[accepted]]\nchange = "layers"\nreason = "c"\n[[accepted]]\nfrom = "/x"\nto = "/"\nreason = "d"\n'
                 '[[accepted]]\nrights = ["write"]\nunder = "/x"\nreason = "e"\n')
        for more, status in ((", 81", 0), ("", 1)):
            (self.folder / "known").write_text(known.format(more))
            found = self.said(old, new, "--accepted", str(self.folder / "known"))
            self.assertEqual(found[0], status, found[1])
        self.assertEqual(found[1][1], "  bind_tcp on port 80, port 81 (at ABI 4-5)")
        (self.folder / "known").write_text('[[accepted]]\nrights = ["bind_tcp"]\nreason = "on each port"\n')
        net = '[[layer]]\nhandled_access_net = ["{}"]\n'
        found = self.said(net.format("all"), net.format("connect_tcp"), "--abi", "5", "--accepted", str(self.folder / "known"))
        self.assertEqual((found[0], found[1][2:4]), (0, ["accepted (on each port):", "  bind_tcp on every port"]))

    def test_what_is_accepted_by_a_link_is_what_it_leads_to(self) -> None:
        (self.folder / "real").mkdir()
        (self.folder / "link").symlink_to("real")
        (self.folder / "known").write_text(
            f'[[accepted]]\nrights = ["read"]\nunder = "{self.folder}/link"\nreason = "a"\n')
        words = ("--accepted", str(self.folder / "known"))
        self.assertEqual(self.said('[[layer]]\nhandled_access_fs = ["read"]\n', self.linked("real"), *words)[0], 0)

    def test_what_is_no_acceptance(self) -> None:
        for text, wanted in (
            ('rights = ["read"]\nunder = "/"', "accepted 1: reason is missing"),
            ('reason = "a"', "give rights and under (a path), rights for ports and perhaps port, from and to, or change"),
            ('rights = ["read"]\nunder = "/"\nport = 1\nreason = "a"', "give rights and under (a path)"),
            ('under = "/"\nreason = "a"', "give rights and under (a path)"),
            ('rights = ["read"]\nreason = "a"', "rights: must be a list of rights for TCP ports"),
            ('rights = []\nunder = "/"\nreason = "a"', "rights: must be a list of rights for files"),
            ('rights = ["read"]\nunder = "a"\nreason = "a"', "under: 'a' is not absolute"),
            ('change = "mount"\nreason = "a"', "change: unknown change 'mount', did you mean 'mounts'?"),
            ('call = "open r"\nreason = "a"', "unknown key 'call'"),
        ):
            with self.subTest(text):
                status, _, errors = self.accepted(f"[[accepted]]\n{text}\n")
                self.assertEqual(status, 3)
                self.assertIn(wanted, errors)

    def without_old(self, new: str, allowed: str, *words: str) -> tuple[int, list[str]]:
        """The status and the lines where there is no old policy."""
        (self.folder / "new").write_text(new)
        status, out, _ = called(["diff", self.folder / "new", "--old-allows", allowed, *words], cli.POLICY)
        return status, out.replace(f"{self.folder}/", "").splitlines()[:-1]

    def test_no_old_policy(self) -> None:
        policy = ('[[layer]]\nhandled_access_fs = ["execute", "read_file"]\nscoped = ["signal", "abstract_unix_socket"]\n'
                  '[[layer.path_beneath]]\nallowed_access = ["read_file"]\nparent = "/x"\n')
        status, lines = self.without_old(policy, "everything", "--abi", "1")
        self.assertEqual((status, lines[0]), (0, "new refuses:"))
        self.assertLessEqual({"  execute under /", "  read_file under /, but for /x", "  mounts"}, set(lines))
        status, lines = self.without_old(policy.replace('"execute", "read_file"', '"all"'), "nothing", "--abi", "1")
        self.assertEqual((status, lines), (1, ["new lets pass:", "  read_file under /x"]))
        rest = policy.replace('"execute", "read_file"', '"all"').replace("allowed_access = [", 'allowed_access = ["write_file", ')
        (self.folder / "known").write_text('[[accepted]]\nrights = ["all"]\nunder = "/x"\nreason = "a"\n')
        status, lines = self.without_old(rest, "nothing", "--abi", "1", "--accepted", str(self.folder / "known"))
        self.assertEqual((status, lines), (0, [
            "new lets nothing pass, but for what is accepted", "accepted (a):", "  write_file, read_file under /x"]))

    def test_a_policy_against_none_is_as_one_against_all(self) -> None:
        """A policy that refuses everything lets nothing pass, and one that handles next to nothing refuses little."""
        everything = '[[layer]]\nhandled_access_fs = ["all"]\nhandled_access_net = ["all"]\nscoped = ["signal", "abstract_unix_socket"]\n'
        self.assertEqual(self.without_old(everything, "nothing"), (0, ["new lets nothing pass"]))
        scope = '[[layer]]\nscoped = ["signal"]\n'
        line = "  signals to processes that it does not confine (no scope; from ABI 6 on)"
        self.assertEqual(self.without_old(scope, "everything"), (0, ["new refuses:", line]))

    def test_an_old_policy_or_none(self) -> None:
        (self.folder / "new").write_text(OLD)
        for words in ([], [str(self.folder / "new"), "--old-allows", "nothing"]):
            status, _, errors = called(["diff", self.folder / "new", *words], cli.POLICY)
            told = "give the old policy or, if there is none, --old-allows" in errors
            self.assertEqual((status, told), (2, True))

    def test_random_policies_by_random_calls(self) -> None:
        calls = differ = 0
        ground = self.enterContext(brute.Ground.made())
        for seed in (12, 13, 20, 21, 25):
            tried = brute.compared(BUILT, seed, 80, ground)
            self.assertEqual(tried.faults, [])
            calls, differ = calls + tried.calls, differ + tried.differ
        self.assertGreater(calls, 300)
        self.assertGreater(differ, 20)

    def test_a_line_that_is_missing_or_wrong_is_found_by_calls(self) -> None:
        printed = """new lets pass what old refuses:
  read_file under /a, but for /a/b
old lets nothing pass that new refuses
9 calls compared, at ABI 1-5"""
        said = covering.read(1, printed, "old", "new", range(1, 6))
        inside, outside = (Call((), (Right("read_file", path, is_file=True),)) for path in ("/a/x", "/a/b/x"))
        every, none = frozenset(range(1, 6)), frozenset[int]()
        self.assertEqual(list(brute.faults_of(said, inside, none, every, every)), [])
        self.assertEqual(list(brute.faults_of(said, outside, none, none, every)), [])
        self.assertEqual(len(list(brute.faults_of(said, outside, none, every, every))), 5)
        self.assertEqual(len(list(brute.faults_of(said, inside, none, none, every))), 5)
        self.assertEqual(len(list(brute.faults_of(said, inside, every, none, every))), 10)
