"""Suggestions of a limited number of rules: which are united, what that grants besides, and how it is counted."""

from __future__ import annotations

import os
import tempfile
import unittest
from collections import Counter
from dataclasses import replace
from pathlib import Path
from unittest import mock

from landaudit_record.common.trees import ROOT, Tree, upwards
from landaudit_record.policy import sensitive
from landaudit_record.suggest import missing_rights, widening
from landaudit_record.suggest.missing_rights import CallId, CallsByRight, SuggestedRule, Wanted
from landaudit_record.suggest.objects import Count, CountedObjects
from landaudit_record.suggest.remarks import RemarkKind

from .worded import said


def asked(*rights: str, call: int = 1) -> CallsByRight:
    return {right: {CallId(0, call)} for right in rights}


class Disk(unittest.TestCase):
    """A folder with three directories: few has 2 files, some 5, many 30."""

    def setUp(self) -> None:
        self.top = Path(self.enterContext(tempfile.TemporaryDirectory())).resolve()
        for name, number in (("few", 2), ("some", 5), ("many", 30)):
            (self.top / name).mkdir()
            for n in range(number):
                (self.top / name / f"f{n}").touch()

    def path(self, name: str) -> str:
        return str(self.top / name)


class Counted(Disk):
    def under(self, name: str, *trees: Tree) -> Count:
        return CountedObjects(trees).under(self.path(name))

    def test_files_and_directories(self) -> None:
        self.assertEqual(self.under("some"), Count(files=5, directories=1))
        self.assertEqual(self.under("."), Count(files=37, directories=4))
        self.assertEqual(self.under("some/f0"), Count(files=1))
        self.assertEqual(self.under("none"), Count())

    def test_links_are_no_objects_and_are_not_followed(self) -> None:
        os.symlink(self.top / "many", self.top / "few" / "link")
        self.assertEqual(self.under("few"), Count(files=2, directories=1))

    def test_pipes_are_files_and_devices_are_both(self) -> None:
        os.mkfifo(self.top / "few" / "pipe")
        self.assertEqual(self.under("few"), Count(files=3, directories=1))
        null = CountedObjects([]).under("/dev/null")
        self.assertEqual(null, Count(files=1, devices=1))
        devices = CountedObjects([]).under("/dev")
        self.assertGreaterEqual(devices.devices, 1)

    def test_what_a_recording_has_and_this_disk_has_not(self) -> None:
        kinds = {ROOT: "dir", self.path("some"): "dir", self.path("some/f0"): "reg", self.path("some/d"): "dir",
                 self.path("some/d/x"): "reg", self.path("some/d/tty"): "char", self.path("some/made"): "reg"}
        tree = Tree(kinds, made={self.path("some/made")})
        self.assertEqual(self.under("some", tree, tree), Count(files=7, directories=2, devices=1))

    def test_each_right_counts_what_it_applies_to(self) -> None:
        count = Count(files=7, directories=2, devices=1)
        self.assertEqual([count.of(right) for right in ("read_file", "truncate", "read_dir", "make_reg", "ioctl_dev")],
                         [7, 7, 2, 2, 1])


class Widening(Disk):
    def rules(
        self, most: int, paths: dict[str, CallsByRight], ports: dict[int, CallsByRight] | None = None
    ) -> list[SuggestedRule]:
        wanted = Wanted({self.path(name): rights for name, rights in paths.items()}, [], ports or {})
        found = widening.rules(wanted, CountedObjects([]), most)
        return [replace(rule, remarks=tuple(it for it in rule.remarks if it.kind is RemarkKind.ALSO)) for rule in found]

    def granted(self, most: int, *names: str) -> dict[str, tuple[str, ...]]:
        """What is granted where reading some files is asked for: under which names, and what more."""
        found = self.rules(most, {name: asked("read_file", call=n) for n, name in enumerate(names)})
        self.assertTrue(all(rule.rights == {"read_file"} for rule in found))
        return {os.path.relpath(str(rule.place), self.top): said(rule) for rule in found}

    def test_where_there_is_room_all_stays_as_it_is(self) -> None:
        names = ("few/f0", "some/f0", "many/f0")
        self.assertEqual(self.granted(3, *names), dict.fromkeys(names, ()))

    def test_the_pair_that_grants_least(self) -> None:
        names = ("few/f0", "few/f1", "some/f0", "some/f1", "many/f0", "many/f1")
        found = self.granted(5, *names)
        self.assertEqual(found, {"few": (), **dict.fromkeys(names[2:], ())})
        found = self.granted(4, *names)
        self.assertEqual(found["some"], (f"also 3 files under {self.path('some')} (read_file)",))
        self.assertEqual(set(found), {"few", "some", "many/f0", "many/f1"})

    def test_one_wide_merger_in_place_of_several(self) -> None:
        """28 files more for one rule fewer, or 8 more (the five of some but for one, the four others) for three."""
        names = ("few/f0", "some/f0", "some/f1", "some/f2", "some/f3", "many/f0", "many/f1")
        self.assertEqual(set(self.granted(4, *names)), {"few/f0", "some", "many/f0", "many/f1"})

    def test_no_more_is_widened_than_must_be(self) -> None:
        """To save one rule of four the cheapest pair is enough, though all of them are cheaper for each rule saved."""
        (self.top / "some" / "d").mkdir()
        for name in ("a", "b", "c"):
            (self.top / "some" / "d" / name).touch()
        found = self.granted(3, "some/d/a", "some/d/b", "some/f0", "some/f1")
        self.assertEqual(found["some/d"], (f"also 1 file under {self.path('some/d')} (read_file)",))

    def test_down_to_one(self) -> None:
        found = self.granted(1, "few/f0", "some/f0", "many/f0")
        self.assertEqual(found, {".": (f"also 34 files under {self.top} (read_file)",)})

    def test_rights_of_both_go_on_the_directory(self) -> None:
        found = self.rules(1, {"few/f0": asked("read_file"), "few/f1": asked("execute", "read_file", call=2)})
        self.assertEqual([(rule.place, rule.rights, rule.calls) for rule in found],
                         [(self.path("few"), {"execute", "read_file"}, 2)])
        self.assertEqual(said(found[0]), (f"also 1 file under {self.path('few')} (execute)",))

    def test_a_directory_that_has_a_rule_takes_up_others(self) -> None:
        found = self.rules(1, {"some": asked("make_reg"), "some/f0": asked("write_file", call=2)})
        self.assertEqual([rule.place for rule in found], [self.path("some")])
        self.assertEqual(found[0].rights, {"make_reg", "write_file"})
        self.assertEqual(said(found[0]), (f"also 4 files under {self.path('some')} (write_file)",))

    def test_directories_are_counted_for_their_rights(self) -> None:
        (self.top / "few" / "d" / "e").mkdir(parents=True)
        (rule,) = self.rules(1, {"few/d/e": asked("read_dir"), "few/f0": asked("read_file", call=2)})
        self.assertEqual(said(rule), (f"also 1 file under {self.path('few')} (read_file)",
                                        f"also 2 directories under {self.path('few')} (read_dir)"))

    def test_a_directory_is_looked_at_again_only_after_a_join_beneath_it(self) -> None:
        """Ten directories are joined one after another: each join changes one, and the two above it."""
        paths = {f"/t/d{number}/f{name}": asked("read_file", call=10 * number + name)
                 for number in range(10) for name in range(3)}
        with mock.patch.object(widening._Joining, "_of", autospec=True, side_effect=widening._Joining._of) as of:
            found = widening.rules(Wanted(paths, [], {}), CountedObjects([]), 10)
        self.assertEqual({rule.place for rule in found}, {f"/t/d{number}" for number in range(10)})
        looked = Counter(call.args[1] for call in of.call_args_list)
        self.assertEqual(max(times for path, times in looked.items() if path.startswith("/t/d") and "f" not in path), 2)
        self.assertEqual((looked["/t"], looked["/"]), (10, 10))

    def test_the_root_comes_last_and_is_warned_of(self) -> None:
        wanted = Wanted({"/usr/x": asked("read_file"), "/proc/x": asked("read_file", call=2)}, [], {})
        (rule,) = widening.rules(wanted, CountedObjects([]), 1)
        self.assertEqual(said(rule), ("also everything else under / (read_file)",
                                        "warning: read_file on everything"))
        wanted.paths["/usr/y"] = asked("read_file", call=3)
        self.assertEqual({rule.place for rule in widening.rules(wanted, CountedObjects([]), 2)}, {"/usr", "/proc/x"})

    def test_the_root_is_never_free(self) -> None:
        """Not even beside a rule on /proc, which has objects without end as the root has."""
        paths = {"/proc": asked("read_file"), self.path("few/f0"): asked("read_file", call=2),
                 self.path("some/f0"): asked("read_file", call=3), self.path("many/f0"): asked("read_file", call=4)}
        found = widening.rules(Wanted(paths, [], {}), CountedObjects([]), 3)
        self.assertEqual({rule.place for rule in found}, {"/proc", str(self.top)})

    def test_a_join_that_reaches_secrets_is_the_last(self) -> None:
        """Joining two files of a folder of five is cheaper than two of thirty, but one of the five is secret."""
        names = ("some/f0", "some/f1", "many/f0", "many/f1")
        with mock.patch.object(sensitive, "SECRETS", (self.path("some/f4"),)):
            self.assertEqual(set(self.granted(3, *names)), {"some/f0", "some/f1", "many"})
            self.assertEqual(set(self.granted(2, *names)), {"some", "many"})
        self.assertEqual(set(self.granted(3, *names)), {"some", "many/f0", "many/f1"})

    def test_a_rule_that_reaches_secrets_only_with_more_rights(self) -> None:
        paths = {"some": asked("read_dir"), "some/f0": asked("read_file", call=2),
                 "many/f0": asked("read_file", call=3), "many/f1": asked("read_file", call=4)}
        with mock.patch.object(sensitive, "SECRETS", (self.path("some/f4"),)):
            places = {rule.place for rule in self.rules(3, paths)}
        self.assertEqual(places, {self.path(name) for name in ("some", "some/f0", "many")})

    def test_ports(self) -> None:
        ports = {80: asked("connect_tcp"), 443: asked("connect_tcp", call=2), 8080: asked("bind_tcp", call=3)}
        two = self.rules(3, {"few/f0": asked("read_file")}, ports)
        self.assertEqual({rule.place for rule in two if not isinstance(rule.place, str)}, {(80, 443), (8080,)})
        (rule, *_) = self.rules(2, {"few/f0": asked("read_file")}, ports)
        self.assertEqual((rule.place, rule.rights, rule.calls), ((80, 443, 8080), {"bind_tcp", "connect_tcp"}, 3))
        self.assertEqual(said(rule), ("also bind_tcp on 2 ports: 80, 443", "also connect_tcp on 1 port: 8080"))

    def test_all_that_is_asked_for_is_granted(self) -> None:
        paths = {f"{name}/f{n}": asked(*rights, call=n) for name in ("few", "some", "many") for n in range(2)
                 for rights in [("read_file", "write_file")[: n + 1]]}
        for most in range(1, 7):
            with self.subTest(most):
                found = self.rules(most, paths)
                self.assertLessEqual(len(found), most)
                for name, rights in paths.items():
                    over = [rule for rule in found if str(rule.place) in upwards(self.path(name))]
                    self.assertLessEqual(set(rights), {right for rule in over for right in rule.rights})
                granted = {str(rule.place): asked(*rule.rights) for rule in found}
                self.assertEqual(missing_rights.narrowed(granted), granted)
