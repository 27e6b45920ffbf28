"""Refused calls in groups: paths chosen by hand, and the directories that a reader would write rules for."""

from __future__ import annotations

import unittest
from collections import Counter
from collections.abc import Sequence

from landaudit_record.audit.summary import Refusal, RefusingLayer
from landaudit_record.engine.answers import Closed, Condition, Kept, Missing, Objection
from landaudit_record.engine.subjects import NOTHING
from landaudit_record.summaries import grouping

from .worded import subject


def refusal(place: str, *objections: Objection, call: str = "open r", error: str = "EACCES") -> Refusal:
    return Refusal(call, subject(place), error, (RefusingLayer(1, 1, objections),), None)


def reads(paths: Sequence[str], right: str = "read_file") -> list[Refusal]:
    return [refusal(path, Missing((right,), path)) for path in paths]


def groups(refusals: Sequence[Refusal], times: int = 1) -> list[tuple[int, str, str, int]]:
    """Of each group its calls, what it lacks, its directory, and how many kinds it has."""
    return [(group.programs.total(), "; ".join(map(str, group.lacking.objections)), group.directory, len(group.kinds))
            for group in grouping.grouped([(one, Counter({"/bin/x": times})) for one in refusals])]


class Directories(unittest.TestCase):
    LIBRARY = [f"/root/.pyenv/lib/python3.11/{name}/m.py" for name in ("json", "asyncio", "re", "email", "os")]

    def test_the_deepest_directory_over_all(self) -> None:
        self.assertEqual(groups(reads(self.LIBRARY)), [(5, "read_file", "/root/.pyenv/lib/python3.11", 5)])

    def test_a_single_path_is_itself(self) -> None:
        self.assertEqual(groups(reads(["/etc/passwd"])), [(1, "read_file", "/etc/passwd", 1)])

    def test_the_root_is_no_group(self) -> None:
        found = groups(reads(["/etc/passwd", "/usr/lib/a", "/usr/lib/b"]))
        self.assertEqual(found, [(1, "read_file", "/etc/passwd", 1), (2, "read_file", "/usr/lib", 2)])

    def test_the_root_is_no_group_however_many_are_below_it(self) -> None:
        self.assertEqual(len(groups(reads([f"/d{number}/f" for number in range(30)]))), 30)

    def test_a_directory_near_the_root_is_taken_apart(self) -> None:
        found = groups(reads(["/usr/bin/a", "/usr/lib/a", "/usr/lib/b"]))
        self.assertEqual(found, [(1, "read_file", "/usr/bin/a", 1), (2, "read_file", "/usr/lib", 2)])

    def test_but_not_into_more_groups_than_are_few(self) -> None:
        found = groups(reads([f"/usr/d{number}/f" for number in range(13)]))
        self.assertEqual(found, [(13, "read_file", "/usr", 13)])

    def test_one_directory_that_has_most_is_told_apart(self) -> None:
        """Five of six files are in the library, which is more than three quarters of them."""
        found = groups(reads(["/root/.pyenv/bin/python", *self.LIBRARY]))
        self.assertEqual(found, [(1, "read_file", "/root/.pyenv/bin/python", 1),
                                 (5, "read_file", "/root/.pyenv/lib/python3.11", 5)])
        some = reads(["/root/.pyenv/bin/a", "/root/.pyenv/bin/b", *self.LIBRARY[:3]])
        self.assertEqual(groups(some), [(5, "read_file", "/root/.pyenv", 5)])

    def test_what_is_in_a_directory_itself_stays_together(self) -> None:
        found = groups(reads(["/etc/a", "/etc/b", "/etc/ssl/c"]))
        self.assertEqual(found, [(2, "read_file", "/etc", 2), (1, "read_file", "/etc/ssl/c", 1)])

    def test_what_processes_have_under_their_numbers_stays_together(self) -> None:
        """A rule on the number of a process helps no other run: that for all of them is on /proc."""
        paths = ["/proc/10/stat", "/proc/11/stat", "/proc/11/task/12/status", "/proc/sys/vm/a", "/proc/sys/vm/b"]
        self.assertEqual(groups(reads([*paths, "/etc/passwd"])), [
            (3, "read_file", "/proc", 3), (2, "read_file", "/proc/sys/vm", 2), (1, "read_file", "/etc/passwd", 1)])
        self.assertEqual(groups(reads(paths[:1])), [(1, "read_file", "/proc/10/stat", 1)])


class Groups(unittest.TestCase):
    def test_the_earliest_comes_first_and_then_the_most_frequent(self) -> None:
        found = [*reads(["/x/a"], "execute"), *reads(["/x/a"]), *reads(["/x/a", "/x/b"], "write_file")]
        self.assertEqual([lacking for _, lacking, _, _ in groups(found)], ["execute", "write_file", "read_file"])

    def test_calls_are_counted_and_not_kinds_alone(self) -> None:
        self.assertEqual(groups(reads(["/x/a", "/x/b"]), times=3), [(6, "read_file", "/x", 2)])

    def test_another_error_is_another_group(self) -> None:
        both = [refusal("/x/a", Missing(("refer",), "/x"), error=error) for error in ("EACCES", "EXDEV")]
        self.assertEqual(len(groups(both)), 2)

    def test_a_move_has_what_it_lacks_in_both_directories(self) -> None:
        lacking = [(Missing(("remove_file",), "/x"), Missing(("make_reg",), f"/y/{name}")) for name in ("a", "b")]
        moves = [refusal(f"/x/f -> {made.path}/f", removed, made) for removed, made in lacking]
        (group,) = grouping.grouped([(one, Counter({"-": 1})) for one in moves])
        self.assertEqual(([str(one) for one in group.lacking.objections], group.directory, group.others),
                         (["remove_file", "make_reg"], "/x", ["/y"]))

    def test_ports_and_descriptors(self) -> None:
        found = [refusal(f"port {port}", Closed(("bind_tcp",), port)) for port in (80, 443)]
        found.append(refusal("/x/a", Kept(("truncate",), "/x/a", 7)))
        self.assertEqual(groups(found), [(2, "bind_tcp", "", 2), (1, "truncate when it was opened", "/x/a", 1)])

    def test_conditions_are_groups_of_their_own(self) -> None:
        failed = [Refusal("restrict", NOTHING, "EBADF", (), Condition("unheld", rs=number)) for number in (8, 9)]
        self.assertEqual(groups(failed), [(1, "ruleset 8 is not held", "", 1), (1, "ruleset 9 is not held", "", 1)])

    def test_layers_that_object_to_different_things_are_named(self) -> None:
        own = RefusingLayer(2, None, (Missing(("refer",), "/x"),))
        layers = RefusingLayer(1, 1, (Missing(("read_file",), "/x/a"),)), own
        found = groups([Refusal("open r", subject("/x/a"), "EACCES", layers, None)])
        self.assertEqual(found[0][1], "policy's 1: read_file; program's 2: refer")
