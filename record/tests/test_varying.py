"""Names that differ in each run: as programs make them up, by one recording and between several."""

from __future__ import annotations

import tempfile
import unittest
from pathlib import Path

from landaudit_record.common.trees import ROOT, Tree
from landaudit_record.suggest import varying
from landaudit_record.suggest.placing import Cause, Placing, remarks

NOBODY: tuple[set[int], set[int]] = (set(), set())


def tree(*paths: str) -> Tree:
    return Tree({ROOT: "dir", **{path: "reg" for path in paths}})


class MadeUp(unittest.TestCase):
    def test_names_as_programs_make_them_up(self) -> None:
        for name in ("dpkg-deb.Ab3dEf", "tmp0_z8xk2q", "tmp.Zq81KfwD0x", "ccNA2dKx.o", "sh-thd.1b9XqZ",
                     "go-build1234567890"):
            with self.subTest(name):
                self.assertTrue(varying.looks_made_up(name))

    def test_names_that_stay(self) -> None:
        for name in ("passwd", "tmp", "locale-archive", "libc.so.6", "x.Format", "hello.c", "config", "report-20231201",
                     "python3.11", ".bashrc", "a-number", "ld-linux-x86-64.so.2", "notes.sha256", "tmpfilename",
                     "ccollect.c"):
            with self.subTest(name):
                self.assertFalse(varying.looks_made_up(name))


class Alike(unittest.TestCase):
    def test_a_part_of_the_same_length_that_is_no_word(self) -> None:
        self.assertTrue(varying.alike("x-8f3a1c.sock", "x-77b0de.sock", NOBODY))
        self.assertTrue(varying.alike("tmpk3_9xa1b", "tmpqq81zz0c", NOBODY))

    def test_words_and_lengths_tell_names_apart(self) -> None:
        for one, other in (("left", "mode"), ("in.txt", "input.txt"), ("a1", "b2"), ("x-8f3a1c", "x-77b0"),
                           ("base64.pyc", "socket.pyc"), ("sha256.c", "base64.c"), ("Makefile", "Examples")):
            with self.subTest((one, other)):
                self.assertFalse(varying.alike(one, other, NOBODY))

    def test_letters_that_are_the_same_by_chance_belong_to_the_part(self) -> None:
        self.assertTrue(varying.alike("x-8f3a1c.sock", "x-8b0d1c.sock", NOBODY))

    def test_a_number_is_of_a_process_or_long(self) -> None:
        self.assertTrue(varying.alike("daemon.417.lock", "daemon.422.lock", ({417}, {422})))
        self.assertFalse(varying.alike("report-2023", "report-2024", NOBODY))
        self.assertFalse(varying.alike("daemon.417.lock", "daemon.422.lock", ({417}, {9})))
        self.assertTrue(varying.alike("go-build1834218911", "go-build990127446", NOBODY))
        self.assertFalse(varying.alike("report-20231201", "report-20240101", NOBODY))


class Kinds(unittest.TestCase):
    def test_a_directory_in_one_run_and_a_file_in_another(self) -> None:
        """No rule with rights for directories can be on the file (Linux 6.18: EINVAL), so it is on the directory above."""
        trees = tree("/w/x"), Tree({ROOT: "dir", "/w": "dir", "/w/x": "dir", "/w/x/y": "reg", "/w/l": "dir"})
        trees[0].kinds.update({"/w": "dir", "/w/l": "sym"})
        placing = Placing(trees, [["/w/x"], ["/w/x", "/w/x/y", "/w/l"]], NOBODY)
        found = [placing.spot(*at) for at in ((0, "/w/x"), (1, "/w/x"), (1, "/w/x/y"), (1, "/w/l"))]
        self.assertEqual([(spot.place, spot.cause) for spot in found], 3 * [("/w", Cause.KINDS)] + [("/w/l", None)])
        self.assertEqual([str(one.text) for one in remarks("/w", found[:3])],
                         ["for x, x/y: a directory in one run, and none in another"])


    def test_a_directory_in_one_run_and_a_link_to_a_file_in_another(self) -> None:
        """A rule on the path follows the link, and the kernel says EINVAL of rights for directories."""
        trees = (Tree({ROOT: "dir", "/w": "dir", "/w/f": "reg", "/w/e": "dir", "/w/l": "sym", "/w/m": "sym", "/w/o": "sym"},
                      {"/w/l": "f", "/w/m": "e", "/w/o": "o"}),
                 Tree({ROOT: "dir", "/w": "dir", "/w/l": "dir", "/w/m": "dir", "/w/o": "dir"}))
        placing = Placing(trees, [[], ["/w/l", "/w/m", "/w/o"]], NOBODY)
        found = [placing.spot(1, path) for path in ("/w/l", "/w/m", "/w/o")]
        self.assertEqual([(spot.place, spot.cause) for spot in found], [("/w", Cause.KINDS), ("/w/m", None), ("/w/o", None)])


class Between(unittest.TestCase):
    def between(self, one: list[str], other: list[str], *trees: Tree) -> set[str]:
        return varying.between([one, other], trees or (tree(*one), tree(*other)), NOBODY)

    def test_folders_on_the_way(self) -> None:
        found = self.between(["/run/x-8f3a1c/sock", "/etc/passwd"], ["/run/x-77b0de/sock", "/etc/passwd"])
        self.assertEqual(found, {"/run/x-8f3a1c", "/run/x-77b0de"})

    def test_what_the_other_tree_has_stays(self) -> None:
        one, other = tree("/run/x-8f3a1c", "/run/x-77b0de"), tree("/run/x-77b0de")
        self.assertEqual(self.between(["/run/x-8f3a1c"], ["/run/x-77b0de"], one, other), set())

    def test_two_names_that_this_disk_has_are_two_files(self) -> None:
        with tempfile.TemporaryDirectory() as folder:
            paths = [str(Path(folder, name)) for name in ("x-8f3a1c", "x-77b0de")]
            for path in paths:
                Path(path).touch()
            self.assertEqual(self.between(paths[:1], paths[1:]), set())
            Path(paths[0]).unlink()
            self.assertEqual(self.between(paths[:1], paths[1:]), set(paths))

    def test_names_of_different_directories_are_not_compared(self) -> None:
        self.assertEqual(self.between(["/run/x-8f3a1c"], ["/var/x-77b0de"]), set())

    def test_the_first_on_the_way_counts(self) -> None:
        self.assertEqual(varying.first_of("/a/b/c", {"/a/b", "/a/b/c"}), "/a/b")
        self.assertIsNone(varying.first_of("/a/b/c", {"/a/x"}))


class OfProcess(unittest.TestCase):
    def test_what_a_process_has_under_its_number(self) -> None:
        self.assertEqual(varying.of_process("/proc/71/task/72/comm"), "/proc/71")
        for path in ("/proc/meminfo", "/proc/sys/kernel", "/x/proc/71"):
            self.assertIsNone(varying.of_process(path))
