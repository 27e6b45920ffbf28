"""How paths are resolved while the run makes, removes and moves objects (path_resolution(7), rename(2))."""

from __future__ import annotations

import random
import unittest
from collections.abc import Callable

from landaudit_record.recorder.disk import Disk, Seen
from landaudit_record.recorder.names import Found, Names, Node

from .drawn import by_chance

DISK = {
    "/usr": Seen("dir"),
    "/usr/lib": Seen("dir"),
    "/usr/lib/x.so": Seen("reg"),
    "/lib": Seen("sym", "usr/lib"),
    "/loop": Seen("sym", "loop"),
    "/far": Seen("sym", "/lib"),
    "/w": Seen("dir"),
    "/w/later": Seen("reg", None, True),
    "/w/moved": Seen("dir"),
    "/w/moved/in": Seen("reg"),
}


NAMES = ("a", "b", "moved", "lib", "x.so")


def some_path(chance: random.Random) -> str:
    """A path of a few names, in which links and ways back up may be."""
    names = [chance.choice([*NAMES, *NAMES, "..", "..", "far"]) for _ in range(chance.randrange(1, 4))]
    start = chance.choice(["", "/w/", "/w/a/../", "/w/b/", "/usr/", "/far/"])
    return start + "/".join(names)


def change(chance: random.Random) -> Callable[[Names], None]:
    """Something that a run does to names; it moves no directory that is on the disk, where its contents would be looked
    up at another path then.
    """
    one, other = (chance.choice(["/w/", "/w/a/", "/usr/", "/usr/lib/"]) + chance.choice(NAMES) for _ in range(2))
    made, target = chance.choice(["dir", "dir", "reg", "sym"]), some_path(chance)
    match chance.randrange(4):
        case 0:
            return lambda names: names.put(one, None)
        case 1:
            stays = (one + other).count("/w/a") or {one, other} & DISK.keys()
            return lambda names: None if stays else names.exchange(one, other)
        case 2:
            return lambda names: names.move(one, other) if one == "/w/a" and "/w/a/" not in other else None
    return lambda names: names.put(one, Node(made, target if made == "sym" else None))


def kind(found: Found) -> str | None:
    return None if found.node is None else found.node.kind


class Paths(unittest.TestCase):
    def setUp(self) -> None:
        self.names = Names(Disk(0.0, DISK), {}, [])
        self.links: list[str] = []

    def find(self, path: str, follow: bool = True, directory: str = "/w", root: str = "/") -> Found:
        return self.names.find(root, directory, path, follow, self)

    def magic(self, path: str) -> tuple[str, Node | None] | None:
        """Nothing here is a link of /proc."""
        return None

    def passed(self, path: str, node: Node) -> None:
        """Keeps the links that were followed."""
        self.links.append(path)

    def test_links_are_followed_and_told(self) -> None:
        self.assertEqual(self.find("/far/x.so").path, "/usr/lib/x.so")
        self.assertEqual(self.links, ["/far", "/lib"])

    def test_a_link_at_the_end_is_followed_where_it_is_asked(self) -> None:
        self.assertEqual(self.find("/lib").path, "/usr/lib")
        self.assertEqual(self.find("/lib", follow=False).path, "/lib")
        self.assertEqual(self.find("/lib/", follow=False).path, "/usr/lib")

    def test_relative_paths_and_dots(self) -> None:
        self.assertEqual(self.find("../usr/./lib/../lib/x.so").path, "/usr/lib/x.so")
        self.assertEqual(self.find("../../..").path, "/")
        self.assertEqual(self.find("/usr", root="/w").names, ["w", "usr"])

    def test_where_a_path_breaks_off(self) -> None:
        missing = self.find("/usr/none")
        self.assertEqual((missing.node, missing.path, missing.in_directory), (None, "/usr/none", True))
        deeper = self.find("/usr/none/deep")
        self.assertEqual((deeper.path, deeper.broken, deeper.in_directory), ("/usr/none/deep", 1, False))
        through = self.find("/usr/lib/x.so/y")
        self.assertEqual((through.path, through.broken), ("/usr/lib/x.so/y", 3))

    def test_a_loop_of_links_leads_nowhere(self) -> None:
        self.assertIsNone(self.find("/loop").node)

    def test_what_was_made_after_the_run_began_was_not_there(self) -> None:
        self.assertIsNone(self.find("/w/later").node)

    def test_what_the_run_makes_removes_and_moves(self) -> None:
        self.names.put("/w/a", Node("dir"))
        self.names.put("/w/a/f", Node("reg"))
        self.names.move("/w/a", "/w/b")
        self.assertIsNone(self.find("/w/a").node)
        self.assertEqual(getattr(self.find("b/f").node, "kind", None), "reg")
        self.names.put("/w/b/f", None)
        self.assertIsNone(self.find("b/f").node)

    def test_what_is_in_a_moved_directory_is_looked_up_where_it_went(self) -> None:
        self.names.ensure("/w/old", "dir")
        self.names.put("/w/moved", None)
        self.names.move("/w/old", "/w/moved")
        self.assertIsNotNone(self.find("moved/in").node)

    def test_an_exchange(self) -> None:
        self.names.put("/w/d", Node("dir"))
        self.names.exchange("/w/d", "/usr/lib/x.so")
        self.assertEqual(getattr(self.names.at("/w/d"), "kind", None), "reg")
        self.assertEqual(getattr(self.names.at("/usr/lib/x.so"), "kind", None), "dir")

    def test_a_path_breaks_off_where_a_file_was_before(self) -> None:
        self.names.put("/w/a", Node("reg"))
        self.find("a/../x")
        self.names.put("/w/a", None)
        self.assertEqual(self.find("a/../x").path, "/w/a/../x")

    def test_a_path_leads_on_where_a_directory_is_in_place_of_a_file(self) -> None:
        self.names.put("/w/moved", Node("reg"))
        self.assertEqual(self.find("moved/in/x").broken, 2)
        self.names.put("/w/moved", None)
        self.names.ensure("/w/moved", "dir")
        self.assertEqual(self.find("moved/in/x").broken, 3)

    @by_chance(examples=40)
    def test_a_path_leads_where_it_does_whoever_was_asked_before(self, chance: random.Random) -> None:
        self.setUp()
        done = []
        for _ in range(chance.randint(1, 16)):
            done.append(change(chance))
            done[-1](self.names)
            fresh = Names(Disk(0.0, DISK), {}, [])
            for one in done:
                one(fresh)
            for path in (some_path(chance) for _ in range(8)):
                follow, directory = chance.choice((False, True)), chance.choice(["/w", "/usr/lib", "/w/a"])
                known = self.find(path, follow, directory)
                new = fresh.find("/", directory, path, follow, self)
                self.assertEqual((known.path, known.broken, kind(known)), (new.path, new.broken, kind(new)), path)
                at, again = self.names.at(known.path), fresh.at(known.path)
                self.assertEqual(at and at.kind, again and again.kind)

    def test_what_stood_before_the_run_counts_in_a_watched_directory(self) -> None:
        names = Names(Disk(0.0, DISK), {"/w/gone": Seen("fifo")}, ["/w"])
        self.assertEqual(getattr(names.at("/w/gone"), "kind", None), "fifo")
        self.assertIsNone(names.at("/w/moved"))

    def test_what_was_not_listed_in_a_watched_directory_is_as_the_disk_says(self) -> None:
        before = {"/w": Seen("dir"), "/w/moved": Seen("dir")}
        for unlisted, expected in (([], None), (["/w/moved"], "reg")):
            names = Names(Disk(0.0, DISK), before, ["/"], unlisted=unlisted)
            self.assertEqual(getattr(names.at("/w/moved/in"), "kind", None), expected)
            self.assertIsNone(names.at("/usr"))

    def test_of_directories_that_were_listed_or_not_the_nearest_counts(self) -> None:
        before = {"/w/in": Seen("dir"), "/w/in/f": Seen("reg")}
        for unlisted, expected in ((["/w"], None), (["/w/in"], "reg"), (["/w", "/w/in/moved"], None)):
            disk = Disk(0.0, {**DISK, "/w/in": Seen("dir"), "/w/in/g": Seen("reg")})
            names = Names(disk, before, ["/w/in"], unlisted=unlisted)
            self.assertEqual(getattr(names.at("/w/in/g"), "kind", None), expected, unlisted)
