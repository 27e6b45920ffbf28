"""Where paths lead: on this disk as the running kernel opens them, and in recordings by what they kept."""

from __future__ import annotations

import errno
import json
import os
import random
import tempfile
import unittest
from pathlib import Path

from landaudit_record.audit import surroundings
from landaudit_record.common import resolving, trees
from landaudit_record.common.resolving import DISK, LinkLoop, NothingElse, Walked, walked
from landaudit_record.common.trees import Tree
from landaudit_record.policy import policies
from landaudit_record.recorder import recordings

from .drawn import by_chance
from .recorded import write_lines

NAMES = ("a", "b", "c")
PATHS = 100


def opened(path: str) -> str | int:
    """The path of the object that the kernel opens, or its error."""
    try:
        place = os.open(path, os.O_PATH | os.O_CLOEXEC)
    except OSError as error:
        return error.errno or 0
    try:
        return os.readlink(f"/proc/self/fd/{place}")
    finally:
        os.close(place)


class AsTheKernel(unittest.TestCase):
    """Random trees of links on the disk, and random paths through them."""

    top = ""

    def fill(self, of: random.Random) -> None:
        """Directories, files and links with targets of every form, also some that lead nowhere or round."""
        directories = [self.top]
        for _ in range(18):
            path = os.path.join(of.choice(directories), of.choice(NAMES))
            if os.path.lexists(path):
                continue
            match of.choice(("dir", "dir", "file", "link", "link", "link")):
                case "dir":
                    os.mkdir(path)
                    directories.append(path)
                case "file":
                    Path(path).touch()
                case _:
                    os.symlink(self.path(of, absolute=of.random() < 0.4), path)

    def path(self, of: random.Random, *, absolute: bool) -> str:
        """A path of a few names, with `.`, `..` and doubled slashes in it."""
        names = of.choices((*NAMES, "..", ".", ""), weights=(4, 4, 4, 3, 1, 1), k=of.randint(1, 6))
        return "/".join([self.top, *names]) if absolute else "/".join(names).lstrip("/") or "."

    def test_random_paths(self) -> None:
        met: set[str | int] = set()

        @by_chance(examples=30)
        def check(chance: random.Random) -> None:
            with tempfile.TemporaryDirectory() as top:
                self.top = str(Path(top).resolve())
                self.fill(chance)
                for _ in range(PATHS):
                    path = self.path(chance, absolute=True)
                    by_kernel = opened(path)
                    met.add(by_kernel if isinstance(by_kernel, int) else "found")
                    self.assertEqual(self.by_walk(path), by_kernel, path)

        check()
        self.assertEqual(met, {"found", errno.ENOENT, errno.ENOTDIR, errno.ELOOP})

    def by_walk(self, path: str) -> str | int:
        """What `walked` says, in the kernel's words."""
        try:
            led = walked(path, DISK)
        except LinkLoop:
            return errno.ELOOP
        self.assertIsNone(led.unknown)
        if led.is_sure and os.path.lexists(led.path):
            return led.path
        return opened(path) if opened(path) in (errno.ENOENT, errno.ENOTDIR) else errno.EINVAL

    def test_what_differs_from_process_to_process_is_not_known(self) -> None:
        own = f"/proc/{os.getpid()}/exe"
        for path in ("/proc/self", "/proc/thread-self", own, "/proc/1/fd/0", "/proc/1/task/1/cwd"):
            self.assertEqual(walked(path, DISK).unknown, path)
        self.assertIsNone(walked(f"/proc/{os.getpid()}", DISK).unknown)
        # This process's own links are not followed: another process has others.
        for path, varies in (("/proc/self/cwd/x", True), ("/proc/thread-self/exe", True), ("/proc/1/root/x", True),
                             ("/proc/self/task/1/fd/0", True), ("/proc/self/comm", False), ("/proc/self/fd", False)):
            led = walked(path, DISK)
            self.assertEqual((led.path, led.varies, led.now), (path, varies, ()), path)


class OfATree(unittest.TestCase):
    TREE = Tree(
        {"/": "dir", "/usr": "dir", "/usr/bin": "dir", "/bin": "sym", "/f": "reg", "/w": "dir", "/w/new": "dir"},
        {"/bin": "usr/bin"},
        made={"/w/new"},
    )

    def led(self, path: str) -> Walked:
        return self.TREE.walked(path)

    def test_above_what_is_behind_a_link(self) -> None:
        self.assertEqual(self.led("/bin/../bin").path, "/usr/bin")

    def test_the_kernel_gets_nowhere_from_what_is_no_directory(self) -> None:
        self.assertEqual(self.led("/none/../usr").blocked, "/none")
        self.assertEqual(self.led("/w/new/../../usr").blocked, "/w/new")
        for path in ("/f/", "/f/.", "/f/../usr"):
            self.assertEqual(self.led(path).blocked, "/f")
        self.assertTrue(self.led("/none/x/").is_sure)
        self.assertEqual((self.led("/usr/").only_directory, self.led("/usr").only_directory), (True, False))


class OfARecording(unittest.TestCase):
    """A recording keeps what is in `/`, and what is on the way to parents; the rest is here, or not known."""

    def setUp(self) -> None:
        self.folder = Path(self.enterContext(tempfile.TemporaryDirectory())).resolve()
        (self.folder / "real").mkdir()
        (self.folder / "link").symlink_to("real")

    def recorded(self, machine: str, policy: str = "") -> Tree:
        """The tree of a recording made on a machine, which touched nothing."""
        kept = self.folder / "rec"
        kept.mkdir()
        (kept / "recording.json").write_text(json.dumps({"machine": machine}))
        file = self.folder / "P.toml"
        file.write_text(f'[[layer]]\nhandled_access_fs = ["all"]\n{policy}')
        surroundings.keep(kept, policies.read(file))
        return trees.read(write_lines(kept / "tree.jsonl", []), beside=surroundings.of(kept))

    def test_on_this_machine_links_are_followed_as_they_are_now(self) -> None:
        led = self.recorded(surroundings.machine()).walked(f"{self.folder}/link/x")
        self.assertEqual((led.path, led.now, led.unknown), (f"{self.folder}/real/x", (f"{self.folder}/link",), None))

    def test_in_a_listed_directory_is_what_was_there_before_the_run(self) -> None:
        top = self.folder / "top"
        (top / "mounted").mkdir(parents=True)
        (top / "link").symlink_to("../real")
        self.recorded(surroundings.machine())
        recordings.watch(self.folder / "rec", [str(top)])
        about = {"machine": surroundings.machine(), "watched": [str(top)], "unlisted": [str(top / "mounted")]}
        (self.folder / "rec" / "recording.json").write_text(json.dumps(about))
        (top / "link").unlink()
        for link in ("link", "later", "mounted/link"):
            (top / link).symlink_to(self.folder / "elsewhere")
        known = surroundings.of(self.folder / "rec")
        for written, led in (("link/x", f"{self.folder}/real/x"), ("later/x", f"{top}/later/x"),
                             ("mounted/link", f"{self.folder}/elsewhere")):
            with self.subTest(written):
                self.assertEqual(walked(f"{top}/{written}", known).path, led)

    def test_elsewhere_only_what_is_kept_is_known(self) -> None:
        rule = f'[[layer.path_beneath]]\nallowed_access = ["read"]\nparent = "{self.folder}/link/x"\n'
        tree = self.recorded("another", rule)
        (self.folder / "link").unlink()
        led = tree.walked(f"{self.folder}/link/x")
        self.assertEqual((led.path, led.now, led.unknown), (f"{self.folder}/real/x", (), None))
        self.assertEqual(tree.walked(f"{self.folder}/other").unknown, f"{self.folder}/other")
        self.assertEqual(tree.walked("/no-such-name/x"), Walked("/no-such-name/x"))
        top = next(name for name in sorted(os.listdir("/")) if os.path.isdir(f"/{name}"))
        self.assertEqual(tree.walked(f"/{top}"), Walked(os.path.realpath(f"/{top}")))

    def test_a_recording_of_an_older_version_says_no_machine(self) -> None:
        kept = self.folder / "old"
        kept.mkdir()
        (kept / "recording.json").write_text('{"command": ["true"]}')
        self.assertIsNone(surroundings.of(kept).at("/usr"))

    def test_a_tree_by_hand_is_all_that_there_is(self) -> None:
        self.assertIsInstance(surroundings.of(self.folder), NothingElse)
        self.assertEqual(resolving.walked("/usr/bin", surroundings.of(self.folder)), Walked("/usr/bin"))
