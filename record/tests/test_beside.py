"""What is looked at beside a run, and from which line of its log on that is known."""

from __future__ import annotations

import os
import tempfile
import time
import unittest
from collections.abc import Callable
from pathlib import Path

from landaudit_record.common import jsonl
from landaudit_record.recorder import beside

SOON = 30.0


class Follows(unittest.TestCase):
    """A log that grows, and a folder `there` to which it leads."""

    def setUp(self) -> None:
        self.folder = Path(self.enterContext(tempfile.TemporaryDirectory())).resolve()
        self.there = self.folder / "there"
        self.there.mkdir()
        self.log = self.folder / "strace.txt"
        self.out = self.folder / "beside.jsonl"

    def follow(self, *steps: str | Callable[[], object], watched: tuple[str, ...] = ()) -> dict[str, jsonl.Record]:
        """What was seen by its path or program. Lines are written to the log, and other steps are done when all that
        the log has was read.
        """
        following = beside.LogFollower(self.log, str(self.there), time.time(), watched)
        self.log.touch()
        following.start()
        for step in steps:
            if isinstance(step, str):
                with open(self.log, "a", encoding="ascii") as log:
                    log.write(step + "\n")
            else:
                self.wait(following)
                step()
        following.stop(self.out)
        lines = [line for _, line in jsonl.numbered(self.out)]
        return {line.get("program", line.get("path")): line for line in lines}

    def wait(self, following: beside.LogFollower) -> None:
        """Waits until the log was read to its end."""
        end = time.monotonic() + SOON
        while not following.is_up_to_date():
            self.assertLess(time.monotonic(), end)
            time.sleep(0.01)

    def opened(self, name: str, result: str = "3") -> str:
        return f'10  openat(-100 /* AT_FDCWD */<{self.there}>, "{name}", 0 /* O_RDONLY */) = {result}'

    def at(self, name: str) -> str:
        return str(self.there / name)

    def test_a_name_is_known_from_the_listing_before_the_log_names_it(self) -> None:
        (self.there / "old").touch()
        seen = self.follow(
            self.opened("first", "-1 ENOENT (No such file or directory)"),
            lambda: (self.there / "new").touch(),
            self.opened("new"), self.opened("old"),
        )
        self.assertEqual((seen[self.at("new")]["kind"], seen[self.at("new")]["until"]), (None, 1))
        self.assertEqual((seen[self.at("old")]["kind"], seen[self.at("old")]["until"]), ("reg", 1))
        self.assertNotIn("new", seen[self.at("old")])

    def test_a_name_that_the_log_names_first_is_known_later(self) -> None:
        (self.there / "f").touch()
        seen = self.follow(self.opened("f"), self.opened("f"), self.opened("f"))
        self.assertGreaterEqual(seen[self.at("f")]["until"], 1)

    def test_a_call_that_has_begun_may_have_come_before(self) -> None:
        begun = f'10  mkdirat(-100 /* AT_FDCWD */<{self.there}>, "d", 0755'
        seen = self.follow(self.opened("x"), begun)
        self.assertEqual(seen[self.at("d")]["until"], 2)

    def test_links_lead_on(self) -> None:
        (self.there / "to").mkdir()
        (self.there / "to" / "f").touch()
        (self.there / "link").symlink_to("to")
        seen = self.follow(self.opened("link/f"))
        self.assertEqual(seen[self.at("link")]["target"], "to")
        self.assertEqual(seen[self.at("to/f")]["kind"], "reg")

    def test_both_paths_of_a_move(self) -> None:
        (self.there / "a").touch()
        seen = self.follow('10  rename("a", "b") = 0')
        self.assertEqual((seen[self.at("a")]["kind"], seen[self.at("b")]["kind"]), ("reg", None))

    def test_what_was_listed_before_the_run_is_not_looked_at(self) -> None:
        (self.there / "f").touch()
        self.assertNotIn(self.at("f"), self.follow(self.opened("f"), watched=(str(self.there),)))

    def test_programs_are_read_when_they_are_run(self) -> None:
        script = self.there / "s"
        script.write_text("#!/bin/one\n")
        runs = '10  execve("s", ["s"], 0x1 /* 2 vars */) = 0'
        self.follow(
            self.opened("x"), runs, lambda: script.write_text("#!/bin/other\n"), runs, script.unlink, runs
        )
        lines = [line for _, line in jsonl.numbered(self.out) if line.get("program") == self.at("s")]
        self.assertEqual([line.get("interpreter") for line in lines], ["/bin/one", "/bin/other", None])
        self.assertEqual([line["first"] for line in lines], [2, 3, 4])
        self.assertEqual([line.get("known", True) for line in lines], [True, True, False])

    def test_what_no_file_can_be_called(self) -> None:
        (self.there / "f").touch()
        runs = '10  execve("a\\0b", ["a"], 0x1) = -1 ENOENT (No such file or directory)'
        seen = self.follow(self.opened("a\\0b"), runs, self.opened("\\x9"), self.opened("f"))
        self.assertEqual(seen[self.at("f")]["kind"], "reg")

    def test_a_log_that_was_never_written(self) -> None:
        following = beside.LogFollower(self.log, str(self.there), time.time(), ())
        following.start()
        following.stop(self.out)
        self.assertFalse(self.out.exists())

    def test_a_pipe_is_not_waited_for(self) -> None:
        os.mkfifo(self.there / "pipe")
        seen = self.follow(self.opened("pipe"), '10  execve("pipe", ["pipe"], 0x1) = -1 EACCES (Permission denied)')
        self.assertFalse(seen[self.at("pipe")].get("known", True))


class Mounts(unittest.TestCase):
    """What is mounted, as /proc/self/mountinfo says it (proc(5))."""

    LINE = "{id} 1 0:{id} / {at} rw,relatime - {kind} none rw\n"

    def mounts(self, *mounted: tuple[str, str]) -> beside.WatchedMounts:
        file = Path(self.enterContext(tempfile.TemporaryDirectory())) / "mountinfo"
        lines = (self.LINE.format(id=number, at=at, kind=kind) for number, (at, kind) in enumerate(mounted, start=20))
        file.write_text("".join(lines), encoding="utf-8")
        found = beside.WatchedMounts(file)
        self.addCleanup(found.close)
        return found

    def test_what_a_process_serves_is_closed(self) -> None:
        served = (("/m\\040x", "fuse.sshfs"), ("/n", "fuse"), ("/b", "fuseblk"), ("/ö", "fuse"), ("/ö\\040ü", "fuse"))
        found = self.mounts(("/", "ext4"), *served, ("/t", "tmpfs"))
        for closed in ("/m x", "/m x/f", "/n/a/b", "/b", "/ö/f", "/ö ü", "/proc", "/proc/1"):
            self.assertTrue(found.closes(closed), closed)
        for opened in ("/", "/m", "/nn", "/t/f", "/process"):
            self.assertFalse(found.closes(opened), opened)
