"""Logs that are read by another process: what they tell is what one process reads."""

from __future__ import annotations

import os
import signal
import tempfile
import unittest
from collections.abc import Iterator
from dataclasses import fields
from itertools import product
from pathlib import Path
from typing import Any
from unittest import mock

from landaudit_record.common.problems import Problem
from landaudit_record.recorder import converting, log_apart, recordings, strace_log, values
from landaudit_record.recorder.log_apart import _Numbers
from landaudit_record.recorder.looks import Near
from landaudit_record.recorder.ports import Ports
from landaudit_record.recorder.writing import Limits, Recording

from .kept_logs import LOGS, KeptLogs
from .written_logs import FIRST, THREAD, WrittenLogs, told

#: A thread goes to /proc, between calls that look at what relative paths name.
GOING = [
    FIRST,
    f"10  {THREAD} = 11",
    '10  stat("1/exe", 0x1) = 0',
    '11  stat("1/root/a",  <unfinished ...>',
    '10  chdir("/proc" <unfinished ...>',
    '11  <... stat resumed>0x1) = 0',
    '11  stat("1/cwd",  <unfinished ...>',
    "10  <... chdir resumed>) = 0",
    '11  <... stat resumed>0x1) = 0',
    *['10  stat("1/exe", 0x1) = 0', '10  lstat("/etc", 0x1) = 0', "10  close(3</w/f>) = 0", "no line of strace"] * 3,
    "11  +++ exited with 0 +++",
    "10  +++ killed by SIGKILL (core dumped) +++",
]


def said(event: strace_log.Event) -> tuple[str, ...]:
    """All that an event says."""
    names = [of.name for of in fields(event) if of.compare]
    return (type(event).__name__, *(str(getattr(event, name)) for name in names))


class Apart(KeptLogs):
    """Tests in which another process reads all logs, and sends a few events at once."""

    def setUp(self) -> None:
        super().setUp()
        self.enterContext(mock.patch.object(log_apart, "LEAST", 0))
        self.enterContext(mock.patch.object(log_apart, "AT_ONCE", 2))
        self.enterContext(mock.patch.object(os, "sched_getaffinity", return_value={0, 1}))

    def written(self, *lines: str) -> Path:
        log = Path(self._folder) / "strace.txt"
        log.write_text("".join(line + "\n" for line in lines), encoding="latin-1")
        return log


class Events(Apart):
    def test_kept_logs_tell_the_same(self) -> None:
        for log in LOGS.glob("*/strace.txt"):
            ends = strace_log.births(log).ends
            apart = [said(event) for event in log_apart.events(log, ends, Near())]
            self.assertEqual(apart, [said(event) for event in strace_log.events(log, ends)], log)

    def test_lines_that_come_again_have_numbers_of_their_own(self) -> None:
        log = self.written(*["10  close(3</w/f>) = 0", "11  close(4) = 0", "10  +++ exited with 0 +++"] * 3)
        events = [(type(event).__name__, event.line, event.tid) for event in log_apart.events(log, {}, Near())]
        kinds = ("Call", "Call", "Ended")
        self.assertEqual(events, [(kinds[at % 3], at + 1, (10, 11, 10)[at % 3]) for at in range(9)])

    def test_what_looks_is_told_from_the_call_on_that_leads_to_proc(self) -> None:
        log = self.written(*GOING)
        ends = strace_log.births(log).ends
        apart, alone = (list(self._to_proc(read, log, ends)) for read in (log_apart.events, strace_log.events))
        self.assertEqual(apart, alone)
        self.assertEqual(len(apart), len(set(apart)))
        self.assertIn("stat", [one[3] for one in apart])

    def _to_proc(self, read: Any, log: Path, ends: dict[int, str]) -> Iterator[tuple[Any, ...]]:
        """What is told to one who notes that a thread goes to /proc."""
        near = Near()
        for event in read(log, ends, near):
            yield said(event)
            near.relative = near.relative or getattr(event, "name", "") == "chdir"

    def test_a_killed_reader_is_a_problem(self) -> None:
        log = self.written(*["10  close(3</w/f>) = 0"] * 10)
        real = strace_log.events

        def killed(*given: Any) -> Iterator[strace_log.Event]:
            for event in real(*given):
                if event.line == 7:
                    os.kill(os.getpid(), signal.SIGKILL)
                yield event

        taken = []
        with mock.patch.object(strace_log, "events", killed), self.assertRaisesRegex(Problem, "was killed"):
            taken.extend(event.line for event in log_apart.events(log, {}, Near()))
        self.assertEqual(taken, [1, 2, 3, 4, 5, 6])

    def test_what_the_reader_raises_is_raised(self) -> None:
        log = self.written("10  close(3</w/f>) = 0")
        with mock.patch.object(strace_log, "events", side_effect=Problem("so it is")):
            with self.assertRaisesRegex(Problem, "so it is"):
                list(log_apart.events(log, {}, Near()))

    def test_where_no_process_can_be_started_this_one_reads(self) -> None:
        log = self.written(*GOING)
        ends = strace_log.births(log).ends
        apart = list(self._to_proc(log_apart.events, log, ends))
        with mock.patch.object(os, "fork", side_effect=BlockingIOError):
            self.assertEqual(list(self._to_proc(log_apart.events, log, ends)), apart)

    def test_one_processor_reads_itself(self) -> None:
        log = self.written("10  close(3</w/f>) = 0")
        with mock.patch.object(os, "sched_getaffinity", return_value={0}):
            with mock.patch.object(log_apart, "_received", side_effect=AssertionError):
                self.assertEqual(len(list(log_apart.events(log, {}, Near()))), 1)


class Conversions(Apart):
    def test_a_conversion_whose_reader_is_killed_leaves_the_recording_as_it_was(self) -> None:
        self.convert("moves")
        folder = Path(self._folder) / "moves"
        before = {file.name: file.read_bytes() for file in folder.iterdir()}
        with mock.patch.object(log_apart, "_pieces", lambda *_: os.kill(os.getpid(), signal.SIGKILL)):
            with self.assertRaisesRegex(Problem, "was killed"):
                converting.convert(folder, Ports())
        self.assertEqual({file.name: file.read_bytes() for file in folder.iterdir()}, before)

    def test_all_files_are_the_same(self) -> None:
        for log in LOGS.glob("*/strace.txt"):
            found = []
            for processors in ({0}, {0, 1}):
                with mock.patch.object(os, "sched_getaffinity", return_value=processors):
                    self.convert(log.parent.name)
                files = sorted((Path(self._folder) / log.parent.name).iterdir())
                found.append([(file.name, file.read_bytes()) for file in files])
            self.assertEqual(found[0], found[1], log)


class Unseen(WrittenLogs):
    """A process whose start was not seen begins by a call that another process has made before."""

    FAILS = "= -1 ENOENT (No such file or directory)"

    def test_the_first_call_of_a_process_moves_no_directory(self) -> None:
        whole, first = f'open("n", 0 /* O_RDONLY */) {self.FAILS}', 'open("n", 0 /* O_RDONLY */ <unfinished ...>'
        lines = [whole, f"11  {first}", 'stat("/w", 0x1) = 0', f"11  <... open resumed>) {self.FAILS}"]
        for least in (0, log_apart.LEAST):
            with mock.patch.object(log_apart, "LEAST", least):
                with mock.patch.object(os, "sched_getaffinity", return_value={0, 1}):
                    trace = self.convert(*lines)
            self.assertEqual(self.unsaid(), [(converting.NOT_SEEN_TO_START, True)], least)
            self.assertEqual(told(trace, "op", "call"), [("open", 2), ("start", 3), ("open", 3)], least)

    def test_a_call_that_ends_during_it_moves_none_either(self) -> None:
        first = '11  open("n", 0 /* O_RDONLY */ <unfinished ...>'
        trace = self.convert(first, "close(7) = 0", f"11  <... open resumed>) {self.FAILS}")
        self.assertEqual(self.unsaid(), [(converting.NOT_SEEN_TO_START, True)])
        self.assertEqual(told(trace, "op", "call"), [("start", 2), ("open", 2)])


class Brief(WrittenLogs):
    """Files that are closed as soon as they are opened: an open that is known takes its close along."""

    OPEN = 'open("/w/f", 0 /* O_RDONLY */) = 3</w/f>'
    BOTH = (OPEN, "close(3</w/f>) = 0")
    #: A process begins with such an open, numbers are in use, a close fails, a path is in /proc, another file is there.
    LINES = [
        *BOTH * 4,
        "clone(child_stack=NULL, flags=0x1200000|17 /* SIGCHLD */) = 11",
        *(f"11  {line}" for line in BOTH * 2),
        "11  +++ exited with 0 +++",
        *(OPEN, *BOTH) * 2,
        *(OPEN, "close(3</w/f>) = -1 EBADF (Bad file descriptor)", *BOTH) * 2,
        *('open("f", 0 /* O_RDONLY */) = 4</w/f>', "close(4</w/f>) = 0") * 2,
        *('open("/proc/10/stat", 0 /* O_RDONLY */) = 3</proc/10/stat>', "close(3</proc/10/stat>) = 0") * 2,
        *('open("/w/p", 0 /* O_RDONLY */) = 5</w/p>', "close_range(5, 5, 0) = 0"),
        *('open("/w/p", 0 /* O_RDONLY */) = 5</w/p>', "close(5</w/p>) = 0") * 3,
        'rename("/w/g", "/w/f") = 0',
        *BOTH * 2,
        'chdir("/proc") = 0',
        *BOTH * 2,
        "+++ exited with 0 +++",
    ]

    def test_all_files_are_the_same_wherever_a_part_or_a_piece_ends(self) -> None:
        self.conversion(*self.LINES)
        self.enterContext(mock.patch.object(log_apart, "LEAST", 0))
        brief = mock.patch.object(Recording, "open_briefly", autospec=True, side_effect=Recording.open_briefly)
        for own, at_once in product((1, 2, 3, 4, 100), (2, 3, 1_000)):
            with mock.patch.object(log_apart, "AT_ONCE", at_once), brief as taken_along:
                alone, apart = (self._files(own, processors) for processors in ({0}, {0, 1}))
            self.assertEqual(alone, apart, (own, at_once))
            self.assertTrue(taken_along.called)

    def _files(self, own: int, processors: set[int]) -> dict[str, bytes]:
        """The files of a conversion in parts with so many records."""
        with mock.patch.object(os, "sched_getaffinity", return_value=processors):
            converting.convert(self.out, Ports(), Limits(own=own))
        return {file.name: file.read_bytes() for file in self.out.iterdir()}


class Numbers(unittest.TestCase):
    def test_a_text_keeps_its_number_while_it_comes_again(self) -> None:
        with mock.patch.object(values, "KEPT", 8):
            numbers = _Numbers()
            first, is_new = numbers.of("often")
            self.assertTrue(is_new)
            for at in range(100):
                self.assertEqual(numbers.of("often"), (first, False))
                number, is_new = numbers.of(f"once {at}")
                self.assertTrue(is_new)
                self.assertTrue(number != first and number < 8)
            self.assertTrue(numbers.of("once 3")[1])


class Reopened(WrittenLogs):
    """Files that are opened again by a call of the same text, which is not understood anew."""

    OPEN = 'openat(-100 /* AT_FDCWD */</w>, "/w/f", 0x80000 /* O_RDONLY|O_CLOEXEC */) = 3</w/f>'

    def test_each_opening_is_a_record_and_closes_what_had_its_number(self) -> None:
        trace = self.convert(self.OPEN, "close(3</w/f>) = 0", self.OPEN, self.OPEN)
        expected = [("open", 2), ("close", 3), ("open", 4), ("close", 5), ("open", 5)]
        self.assertEqual(told(trace, "op", "call"), expected)
        self.assertEqual([record.get("path") for record in trace], ["/w/f", None, "/w/f", None, "/w/f"])

    def test_another_object_at_the_path_has_a_name_of_its_own(self) -> None:
        trace = self.convert(self.OPEN, 'rename("/w/g", "/w/f") = 0', self.OPEN)
        self.assertEqual([one["path"] for one in trace if one["op"] == "open"], ["/w/f", "/w/f~2~"])

    def test_a_relative_path_is_resolved_from_where_the_process_is(self) -> None:
        opened = 'open("f", 0 /* O_RDONLY */) = 3</w/f>'
        failed = 'open("f", 0 /* O_RDONLY */) = -1 ENOENT (No)'
        trace = self.convert(opened, opened, 'chdir("/w/d") = 0', opened, failed)
        paths = [(one["path"], one["call"]) for one in trace if one["op"] == "open"]
        self.assertEqual(paths[:3], [("/w/f", 2), ("/w/f", 3), ("/w/f", 5)])
        self.assertTrue(paths[3][0].startswith("/w/d/f~new~"))
