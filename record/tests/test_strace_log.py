"""How lines of strace become calls (strace(1))."""

from __future__ import annotations

import tempfile
import unittest
from pathlib import Path

from landaudit_record.recorder import strace_log
from landaudit_record.recorder.unwritten import NotUnderstood
from landaudit_record.recorder.strace_log import Call, Ended, Event, Superseded, UnreadLine


def read(*lines: str) -> list[Event]:
    with tempfile.TemporaryDirectory() as folder:
        log = Path(folder) / "strace.txt"
        log.write_text("".join(line + "\n" for line in lines), encoding="ascii")
        return list(strace_log.events(log, strace_log.births(log).ends))


class Lines(unittest.TestCase):
    def test_a_call_with_its_result(self) -> None:
        (call,) = read('12  openat(-100 /* AT_FDCWD */</w>, "a, b) = 7", 0x241 /* O_WRONLY|O_CREAT */, 0666) = 3</w/a>')
        assert isinstance(call, Call)
        self.assertEqual((call.tid, call.name, call.value, call.error), (12, "openat", 3, None))
        self.assertEqual(
            [*call.arguments.values()],
            ["-100 /* AT_FDCWD */</w>", '"a, b) = 7"', "0x241 /* O_WRONLY|O_CREAT */", "0666"],
        )
        self.assertEqual(call.note, "</w/a>")

    def test_a_result_in_octal_digits(self) -> None:
        (call,) = read("12  umask(022)                         = 077")
        assert isinstance(call, Call)
        self.assertEqual((call.value, call.error), (0o77, None))

    def test_a_failed_call_has_the_name_of_its_error(self) -> None:
        (call,) = read('12  unlink("x")                       = -1 ENOENT (No such file or directory)')
        assert isinstance(call, Call)
        self.assertEqual((call.value, call.error, call.ok), (-1, "ENOENT", False))

    def test_structures_and_lists_are_one_argument(self) -> None:
        (call,) = read('1  f([3, 4], {a=1, b=[2, 3]}, "}") = 0')
        assert isinstance(call, Call)
        self.assertEqual([*call.arguments.values()], ["[3, 4]", "{a=1, b=[2, 3]}", '"}"'])

    def test_commas_and_brackets_of_names_part_no_arguments(self) -> None:
        (call,) = read(r'1  f(3</a, b>, "c, \"d", 4</e)>, 0 /* F, G */) = 5</h, i>')
        assert isinstance(call, Call)
        self.assertEqual([*call.arguments.values()], ["3</a, b>", r'"c, \"d"', "4</e)>", "0 /* F, G */"])
        self.assertEqual((call.value, call.note), (5, "</h, i>"))

    def test_a_call_that_is_read_twice_is_told_twice(self) -> None:
        first, second = read("1  close(3</a>) = 0", "2  close(3</a>) = 0")
        assert isinstance(first, Call) and isinstance(second, Call)
        self.assertEqual((first.line, first.tid, [*first.arguments.values()]), (1, 1, ["3</a>"]))
        self.assertEqual((second.line, second.tid, [*second.arguments.values()]), (2, 2, ["3</a>"]))

    def test_a_call_without_arguments(self) -> None:
        (call,) = read("1  vfork() = 2")
        assert isinstance(call, Call)
        self.assertEqual(([*call.arguments.values()], call.value), ([], 2))

    def test_halves_are_put_together_where_the_call_ends(self) -> None:
        first, second = read(
            "1  fchdir(3</a> <unfinished ...>",
            "2  close(4</b>) = 0",
            "1  <... fchdir resumed>) = 0",
        )
        assert isinstance(first, Call) and isinstance(second, Call)
        self.assertEqual((first.tid, first.line), (2, 2))
        self.assertEqual((second.tid, second.line, [*second.arguments.values()]), (1, 1, ["3</a>"]))

    def test_a_close_takes_effect_where_it_begins(self) -> None:
        first, second = read(
            "1  close(3</a> <unfinished ...>",
            '2  openat(-100, "/b", 0) = 3</b>',
            "1  <... close resumed>) = 0",
        )
        assert isinstance(first, Call) and isinstance(second, Call)
        self.assertEqual((first.tid, first.name, first.line, first.value), (1, "close", 1, 0))
        self.assertEqual((second.tid, second.name), (2, "openat"))

    def test_a_close_that_its_thread_did_not_live_to_end_took_effect(self) -> None:
        close, end = read("1  close(3</a> <unfinished ...>", "1  +++ killed by SIGKILL +++")
        assert isinstance(close, Call)
        self.assertEqual((close.name, close.value, close.error), ("close", None, None))
        self.assertEqual(end, Ended(2, 1, killed=True))

    def test_what_looks_up_a_number_does_so_where_it_begins_and_has_its_end_beside(self) -> None:
        cut, close = read(
            "1  ftruncate(3</a>, 0 <unfinished ...>",
            "2  close(3</a>) = 0",
            "1  <... ftruncate resumed>) = -1 EACCES (Permission denied)",
        )
        assert isinstance(cut, Call) and isinstance(close, Call)
        self.assertEqual((cut.name, cut.line, cut.error), ("ftruncate", 1, "EACCES"))
        self.assertEqual([*cut.arguments.values()], ["3</a>", "0"])
        self.assertEqual(close.name, "close")

    def test_halves_of_two_calls_are_no_call(self) -> None:
        """A line between them is missing."""
        opens, closes, reads = 'openat(3</w>, "f", 0x2', "close(3</f>", "read(3</f>"
        for first, second in ((opens, "close"), (closes, "openat"), (reads, "openat")):
            with self.subTest(first):
                *_, last = read(f"1  {first} <unfinished ...>", "2  getpid() = 2", f"1  <... {second} resumed>) = 0")
                self.assertEqual(last, UnreadLine(3, 1, f"<... {second} resumed>) = 0"))

    def test_a_move_ends_with_its_own_second_half(self) -> None:
        with tempfile.TemporaryDirectory() as folder:
            log = Path(folder) / "strace.txt"
            lines = ('1  chdir("d" <unfinished ...>', "2  getpid() = 2", "1  <... chdir resumed>) = -1 ENOENT (X)",
                     "1  fsync(3 <unfinished ...>", "2  getpid() = 2", "1  <... fsync resumed>) = 0")
            log.write_text("".join(line + "\n" for line in lines), encoding="ascii")
            self.assertEqual(strace_log.births(log).moves, {})

    def test_a_call_that_is_restarted_has_no_value(self) -> None:
        (call,) = read('1  openat(-100, "p", 0) = ? ERESTARTSYS (To be restarted if SA_RESTART is set)')
        assert isinstance(call, Call)
        self.assertFalse(call.ok)

    def test_ends_of_threads(self) -> None:
        ends = read("7  +++ exited with 1 +++", "8  +++ killed by SIGKILL +++")
        self.assertEqual(ends, [Ended(1, 7), Ended(2, 8, killed=True)])

    def test_a_thread_that_runs_a_program_takes_its_leaders_number(self) -> None:
        taken, call = read(
            '9  execve("/bin/true", ["true"], 0x1 /* 2 vars */ <unfinished ...>',
            "8  +++ superseded by execve in pid 9 +++",
            "8  <... execve resumed>) = 0",
        )
        self.assertEqual(taken, Superseded(2, 8, 9))
        assert isinstance(call, Call)
        self.assertEqual((call.tid, call.name, call.line), (8, "execve", 1))

    def test_a_program_that_another_thread_runs_has_started_whatever_strace_writes(self) -> None:
        taken, call, end = read(
            '9  execve("/bin/true", ["true"], 0x1 /* 2 vars */ <pid changed to 8 ...>',
            "8  +++ superseded by execve in pid 9 +++",
            "8  <... execve resumed>)             = -1 (errno 18446744073709551359)",
            "8  +++ exited with 0 +++",
        )
        self.assertEqual(taken, Superseded(2, 8, 9))
        assert isinstance(call, Call)
        self.assertEqual((call.tid, call.name, call.line, call.value, call.ok), (8, "execve", 1, 0, True))
        self.assertEqual(end, Ended(4, 8))

    def test_a_process_that_leaves_a_core_file(self) -> None:
        self.assertEqual(read("7  +++ killed by SIGABRT (core dumped) +++"), [Ended(1, 7, dumped=True)])

    def test_an_argument_that_is_missing_is_not_understood(self) -> None:
        (call,) = read("1  openat(-100) = 3")
        assert isinstance(call, Call)
        with self.assertRaises(NotUnderstood):
            call.arguments[1]

    def test_numbers_that_c_does_not_write_are_no_call(self) -> None:
        (line,) = read("1  close(3) = 09")
        self.assertIsInstance(line, UnreadLine)

    def test_what_is_no_line_of_strace(self) -> None:
        second = "<... close resumed>) = 0"
        self.assertEqual(read("hello", f"1  {second}"), [UnreadLine(1, 0, "hello"), UnreadLine(2, 1, second)])

    def test_a_cut_line_is_told(self) -> None:
        (cut,) = read('1  openat(-100 /* AT_FDCWD */</w>, "/etc/pas')
        self.assertIsInstance(cut, UnreadLine)


class Forks(unittest.TestCase):
    def births(self, *lines: str) -> strace_log.Births:
        with tempfile.TemporaryDirectory() as folder:
            log = Path(folder) / "strace.txt"
            log.write_text("".join(line + "\n" for line in lines), encoding="ascii")
            return strace_log.births(log)

    def test_a_child_that_runs_before_its_fork_has_ended(self) -> None:
        births = self.births(
            "1  vfork( <unfinished ...>", '2  execve("/bin/true", ["true"], 0x1) = 0', "1  <... vfork resumed>) = 2"
        )
        self.assertEqual(births.next(2), strace_log.Birth(1, 1, 0))
        self.assertIsNone(births.next(2))

    def test_flags_of_a_clone(self) -> None:
        births = self.births(
            "1  clone(child_stack=NULL, flags=0x1200000 /* CLONE_CHILD_CLEARTID|CLONE_CHILD_SETTID */|17 /* SIGCHLD */,"
            " child_tidptr=0x7f) = 5",
            "1  clone3({flags=0x10f00 /* CLONE_VM */, exit_signal=0} => {parent_tid=[6]}, 88) = 6",
        )
        self.assertEqual(births.next(5), strace_log.Birth(1, 1, 0x1200000 | 17))
        self.assertEqual(births.next(6), strace_log.Birth(2, 1, 0x10F00))

    def test_children_in_a_namespace_go_by_the_numbers_of_the_log(self) -> None:
        births = self.births(
            "1  clone(child_stack=NULL, flags=0x11) = 2 /* 22556 in strace's PID NS */",
            "1  vfork( <unfinished ...>",
            "1  <... vfork resumed>) = 3 /* 22557 in strace's PID NS */",
        )
        self.assertEqual(births.next(22556), strace_log.Birth(1, 1, 0x11))
        self.assertEqual(births.next(22557), strace_log.Birth(2, 1, 0))
        (call,) = read("1  clone(child_stack=NULL, flags=0x11) = 2 /* 22556 in strace's PID NS */")
        assert isinstance(call, Call)
        self.assertEqual(call.value, 22556)

    def test_a_failed_fork_makes_nobody(self) -> None:
        self.assertEqual(self.births("1  fork() = -1 EAGAIN (Resource temporarily unavailable)").forks, {})
