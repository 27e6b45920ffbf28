"""When a call takes effect, while other threads act: by begin or by end, as the kernel does it."""

from __future__ import annotations


from landaudit_record.common import jsonl
from landaudit_record.recorder.calls import programs

from .written_logs import CWD, THREAD, WrittenLogs, told

OPENED = f'openat({CWD}, "f", 0 /* O_RDONLY */) = 3</w/f>'
MADE = f"10  {THREAD} = 11"
FORK = "clone(child_stack=NULL, flags=0x1200000 /* CLONE_CHILD_CLEARTID|CLONE_CHILD_SETTID */|17 /* SIGCHLD */"


class Moments(WrittenLogs):
    def test_a_number_is_free_where_its_close_begins(self) -> None:
        trace = self.convert(
            MADE,
            OPENED,
            "10  close(3</w/f> <unfinished ...>",
            f'11  openat({CWD}, "g", 0x2 /* O_RDWR */) = 3</w/g>',
            "10  <... close resumed>) = 0",
            "11  ftruncate(3</w/g>, 0) = 0",
        )
        self.assertEqual(
            told(trace, "op", "fd", "path"),
            [("open", 3, "/w/f"), ("close", 3, None), ("open", 3, "/w/g"), ("ftruncate", 3, None)],
        )

    def test_a_number_is_taken_where_its_open_ends(self) -> None:
        trace = self.convert(
            MADE,
            f'10  openat({CWD}, "g", 0 /* O_RDONLY */ <unfinished ...>',
            f'11  openat({CWD}, "f", 0 /* O_RDONLY */) = 3</w/f>',
            "11  close(3</w/f>) = 0",
            "10  <... openat resumed>) = 3</w/g>",
        )
        self.assertEqual(
            told(trace, "op", "fd", "path"), [("open", 3, "/w/f"), ("close", 3, None), ("open", 3, "/w/g")]
        )

    def test_an_open_that_a_signal_ends_asked_where_it_begins(self) -> None:
        """An open of a pipe waits for its writer: the path may lead to another object when it ends."""
        for result in (
            "? ERESTARTSYS (To be restarted if SA_RESTART is set)",
            "-1 EINTR (Interrupted system call)",
            "?",
        ):
            with self.subTest(result):
                trace = self.convert(
                    'symlink("f", "/w/l") = 0',
                    MADE,
                    f'10  openat({CWD}, "l", 0 /* O_RDONLY */ <unfinished ...>',
                    '11  unlink("/w/l") = 0',
                    '11  symlink("g", "/w/l") = 0',
                    f"10  <... openat resumed>)    = {result}",
                )
                opened = [record["path"] for record in trace if record["op"] == "open"]
                self.assertEqual(opened, ["/w/f"])

    def test_a_range_of_numbers_is_free_where_close_range_begins(self) -> None:
        trace = self.convert(
            MADE,
            OPENED,
            "10  close_range(3, 4294967295, 0 <unfinished ...>",
            f'11  openat({CWD}, "g", 0 /* O_RDONLY */) = 3</w/g>',
            "10  <... close_range resumed>) = 0",
            "11  close(3</w/g>) = 0",
        )
        self.assertEqual([record["op"] for record in trace], ["open", "close", "open", "close"])

    def test_a_close_range_that_fails_closes_nothing(self) -> None:
        trace = self.convert(
            MADE,
            OPENED,
            "10  close_range(3, 4294967295, 0x80 <unfinished ...>",
            "11  fchdir(3</w>) = 0",
            "10  <... close_range resumed>) = -1 EINVAL (Invalid argument)",
        )
        self.assertEqual([record["op"] for record in trace], ["open"])

    def test_what_is_cut_is_what_the_number_stood_for_when_the_call_began(self) -> None:
        trace = self.confined(
            MADE,
            f'openat({CWD}, "f", 0x2 /* O_RDWR */) = 3</w/f>',
            "10  ftruncate(3</w/f>, 0 <unfinished ...>",
            "11  close(3</w/f>) = 0",
            "10  <... ftruncate resumed>) = -1 EACCES (Permission denied)",
        )
        self.assertEqual(
            told(trace, "op", "fd", "kernel"), [("open", 3, "ok"), ("ftruncate", 3, "EACCES"), ("close", 3, None)]
        )

    def test_dup2_replaces_in_one_step_where_it_ends(self) -> None:
        trace = self.convert(
            MADE,
            OPENED,
            f'openat({CWD}, "g", 0 /* O_RDONLY */) = 4</w/g>',
            "10  dup2(3</w/f>, 4</w/g> <unfinished ...>",
            "11  fchdir(4</w/g>) = -1 ENOTDIR (Not a directory)",
            "10  <... dup2 resumed>) = 4</w/f>",
        )
        self.assertEqual(told(trace, "op", "fd", "to")[2:], [("dup", 3, 4)])

    def test_a_close_in_a_thread_that_is_ended_took_effect(self) -> None:
        trace = self.convert(
            MADE,
            OPENED,
            "11  close(3</w/f> <unfinished ...>",
            "11  +++ exited with 0 +++",
            f'openat({CWD}, "g", 0 /* O_RDONLY */) = 3</w/g>',
        )
        self.assertEqual(told(trace, "op", "path"), [("open", "/w/f"), ("close", None), ("open", "/w/g")])

    def test_a_thread_beside_the_leader_runs_a_program(self) -> None:
        trace = self.convert(
            MADE,
            f'11  openat({CWD}, "f", 0x80000 /* O_RDONLY|O_CLOEXEC */) = 3</w/f>',
            '11  execve("/nothere", ["x"], 0x1 /* 2 vars */) = -1 ENOENT (No such file or directory)',
            '11  execve("/w/p", ["p"], 0x1 /* 2 vars */ <pid changed to 10 ...>',
            "10  +++ superseded by execve in pid 11 +++",
            "10  <... execve resumed>) = -1 (errno 18446744073709551359)",
            f'10  openat({CWD}, "g", 0 /* O_RDONLY */) = 3</w/g>',
            "10  +++ exited with 0 +++",
        )
        self.assertEqual({record["pid"] for record in trace}, {10})
        runs = [record for record in trace if record["op"] == "exec"]
        self.assertEqual(told(runs, "path", "kernel"), [("/nothere~new~", "ENOENT"), ("/w/p", "ok")])
        last = [("close", 1_000_002), ("close", 3), ("open", 3), ("exit", None)]
        self.assertEqual(told(trace[-4:], "op", "fd"), last)
        self.assertEqual(self.unsaid(), [])


class Namespaces(WrittenLogs):
    def test_a_child_in_another_pid_namespace_is_forked(self) -> None:
        trace = self.convert(
            "unshare(0x20000000 /* CLONE_NEWPID */) = 0",
            "clone(child_stack=NULL, flags=0x11 /* SIGCHLD */) = 22",
            "22  clone(child_stack=NULL, flags=0x11 /* SIGCHLD */) = 2 /* 23 in strace's PID NS */",
            f'23  openat({CWD}, "f", 0 /* O_RDONLY */) = 3</w/f>',
            "23  +++ exited with 0 +++",
            "22  +++ exited with 0 +++",
        )
        self.assertEqual(
            told(trace, "op", "pid", "child"),
            [("fork", 10, 22), ("fork", 22, 23), ("open", 23, None), ("exit", 23, None), ("exit", 22, None)],
        )
        self.assertEqual(self.unsaid(), [])

    def test_a_process_that_nothing_tells_of_is_counted(self) -> None:
        self.convert(f'77  openat({CWD}, "f", 0 /* O_RDONLY */) = 3</w/f>')
        self.assertEqual(self.unsaid(), [("a process whose start was not seen", True)])


class Ends(WrittenLogs):
    def test_a_log_that_tells_the_end_of_every_thread_is_whole(self) -> None:
        self.assertTrue(self.conversion("fork() = 11", "11  +++ exited with 0 +++", "+++ exited with 0 +++").ended)

    def test_a_child_that_strace_cannot_follow_cuts_no_log(self) -> None:
        for flags in ("0x800000 /* CLONE_UNTRACED */|17", "0x810f00 /* CLONE_VM|CLONE_THREAD|CLONE_UNTRACED */"):
            done = self.conversion(f"clone(child_stack=NULL, flags={flags}) = 11", "10  +++ exited with 0 +++")
            self.assertTrue(done.ended)
            self.assertEqual(self.unsaid(), [(programs.NOT_FOLLOWED, True)])

    def test_a_log_in_which_a_process_goes_on_is_cut(self) -> None:
        self.assertFalse(self.conversion("fork() = 11", "+++ exited with 0 +++").ended)

    def test_a_child_that_ends_before_its_fork_has_ended_without_a_call(self) -> None:
        for fork in ("vfork( <unfinished ...>", f"{FORK} <unfinished ...>"):
            ended = self.ended(f"10  {fork}", "11  +++ exited with 0 +++", f"10  <... {fork[:5]} resumed>) = 11")
            self.assertEqual(ended, [("fork", 10, 11), ("exit", 11, None), ("exit", 10, None)])

    def test_a_child_whose_end_stands_before_the_line_of_its_fork(self) -> None:
        ended = self.ended("11  +++ exited with 0 +++", f"10  {FORK}) = 11")
        self.assertEqual(ended, [("fork", 10, 11), ("exit", 11, None), ("exit", 10, None)])

    def test_a_child_that_acts_and_ends_before_its_fork_has_ended(self) -> None:
        ended = self.ended(
            f"10  {FORK} <unfinished ...>",
            "11  fchdir(3</w>) = 0",
            "11  +++ exited with 0 +++",
            "10  <... clone resumed>) = 11",
        )
        self.assertEqual(ended, [("fork", 10, 11), ("exit", 11, None), ("exit", 10, None)])

    def test_a_thread_that_ends_before_its_clone_has_ended(self) -> None:
        begun = f"10  {THREAD.removesuffix(', 88)')} <unfinished ...>"
        resumed = "10  <... clone3 resumed> => {parent_tid=[11]}, 88) = 11"
        ended = self.ended(begun, "11  +++ exited with 0 +++", resumed)
        self.assertEqual(ended, [("exit", 10, None)])

    def test_a_number_that_is_used_again_is_of_two_children(self) -> None:
        begun, resumed = f"10  {FORK} <unfinished ...>", "10  <... clone resumed>) = 11"
        done = "11  +++ exited with 0 +++"
        ended = self.ended(begun, done, resumed, begun, resumed, done)
        self.assertEqual(ended, [("fork", 10, 11), ("exit", 11, None)] * 2 + [("exit", 10, None)])

    def test_a_grandchild_acts_and_ends_while_all_forks_are_under_way(self) -> None:
        ended = self.ended(
            f"10  {FORK} <unfinished ...>",
            f"11  {FORK} <unfinished ...>",
            "12  fchdir(3</w>) = 0",
            "12  +++ exited with 0 +++",
            "11  <... clone resumed>) = 12",
            "11  +++ exited with 0 +++",
            "10  <... clone resumed>) = 11",
        )
        self.assertEqual(
            ended, [("fork", 10, 11), ("fork", 11, 12), ("exit", 12, None), ("exit", 11, None), ("exit", 10, None)]
        )

    def ended(self, *lines: str) -> list[tuple[object, ...]]:
        """The forks and exits of a log that is whole, and in which nothing is left out."""
        self.assertTrue(self.conversion(*lines, "+++ exited with 0 +++").ended)
        self.assertEqual(self.unsaid(), [])
        trace = [record for _, record in jsonl.numbered(self.out / "trace.jsonl")]
        return told([record for record in trace if record["op"] in ("fork", "exit")], "op", "pid", "child")

    def test_a_thread_that_is_killed_makes_nobody_whom_no_line_tells_of(self) -> None:
        begun = f"12  {THREAD.removesuffix(', 88)')} <unfinished ...>"
        resumed = "12  <... clone3 resumed> => {}, 88) = 230"
        ended = self.ended(f"10  {THREAD} = 12", begun, resumed, "12  +++ exited with 0 +++")
        self.assertEqual(ended, [("exit", 10, None)])
        killed = "11  +++ killed by SIGKILL +++"
        self.ended(f"10  {FORK}) = 11", "11  vfork( <unfinished ...>", "11  <... vfork resumed>) = 3", killed)

    def test_a_leader_that_another_thread_supersedes_makes_nobody_whom_no_line_tells_of(self) -> None:
        self.ended(
            f"10  {THREAD} = 11",
            "10  vfork( <unfinished ...>",
            '11  execve("/w/p", ["p"], 0x1 /* 2 vars */ <pid changed to 10 ...>',
            "10  <... vfork resumed>) = 60",
            "10  +++ superseded by execve in pid 11 +++",
            "10  <... execve resumed>) = 0",
        )

    def test_a_child_that_goes_on_after_its_maker_was_killed_is_one(self) -> None:
        lines = (f"10  {FORK}) = 11", f"11  {FORK}) = 12", "11  +++ killed by SIGKILL +++", "12  fchdir(3</w>) = 0")
        self.assertFalse(self.conversion(*lines, "+++ exited with 0 +++").ended)
        self.ended(*lines, "12  +++ exited with 0 +++")

    def test_a_call_that_a_killed_thread_did_not_make_is_no_hole(self) -> None:
        for lines in (("11  ???( <unfinished ...>", "11  <... ??? resumed>) = ?"), ("11  ???() = ?",)):
            self.ended(f"10  {THREAD} = 11", *lines, "11  +++ exited with 0 +++")

    def test_a_log_that_stops_while_a_fork_is_under_way_is_cut(self) -> None:
        self.assertFalse(self.conversion(f"10  {FORK} <unfinished ...>", "11  +++ exited with 0 +++").ended)

    def test_a_core_file_may_be_refused(self) -> None:
        self.convert("fork() = 11", "11  +++ killed by SIGABRT (core dumped) +++")
        self.assertEqual(self.unsaid(), [("a core file that the kernel was to write", True)])
