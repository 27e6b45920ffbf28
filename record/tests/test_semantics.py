"""What a recording can't say, as docs/SEMANTICS.md has it: each line has tests that it is counted, or heard."""

from __future__ import annotations

import unittest
from collections.abc import Iterable
from pathlib import Path

SEMANTICS = (Path(__file__).resolve().parents[2] / "docs" / "SEMANTICS.md").read_text(encoding="utf-8")

#: The tests of each row of "Which calls ask Landlock" that has something as counted, by the calls of the row.
COUNTED = {
    "open, openat, openat2, creat; ioctl with TIOCGPTPEER; swapon; swapoff; acct": (
        "test_before.OpenedInside.test_the_file_of_acct_is_opened_again_without_its_folders",
    ),
    "execve, execveat, each with its interpreters: the program after `#!`, the loader, and the interpreter of a format "
    "of binfmt_misc": (
        "test_unknown.Programs.test_what_was_gone",
        "test_formats.Run.test_a_format_that_is_not_known",
    ),
    "open_by_handle_at": ("test_inexpressible.Beyond.test_a_file_by_a_handle_of_which_nothing_is_known",),
    "mq_open; reading an event of fanotify; uselib; writing a core file; writing to `binfmt_misc/register`; "
    "fsconfig with FSCONFIG_CMD_CREATE (erofs); io_uring; "
    "any call that a supervisor of seccomp may let continue": (
        "test_inexpressible.Beyond.test_message_queues_and_pinned_objects",
        "test_inexpressible.Beyond.test_what_fanotify_opens",
        "test_inexpressible.Beyond.test_a_library_that_uselib_loads",
        "test_inexpressible.Mounts.test_a_file_system_may_be_in_a_file_that_the_kernel_opens",
        "test_moments.Ends.test_a_core_file_may_be_refused",
        "test_before.OpenedInside.test_a_file_whose_path_is_written_into_another_one",
        "test_inexpressible.Beyond.test_calls_that_io_uring_makes",
        "test_inexpressible.Beyond.test_calls_that_a_supervisor_lets_continue",
    ),
    "bpf with BPF_OBJ_PIN; io_uring": (
        "test_inexpressible.Beyond.test_message_queues_and_pinned_objects",
        "test_inexpressible.Beyond.test_calls_that_io_uring_makes",
    ),
    "truncate, ftruncate, open with O_TRUNC": (
        "test_inexpressible.FromElsewhere.test_a_file_that_was_received_is_adopted_nowhere_and_counted_where_it_is_cut",
    ),
    "ioctl": (
        "test_inexpressible.FromElsewhere.test_a_file_that_was_received_is_adopted_nowhere_and_counted_where_it_is_cut",
    ),
    "bind and connect of a TCP socket; io_uring": (
        "test_inexpressible.FromElsewhere.test_a_port_of_a_socket_that_was_received",
        "test_inexpressible.Beyond.test_calls_that_io_uring_makes",
    ),
    "sendto, sendmsg, sendmmsg with MSG_FASTOPEN (not on 6.18.44)": (
        "test_inexpressible.Beyond.test_a_send_that_opens_a_connection",
    ),
}
#: The tests of each paragraph and item of "What a recording can't say", by its beginning.
LINES = {
    "An audit ends with status 0 only if": (
        "test_whole.Whole.test_calls_that_could_not_be_recorded",
        "test_whole.Whole.test_a_call_that_may_be_refused",
        "test_whole.Whole.test_a_policy_with_scopes_is_told_of_calls_that_they_may_refuse",
    ),
    "What was there before a call": (
        "test_unknown.Making.test_a_file_system_without_times_leaves_it_unknown",
        "test_unknown.Making.test_what_was_gone_when_it_was_looked_at",
        "test_summary.Data.test_calls_that_may_be_refused",
    ),
    "How a program is run that was gone": (
        "test_unknown.Programs.test_what_was_gone",
        "test_unknown.Others.test_a_link_that_another_one_replaced",
        "test_schemas.Recordings.test_classes_with_asks",
    ),
    "Without `--readlink`": (
        "test_looks.WithoutReadlink.test_who_looks_at_other_processes",
        "test_whole.Whole.test_calls_that_were_not_traced_stand_beside_each_audit",
    ),
    "Only a witness": ("test_unrecorded.Kept.test_a_call_that_the_log_does_not_have_is_told",),
    "looks into other processes": ("test_unrecorded.Unrecorded.test_other_processes",),
    "the interpreter of a format of binfmt_misc": ("test_unrecorded.Unrecorded.test_a_program_is_opened_and_executed",),
    "calls that a supervisor of seccomp": ("test_unrecorded.Unrecorded.test_names_that_are_made_and_removed",),
    "calls to which a file server (FUSE)": (
        "test_unrecorded.Unrecorded.test_a_call_that_seems_to_end_before_it_is_asked",
    ),
    "files that the kernel opens": ("test_unrecorded.Unrecorded.test_a_question_without_a_record",),
    "objects that other processes make": ("test_unrecorded.Unrecorded.test_another_object_at_the_same_name",),
    "The witness does not hear": (
        "test_inexpressible.OtherProcesses.test_a_tracer_of_processes_that_strace_traces",
        "test_inexpressible.Beyond.test_a_send_that_opens_a_connection",
        "test_scopes.Written.test_connections_to_abstract_names",
        "test_scopes.Written.test_datagrams",
        "test_scopes.Written.test_other_ways_to_own_a_descriptor",
        "test_scopes.Written.test_looks_into_others",
        "test_hearing.Hearing.test_scopes_whose_calls_are_not_heard",
    ),
    "Known false alarms": ("test_objects.Unwatched.test_a_file_of_which_a_name_is_gone_may_be_another_one",),
}


def section(title: str) -> str:
    """The text below a heading."""
    return SEMANTICS.partition(f"\n## {title}\n\n")[2].partition("\n## ")[0]


class Lines(unittest.TestCase):
    def assert_tests(self, names: Iterable[str]) -> None:
        """Checks that tests of these names exist."""
        loader = unittest.TestLoader()
        loader.loadTestsFromNames([f"{__package__}.{name}" for name in names])
        self.assertEqual(loader.errors, [])

    def test_each_call_that_the_table_has_as_counted(self) -> None:
        rows = [[cell.strip() for cell in row.split("|")] for row in section("Which calls ask Landlock").splitlines()]
        counted = [calls for _, _, calls, said, _ in (row for row in rows if len(row) == 5) if "counted" in said]
        self.assertEqual(counted, list(COUNTED))
        self.assert_tests(name for names in COUNTED.values() for name in names)

    def test_each_line_of_what_cannot_be_said(self) -> None:
        text = section("What a recording can't say")
        self.assertLess(len(text.splitlines()), 60)
        lines = [line.removeprefix("- ") for part in text.split("\n\n") for line in part.strip().split("\n- ")]
        self.assertEqual(len(lines), len(LINES), lines)
        for line, (begin, names) in zip(lines, LINES.items(), strict=True):
            self.assertTrue(line.startswith(begin), line)
            self.assert_tests(names)
