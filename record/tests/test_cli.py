"""The command line, and the faults that end a run before anything is done."""

from __future__ import annotations

import contextlib
import errno
import io
import os
import shutil
import subprocess
import tempfile
import unittest
from pathlib import Path
from unittest import mock

from landaudit_record import PROGRAMS, VERSION, cli
from landaudit_record.recorder import tracing
from landaudit_record.recorder.writing import Recording

from .calling import called
from .kept_logs import LOGS


def said(*words: str) -> tuple[int, str]:
    """The status of a command line, and what it writes to standard error."""
    status, _, errors = called(words)
    return status, errors


class CommandLine(unittest.TestCase):
    def test_the_command_behind_the_first_dashes_keeps_its_own(self) -> None:
        arguments = cli.parse(["run", "rec", "--watch", "/w", "--", "sh", "-c", "x", "--", "y"])
        self.assertEqual(arguments.behind, ["sh", "-c", "x", "--", "y"])
        self.assertEqual((str(arguments.out), arguments.watch), ("rec", ["/w"]))

    def test_each_subcommand_has_help_with_an_example(self) -> None:
        for command in ("run", "convert", "apply", "audit", "compare", "suggest"):
            with self.subTest(command):
                status, out, _ = called([command, "--help"])
                self.assertEqual(status, 0)
                self.assertIn(f"  landaudit-record {command} ", out.partition("example:\n")[2])

    def test_the_version(self) -> None:
        for word in ("-V", "--version"):
            with self.subTest(word):
                self.assertEqual(called([word]), (0, f"landaudit-record {VERSION}\n", ""))

    def test_wrong_words_are_status_2(self) -> None:
        for words in ([], ["nosuch"], ["audit"], ["audit", "rec", "--abi", "0"]):
            with self.subTest(words):
                self.assertEqual(said(*words)[0], 2)

    def test_the_abis_of_an_audit(self) -> None:
        for words, abis in (
            ([], [1, 2, 3, 4, 5]),
            (["--abi", "1"], [1]),
            (["--abi=5"], [5]),
            (["--abi", "2-4"], [2, 3, 4]),
            (["--abi=1-5"], [1, 2, 3, 4, 5]),
            (["--abi=5-7"], [5, 6, 7]),
            (["--abi", "3-3"], [3]),
        ):
            with self.subTest(words):
                self.assertEqual(list(cli.parse(["audit", "rec", *words]).abis), abis)

    def test_what_is_no_range_of_abis(self) -> None:
        what = "is neither an ABI nor a range: give one from 1 to 7, or an ascending range such as 2-5"
        for word in ("0-3", "5-1", "6-", "1-", "-", "a-b", "-3", "1-2-3", "1 - 2", "1,2", "0", "01", "", "٣", "1--2"):
            with self.subTest(word):
                status, error = said("audit", "rec", f"--abi={word}")
                self.assertEqual(status, 2)
                self.assertIn(f"--abi: {word!a} {what}\n", error)
                self.assertEqual(said("audit", "rec", "--abi", word), (status, error))

    def test_two_ranges_of_abis(self) -> None:
        for first, second in (("1", "2"), ("1-5", "1-5"), ("3", "3"), ("1-2", "4")):
            with self.subTest(first=first, second=second):
                status, error = said("audit", "rec", "--abi", first, "--abi", second)
                self.assertEqual(status, 2)
                self.assertIn("--abi: is given twice: give one ABI, or a range such as 2-5", error)

    def test_the_other_subcommands_take_one_abi(self) -> None:
        for words in (["suggest", "rec", "--policy", "p"], ["apply", "p", "rec"], ["compare", "rec"]):
            with self.subTest(words):
                self.assertEqual(cli.parse(words).abi, 5)
                self.assertEqual(cli.parse([*words, "--abi", "2"]).abi, 2)
                for later in ("6", "7"):
                    self.assertEqual(cli.parse([*words, "--abi", later]).abi, 5)
                for word in ("1-2", "0", "x", "", "03"):
                    status, error = said(*words, "--abi", word)
                    self.assertEqual(status, 2)
                    what = f"{word!r} is not an ABI: give one from 1 to 7 (audit and diff take a range)\n"
                    self.assertTrue(error.endswith(f"argument --abi: {what}"), error)

    def test_what_is_put_in_force_may_be_of_each_abi(self) -> None:
        self.assertEqual(cli.parse(["run", "rec", "--", "true"]).abi, 7)
        self.assertEqual(cli.parse(["run", "rec", "--abi", "6", "--", "true"]).abi, 6)
        self.assertEqual(cli.parse(["confine", "p", "--", "true"], cli.POLICY).abi, 7)

    def test_an_abi_that_is_not_known_yet_is_judged_as_the_latest_with_a_warning(self) -> None:
        for word, found in (("8", [7]), ("5-9", [5, 6, 7]), ("8-9", [7])):
            with self.subTest(word), contextlib.redirect_stderr(io.StringIO()) as told:
                self.assertEqual(list(cli.parse(["audit", "rec", "--abi", word]).abis), found)
            self.assertIn(f": note: ABI {word[-1]} is not known here: judged as ABI 7\n", told.getvalue())

    def test_a_run_without_a_command(self) -> None:
        for words in (["rec"], ["rec", "--"], ["rec", "sort", "-r", "/a b"]):
            with self.subTest(words):
                status, error = said("run", *words)
                self.assertEqual(status, 2)
                self.assertIn("give a command after '--', as in 'landaudit-record run rec -- ls'", error)
        self.assertIn("unrecognized arguments: sort -r '/a b' (give a command", error)

    def test_words_that_a_subcommand_does_not_have(self) -> None:
        for words in (["audit", "rec", "--refused"], ["suggest", "rec", "--policy", "p", "--json"]):
            with self.subTest(words):
                status, error = said(*words)
                self.assertEqual(status, 2)
                self.assertTrue(error.startswith(f"usage: landaudit-record {words[0]} "), error)
                self.assertTrue(error.endswith(f": error: unrecognized arguments: {words[-1]}\n"), error)

    def test_the_words_of_apply_in_another_order(self) -> None:
        with tempfile.TemporaryDirectory() as folder:
            wanted = f"landaudit-record: cannot read {folder}: Is a directory\n"
            self.assertEqual(said("apply", folder, "policy.toml"), (3, wanted))

    def test_a_command_that_is_not_found(self) -> None:
        self.assertEqual(
            said("run", "rec", "--", "no-such-command"),
            (4, "landaudit-record: no-such-command is not found, or is not a program\n"),
        )

    def test_strace_missing(self) -> None:
        with mock.patch.object(tracing.shutil, "which", lambda name: None if name == "strace" else f"/bin/{name}"):
            status, error = said("run", "rec", "--", "true")
        self.assertEqual(
            (status, error), (4, "landaudit-record: strace is not installed: install Debian's package strace\n")
        )

    def test_tracing_that_is_not_permitted(self) -> None:
        refused = mock.Mock(returncode=1, stderr="strace: ptrace(PTRACE_TRACEME, ...): Operation not permitted\n")
        with (
            mock.patch.object(tracing, "version", lambda: "6.1"),
            mock.patch.object(tracing.subprocess, "run", lambda *words, **options: refused),
        ):
            status, error = said("run", "rec", "--", "true")
        self.assertEqual(status, 4)
        self.assertIn("strace may not trace programs here: strace: ptrace(PTRACE_TRACEME", error)

    def test_a_folder_that_is_there_already(self) -> None:
        with (
            tempfile.TemporaryDirectory() as folder,
            mock.patch.object(tracing, "version", lambda: "6.1"),
            mock.patch.object(tracing, "may_trace", lambda: None),
        ):
            status, error = said("run", folder, "--", "true")
        self.assertEqual(status, 2)
        self.assertIn("exists already: name a new folder", error)

    def test_what_is_no_recording(self) -> None:
        with tempfile.TemporaryDirectory() as folder:
            status, error = said("convert", folder)
        self.assertEqual(status, 3)
        self.assertEqual(len(error.splitlines()), 1)

    def test_a_directory_as_standard_input_is_one_line(self) -> None:
        """Python says it in five."""
        for name in ("landaudit-record", "landaudit-policy"):
            with self.subTest(name):
                directory = os.open("/", os.O_RDONLY)
                self.addCleanup(os.close, directory)
                run = subprocess.run([PROGRAMS / name, "--version"], stdin=directory, capture_output=True, text=True)
                problem = f"{name}: standard input is a directory: redirect it, as in '< /dev/null'\n"
                self.assertEqual((run.returncode, run.stdout, run.stderr), (2, "", problem))

    def test_a_full_disk_is_one_line(self) -> None:
        full = OSError(errno.ENOSPC, os.strerror(errno.ENOSPC))
        with tempfile.TemporaryDirectory() as folder, mock.patch.object(Recording, "write", side_effect=full):
            recording = shutil.copytree(LOGS / "forks", Path(folder) / "forks")
            self.assertEqual(said("convert", str(recording)), (4, "landaudit-record: No space left on device\n"))
