"""What `make landaudit` shows of the lines that rt prints."""

from __future__ import annotations

import io
import subprocess
import sys
import tempfile
import unittest
from contextlib import redirect_stdout
from pathlib import Path
from unittest import mock

from .places import TOP, script

progress = script("progress")

#: Lines of rt, of two crates: the names and numbers of functions are what it prints, and the rest is cut.
LINES = [
    "rt: chose --jobs 4 for ll_rights\n",
    "by-macro: bitflags::bitflag_items blocks=30\n",
    "so far: 0 of 62 functions checked; the verdict comes last\n",
    "so far: 18 of 62 functions checked\n",
    "fn ll_rights::abi::Abi::new: proved\n",
    "crate ll_rights: modules loaded=1104 checked=1394\n",
    "logic=proved functions=62 sum=dac8208d650f15bf native=nat,char,string\n",
    "crate ll_tree: modules loaded=1178 checked=1655\n",
    "logic=proved functions=61 sum=dac8208d650f15bf native=nat,char,string\n",
]


def shown(terminal: bool) -> str:
    """What is written, where each line comes 40 seconds after the one before."""
    with mock.patch.object(progress.time, "monotonic", side_effect=[40.0 * n for n in range(1, len(LINES) + 1)]):
        return "".join(progress.shown(LINES, progress.Progress(0.0), terminal))


class Shown(unittest.TestCase):
    def test_a_line_for_each_crate(self) -> None:
        self.assertEqual(
            shown(terminal=False),
            "ll_rights     62 functions proved in 4 min 0 s\nll_tree       61 functions proved in 1 min 20 s\n",
        )

    def test_on_a_terminal_one_line_changes_until_the_crate_is_proved(self) -> None:
        self.assertEqual(
            shown(terminal=True).split("\r\033[K"),
            [
                "",
                "ll_rights: begun",
                "ll_rights: 0 of 62 functions checked",
                "ll_rights: 18 of 62 functions checked",
                "ll_rights     62 functions proved in 4 min 0 s\n",
                "ll_tree       61 functions proved in 1 min 20 s\n",
            ],
        )


class Command(unittest.TestCase):
    def run_on(self, text: str, status: int, *options: str) -> subprocess.CompletedProcess[str]:
        code = f"import sys; print({text!r}); sys.exit({status})"
        words = [TOP / "packaging" / "progress", *options, sys.executable, "-c", code]
        return subprocess.run(words, capture_output=True, text=True, check=False)

    def test_a_failure_prints_what_rt_said_since_the_last_crate(self) -> None:
        run = self.run_on("".join(LINES) + "error: not proved", 3)
        self.assertEqual((run.returncode, run.stderr), (3, "error: not proved\n"))

    def test_a_success_ends_with_the_time(self) -> None:
        run = self.run_on("", 0)
        self.assertEqual((run.returncode, run.stderr), (0, ""))
        self.assertRegex(run.stdout, r"\Aall in (\d+ min )?\d+ s\n\Z")

    def test_what_was_said_of_the_last_crate_is_kept(self) -> None:
        with tempfile.TemporaryDirectory() as folder:
            file = Path(folder) / "check.txt"
            self.run_on("".join(LINES), 3, "--keep", str(file))
            self.assertFalse(file.exists(), "the command failed")
            self.run_on("nothing was proved", 0, "--keep", str(file))
            self.assertFalse(file.exists(), "nothing was ever proved")
            sources = f"sources sha256 {script('sources').digest()}\n"
            self.run_on("".join(LINES), 0, "--keep", str(file))
            self.assertEqual(file.read_text(encoding="utf-8"), sources + "".join(LINES[-2:]))
            file.write_text("sources sha256 0\n" + "".join(LINES[-2:]))
            self.run_on("nothing was proved", 0, "--keep", str(file))
            self.assertEqual(file.read_text(encoding="utf-8"), sources + "".join(LINES[-2:]))
            file.write_text("sources sha256 0\n" + "".join(LINES[-2:]))
            self.run_on("error: not proved", 3, "--keep", str(file))
            self.assertEqual(file.read_text(encoding="utf-8").splitlines()[0], "sources sha256 0")

    def test_a_command_that_is_not_there(self) -> None:
        with redirect_stdout(io.StringIO()), mock.patch.object(sys, "stderr", io.StringIO()) as error:
            self.assertEqual(progress.main(["no-such-command"]), 127)
        self.assertEqual(error.getvalue(), "no-such-command is not installed\n")


if __name__ == "__main__":
    unittest.main()
