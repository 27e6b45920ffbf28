"""`landaudit-record run` under strace: signals end what it traces, and its terminal is the program's alone."""

from __future__ import annotations

import contextlib
import json
import os
import pty
import re
import shutil
import signal
import subprocess
import sys
import tempfile
import time
import unittest
from collections.abc import Callable
from pathlib import Path

from landaudit_record.recorder import quieting
from landaudit_record.recorder.writing import UNDONE

RECORDER = Path(__file__).resolve().parents[1] / "landaudit-record"
SOON = 20.0
SLEEPS = "sleep 1000.25"
#: A file server, what works in its file system with open files and a working folder there, and the server's end.
SERVES = """
bindfs -f served mounted & server=$!
until mountpoint -q mounted; do sleep 0.1; done
exec 3<mounted/given; cat <&3; ls -l mounted >&2; cp mounted/given mounted/copy; cat mounted/copy
mkdir mounted/d; cd mounted/d; echo x > y; rm y; cd ../..; exec 3<&-
umount mounted; wait $server; echo ended
"""
#: A file that is removed while it is open, and used on, in the file system of a server: strace asks the server about it.
REMOVES = """
import os, subprocess, time
serves = subprocess.Popen(["bindfs", "-f", "served", "mounted"])
while not os.path.ismount("mounted"):
    time.sleep(0.1)
opened = os.open("mounted/x", os.O_RDWR | os.O_CREAT)
os.unlink("mounted/x")
print("removed", flush=True)
again = os.dup(opened)
os.write(again, b"text")
os.ftruncate(again, 2)
print(os.pread(opened, 4, 0), os.environ.get("LD_PRELOAD"), flush=True)
os.close(again), os.close(opened)
subprocess.run(["umount", "mounted"], check=True)
print("ended", serves.wait(), flush=True)
"""
STUBBORN = "import signal, time; signal.signal(signal.SIGTERM, signal.SIG_IGN); print('ready', flush=True); time.sleep(99)"


def until(said: Callable[[], bool], what: str) -> None:
    """Waits for something that comes soon."""
    end = time.monotonic() + SOON
    while not said():
        if time.monotonic() > end:
            raise AssertionError(f"waited for {what}")
        time.sleep(0.05)


def running(pattern: str) -> list[int]:
    """The processes whose command line a pattern matches, but for recorders and tracers."""
    found = []
    for entry in Path("/proc").iterdir():
        if entry.name.isdecimal():
            with contextlib.suppress(OSError):
                words = (entry / "cmdline").read_bytes().replace(b"\0", b" ").decode("latin-1")
                if re.match(pattern, words):
                    found.append(int(entry.name))
    return found


@unittest.skipIf(shutil.which("strace") is None, "strace is not installed")
class LiveRun(unittest.TestCase):
    def setUp(self) -> None:
        self.folder = Path(self.enterContext(tempfile.TemporaryDirectory())).resolve()
        self.out = self.folder / "rec"

    def begin(self, *command: str) -> subprocess.Popen[str]:
        """Starts to record a command."""
        words = [sys.executable, str(RECORDER), "run", str(self.out), "--", *command]
        run = subprocess.Popen(
            words, cwd=self.folder, stdout=subprocess.PIPE, stderr=subprocess.PIPE, text=True, start_new_session=True
        )
        self.addCleanup(self.leave_nothing, run)
        return run

    def leave_nothing(self, run: subprocess.Popen[str]) -> None:
        """Ends a recording that a failed test has left, with what sleeps in it, which another test would find."""
        if run.poll() is None:
            run.kill()
            run.wait()
        for left in running(SLEEPS):
            os.kill(left, signal.SIGKILL)

    def recording(self) -> dict[str, object]:
        return json.loads((self.out / "recording.json").read_text())  # type: ignore[no-any-return]

    def last_record(self) -> dict[str, object]:
        return json.loads((self.out / "trace.jsonl").read_text().splitlines()[-1])  # type: ignore[no-any-return]

    def test_signals_end_what_is_traced_and_the_log_is_converted(self) -> None:
        for number in (signal.SIGTERM, signal.SIGHUP, signal.SIGQUIT):
            with self.subTest(number.name):
                shutil.rmtree(self.out, ignore_errors=True)
                run = self.begin("sh", "-c", f"setsid {SLEEPS} & {SLEEPS}; exit 3")
                until(lambda: len(running(SLEEPS)) == 2, "two that sleep")
                run.send_signal(number)
                _, error = run.communicate(timeout=SOON)
                self.assertEqual((run.returncode, running(SLEEPS)), (128 + number, []), error)
                self.assertIn(f"next: landaudit-record audit {self.out} --policy POLICY.toml", error)
                self.assertEqual(self.last_record()["op"], "exit")
                self.assertIs(self.recording()["ended"], True)

    def test_what_does_not_end_by_a_signal_is_killed_after_a_while(self) -> None:
        run = self.begin(sys.executable, "-c", STUBBORN)
        assert run.stdout is not None
        self.assertEqual(run.stdout.readline(), "ready\n")
        run.terminate()
        _, error = run.communicate(timeout=SOON)
        self.assertEqual(run.returncode, 128 + signal.SIGKILL, error)
        self.assertEqual(self.last_record()["op"], "exit")

    def test_a_tracer_that_is_killed_leaves_nothing_running_and_a_recording_that_is_not_whole(self) -> None:
        run = self.begin("sh", "-c", f"setsid {SLEEPS} & {SLEEPS}")
        until(lambda: len(running(SLEEPS)) == 2, "two that sleep")
        (tracer,) = running(rf"strace .*--output={self.out}/")
        os.kill(tracer, signal.SIGKILL)
        _, error = run.communicate(timeout=SOON)
        self.assertEqual((run.returncode, running(SLEEPS)), (128 + signal.SIGKILL, []), error)
        self.assertIn("the recording is not complete", error)
        self.assertIs(self.recording()["ended"], False)

    def test_a_run_that_is_ended_while_it_converts_names_what_is_next(self) -> None:
        """The log is made long by hand, so that its conversion takes long enough to be met."""
        (self.folder / "bin").mkdir()
        stand_in = self.folder / "bin" / "strace"
        stand_in.write_text(
            "#!/bin/sh\ncase \"$*\" in *--version*|*/dev/null*) exec /usr/bin/strace \"$@\";; esac\n"
            "for word; do case $word in --output=*) out=${word#--output=};; esac; done\n"
            "{ echo '7 execve(\"/bin/true\", [\"true\"], 0x1) = 0'; yes '7 chdir(\"/\") = 0' | head -3000000; } > $out\n"
        )
        stand_in.chmod(0o755)
        environment = {**os.environ, "PATH": f"{stand_in.parent}:{os.environ['PATH']}"}
        words = [sys.executable, str(RECORDER), "run", str(self.out), "--", "true"]
        run = subprocess.Popen(words, cwd=self.folder, env=environment, stderr=subprocess.PIPE, text=True)
        until(lambda: any(self.out.glob(f"{UNDONE}*")), "the conversion")
        run.send_signal(signal.SIGTERM)
        _, error = run.communicate(timeout=SOON)
        self.assertEqual(run.returncode, 128 + signal.SIGTERM, error)
        self.assertIn(f"next: landaudit-record convert {self.out}\n", error)
        self.assertIn("landaudit-record: ended by SIGTERM\n", error)

    @unittest.skipIf(shutil.which("bindfs") is None or not os.access("/dev/fuse", os.W_OK), "no file server can be run")
    def test_a_file_server_in_the_recording_ends_as_it_does_bare(self) -> None:
        """If strace waited for the server, no signal would end it: then the file system is taken away by force."""
        mounted = self.folder / "mounted"
        self.addCleanup(subprocess.run, ["umount", "--force", mounted], stderr=subprocess.DEVNULL, check=False)
        for folder in (mounted, self.folder / "served"):
            folder.mkdir()
        (self.folder / "served" / "given").write_text("given\n")
        (self.folder / "serve.sh").write_text(SERVES)
        run = self.begin("sh", "serve.sh")
        output, error = run.communicate(timeout=SOON)
        self.assertEqual((run.returncode, output), (0, "given\ngiven\nended\n"), error)
        self.assertIs(self.recording()["ended"], True)
        records = [json.loads(line) for line in (self.out / "trace.jsonl").read_text().splitlines()]
        opened = {record.get("shown") or record["path"] for record in records if record["op"] == "open"}
        self.assertLessEqual({str(mounted / "given"), str(self.folder / "served" / "given")}, opened)

    @unittest.skipIf(shutil.which("bindfs") is None or not os.access("/dev/fuse", os.W_OK), "no file server can be run")
    @unittest.skipIf(quieting.find() is None, "the library for strace is not built: run 'make witness'")
    def test_a_removed_file_of_a_server_in_the_recording_is_used_as_bare(self) -> None:
        mounted = self.serve_for(REMOVES)
        run = self.begin(sys.executable, "removes.py")
        output, error = run.communicate(timeout=SOON)
        self.assertEqual((run.returncode, output), (0, "removed\nb'te' None\nended 0\n"), error)
        self.assertNotIn("strace waited", error)
        self.assertEqual(self.recording()["taken"], [])
        records = [json.loads(line) for line in (self.out / "trace.jsonl").read_text().splitlines()]
        self.assertIn(str(mounted / "x"), [record["path"] for record in records if record["op"] == "unlink"])
        unsaid = [json.loads(line)["class"] for line in (self.out / "unsaid.jsonl").read_text().splitlines()]
        self.assertEqual(set(unsaid), {"a mount that changes the tree"})

    @unittest.skipIf(shutil.which("bindfs") is None or not os.access("/dev/fuse", os.W_OK), "no file server can be run")
    @unittest.skipUnless(os.geteuid() == 0, "the user is not root")
    def test_without_the_library_a_wait_for_a_server_that_strace_has_stopped_ends(self) -> None:
        mounted = self.serve_for(REMOVES)
        alone = Path(shutil.copytree(RECORDER.parent, self.folder / "record"))
        words = [sys.executable, str(alone / RECORDER.name), "run", str(self.out), "--", sys.executable, "removes.py"]
        run = subprocess.run(words, cwd=self.folder, capture_output=True, text=True, check=False, timeout=2 * SOON)
        self.assertIn(f"strace waited for the file server of {mounted}", run.stderr)
        self.assertTrue(run.stdout.startswith("removed\n"), run.stdout)
        self.assertEqual(self.recording()["taken"], [str(mounted)])

    def serve_for(self, program: str) -> Path:
        """Makes the folders of a file server and the program that uses it; returns where the server's files are."""
        mounted = self.folder / "mounted"
        self.addCleanup(subprocess.run, ["umount", "--force", mounted], stderr=subprocess.DEVNULL, check=False)
        for folder in (mounted, self.folder / "served"):
            folder.mkdir()
        (self.folder / "removes.py").write_text(program)
        return mounted

    def test_descriptors_are_inherited(self) -> None:
        """As the shell gives them: a directory from which a path leads, and a file."""
        (self.folder / "given").write_text("text\n")
        program = "import os; print(os.read(os.open('given', os.O_RDONLY, dir_fd=7), 9), os.read(8, 9))"
        recorded = f'exec "$0" "$1" run rec -- "$0" -c "{program}"'
        words = ["sh", "-c", f"exec 7<. 8<given; {recorded}", sys.executable, str(RECORDER)]
        run = subprocess.run(words, cwd=self.folder, capture_output=True, text=True, check=False)
        self.assertEqual((run.returncode, run.stdout), (0, "b'text\\n' b'text\\n'\n"), run.stderr)
        trace = [json.loads(line) for line in (self.folder / "rec" / "trace.jsonl").read_text().splitlines()]
        adopted = {record["fd"]: record["kind"] for record in trace if record["op"] == "adopt"}
        self.assertEqual((adopted[7], adopted[8]), ("other", "reg"))
        self.assertIn(str(self.folder / "given"), [record["path"] for record in trace if record["op"] == "open"])

    def test_nothing_is_written_over_the_programs_terminal(self) -> None:
        script = "printf 'Password: '; sleep 1.5; printf 'thanks\\n'"
        words = [sys.executable, str(RECORDER), "run", str(self.out), "--", "sh", "-c", script]
        terminal, other = pty.openpty()
        run = subprocess.Popen(words, cwd=self.folder, stdin=other, stdout=other, stderr=other)
        os.close(other)
        said = b"".join(iter(lambda: _read(terminal), b""))
        os.close(terminal)
        self.assertEqual(run.wait(SOON), 0)
        self.assertTrue(said.startswith(b"Password: thanks\r\n"), said)


def _read(terminal: int) -> bytes:
    """What a terminal shows next; nothing when nobody has it open any more."""
    try:
        return os.read(terminal, 4096)
    except OSError:
        return b""
