"""Does the jobs of a machine that `kernels` starts: guest.py CHECKOUT PROBES OUT, with the jobs in OUT/jobs.json."""

from __future__ import annotations

import json
import os
import resource
import shutil
import socket
import subprocess
import sys
import threading
import time
from collections.abc import Callable
from pathlib import Path
from typing import Any

FOLDER, RECORDINGS = Path("/tmp/probes"), Path("/tmp/recordings")
#: The probe whose standard input is a socket.
GIVEN_SOCKET = "given_socket"
#: The seconds before each thing that is done while a recording is made.
BETWEEN = 8.0
#: What is measured: shell commands, each with the number of its turns in place of @.
MEASURED = {
    "start": "true",
    "cp": "n=0; while [ $n -lt @ ]; do n=$((n+1)); cp /etc/hostname /tmp/copy; done",
    "gcc": "n=0; while [ $n -lt @ ]; do n=$((n+1)); gcc -c -o /tmp/one.o /tmp/one.c; done",
}


def prepare(probes: str, name: str) -> Path:
    """Makes the folder of a probe, and returns its working directory."""
    work = FOLDER / name / "work"
    shutil.rmtree(work.parent, ignore_errors=True)
    for directory in (work / "rw", work.parent / "secret"):
        directory.mkdir(parents=True)
    for file in (work / "f", work.parent / "secret" / "f"):
        file.write_text("text\n")
    subprocess.run([probes, "--before", name], cwd=work, check=True)
    return work


def standard_input(name: str) -> int:
    """What a probe has as standard input."""
    return socket.socket().detach() if name == GIVEN_SOCKET else os.open("/dev/null", os.O_RDONLY)


def record(run: Callable[[list[str]], int], words: list[str], work: Path, given: int) -> None:
    """Records a command in a process of its own."""
    child = os.fork()
    if child:
        os.waitpid(child, 0)
        return
    os.chdir(work)
    os.dup2(given, 0)
    os._exit(run(words))


def do_meanwhile(recording: Path, commands: list[list[str]]) -> None:
    """Runs commands while a recording is made, some seconds apart, from when a witness has begun to write."""
    for words in commands:
        while not (recording / "witness.jsonl").exists():
            time.sleep(0.5)
        time.sleep(BETWEEN)
        subprocess.run(words, check=False)


def spent(words: list[str]) -> float:
    """The user and system time of a command and all that it starts, in seconds."""
    before = resource.getrusage(resource.RUSAGE_CHILDREN)
    subprocess.run(words, check=True, stdout=subprocess.DEVNULL, stderr=subprocess.DEVNULL)
    after = resource.getrusage(resource.RUSAGE_CHILDREN)
    return after.ru_utime + after.ru_stime - before.ru_utime - before.ru_stime


def measure(checkout: str, turns: dict[str, int]) -> dict[str, dict[str, float]]:
    """The time that each command takes bare, under the witness and under strace, each after one turn without measure."""
    from landaudit_record.recorder import tracing

    Path("/tmp/one.c").write_text("#include <stdio.h>\nint main(void) { return puts(\"one\"); }\n")
    witness = f"{checkout}/witness/out/landaudit-witness"
    took: dict[str, dict[str, float]] = {}
    for name, count in turns.items():
        for turn in (1, count):
            command = ["sh", "-c", MEASURED[name].replace("@", str(turn))]
            Path("/tmp/events").unlink(missing_ok=True)
            took[name] = {
                "bare": spent(command),
                "witness": spent([witness, "/tmp/events", "--", *command]),
                "strace": spent(tracing.command_line(Path("/tmp/log"), command)),
            }
            print(name, turn, took[name], flush=True)
    return took


def test(checkout: str, modules: list[str]) -> str:
    """Runs modules of tests of the recorder, and returns what they say."""
    words = ["python3", "-B", "-m", "unittest", *modules]
    run = subprocess.run(words, cwd=f"{checkout}/record", capture_output=True, text=True, check=False)
    return run.stderr


def main(checkout: str, probes: str, out: str) -> None:
    """Records what the jobs name, and says how long each took; then tests and measures, if they say so."""
    sys.path[:0] = [f"{checkout}/record", f"{checkout}/record/tests"]
    import workshop

    from landaudit_record import cli

    jobs: dict[str, Any] = json.loads(Path(out, "jobs.json").read_text(encoding="utf-8"))
    RECORDINGS.mkdir()
    Path(out, "recordings").mkdir()
    for job in jobs["recordings"]:
        began, probe = time.monotonic(), job.get("probe")
        if probe is None:
            workshop.fill()
        work = workshop.WORK if probe is None else prepare(probes, probe)
        recording = RECORDINGS / job["name"]
        words = ["run", str(recording), *job["options"], *(["--", *job["command"]] if "command" in job else [])]
        beside = threading.Thread(target=do_meanwhile, args=(recording, job.get("meanwhile", [])))
        beside.start()
        record(cli.main, words, work, standard_input(probe or ""))
        beside.join()
        if (RECORDINGS / job["name"]).is_dir():
            shutil.copytree(RECORDINGS / job["name"], Path(out, "recordings", job["name"]))
        print(f"{job['name']}: {time.monotonic() - began:.1f} s", flush=True)
    if "tests" in jobs:
        Path(out, "tests.txt").write_text(test(checkout, jobs["tests"]), encoding="utf-8")
    if "measure" in jobs:
        found = measure(checkout, jobs["measure"])
        Path(out, "measured.json").write_text(json.dumps(found), encoding="ascii")


if __name__ == "__main__":
    main(*sys.argv[1:])
