"""The scripts for fleets: each engine joins what audits of all recordings say, on this machine with several workers."""

from __future__ import annotations

import json
import os
import shutil
import subprocess
import sys
import tempfile
import time
import unittest
from pathlib import Path
from typing import Any

TOP = Path(__file__).resolve().parents[2]
FLEET = TOP / "packaging" / "fleet"
LANDAUDIT = TOP / "crates" / "landaudit" / "out" / "landaudit"
COUNT = 9
POLICY = '[[layer]]\nhandled_access_fs = ["all"]\n'
#: A Python that has Dask: Debian's package is for Debian's.
DASK = next((python for python in (sys.executable, "/usr/bin/python3") if Path(python).exists() and subprocess.run(
    [python, "-c", "import distributed"], capture_output=True, check=False).returncode == 0), None)


@unittest.skipUnless(LANDAUDIT.exists(), f"{LANDAUDIT} is not built")
class Fleet(unittest.TestCase):
    def setUp(self) -> None:
        self.folder = Path(self.enterContext(tempfile.TemporaryDirectory()))
        self.policy = self.folder / "P.toml"
        self.policy.write_text(POLICY)
        self.recordings = [self.recording(number) for number in range(COUNT)]
        path = os.pathsep.join([str(TOP / "record"), str(LANDAUDIT.parent), os.environ["PATH"]])
        self.variables = {**os.environ, "PATH": path}

    def recording(self, number: int) -> str:
        """A distilled recording of a program that reads so many files as its number says."""
        folder = self.folder / "by-hand"
        folder.mkdir(exist_ok=True)
        files = [f"/f{name}" for name in range(number)]
        tree = [{"path": path, "kind": "reg"} for path in ("/bin", *files)]
        calls: list[dict[str, Any]] = [{"op": "start"}, {"op": "exec", "path": "/bin"}]
        calls += ({"op": "truncate", "path": path} for path in files)
        for name, lines in (("tree", tree), ("trace", [{"pid": 1, "call": at, **one} for at, one in enumerate(calls)])):
            (folder / f"{name}.jsonl").write_text("".join(json.dumps(line) + "\n" for line in lines))
        out = self.folder / f"host-{number}.distilled"
        subprocess.run([TOP / "record" / "landaudit-record", "distill", folder, "-o", out], check=True)
        return str(out)

    def check(self, text: str) -> None:
        """A joined audit: of each recording the exec and its calls are refused."""
        found = json.loads(text)
        self.assertEqual([one["recording"] for one in found["merged"]], self.recordings)
        self.assertEqual(found["refused"], COUNT + COUNT * (COUNT - 1) // 2)
        self.assertEqual({kind["place"]: kind["times"] for kind in found["refusals"]},
                         {"/bin": COUNT, **{f"/f{name}": COUNT - 1 - name for name in range(COUNT - 1)}})

    def said(self, *words: str | Path, status: int = 0) -> str:
        """What a command prints."""
        run = subprocess.run(words, env=self.variables, capture_output=True, text=True, check=False, cwd=self.folder)
        self.assertEqual(run.returncode, status, run.stderr)
        return run.stdout

    @unittest.skipUnless(shutil.which("parallel"), "GNU parallel is not installed: Debian's parallel")
    def test_parallel(self) -> None:
        self.check(self.said(FLEET / "with-parallel", self.policy, self.folder, "3"))

    @unittest.skipUnless(shutil.which("parallel"), "GNU parallel is not installed: Debian's parallel")
    def test_parallel_on_hosts(self) -> None:
        """By an ssh that runs the command here."""
        ssh = self.folder / "bin" / "ssh"
        ssh.parent.mkdir()
        ssh.write_text('#!/bin/sh\ntest "$1" = host1 && shift && exec sh -c "$*"\n')
        ssh.chmod(0o755)
        self.variables["PATH"] = f"{ssh.parent}:{self.variables['PATH']}"
        self.check(self.said(FLEET / "with-parallel", self.policy, self.folder, "2", "host1"))

    @unittest.skipUnless(shutil.which("parallel"), "GNU parallel is not installed: Debian's parallel")
    def test_a_fault_is_not_hidden(self) -> None:
        Path(self.recordings[0]).write_text('{"distilled":1}\n')
        run = subprocess.run([FLEET / "with-parallel", self.policy, self.folder, "2"], env=self.variables,
                             capture_output=True, text=True, check=False)
        self.assertNotEqual(run.returncode, 0)
        self.assertEqual(run.stdout, "")
        self.assertIn("host-0.distilled has no recording", run.stderr)

    def test_tasks_of_an_array(self) -> None:
        """The script of a Slurm array, with the variables that Slurm sets (sbatch(1))."""
        names, out = self.folder / "list", self.folder / "out"
        names.write_text("".join(f"{name}\n" for name in self.recordings))
        out.mkdir()
        for number in range(1, 5):
            self.variables |= {"SLURM_ARRAY_TASK_ID": str(number), "SLURM_ARRAY_TASK_COUNT": "4"}
            self.said(FLEET / "with-slurm", self.policy, names, out)
        self.check(self.said(TOP / "record" / "landaudit-record", "merge", *sorted(out.glob("*.json")), status=1))

    @unittest.skipUnless(DASK, "Dask is not installed: Debian's python3-distributed")
    def test_dask(self) -> None:
        file = self.folder / "scheduler.json"
        python = str(DASK)
        shown = {"stdout": subprocess.DEVNULL, "stderr": subprocess.DEVNULL, "env": self.variables, "cwd": self.folder}
        words = [python, "-m", "distributed.cli.dask_scheduler", "--host", "127.0.0.1", "--port", "0", "--no-dashboard",
                 "--scheduler-file", str(file)]
        self.enterContext(running(words, shown))
        for _ in range(600):
            if file.exists():
                break
            time.sleep(0.1)
        address = json.loads(file.read_text())["address"]
        self.enterContext(running([python, "-m", "distributed.cli.dask_worker", address, "--nworkers", "2", "--nthreads",
                                   "1", "--no-dashboard", "--host", "127.0.0.1"], shown))
        self.check(self.said(python, FLEET / "with-dask", address, self.policy, *self.recordings))


class running:
    """A program that runs until the test ends."""

    def __init__(self, words: list[str], shown: dict[str, Any]) -> None:
        self._run = subprocess.Popen(words, **shown)

    def __enter__(self) -> subprocess.Popen[bytes]:
        return self._run

    def __exit__(self, *_: object) -> None:
        self._run.terminate()
        self._run.wait()


if __name__ == "__main__":
    unittest.main()
