#!/usr/bin/env python3
"""Records real programs and random actors under policies, and compares landaudit's answers with what the kernel did.

Prints the rows of docs/conformance.jsonl, which docs/CONFORMANCE.md explains. Each row is one recording, made by

    record/tests/conformance.py OUTDIR --only NAME/POLICY

and kept in OUTDIR if something in it differs, or if --keep is given. The programs of other_programs.toml are recorded
bare as well, and their rows say what the bare recording foretold of the refusals that the other runs met. Standard
error has the sums, and each refusal that was missed or foretold in vain.
"""

from __future__ import annotations

import argparse
import functools
import http.server
import json
import shutil
import subprocess
import sys
import threading
import tomllib
from collections import Counter
from collections.abc import Iterator, Sequence
from contextlib import contextmanager
from dataclasses import dataclass
from pathlib import Path
from typing import Any

import actor
import foretelling
import workshop

from landaudit_record.common.rights import NEWEST_ABI, OLDEST_ABI

HERE = Path(__file__).resolve().parent
RECORDER = HERE.parent / "landaudit-record"
POLICY = HERE.parent / "landaudit-policy"
POLICIES = HERE / "policies"
PYTHON = "/usr/bin/python3"
ACTORS_POLICY = POLICIES / "actors" / "folders-and-ports.toml"
ACTED_IN = workshop.WORK / "actor"
ACTORS = 20
ACTOR_COUNT = 1500
OWN_LAYERS = "own layers"
"""Stands for a policy where a program confines itself alone."""
FORETOLD_UNDER = ("read-only", "two-layers", "work-only")
"""The policies under which the programs that are recorded bare run."""


@dataclass(frozen=True)
class Run:
    """One recording: a program, the command that it runs, and the policy that it runs under.

    `acts` is said of the random actor, whose folder is there before it begins; `foretold` of a run that a bare
    recording of the program comes before.
    """

    program: str
    command: tuple[str, ...]
    policy: Path | None
    acts: bool = False
    foretold: bool = False

    @property
    def name(self) -> str:
        """Program and policy, as --only takes them."""
        return f"{self.program}/{self.policy.stem if self.policy else OWN_LAYERS.replace(' ', '-')}"


def runs(abi: int) -> Iterator[Run]:
    """Each program under each policy, those that confine themselves without one too, then the actors.

    Every second actor is under a policy beside the layers that it makes itself.
    """
    policies = sorted(POLICIES.glob("*.toml"))
    for program in _programs("programs.toml"):
        chosen = [None] if program.get("own_layers") else []
        yield from (Run(program["name"], _shell(program), policy) for policy in chosen + policies)
    for program in _programs("other_programs.toml"):
        chosen = [POLICIES / f"{name}.toml" for name in FORETOLD_UNDER]
        yield from (Run(program["name"], _shell(program), policy, foretold=True) for policy in chosen)
    for seed in range(1, ACTORS + 1):
        words = (PYTHON, str(HERE / "actor.py"), str(seed), str(ACTED_IN), str(ACTOR_COUNT))
        policy = ACTORS_POLICY if seed % 2 == 0 else None
        yield Run(f"actor-{seed}", (*words, "--confine", f"--abi={abi}"), policy, acts=True)


def _programs(name: str) -> list[dict[str, Any]]:
    """The programs of a file beside this one."""
    with open(HERE / name, "rb") as file:
        found: list[dict[str, Any]] = tomllib.load(file)["program"]
    return found


def _shell(program: dict[str, Any]) -> tuple[str, ...]:
    """The words that run a program's command."""
    return "/bin/sh", "-c", program["command"]


@contextmanager
def server() -> Iterator[None]:
    """A web server on this machine that programs may call, over the folder that they work in."""
    handler = functools.partial(Quiet, directory=str(workshop.WORK))
    with http.server.ThreadingHTTPServer(("127.0.0.1", workshop.PORT), handler) as serving:
        threading.Thread(target=serving.serve_forever, daemon=True).start()
        yield
        serving.shutdown()


class Quiet(http.server.SimpleHTTPRequestHandler):
    """Serves files, and says nothing about it."""

    def log_message(self, format: str, *arguments: Any) -> None:
        """Keeps no log."""


def record(run: Run, out: Path, abi: int) -> None:
    """Records a run in a folder, in work that is filled again."""
    workshop.fill()
    if run.acts:
        actor.fill(ACTED_IN)
    words = [sys.executable, str(RECORDER), "run", str(out)]
    confined: list[str] = []
    if run.policy is not None:
        words += ["--port-rules", str(run.policy)]
        confined = [PYTHON, str(POLICY), "confine", str(run.policy), "--abi", str(abi), "--"]
    quiet = subprocess.DEVNULL
    subprocess.run([*words, "--", *confined, *run.command], cwd=workshop.WORK, stdin=quiet, stdout=quiet, stderr=quiet)


def convert(run: Run, out: Path) -> None:
    """Converts a kept log again."""
    words = [sys.executable, str(RECORDER), "convert", str(out)]
    words += ["--port-rules", str(run.policy)] if run.policy is not None else []
    subprocess.run(words, stderr=subprocess.DEVNULL)


def compare(out: Path, abi: int) -> dict[str, Any]:
    """What `landaudit-record compare` says of a recording, as data."""
    words = [sys.executable, str(RECORDER), "compare", str(out), "--abi", str(abi), "--json"]
    words += ["--differences", str(out / "differences.jsonl")]
    said = subprocess.run(words, capture_output=True, text=True)
    if said.returncode not in (0, 1):
        return {"fault": said.stderr.strip()}
    return json.loads(said.stdout)


def foretell(run: Run, out: Path, abi: int) -> foretelling.Foretold | None:
    """What the bare recording of a run's program, which is made where there is none yet, foretold of the run."""
    if not run.foretold or run.policy is None:
        return None
    bare = out.parent / f"{run.program}-bare"
    if not bare.exists():
        record(Run(run.program, run.command, None), bare, abi)
    return foretelling.compared(bare, out, run.policy, abi)


def row(run: Run, found: dict[str, Any], told: foretelling.Foretold | None) -> dict[str, Any]:
    """A row: what was compared and what differs; then how many kinds of refusals were met, and what was said of them
    before."""
    line: dict[str, Any] = {"program": run.program, "policy": run.policy.stem if run.policy else OWN_LAYERS}
    if "fault" in found:
        return {**line, "fault": found["fault"]}
    line |= {"calls": found["calls"], "agree": found["agree"]}
    if found["differences"]:
        line["differences"] = {one["class"]: one["times"] for one in found["differences"]}
    if told is not None:
        kinds = {"met": told.met, "foretold": told.foretold, "may_be": told.may_be, "behind": told.behind}
        kinds |= {"missed": told.missed, "false_alarms": told.false_alarms}
        line |= {name: len(refusals) for name, refusals in kinds.items() if refusals or name in ("met", "foretold")}
    return line


def table(chosen: Sequence[Run], arguments: argparse.Namespace) -> int:
    """Makes the recordings and prints the rows; the status is 1 if some difference has no name."""
    sums: Counter[str] = Counter()
    unnamed = 0
    for run in chosen:
        out = arguments.out / run.name.replace("/", "-")
        if arguments.again and out.exists():
            convert(run, out)
        else:
            shutil.rmtree(out, ignore_errors=True)
            record(run, out, arguments.abi)
        found = compare(out, arguments.abi)
        told = foretell(run, out, arguments.abi)
        line = row(run, found, told)
        print(json.dumps(line), flush=True)
        for detail in foretelling.details(told) if told is not None else ():
            print(f"{run.name}: {detail}", file=sys.stderr, flush=True)
        sums.update({name: value for name, value in line.items() if isinstance(value, int)})
        unnamed += sum(it["times"] for it in found.get("differences", ()) if not it["named"]) + ("fault" in found)
        if not arguments.keep and found.get("differences") == [] and not (told is not None and told.is_wrong):
            shutil.rmtree(out)
    print(f"{len(chosen)} rows: {dict(sums)}", file=sys.stderr)
    return 1 if unnamed else 0


def main() -> int:
    """Makes the recordings that the words name."""
    parser = argparse.ArgumentParser(description=__doc__, formatter_class=argparse.RawDescriptionHelpFormatter)
    parser.add_argument("out", metavar="OUTDIR", type=Path, help="where the recordings go")
    parser.add_argument("--only", metavar="NAME", help="a program, or a program and a policy, as sort/read-only")
    parser.add_argument("--abi", type=int, choices=range(OLDEST_ABI, NEWEST_ABI + 1), default=NEWEST_ABI)
    parser.add_argument("--keep", action="store_true", help="keep the recordings in which all agrees too")
    parser.add_argument("--again", action="store_true", help="convert and compare the recordings that are in OUTDIR")
    arguments = parser.parse_args()
    chosen = [run for run in runs(arguments.abi) if arguments.only in (None, run.program, run.name)]
    if not chosen:
        parser.error(f"no run is named {arguments.only}")
    arguments.out = arguments.out.absolute()
    arguments.out.mkdir(parents=True, exist_ok=True)
    workshop.fill()
    with server():
        return table(chosen, arguments)


if __name__ == "__main__":
    sys.exit(main())
