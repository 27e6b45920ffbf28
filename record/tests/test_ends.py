"""How every subcommand ends where something around it is wrong: with one line and a status of its manual page."""

from __future__ import annotations

import json
import os
import random
import shutil
import subprocess
import sys
import tarfile
import tempfile
import unittest
from collections.abc import Iterator, Sequence
from pathlib import Path

from landaudit_record.commands import policy, record
from landaudit_record.common.jsonl import Record
from landaudit_record.engine.landaudit import BUILT
from landaudit_record.recorder import packing

from .live_actor import CONFINER, RECORDER
from .recorded import write_lines
from .test_joining import random_audit
from .test_kernel_log import ACCESS, CALL, DOMAIN, kept, line

POLICY = """[[layer]]
handled_access_fs = ["all"]
[[layer.path_beneath]]
allowed_access = ["execute"]
parent = "/program"
"""
TREE = [{"path": "/program", "kind": "reg"}, {"path": "/f", "kind": "reg"}]
TRACE = [{"op": "start", "pid": 10}, {"op": "exec", "path": "/program", "pid": 10, "call": 1},
         {"op": "open", "path": "/f", "mode": "r", "fd": 3, "pid": 10, "call": 2}]
CASES = '[[allowed]]\ncall = "connect"\nport = 443\n'
CONFIG = """[[ruleset]]
handled_access_fs = ["execute"]
[[path_beneath]]
allowed_access = ["execute"]
parent = "/program"
"""
HUGE = "1" * 5_000
"""A number with more digits than Python turns into a number by itself."""

STATUSES = {RECORDER: range(1, 6), CONFINER: range(1, 6)}
"""The statuses of a failure, by the manual pages ("EXIT STATUS")."""

NEEDS = 4
WITHOUT_READING = ("setpriv", "--bounding-set=-dac_override,-dac_read_search",
                   "--inh-caps=-dac_override,-dac_read_search")
"""Before a command of the superuser: it may then read only what file modes let its user read."""


@unittest.skipUnless(BUILT.exists(), f"{BUILT} is not built")
class Ends(unittest.TestCase):
    def setUp(self) -> None:
        self.folder = Path(self.enterContext(tempfile.TemporaryDirectory())).resolve()
        self.recording = self.folder / "rec"
        self.recording.mkdir()
        write_lines(self.recording / "tree.jsonl", TREE)
        write_lines(self.recording / "trace.jsonl", TRACE)
        for name, text in (("policy", POLICY), ("cases", CASES), ("config", CONFIG)):
            (self.folder / f"{name}.toml").write_text(text)
        (self.folder / "kernel.log").write_bytes(kept("dmesg.log"))
        (self.folder / "audit.json").write_text(json.dumps(random_audit(random.Random(1), "rec")))
        packing.pack(self.recording, self.folder / "rec.tar.gz")

    def calls(self) -> Iterator[tuple[Path, list[str]]]:
        """Each subcommand of each program, with the words that it needs."""
        of_policy = ["rec", "--policy", "policy.toml"]
        words = {
            "run": ["new", "--policy", "policy.toml", "--", "true"], "convert": ["rec"], "audit": of_policy,
            "suggest": of_policy, "tighten": of_policy, "apply": ["policy.toml", "rec"], "compare": ["rec"],
            "denials": ["kernel.log", "--policy", "policy.toml"], "confine": ["policy.toml", "--", "true"],
            "diff": ["policy.toml", "policy.toml"], "check": ["policy.toml", "cases.toml"],
            "export": ["policy.toml", "--c"], "lint": ["policy.toml"], "import": ["--landlockconfig", "config.toml"],
            "distill": ["rec", "-o", "out.distilled"], "merge": ["audit.json"], "pack": ["rec", "-o", "out.tar.gz"],
            "unpack": ["rec.tar.gz", "again"],
        }
        for program, names in ((RECORDER, record.NAMES), (CONFINER, policy.NAMES)):
            for name in names:
                called = name.rstrip("_")
                yield program, [called, *words[called]]

    def ended(self, words: Sequence[str | Path], how: str = "exec \"$@\"") -> subprocess.CompletedProcess[str]:
        """A command that a shell starts, from the folder; it ends without a traceback, with a line if it fails."""
        variables = {"PATH": os.environ["PATH"], "LC_ALL": "C.UTF-8"}
        run = subprocess.run(["sh", "-c", how, "sh", *words], cwd=self.folder, capture_output=True, text=True,
                             timeout=60, env=variables)
        self.assertNotIn("Traceback", run.stderr, words)
        self.assertNotIn("Exception ignored", run.stderr, words)
        return run

    def failed(self, program: Path, words: Sequence[str], run: subprocess.CompletedProcess[str]) -> None:
        """Looks at the status and the line of a failure."""
        self.assertIn(run.returncode, STATUSES[program], (words, run.stderr))
        last = run.stderr.splitlines()[-1]
        self.assertRegex(last, rf"\A{program.name}( {words[0]})?: ", words)

    def test_an_output_that_is_closed_or_full(self) -> None:
        """What prints its result can't; the others do their work or say what else they miss."""
        printing = {"audit", "suggest", "tighten", "apply", "denials", "diff", "check", "export", "lint", "import",
                    "merge"}
        for how in ('exec "$@" >&-', 'exec "$@" >/dev/full'):
            for program, words in self.calls():
                if words[0] in printing:
                    with self.subTest(words, how=how):
                        run = self.ended([sys.executable, program, *words], how)
                        self.assertEqual(run.returncode, NEEDS, run.stderr)
                        self.failed(program, words, run)

    def test_both_outputs_closed(self) -> None:
        for program, words in self.calls():
            with self.subTest(words):
                run = self.ended([sys.executable, program, *words], 'exec "$@" >&- 2>&-')
                self.assertIn(run.returncode, (0, *STATUSES[program], 1), run)

    def test_help_into_a_full_output(self) -> None:
        for program, words in self.calls():
            with self.subTest(words):
                run = self.ended([sys.executable, program, words[0], "--help"], 'exec "$@" >/dev/full')
                self.assertEqual(run.returncode, NEEDS, run.stderr)

    def test_another_program_in_the_place_of_landaudit(self) -> None:
        for other in ("/bin/true", "/bin/false", "/bin/echo", "/bin/pwd"):
            for program, words in self.calls():
                if words[0] in ("audit", "suggest", "tighten", "compare", "check"):
                    with self.subTest(words, other=other):
                        run = self.ended([sys.executable, program, *words, "--landaudit", other])
                        self.failed(program, words, run)
                        self.assertIn(run.returncode, (3, 4), run.stderr)

    def test_a_folder_that_cannot_be_read(self) -> None:
        """By a user whom file modes hold back: the superuser without the capabilities to read all."""
        before = list(WITHOUT_READING) if os.geteuid() == 0 else []
        if before and shutil.which(before[0]) is None:
            self.skipTest("setpriv is not installed")
        closed = self.folder / "closed"
        closed.mkdir()
        for name in ("rec", "policy.toml", "cases.toml", "config.toml", "kernel.log", "audit.json", "rec.tar.gz"):
            (self.folder / name).rename(closed / name)
            (self.folder / name).symlink_to(closed / name)
        closed.chmod(0)
        self.addCleanup(closed.chmod, 0o700)
        for program, words in self.calls():
            with self.subTest(words):
                run = self.ended([*before, sys.executable, program, *words])
                self.failed(program, words, run)
                self.assertEqual(run.returncode, 3, run.stderr)

    def test_a_file_in_the_place_of_a_folder_and_the_reverse(self) -> None:
        for name in ("rec", "policy.toml", "kernel.log", "audit.json", "rec.tar.gz"):
            there = self.folder / name
            there.rename(self.folder / "other")
            there.mkdir() if "." in name else there.touch()
            for program, words in self.calls():
                if name in words:
                    with self.subTest(words, name=name):
                        self.failed(program, words, self.ended([sys.executable, program, *words]))
            there.rmdir() if "." in name else there.unlink()
            (self.folder / "other").rename(there)

    def test_names_that_a_terminal_would_act_on(self) -> None:
        """No subcommand prints one as it is: not in its result, and not in a note or a failure."""
        escaped = "/\\u001b[31m\\u009b\\n\\u2028"
        rule = f'[[layer.path_beneath]]\nallowed_access = ["read_dir"]\nparent = "{escaped}"\n'
        (self.folder / "policy.toml").write_text(POLICY + rule + rule.replace("31m", "*"))
        (self.folder / "cases.toml").write_text(f'[[refused]]\ncall = "open r"\nkind = "reg"\npath = "{escaped}"\n')
        (self.folder / "config.toml").write_text(CONFIG.replace("/program", escaped))
        name = json.loads(f'"{escaped}"')
        write_lines(self.recording / "tree.jsonl", [*TREE, {"path": name, "kind": "reg"}])
        write_lines(self.recording / "trace.jsonl", [*TRACE, {**TRACE[2], "path": name, "fd": 4, "call": 3}])
        (self.folder / "kernel.log").write_text(self.odd_log(name))
        (self.folder / "audit.json").write_text(json.dumps(random_audit(random.Random(1), name)))
        with tarfile.open(self.folder / "rec.tar.gz", "w:gz") as archive:
            link = tarfile.TarInfo(name[1:])
            link.type, link.linkname = tarfile.SYMTYPE, name
            archive.addfile(link)
        more = [(RECORDER, ["denials", "kernel.log", option]) for option in ("--suggest", "--all", "--json")]
        more += [(RECORDER, ["merge", "audit.json", "audit.json"])]
        for program, words in [*self.calls(), *more]:
            with self.subTest(words):
                run = self.ended([sys.executable, program, *words])
                printed = (run.stdout if words[0] != "apply" else "") + run.stderr
                self.assertEqual([one for one in printed if not one.isprintable() and one not in "\n\t"], [])
                (self.folder / f"{name[1:]}.toml").write_text("x")
                run = self.ended([sys.executable, program, *[
                    f"{name[1:]}.toml" if it.endswith((".toml", ".json", ".gz")) else it for it in words]])
                self.assertEqual([one for one in run.stderr if not one.isprintable() and one != "\n"], [])

    def odd_log(self, name: str) -> str:
        """A kernel's log with a name wherever a program chooses one, and where only a writer of the log could put it."""
        digits = name.encode().hex().upper()
        access = line(ACCESS).replace('"/a"', digits)
        domain = line(DOMAIN).replace('"/bin/x"', digits).replace('"x"', digits)
        call = line(CALL).replace('"/bin/x"', digits).replace('"x"', digits)
        title = f"type=PROCTITLE msg=audit(1795939711.837:1): proctitle={digits}"
        named = line(CALL, 2) + "\x1dSYSCALL=\"" + name.replace("\n", "") + "\""
        kill = line(ACCESS, 2).replace('fs.make_dir path="/a"', f"scope.signal opid=1 ocomm={digits}")
        cut = "type=UNKNOWN[1423] msg=audit(1795939711.837:3): domain=" + name.replace("\n", "")
        return "\n".join([access, domain, call, title, kill, named, cut, ""])

    def test_an_audit_without_a_policy_of_a_program_that_confines_nothing(self) -> None:
        """A forgotten option is no success; what the program's own layers refuse is asked where there is one."""
        other = self.folder / "other"
        other.mkdir()
        write_lines(other / "tree.jsonl", TREE)
        layer: list[Record] = [{"op": "create", "rs": 3, "pid": 10, "fs": ["make_sym"]},
                               {"op": "restrict", "rs": 3, "pid": 10}]
        write_lines(other / "trace.jsonl", [TRACE[0], {"op": "nnp", "pid": 10}, *layer, *TRACE[1:]])
        audited = [sys.executable, RECORDER, "audit"]
        run = self.ended([*audited, "rec"])
        self.assertEqual((run.returncode, run.stdout), (2, ""))
        self.assertRegex(run.stderr, r"\Alandaudit-record: rec: .*--policy.*--as-recorded\n\Z")
        for words in (["rec", "--as-recorded"], ["other"], ["rec", "other"], ["rec", "--policy", "policy.toml"]):
            with self.subTest(words):
                self.assertEqual(self.ended([*audited, *words]).returncode, int("--policy" in words))

    def test_huge_numbers(self) -> None:
        """In each file that is TOML or JSON, and in a trace and a tree."""
        texts = {"policy.toml": f"x = {HUGE}\n{POLICY}", "cases.toml": CASES.replace("443", HUGE),
                 "config.toml": f"abi = {HUGE}\n{CONFIG}", "audit.json": f'{{"format": {HUGE}}}',
                 "rec/trace.jsonl": f'{{"op":"start","pid":{HUGE}}}\n',
                 "rec/tree.jsonl": f'{{"path":{HUGE},"kind":"reg"}}\n'}
        reading = ("audit", "suggest", "tighten", "apply", "distill")
        for name, text in texts.items():
            file = self.folder / name
            before = file.read_text()
            file.write_text(text)
            for program, words in self.calls():
                if name in words or (name.startswith("rec/") and words[0] in reading):
                    with self.subTest(words, name=name):
                        run = self.ended([sys.executable, program, *words])
                        self.failed(program, words, run)
                        self.assertEqual(run.returncode, 3, run.stderr)
            file.write_text(before)
