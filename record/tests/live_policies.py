"""What landaudit-policy diff and landaudit-record audit say of a policy, beside what a running kernel does under it."""

from __future__ import annotations

import json
import os
import subprocess
import tempfile
import unittest
from pathlib import Path

from landaudit_record.common.rights import ABI_OF_SCOPES
from landaudit_record.policy import landlock_calls
from landaudit_record.recorder import disk

from .calling import InFolder
from .live_actor import CONFINER, PYTHON, RECORDER, wanting

#: Restricts itself once more, by a layer that refuses nothing that it does afterwards.
RESTRICT = f"""
import sys
sys.path.insert(0, {str(CONFINER.parent)!r})
from {landlock_calls.__package__} import landlock_calls
ruleset = landlock_calls.create_ruleset(["make_sock"])
try:
    landlock_calls.restrict_self(ruleset)
    print("ok")
except OSError as error:
    print(error.strerror)
"""
#: Moves a file to another directory.
MOVE = "import os, sys; os.rename(sys.argv[1], sys.argv[2])"
SYSTEM = """[[layer]]
handled_access_fs = ["read_file"]
[[layer.path_beneath]]
allowed_access = ["read_file"]
parent = ["/usr", "/lib", "/lib64", "/etc", "{}"]
"""
NOTHING = '[[nothing]]\nrights = ["read_file"]\nunder = "@/closed"\n'
HARMLESS = '[[layer]]\nhandled_access_fs = ["make_block"]\n'


@unittest.skipIf(wanting() is not None, wanting() or "")
class LivePolicies(InFolder):
    """Each test runs one command under two policies, and compares the policies."""

    def said(self, *words: str | Path) -> subprocess.CompletedProcess[str]:
        return subprocess.run(words, cwd=self.folder, capture_output=True, text=True, check=False)

    def policy(self, name: str, text: str) -> Path:
        """A policy's file; `@` is the folder."""
        file = self.folder / name
        file.write_text(text.replace("@", str(self.folder)))
        return file

    def under(self, policy: Path, *command: str | Path) -> subprocess.CompletedProcess[str]:
        return self.said(PYTHON, CONFINER, "confine", policy, "--", *command)

    def compared(self, old: str, new: str) -> tuple[int, list[str]]:
        """The status and the lines of a comparison."""
        run = self.said(PYTHON, CONFINER, "diff", self.policy("old", old), self.policy("new", new))
        return run.returncode, run.stdout.replace(f"{self.folder}/", "").splitlines()

    def recorded(self, *command: str | Path) -> None:
        """Records a command in the folder `rec`."""
        run = self.said(PYTHON, RECORDER, "run", "rec", "--", *command)
        self.assertEqual(run.returncode, 0, run.stderr)

    def moved_away(self) -> None:
        """Makes the recording one of another machine."""
        file = self.folder / "rec" / "recording.json"
        file.write_text(json.dumps({**json.loads(file.read_text()), "machine": "another"}))

    def audited(self, policy: Path) -> tuple[int, str]:
        """The status and the output of an audit."""
        run = self.said(PYTHON, RECORDER, "audit", "rec", "--policy", policy, "--abi", "5")
        return run.returncode, run.stdout + run.stderr

    def test_a_parent_that_is_a_link_which_the_run_did_not_touch(self) -> None:
        (self.folder / "real").mkdir()
        (self.folder / "real" / "file").write_text("text\n")
        elsewhere = Path(self.enterContext(tempfile.TemporaryDirectory()))
        (elsewhere / "link").symlink_to(self.folder / "real")
        (self.folder / "link").symlink_to(elsewhere / "link")
        read = '[[layer]]\nhandled_access_fs = ["read_file"]\n[[layer.path_beneath]]\nallowed_access = ["read_file"]\n'
        policy = self.policy("P.toml", read + 'parent = ["/usr", "/lib64", "/etc", "/proc", "@/link/../link"]\n')
        self.recorded("cat", "real/file")
        self.assertEqual(self.under(policy, "cat", "real/file").stdout, "text\n")
        status, said = self.audited(policy)
        self.assertEqual(status, 0, said)
        self.assertIn("link: on this disk it leads to", " ".join(said.split()))
        tight = self.said(PYTHON, RECORDER, "tighten", "rec", "--policy", policy)
        self.assertEqual(tight.returncode, 0, tight.stderr)
        self.assertEqual(self.under(self.policy("T.toml", tight.stdout), "cat", "real/file").stdout, "text\n")

        self.moved_away()
        status, said = self.audited(policy)
        self.assertEqual(status, 1, said)
        self.assertIn("it is not known where 1 parent of the policy led", " ".join(said.split()))
        tight = self.said(PYTHON, RECORDER, "tighten", "rec", "--policy", policy)
        self.assertEqual((tight.returncode, "link/../link" in tight.stdout), (5, True), tight.stdout + tight.stderr)

    def test_a_link_in_a_listed_directory_is_known_everywhere(self) -> None:
        """It leads where it did when the run began."""
        for name in ("one", "other"):
            (self.folder / name).mkdir()
            (self.folder / name / "file").write_text("text\n")
        (self.folder / "link").symlink_to("one")
        policy = self.policy("P.toml", SYSTEM.format("@/link"))
        self.recorded("cat", "other/file")
        self.assertEqual(self.under(policy, "cat", "other/file").returncode, 1)
        (self.folder / "link").unlink()
        (self.folder / "link").symlink_to("other")
        for _ in range(2):
            status, said = self.audited(policy)
            self.assertEqual((status, "NOT ALL IS JUDGED" in said), (1, False), said)
            self.moved_away()

    def test_a_link_at_the_top_is_known_everywhere(self) -> None:
        if not os.path.islink("/bin"):
            self.skipTest("/bin is no link here")
        top = '[[layer]]\nhandled_access_fs = ["execute"]\n[[layer.path_beneath]]\nallowed_access = ["execute"]\n'
        policy = self.policy("P.toml", top + 'parent = ["/bin", "/lib", "/lib64"]\n')
        self.recorded("/usr/bin/true")
        self.assertEqual(self.under(policy, "/usr/bin/true").returncode, 0)
        self.moved_away()
        self.assertEqual(self.audited(policy)[0], 0)
        tight = self.said(PYTHON, RECORDER, "tighten", "rec", "--policy", policy)
        self.assertEqual(tight.returncode, 0, tight.stderr)
        self.assertEqual(self.under(self.policy("T.toml", tight.stdout), "/usr/bin/true").returncode, 0)

    def test_a_move_that_gains_by_a_rule_on_a_link(self) -> None:
        for name in ("from", "to"):
            (self.folder / name).mkdir()
        (self.folder / "from" / "file").touch()
        words = (self.folder / "from" / "file", self.folder / "to" / "file")
        moving = """[[layer]]
handled_access_fs = ["refer", "execute", "make_reg", "remove_file"]
[[layer.path_beneath]]
allowed_access = ["refer", "make_reg", "remove_file"]
parent = "@"
[[layer.path_beneath]]
allowed_access = ["execute"]
parent = ["/usr", "/lib64", "@/link"]
"""
        elsewhere = Path(self.enterContext(tempfile.TemporaryDirectory()))
        (elsewhere / "link").symlink_to(self.folder / "to")
        policy = self.policy("P.toml", moving.replace("@/link", f"{elsewhere}/link"))
        run = self.under(policy, PYTHON, "-c", MOVE, *words)
        self.assertIn("Invalid cross-device link", run.stderr)
        self.recorded(PYTHON, "-c", MOVE, *words)
        status, said = self.audited(policy)
        self.assertEqual(status, 1, said)
        self.assertRegex(said, r"rename .* EXDEV|EXDEV")
        self.moved_away()
        status, said = self.audited(policy)
        self.assertEqual(status, 5, said)
        applied = self.said(PYTHON, RECORDER, "apply", policy, "rec", "--out", "tried.jsonl")
        self.assertEqual(applied.returncode, 5, applied.stderr)

    def test_what_execve_asks(self) -> None:
        """A case about exec holds where the kernel runs the file: it opens it, what runs it, and the loader of that."""
        script = self.folder / "script"
        script.write_text("#!/bin/sh\nexit 0\n")
        script.chmod(0o755)
        cases = self.policy("cases.toml", '[[allowed]]\ncall = "exec"\npath = "@/script"\n')
        handled = '[[layer]]\nhandled_access_fs = ["read_file", "execute"]\n'
        libraries = '[[layer.path_beneath]]\nallowed_access = ["read_file", "execute"]\nparent = ["/usr/lib", "/etc"]\n'
        own = '[[layer.path_beneath]]\nallowed_access = {}\nparent = ["@/script"]\n'
        shell = '[[layer.path_beneath]]\nallowed_access = {}\nparent = ["/usr/bin"]\n'
        all_of_it = '["read_file", "execute"]'
        for words, runs in (
            (own.format(all_of_it) + shell.format(all_of_it), True),
            (own.format('["execute"]') + shell.format(all_of_it), False),
            (own.format(all_of_it) + shell.format('["execute"]'), False),
            (own.format(all_of_it) + shell.format('["read_file"]'), False),
        ):
            with self.subTest(words):
                policy = self.policy("P.toml", handled + libraries + words)
                self.assertEqual(self.under(policy, script).returncode == 0, runs)
                checked = self.said(PYTHON, CONFINER, "check", policy, cases)
                self.assertEqual(checked.returncode, 0 if runs else 1, checked.stdout + checked.stderr)

    def test_links_that_policies_name(self) -> None:
        """A link across layers, and `..` after a link: the new policy lets a file be read, and the old one does not."""
        (self.folder / "real" / "deep").mkdir(parents=True)
        (self.folder / "real" / "f").write_text("text\n")
        (self.folder / "link").symlink_to("real/deep")
        read = '[[layer.path_beneath]]\nallowed_access = ["read_file"]\nparent = ["/usr", "/lib", "/etc", "/proc"{}]\n'
        layer = '[[layer]]\nhandled_access_fs = ["read_file"]\n'
        whole, bare, new = read.format(', "@/real"'), read.format(""), read.format(', "@/link/../f"')
        for old in (bare, read.format(', "@/f"')):
            status, lines = self.compared(layer + whole + layer + old, layer + whole + layer + new)
            ended = [self.under(self.folder / name, "cat", "real/f").returncode for name in ("old", "new")]
            self.assertEqual((ended, status), ([1, 0], 1), lines)

    def test_a_file_with_another_name_and_a_directory_that_is_moved(self) -> None:
        """A rule stays with its object: the new policy reads what the old one refuses, once the object is elsewhere."""
        for name in ("a/d", "b"):
            (self.folder / name).mkdir(parents=True)
        for name in ("a/f", "a/d/g"):
            (self.folder / name).write_text("text\n")
        read = '[[layer]]\nhandled_access_fs = ["read_file"]\n[[layer.path_beneath]]\nallowed_access = ["read_file"]\n'
        old, new = (read + f'parent = ["/usr", "/lib", "/etc", "/proc", "@/a"{more}]\n'
                    for more in ("", ', "@/a/f", "@/a/d"'))
        status, lines = self.compared(old, new)
        self.assertEqual((status, lines[1:3]), (1, [
            "  read_file by the rule on a/d, wherever that is moved or linked (refused by layer 1)",
            "  read_file by the rule on a/f, wherever that is moved or linked (refused by layer 1)"]))
        self.assertEqual(self.compared(new, old)[0], 0)
        reading = "echo ready; read go; cat b/f; cat b/d/g"
        for file, text, ended in (("old", old, ""), ("new", new, "text\ntext\n")):
            policy = self.policy(file, text)
            words = [PYTHON, CONFINER, "confine", policy, "--", "/bin/sh", "-c", reading]
            with subprocess.Popen(words, cwd=self.folder, text=True, stdin=subprocess.PIPE, stdout=subprocess.PIPE,
                                  stderr=subprocess.DEVNULL) as run:
                assert run.stdout is not None
                self.assertEqual(run.stdout.readline(), "ready\n")
                os.link(self.folder / "a/f", self.folder / "b/f")
                os.rename(self.folder / "a/d", self.folder / "b/d")
                self.assertEqual(run.communicate("go\n")[0], ended)
            os.rename(self.folder / "b/d", self.folder / "a/d")
            os.unlink(self.folder / "b/f")

    def test_a_scope_less(self) -> None:
        if landlock_calls.kernel_abi() < ABI_OF_SCOPES:
            self.skipTest("this kernel has no scopes")
        status, lines = self.compared(HARMLESS + 'scoped = ["signal"]\n', HARMLESS)
        kill = ("sh", "-c", f"kill -0 {os.getpid()}")
        self.assertEqual([self.under(self.folder / name, *kill).returncode for name in ("old", "new")], [1, 0])
        self.assertEqual((status, lines[0]), (1, "new lets pass what old refuses:"))

    def test_a_layer_less(self) -> None:
        status, lines = self.compared(16 * HARMLESS, 15 * HARMLESS)
        ended = [self.under(self.folder / name, PYTHON, "-c", RESTRICT).stdout for name in ("old", "new")]
        self.assertEqual(ended, ["Argument list too long\n", "ok\n"])
        self.assertEqual((status, lines[0]), (1, "new lets pass what old refuses:"))

    def asked(self, policy: Path) -> int:
        """The status of a check that no file in a directory may be read."""
        return self.said(PYTHON, CONFINER, "check", policy, self.policy("cases", NOTHING)).returncode

    def closed(self) -> Path:
        """A file in a directory that has no rule."""
        (self.folder / "open" / "there").mkdir(parents=True)
        (self.folder / "closed").mkdir()
        file = self.folder / "closed" / "file"
        file.write_text("read\n")
        return file

    def test_what_is_mounted_where_a_rule_is(self) -> None:
        """A question is about an object by all its paths."""
        closed = self.closed()
        policy, there = self.policy("policy", SYSTEM.format("@/open")), self.folder / "open" / "there"
        self.assertEqual(self.asked(policy), 0)
        if self.said("mount", "--bind", self.folder / "closed", there).returncode != 0:
            self.skipTest("nothing can be mounted")
        self.addCleanup(self.said, "umount", there)
        self.assertEqual(self.under(policy, "cat", there / "file").stdout, "read\n")
        self.assertEqual(self.under(policy, "cat", closed).stdout, "")
        self.assertEqual(self.asked(policy), 1)

    def test_a_link_of_the_process(self) -> None:
        """The command has another working directory than the check."""
        closed = self.closed()
        policy = self.policy("policy", SYSTEM.format("/proc/self/cwd"))
        words = (PYTHON, CONFINER, "confine", policy, "--", "cat", closed)
        ran = subprocess.run(words, cwd=closed.parent, capture_output=True, text=True, check=False)
        self.assertEqual(ran.stdout, "read\n", ran.stderr)
        status = self.said("env", "-C", "/usr", PYTHON, CONFINER, "check", policy, self.policy("cases", NOTHING)).returncode
        self.assertEqual(status, 5)

    def test_scripts_that_scripts_run(self) -> None:
        """The loader of the fifth program behind `#!` is asked about too, by `check`, by a recording, and by the kernel."""
        program, loader = os.path.realpath("/bin/true"), disk.interpreter(os.path.realpath("/bin/true")) or ""
        named = program
        scripts = [self.folder / str(number) for number in range(5)]
        for script in reversed(scripts):
            script.write_text(f"#!{named}\n")
            script.chmod(0o755)
            named = str(script)
        self.recorded(named)
        for granted, status in ((True, 0), (False, 1)):
            parents = [*map(str, scripts), program, *([os.path.realpath(loader)] if granted else [])]
            policy = self.policy("policy", f"""[[layer]]\nhandled_access_fs = ["execute"]
[[layer.path_beneath]]\nallowed_access = ["execute"]\nparent = {json.dumps(parents)}\n""")
            case = self.policy("cases", f'[[allowed]]\ncall = "exec"\npath = "{named}"\n')
            with self.subTest(granted):
                self.assertEqual(self.under(policy, named).returncode == 0, granted)
                self.assertEqual(self.said(PYTHON, CONFINER, "check", policy, case).returncode, status)
                self.assertEqual(self.audited(policy)[0], status)
