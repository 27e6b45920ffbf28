"""Cases: what reads, and which line says what is wrong with one that doesn't."""

from __future__ import annotations

import os
import tempfile
import unittest
from dataclasses import replace
from pathlib import Path

from landaudit_record.common.problems import UNREADABLE, Problem
from landaudit_record.policy import cases, running
from landaudit_record.policy.cases import Cases
from landaudit_record.policy.running import Running
from landaudit_record.recorder.formats import Format


RUNNING = [{"op": "open", "path": "@/file", "mode": "r"}, {"op": "close"}, {"op": "exec", "path": "@/file"}]


class Reading(unittest.TestCase):
    def setUp(self) -> None:
        self.folder = Path(self.enterContext(tempfile.TemporaryDirectory())).resolve()
        (self.folder / "dir").mkdir()
        (self.folder / "file").touch()
        os.symlink("file", self.folder / "link")
        os.symlink("dir", self.folder / "way")
        os.mkfifo(self.folder / "fifo")

    def read(self, text: str) -> Cases:
        """The cases of a text, in which `@` is the folder."""
        file = self.folder / "cases.toml"
        file.write_text(text.replace("@", str(self.folder)))
        return cases.read(file)

    def case(self, text: str) -> list[dict[str, object]]:
        """The records of one case, with `@` for the folder."""
        (case,) = self.read(f"[[refused]]\n{text}").cases
        return [
            {key: it.replace(str(self.folder), "@") if isinstance(it, str) else it for key, it in record.items()}
            for record in case.question
        ]

    def test_calls_on_what_is_there(self) -> None:
        for call, path, wanted in (
            ("open r", "@/file", [{"op": "open", "path": "@/file", "mode": "r"}]),
            ("open rw create trunc", "@/file",
             [{"op": "open", "path": "@/file", "mode": "rw", "create": True, "trunc": True}]),
            ("open r", "@/link", [{"op": "open", "path": "@/file", "mode": "r"}]),
            ("open r", "/proc/self/status", [{"op": "open", "path": "/proc/self/status", "mode": "r"}]),
            ("exec", "@/way/../link", RUNNING),
            ("unlink", "@/way/../link", [{"op": "unlink", "path": "@/link"}]),
            ("rmdir", "@/dir/", [{"op": "rmdir", "path": "@/dir"}]),
            ("ftruncate", "@/file", [{"op": "open", "path": "@/file", "mode": "w"}, {"op": "ftruncate"}]),
            ("ioctl r", "/dev/null", [{"op": "open", "path": "/dev/null", "mode": "r"}, {"op": "ioctl", "driver": True}]),
        ):
            with self.subTest(call=call, path=path):
                self.assertEqual(self.case(f'call = "{call}"\npath = "{path}"'), wanted)

    def test_what_runs_a_script_is_asked_too(self) -> None:
        """By execve(2): the program after `#!`, and its loader, if it has one."""
        (self.folder / "script").write_text("#! /bin/sh -e\n")
        asked = self.case('call = "exec"\npath = "@/script"')
        shell = os.path.realpath("/bin/sh")
        with open(shell, "rb") as program:
            loader = program.read(4096).split(b"/lib", 1)[1].split(b"\0", 1)[0].decode()
        files = ["@/script", shell, os.path.realpath(f"/lib{loader}")]
        self.assertEqual([it["path"] for it in asked if it["op"] == "exec"], files)
        self.assertEqual([it["path"] for it in asked if it["op"] == "open"], files)

    def test_scripts_that_scripts_run(self) -> None:
        """Linux 6.18 runs five programs behind `#!`, and asks about the loader of the fifth; with six it says ELOOP."""
        shell = os.path.realpath("/bin/sh")
        runs = self.run_by("/bin/sh")
        self.assertEqual(len(runs.files), 2, "the shell has a loader")
        for most, unknown in ((5, None), (6, f"{shell} is run by more programs than the kernel follows (ELOOP)")):
            named = "/bin/sh"
            scripts = [f"{self.folder}/{most}-{number}" for number in range(most)]
            for script in reversed(scripts):
                Path(script).write_text(f"#!{named}\n")
                named = script
            found = self.run_by(named)
            with self.subTest(most):
                loader = runs.files[1:] if unknown is None else ()
                self.assertEqual((found.files, found.unknown), ((*scripts, shell, *loader), unknown))

    def run_by(self, path: str) -> Running:
        """What the kernel opens to run a file."""
        return running.running(os.path.realpath(path), path, [])

    def test_what_runs_a_script_may_be_unknown(self) -> None:
        """An interpreter is looked up from the caller's working directory, by links, and must be there (execve(2))."""
        os.symlink("loop", self.folder / "loop")
        os.symlink("/proc/self/exe", self.folder / "own")
        for named, why in (
            ("bin/sh", "names bin/sh, which is looked up from the working directory of the caller"),
            ("@/none", "names @/none, which is no file that is known on this machine"),
            ("@/file/x", "names @/file/x, which is no file that is known on this machine"),
            ("@/dir", "names @/dir, which is no file that is known on this machine"),
            ("@/own", "names @/own, which is no file that is known on this machine"),
            ("@/loop", "names @/loop, which is a loop of symbolic links"),
        ):
            (self.folder / "script").write_text(f"#!{named}\n".replace("@", str(self.folder)))
            found = self.run_by(f"{self.folder}/script")
            with self.subTest(named):
                self.assertEqual(found.files, (f"{self.folder}/script",))
                self.assertEqual((found.unknown or "").replace(str(self.folder), "@"), f"@/script {why}")

    def test_an_interpreter_by_a_link(self) -> None:
        os.symlink("dir/shell", self.folder / "to-shell")
        (self.folder / "dir/shell").touch()
        (self.folder / "script").write_text(f"#!{self.folder}/to-shell\n")
        found = self.run_by(f"{self.folder}/script")
        self.assertEqual(found.files, (f"{self.folder}/script", f"{self.folder}/dir/shell"))

    def test_a_file_that_may_be_of_a_format(self) -> None:
        """The kernel runs a file by a format of binfmt_misc, if it knows one, and then the interpreter of that format."""
        text, shell = f"{self.folder}/text", os.path.realpath("/bin/sh")
        Path(text).write_text("TOYX")
        by = Format("toy", shell, magic=b"TOYX".hex())
        loader = self.run_by(shell).files[1:]
        self.assertEqual(running.running(text, text, []).files, (text,))
        self.assertIsNone(running.running(text, text, []).unknown)
        self.assertEqual(running.running(text, text, [by]).files, (text, shell, *loader))
        self.assertEqual(running.running(text, text, [replace(by, opened=True)]).files, (text, *loader))
        why = f"{text} is run by a format of binfmt_misc or not at all, and they can't be read here"
        self.assertEqual(running.running(text, text, None).unknown, why)

    def test_a_program_that_is_not_here(self) -> None:
        (case,) = self.read('[[allowed]]\ncall = "exec"\npath = "@/none"\nkind = "reg"').cases
        self.assertEqual(case.unknown, f"{self.folder}/none can't be read on this machine")

    def test_a_loop_of_links(self) -> None:
        os.symlink("loop", self.folder / "loop")
        with self.assertRaisesRegex(Problem, "refused 1, path: .*/loop is a loop of symbolic links"):
            self.read('[[refused]]\ncall = "open r"\npath = "@/loop"')

    def test_a_path_that_goes_on_from_a_file(self) -> None:
        """The kernel says ENOTDIR (path_resolution(7)) and does not ask Landlock."""
        for call, path in (("open r", "file/"), ("open r", "file/x"), ("open r", "file/.."), ("mkdir", "file/new"),
                           ("open w create", "link/f/new")):
            with self.subTest(path), self.assertRaisesRegex(Problem, "refused 1, path: .* is no directory on this machine"):
                self.read(f'[[refused]]\ncall = "{call}"\npath = "{self.folder}/{path}"\n' + 'kind = "reg"\n' * (path == "file/x"))

    def test_what_a_call_makes_is_not_there(self) -> None:
        for call, wanted in (
            ("mkdir", {"op": "mkdir", "path": "@/dir/x~new~"}),
            ("mknod fifo", {"op": "mknod", "path": "@/dir/x~new~", "kind": "fifo"}),
            ("symlink", {"op": "symlink", "path": "@/dir/x~new~"}),
            ("open w create", {"op": "open", "path": "@/dir/x~new~", "mode": "w", "create": True}),
        ):
            with self.subTest(call):
                self.assertEqual(self.case(f'call = "{call}"\npath = "@/way/x"'), [wanted])

    def test_an_open_makes_what_a_link_leads_to(self) -> None:
        """open(2) with O_CREAT follows a link that leads to nothing; other calls make nothing where a link is."""
        os.symlink("dir/none", self.folder / "ahead")
        wanted = {"op": "open", "path": "@/dir/none~new~", "mode": "w", "create": True}
        self.assertEqual(self.case('call = "open w create"\npath = "@/ahead"'), [wanted])
        self.assertEqual(self.case('call = "mkdir"\npath = "@/ahead"'), [{"op": "mkdir", "path": "@/ahead~new~"}])

    def test_moves(self) -> None:
        self.assertEqual(
            self.case('call = "rename"\nfrom = "@/file"\nto = "@/way/x"'),
            [{"op": "rename", "from": "@/file", "to": "@/dir/x~new~"}],
        )
        self.assertEqual(
            self.case('call = "exchange"\nfrom = "@/file"\nto = "@/fifo"'),
            [{"op": "rename", "from": "@/file", "to": "@/fifo", "exchange": True}],
        )

    def test_a_kind_for_what_is_not_on_this_machine(self) -> None:
        found = self.read('[[allowed]]\ncall = "ioctl rw"\npath = "@/nowhere/tty"\nkind = "char"')
        kinds = {path.replace(str(self.folder), "@"): kind for path, kind in found.tree.kinds.items() if "nowhere" in path}
        self.assertEqual(kinds, {"@/nowhere": "dir", "@/nowhere/tty": "char"})

    def test_ports_mounts_and_abis(self) -> None:
        found = self.read(
            '[[allowed]]\ncall = "connect"\nport = 443\nabi = "4-5"\n[[refused]]\ncall = "mount"\n'
            '[[allowed]]\ncall = "bind"\nport = 0\nabi = 4\n'
        )
        self.assertEqual(
            [(case.refused, case.text, list(case.abis), case.question) for case in found.cases],
            [
                (True, "mount", [1, 2, 3, 4, 5], ({"op": "mount"},)),
                (False, "connect port 443", [4, 5], ({"op": "connect", "port": 443},)),
                (False, "bind port 0", [4], ({"op": "bind", "port": 0},)),
            ],
        )

    def test_what_does_not_read(self) -> None:
        for text, wanted in (
            ("", "no case: write one as [[refused]] or [[allowed]] with a call and its path or port"),
            ("[[denied]]", "unknown key 'denied': use refused, allowed"),
            ("refused = 1", "refused must be tables: write each as [[refused]]"),
            ("[[refused]]", "refused 1: call is missing"),
            ('[[refused]]\ncall = "opne r"\npath = "/"', "refused 1, call: unknown call 'opne r', did you mean 'open r'?"),
            ('[[refused]]\ncall = "open r"', "refused 1: path is missing: 'open r' needs it"),
            ('[[refused]]\ncall = "open r"\npath = "file"', "refused 1, path: 'file' is not an absolute path"),
            ('[[refused]]\ncall = "mount"\npath = "/"', "refused 1: unknown key 'path'"),
            ('[[refused]]\ncall = "bind"\nport = 65536', "refused 1, port: 65536 is not a port"),
            ('[[refused]]\ncall = "bind"\nport = true', "refused 1, port: True is not a port"),
            ('[[refused]]\ncall = "mount"\nabi = "0-3"', "refused 1, abi: '0-3' is neither an ABI nor a range"),
            ('[[allowed]]\ncall = "exec"\npath = "@/none"', 'path: @/none is not on this machine: give its kind, as kind'),
            ('[[allowed]]\ncall = "exec"\npath = "@/none"\nkind = "file"', "kind: unknown kind 'file'"),
            ('[[allowed]]\ncall = "open r"\npath = "@/file"\nkind = "dir"',
             "kind: @/file has kind 'reg' on this machine: leave out kind"),
            ('[[allowed]]\ncall = "open r"\npath = "@/n"\nkind = "dir"\n[[allowed]]\ncall = "exec"\npath = "@/n"\nkind = "reg"',
             "allowed 2, path: @/n has kind 'dir' in another case, and kind 'reg' here"),
            ('[[allowed]]\ncall = "open r"\npath = "@/file/x"\nkind = "reg"\n[[allowed]]\ncall = "exec"\npath = "@/file"',
             "allowed 1, path: @/file is no directory on this machine, so @/file/x leads nowhere"),
            ('[[nothing]]\nrights = ["write"]', "nothing 1: under is missing"),
            ('[[nothing]]\nrights = []\nunder = "/"', "nothing 1, rights: is empty: name at least one right"),
            ('[[only]]\nrights = ["reed"]\nunder = "/"', "only 1, rights: unknown right for files 'reed', did you mean 'read'?"),
            ('[[only]]\nrights = ["read"]\nunder = []', "only 1, under: is empty: give one or several"),
            ('[[only]]\nrights = ["read"]\nunder = "usr"', "only 1, under: 'usr' is not absolute"),
            ('[[nothing]]\nrights = ["read"]\nunder = "@/file/"',
             "nothing 1, under: @/file is no directory on this machine, so @/file/ leads nowhere"),
            ('[[nothing]]\nrights = ["read"]\nunder = "/proc/self"', "under: not known where /proc/self leads"),
            ('[[never]]\nunder = "/"', "never 1: both is missing"),
            ('[[never]]\nboth = ["write", "execute"]', "never 1, both: must be two rights, of execute, write_file"),
            ('[[never]]\nboth = ["truncate"]', "never 1, both: must be two rights"),
            ('[[never]]\nrights = ["truncate"]', "never 1: unknown key 'rights'"),
        ):
            with self.subTest(text), self.assertRaises(Problem) as caught:
                self.read(text)
            self.assertEqual(caught.exception.status, UNREADABLE)
            said = str(caught.exception).replace(str(self.folder), "@")
            self.assertTrue(said.startswith("@/cases.toml: "), said)
            self.assertIn(wanted, said)
            self.assertNotIn("\n", said)
