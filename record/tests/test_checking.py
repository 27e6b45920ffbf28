"""landaudit-policy check as it is called, with the built landaudit."""

from __future__ import annotations

import contextlib
import random
import shutil
import socket
import subprocess
import sys
import tempfile
import unittest
from pathlib import Path
from unittest import mock

from landaudit_record import cli
from landaudit_record.common import tap
from landaudit_record.common.problems import NOT_ALL_JUDGED
from landaudit_record.engine.landaudit import BUILT
from landaudit_record.policy import parents
from landaudit_record.recorder.mounted import MountPlaces

from . import random_checks, random_questions
from .calling import called
from .drawn import by_chance
from .live_actor import CONFINER

POLICY = """[[layer]]
handled_access_fs = ["all"]
handled_access_net = ["connect_tcp"]
[[layer.path_beneath]]
allowed_access = ["read"]
parent = ["@/open", "/nowhere"]
[[layer.path_beneath]]
allowed_access = ["write", "execute"]
parent = "@/link"
[[layer.net_port]]
allowed_access = ["connect_tcp"]
port = [443, 80]
[[layer]]
handled_access_fs = ["truncate", "refer"]
[[layer.path_beneath]]
allowed_access = ["refer"]
parent = "@"
"""


class Lines(unittest.TestCase):
    """By the specification of TAP, version 13."""

    def test_a_point_with_diagnostics(self) -> None:
        self.assertEqual(
            list(tap.point(2, False, "a # b\\c\nd", {"why": "x: \"y\"", "layers": ["one", "two"]})),
            ["not ok 2 - a \\# b\\\\c\\nd", "  ---", '  "why": "x: \\"y\\""', '  "layers":', '    - "one"', '    - "two"', "  ..."],
        )

    def test_what_a_terminal_acts_on_is_escaped(self) -> None:
        (point, *_) = tap.point(1, True, "a\x1b[31m\u2028", {})
        self.assertEqual(point, "ok 1 - a\\x1b[31m\\u2028")
        lines = list(tap.point(1, True, "a", {"why": "\x9b31m \x7f"}))
        self.assertEqual(lines[2], '  "why": "\\u009b31m \\u007f"')

    @unittest.skipIf(shutil.which("prove") is None, "prove is not installed")
    def test_prove_reads_it(self) -> None:
        """prove(1) ends with status 0 exactly if each test is `ok` and it understands every line."""
        about = {"abi 1-5": ["layer 1: read_file on /a # b", 'a "quoted" \\ name'], "rules": "no layer: handles it"}
        for passed in (True, False):
            lines = [tap.VERSION, tap.plan(2), *tap.point(1, True, "refused: open r /a # skip \x1b", about),
                     *tap.point(2, passed, "allowed: open w /b", {"abi 2": "allowed"})]
            with self.subTest(passed), tempfile.NamedTemporaryFile("w", suffix=".tap") as file:
                file.write("".join(f"{line}\n" for line in lines))
                file.flush()
                proved = subprocess.run(["prove", "--exec", "cat", file.name], capture_output=True, text=True)
                self.assertEqual(proved.returncode == 0, passed, proved.stdout + proved.stderr)
                self.assertNotIn("Parse errors", proved.stdout + proved.stderr)
                self.assertNotIn("skipped", proved.stdout)

    def test_a_point_without_any(self) -> None:
        self.assertEqual(list(tap.point(1, True, "a", {})), ["ok 1 - a"])


@unittest.skipUnless(BUILT.exists(), f"{BUILT} is not built")
class Checking(unittest.TestCase):
    def setUp(self) -> None:
        self.folder = Path(self.enterContext(tempfile.TemporaryDirectory())).resolve()
        for name in ("open", "closed", "work"):
            (self.folder / name).mkdir()
            (self.folder / name / "file").touch()
        (self.folder / "link").symlink_to("work")

    def checked(self, cases: str, policy: str = POLICY) -> tuple[int, list[str], str]:
        """The status, the lines and the errors of a check; `@` is the folder."""
        for name, text in (("policy", policy), ("cases", cases)):
            (self.folder / f"{name}.toml").write_text(text.replace("@", str(self.folder)))
        words = ["check", str(self.folder / "policy.toml"), str(self.folder / "cases.toml")]
        status, *said = called(words, cli.POLICY)
        out, errors = (it.replace(str(self.folder), "@") for it in said)
        return status, out.splitlines(), errors

    def point(self, case: str, policy: str = POLICY) -> tuple[int, list[str]]:
        """The status of a check of one case, and the lines of its point."""
        status, lines, errors = self.checked(case, policy)
        self.assertEqual(lines[:2], ["TAP version 13", "1..1"], errors)
        return status, lines[2:]

    @unittest.skipIf(shutil.which("prove") is None, "prove is not installed")
    def test_prove_runs_it(self) -> None:
        """The command that docs/CI.md names: each case is a test of prove(1)."""
        (self.folder / "P.toml").write_text(POLICY.replace("@", str(self.folder)))
        case = '[[refused]]\ncall = "open r"\npath = "{}/{}/file"\n'
        for name, failed in (("closed", 0), ("open", 1)):
            cases = self.folder / f"{name}.toml"
            cases.write_text(case.format(self.folder, name) + '[[refused]]\ncall = "mount"\n')
            run = f"{sys.executable} {CONFINER} check {self.folder / 'P.toml'}"
            proved = subprocess.run(["prove", "--exec", run, str(cases)], capture_output=True, text=True)
            self.assertEqual(proved.returncode, failed, proved.stdout + proved.stderr)
            self.assertNotIn("Parse errors", proved.stdout)
            self.assertIn("Tests=2", proved.stdout)

    def test_what_is_refused_names_the_layer_and_the_missing_right(self) -> None:
        self.assertEqual(
            self.point('[[refused]]\ncall = "open r"\npath = "@/closed/file"\n'),
            (0, ["ok 1 - refused: open r @/closed/file", "  ---", '  "abi 1-5":',
                 '    - "layer 1: read_file on @/closed/file"', "  ..."]),
        )

    def test_what_runs_a_program_may_be_unknown(self) -> None:
        """The kernel looks a relative interpreter up from the working directory of the caller, which no case has."""
        (self.folder / "open/script").write_text("#!closed/file\n")
        policy = '[[layer]]\nhandled_access_fs = ["execute"]\n[[layer.path_beneath]]\nallowed_access = ["execute"]\nparent = "@/open"'
        case = '[[{}]]\ncall = "exec"\npath = "@/open/script"\n'
        status, lines, errors = self.checked(case.format("allowed"), policy)
        self.assertEqual((status, lines[2]), (NOT_ALL_JUDGED, "ok 1 - allowed: exec @/open/script"))
        self.assertIn("exec @/open/script: @/open/script names closed/file, which is looked up from the working directory",
                      errors)
        self.assertEqual(self.checked(case.format("refused"), policy)[0], 1)
        closed = case.format("refused").replace("open", "closed")
        (self.folder / "closed/script").write_text("#!closed/file\n")
        self.assertEqual(self.checked(closed, policy)[0], 0)

    def test_what_is_allowed_names_the_rule(self) -> None:
        self.assertEqual(
            self.point('[[refused]]\ncall = "open r"\npath = "@/open/file"\n'),
            (1, ["not ok 1 - refused: open r @/open/file", "  ---", '  "abi 1-5": "allowed"', '  "rules":',
                 '    - "layer 1: path_beneath 1 on @/open grants read_file"', "  ..."]),
        )

    def test_a_layer_without_a_right_for_files_refuses_moves(self) -> None:
        """As Linux 6.18 answers under policies for an ABI."""
        files = '[[layer]]\nhandled_access_fs = ["all"]\n[[layer.path_beneath]]\nallowed_access = ["all"]\nparent = "@"\n'
        ports, move = 'handled_access_net = ["bind_tcp"]\n', 'call = "rename"\nfrom = "@/open/file"\nto = "@/closed/f"\n'
        device = f'{ports}handled_access_fs = ["ioctl_dev"]\n'
        for layer, passes, fails in ((ports, "2-3", "4-5"), (device, "2-3", "4-5"), ('scoped = ["signal"]\n', "2-4", "6")):
            cases = f'[[allowed]]\n{move}abi = "{passes}"\n[[refused]]\n{move}abi = "{fails}"\n'
            with self.subTest(layer):
                self.assertEqual(self.checked(cases, f"{files}[[layer]]\n{layer}")[0], 0)

    def test_a_parent_that_is_a_link_is_what_it_leads_to(self) -> None:
        status, lines = self.point('[[allowed]]\ncall = "open w"\npath = "@/work/file"\n')
        self.assertEqual((status, lines[3:5]), (0, ['  "rules":', '    - "layer 1: path_beneath 2 on @/work grants write_file"']))

    def test_a_rule_on_another_name_of_the_same_file(self) -> None:
        """By a hard link, the rule is on the file under both names."""
        (self.folder / "closed" / "name").hardlink_to(self.folder / "open" / "file")
        policy = POLICY.replace('"@/open"', '"@/open/file"').replace('["read"]', '["read_file"]')
        status, lines = self.point('[[refused]]\ncall = "open r"\npath = "@/closed/name"\n', policy)
        self.assertEqual((status, lines[2]), (1, '  "abi 1-5": "allowed"'))

    def test_a_path_that_leads_nowhere(self) -> None:
        policy = POLICY.replace('"@/open"', '"@/none/../open"')
        status, lines, errors = self.checked('[[refused]]\ncall = "open r"\npath = "@/open/file"\n', policy)
        self.assertEqual(status, 0, lines)
        self.assertIn("parent @/none/../open: no rule, since @/none is no directory on this machine", errors)

    def test_a_link_of_a_process_leads_elsewhere_for_each(self) -> None:
        """The confined program has another directory, program and root than this one (proc(5))."""
        for path in ("/proc/self/exe", "/proc/thread-self/cwd/x", "@/own/f"):
            (self.folder / "own").is_symlink() or (self.folder / "own").symlink_to("/proc/self/cwd")
            status, _, errors = self.checked(f'[[refused]]\ncall = "open r"\npath = "{path}"\nkind = "reg"\n')
            self.assertEqual((status, f"not known where {path} leads: name what it leads to" in errors), (3, True), errors)
        for parent, asked, wanted in (
            ("/proc/self/cwd", '[[nothing]]\nrights = ["read_file"]\nunder = "@/closed"\n', NOT_ALL_JUDGED),
            ("@/own/closed", '[[refused]]\ncall = "open r"\npath = "@/closed/file"\n', NOT_ALL_JUDGED),
            ("@/own/closed", '[[allowed]]\ncall = "open r"\npath = "@/open/file"\n', 0),
            ("/proc/self/net", '[[nothing]]\nrights = ["read_file"]\nunder = "@/closed"\n', 0),
        ):
            status, _, errors = self.checked(asked, POLICY.replace("/nowhere", parent))
            self.assertEqual((status, "leads elsewhere for each process" in errors), (wanted, bool(wanted)), parent + errors)

    def test_where_a_check_runs_does_not_tell_where_a_link_of_a_process_leads(self) -> None:
        case, policy = 'call = "open r"\npath = "@/closed/file"\n', POLICY.replace("/nowhere", "/proc/self/cwd/file")
        for folder in (self.folder, self.folder / "closed"):
            with self.subTest(folder), contextlib.chdir(folder):
                self.assertEqual(self.checked(f"[[allowed]]\n{case}", policy)[0], 1)
                self.assertEqual(self.checked(f"[[refused]]\n{case}", policy)[0], NOT_ALL_JUDGED)

    def test_abis_that_differ(self) -> None:
        self.assertEqual(
            self.point('[[refused]]\ncall = "truncate"\npath = "@/work/file"\nabi = "2-5"\n'),
            (1, ["not ok 1 - refused: truncate @/work/file at ABI 2-5", "  ---", '  "abi 2": "allowed"', '  "abi 3-5":',
                 '    - "layer 2: truncate on @/work/file"', '  "rules":',
                 '    - "layer 1: path_beneath 2 on @/work grants truncate"', "  ..."]),
        )
        self.assertEqual(self.point('[[refused]]\ncall = "truncate"\npath = "@/work/file"\nabi = "3-5"\n')[0], 0)

    def test_ports_and_mounts(self) -> None:
        status, lines, _ = self.checked(
            '[[allowed]]\ncall = "connect"\nport = 443\n[[refused]]\ncall = "connect"\nport = 22\nabi = "4-5"\n'
            '[[refused]]\ncall = "mount"\n[[allowed]]\ncall = "bind"\nport = 80\n'
        )
        self.assertEqual((status, [line for line in lines if line.startswith(("ok", "not ok"))]), (0, [
            "ok 1 - refused: connect port 22 at ABI 4-5", "ok 2 - refused: mount", "ok 3 - allowed: connect port 443",
            "ok 4 - allowed: bind port 80"]))
        self.assertIn('    - "layer 1: net_port 1 on port 443 grants connect_tcp"', lines)
        self.assertIn('  "rules": "no layer handles what the call asks"', lines)

    def test_moves_that_gain(self) -> None:
        move = '[[refused]]\ncall = "rename"\nfrom = "@/work/file"\nto = "@/open/x"\n'
        self.assertEqual(self.point(move)[1][3], '    - "layer 1: make_reg on @/open"')

    def test_a_device_and_a_descriptor(self) -> None:
        policy = '[[layer]]\nhandled_access_fs = ["ioctl_dev", "truncate"]\n'
        for case, asked in (('call = "ioctl r"\npath = "/dev/null"\nabi = 5\n', "ioctl_dev on /dev/null"),
                            ('call = "ftruncate"\npath = "@/open/file"\nabi = "3-5"\n', "truncate on @/open/file")):
            with self.subTest(case):
                status, lines = self.point("[[refused]]\n" + case, policy)
                self.assertEqual(status, 0)
                self.assertIn(f'"layer 1: {asked} when it was opened"', lines[3])

    def test_a_case_about_which_the_policy_is_not_asked(self) -> None:
        status, lines, errors = self.checked('[[refused]]\ncall = "truncate"\npath = "@/open"\n')
        self.assertEqual((status, lines), (3, []))
        self.assertEqual(
            errors,
            "landaudit-policy: @/cases.toml: truncate @/open: Landlock is not asked: @/open is a directory\n",
        )

    def test_removing_an_object_of_another_kind_than_the_call_is_for(self) -> None:
        """The kernel asks about the directory before it says EISDIR or ENOTDIR (tried on Linux 6.18)."""
        policy = '''[[layer]]
handled_access_fs = ["remove_file", "remove_dir"]
[[layer.path_beneath]]
allowed_access = ["{}"]
parent = "@"
'''
        for call, path, asked, other in (("rmdir", "@/open/file", "remove_dir", "remove_file"),
                                         ("unlink", "@/open", "remove_file", "remove_dir")):
            case = f'call = "{call}"\npath = "{path}"\n'
            with self.subTest(call):
                self.assertEqual(self.point("[[allowed]]\n" + case, policy.format(asked))[0], 0)
                self.assertEqual(self.point("[[refused]]\n" + case, policy.format(other))[0], 0)
                self.assertEqual(self.point("[[allowed]]\n" + case, policy.format(other))[0], 1)

    def test_calls_that_end_in_errors_of_their_own_but_are_asked_about_before(self) -> None:
        """What each asks was seen on Linux 6.18: they end in ENXIO, EPERM, EISDIR or ENOTDIR unless a layer refuses them;
        only the moves of a path to itself succeed.
        """
        with socket.socket(socket.AF_UNIX) as bound:
            bound.bind(str(self.folder / "open" / "socket"))
        (self.folder / "open" / "in").mkdir()
        on_file, ends = '[[{}]]\ncall = "{}"\npath = "@/open/socket"\n', '[[{}]]\ncall = "{}"\nfrom = "{}"\nto = "{}"\n'
        for case, words, asked in (
            (on_file, ("open r",), {"read_file"}),
            (on_file, ("open w",), {"write_file"}),
            (ends, ("link", "@/open/in", "@/open/new"), {"make_dir"}),
            (ends, ("rename", "@/open/in", "@/open/file"), {"make_dir", "remove_dir", "remove_file"}),
            (ends, ("rename", "@/open/file", "@/open/in"), {"make_reg", "remove_dir", "remove_file"}),
            (ends, ("rename", "@/open/in", "@/closed/file"), {"make_dir", "remove_dir", "remove_file", "refer"}),
            (ends, ("rename", "@/open/file", "@/open/file"), {"make_reg", "remove_file"}),
            (ends, ("exchange", "@/open/in", "@/open/in"), {"make_dir", "remove_dir"}),
        ):
            for right in ("read_file", "write_file", "make_dir", "make_reg", "remove_dir", "remove_file", "refer"):
                layer = f'[[layer]]\nhandled_access_fs = ["{right}"]\n'
                if right != "refer":
                    layer += '[[layer.path_beneath]]\nallowed_access = ["refer"]\nparent = "@"\n'
                    layer = layer.replace('"]', '", "refer"]', 1)
                must_be = "refused" if right in asked else "allowed"
                with self.subTest(words, right=right):
                    status, _, errors = self.checked(case.format(must_be, *words) + 'abi = "2-5"\n', layer)
                    self.assertEqual((status, errors), (0, ""))
        layer = '[[layer]]\nhandled_access_fs = ["read_file"]\n[[layer.path_beneath]]\nallowed_access = ["read_file"]\n'
        status, *_ = self.checked(on_file.format("allowed", "open r"), layer + 'parent = "@/open/socket"\n')
        self.assertEqual(status, 0)

    def test_a_link_of_a_directory_in_another_one_is_not_judged(self) -> None:
        status, _, errors = self.checked('[[refused]]\ncall = "link"\nfrom = "@/open"\nto = "@/work/new"\n')
        self.assertEqual((status, "@/open is a directory: its link in another one is not judged" in errors), (3, True))

    def test_random_cases_about_files_of_this_disk(self) -> None:
        cases = []

        @by_chance(examples=5)
        def check(chance: random.Random) -> None:
            asked, found = random_checks.faults(BUILT, chance, 50)
            self.assertEqual(found, [])
            cases.append(asked)

        check()
        self.assertGreater(sum(cases), 100)

    def test_random_questions_by_calls_on_small_trees(self) -> None:
        asked, held = [], []

        @by_chance(examples=5)
        def check(chance: random.Random) -> None:
            questions, hold, found = random_questions.faults(BUILT, chance, 8)
            self.assertEqual(found, [])
            asked.append(questions)
            held.append(hold)

        check()
        self.assertTrue(5 < sum(held) < sum(asked) - 5, (held, asked))

    def question(self, question: str, policy: str = POLICY) -> tuple[int, list[str]]:
        """The status of a check of one question, and the lines of its point without those that are the same in all."""
        status, lines = self.point(question, policy)
        return status, [line.strip() for line in lines if line not in ("  ---", "  ...")]

    def test_nothing_under_a_path(self) -> None:
        """By hand: /work is written by the second rule, which the second layer does not grant truncate besides."""
        under = '[[nothing]]\nrights = ["write_file"]\nunder = "@/{}"\n'
        self.assertEqual(self.question(under.format("closed")), (0, ["ok 1 - nothing: write_file under @/closed"]))
        for path in ("link", "work/../work/", "work/file", "work/new/deeper"):
            led = path.replace("link", "work").replace("work/../work/", "work")
            where = "on @/work/file as a file" if path == "work/file" else f"under @/{led}"
            with self.subTest(path):
                self.assertEqual(self.question(under.format(path)), (1, [
                    f"not ok 1 - nothing: write_file under @/{led}", '"abi 1-5":', f'- "write_file {where}"',
                    '"rules":', '- "layer 1: path_beneath 2 on @/work grants write_file"']))
        above = self.question('[[nothing]]\nrights = ["write_file"]\nunder = "@"\nabi = "3"\n')
        self.assertEqual(above[1][:3], ["not ok 1 - nothing: write_file under @ at ABI 3", '"abi 3":', '- "write_file under @/work"'])

    def test_a_right_that_an_abi_does_not_know(self) -> None:
        """By its name, it passes where no layer handles it; of a group, it is not asked."""
        named = '[[nothing]]\nrights = ["truncate"]\nunder = "@/open"\n'
        self.assertEqual(self.question(named), (1, [
            "not ok 1 - nothing: truncate under @/open", '"abi 1-2":', '- "truncate under @/open"',
            '"rules":', '- "no layer handles truncate at ABI 1-2"']))
        self.assertEqual(self.question(named + 'abi = "3-5"\n')[0], 0)
        self.assertEqual(self.question('[[nothing]]\nrights = ["write"]\nunder = "@/open"\n'), (0, [
            "ok 1 - nothing: write under @/open", '"not asked":', '- "refer, truncate, ioctl_dev, which ABI 1 does not know"',
            '- "truncate, ioctl_dev, which ABI 2 does not know"', '- "ioctl_dev, which ABI 3-4 does not know"']))

    def test_refer_where_no_layer_names_it(self) -> None:
        """A layer that handles some right for files refuses `refer`, also at ABI 1 (docs/SEMANTICS.md)."""
        nowhere = '[[nothing]]\nrights = ["refer"]\nunder = "/"\n'
        self.assertEqual(self.question(nowhere, '[[layer]]\nhandled_access_fs = ["read_dir"]\n')[0], 0)
        status, lines = self.question(nowhere, '[[layer]]\nhandled_access_net = ["bind_tcp"]\n')
        self.assertEqual((status, lines[2:]), (1, ['- "refer under /"', '"rules":', '- "no layer handles refer at ABI 1-5"']))

    def test_what_is_never_written_and_run(self) -> None:
        status, lines = self.question('[[never]]\nboth = ["write_file", "execute"]\n')
        self.assertEqual((status, lines), (1, [
            "not ok 1 - never: write_file and execute", '"abi 1-5":', '- "execute, write_file under @/work"',
            '"rules":', '- "layer 1: path_beneath 2 on @/work grants execute, write_file"']))
        apart = '[[never]]\nboth = ["write_file", "execute"]\nunder = "@/open"\n'
        self.assertEqual(self.question(apart), (0, ["ok 1 - never: write_file and execute under @/open"]))
        # One layer grants writing, another one running, and each all of the other right: both pass.
        layers = "".join(f'[[layer]]\nhandled_access_fs = ["{right}"]\n[[layer.path_beneath]]\nallowed_access = ["{right}"]\n'
                         f'parent = "{parent}"\n' for right, parent in (("write_file", "@/work"), ("execute", "@/work/file")))
        status, lines = self.question('[[never]]\nboth = ["write_file", "execute"]\n', layers)
        self.assertEqual((status, lines[2:]), (1, [
            '- "execute, write_file on @/work/file as a file"', '"rules":',
            '- "layer 1: path_beneath 1 on @/work grants write_file"', '- "layer 2: path_beneath 1 on @/work/file grants execute"']))

    def test_only_under_some_paths(self) -> None:
        only = '[[only]]\nrights = ["execute"]\nunder = {}\n'
        self.assertEqual(self.question(only.format('["@/open", "@/link"]')),
                         (0, ["ok 1 - only: execute under @/open, @/work"]))
        status, lines = self.question(only.format('"@/work/file"'))
        self.assertEqual((status, lines[2]), (1, '- "execute under @/work, but for @/work/file"'))
        status, lines = self.question(only.format('"@/open"'), '[[layer]]\nhandled_access_fs = ["read_file"]\n')
        self.assertEqual((status, lines[2:]), (1, ['- "execute under /, but for @/open"', '"rules":',
                                                   '- "no layer handles execute at ABI 1-5"']))

    def test_a_rule_on_a_path_that_is_not_here(self) -> None:
        """It is on what is there on another machine."""
        status, lines = self.question('[[nothing]]\nrights = ["read_file"]\nunder = "/nowhere"\n')
        self.assertEqual((status, lines[2]), (1, '- "read_file under /nowhere"'))
        # Nothing is beneath a file, and a rule that leads through one is on nothing.
        beneath = POLICY.replace('"/nowhere"', '"@/closed/file/x"')
        self.assertEqual(self.question('[[nothing]]\nrights = ["read"]\nunder = "@/closed"\n', beneath)[0], 0)

    def test_a_rule_on_another_name_of_a_file_or_of_none(self) -> None:
        (self.folder / "closed" / "name").hardlink_to(self.folder / "open" / "file")
        policy = POLICY.replace('"@/open"', '"@/open/file"').replace('["read"]', '["read_file"]')
        nothing = '[[nothing]]\nrights = ["read_file"]\nunder = "@/closed{}"\n'
        status, lines = self.question(nothing.format("/name"), policy)
        self.assertEqual((status, lines[2]), (1, '- "read_file on @/closed/name as a file"'))
        status, _, said = self.checked(nothing.format(""), policy)
        self.assertEqual(status, NOT_ALL_JUDGED)
        self.assertIn("NOT ALL IS ASKED: @/open/file has other names (hard links)", said)

    def test_a_layer_of_scopes_alone(self) -> None:
        """From ABI 6 on it refuses all moves to other directories; Linux of ABI 5 does not know it (docs/SEMANTICS.md)."""
        policy = ('[[layer]]\nhandled_access_fs = ["refer"]\n[[layer.path_beneath]]\nallowed_access = ["refer"]\n'
                  'parent = "@"\n[[layer]]\nscoped = ["signal"]\n')
        case = '[[{}]]\ncall = "rename"\nfrom = "@/closed/file"\nto = "@/open/new"\nabi = "{}"\n'
        question = '[[nothing]]\nrights = ["refer"]\nunder = "@"\nabi = "{1}"\n'
        for text, abis, status in ((case, "5", 1), (case, "5-7", 1), (case, "6", 0), (question, "5", 1),
                                   (question, "5-7", 1), (question, "6", 0)):
            with self.subTest(text=text, abis=abis):
                self.assertEqual(self.checked(text.format("refused", abis), policy)[0], status)
        self.assertEqual([self.checked(case.format("allowed", abis), policy)[0] for abis in ("4", "6")], [0, 1])

    def test_a_question_on_a_file_with_another_name(self) -> None:
        """What a directory lets pass, it lets pass by the name in it (Linux 6.18)."""
        (self.folder / "closed" / "name").hardlink_to(self.folder / "work" / "file")
        policy = ('[[layer]]\nhandled_access_fs = ["write_file", "execute"]\n[[layer.path_beneath]]\nallowed_access = '
                  '["write_file"]\nparent = "@/work"\n[[layer.path_beneath]]\nallowed_access = ["execute"]\nparent = "@/closed"\n')
        nothing, only = (f'[[{kind}]]\nrights = ["write_file"]\nunder = ' for kind in ("nothing", "only"))
        never = '[[never]]\nboth = ["write_file", "execute"]\nunder = '
        one, two = '"@/closed/name"\n', '["@/closed/name", "@/work/file"]\n'
        self.assertEqual([self.checked(asked + one, policy)[0] for asked in (nothing, never)], 2 * [NOT_ALL_JUDGED])
        self.assertIn("NOT ALL IS ASKED: @/closed/name has other names (hard links)", self.checked(nothing + one, policy)[2])
        self.assertEqual(self.checked(only + '["@/closed/name", "@/work"]\n', policy)[0], 0)
        self.assertEqual(self.checked(nothing + two, policy)[0], 1)
        status, lines = self.question(never + two, policy)
        self.assertEqual((status, lines[2:4]), (1, ['- "execute on @/closed/name as a file"', '- "write_file on @/work/file as a file"']))

    def test_a_further_name_beside_paths_by_mounts(self) -> None:
        """Paths by which a bind mount shows one name are no two names of a file (stat(2), st_nlink)."""
        (self.folder / "shown").mkdir()
        (self.folder / "shown" / "file").hardlink_to(self.folder / "open" / "file")
        policy = POLICY.replace('["@/open", "/nowhere"]', '["@/open/file", "@/shown/file"]').replace('["read"]', '["read_file"]')
        nothing = '[[nothing]]\nrights = ["read_file"]\nunder = "@/closed"\n'
        top = self.folder.resolve()
        twice = [["/", "8:1", "/", "ext4"], [f"{top}/shown", "8:1", f"{top}/open", "ext4"]]
        self.assertEqual(self.checked(nothing, policy)[0], 0)
        with mock.patch.object(parents, "_places", lambda: MountPlaces(twice)):
            self.assertEqual(self.checked(nothing, policy)[0], NOT_ALL_JUDGED)

    def test_a_rule_on_what_is_mounted_elsewhere_too(self) -> None:
        """A directory and a file in it have other paths by a bind mount, and the rule is on them there (Linux 6.18)."""
        top = self.folder.resolve()
        twice = [["/", "8:1", "/", "ext4"], [f"{top}/closed", "8:1", f"{top}/open", "ext4"]]
        nothing, only = (f'[[{kind}]]\nrights = ["read_file"]\nunder = "@/{under}"\n'
                         for kind, under in (("nothing", "closed"), ("only", "open")))
        here = POLICY.replace('["@/open", "/nowhere"]', '"@/open"')
        on_file = here.replace('"@/open"', '"@/open/file"').replace('["read"]', '["read_file"]')
        with mock.patch.object(parents, "_places", lambda: MountPlaces(twice)):
            status, lines = self.question(nothing, on_file)
            self.assertEqual((status, lines[2]), (1, '- "read_file on @/closed/file as a file"'))
            self.assertEqual(self.question(only, here)[1][2], '- "read_file under @/closed"')
        self.assertEqual((self.question(nothing, on_file)[0], self.question(only, here)[0]), (0, 0))

    def test_what_is_mounted_where_a_rule_is(self) -> None:
        """What a question is about has other paths by bind mounts, below a directory with a rule (Linux 6.18)."""
        for name in ("closed/in", "open/all", "open/in", "run/all"):
            (self.folder / name).mkdir(parents=True)
        mounted = [["/", "8:1", "/", "ext4"], ["@/open/all", "8:1", "@/closed", "ext4"],
                   ["@/open/in", "8:1", "@/closed/in", "ext4"], ["@/open/name", "8:1", "@/work/file", "ext4"],
                   ["@/run/all", "8:1", "@/closed", "ext4"]]
        places = MountPlaces([[field.replace("@", str(self.folder)) for field in mount] for mount in mounted])
        run = '[[layer.path_beneath]]\nallowed_access = ["execute"]\nparent = "@/run"\n'
        read = f'[[layer]]\nhandled_access_fs = ["all"]\n[[layer.path_beneath]]\nallowed_access = ["read_file"]\nparent = "@/open"\n{run}'
        both = ['- "read_file under @/open/all"', '- "execute under @/run/all"', '- "read_file under @/open/in"']
        for asked, passes in (
            ('[[nothing]]\nrights = ["read_file"]\nunder = "@/closed"\n', ['- "read_file under @/open/all"', '- "read_file under @/open/in"']),
            ('[[nothing]]\nrights = ["read_file"]\nunder = "@/closed/in"\n', ['- "read_file under @/open/all/in"', '- "read_file under @/open/in"']),
            ('[[nothing]]\nrights = ["read_file"]\nunder = "@/work/file"\n', ['- "read_file under @/open/name"']),
            ('[[never]]\nboth = ["read_file", "execute"]\n', both),
            ('[[never]]\nboth = ["read_file", "execute"]\nunder = "@/closed"\n', both),
            ('[[never]]\nboth = ["read_file", "execute"]\nunder = "@/work"\n', []),
        ):
            with self.subTest(asked):
                with mock.patch.object(parents, "_places", lambda: places):
                    status, lines = self.question(asked, read)
                found = [line for line in lines if " under @" in line and line.startswith("- ")]
                self.assertEqual((status, found), (int(bool(passes)), passes))
                self.assertEqual(self.question(asked, read)[0], 0)

    def test_cases_and_questions(self) -> None:
        status, lines, _ = self.checked('[[never]]\nboth = ["truncate", "execute"]\nabi = 5\n[[refused]]\ncall = "mount"\n')
        self.assertEqual((status, lines[1], [line for line in lines if line.startswith(("ok", "not ok"))]), (
            0, "1..2", ["ok 1 - refused: mount", "ok 2 - never: truncate and execute at ABI 5"]))

    def test_a_rule_that_the_kernel_refuses(self) -> None:
        of_directories = 'allowed_access = ["read_dir"]'
        policy = POLICY.replace('allowed_access = ["read"]', of_directories).replace('"@/open"', '"@/open/file"')
        fault = "layer 1, path_beneath 1: the kernel refuses it with EINVAL: @/open/file is not a directory"
        for asked in ('[[nothing]]\nrights = ["read"]\nunder = "/"\n',
                      '[[refused]]\ncall = "open r"\npath = "@/open/file"\n'):
            with self.subTest(asked):
                status, lines, errors = self.checked(asked, policy)
                self.assertEqual((status, lines), (3, []))
                self.assertIn(fault, errors)
