"""Policies that recorded programs put in force by themselves, from kept logs and from traces written by hand."""

from __future__ import annotations

import tempfile
import unittest
from collections.abc import Sequence
from pathlib import Path

from landaudit_record import cli
from landaudit_record.commands.record import convert
from landaudit_record.common.jsonl import Record
from landaudit_record.common.problems import NOT_ALL_JUDGED, UNREADABLE, USAGE
from landaudit_record.common.rights import FS
from landaudit_record.policy import policies
from landaudit_record.policy.policies import Policy
from landaudit_record.recorder import converting
from landaudit_record.recorder.ports import Ports

from .calling import called
from .kept_logs import LOGS, KeptLogs
from .recorded import write_lines

KERNEL_OK = {"kernel": "ok"}


def imported(*words: str) -> tuple[int, str, str]:
    """The status of an import, and what it prints to standard output and standard error."""
    return called(["import", *words], cli.POLICY)


def read(text: str) -> Policy:
    """A policy that was printed."""
    with tempfile.TemporaryDirectory() as folder:
        path = Path(folder, "P.toml")
        path.write_text(text, encoding="utf-8")
        return policies.read(path)


class Recorded(KeptLogs):
    """Programs that ran on a kernel with Landlock."""

    def test_setpriv(self) -> None:
        """setpriv of util-linux 2.41, recorded by strace 6.13; its words are those of its manual page."""
        folder = self.folder("setpriv")
        converting.convert(folder, Ports())
        status, out, errors = imported(str(folder))
        (layer,) = read(out).layers
        self.assertEqual((status, errors), (0, ""))
        self.assertEqual(layer.handled_access_fs.rights, FS.known(3))
        self.assertEqual(layer.handled_access_net.rights, frozenset())
        root = "/tmp/story/trixie"
        granted = {(on, rule.allowed_access.rights) for rule in layer.path_beneath for on in rule.parents}
        self.assertEqual(granted, {
            (f"{root}/usr", frozenset({"execute", "read_file", "read_dir"})),
            (f"{root}/etc", frozenset({"read_file"})),
            (f"{root}/usr/lib", frozenset({"read_file"})),
        })
        self.assertIn(f"# what {root}/usr/bin/setpriv puts in force by itself", out)
        self.assertIn(f"# programs that were run under it: {root}/usr/bin/true (1)", out)

    def test_a_program_in_c_that_restricts_itself_twice(self) -> None:
        folder = self.folder("policy")
        converting.convert(folder, convert.ports_of(policies.read(LOGS / "ports.toml")))
        status, out, _ = imported(str(folder))
        self.assertEqual(status, 0)
        first, second = read(out).layers
        self.assertEqual(first.path_beneath, second.path_beneath)
        self.assertEqual(first.handled_access_fs.rights, {"execute", "read_file", "read_dir", "refer", "truncate"})
        self.assertEqual([rule.parents for rule in first.path_beneath], [("/etc",)])
        (port,) = first.net_port
        self.assertEqual((port.ports, port.allowed_access.rights), ((4242,), {"bind_tcp"}))

    def test_what_strace_does_not_decode_is_told(self) -> None:
        folder = self.folder("policy")
        converting.convert(folder, Ports())
        status, out, errors = imported(str(folder))
        self.assertEqual(status, NOT_ALL_JUDGED)
        self.assertIn("# NOT ALL IS KNOWN: 2 calls of Landlock could not be recorded: what a ruleset handles", out)
        self.assertIn("note: NOT ALL IS KNOWN", errors)

    def test_a_program_that_does_not_restrict_itself(self) -> None:
        folder = self.folder("forks")
        converting.convert(folder, Ports())
        status, out, errors = imported(str(folder))
        self.assertEqual((status, out), (UNREADABLE, ""))
        self.assertIn("no process restricts itself", errors)


class Written(unittest.TestCase):
    """Traces that are written by hand, by docs/FORMATS.md."""

    def setUp(self) -> None:
        self.folder = Path(self.enterContext(tempfile.TemporaryDirectory()))
        self.tree = [{"path": "/etc", "kind": "dir"}, {"path": "/etc/f", "kind": "reg"}, {"path": "/new", "kind": "reg",
                                                                                        "made": True}]

    def imported(self, trace: Sequence[Record], *words: str) -> tuple[int, str, str]:
        write_lines(self.folder / "tree.jsonl", self.tree)
        write_lines(self.folder / "trace.jsonl", trace)
        return imported(str(self.folder), *words)

    def layers(self, *calls: Record) -> tuple[policies.Layer, ...]:
        """The layers of process 1, which does some calls."""
        status, out, errors = self.imported(by(1, *calls))
        self.assertEqual(status, 0, errors)
        return read(out).layers

    def test_rules_with_equal_rights_are_one_and_rules_on_one_path_are_added_up(self) -> None:
        (layer,) = self.layers(create(["read_file", "execute"]), rule("/etc", "read_file"), rule("/etc/f", "read_file"),
                               rule("/", "execute"), rule("/etc", "execute"), RESTRICT)
        self.assertEqual([(rule.parents, rule.allowed_access.rights) for rule in layer.path_beneath],
                         [(("/etc",), {"read_file", "execute"}), (("/etc/f",), {"read_file"}), (("/",), {"execute"})])

    def test_rules_after_the_restriction_are_not_in_force(self) -> None:
        first, second = self.layers(create(["read_file"]), RESTRICT, rule("/etc", "read_file"), RESTRICT)
        self.assertEqual([len(first.path_beneath), len(second.path_beneath)], [0, 1])

    def test_a_rule_that_the_child_adds_is_in_the_ruleset_of_its_parent(self) -> None:
        status, out, _ = self.imported([*by(1, create(["read_file"])), {"op": "fork", "pid": 1, "child": 2},
                                        {"pid": 2, **rule("/etc", "read_file")}, {"pid": 1, **RESTRICT}])
        self.assertEqual((status, read(out).layers[0].path_beneath[0].parents), (0, ("/etc",)))

    def test_what_the_kernel_refuses_is_dropped_and_told(self) -> None:
        status, out, _ = self.imported(by(
            1, create(["read_file", "read_dir"]), rule("/etc", "read_file", kernel="EBADFD"), rule("/etc", "execute"),
            rule("/etc/f", "read_dir"), {"op": "add_port", "rs": 3, "port": 65536},
            {"op": "restrict", "rs": 3, "kernel": "EPERM"}, RESTRICT))
        self.assertEqual((status, read(out).layers[0].path_beneath), (0, ()))
        for text in ("its rule on /etc (read_file): the kernel refused it with EBADFD",
                     "its rule on /etc (execute): the kernel refuses it with EINVAL, since the ruleset does not handle",
                     "its rule on /etc/f (read_dir): the kernel refuses it with EINVAL, since it is on no directory",
                     "its rule on 65536 (no right): the kernel refuses it with EINVAL, since it is on no port",
                     "calls that the kernel refused: restrict of -: EPERM (1)"):
            self.assertIn(text, out)

    def test_a_rule_on_a_link_itself_is_dropped_and_told(self) -> None:
        """Linux 6.18 takes it from a descriptor of O_NOFOLLOW; no open is then allowed, and a policy's rule follows links."""
        self.tree.append({"path": "/link", "kind": "sym", "target": "/etc/f"})
        status, out, _ = self.imported(by(1, create(["read_file"]), rule("/link", "read_file") | KERNEL_OK, RESTRICT))
        (layer,) = read(out).layers
        self.assertEqual((status, layer.path_beneath), (0, ()))
        self.assertIn("# left out: its rule on /link (read_file): it is on the symbolic link itself\n", out)

    def test_rights_of_newer_abis_and_rules_on_what_the_run_makes_are_told(self) -> None:
        status, out, _ = self.imported(by(1, create(["read_file", "bit_16"]), rule("/etc", "read_file", "bit_16"),
                                          rule("/new", "read_file"), RESTRICT))
        self.assertEqual(read(out).layers[0].handled_access_fs.rights, {"read_file"})
        self.assertIn("left out: it handles bit_16 for files, which no ABI here has", out)
        self.assertIn("left out: it has a rule on /etc with bit_16", out)
        self.assertIn("# made by the run itself: /new", out)
        self.assertEqual(status, 0)

    def test_a_layer_of_newer_rights_alone_is_told(self) -> None:
        status, out, _ = self.imported(by(1, create(["bit_16"]), RESTRICT, {**create(["execute"]), "rs": 4},
                                          {**RESTRICT, "rs": 4}))
        (layer,) = read(out).layers
        self.assertEqual((status, layer.handled_access_fs.rights), (0, {"execute"}))
        self.assertIn("# a layer is left out, since it handles nothing that is named here: it handles bit_16", out)
        status, _, errors = self.imported(by(1, create(["bit_16"]), RESTRICT))
        self.assertEqual(status, UNREADABLE)
        self.assertIn("no layer of - handles what a policy can name", errors)

    def test_scopes(self) -> None:
        (layer,) = self.layers({**create(["execute"]), "scoped": ["signal"]}, RESTRICT)
        self.assertEqual(layer.scoped, ("signal",))

    def test_a_layer_of_scopes_alone_is_not_known(self) -> None:
        made = {**create(["execute"]), "scoped": ["signal"], "call": 5}
        made_with = {"pid": 1, "class": "scopes of a ruleset", "call": "landlock_create_ruleset({..}, 24, 0) = 3"}
        entries = [{"line": line, **made_with} for line in (5, 9)]
        entries += [{**entries[0], "line": 11, "class": "a call of Landlock's with flags", "call": said}
                    for said in ("landlock_restrict_self(-1, 4) = 0", "landlock_restrict_self(3, 8) = -1 EINVAL (..)")]
        write_lines(self.folder / "unsaid.jsonl", entries)
        status, out, _ = self.imported(by(1, made, RESTRICT))
        self.assertEqual(status, NOT_ALL_JUDGED)
        self.assertIn("NOT ALL IS KNOWN: 1 call of Landlock could not be recorded: scopes of a ruleset (1)", out)

    def test_a_copy_for_a_further_name_of_the_object_is_no_rule_of_its_own(self) -> None:
        named = {**rule("/etc", "read_file"), "call": 7}
        (layer,) = self.layers(create(["read_file"]), named, {**named, "path": "/etc/f"}, RESTRICT)
        self.assertEqual(layer.path_beneath[0].parents, ("/etc",))


class Choosing(Written):
    """Several programs that restrict themselves."""

    def setUp(self) -> None:
        super().setUp()
        one, other = create(["read_file"]), create(["execute"])
        sandboxer = by(1, run("/bin/box"), one, RESTRICT, run("/bin/work"), {**other, "rs": 4}, {**RESTRICT, "rs": 4})
        self.trace = [*sandboxer, {"op": "fork", "pid": 1, "child": 2}, *({"pid": 2, **it} for it in (other, RESTRICT)),
                      {"op": "exit", "pid": 2}]

    def test_a_program_has_the_layers_that_it_makes_itself(self) -> None:
        status, out, _ = self.imported(self.trace, "--program", "box")
        self.assertEqual((status, [it.handled_access_fs.rights for it in read(out).layers]), (0, [{"read_file"}]))
        self.assertIn("# programs that were run under it: /bin/work (1)", out)

    def test_one_process_of_a_program(self) -> None:
        for process, layers in (("1", 1), ("2", 2)):
            status, out, _ = self.imported(self.trace, "--program", "/bin/work", "--process", process)
            self.assertEqual((status, len(read(out).layers)), (0, layers))
            self.assertIn("# layers of others were in force before, which are not here: /bin/box (1)", out)

    def test_several_are_listed(self) -> None:
        status, out, errors = self.imported(self.trace)
        self.assertEqual((status, out), (USAGE, ""))
        for text in ("there are 3 policies", "--program or --process", "/bin/box (process 1: 1 layer, 0 rules, 1 time)",
                     "/bin/work (process 2: 2 layers, 0 rules, 1 time)"):
            self.assertIn(text, errors)
        self.assertIn("there are 2 policies", self.imported(self.trace, "--program", "work")[2])

    def test_a_name_or_a_number_that_restricts_nothing(self) -> None:
        for words in (["--program", "boxes"], ["--process", "7"]):
            status, _, errors = self.imported(self.trace, *words)
            self.assertEqual(status, USAGE)
            self.assertIn("nothing of this name or number restricts itself: give one of /bin/box", errors)

    def test_equal_policies_of_one_program_are_one(self) -> None:
        twice = [*by(1, run("/p"), create(["execute"]), RESTRICT), *by(2, run("/p"), create(["execute"]), RESTRICT)]
        status, out, _ = self.imported(twice)
        self.assertEqual(status, 0)
        self.assertIn("# 2 times, by processes 1, 2\n", out)

    def test_of_many_the_first_are_named_and_the_others_counted(self) -> None:
        calls = create(["execute"]), RESTRICT
        of_each = [by(pid, run("/p"), *calls, run(f"/under/{pid}")) for pid in range(1, 13)]
        status, out, _ = self.imported([line for lines in of_each for line in lines])
        self.assertEqual(status, 0)
        self.assertIn("# 12 times, by processes 1, 2, 3, 4, 5, 6, 7, 8 and 4 more\n", out)
        self.assertIn(", /under/8 (1) and 4 more\n", out)


def by(pid: int, *calls: Record) -> list[Record]:
    """The calls of a process that begins."""
    return [{"op": "start", "pid": pid}, *({"pid": pid, **call} for call in calls)]


def create(fs: Sequence[str]) -> Record:
    """The making of ruleset 3."""
    return {"op": "create", "rs": 3, "fs": list(fs)}


def rule(path: str, *rights: str, kernel: str = "ok") -> Record:
    """A rule in ruleset 3."""
    return {"op": "add_path", "rs": 3, "path": path, "fs": list(rights), "kernel": kernel}


def run(program: str) -> Record:
    """The run of a program."""
    return {"op": "exec", "path": program, **KERNEL_OK}


RESTRICT = {"op": "restrict", "rs": 3}
