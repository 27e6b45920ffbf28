"""landaudit-record tighten: what is left lets pass all that passed, and nothing can be taken from it."""

from __future__ import annotations

import random
import tempfile
import unittest
from pathlib import Path
from unittest import mock

from landaudit_record.common import comments
from landaudit_record.common.jsonl import Record
from landaudit_record.common.rights import FILE_RIGHTS, FS, NEWEST_ABI
from landaudit_record.common.trees import Tree
from landaudit_record.engine import landaudit_rules
from landaudit_record.engine.landaudit import BUILT
from landaudit_record.policy import applying, called, fitting, policies, policy_text
from landaudit_record.policy.policies import Policy
from landaudit_record.tighten.tightening import units, without

from . import brute, calling
from .drawn import by_chance
from .random_policies import Maker
from .recorded import write_lines

PROGRAM = "/program"
POLICY = """# Mine.

[[layer]]
handled_access_fs = ["all"]
handled_access_net = ["all"]
# Reading.
[[layer.path_beneath]]
allowed_access = ["read", "execute"]
parent = ["/program", "/a"]
[[layer.path_beneath]]
allowed_access = ["write"]
parent = ["/a/f", "/a"]
[[layer.path_beneath]]
allowed_access = ["read_file"]
parent = "/a/f"
[[layer.net_port]]
allowed_access = ["all"]
port = [80, 443]
"""
TREE = [{"path": PROGRAM, "kind": "reg"}, {"path": "/a", "kind": "dir"}, {"path": "/a/f", "kind": "reg"}]
CALLS: list[Record] = [
    {"op": "exec", "path": PROGRAM},
    {"op": "open", "path": "/a/f", "fd": 3, "mode": "rw"},
    {"op": "open", "path": "/a/f", "fd": 4, "mode": "r"},
    {"op": "mkdir", "path": "/a/new"},
    {"op": "connect", "port": 443},
    {"op": "bind", "port": 22},
]


def trace(calls: list[Record]) -> list[Record]:
    """A recording of one process, each of whose calls has a number."""
    return [{"op": "start", "pid": 10}, *({**call, "pid": 10, "call": n} for n, call in enumerate(calls, start=1))]


class Text(unittest.TestCase):
    """A policy divided, joined, written out and read again is the same policy."""

    def again(self, policy: Policy, tree: Tree) -> Policy:
        written = policy_text.joined(policy, [tree])
        return self.read("\n".join(policy_text.lines(written, comments.Comments(), lambda layer, rule: "")))

    @by_chance(examples=30)
    def test_what_is_granted_is_as_before(self, chance: random.Random) -> None:
        maker = Maker(chance)
        made = maker.policy(2, 8)
        tree = Tree(maker.tree(made.paths))
        whole = self.read(made.toml())
        before = policy_text.apart(whole, [tree])
        self.assertEqual(self.granted(before, tree), self.granted(whole, tree))
        before = without(before, [unit for unit in units(before, NEWEST_ABI) if chance.random() < 0.3])
        self.assertEqual(self.granted(self.again(before, tree), tree), self.granted(before, tree))

    def test_rules_from_which_nothing_is_taken_are_written_as_they_were(self) -> None:
        """Where a directory and a file have the same words, each group stands for what its object can have."""
        rules = ('[[layer.path_beneath]]\nallowed_access = ["read", "execute"]\nparent = ["/a/f", "/a", "/g"]\n',
                 '[[layer.net_port]]\nallowed_access = ["all"]\nport = [443, 80]\n')
        whole = self.read('[[layer]]\nhandled_access_fs = ["all"]\nhandled_access_net = ["all"]\n' + "".join(rules))
        tree = Tree({"/": "dir", "/a": "dir", "/a/f": "reg", "/g": "reg"})
        again = self.again(policy_text.apart(whole, [tree]), tree)
        self.assertEqual(again.layers, whole.layers)

    def read(self, text: str) -> Policy:
        with tempfile.TemporaryDirectory() as folder:
            file = Path(folder, "P.toml")
            file.write_text(text)
            return policies.read(file)

    def granted(self, policy: Policy, tree: Tree) -> list[tuple[object, ...]]:
        """What the records of a policy say, in one order: rules on files that the kernel refuses are none."""
        layers, _ = fitting.fit(policy, NEWEST_ABI)
        found: list[tuple[object, ...]] = []
        for record in applying.records(policy, layers, tree, 1):
            number = record["policy"].get("layer")
            is_file = tree.kind(record.get("path", "/")) not in ("dir", None)
            for right in (*record.get("fs", ()), *record.get("net", ())):
                refused = is_file and not set(record["fs"]) <= FILE_RIGHTS
                if not refused:
                    found.append((number, record["op"], record.get("path"), record.get("port"), right))
        return sorted(set(found), key=str)


@unittest.skipUnless(BUILT.exists(), f"{BUILT} is not built")
class Tightening(unittest.TestCase):
    def setUp(self) -> None:
        self.folder = Path(self.enterContext(tempfile.TemporaryDirectory()))
        self.policy = self.folder / "P.toml"

    def recording(self, name: str, tree: list[Record], calls: list[Record]) -> Path:
        folder = self.folder / name
        folder.mkdir()
        write_lines(folder / "tree.jsonl", tree)
        write_lines(folder / "trace.jsonl", trace(calls))
        return folder

    def said(self, *words: str | Path) -> tuple[int, str, str]:
        return calling.called(["tighten", "--policy", self.policy, *words])

    def test_what_is_printed(self) -> None:
        self.policy.write_text(POLICY)
        status, out, _ = self.said(self.recording("one", TREE, CALLS))
        self.assertEqual(status, 0)
        head, _, text = out.partition("\n")
        self.assertRegex(head, r"\A# 21 rights removed that these recordings don't need \(\d+ audits\)\Z")
        self.assertEqual(
            text,
            """# Mine.

[[layer]]
handled_access_fs = ["all"]
handled_access_net = ["all"]

# Reading.
# needed by 1 call
[[layer.path_beneath]]
allowed_access = ["execute"]
parent = "/program"

# needed by 1 call
[[layer.path_beneath]]
allowed_access = ["write_file"]
parent = "/a/f"

# needed by 1 call
[[layer.path_beneath]]
allowed_access = ["make_dir"]
parent = "/a"

# needed by 2 calls
[[layer.path_beneath]]
allowed_access = ["read_file"]
parent = "/a/f"

# needed by 1 call
[[layer.net_port]]
allowed_access = ["connect_tcp"]
port = 443
""",
        )

    def test_the_table(self) -> None:
        self.policy.write_text(POLICY)
        _, out, _ = self.said("--list", self.recording("one", TREE, CALLS))
        rows = [line.split(maxsplit=2) for line in out.splitlines()[1:]]
        self.assertEqual([int(row[0]) for row in rows], sorted(int(row[0]) for row in rows))
        needed = [row for row in rows if row[0] != "0"]
        self.assertEqual((len(rows), len(needed)), (26, 5))
        self.assertIn(["1", "connect_tcp", "layer 1, net_port 1 (port 443)"], needed)
        for right, on in (("connect_tcp", "net_port 1 (port 80)"), ("execute", "path_beneath 1 (/a)")):
            self.assertIn(["0", right, f"layer 1, {on}"], rows)
        self.assertNotIn(["0", "read_dir", "layer 1, path_beneath 1 (/program)"], rows, "a file can't have it")

    def test_what_one_of_several_recordings_needs_is_left(self) -> None:
        self.policy.write_text(POLICY)
        one = self.recording("one", TREE, CALLS)
        other = self.recording("other", TREE, [CALLS[0], {"op": "truncate", "path": "/a/f"}])
        self.assertIn("truncate", self.said(one, other)[1])

    def rules(self, *rules: tuple[str, str]) -> str:
        """A policy that handles all, with rules that have rights and parents, each as TOML has it."""
        texts = (f"[[layer.path_beneath]]\nallowed_access = {rights}\nparent = {parent}\n" for rights, parent in rules)
        return '[[layer]]\nhandled_access_fs = ["all"]\n' + "".join(texts)

    def left(self, text: str, *folders: Path) -> list[tuple[str, ...]]:
        """The rules on paths that are left of a policy: the rights of each, and then its parents."""
        self.policy.write_text(text)
        status, out, errors = self.said(*folders)
        self.assertEqual(status, 0, errors)
        self.policy.write_text(out)
        (layer,) = policies.read(self.policy).layers
        return [(*FS.ordered(rule.allowed_access.rights), *rule.parents) for rule in layer.path_beneath]

    def test_a_file_that_the_run_may_have_used_by_another_name(self) -> None:
        """The rule is on the file, of which the recording has the other hard link alone."""
        used, named = (self.folder.resolve() / name for name in ("used", "named"))
        used.touch()
        named.hardlink_to(used)
        folders = [{"path": str(path), "kind": "dir"} for path in [*reversed(used.parents)][1:]]
        tree = [TREE[0], *folders, {"path": str(used), "kind": "reg"}]
        one = self.recording("one", tree, [CALLS[0], {"op": "open", "path": str(used), "fd": 3, "mode": "r"}])
        both = self.recording("both", [*tree, {"path": str(named), "kind": "reg", "same": str(used)}], CALLS[:1])
        self.policy.write_text(self.rules(('["read_file"]', f'"{named}"')))
        status, out, errors = self.said(one)
        self.assertEqual(status, 0, errors)
        self.assertIn(f'# kept: it is not known whether it is needed\n[[layer.path_beneath]]\nallowed_access = '
                      f'["read_file"]\nparent = "{named}"', out)
        self.assertIn(f"{named} has other names (hard links)", errors)
        self.assertNotIn(str(named), self.said(both)[1])
        named.unlink()
        named.touch()
        self.assertNotIn(str(named), self.said(one)[1])

    def test_what_is_at_a_parent_when_a_named_program_begins(self) -> None:
        """A sandboxer would put the rule on the object that the run has made there by then (docs/POLICIES.md)."""
        self.policy.write_text('[[layer]]\nhandled_access_fs = ["read_file"]\n[[layer.path_beneath]]\n'
                               'allowed_access = ["read_file"]\nparent = "/a/f"\n')
        made = {"path": "/a/f~2~", "kind": "reg", "made": True, "shown": "/a/f"}
        took: Record = {"op": "unlink", "path": "/a/f", "kernel": "ok"}
        makes, reads = ({"op": "open", "path": "/a/f~2~", "fd": 3, "kernel": "ok", **how}
                        for how in ({"mode": "w", "create": True}, {"mode": "r"}))
        run = {"op": "exec", "path": PROGRAM, "kernel": "ok"}
        for name, calls, status in (("before", [took, makes, run, reads], 5), ("after", [run, took, makes, reads], 0)):
            rec = self.recording(name, [*TREE, made], calls)
            found, out, errors = self.said("--program", PROGRAM, rec)
            self.assertEqual((found, "/a/f" in out), (status, status == 5), errors)

    def test_each_right_on_each_path_is_tried_by_itself(self) -> None:
        """`sort` uses the rights on the first of three directories, fewer on the second, and none on the third."""
        tree = [{"path": path, "kind": "dir"} for path in ("/usr", "/etc", "/home")]
        tree += [{"path": path, "kind": "reg"} for path in ("/usr/sort", "/usr/libc", "/etc/passwd", "/etc/cache")]
        calls: list[Record] = [{"op": "exec", "path": "/usr/sort"}]
        calls += [{"op": "open", "path": path, "fd": fd, "mode": "r"}
                  for fd, path in enumerate(("/etc/cache", "/usr/libc", "/etc/passwd"), start=3)]
        one = self.recording("one", tree, calls)
        text = self.rules(('["read", "execute"]', '["/etc", "/usr", "/home", "/usr"]'))
        self.assertEqual(self.left(text, one), [("read_file", "/etc"), ("execute", "read_file", "/usr")])

    def test_landaudit_rules_runs_once_for_all_rights_that_are_tried_together(self) -> None:
        self.policy.write_text(POLICY)
        one = self.recording("one", TREE, CALLS)
        with (mock.patch.object(called, "_said", {}),
              mock.patch.object(landaudit_rules, "ask", wraps=landaudit_rules.ask) as asked):
            head, _, _ = self.said(one)[1].partition("\n")
        audits = int(head.rpartition("(")[2].split()[0])
        self.assertLessEqual(asked.call_count, 1 + audits)

    def test_paths_with_the_same_rights_are_on_one_rule_in_their_order(self) -> None:
        tree = [{"path": path, "kind": "dir"} for path in ("/c", "/a", "/b", "/d")]
        tree += [{"path": f"{path}/f", "kind": "reg"} for path in ("/c", "/a", "/b")]
        calls: list[Record] = [{"op": "exec", "path": PROGRAM}]
        calls += [{"op": "open", "path": f"{path}/f", "fd": fd, "mode": "r"}
                  for fd, path in enumerate(("/a", "/b", "/c"), start=3)]
        calls += [{"op": "bind", "port": port} for port in (443, 22)]
        objects = [*tree, {"path": PROGRAM, "kind": "reg"}]
        one = self.recording("one", objects, [*calls, {"op": "truncate", "path": "/a/f"}])
        ports = "[[layer.net_port]]\nallowed_access = [\"all\"]\nport = [443, 80, 22]\n"
        rules = (('["read", "truncate"]', '["/d", "/c", "/a", "/b"]'), ('["execute"]', f'"{PROGRAM}"'))
        text = self.rules(*rules) + ports
        text = text.replace("\n", '\nhandled_access_net = ["all"]\n', 1)
        self.assertEqual(self.left(text, one), [("read_file", "/c", "/b"), ("read_file", "truncate", "/a"),
                                                ("execute", PROGRAM)])
        self.assertIn('allowed_access = ["bind_tcp"]\nport = [443, 22]\n', self.policy.read_text())

    def test_of_two_rules_that_grant_what_is_needed_the_wider_goes(self) -> None:
        one = self.recording("one", TREE, [{"op": "exec", "path": PROGRAM}, CALLS[2]])
        program = ('["execute"]', f'"{PROGRAM}"')
        rules = [('["read_file"]', '"/a/f"'), ('["read_file"]', '"/a"')]
        for some in (rules, rules[::-1]):
            self.assertEqual(self.left(self.rules(program, *some), one), [("execute", PROGRAM), ("read_file", "/a/f")])

    def test_a_rule_on_a_file_and_a_directory_keeps_on_each_what_is_needed(self) -> None:
        """The rule on the directory lets the file be read too, but the one on the file is nearer."""
        one = self.recording("one", TREE, [{"op": "exec", "path": PROGRAM}, CALLS[2], CALLS[3]])
        rules = self.rules(('["execute"]', f'"{PROGRAM}"'), ('["all"]', '["/a", "/a/f"]'))
        wanted = [("execute", PROGRAM), ("make_dir", "/a"), ("read_file", "/a/f")]
        self.assertEqual(self.left(rules, one), wanted)

    def test_a_rule_of_which_nothing_is_left_for_a_file_is_not_written_for_it(self) -> None:
        """Of the group `write` the layer handles nothing that a file can have once `truncate` is gone."""
        one = self.recording("one", TREE, [{"op": "exec", "path": PROGRAM}, CALLS[3]])
        handled = '[[layer]]\nhandled_access_fs = ["make_dir", "make_sym", "truncate"]\n'
        rule = '[[layer.path_beneath]]\nallowed_access = ["write"]\nparent = ["/a/f", "/a"]\n'
        self.assertEqual(self.left(handled + rule, one), [("make_dir", "/a")])

    def test_calls_on_a_number_that_another_refusal_would_leave_open_on_something_else(self) -> None:
        """Were /a/f refused, the number 6 would stay open on /a/g, and the call on it would need a right there.

        Nothing refuses /a/g while it has two rules.
        """
        tree = [*TREE, {"path": "/a/g", "kind": "reg"}]
        calls: list[Record] = [
            {"op": "exec", "path": PROGRAM},
            {"op": "open", "path": "/a/g", "fd": 6, "mode": "w"},
            {"op": "open", "path": "/a/f", "fd": 5, "mode": "w"},
            {"op": "dup", "fd": 5, "to": 6},
            {"op": "ftruncate", "fd": 6},
        ]
        rules = self.rules(('["execute"]', f'"{PROGRAM}"'), ('["write_file"]', '"/a/f"'), ('["write_file"]', '"/a/g"'),
                           ('["write_file"]', '"/a/g"'), ('["truncate"]', '"/a/f"'), ('["truncate"]', '"/a/g"'))
        wanted = [("execute", PROGRAM), ("write_file", "/a/f"), ("write_file", "/a/g"), ("truncate", "/a/f")]
        one = self.recording("one", tree, calls)
        self.assertEqual(self.left(rules, one), wanted)
        rows = [line.split(maxsplit=2) for line in self.said("--list", one)[1].splitlines()]
        self.assertIn(["1", "write_file", "layer 1, path_beneath 2 (/a/f)"], rows)

    def test_a_move_that_was_refused_may_pass(self) -> None:
        """A link to /b is refused while /a/f could be read by it, and nothing of the recording reads there.

        The kernel's document on `refer`: the object must not gain rights by the move.
        """
        tree = [*TREE, {"path": "/b", "kind": "dir"}, {"path": "/b/g", "kind": "reg"}]
        calls: list[Record] = [
            {"op": "exec", "path": PROGRAM},
            {"op": "link", "from": "/b/g", "to": "/a/new"},
            {"op": "link", "from": "/a/f", "to": "/b/new"},
        ]
        one = self.recording("one", tree, calls)
        text = self.rules(('["execute"]', f'"{PROGRAM}"'), ('["make_reg", "refer"]', '"/"'), ('["read_file"]', '"/b"'))
        self.assertEqual(self.left(text, one), [("execute", PROGRAM), ("make_reg", "refer", "/")])
        self.policy.write_text(text)
        self.assertIn("the printed policy allows 1 call of these recordings that the policy refuses", self.said(one)[2])
        self.policy.write_text(text.replace('"/b"', '"/"'))
        self.assertEqual(self.said(one)[2], "")

    def test_a_call_that_needs_rights_of_two_kinds_is_counted_for_each(self) -> None:
        """A move that is refused with EACCES for want of `make_reg` is refused with EXDEV for want of `refer`."""
        tree = [*TREE, {"path": "/b", "kind": "dir"}]
        calls: list[Record] = [{"op": "exec", "path": PROGRAM}, {"op": "link", "from": "/a/f", "to": "/b/new"}]
        self.policy.write_text(self.rules(('["execute"]', f'"{PROGRAM}"'), ('["make_reg", "refer"]', '["/a", "/b"]')))
        _, out, _ = self.said("--list", self.recording("one", tree, calls))
        rows = [line.split()[:2] for line in out.splitlines()[1:]]
        needed = [row for row in rows if row[0] != "0"]
        self.assertEqual(needed, [["1", right] for right in ("execute", "refer", "make_reg", "refer")])

    def test_a_layer_of_the_programs_own_is_there_for_what_comes_behind_it(self) -> None:
        """What the program's own layer refuses needs no right of the policy."""
        own: list[Record] = [
            {"op": "create", "rs": 1, "fs": ["read_file"]},
            {"op": "restrict", "rs": 1},
            {"op": "close_rs", "rs": 1},
        ]
        calls = [{"op": "exec", "path": PROGRAM}, *own, CALLS[2], CALLS[3]]
        rules = self.rules(('["execute"]', f'"{PROGRAM}"'), ('["read_file", "make_dir"]', '"/a"'))
        wanted = [("execute", PROGRAM), ("make_dir", "/a")]
        self.assertEqual(self.left(rules, self.recording("one", TREE, calls)), wanted)

    def test_a_policy_of_sixteen_layers(self) -> None:
        self.policy.write_text(self.rules(('["read_file", "execute"]', '"/"')) * 16)
        status, out, errors = self.said("--list", self.recording("one", TREE, [CALLS[0], CALLS[2]]))
        self.assertEqual((status, errors), (0, ""))
        self.assertEqual(len([row for row in out.splitlines() if row.split()[0] == "1"]), 32)

    def test_a_rule_that_the_kernel_refuses(self) -> None:
        self.policy.write_text(self.rules(('["read_file", "read_dir"]', '["/a", "/a/f"]')))
        status, _, errors = self.said(self.recording("one", TREE, CALLS))
        self.assertEqual(status, 3)
        self.assertIn("layer 1, path_beneath 1, parent /a/f: the kernel refuses this rule", errors)

    def test_nothing_can_be_taken_away_of_what_is_left(self) -> None:
        left = 0
        for seed in range(4):
            with self.subTest(seed):
                tried = brute.tightened(BUILT, seed, 60)
                self.assertEqual(tried.faults, [])
                left += tried.differ
        self.assertGreater(left, 10)
