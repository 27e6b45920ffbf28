"""Groups of rules: how a policy includes them, what is taken of them, and which of them are suggested."""

from __future__ import annotations

import tempfile
import unittest
from collections import Counter
from collections.abc import Sequence
from pathlib import Path
from unittest import mock

from landaudit_record.common.comments import Comments
from landaudit_record.common.problems import Problem
from landaudit_record.common.rights import FS
from landaudit_record.common.trees import ROOT, Tree
from landaudit_record.policy import applying, confining, fitting, policies, policy_text, sensitive
from landaudit_record.policy.policies import Access, Policy
from landaudit_record.suggest import styling, suggestion_text
from landaudit_record.suggest.missing_rights import CallId, CallsByRight, SuggestedRule, Wanted
from landaudit_record.suggest.placing import RulePlace
from landaudit_record.suggest.suggesting import RuleMaking, Suggestion, with_rules

from .test_confining import Kernel
from .test_policies import READING, RULE, read

ALL = '[[layer]]\nhandled_access_fs = ["all"]\n'
NAMES = ("base", "c", "go", "java", "nameservice", "node", "perl", "python", "ruby", "ssl", "tmp")


def included(text: str) -> list[tuple[str, ...]]:
    """The groups that the layers of a policy include, in their order."""
    return [tuple(dict.fromkeys(it.group for it in layer.path_beneath if it.group)) for layer in read(text).layers]


class Reading(unittest.TestCase):
    def test_in_a_layer_at_the_top_and_in_the_place_of_a_rule(self) -> None:
        ssl = 'include = ["ssl"]\n'
        for text in (ALL + ssl, ssl + ALL, ALL + RULE + ssl, ALL + RULE + 'include = "ssl"\n'):
            with self.subTest(text):
                self.assertEqual(included(text), [("ssl",)])

    def test_what_is_at_the_top_is_for_each_layer(self) -> None:
        text = 'include = ["ssl"]\n' + ALL + 'include = ["tmp", "ssl"]\n' + ALL
        self.assertEqual(included(text), [("ssl", "tmp"), ("ssl",)])

    def test_a_group_counts_once(self) -> None:
        once = read(ALL + 'include = ["tmp"]\n')
        twice = read(ALL + 'include = ["tmp", "tmp"]\n' + RULE + 'include = ["tmp"]\n')
        self.assertEqual(once.layers[0].path_beneath, twice.layers[0].path_beneath)

    def test_rules_of_its_own_keep_their_names(self) -> None:
        own = RULE + 'allowed_access = ["read_file"]\nparent = "/a"\n'
        (layer,) = read(ALL + RULE + 'include = ["tmp"]\n' + own).layers
        self.assertEqual([(str(rule.place), rule.group) for rule in layer.path_beneath],
                         [("path_beneath 2", None), ("tmp path_beneath 1", "tmp")])

    def test_rights_that_the_layer_does_not_handle_are_left_out(self) -> None:
        (layer,) = read(READING + 'include = ["base"]\n').layers
        self.assertEqual({right for rule in layer.path_beneath for right in rule.allowed_access.rights}, {"read_file"})
        (layer,) = read('[[layer]]\nhandled_access_fs = ["make_reg"]\ninclude = ["base"]\n').layers
        self.assertEqual(layer.path_beneath, ())

    def test_faults(self) -> None:
        for text, wanted in (
            (ALL + 'include = ["bass"]\n', "layer 1, include: unknown group of rules 'bass', did you mean 'base'?"),
            ('include = ["x"]\n' + ALL, f"include: unknown group of rules 'x': use {', '.join(NAMES)}"),
            (ALL + "include = 1\n", "layer 1, include: unknown group of rules '1'"),
            (ALL + "include = []\n", "layer 1, include: is empty: give one or several"),
            (ALL + 'include = ["base/x"]\n', "unknown group of rules 'base/x'"),
            (ALL + 'include = ["../base"]\n', "/../base: No such file or directory"),
            (ALL + RULE + 'include = ["base"]\nparent = "/a"\n', "layer 1, path_beneath 1: unknown key 'parent'"),
        ):
            with self.subTest(text), self.assertRaises(Problem) as caught:
                read(text)
            self.assertIn(wanted, str(caught.exception))
            self.assertNotIn("\n", str(caught.exception))


class Groups(unittest.TestCase):
    def test_which_there_are(self) -> None:
        self.assertEqual(policies.group_names(), list(NAMES))

    def test_each_reads_and_names_no_secret(self) -> None:
        for name in NAMES:
            with self.subTest(name):
                rules = list(policies.group_rules(name, frozenset(FS.since)))
                self.assertTrue(rules)
                parents = [parent for rule in rules for parent in rule.parents]
                self.assertTrue(all(parent.startswith("/") and parent != ROOT for parent in parents))
                told = [text for it in parents for text in sensitive.warnings(it, frozenset({"read_file"}))]
                self.assertEqual([text for text in told if "/proc" not in text and "/sys" not in text], [])

    def test_a_group_with_a_fault(self) -> None:
        with tempfile.TemporaryDirectory() as folder, mock.patch.object(policies, "GROUPS", Path(folder)):
            Path(folder, "mine.toml").write_text('[[path_beneath]]\nallowed_access = ["raed"]\nparent = "/a"\n')
            with self.assertRaises(Problem) as caught:
                read(ALL + 'include = ["mine"]\n')
        self.assertIn(f"{folder}/mine.toml: path_beneath 1, allowed_access: unknown right", str(caught.exception))

    def test_none_writes_but_tmp_and_devices(self) -> None:
        for name in NAMES:
            writing = {parent for rule in policies.group_rules(name, FS.groups["write"]) for parent in rule.parents}
            allowed = {"tmp": {"/tmp", "/var/tmp"}, "base": {"/dev/null", "/dev/zero", "/dev/full", "/dev/tty"}}
            self.assertEqual(writing, allowed.get(name, set()))


class Taken(unittest.TestCase):
    """What of a group's paths is not there is left out in silence."""

    def test_in_a_trace(self) -> None:
        kinds = {ROOT: "dir", "/usr": "dir", "/usr/lib": "dir", "/lib": "sym", "/etc": "dir", "/etc/localtime": "reg"}
        tree = Tree(kinds, {"/lib": "usr/lib"}, made={"/etc/localtime"})
        policy = read(READING + 'include = ["base"]\n')
        layers, notes = fitting.fit(policy, 5)
        on = [record["path"] for record in applying.records(policy, layers, tree, 1) if record["op"] == "add_path"]
        self.assertEqual((on, notes), (["/usr/lib", "/usr/lib"], []))

    def test_in_force(self) -> None:
        kernel = Kernel(5)
        with mock.patch.object(confining, "landlock", kernel):
            notes = confining.confine(read(READING + 'include = ["java", "base"]\n'), 5)
        self.assertEqual(notes, [])
        self.assertIn(("path", "/dev/null", ["read_file"]), kernel.calls)

    def test_on_a_file_that_gets_no_right_of_it(self) -> None:
        policy = read('[[layer]]\nhandled_access_fs = ["read_dir"]\ninclude = ["base"]\n')
        tree = Tree({ROOT: "dir", "/usr": "dir", "/usr/lib": "dir", "/etc": "dir", "/etc/ld.so.cache": "reg"})
        layers, _ = fitting.fit(policy, 5)
        on = [record["path"] for record in applying.records(policy, layers, tree, 1) if record["op"] == "add_path"]
        self.assertEqual(on, ["/usr/lib"])
        kernel = Kernel(5)
        with mock.patch.object(confining, "landlock", kernel):
            self.assertEqual(confining.confine(policy, 5), [])
        asked = {str(call[1]): call[2] for call in kernel.calls if call[0] == "path"}
        self.assertEqual({path for path in asked if not Path(path).is_dir()}, set())
        self.assertEqual(set(map(str, asked.values())), {"['read_dir']"})

    def test_an_abi_that_has_none_of_its_rights(self) -> None:
        policy = read('[[layer]]\nhandled_access_fs = ["ioctl_dev", "read_file"]\ninclude = ["base"]\n')
        _, notes = fitting.fit(policy, 4)
        self.assertEqual(notes, ["layer 1, handled_access_fs: ABI 4 does not know ioctl_dev: dropped"])

    def test_written_out_it_is_the_same(self) -> None:
        before = read(ALL + 'include = ["base", "python"]\n')
        text = "\n".join(policy_text.lines(before, Comments(), lambda layer, rule: ""))
        self.assertIn("# of the group python", text)
        self.assertEqual(self.granted(read(text)), self.granted(before))

    def granted(self, policy: Policy) -> set[tuple[str, str]]:
        return {(parent, right) for rule in policy.layers[0].path_beneath for parent in rule.parents
                for right in rule.allowed_access.rights}


def asked(*rights: str, call: int = 1) -> CallsByRight:
    return {right: {CallId(0, call)} for right in rights}


class Suggested(unittest.TestCase):
    TREE = Tree(
        {
            **dict.fromkeys((ROOT, "/usr", "/usr/lib", "/etc", "/dev", "/tmp", "/w"), "dir"),
            **dict.fromkeys(("/usr/lib/a.so", "/usr/lib/b.so", "/etc/passwd", "/etc/group", "/etc/hosts"), "reg"),
            "/lib": "sym",
            "/dev/null": "char",
        },
        {"/lib": "usr/lib"},
    )

    def styled(self, wanted: dict[str, CallsByRight], handled: Sequence[str] = tuple(FS.since)) -> styling.Styled:
        found = Wanted(wanted, [RulePlace(path, path) for path in wanted], {})
        return styling.with_groups(found, frozenset(handled), [self.TREE])

    def test_those_that_several_paths_are_in(self) -> None:
        paths = {"/usr/lib/a.so": asked("read_file"), "/usr/lib/b.so": asked("read_file", call=2),
                 "/etc/passwd": asked("read_file", call=3), "/w": asked("make_reg", call=4)}
        found = self.styled(paths)
        self.assertEqual(found.groups, {"base": 2})
        self.assertEqual(found.left.paths, {path: paths[path] for path in ("/etc/passwd", "/w")})
        found = self.styled({**paths, "/etc/group": asked("read_file", call=5)})
        self.assertEqual((found.groups, set(found.left.paths)), ({"base": 2, "nameservice": 2}, {"/w"}))

    def test_what_a_group_has_not_is_left(self) -> None:
        found = self.styled({"/usr/lib/a.so": asked("read_file", "execute"), "/dev/null": asked("write_file", call=2)})
        self.assertEqual(found.groups, {"base": 2})
        self.assertEqual(found.left.paths, {"/usr/lib/a.so": asked("execute")})

    def test_rights_that_the_layer_does_not_handle(self) -> None:
        found = self.styled({"/usr/lib/a.so": asked("read_file"), "/usr/lib/b.so": asked("read_file")}, ["write_file"])
        self.assertEqual(found.groups, {})

    def test_they_are_in_the_policy_that_is_audited_once(self) -> None:
        policy = read(ALL + 'include = ["ssl"]\n')
        (layer,) = with_rules(policy, {}, {1: ["ssl", "tmp"]}).layers
        self.assertEqual([rule.group for rule in layer.path_beneath].count("ssl"), 1)
        self.assertIn("tmp", [rule.group for rule in layer.path_beneath])

    def test_rules_beside_them(self) -> None:
        paths = {"/etc/passwd": asked("read_file"), "/etc/group": asked("read_file"), "/etc/hosts": asked("write_file")}
        wanted = Wanted(paths, [RulePlace(path, path) for path in paths], {})
        groups, rules = RuleMaking(in_groups=True).rules(read(ALL).layers[0], wanted, [self.TREE])
        self.assertEqual((groups, [rule.place for rule in rules]), ({"nameservice": 1}, ["/etc/hosts"]))
        self.assertEqual(RuleMaking().rules(read(ALL).layers[0], wanted, [self.TREE])[0], {})

    def test_what_is_printed_pastes_behind_any_rule(self) -> None:
        rule = SuggestedRule("/w", frozenset({"make_reg"}), 1)
        none = Counter[str]()
        found = Suggestion({1: [rule]}, none, none, 2, True, none, {1: {"base": 3, "tmp": 1}})
        before = ALL + RULE + 'allowed_access = ["read_file"]\nparent = "/a"\n'
        written = "\n".join(suggestion_text.lines(found, read(before)))
        self.assertIn("# 1 rule and 2 groups for layer 1\n\n# base: 3 calls\n# tmp: 1 call\n[[layer.path_beneath]]\n"
                      'include = ["base", "tmp"]\n', written)
        (layer,) = read(before + written).layers
        self.assertEqual([rule.parents for rule in layer.path_beneath if rule.group is None], [("/a",), ("/w",)])
        self.assertEqual({rule.group for rule in layer.path_beneath} - {None}, {"base", "tmp"})
        self.assertEqual(layer.path_beneath[0].allowed_access, Access(outright=frozenset({"read_file"})))
