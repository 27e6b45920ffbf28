"""Variables in policies, cases and accepted refusals, and groups of one's own."""

from __future__ import annotations

import os
import tempfile
from pathlib import Path
from unittest import mock

from landaudit_record import cli
from landaudit_record.audit import accepting
from landaudit_record.common import comments, variables
from landaudit_record.common.problems import UNREADABLE, USAGE, Problem
from landaudit_record.common.variables import Given
from landaudit_record.policy import cases, policies, policy_text
from landaudit_record.policy.policies import Policy

from .calling import InFolder, called
from .worded import subject

LAYER = '[[layer]]\nhandled_access_fs = ["all"]\nhandled_access_net = ["all"]\n'
RULE = '[[layer.path_beneath]]\nallowed_access = ["read"]\nparent = '
PORT = '[[layer.net_port]]\nallowed_access = ["connect_tcp"]\nport = '
APP = '[variables]\nAPP = "/srv/app"\n'


class InFolder(InFolder):
    """A folder for files."""

    def file(self, text: str, name: str = "P.toml") -> Path:
        path = self.folder / name
        path.parent.mkdir(exist_ok=True)
        path.write_text(text, encoding="utf-8")
        return path

    def read(self, text: str, given: Given = Given()) -> Policy:
        return policies.read(self.file(text), given)

    def parents(self, text: str, **by_option: str) -> list[str]:
        """The parents of a policy under some values."""
        (layer,) = self.read(text, Given(by_option)).layers
        return [parent for rule in layer.path_beneath for parent in rule.parents]

    def fault(self, text: str, given: Given = Given()) -> str:
        """What is wrong with a policy."""
        with self.assertRaises(Problem) as caught:
            self.read(text, given)
        self.assertEqual(caught.exception.status, UNREADABLE)
        return str(caught.exception)


class Values(InFolder):
    def test_the_option_goes_before_the_environment_and_that_before_the_file(self) -> None:
        text = APP + LAYER + RULE + '["${APP}/data", "/x${APP}"]\n'
        for given, value in (
            (Given(), "/srv/app"),
            (Given({}, {"LANDAUDIT_APP": "/env", "APP": "/no"}), "/env"),
            (Given({"APP": "/opt"}, {"LANDAUDIT_APP": "/env"}), "/opt"),
        ):
            (layer,) = self.read(text, given).layers
            self.assertEqual(layer.path_beneath[0].parents, (f"{value}/data", f"/x{value}"))

    def test_several_in_one_text_and_values_that_look_like_variables(self) -> None:
        self.assertEqual(self.parents(LAYER + RULE + '"${A}/${B_2}"\n', A="/a", B_2="${A}"), ["/a/${A}"])

    def test_a_dollar_that_begins_no_variable(self) -> None:
        text = LAYER + RULE + """["/$${A}", "/$A", "/$", "/a}", '/$$${x}']\n"""
        self.assertEqual(self.parents(text), ["/${A}", "/$A", "/$", "/a}", "/$${x}"])

    def test_a_port_is_a_number(self) -> None:
        text = "[variables]\nPORT = 443\n" + LAYER + PORT + '[80, "${PORT}", "${OTHER}"]\n'
        (layer,) = self.read(text, Given({"OTHER": "8080"})).layers
        self.assertEqual(layer.net_port[0].ports, (80, 443, 8080))
        self.assertIn("'web' is not a port", self.fault(LAYER + PORT + '"${P}"\n', Given({"P": "web"})))
        self.assertIn("'443' is not a port", self.fault(LAYER + PORT + '"443"\n'))

    def test_cases_and_accepted_refusals(self) -> None:
        there = str(self.folder)
        file = self.file(f'[variables]\nDIR = "{there}"\n[[refused]]\ncall = "open r"\npath = "${{DIR}}"\n'
                         '[[allowed]]\ncall = "connect"\nport = "${PORT}"\n')
        found = cases.read(file, Given({"PORT": "22"}))
        self.assertEqual([case.place for case in found.cases], [there, "port 22"])
        text = '[[accepted]]\ncall = "open r"\npath = "${DIR}/x"\nreason = "it is"\n'
        self.assertEqual(accepting.read(self.file(text), Given({"DIR": "/d"}))[0].subject, subject("/d/x"))


class Faults(InFolder):
    def test_each_names_its_place(self) -> None:
        for text, said in (
            (LAYER + RULE + '["/a", "${AP}"]\n',
             "layer 1, path_beneath 1, parent: unknown variable ${AP}: give it a value by --set AP=VALUE, by "
             "LANDAUDIT_AP in the environment, or under [variables] (at line 6, column 17)"),
            (APP + LAYER + RULE + '"${AP}"\n', "did you mean ${APP}? give it"),
            (LAYER + RULE + '"${A-B}"\n', "'${A-B}' is no variable: write ${NAME}, or $${ for the characters ${"),
            (LAYER + RULE + '"/a/${A"\n', "'${A' is no variable"),
            (LAYER + RULE + '"${}"\n', "'${}' is no variable"),
            ('[variables]\nA = ""\n' + LAYER,
             "variables: '' is not a value: write a text that is not empty, or a number (at line 2, column 1)"),
            ("[variables]\nA = [1]\n" + LAYER, "[1] is not a value"),
            ('[variables]\nA = "${B}"\n' + LAYER, "a value has no variables"),
            ('[variables]\n"a b" = "x"\n' + LAYER, "'a b' is not a name"),
            ("variables = 3\n" + LAYER, "must be a table"),
            (LAYER + '"x y" = "${B}"\n', "unknown key 'x y'"),
            (LAYER + RULE + '"a${A}"\n', "unknown variable ${A}"),
        ):
            with self.subTest(text):
                self.assertIn(said, self.fault(text))

    def test_an_empty_value_would_make_a_rule_on_all(self) -> None:
        given = Given({}, {"LANDAUDIT_APP": ""})
        self.assertIn("the value of ${APP} is empty", self.fault(LAYER + RULE + '"${APP}/"\n', given))

    def test_a_value_that_can_not_be_written(self) -> None:
        self.assertIn("the value of ${A} is not UTF-8", self.fault(LAYER + RULE + '"${A}"\n', Given({"A": "/\udcff"})))

    def test_a_value_that_makes_no_path(self) -> None:
        self.assertIn("'here/x' is not absolute", self.fault(LAYER + RULE + '"${A}/x"\n', Given({"A": "here"})))


class Commands(InFolder):
    def run_it(self, *words: str, **environment: str) -> tuple[int, str, str]:
        with mock.patch.dict(os.environ, environment):
            return called(words, cli.POLICY)

    def test_values_of_the_command_line_and_the_environment(self) -> None:
        policy = str(self.file(LAYER + RULE + '"${APP}"\n'))
        for words, environment in ((["--set", "APP=/opt"], {}), ([], {"LANDAUDIT_APP": "/opt"})):
            status, out, _ = self.run_it("export", policy, "--c", *words, **environment)
            self.assertEqual(status, 0)
            self.assertIn('"/opt"', out)
        self.assertEqual(self.run_it("export", policy, "--c")[0], UNREADABLE)

    def test_a_name_that_no_file_has(self) -> None:
        policy = str(self.file(APP + LAYER + RULE + '"${APP}"\n'))
        status, _, errors = self.run_it("export", policy, "--c", "--set", "AP=/opt")
        self.assertEqual(status, USAGE)
        self.assertIn("--set AP: no file has ${AP}, did you mean APP?", errors)

    def test_words_that_give_no_value(self) -> None:
        policy = str(self.file(LAYER))
        for word in ("APP", "APP=", "=x", "A-B=x"):
            self.assertIn("gives no value to a variable", self.run_it("export", policy, "--c", "--set", word)[2])
        status, _, errors = self.run_it("export", policy, "--c", "--set", "A=1", "--set", "A=2")
        self.assertEqual((status, "--set A is given twice" in errors), (USAGE, True))


class OwnGroups(InFolder):
    def setUp(self) -> None:
        super().setUp()
        self.file('[[path_beneath]]\nallowed_access = ["read"]\nparent = ["/site", "${APP}/x"]\n', "parts/site.toml")

    def test_beside_the_file_in_each_place_and_with_those_that_are_installed(self) -> None:
        for text in ('include = ["ssl", "./parts/site.toml"]\n' + APP + LAYER, APP + LAYER +
                     'include = ["ssl", "./parts/site.toml"]\n', APP + LAYER +
                     '[[layer.path_beneath]]\ninclude = ["ssl", "./parts/site.toml"]\n'):
            with self.subTest(text):
                (layer,) = self.read(text).layers
                groups = dict.fromkeys(rule.group for rule in layer.path_beneath)
                self.assertEqual(list(groups), ["ssl", "./parts/site.toml"])
                self.assertEqual(layer.path_beneath[-1].parents, ("/site", "/srv/app/x"))

    def test_by_its_whole_path_and_once(self) -> None:
        whole = f'"{self.folder}/parts/site.toml"'
        (layer,) = self.read(f"include = [{whole}, {whole}]\n" + APP + LAYER).layers
        self.assertEqual(len(layer.path_beneath), 1)

    def test_the_values_of_the_file_that_includes_it_go_before_its_own(self) -> None:
        site = self.folder / "parts/site.toml"
        site.write_text('[variables]\nAPP = "/own"\n' + site.read_text())
        include = 'include = "./parts/site.toml"\n'
        self.assertEqual(self.parents(include + LAYER), ["/site", "/own/x"])
        self.assertEqual(self.parents(include + APP + LAYER), ["/site", "/srv/app/x"])
        self.assertEqual(self.parents(include + APP + LAYER, APP="/opt"), ["/site", "/opt/x"])

    def test_its_rights_are_those_that_the_layer_handles(self) -> None:
        text = APP + '[[layer]]\nhandled_access_fs = ["read_file"]\ninclude = "./parts/site.toml"\n'
        self.assertEqual(self.read(text).layers[0].path_beneath[0].allowed_access.rights, {"read_file"})

    def test_faults_are_in_the_group_s_own_file(self) -> None:
        include = 'include = "./parts/site.toml"\n' + LAYER
        self.assertIn("parts/site.toml: path_beneath 1, parent: unknown variable ${APP}", self.fault(include))
        self.file('[[path_beneath]]\nallowed_access = ["reed"]\nparent = "/a"\n', "parts/site.toml")
        self.assertIn("unknown right for files 'reed', did you mean 'read'?", self.fault(include))
        self.file("include = 'base'\n", "parts/site.toml")
        self.assertIn("unknown key 'include'", self.fault(include))
        self.assertIn("cannot read", self.fault('include = "./nothing.toml"\n' + LAYER))
        self.assertIn("unknown group of rules 'site'", self.fault('include = "site"\n' + LAYER))


class Written(InFolder):
    """What is printed of a policy with variables."""

    def printed(self, text: str, given: Given = Given()) -> str:
        policy = self.read(text, given)
        return "\n".join(policy_text.lines(policy, comments.read(text)))

    def test_variables_stay(self) -> None:
        out = self.printed("# Where it is.\n" + APP + LAYER + RULE + '["${APP}/a", "/b$${"]\n' + PORT + '"${P}"\n',
                           Given({"P": "8", "APP": "/opt"}))
        for line in ("# Where it is.", "[variables]", 'APP = "/srv/app"', 'parent = ["${APP}/a", "/b$${"]',
                     'port = "${P}"'):
            self.assertIn(line, out.splitlines())

    def test_a_value_that_the_file_also_writes_itself_is_written_as_it_is(self) -> None:
        out = self.printed(APP + LAYER + RULE + '["${APP}", "/srv/app"]\n')
        self.assertNotIn("${", out)

    def test_what_no_rule_has_is_left_out(self) -> None:
        self.assertNotIn("variables", self.printed(APP + LAYER + RULE + '"/a"\n'))

    def test_the_text_that_is_kept_with_a_recording_stands_alone(self) -> None:
        self.file('[[path_beneath]]\nallowed_access = ["read"]\nparent = "/site/${APP}/${PORT}"\n', "site.toml")
        parents = """['${APP}/"x', "/$${", "/é"]\n"""
        text = ('include = ["tmp", "./site.toml"] # "${NOT}"\n' + APP + LAYER + RULE + parents
                + PORT + '["${PORT}", 80]\n')
        given = Given({"PORT": "443"})
        policy = self.read(text, given)
        with tempfile.TemporaryDirectory() as elsewhere:
            kept = Path(elsewhere, "policy.toml")
            variables.keep(policy.path, given, kept)
            again = policies.read(kept)
        self.assertEqual(meaning(again), meaning(policy))


def meaning(policy: Policy) -> list[object]:
    """What a policy says, whatever its groups are called."""
    return [[(rule.allowed_access, rule.parents) for rule in layer.path_beneath] + [*layer.net_port]
            for layer in policy.layers]
