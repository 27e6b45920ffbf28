"""A policy in other forms: what compilers say of code, what each form holds and loses, and the comments of a policy."""

from __future__ import annotations

import contextlib
import json
import os
import random
import re
import shutil
import subprocess
import tempfile
import unittest
from collections import Counter
from collections.abc import Iterator, Sequence
from pathlib import Path
from typing import Any

from landaudit_record import cli
from landaudit_record.common import comments
from landaudit_record.common.numbered import Numbered
from landaudit_record.common.rights import FILE_RIGHTS, FS, NET, NEWEST_ABI, OLDEST_ABI
from landaudit_record.engine.landaudit import BUILT
from landaudit_record.policy import fitting, policies
from landaudit_record.policy.policies import Layer, PathRule, Policy

from . import calling, libraries
from .drawn import by_chance
from .json_schema import Validator
from .test_forms import random_policy
from .test_importing import read

POLICIES = Path(__file__).resolve().parent / "policies"
COMPILERS = [name for name in ("gcc", "clang", "cc") if shutil.which(name)]
STRICT = ("-std=c99", "-Wall", "-Wextra", "-Werror", "-Wpedantic", "-Wshadow", "-Wconversion", "-Wmissing-prototypes")

COMMENTED = """# What the server may do.
# Ask ops before you change it.

# One layer is enough.
[[layer]]
handled_access_fs = ["all"]  # all of files
handled_access_net = ["bind_tcp"]
# The system's own files */ /* and a trick \\
[[layer.path_beneath]]
allowed_access = ["read", "execute"]
parent = ["/usr", "/a#b", '/c#"d', "/\\"e??/\\n\\u00e9"] # "all" of them
# Its port.
[[layer.net_port]]
allowed_access = ["bind_tcp"]
port = 443
[[layer]]
handled_access_fs = ["refer"]
scoped = ["signal", "abstract_unix_socket"]
# The end.
"""


LAYER = '[[layer]]\nhandled_access_fs = ["all"]\n'


def called(command: str, *words: object) -> tuple[int, str, str]:
    """The status of a command, and what it prints."""
    return calling.called([command, *words], cli.POLICY)


def exported(text: str, *options: str, form: str = "c") -> str:
    """The form of a policy's text."""
    with tempfile.TemporaryDirectory() as folder:
        policy = Path(folder, "P.toml")
        policy.write_text(text, encoding="utf-8")
        status, out, errors = called("export", policy, f"--{form}", *options)
    assert status == 0, errors
    return out


class Comments(unittest.TestCase):
    def test_each_is_at_the_part_that_follows_it_or_that_it_stands_in(self) -> None:
        found = comments.read(COMMENTED)
        self.assertEqual(found.whole, ["What the server may do.", "Ask ops before you change it."])
        self.assertEqual(found.on_layer(1), ["One layer is enough.", "all of files"])
        system = ["The system's own files */ /* and a trick \\", '"all" of them']
        self.assertEqual(found.on_rule(1, Numbered("path_beneath", 1)), system)
        self.assertEqual(found.on_rule(1, Numbered("net_port", 1)), ["Its port."])
        self.assertEqual(found.on_layer(2), ["The end."])

    def test_a_policy_without_comments(self) -> None:
        found = comments.read('[[layer]]\nhandled_access_fs = ["all"]\n')
        self.assertEqual((found.whole, found.on_layer(1), found.on_rule(1, Numbered("path_beneath", 1))), ([], [], []))


class Code(unittest.TestCase):
    def test_comments_are_in_their_order_and_end_nothing(self) -> None:
        code = exported(COMMENTED)
        texts = ("What the server may do.", "a trick", "Its port.", "all of files", "The end")
        order = [code.index(text) for text in texts]
        self.assertEqual(order, sorted(order))
        self.assertIn("/* The system's own files * / / * and a trick \\ */", code)

    def test_paths_are_the_bytes_of_the_policy(self) -> None:
        texts = re.findall(r'^\t\{"(.*)",$', exported(COMMENTED), re.MULTILINE)
        plain = [re.sub(r"\\([0-7]{3})", lambda found: chr(int(found[1], 8)), text) for text in texts]
        self.assertEqual(plain, ["/usr", "/a#b", '/c#"d', '/"e??/\n\u00e9'.encode().decode("latin-1")])

    def test_the_kernel_logs_denials_of_executed_programs_if_that_is_asked_for(self) -> None:
        """The flag LANDLOCK_RESTRICT_SELF_LOG_NEW_EXEC_ON is 1 << 1 (linux/landlock.h of ABI 7)."""
        for options, flag in ((), 0), (("--log",), 2):
            code = exported(COMMENTED, *options)
            self.assertIn(f"POLICY_LOG = {flag}\n", code)
            self.assertIn("restrict_self, ruleset, abi < POLICY_LOG_ABI ? 0 : POLICY_LOG)", code)

    def test_what_the_kernel_refuses_is_not_hidden(self) -> None:
        """A group loses what a file can't have; a right that is named does not."""
        layer = '[[layer]]\nhandled_access_fs = ["all"]\n[[layer.path_beneath]]\nparent = "/x"\nallowed_access = '
        for allowed, on_file in (('["read"]', "POLICY_FS_READ_FILE"), ('["read_dir"]', "POLICY_FS_READ_DIR")):
            with self.subTest(allowed):
                row = exported(layer + allowed).partition('{"/x",')[2].splitlines()[2]
                self.assertEqual(row, f"\t {on_file}}},")

    def test_a_rule_without_a_right_for_files_asks_for_all_of_it(self) -> None:
        """The kernel refuses it then; what counts on a file is written without a look at the kernel's ABI."""
        rule = '[[layer.path_beneath]]\nparent = "/x"\nallowed_access = ["write"]\n'
        for handled, on_file in (('"make_reg"', "MAKE_REG"), ('"make_reg", "truncate"', "TRUNCATE")):
            with self.subTest(handled):
                code = exported(f"[[layer]]\nhandled_access_fs = [{handled}]\n{rule}")
                self.assertEqual(code.partition('{"/x",')[2].splitlines()[2], f"\t POLICY_FS_{on_file}}},")

    @unittest.skipUnless(COMPILERS, "no C compiler is installed")
    def test_compilers_warn_of_nothing(self) -> None:
        texts = {file.name: file.read_text() for file in sorted(POLICIES.rglob("*.toml"))} | {"commented": COMMENTED}
        folder = Path(self.enterContext(tempfile.TemporaryDirectory()))
        for name, text in texts.items():
            (folder / "code.c").write_text(exported(text), encoding="utf-8")
            for compiler in COMPILERS:
                with self.subTest(name, compiler=compiler):
                    words = [compiler, *STRICT, "-c", folder / "code.c", "-o", folder / "code.o"]
                    run = subprocess.run(words, capture_output=True, text=True, check=False)
                    self.assertEqual((run.returncode, run.stderr), (0, ""))

    def test_without_a_form(self) -> None:
        status, _, errors = called("export", "P.toml")
        self.assertEqual((status, "one of the arguments --c --rust" in errors), (2, True))


class Languages(unittest.TestCase):
    """Rust and Go, by types that stand in for their libraries; `live_exporting` takes the libraries themselves."""

    def setUp(self) -> None:
        self.folder = Path(self.enterContext(tempfile.TemporaryDirectory()))
        texts = [file.read_text() for file in sorted(POLICIES.rglob("*.toml"))]
        self.texts = [*texts, COMMENTED, LAYER.replace("all", "read_dir") + 'include = "base"\n',
                      '[[layer]]\nscoped = ["signal"]\n']

    def run_in(self, *words: str, **environment: str) -> str:
        """What a compiler says, without the flags of a `make` around it, whose job server rustc would look for."""
        bare = {name: value for name, value in os.environ.items() if name not in ("MAKEFLAGS", "MFLAGS")}
        run = subprocess.run(words, cwd=self.folder, env=environment or bare, text=True, stdout=subprocess.PIPE,
                             stderr=subprocess.STDOUT, check=False)
        return f"{run.stdout}(status {run.returncode})"

    @unittest.skipUnless(shutil.which("rustc"), "no compiler of Rust is installed")
    def test_rust(self) -> None:
        for number, text in enumerate(self.texts):
            (self.folder / f"policy_{number}.rs").write_text(exported(text, *["--log"] * (number % 2), form="rust"))
        (self.folder / "lib.rs").write_text("".join(f"pub mod policy_{number};\n" for number in range(len(self.texts))))
        words = ("rustc", "--edition", "2021", "--crate-type", "lib", "--emit", "metadata", "-D", "warnings")
        stub = str(libraries.STUBS / "landlock.rs")
        self.assertEqual(self.run_in(*words, "--crate-name", "landlock", "-o", "liblandlock.rmeta", stub), "(status 0)")
        self.assertEqual(self.run_in(*words, "--extern", "landlock=liblandlock.rmeta", "lib.rs"), "(status 0)")

    @unittest.skipUnless(libraries.go(), "no compiler of Go is installed")
    def test_go(self) -> None:
        for number, text in enumerate(self.texts):
            (self.folder / f"p{number}").mkdir()
            (self.folder / f"p{number}" / "policy.go").write_text(exported(text, *["--log"] * (number % 2), form="go"))
            main = "package main\n\nfunc main() { _ = ConfineByPolicy() }\n"
            (self.folder / f"p{number}" / "main.go").write_text(main)
        go, environment = str(libraries.go()), libraries.go_environment(libraries.STUBS / "go")
        self.assertEqual(self.run_in(go, "vet", "./...", **environment), "(status 0)")
        gofmt = Path(go).resolve().parent / "gofmt"
        self.assertEqual(self.run_in(str(gofmt), "-l", *[f"p{number}/policy.go" for number in range(len(self.texts))]),
                         "(status 0)")


class Folder(unittest.TestCase):
    """Policies about a folder with directories and files."""

    def setUp(self) -> None:
        self.folder = Path(self.enterContext(tempfile.TemporaryDirectory())).resolve()
        self.top = self.folder / "top"
        for name in ("a/b", "c d"):
            (self.top / name).mkdir(parents=True)
        for name in ("f", "a/g"):
            (self.top / name).write_text("")

    def file(self, text: str, name: str = "P.toml") -> Path:
        path = self.folder / name
        path.write_text(text.replace("TOP", str(self.top)), encoding="utf-8")
        return path

    def export(self, text: str, *options: str) -> tuple[int, str, str]:
        return called("export", self.file(text), *options)

    def said(self, text: str, *options: str) -> list[str]:
        """The lines of a form, without comments."""
        status, out, errors = self.export(text, *options)
        self.assertEqual((status, errors), (0, ""))
        return [line.strip() for line in out.replace(str(self.top), "TOP").splitlines() if not line.startswith("#")]

    def lost(self, text: str, form: str) -> str:
        """What a form can't say; with --widen, notes and comments say the same."""
        status, out, errors = self.export(text, f"--{form}")
        self.assertEqual((status, out), (3, ""))
        status, out, notes = self.export(text, f"--{form}", "--widen")
        self.assertEqual(status, 0)
        for note in notes.splitlines():
            self.assertIn(f"# {note.partition('note: ')[2]}", out)
        return errors + notes.replace(str(self.top), "TOP")


def rule(words: str, parents: str, kind: str = "path_beneath", on: str = "parent") -> str:
    """A rule in a policy's file."""
    return f"[[layer.{kind}]]\nallowed_access = {words}\n{on} = {parents}\n"


class OfPrograms(Folder):
    """Command lines and files of programs, written down from their documentation."""

    def test_setpriv(self) -> None:
        """By setpriv(1) of util-linux 2.41. A missing path would be an error of setpriv."""
        layer = '[[layer]]\nhandled_access_fs = ["execute", "read_file", "read_dir"]\n'
        rules = rule('["read"]', '["TOP/f", "TOP/c d"]') + rule('["execute"]', '"TOP/a"')
        words = self.said(layer + rules, "--setpriv")
        self.assertEqual(words, [
            "setpriv \\", "--no-new-privs \\", "--landlock-access fs:execute,read-file,read-dir \\",
            "--landlock-rule path-beneath:read-file:TOP/f \\",
            "--landlock-rule 'path-beneath:read-file,read-dir:TOP/c d' \\",
            "--landlock-rule path-beneath:execute:TOP/a \\", '-- "$@"'])
        self.file(rule('["read"]', '"TOP/other"').replace("layer.", ""), "own.toml")
        text = layer + 'include = "./own.toml"\n' + rule('["read"]', '"TOP/none"')
        status, out, notes = self.export(text, "--setpriv")
        note = f"layer 1, path_beneath 1: no rule on {self.top}/none: No such file or directory"
        self.assertEqual((status, notes), (0, f"landaudit-policy: note: {note}\n"))
        self.assertNotIn("landlock-rule", out)

    def test_what_setpriv_can_t_say(self) -> None:
        said = self.lost(LAYER + 'handled_access_net = ["bind_tcp"]\nscoped = ["signal"]\n' + rule('["read"]', '"TOP"')
                         + LAYER + rule('["read_file"]', '"TOP/a"'), "setpriv")
        self.assertIn("P.toml: layer 1: setpriv has one layer; layer 1: setpriv does not know ioctl_dev; layer 1: "
                      "setpriv has no ports; layer 1: setpriv has no scopes; layer 2: setpriv does not know ioctl_dev "
                      "(--widen prints a wider form)", said)
        self.assertIn("layer 1: setpriv has one layer: for read_file the rules of layer 2 count alone", said)
        self.assertIn("setpriv has no ports: bind_tcp allowed on every port", said)
        self.assertIn("setpriv has no scopes: signal without a scope", said)
        status, _, errors = self.export('[[layer]]\nhandled_access_net = ["all"]\n', "--setpriv", "--widen")
        self.assertEqual((status, "setpriv can't express any of it" in errors), (3, True))

    def test_landrun(self) -> None:
        """By the source of landrun 0.1.17."""
        layer = LAYER + 'handled_access_net = ["all"]\nscoped = ["signal", "abstract_unix_socket"]\n'
        rules = (rule('["read", "execute"]', '["TOP/a", "TOP/none"]') + rule('["read", "write"]', '"TOP/c d"')
                 + rule('["read_file"]', '"TOP/f"'))
        words = self.said(layer + rules + rule('["all"]', "[80, 443]", "net_port", "port"), "--landrun")
        self.assertEqual(words, [
            "landrun \\", "--best-effort \\", "--ignore-missing \\", "--rox TOP/a \\", "--rox TOP/none \\",
            "--rw 'TOP/c d' \\", "--ro TOP/f \\", "--bind-tcp 80 \\", "--bind-tcp 443 \\", "--connect-tcp 80 \\",
            "--connect-tcp 443 \\", '-- "$@"'])
        self.assertIn("--log-enable-subprocesses \\", self.said(layer, "--landrun", "--log"))

    def test_what_a_layer_does_not_handle_landrun_allows_from_the_root_on(self) -> None:
        words = self.said('[[layer]]\nhandled_access_fs = ["write"]\n' + rule('["write"]', '"TOP/a"'), "--landrun")
        self.assertEqual(words[3:], ["--rox / \\", "--rw TOP/a \\", "--unrestricted-network \\",
                                     "--unrestricted-scoped \\", '-- "$@"'])
        words = self.said('[[layer]]\nhandled_access_net = ["all"]\n', "--landrun")
        self.assertEqual(words[3:], ["--unrestricted-filesystem \\", "--unrestricted-scoped \\", '-- "$@"'])

    def test_what_landrun_can_t_say(self) -> None:
        said = self.lost(LAYER + 'handled_access_net = ["bind_tcp"]\nscoped = ["signal"]\n'
                         + rule('["read_file", "write_file"]', '"TOP/f"') + rule('["execute"]', '"TOP/a"')
                         + rule('["read", "execute"]', '"TOP/c d"') + rule('["execute"]', '"TOP/c d/e"'), "landrun")
        self.assertIn("layer 1, path_beneath 1, parent TOP/f: landrun has no option for write_file, read_file alone: "
                      "--rw also grants truncate, ioctl_dev", said)
        self.assertIn("layer 1, path_beneath 2, parent TOP/a: landrun has no option for execute alone: --rox also "
                      "grants read_file, read_dir\n", said)
        self.assertIn("parent TOP/c d/e: landrun has no option for execute alone: --rox also grants read_file, "
                      "read_dir once it is moved\n", said)
        self.assertIn("layer 1, handled_access_net: landrun restricts bind_tcp, connect_tcp together or not at all: "
                      "bind_tcp allowed on every port", said)
        self.assertIn("layer 1, scoped: landrun has both scopes or none: signal without a scope", said)
        status, _, errors = self.export('[[layer]]\nscoped = ["signal"]\n', "--landrun", "--widen")
        self.assertEqual((status, "landrun can't express any of it" in errors), (3, True))
        for name in ("x,y", "x "):
            status, _, errors = self.export(LAYER + rule('["read"]', f'"TOP/{name}"'), "--landrun", "--widen")
            self.assertEqual((status, f"landrun can't name '{self.top}/{name}'" in errors), (3, True))

    def test_landlockconfig(self) -> None:
        words = self.said("# Why.\n\n# A layer.\n" + LAYER + '# A rule.\n' + rule('["read"]', '["TOP/a", "TOP/f"]'),
                          "--landlockconfig")
        self.assertEqual(words[-8:], [
            "", "[[path_beneath]]", 'allowed_access = ["read_file", "read_dir"]', 'parent = ["TOP/a"]',
            "", "[[path_beneath]]", 'allowed_access = ["read_file"]', 'parent = ["TOP/f"]'])
        status, _, errors = self.export(LAYER + rule('["read"]', '"/$${x}"'), "--landlockconfig")
        self.assertEqual((status, "landlockconfig can't name '/${x}'" in errors), (3, True))

    def test_layers_that_are_joined_are_told(self) -> None:
        layers = "".join(f'[[layer]]\nhandled_access_fs = ["{right}"]\n' + rule(f'["{right}"]', '"TOP/a"')
                         for right in ("read_file", "write_file"))
        for form in ("setpriv", "landrun", "landlockconfig"):
            with self.subTest(form):
                status, _, notes = self.export(layers, f"--{form}", *(["--widen"] if form == "landrun" else []))
                said = f"note: {form} has one layer: the 2 layers of the policy are joined to it\n"
                self.assertEqual((status, said in notes), (0, True))
                self.assertNotIn("joined", self.export(layers.partition("[[layer]]\n")[0] + LAYER, f"--{form}")[2])

    def test_where_a_form_is_written_does_not_tell_where_a_link_of_a_process_leads(self) -> None:
        layers = "".join('[[layer]]\nhandled_access_fs = ["read_file"]\n' + rule('["read_file"]', f'"{parent}"')
                         for parent in ("/proc/self/cwd", "TOP"))
        for folder in (self.top, self.top / "a"):
            with contextlib.chdir(folder):
                self.assertIn("setpriv has one layer: for read_file the rules of layer 2 count alone",
                              self.lost(layers, "setpriv"))

    def test_a_right_of_directories_on_a_file(self) -> None:
        for form in ("setpriv", "landrun", "landlockconfig"):
            status, _, errors = self.export(LAYER + rule('["read_dir"]', '"TOP/f"'), f"--{form}", "--widen")
            told = "/top/f is not a directory, and only directories have read_dir" in errors
            self.assertEqual((status, told), (3, True))

    def test_comments_are_above(self) -> None:
        _, out, _ = self.export(COMMENTED, "--landrun", "--widen")
        for said in ("# What the server may do.", "# layer 1: One layer is enough.", "# port 443: Its port.",
                     "# layer 2: The end."):
            self.assertIn(f"{said}\n", out)

    def test_which_forms_have_the_kernel_log(self) -> None:
        for form, there in (("rust", ".log_new_exec(true)?"), ("go", ".EnableLoggingForSubprocesses()")):
            self.assertIn(there, exported(LAYER, "--log", form=form))
        for form in ("setpriv", "landlockconfig", "json"):
            status, _, errors = self.export(LAYER, f"--{form}", "--log")
            told = f"--{form} has no words for --log: it is for --c, --rust, --go, --landrun" in errors
            self.assertEqual((status, told), (2, True))


class AsJson(Folder):
    def test_a_policy_with_everything(self) -> None:
        """Written down from docs/policy.schema.json."""
        (line,) = self.said(COMMENTED.replace('["bind_tcp"]', '["all"]'), "--json")
        read_execute = {"allowed_access": ["read", "execute"]}
        self.assertEqual(json.loads(line), {
            "comments": ["What the server may do.", "Ask ops before you change it."],
            "layer": [
                {"handled_access_fs": ["all"], "handled_access_net": ["all"],
                 "comments": ["One layer is enough.", "all of files"],
                 "path_beneath": [
                     {**read_execute, "parent": "/usr",
                      "comments": ["The system's own files */ /* and a trick \\", '"all" of them']},
                     {**read_execute, "parent": "/a#b"}, {**read_execute, "parent": '/c#"d'},
                     {**read_execute, "parent": '/"e??/\n\u00e9'}],
                 "net_port": [{"allowed_access": ["all"], "port": 443, "comments": ["Its port."]}]},
                {"handled_access_fs": ["refer"], "scoped": ["signal", "abstract_unix_socket"],
                 "comments": ["The end."]},
            ],
        })

    def test_groups_of_rules_are_expanded(self) -> None:
        self.file("[[path_beneath]]\nallowed_access = ['read', 'write_file']\nparent = ['/x', '/y']\n", "own.toml")
        (line,) = self.said("[variables]\nA = '/v'\n[[layer]]\nhandled_access_fs = ['read', 'execute']\n"
                            "include = './own.toml'\n" + rule("['execute']", "'${A}'"), "--json")
        of_group = {"allowed_access": ["read_file", "read_dir"], "group": "./own.toml"}
        self.assertEqual(json.loads(line), {"layer": [{
            "handled_access_fs": ["read", "execute"],
            "path_beneath": [{"allowed_access": ["execute"], "parent": "/v"}, {**of_group, "parent": "/x"},
                             {**of_group, "parent": "/y"}]}]})

    @by_chance(examples=40)
    def test_random_policies_by_their_schema(self, chance: random.Random) -> None:
        schema = Validator.of("policy.schema.json")
        made = json.loads(exported("\n".join(random_policy(chance)), form="json"))
        self.assertEqual((schema.faults(made), schema.undescribed(made)), ([], []))

    def test_by_its_schema(self) -> None:
        schema = Validator.of("policy.schema.json")
        made = json.loads(exported(COMMENTED + 'include = "base"\n', form="json"))
        self.assertEqual((schema.faults(made), schema.undescribed(made)), ([], []))
        first = made["layer"][0]
        path, port = first["path_beneath"][0], first["net_port"][0]
        for inside, member, value in (
            (made, "layer", []), (made, "comments", []), (first, "handled_access_fs", ["resolve_unix"]),
            (first, "handled_access_net", []), (first, "scoped", ["ptrace"]), (path, "parent", "usr"),
            (path, "parent", ["/usr"]), (path, "group", ""), (port, "port", 65536), (port, "port", [443]),
            (port, "allowed_access", ["read"]),
        ):
            before = inside.get(member)
            inside[member] = value
            self.assertNotEqual(schema.faults(made), [], (member, value))
            inside[member] = before
            if before is None:
                del inside[member]
        self.assertEqual(schema.faults(made), [])

    @by_chance(examples=100)
    def test_it_reads_as_the_same_policy(self, chance: random.Random) -> None:
        """The members are those of the policy's file, so tables of TOML can be made of them."""
        text = "\n".join(random_policy(chance))
        policy, again = read(text), read("\n".join(tables(json.loads(exported(text, form="json")))))
        self.assertEqual([layer.scoped for layer in again.layers], [layer.scoped for layer in policy.layers], text)
        for abi in range(OLDEST_ABI, NEWEST_ABI + 1):
            self.assertEqual(one_by_one(again, abi), one_by_one(policy, abi), text)


def tables(document: dict[str, Any]) -> Iterator[str]:
    """The text of a policy from its JSON."""
    for layer in document["layer"]:
        yield "[[layer]]"
        lists = ("handled_access_fs", "handled_access_net", "scoped")
        yield from (f"{name} = {layer.get(name, [])!r}" for name in lists)
        for kind, on in (("path_beneath", "parent"), ("net_port", "port")):
            for one in layer.get(kind, []):
                value = json.dumps(one[on]).replace("${", "$${")
                yield f"[[layer.{kind}]]\nallowed_access = {one['allowed_access']!r}\n{on} = {value}"


def one_by_one(policy: Policy, abi: int) -> list[object]:
    """What a policy says at an ABI, a path and a port at a time."""
    layers, _ = fitting.fit(policy, abi)
    return [(it.number, it.handled_fs, it.handled_net,
             [(parent, rule.on_directory, rule.on_file) for rule in it.path_rules for parent in rule.parents],
             [(port, rule.on_port) for rule in it.port_rules for port in rule.ports]) for it in layers]


class Widened(Folder):
    """What is exported and imported again lets pass what the policy lets pass, and nothing else unless that is told."""

    PORTS = (80, 443, 1)
    FORMS = ("setpriv", "landrun", "landlockconfig")

    DIRECTORIES, FILES = ("", "/a", "/a/b", "/c d"), ("/f", "/a/g")

    def policy(self, chance: random.Random, paths: Sequence[str]) -> str:
        """A random policy about the folder."""
        text = ""
        for _ in range(chance.choice((1, 1, 1, 2, 3))):
            fs = chance.choice((["all"], FS.ordered(FS.known(3)), chance.sample(FS.words(), 4)))
            text += f"[[layer]]\nhandled_access_fs = {fs!r}\n"
            text += f"handled_access_net = {chance.choice(([], [], ['all'], ['bind_tcp']))!r}\n"
            text += f"scoped = {chance.choice(([], [], ['signal'], ['signal', 'abstract_unix_socket']))!r}\n"
            handled = frozenset[str]().union(*(FS.groups.get(word, {word}) for word in fs))
            for _ in range(chance.randint(0, 4)):
                on = chance.choice(paths)
                near = FILE_RIGHTS if on in self.FILES else FS.groups["all"]
                some = sorted(near & handled)
                words = chance.choice((["all"], ["read"], ["read", "execute"], ["read", "write"],
                                       chance.sample(some, 2) if len(some) > 2 else some))
                if any(FS.groups.get(word, {word}) & handled & near for word in words):
                    text += rule(repr(words), f'"TOP{on}"')
            if "net = []" not in text.rpartition("[[layer]]")[2] and chance.random() < 0.5:
                text += rule("['bind_tcp']", repr(chance.choice(self.PORTS)), "net_port", "port")
        return text

    def lets(self, path: Path) -> tuple[set[tuple[str, str]], set[str]]:
        """What the policy in a file lets pass on each object of the folder and on ports, and its scopes."""
        policy = policies.read(path)
        found = {(str(on), right) for on in (self.top, *self.top.rglob("*"))
                 for right in (FS.since if on.is_dir() else FILE_RIGHTS)
                 if all(self.grants(layer, on, right) for layer in policy.layers)}
        found |= {(str(port), right) for port in self.PORTS for right in NET.since
                  if all(right not in layer.handled_access_net.rights or
                         any(port in it.ports and right in it.allowed_access.rights for it in layer.net_port)
                         for layer in policy.layers)}
        return found, set(policy.scoped)

    def grants(self, layer: Layer, on: Path, right: str) -> bool:
        """Whether a layer grants a right on an object; each that handles rights for files restricts refer."""
        handled = layer.handled_access_fs.rights
        if right not in handled:
            return not (right == "refer" and handled)
        return any(self.given(it, Path(parent), right) for it in layer.path_beneath for parent in it.parents
                   if Path(parent) in (on, *on.parents))

    def given(self, it: PathRule, parent: Path, right: str) -> bool:
        """Whether a rule on an object has a right there: on a file, a group stands for what files have."""
        access = it.allowed_access
        return right in (access.rights if parent.is_dir() else access.outright | access.grouped & FILE_RIGHTS)

    def again(self, policy: Path, form: str) -> Path | None:
        """What is exported, imported again; None if the form can say nothing of the policy."""
        status, out, errors = called("export", policy, f"--{form}", "--widen")
        if status:
            self.assertIn("can't express any of it", errors)
            return None
        name = f"{form}.toml"
        words = self.file(out, name) if form == "landlockconfig" else out
        status, text, errors = called("import", f"--{form}", words)
        self.assertEqual((status, errors), (0, ""))
        return self.file(text, f"again-{name}")

    @unittest.skipUnless(BUILT.exists(), f"{BUILT} is not built")
    def test_by_random_policies(self) -> None:
        seen = Counter[str]()

        @by_chance(examples=80)
        def check(chance: random.Random) -> None:
            policy = self.file(self.policy(chance, (*self.DIRECTORIES, *self.FILES)))
            for form in self.FORMS:
                again = self.again(policy, form)
                if again is not None:
                    (passes, scoped), (wide, left) = self.lets(policy), self.lets(again)
                    self.assertEqual((passes - wide, left - scoped), (set(), set()), (form, policy.read_text()))
                    if called("export", policy, f"--{form}")[0] == 0:
                        self.assertEqual((wide, left), (passes, scoped), (form, policy.read_text()))
                        seen["exact"] += 1
                    seen["wider"] += (wide, left) != (passes, scoped)

        check()
        self.assertGreater(min(seen["exact"], seen["wider"]), 20)

    @unittest.skipUnless(BUILT.exists(), f"{BUILT} is not built")
    @by_chance(examples=12)
    def test_wherever_objects_are_moved_or_linked(self, chance: random.Random) -> None:
        """The wider form grants each right that the policy grants, as landaudit-rules decides. Where it grants more, it
        may refuse moves, since what is moved would gain rights there.

        The comparison is of all machines, and the forms are for this one, so no rule is on a file.
        """
        policy = self.file(self.policy(chance, self.DIRECTORIES))
        for form in self.FORMS:
            again = self.again(policy, form)
            if again is not None:
                _, out, _ = called("diff", again, policy)
                first, *lost = out.partition(f"{again} lets pass")[0].splitlines()
                self.assertTrue(first.startswith((f"{policy} lets ", "no call differs")), out)
                allowed = "  perhaps moves to under " if form == "landrun" else "-"
                self.assertEqual([line for line in lost if not line.startswith(allowed)], [], policy.read_text())
