"""Policies in the forms of other programs. What each means is written down here from its documentation, and for setpriv
and firejail from what they did on a kernel.
"""

from __future__ import annotations

import json
import os
import random
import unittest
from collections.abc import Iterator
from pathlib import Path
from typing import Any
from unittest import mock

from landaudit_record import cli
from landaudit_record.common.problems import UNREADABLE, USAGE
from landaudit_record.common.rights import FS, NET, NEWEST_ABI, OLDEST_ABI, SCOPES
from landaudit_record.policy import fitting, policy_text
from landaudit_record.policy.policies import HIGHEST_PORT, Layer, Policy
from landaudit_record.recorder import converting
from landaudit_record.recorder.ports import Ports

from .calling import InFolder, called
from .drawn import by_chance
from .kept_logs import KeptLogs
from .test_importing import read

READ, ALL = frozenset({"read_file", "read_dir"}), FS.groups["all"]
WRITE = ALL - READ - {"execute"}


def imported(*words: str, **environment: str) -> tuple[int, str, str]:
    """The status of an import, and what it prints."""
    with mock.patch.dict(os.environ, environment):
        return called(["import", *words], cli.POLICY)


def rights(layer: Layer) -> dict[str | int, frozenset[str]]:
    """What each path and port gets, from all rules on it."""
    found: dict[str | int, frozenset[str]] = {}
    on = [(parent, rule.allowed_access) for rule in layer.path_beneath for parent in rule.parents]
    for path, access in on:
        found[path] = found.get(path, frozenset()) | access.rights & layer.handled_access_fs.rights
    for rule in layer.net_port:
        for port in rule.ports:
            found[port] = found.get(port, frozenset()) | rule.allowed_access.rights
    return found


class Forms(InFolder):
    def layers(self, *words: str, **environment: str) -> tuple[Layer, ...]:
        """The layers that an import prints."""
        status, out, errors = imported(*words, **environment)
        self.assertEqual((status, errors), (0, ""))
        return read(out).layers

    def fault(self, *words: str) -> str:
        """What is wrong with a form."""
        status, out, errors = imported(*words)
        self.assertEqual((status, out), (UNREADABLE, ""))
        self.assertEqual(errors.count("\n"), 1)
        return errors

    def file(self, text: str, name: str) -> str:
        path = self.folder / name
        path.write_text(text, encoding="utf-8")
        return str(path)


class OfSetpriv(Forms):
    """By setpriv(1) and the help of util-linux 2.41."""

    def test_its_manual_s_examples(self) -> None:
        (layer,) = self.layers("--setpriv", "--landlock-access fs --landlock-rule path-beneath:read-file:/boot")
        self.assertEqual(layer.handled_access_fs.rights, FS.known(3))
        self.assertEqual(rights(layer), {"/boot": {"read_file"}})
        (layer,) = self.layers("--setpriv", "setpriv --landlock-access=fs:remove-file,make-dir ls")
        self.assertEqual((layer.handled_access_fs.rights, rights(layer)), ({"remove_file", "make_dir"}, {}))

    def test_accesses_add_up_and_no_names_are_all(self) -> None:
        words = ("setpriv --landlock-access fs:execute --landlock-access fs:refer "
                 "--landlock-rule path-beneath:execute:/a:b")
        (layer,) = self.layers("--setpriv", words)
        self.assertEqual((layer.handled_access_fs.rights, rights(layer)), ({"execute", "refer"}, {"/a:b": {"execute"}}))
        (layer,) = self.layers("--setpriv", "--landlock-access fs: --landlock-rule path-beneath::/a")
        self.assertEqual(rights(layer), {"/a": FS.known(3)})

    def test_what_else_it_has_is_told(self) -> None:
        _, out, _ = imported("--setpriv", "setpriv --nnp --reuid 7 --landlock-access fs -- ls -l 'a b'")
        self.assertIn("# options that are no part of the policy: --nnp, --reuid\n# the command: ls -l 'a b'\n", out)

    def test_faults_name_their_words(self) -> None:
        for words, said in (
            ("setpriv --landlock-access fs --landlock-rule path-beneath:reed:/a", "--setpriv: word 4, --landlock-rule: "
             "unknown right 'reed': use execute, write-file"),
            ("--landlock-access net", "word 1, --landlock-access: 'net' begins with no kind of access that is known"),
            ("--landlock-access fs --landlock-rule net-port:bind:80", "is not path-beneath:RIGHT,..:PATH"),
            ("--landlock-access fs --landlock-rule path-beneath:/boot", "is not path-beneath:RIGHT,..:PATH"),
            ("--landlock-access fs --landlock-rule path-beneath:execute:a", "'a' is not absolute"),
            ("--landlock-access fs:execute --landlock-rule path-beneath:read-dir:/a", "does not name read_dir"),
            ("--landlock-access fs --landlock-acces fs", "unknown option '--landlock-acces', did you mean "
             "'--landlock-access'"),
            ("--landlock-access fs --landlock-rule", "its value is missing"),
            ("--nnp=1 --landlock-access fs", "word 1, --nnp: has no value"),
            ("--nnp ls", "there is no --landlock-access, so setpriv puts no layer in force"),
            ("sudo setpriv --landlock-access fs", "there is no --landlock-access"),
            ("'", "--setpriv: not the words of a shell: No closing quotation"),
        ):
            with self.subTest(words):
                self.assertIn(said, self.fault("--setpriv", words))


class SetprivAsRecorded(KeptLogs):
    def test_its_words_and_its_calls_are_one_policy(self) -> None:
        """The words and the calls of setpriv 2.41 on Linux 6.18, which ran in another root."""
        folder = self.folder("setpriv")
        converting.convert(folder, Ports())
        _, out, _ = imported(str(folder))
        (recorded,) = read(out.replace('"/tmp/story/trixie/', '"/')).layers
        _, out, _ = imported("--setpriv", "setpriv --landlock-access fs --landlock-rule path-beneath:execute,read-file,"
                             "read-dir:/usr --landlock-rule path-beneath:read-file:/etc --landlock-rule "
                             "path-beneath:read-file:/usr/lib /usr/bin/true")
        (meant,) = read(out).layers
        self.assertEqual((recorded.handled_access_fs, rights(recorded)), (meant.handled_access_fs, rights(meant)))


class OfLandrun(Forms):
    """By the source of landrun 0.1.17 (cmd/landrun/main.go, internal/sandbox/sandbox.go)."""

    def test_one_layer_restricts_paths_ports_and_scopes(self) -> None:
        words = ("landrun --best-effort --ignore-missing --rox /usr --ro /etc,/opt --rw=/tmp --rwx /srv "
                 "--connect-tcp 443,80 --bind-tcp 80 --env PATH ./server --rw /no")
        (layer,) = self.layers("--landrun", words)
        self.assertEqual((layer.handled_access_fs.rights, layer.handled_access_net.rights), (ALL, NET.groups["all"]))
        self.assertEqual(layer.scoped, ("abstract_unix_socket", "signal"))
        self.assertEqual(rights(layer), {
            "/usr": READ | {"execute"}, "/etc": READ, "/opt": READ, "/tmp": READ | WRITE, "/srv": ALL,
            443: {"connect_tcp"}, 80: {"connect_tcp", "bind_tcp"}})

    def test_a_file_gets_the_rights_that_files_have(self) -> None:
        (layer,) = self.layers("--landrun", "--rw /etc/motd")
        fitted, _ = fitting.fit(Policy(Path("P"), (layer,)), NEWEST_ABI)
        self.assertEqual(set(fitted[0].path_rules[0].on_file), {"read_file", "write_file", "truncate", "ioctl_dev"})

    def test_what_is_not_restricted(self) -> None:
        (paths,) = self.layers("--landrun", "--unrestricted-network --unrestricted-scoped --ro /")
        self.assertEqual((paths.handled_access_net.rights, paths.scoped), (frozenset(), ()))
        (ports,) = self.layers("--landrun", "--unrestricted-filesystem --bind-tcp 80")
        self.assertEqual((ports.number, ports.handled_access_fs.rights), (1, frozenset()))

    def test_sockets_in_files_may_be_read(self) -> None:
        """--unix grants ReadFile, for a directory ReadDir, and ResolveUnix, which ABI 9 has."""
        status, out, _ = imported("--landrun", "--unix ' /run, /tmp'")
        (layer,) = read(out).layers
        self.assertEqual(rights(layer), {"/run": READ, "/tmp": READ})
        self.assertEqual((status, "# left out: resolve_unix of ABI 9" in out), (0, True))

    def test_on_which_kernels_it_runs_is_told(self) -> None:
        for words, said in (("--best-effort --ro /", "# on a kernel before ABI 9 it goes on with less\n"),
                            ("--ro /", "# it runs on ABI 9 and later only\n"),
                            ("--ro /", "# it ends with an error where a path is missing")):
            self.assertIn(said, imported("--landrun", words)[1])

    def test_a_script_with_comments_and_continued_lines(self) -> None:
        for script in ("#!/bin/sh\n# all\n\nlandrun \\\n  --ro /a \\\n  --ro '/b \\\n' \\\n --ro \"/c\\\\\" -- x\n",
                       "landrun --ro /a --ro '/b \\\n' --ro '/c\\'"):
            (layer,) = self.layers("--landrun", script)
            self.assertEqual(set(rights(layer)), {"/a", "/b \\", "/c\\"})

    def test_faults_name_their_words(self) -> None:
        for words, said in (
            ("landrun --rox /usr --ldd ls", "--landrun: word 4, --ldd: adds files that it finds on the machine"),
            ("--add-exec ls", "word 1, --add-exec: adds files"),
            ("--ro usr", "'usr' is not absolute"),
            ("--ro /\udcff", "is no path that a rule can be on"),
            ("--bind-tcp http", "'http' is not a port"),
            ("--bind-tcp 65536", "'65536' is not a port"),
            ("--rx /usr", "unknown option '--rx', did you mean"),
            ("--unrestricted-network --bind-tcp 80", "has no effect with --unrestricted-network"),
            ("--unrestricted-filesystem --unix /run", "has no effect with --unrestricted-filesystem"),
            ("--unrestricted-network --unrestricted-filesystem --unrestricted-scoped ls",
             "it restricts neither paths nor ports nor scopes"),
        ):
            with self.subTest(words):
                self.assertIn(said, self.fault("--landrun", words))


#: The rules that firejail 0.9.74 of Debian 13 printed (`--debug --noprofile`) for each command, by their bits.
SEEN = {"read": 0xC, "write": 0x11B2, "makeipc": 0x600, "makedev": 0x840, "execute": 0x1}
SEEN_HANDLED = 0x1FFF


def bits(number: int) -> frozenset[str]:
    """The rights of a set of bits (landlock_create_ruleset(2) numbers them in this order)."""
    return frozenset(right for bit, right in enumerate(FS.since) if number >> bit & 1)


class OfFirejail(Forms):
    """By firejail-profile(5) of 0.9.74, and by its debug output."""

    def profile(self, *lines: str, name: str = "p.profile") -> str:
        return self.file("".join(f"{line}\n" for line in lines), name)

    def test_what_each_command_grants(self) -> None:
        for command, seen in SEEN.items():
            profile = self.profile("landlock.enforce", f"landlock.fs.{command} /a b  # why", "caps.drop all", "#x", "")
            (layer,) = self.layers("--firejail", profile)
            self.assertEqual(layer.handled_access_fs.rights, bits(SEEN_HANDLED))
            self.assertEqual(rights(layer), {"/a b": bits(seen)})

    def test_rights_are_named_as_the_kernel_refuses_a_rule_on_a_file_there_too(self) -> None:
        (layer,) = self.layers("--firejail", self.profile("landlock.enforce", "landlock.fs.read /etc/passwd"))
        self.assertEqual(layer.path_beneath[0].allowed_access.grouped, frozenset())

    def test_macros_and_included_profiles(self) -> None:
        lines = ("include common.local", "landlock.fs.write ${HOME}/x", "landlock.fs.execute ${PATH}")
        self.profile(*lines, name="common.inc")
        granted = {"/home/me/x": bits(SEEN["write"]), "/bin": {"execute"}, "/usr/bin": {"execute"}}
        profile = self.profile("include common.inc", "landlock.enforce", "private-dev")
        for words, environment in ((("--set", "HOME=/home/me", "--set", "PATH=/bin:/usr/bin"), {}),
                                   ((), {"LANDAUDIT_HOME": "/home/me", "LANDAUDIT_PATH": "/bin:/usr/bin"})):
            (layer,) = self.layers("--firejail", profile, *words, **environment)
            self.assertEqual(rights(layer), granted)
        out = imported("--firejail", profile, "--set", "HOME=/home/me", "--set", "PATH=/bin")[1]
        self.assertIn('[variables]\nHOME = "/home/me"\n', out)
        self.assertIn('parent = "${HOME}/x"\n', out)
        self.assertIn("# included profiles that are not beside it: common.local\n", out)
        self.assertIn("# lines that say nothing about Landlock: 1 in 1 file\n", out)

    def test_faults_name_their_lines(self) -> None:
        for lines, said in (
            (["landlock.fs.read /a"], "there is no landlock.enforce, so firejail puts no layer in force"),
            (["landlock.enforce", "landlock.fs.read ${HOME}"],
             "line 2: what ${HOME} stands for depends on the user: give it by --set HOME=VALUE"),
            (["landlock.fs.exec /a"], "line 1: not known here: 'landlock.fs.exec /a'"),
            (["landlock /a"], "line 1: not known here"),
            (["?HAS_X11: landlock.fs.read /a"], "line 1: not known here"),
            (["ignore landlock.enforce"], "line 1: not known here"),
            (["landlock.fs.read a"], "line 1: 'a' is not absolute"),
            (["landlock.fs.read"], "line 1: '' is not absolute"),
            (["landlock.fs.read /a*"], "line 1: '/a*': Landlock has no patterns"),
            (["include nothing.inc"], "nothing.inc is not there: copy it beside the profile"),
            (["include ${CFG}/x.inc"], "which profile a macro names is not known"),
            (["include p.profile"], "profiles include one another"),
        ):
            with self.subTest(lines):
                self.assertIn(said, self.fault("--firejail", self.profile(*lines)))


CONFIG = """abi = 4
[[variable]]
name = "rw"
literal = ["/tmp", "/var/tmp"]
[[ruleset]]
handled_access_fs = ["abi.all"]
handled_access_net = ["bind_tcp"]
scoped = ["signal"]
[[path_beneath]]
allowed_access = ["abi.read_execute"]
parent = ["/usr", "/bin"]
[[path_beneath]]
allowed_access = ["abi.read_write"]
parent = ["${rw}/x"]
[[path_beneath]]
allowed_access = ["read_file"]
parent = ["/etc"]
[[net_port]]
allowed_access = ["bind_tcp"]
port = [80, 443]
"""
AS_JSON = """{
  "abi": 4,
  "variable": [{"name": "rw", "literal": ["/tmp", "/var/tmp"]}],
  "ruleset": [{"handledAccessFs": ["abi.all"], "handledAccessNet": ["bind_tcp"], "scoped": ["signal"]}],
  "pathBeneath": [
    {"allowedAccess": ["abi.read_execute"], "parent": ["/usr", "/bin"]},
    {"allowedAccess": ["abi.read_write"], "parent": ["${rw}/x"]},
    {"allowedAccess": ["read_file"], "parent": ["/etc"]}
  ],
  "netPort": [{"allowedAccess": ["bind_tcp"], "port": [80, 443]}]
}
"""
RULESET = "[[ruleset]]\nhandled_access_fs = ['read_file', 'execute']\n"


class OfLandlockconfig(Forms):
    """By its format as of 2025, from memory."""

    def config(self, text: str) -> str:
        return self.file(text, "c.json" if text.startswith("{") else "c.toml")

    def test_toml_and_json(self) -> None:
        for text in (CONFIG, AS_JSON):
            (layer,) = self.layers("--landlockconfig", self.config(text))
            self.assertEqual(layer.handled_access_fs.rights, FS.known(4))
            self.assertEqual((layer.handled_access_net.rights, layer.scoped), ({"bind_tcp"}, ("signal",)))
            write = FS.known(4) - {"execute"}
            self.assertEqual(rights(layer), {
                "/usr": READ | {"execute"}, "/bin": READ | {"execute"}, "/tmp/x": write, "/var/tmp/x": write,
                "/etc": {"read_file"}, 80: {"bind_tcp"}, 443: {"bind_tcp"},
            })

    def test_words_of_an_abi_stand_for_what_the_ruleset_handles(self) -> None:
        rule = "[[path_beneath]]\nallowed_access = ['abi.read_execute']\nparent = '/a'\n"
        (layer,) = self.layers("--landlockconfig", self.config("abi = 5\n" + RULESET + rule))
        self.assertEqual(rights(layer), {"/a": {"read_file", "execute"}})

    def test_words_stand_for_no_right_of_a_newer_abi_that_the_ruleset_handles(self) -> None:
        text = ("abi = 4\n[[ruleset]]\nhandled_access_fs = ['abi.all', 'ioctl_dev']\n[[path_beneath]]\n"
                "allowed_access = ['abi.read_write']\nparent = '/a'\n")
        (layer,) = self.layers("--landlockconfig", self.config(text))
        self.assertEqual(layer.handled_access_fs.rights, ALL)
        self.assertEqual(rights(layer), {"/a": FS.known(4) - {"execute"}})

    def test_scopes_of_an_abi(self) -> None:
        text = "[[ruleset]]\nhandled_access_fs = ['execute']\nscoped = ['abi.all']\n"
        self.assertEqual(self.layers("--landlockconfig", self.config("abi = 6\n" + text))[0].scoped, SCOPES)
        self.assertEqual(self.layers("--landlockconfig", self.config("abi = 5\n" + text))[0].scoped, ())

    def test_faults_name_their_places(self) -> None:
        rule = "[[path_beneath]]\nallowed_access = ['read_file']\nparent = ['/a', 'b']\n"
        for text, said in (
            (RULESET + rule, "path_beneath 1, parent: 'b' is not absolute: it depends on where the program is "
             "started, so write it from / (at line 5, column 17)"),
            (AS_JSON.replace('"/bin"', '"bin"'), "pathBeneath 1, parent: 'bin' is not absolute: it depends on where "
             "the program is started, so write it from / (at line 6, column 64)"),
            (AS_JSON.replace("netPort", "net_port"), "unknown key 'net_port', did you mean 'netPort'?"),
            (AS_JSON.replace('"abi": 4,', '"abi": 4, "abi": 5,'), "not JSON: the key 'abi' is there twice"),
            ("{", "not JSON"),
            (CONFIG.replace("abi = 4", "abi = 8"), "8 is not an ABI that is known here"),
            (CONFIG.replace("abi = 4\n", ""), "'abi.all' needs an ABI, which the file does not name"),
            (CONFIG.replace("${rw}", "${rx}"),
             "path_beneath 2, parent: unknown variable 'rx': use rw (at line 14, column 11)"),
            (CONFIG.replace("abi.read_write", "abi.write"), "unknown right for files 'abi.write'"),
            (CONFIG + RULESET, "2 rulesets: one is read"),
            (rule, "0 rulesets"),
            (RULESET + rule.replace("read_file", "read_dir"),
             "the ruleset does not handle read_dir, so the kernel refuses"),
            (RULESET + "[[net_port]]\nallowed_access = ['bind_tcp']\nport = 80\n", "does not handle bind_tcp"),
            (CONFIG.replace("443", "65536"), "net_port 1, port: 65536 is not a port"),
            (CONFIG.replace("'", '"').replace('"signal"', '"signals"'), "unknown scope 'signals'"),
            ("[[ruleset]]\n", "handles nothing"),
            (RULESET + "compatibility = 'hard'\n", "unknown key 'compatibility'"),
            (RULESET + "[[path_beneath]]\nallowed_access = []\nparent = '/a'\n", "must be a list that is not empty"),
            (RULESET + "[[path_beneath]]\nallowed_access = ['execute']\n", "parent is missing"),
        ):
            with self.subTest(text):
                self.assertIn(said, self.fault("--landlockconfig", self.config(text)))


    def test_each_value_may_be_of_any_kind(self) -> None:
        """What is not read is a Problem and nothing else; `imported` lets other exceptions pass."""
        others = (None, 1, -1, True, 1.5, 1e400, "", "x", [], {}, [1], [[]], "/\ud800", ["/\ud800"], "${", {"": 1})
        for where in _leaves(json.loads(AS_JSON)):
            for other in others:
                document = json.loads(AS_JSON)
                _put(document, where, other)
                status, _, errors = imported("--landlockconfig", self.config(json.dumps(document)))
                self.assertIn(status, (0, UNREADABLE), errors)


def _leaves(document: Any, where: tuple[Any, ...] = ()) -> Iterator[tuple[Any, ...]]:
    """The positions in a document, but for the whole."""
    if where:
        yield where
    if isinstance(document, (dict, list)):
        for key, value in document.items() if isinstance(document, dict) else enumerate(document):
            yield from _leaves(value, (*where, key))


def _put(document: Any, where: tuple[Any, ...], value: Any) -> None:
    """Replaces what is at a position."""
    *over, last = where
    for key in over:
        document = document[key]
    document[last] = value


class Words(Forms):
    def test_one_source_and_what_belongs_to_it(self) -> None:
        self.assertIn("one of the arguments", imported()[2])
        self.assertIn("not allowed with", imported("rec", "--landrun", "--ro /")[2])
        status, _, errors = imported("--landrun", "--ro /", "--program", "x")
        self.assertEqual((status, "--program and --process choose" in errors), (USAGE, True))
        status, _, errors = imported("--landrun", "--ro /", "--set", "A=/b")
        self.assertEqual((status, "--set A: no file has ${A}" in errors), (USAGE, True))


class RoundTrip(unittest.TestCase):
    """What is printed of a policy reads as the same policy."""

    @by_chance(examples=150)
    def test_random_policies(self, chance: random.Random) -> None:
        text = "\n".join(random_policy(chance))
        policy = read(text)
        again = read("\n".join(policy_text.lines(policy)))
        self.assertEqual([it.scoped for it in again.layers], [it.scoped for it in policy.layers], text)
        for abi in range(OLDEST_ABI, NEWEST_ABI + 1):
            self.assertEqual(_fitted(again, abi), _fitted(policy, abi), text)


def _fitted(policy: Policy, abi: int) -> list[object]:
    """What a policy says at an ABI, on directories and on files."""
    layers, _ = fitting.fit(policy, abi)
    return [(it.number, it.handled_fs, it.handled_net,
             [(rule.parents, rule.on_directory, rule.on_file) for rule in it.path_rules],
             [(rule.ports, rule.on_port) for rule in it.port_rules]) for it in layers]


def random_policy(chance: random.Random) -> Iterator[str]:
    """A policy that reads, with paths that are hard to write."""
    for _ in range(chance.randint(1, 3)):
        fs = chance.sample(FS.words(), chance.randint(0, 5))
        net = chance.sample(NET.words(), chance.randint(0, 2)) if fs else ["all"]
        yield "[[layer]]"
        yield f"handled_access_fs = {fs!r}"
        yield f"handled_access_net = {net!r}"
        yield f"scoped = {chance.sample(SCOPES, chance.randint(0, 2))!r}"
        kinds = (("path_beneath", FS, fs, _paths(chance)), ("net_port", NET, net, _ports(chance)))
        for kind, family, words, values in kinds:
            handled = frozenset[str]().union(*(family.groups.get(word, {word}) for word in words))
            allowed = [word for word in family.words()
                       if (word in handled or word in family.groups) and family.groups.get(word, {word}) & handled]
            for value in values if allowed else []:
                yield f"[[layer.{kind}]]"
                yield f"allowed_access = {chance.sample(allowed, chance.randint(1, min(3, len(allowed))))!r}"
                yield f"{'parent' if family is FS else 'port'} = {value}"


def _paths(chance: random.Random) -> list[str]:
    names = ("/", "/usr", '/a "b"', "/é\\u00adx", "/$${A}", "/$A", "/tab\\t", "/back\\\\slash", "/[x]#y")
    quoted = ['"' + name.replace('"', '\\"') + '"' for name in names]
    return [f"[{', '.join(chance.sample(quoted, chance.randint(1, 3)))}]" for _ in range(chance.randint(0, 3))]


def _ports(chance: random.Random) -> list[str]:
    return [str(chance.sample(range(HIGHEST_PORT + 1), chance.randint(1, 2))) for _ in range(chance.randint(0, 2))]
