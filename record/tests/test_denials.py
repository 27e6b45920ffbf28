"""landaudit-record denials: the summary of a kernel's log, the layers of a policy in it, and its rules.

Which layer refused a call is what the kernel said: the records are of programs under two layers, of which the first was
put in force before the second, so that its domain has the smaller number.
"""

from __future__ import annotations

import io
import json
import re
import sys
import tempfile
import tomllib
import unittest
from collections.abc import Iterator
from pathlib import Path
from typing import Any
from unittest import mock

from landaudit_record.commands.record import denials as command
from landaudit_record.kernel_log import counting, data, granting, matching, text
from landaudit_record.kernel_log import page as page
from landaudit_record.policy import policies
from landaudit_record.policy.policies import Policy
from landaudit_record.summaries.page import sections

from .calling import InFolder, called
from .json_schema import DOCS, Schema, Validator
from .pages import Element, read as read_page
from .test_kernel_log import ACCESS, BOX, CALL, DENIED, DOMAIN, ENDED, IN, OUT, kept, line, read
from .test_page import HOSTILE
from .test_schemas import less

SCHEMA = Validator.of("denials.schema.json")
#: Two layers that refuse what those of the kept log refuse: both refuse to make a file in `in`.
TWO = f"""[[layer]]
handled_access_fs = ["make_reg", "make_dir", "remove_file", "read_file"]
[[layer.path_beneath]]
allowed_access = ["make_reg"]
parent = "{OUT}"
[[layer.path_beneath]]
allowed_access = ["read_file"]
parent = "/work"
[[layer]]
handled_access_fs = ["make_reg", "write_file", "read_file"]
handled_access_net = ["connect_tcp"]
[[layer.path_beneath]]
allowed_access = ["make_reg"]
parent = ["{OUT}", "{IN}/below"]
[[layer.path_beneath]]
allowed_access = ["read_file"]
parent = "/work/box"
[[layer.net_port]]
allowed_access = ["connect_tcp"]
port = [80, 443]
"""
#: What is said of the calls of the kept log that no rule lets pass.
NO_RULE = ("7 calls are refused, and no rule of ABI 1 to 5 lets such calls pass: mount 1, umount2 1, kill 1, "
           "connect 1, sendto 1, ptrace 1, readlink 1")
#: The denials under two layers, by serial, with the layer that the kernel named.
UNDER_TWO = {243: 2, 245: 2, 249: 2, 250: 1, 251: 2, 252: 1}


def under_two() -> bytes:
    """The records of those denials."""
    numbers = {*UNDER_TWO, 244, 246, 253, 254}
    return b"".join(text for text in kept("netlink.log").splitlines(keepends=True)
                    if any(f":{number}):".encode() in text for number in numbers))


def members(schema: Any) -> Iterator[tuple[str, Schema]]:
    """The members that a schema names, each with its own schema."""
    inside = schema.values() if isinstance(schema, dict) else schema if isinstance(schema, list) else ()
    if isinstance(schema, dict):
        yield from schema.get("properties", {}).items()
    for one in inside:
        yield from members(one)


class Command(InFolder):
    """What the command prints, and its status."""

    def run_on(self, *words: str, log: str | bytes | None = None) -> tuple[int, str]:
        """The status and the output on a log, by default the kept one."""
        file = DENIED / "netlink.log"
        if log is not None:
            file = self.folder / "log"
            file.write_bytes(log if isinstance(log, bytes) else log.encode())
        status, out, _ = called(["denials", file, *words])
        return status, out

    def policy(self, content: str) -> Policy:
        (self.folder / "P.toml").write_text(content)
        return policies.read(self.folder / "P.toml")

    def test_the_statuses(self) -> None:
        whole = "\n".join([line(ACCESS), line(DOMAIN), line(CALL), line(ENDED, 2)])
        other = "type=DAEMON_START msg=audit(1795939711.837:9): op=start"
        lost = "audit: rate limit exceeded"
        same = whole.replace("success=no exit=-13", "success=yes exit=3")
        for log, status in ((whole, 1), (f"{lost}\n{whole}", 1), (other, 0), (f"{other}\n{lost}", 5), ("", 5),
                            (same, 0), (f"{same}\n{lost}", 5), (line(ENDED, denials=2), 5), ("type=1423 x", 5)):
            with self.subTest(log):
                self.assertEqual(self.run_on(log=log)[0], status)

    def test_nothing_is_said_to_be_complete_that_may_not_be(self) -> None:
        for log in ("", "audit: audit_lost=1 x", line(ENDED, denials=2), "type=1424 x"):
            _, said = self.run_on(log=log)
            self.assertIn("NOT ALL IS LOGGED", said)
            data = json.loads(self.run_on("--json", log=log)[1])
            self.assertTrue(data["not_logged"])
            self.assertIn("# NOT ALL IS LOGGED", self.run_on("--suggest", log=log)[1])

    def test_a_log_without_denials_says_when_the_kernel_logs(self) -> None:
        status, said = self.run_on(log="type=DAEMON_START msg=audit(1795939711.837:9): op=start")
        self.assertEqual(status, 0)
        self.assertIn("none is a denial of Landlock", said)
        self.assertIn("confine --log", said.replace("\n  ", " "))

    def test_the_summary(self) -> None:
        with mock.patch.dict("os.environ", {"COLUMNS": "200"}):
            status, said = self.run_on("--all")
        self.assertEqual(status, 1)
        self.assertIn("42 calls denied: 41 refused, 1 succeeded all the same", said.replace("\n  ", " "))
        rows = [" ".join(row.split()) for row in said.splitlines()]
        self.assertIn("all: layers python3's", rows)
        self.assertIn("1 mkdir /work/box/in EACCES make_dir", rows)
        self.assertIn("1 kill sleep EPERM scope signal: sleep is outside", rows)
        self.assertIn(f"1 renameat {BOX} -> {BOX}/sub EXDEV refer on {BOX}; refer on {BOX}/sub", rows)
        self.assertIn("12b597920 /usr/bin/python3.11 (python3) 26899 1 1 python3's", rows)
        self.assertIn(NO_RULE, rows)

    def test_lines_are_as_wide_as_they_may_be(self) -> None:
        for width in (60, 80, 120):
            with mock.patch.dict("os.environ", {"COLUMNS": str(width)}):
                for words in ((), ("--all",)):
                    _, said = self.run_on(*words)
                    summary = said.partition("rules for these:")[0]
                    self.assertLessEqual(max(map(len, summary.splitlines())), width)

    def test_standard_input(self) -> None:
        stream = io.TextIOWrapper(io.BytesIO(kept("dmesg.log")))
        with mock.patch.object(sys, "stdin", stream):
            status, out, _ = called(["denials", "-"])
        self.assertEqual((status, "denials in standard input" in out), (1, True))

    def test_a_log_that_is_not_there_or_named_twice(self) -> None:
        for logs, status, told in (
            ([self.folder / "none"], 3, "none can't be read: No such file"),
            ([self.folder], 3, "can't be read: Is a directory"),
            (["a", "a"], 2, "a log is named twice"),
        ):
            found, _, errors = called(["denials", *logs])
            self.assertEqual((found, told in errors), (status, True), errors)

    def test_one_program(self) -> None:
        with mock.patch.dict("os.environ", {"COLUMNS": "200"}):
            _, said = self.run_on("--program", "mkdir")
        self.assertIn("1 call denied: 1 refused, in 1 domain", said)

    def test_the_data_are_as_the_schema_says(self) -> None:
        self.policy(TWO)
        for words in ((), ("--policy", str(self.folder / "P.toml")), ("--program", "nosuch")):
            _, said = self.run_on("--json", *words)
            document = json.loads(said)
            self.assertEqual(SCHEMA.faults(document), [])
            self.assertEqual(SCHEMA.undescribed(document), [])
        self.assertEqual(SCHEMA.faults(json.loads(self.run_on("--json", log="")[1])), [])

    def test_the_numbers_of_the_data(self) -> None:
        document = json.loads(self.run_on("--json")[1])
        self.assertEqual((document["denied"], document["refused"], document["succeeded"]), (42, 41, 1))
        self.assertEqual(sum(kind["times"] for kind in document["refusals"]), 41)
        self.assertEqual(sum(sum(kind["programs"].values()) for kind in document["refusals"]), 41)
        self.assertEqual((document["from"], document["to"]), ("2026-11-29T07:52:03.069Z", "2026-11-29T07:53:00.285Z"))
        (same,) = document["all_the_same"]
        self.assertEqual((same["call"], same["error"]), ("openat", None))

    def test_the_format(self) -> None:
        schema = json.loads((DOCS / "denials.schema.json").read_text())
        self.assertEqual(schema["properties"]["format"]["const"], data.FORMAT)
        self.assertEqual([name for name, one in members(schema) if not one.get("description")], [])

    def test_a_member_that_is_gone(self) -> None:
        """Each member of each object is needed, but for those that only some objections and rules have."""
        self.policy(TWO)
        _, said = self.run_on("--json", "--policy", str(self.folder / "P.toml"), log=under_two())
        optional = {"rights", "path", "port", "scope", "said", "parent"}
        counted = r"/(programs|lacking)/|^refusals/\d+/domains/|^without_rule/\w+/"
        for at, without in less(json.loads(said)):
            if at.rpartition("/")[2] not in optional and not re.search(counted, at):
                with self.subTest(at):
                    self.assertNotEqual(SCHEMA.faults(without), [])

    def test_rules_and_data_are_not_asked_for_at_once(self) -> None:
        self.assertEqual(self.run_on("--json", "--suggest")[0], 2)


class UnderPolicy(unittest.TestCase):
    """Which layers and rules denials are about."""

    def setUp(self) -> None:
        self.folder = Path(self.enterContext(tempfile.TemporaryDirectory()))
        self.log = read(under_two())

    def matched(self, content: str) -> matching.Matched:
        file = self.folder / "P.toml"
        file.write_text(content)
        return matching.match(self.log, policies.read(file))

    def test_each_denial_is_of_the_layer_that_the_kernel_named(self) -> None:
        matched = self.matched(TWO)
        found = {denial.stamp.serial: matched.layers[denial.accesses[0].domain] for denial in self.log.denials}
        self.assertEqual(found, UNDER_TWO)
        self.assertEqual(matched.unlike, ())

    def test_the_rules_above(self) -> None:
        found = counting.count(self.log, self.matched(TWO))
        above = {(rule.layer, str(rule.rule), rule.place): dict(some) for rule, some in found.above.items()}
        self.assertEqual(above, {(1, "path_beneath 2", "/work"): {"make_dir": 1, "remove_file": 1},
                                 (2, "path_beneath 1", OUT): {"write_file": 1},
                                 (2, "path_beneath 2", "/work/box"): {"write_file": 1, "make_reg": 2}})

    def test_what_the_policy_grants_now(self) -> None:
        """The second layer grants make_reg in `in` now, and the first does not handle it."""
        matched = self.matched(TWO.replace('"make_reg", "make_dir"', '"make_dir"').replace(
            f'["make_reg"]\nparent = "{OUT}"', f'["read_file"]\nparent = "{OUT}"').replace("/below", ""))
        granted = {denial.stamp.serial for denial in self.log.denials if matched.is_granted_now(denial.accesses[0])}
        self.assertEqual(granted, {249})
        found = granting.grant(self.log, matched)
        self.assertEqual((found.since, found.of_others), ({"openat": 1}, {"openat": 1}))

    def test_another_policy(self) -> None:
        matched = self.matched('[[layer]]\nhandled_access_fs = ["make_sock"]\n')
        self.assertEqual(matched.layers, {})
        self.assertEqual(granting.grant(self.log, matched).of_others.total(), len(self.log.denials))
        found = counting.count(self.log, matched)
        self.assertTrue(any("of no layer of" in str(warning) for warning in found.summary.warnings))

    def test_a_pid_that_is_used_again(self) -> None:
        """The domains of a process that has ended are those of another process, which has the same layers."""
        first = [line(ACCESS, 1, "a1"), line(DOMAIN, 1, "a1"), line(ENDED, 2, "a1").replace("719.000", "711.900")]
        again = [one.replace("711.", "721.") for one in (line(ACCESS, 3, "a9"), line(DOMAIN, 3, "a9"))]
        for records, layers in ((first + again, {"a1": 1, "a9": 1}), (first[:2] + again, {})):
            self.log = read("\n".join(records))
            self.assertEqual(self.matched('[[layer]]\nhandled_access_fs = ["make_dir"]\n').layers, layers)

    def test_a_right_that_no_policy_can_name(self) -> None:
        newer = [line(ACCESS, 1), line(DOMAIN, 1), line(ACCESS, 2).replace("fs.make_dir", "fs.resolve_unix"),
                 line(ACCESS, 3).replace('"/a"', '"<too_long>"')]
        self.log = read("\n".join(newer))
        self.assertEqual(self.matched('[[layer]]\nhandled_access_fs = ["make_dir"]\n').layers, {"a1": 1})
        self.assertEqual(self.matched('[[layer]]\nhandled_access_net = ["bind_tcp"]\n').layers, {})

    def test_layers_of_several_programs(self) -> None:
        other = [line(ACCESS).replace('"/a"', f'"{IN}"'), line(DOMAIN), line(CALL)]
        self.log = read(under_two() + "\n".join(other).encode())
        matched = self.matched(TWO)
        self.assertEqual(matched.layers["a1"], 1)
        warnings = list(map(str, counting.count(self.log, matched).summary.warnings))
        self.assertIn(f"layers of 2 programs fit {self.folder}/P.toml: python3, x: --program chooses the "
                      "right one", warnings)

    def test_denials_of_one_domain_that_would_be_of_two_layers(self) -> None:
        layers = (f'[[layer]]\nhandled_access_fs = ["{right}"]\n' for right in ("make_dir", "remove_file"))
        matched = self.matched("".join(layers))
        self.assertEqual(len(matched.unlike), 1)
        found = counting.count(self.log, matched)
        self.assertTrue(any("fits all denials of domain" in str(warning) for warning in found.summary.warnings))

    def test_what_else_a_layer_refuses(self) -> None:
        """Ports, mounts, scopes and `refer`, which each layer for files restricts."""
        self.log = read(kept("netlink.log"))
        scoped = '[[layer]]\nhandled_access_fs = ["make_block"]\nscoped = ["signal"]\n'
        net = '[[layer]]\nhandled_access_net = ["bind_tcp"]\n'
        matched = self.matched(f'{scoped}{net}[[layer.net_port]]\nallowed_access = ["bind_tcp"]\nport = 8080\n')
        found = {denial.stamp.serial: matched.layers.get(denial.accesses[0].domain) for denial in self.log.denials}
        self.assertEqual({serial: layer for serial, layer in found.items() if layer is not None},
                         {217: 1, 219: 1, 223: 2, 227: 1, 241: 1})


def places(rule: dict[str, Any]) -> list[Any]:
    """What a rule of a policy's file is on: each of its paths, or its ports."""
    parents = rule.get("parent", [])
    return [tuple(rule["port"])] if "port" in rule else [parents] if isinstance(parents, str) else parents


class Rules(InFolder):
    """The rules from a log."""

    def rules(self, *logs: str | bytes, policy: str | None = None) -> tuple[list[dict[str, Any]], str]:
        """The rules in the order in which they are printed, and all that is printed."""
        log = read(*logs)
        if policy is not None:
            (self.folder / "P.toml").write_text(policy)
        given = None if policy is None else policies.read(self.folder / "P.toml")
        matched = None if given is None else matching.match(log, given)
        said = "\n".join(text.rules(granting.grant(log, matched), counting.count(log, matched), given))
        layer = tomllib.loads(f"[[layer]]\n{said}").get("layer", [{}])[0]
        return [*layer.get("path_beneath", []), *layer.get("net_port", [])], said

    def test_what_a_rule_can_grant_and_nothing_else(self) -> None:
        found, said = self.rules(kept("netlink.log"))
        granted = {on: set(rule["allowed_access"]) for rule in found for on in places(rule)}
        self.assertEqual(granted, {
            OUT: {"make_reg", "make_dir", "make_sym", "make_fifo", "make_char", "make_sock", "remove_file",
                  "remove_dir"},
            f"{OUT}/file": {"read_file", "write_file", "truncate"},
            f"{OUT}/with space": {"read_file"},
            f'{OUT}/n\u00e9"q': {"read_file"},
            f"{OUT}/dir": {"read_dir"},
            f"{IN}/file": {"truncate"},
            f"{IN}/prog": {"execute"},
            f"{IN}/true": {"execute"},
            IN: {"make_reg", "make_dir", "remove_file"},
            BOX: {"refer"},
            "/dev/null": {"ioctl_dev", "write_file"},
            (443,): {"connect_tcp"},
            (8080, 8081): {"bind_tcp"},
        })
        self.assertIn(f"# {NO_RULE}", said)
        self.assertIn("an object rights that it does not have", said)
        self.assertIn("# 1 call is logged and succeeded all the same: openat 1", said)
        self.assertIn("the log has one step of a call at a time", said)

    def test_a_rule_on_a_directory_says_that_the_name_is_not_in_the_log(self) -> None:
        _, said = self.rules(kept("netlink.log"))
        remark = said.partition(f'\nparent = "{IN}"\n')[0].rpartition("\n\n")[2]
        self.assertIn("the log has the directory and not the name in it", remark)
        self.assertIn("asked by: mkdir in/b, rm in/file, ", remark)

    def test_rules_for_a_policy_are_in_its_layers(self) -> None:
        _, said = self.rules(under_two(), policy=TWO)
        first, second = said.index("# 1 rule for layer 1"), said.index("for layer 2")
        self.assertIn('["remove_file", "make_dir"]\nparent = "/work/box/in"', said[first:second])
        self.assertIn('["write_file"]\nparent = [\n    "/dev/null",\n    "/work/box/out/file",\n]', said[second:])

    def test_a_program_that_the_log_does_not_name(self) -> None:
        _, said = self.rules(line(ACCESS))
        self.assertEqual(said.splitlines()[0], "# 1 rule")
        found = counting.count(read(line(ACCESS)))
        self.assertEqual([layer.name for refusal in found.summary.refusals for layer in refusal.layers], ["-"])

    def test_a_layer_that_does_not_handle_refer_must_handle_it(self) -> None:
        lines = kept("netlink.log").splitlines(keepends=True)
        moved = b"".join(one for one in lines if b":241):" in one or b":242):" in one)
        found, said = self.rules(moved, policy='[[layer]]\nhandled_access_fs = ["make_block"]\n')
        self.assertEqual(found, [{"allowed_access": ["refer"], "parent": BOX}])
        self.assertIn('# handled_access_fs = ["make_block", "refer"]', said)

    def test_what_no_policy_can_name(self) -> None:
        for text_of in (line(ACCESS).replace('"/a"', "2FFF"), line(ACCESS).replace('"/a"', '"<too_long>"'),
                        line(ACCESS).replace("fs.make_dir", "fs.resolve_unix")):
            found, said = self.rules("\n".join([text_of, line(DOMAIN), line(CALL)]))
            self.assertEqual(found, [])
            self.assertIn("# 1 call is refused, and no rule of ABI 1 to 5 lets such calls pass: mkdir 1", said)

    def test_a_file_that_the_call_makes(self) -> None:
        """The kernel makes a file before it refuses to open it: no rule can be on it before the run."""
        text_of = line(ACCESS).replace('"/a"', '"/tmp/new"').replace("make_dir", "write_file")
        flags = {"c1": "/tmp", "41": "/tmp/new", "1": "/tmp/new"}
        for number, flag in ((2, "a1"), (257, "a2")):
            for value, parent in flags.items():
                call = line(CALL).replace("syscall=83", f"syscall={number} {flag}={value}")
                (rule,), said = self.rules("\n".join([text_of, line(DOMAIN), call]))
                self.assertEqual(rule["parent"], parent)
                self.assertEqual("(for what the run makes there: new)" in said, parent == "/tmp")

    def test_files_of_a_process_and_removed_files(self) -> None:
        for path, parent in (("/proc/123/maps", "/proc"), ("/tmp/gone (deleted)", "/tmp")):
            one = line(ACCESS).replace('"/a"', path.encode().hex().upper()).replace("make_dir", "read_file")
            (rule,), _ = self.rules("\n".join([one, line(DOMAIN)]))
            self.assertEqual(rule["parent"], parent)

    def test_sensitive_paths_are_warned_of(self) -> None:
        one = line(ACCESS).replace('"/a"', '"/etc/shadow"').replace("make_dir", "read_file")
        self.assertIn("# warning: /etc/shadow holds secrets", self.rules("\n".join([one, line(DOMAIN)]))[1])

    def test_a_name_ends_no_comment(self) -> None:
        title = 'type=PROCTITLE msg=audit(1795939711.837:1): proctitle=' + b"x\n[[layer]]\0\x1b[2J".hex().upper()
        found, said = self.rules("\n".join([line(ACCESS), line(DOMAIN), title]))
        self.assertEqual(len(found), 1)
        self.assertNotIn("\x1b", said)


class Gains(unittest.TestCase):
    """Moves and links: what is in the record is granted only if it is what the call asked."""

    def gains(self, call: str, *rights: str, path: str = "/a") -> bool:
        """Whether a call that lacks these rights on a directory is taken to be one by which an object would gain."""
        blockers = ",".join(f"fs.{right}" for right in rights)
        log = [f'{line(ACCESS).partition("fs.")[0]}{blockers} path="{path}" ino=1', line(DOMAIN), call]
        found = granting.grant(read("\n".join(log)))
        return bool(found.gaining)

    def test_what_a_call_asks_by_itself(self) -> None:
        for rights in (("refer",), ("refer", "make_reg"), ("remove_file", "refer"), ("remove_dir", "make_dir", "refer"),
                       ("remove_file", "make_reg"), ("remove_file", "remove_dir", "make_reg", "make_dir")):
            self.assertFalse(self.gains(line(CALL).replace("=83 ", "=82 "), *rights), rights)

    def test_what_lists_all_that_is_lacking(self) -> None:
        """Linux 6.18 lists all that the layer handles and does not grant: write_file alone, if it grants the rest."""
        for rights in (("refer", "execute"), ("refer", "make_reg", "make_dir"), ("write_file", "refer", "truncate"),
                       ("remove_file", "remove_dir", "refer"), ("write_file",)):
            for number in (82, 86, 264, 265, 316):
                self.assertTrue(self.gains(line(CALL).replace("=83 ", f"={number} "), *rights), rights)

    def test_other_calls(self) -> None:
        for rights in (("write_file", "read_file"), ("write_file",), ("make_dir",)):
            self.assertFalse(self.gains(line(CALL), *rights))

    def test_without_a_record_of_the_call_a_right_of_files_on_a_directory_is_one_of_a_move(self) -> None:
        self.assertTrue(self.gains("", "write_file", path="/usr"))
        for rights in (("read_dir",), ("make_reg",), ("refer",)):
            self.assertFalse(self.gains("", *rights, path="/usr"))
        self.assertFalse(self.gains("", "write_file", path="/etc/passwd"))


class Page(unittest.TestCase):
    """The page of a log."""

    def page(self, content: str | bytes) -> tuple[Element, str]:
        log = read(content)
        found = counting.count(log)
        said = page.made("denials in log", found, text.rules(granting.grant(log), found, None))
        return read_page(said), said

    def test_its_tables(self) -> None:
        found, _ = self.page(kept("netlink.log"))
        rows = [list(map(row.get, sections.REFUSALS)) for row in found.said("refusals", 0)]
        self.assertIn(["1", "mkdir", IN, "EACCES", "make_dir", "python3's", "/usr/bin/mkdir"], rows)
        self.assertEqual(sum(int(row[0]) for row in rows), 41)
        self.assertEqual([row[1] for row in found.rows("same", 0)], ["openat"])
        self.assertIn(["12b597920", "/usr/bin/python3.11 (python3)", "26899", "1", "1", "python3's"],
                      [[row[name] for name in ("domain", "made by", "process", "logged", "counted", "layer")]
                       for row in found.said("domains", 0)])
        (rules,) = found.all("pre")
        self.assertIn('parent = "/work/box/in"', rules.text(0))

    def test_what_is_not_logged_is_an_alarm(self) -> None:
        found, _ = self.page("audit: rate limit exceeded")
        self.assertEqual(len(found.all("p", "alarm")), 2)

    def test_names_are_text(self) -> None:
        for name in HOSTILE:
            path = f"/{name}".encode("utf-8", "surrogateescape").hex().upper()
            title = f"type=PROCTITLE msg=audit(1795939711.837:1): proctitle={path}"
            found, said = self.page("\n".join([line(ACCESS).replace('"/a"', path), line(DOMAIN), line(CALL), title]))
            whole, _ = self.page("\n".join([line(ACCESS), line(DOMAIN), line(CALL), title.replace(path, "2F61")]))
            with self.subTest(name):
                self.assertEqual({one.name for one in found.elements()} - {"span"},
                                 {one.name for one in whole.elements()} - {"span"})
                self.assertEqual(len(found.all("script")), 1)

    def test_it_is_written_beside_what_is_printed(self) -> None:
        with tempfile.TemporaryDirectory() as folder:
            file = Path(folder, "page.html")
            called(["denials", DENIED / "dmesg.log", "--html", file])
            self.assertIn("<title>denials in ", file.read_text())


class Documents(unittest.TestCase):
    def test_the_command_has_what_its_module_says(self) -> None:
        self.assertEqual(command.NAME, "denials")
