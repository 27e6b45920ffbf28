"""The data that `audit --json` and `check --json` print, and the files of a recording, by the schemas in docs/."""

from __future__ import annotations

import copy
import json
import re
import shutil
import tempfile
import unittest
from collections import Counter
from collections.abc import Callable, Iterable, Iterator, Sequence
from pathlib import Path
from typing import Any

from landaudit_record import cli
from landaudit_record.audit import by_abi
from landaudit_record.audit.moot import Unasked
from landaudit_record.audit.summary import Accepted, Refusal, RefusingLayer, Summary, as_data
from landaudit_record.audit.warnings import OfLog
from landaudit_record.commands.record import audit
from landaudit_record.common import json_text, jsonl
from landaudit_record.engine.answers import Closed, Condition, Gained, Kept, Missing, Mounting
from landaudit_record.engine.landaudit import BUILT
from landaudit_record.policy import checking_data, differing_data, differing_rows
from landaudit_record.policy.differing_layers import MountChanges, Room, Unscoped
from landaudit_record.policy.regions import Area, Region
from landaudit_record.policy.reviewing import Review
from landaudit_record.policy.widenings import Widening
from landaudit_record.recorder import converting
from landaudit_record.recorder.ports import Ports
from landaudit_record.summaries.reporting import linted

from .calling import called
from .json_schema import DIALECT, DOCS, Schema, Validator
from .kept_logs import LOGS, KeptLogs
from .stand_in import StandIn
from .worded import subject
from .test_page import HOSTILE

AUDIT, CHECK, DIFF = (Validator.of(f"{name}.schema.json") for name in ("audit", "check", "diff"))
PACKAGE = Path(cli.__file__).parent
#: What landaudit-witness wrote on kept runs.
HEARD = Path(__file__).parent / "heard"
#: The members of some operation, by the table of docs/FORMATS.md.
OF_AN_OP = {"op", "pid"} | set(re.findall(r"`(\w+)`", "".join(
    row.split("|")[2] for row in (DOCS / "FORMATS.md").read_text(encoding="utf-8").partition("| `op` | ")[2]
    .partition("\n\n")[0].splitlines()[2:])))

#: All that a layer objects to.
OBJECTIONS = (
    Missing(("read_file", "write_file"), "/a/f"), Closed(("connect_tcp",), 443),
    Gained("/a/f", ("execute",), "/b"), Mounting(), Kept(("truncate",), "/a/f", 7),
)
POLICY = """[[layer]]
handled_access_fs = ["all"]
handled_access_net = ["connect_tcp"]
[[layer.path_beneath]]
allowed_access = ["read"]
parent = ["/usr", "/lib"]
[[layer.path_beneath]]
allowed_access = ["make_reg", "write_file", "refer"]
parent = "/tmp"
[[layer.net_port]]
allowed_access = ["connect_tcp"]
port = [80, 443]
[[layer]]
handled_access_fs = ["truncate", "refer"]
[[accepted]]
call = "ioctl"
path = "/dev/null"
reason = "shells ask"
"""
CASES = """
[[refused]]
call = "open r"
path = "/etc/passwd"
[[refused]]
call = "open r"
path = "/usr"
[[refused]]
call = "rename"
from = "/usr/no-such-file-of-the-tests"
kind = "reg"
to = "/tmp/no-such-file-of-the-tests"
[[refused]]
call = "ftruncate"
path = "/tmp/none"
kind = "reg"
[[refused]]
call = "mount"
[[refused]]
call = "connect"
port = 22
[[allowed]]
call = "connect"
port = 80
abi = "4-5"
[[allowed]]
call = "bind"
port = 80
[[nothing]]
rights = ["read"]
under = "/etc"
[[never]]
both = ["read_file", "read_dir"]
abi = 5
"""


class Members(unittest.TestCase):
    """What is found beside the faults that the library finds."""

    def test_members_that_no_schema_names(self) -> None:
        inner: Schema = {"properties": {"b": {}}, "oneOf": [{"properties": {"c": {}}}]}
        schema = {"$schema": DIALECT, "properties": {"a": {"items": inner}, "m": {"additionalProperties": {}}}}
        value = {"a": [{"b": 1, "c": 1, "x": 1}], "m": {"free": 1}, "y": 2}
        self.assertEqual(Validator(schema).undescribed(value), ["/a/0/x", "/y"])


class Schemas(unittest.TestCase):
    """The two schemas against documents that they must refuse, and against the document that describes members."""

    def test_each_member_is_described(self) -> None:
        for name in ("audit", "check", "diff", "lint", "recording"):
            schema = json.loads((DOCS / f"{name}.schema.json").read_text(encoding="utf-8"))
            self.assertEqual([member for member, one in members(schema) if not one.get("description")], [])

    def test_the_versions_are_those_of_the_programs(self) -> None:
        formats = {"audit": audit.FORMAT, "check": checking_data.FORMAT, "diff": differing_data.FORMAT,
                   "lint": linted.FORMAT}
        for name, number in formats.items():
            schema = json.loads((DOCS / f"{name}.schema.json").read_text(encoding="utf-8"))
            self.assertEqual(schema["properties"]["format"]["const"], number)

    def test_what_is_no_audit(self) -> None:
        for why, spoil in SPOILED_AUDITS.items():
            document = an_audit()
            self.assertEqual(AUDIT.faults(document), [])
            spoil(document)
            with self.subTest(why):
                self.assertNotEqual(AUDIT.faults(document), [])

    def test_what_is_no_check(self) -> None:
        for why, spoil in SPOILED_CHECKS.items():
            document = copy.deepcopy(A_CHECK)
            self.assertEqual(CHECK.faults(document), [])
            spoil(document)
            with self.subTest(why):
                self.assertNotEqual(CHECK.faults(document), [])

    def test_what_is_no_comparison(self) -> None:
        for why, spoil in SPOILED_DIFFS.items():
            document = a_diff()
            self.assertEqual((DIFF.faults(document), DIFF.undescribed(document)), ([], []))
            spoil(document)
            with self.subTest(why):
                self.assertNotEqual(DIFF.faults(document), [])

    def test_a_member_that_is_gone(self) -> None:
        """Each member of each object is needed, but for those that only some objections have."""
        optional = {"rights", "path", "directory", "port", "opened", "recordings"}
        for validator, whole in ((AUDIT, an_audit()), (CHECK, A_CHECK), (DIFF, a_diff())):
            for at, without in less(whole):
                if at.rpartition("/")[2] not in optional and not re.search("(^|/)(programs|at|unsaid)/", at):
                    with self.subTest(at):
                        self.assertNotEqual(validator.faults(without), [])


def members(schema: Any) -> Iterator[tuple[str, Schema]]:
    """The members that a schema names, each with its own schema; not those of a form that only narrows others."""
    inside = schema.values() if isinstance(schema, dict) else schema if isinstance(schema, list) else ()
    if isinstance(schema, dict):
        yield from schema.get("properties", {}).items() if "type" in schema or "$ref" in schema else ()
    for one in inside:
        yield from members(one)


def less(document: Any) -> Iterator[tuple[str, Any]]:
    """A document without one of its members, once for each; and where that was."""
    for path in _paths(document):
        without = copy.deepcopy(document)
        inside = without
        for step in path[:-1]:
            inside = inside[step]
        del inside[path[-1]]
        yield "/".join(map(str, path)), without


def _paths(value: Any) -> Iterator[list[Any]]:
    """The ways to all members of objects in a value."""
    if isinstance(value, dict):
        for name, inside in value.items():
            yield [name]
            yield from ([name, *path] for path in _paths(inside))
    elif isinstance(value, list):
        for number, inside in enumerate(value):
            yield from ([number, *path] for path in _paths(inside))


def a_summary(abi: int, names: Sequence[str]) -> Summary:
    """A summary with an entry in each list, and these names of files."""
    found = Summary(abi, Counter(allowed=9, moot=1), path_calls=9, moot_path_calls=1)
    layers = tuple(RefusingLayer(number, None if number > 1 else 1, OBJECTIONS) for number in (1, 2))
    for name in names:
        found.refusals[Refusal("open r", subject(f"/a/{name}"), "EACCES", layers, None)] = Counter({name: 2, "-": 1})
    found.refusals[Refusal("restrict", subject("-"), "E2BIG", (), Condition("full"))] = Counter({"/bin/a": 1})
    found.verdicts["refused"] = sum(programs.total() for programs in found.refusals.values())
    found.accepted[Accepted("ioctl", subject("/dev/null"), "")] = 1
    found.moot[Unasked("absent")] = Counter({subject("/c"): 1})
    found.warnings, found.unsaid, found.missing = {OfLog(f"warning {abi}"): 1}, Counter({"a class": 2}), ("2 calls",)
    found.untraced = ("readlink(2) is not recorded",)
    return found


def an_audit(names: Sequence[str] = ("f", "g")) -> dict[str, Any]:
    """What an audit of one recording prints that has an entry in each list."""
    older, newer = a_summary(4, names), a_summary(5, names)
    del older.refusals[next(iter(older.refusals))], newer.refusals[next(reversed(newer.refusals))]
    data: dict[str, Any] = {
        "format": 1, "recording": "rec", "policy": None, "as_recorded": False, "status": 1, **as_data(newer),
        "abis": by_abi.as_data(by_abi.steps([older, newer])),
    }
    found: dict[str, Any] = json.loads(json_text.indented(data))
    return found


#: A difference of each kind.
DIFFERENCES: tuple[differing_rows.What, ...] = (
    differing_rows.RightsInArea(("read_file", "read_dir"), Area("/a", ("/a/b",), ("/a/c",))),
    differing_rows.RightsOnMoved(("refer",), 2, ("/a", "/b"), "/c"),
    differing_rows.RightsOnMoved(("ioctl_dev",), 1, (), None),
    differing_rows.RightsOnPorts(("bind_tcp",), (1, 2, 3, 80), every=True),
    differing_rows.Moves(("reg", "dir"), (Area("/", ("/a",)),), ("/a",), (Area("/b"),)),
    differing_rows.Gains(("execute",), 1, "/b", (Region("/c", as_file=True),)),
    MountChanges(), Unscoped("signal"), Room(1, 2),
)


def a_diff() -> dict[str, Any]:
    """What a comparison prints that has an entry in each list."""
    rows = tuple(differing_rows.DifferenceRow(what, frozenset({2, 3})) for what in DIFFERENCES)
    known = Widening("why", frozenset({"execute"}), ("/a",))
    review = Review(Path("old.toml"), None, Path("new.toml"), range(1, 6), 9, rows, rows, ((known, rows[:1]),), (known,))
    found: dict[str, Any] = json.loads(json.dumps(differing_data.as_data(review)))
    return found


#: What a check prints, by docs/check.schema.json.
A_CHECK: dict[str, Any] = {
    "format": 1, "policy": "policy.toml", "cases": "cases.toml", "held": 1, "failed": 0,
    "results": [{
        "must_be": "refused", "call": "truncate", "place": "/a", "holds": True,
        "answers": [
            {"abi": 3, "answer": "refused", "error": "EACCES",
             "layers": [{"number": 1, "objections": [{"text": "truncate on /a", "rights": ["truncate"], "path": "/a"}]}]},
            {"abi": 2, "answer": "allowed", "error": None, "layers": []},
        ],
        "grants": [{"text": "layer 1: path_beneath 1 on /a grants read_file", "layer": 1, "rule": "path_beneath 1",
                    "on": "/a", "rights": ["read_file"]}],
    }],
    "questions": [{
        "kind": "nothing", "rights": ["write"], "under": ["/a"], "abis": [4, 5], "holds": False,
        "passes": [{
            "abis": [4], "text": "truncate under /a", "rights": ["truncate"],
            "area": {"path": "/a", "as_file": False, "but_for": ["/a/b"], "but_for_files": []},
            "grants": [{"text": "layer 1: path_beneath 1 on / grants truncate", "layer": 1, "rule": "path_beneath 1",
                        "on": "/", "rights": ["truncate"]}],
        }],
        "not_asked": [{"abis": [4], "rights": ["ioctl_dev"]}],
    }],
}

Spoil = Callable[[dict[str, Any]], object]
SPOILED_AUDITS: dict[str, Spoil] = {
    "no status of an audit": lambda data: data.update(status=2),
    "another version": lambda data: data.update(format=2),
    "no number": lambda data: data.update(refused="31"),
    "true is no number": lambda data: data.update(refused=True),
    "fewer than none": lambda data: data.update(moot=-1),
    "no ABI": lambda data: data.update(abi=0),
    "of one recording and of several": lambda data: data.update(recordings=[an_audit(), an_audit()]),
    "of several, of which one is missing": lambda data: (data.pop("recording"), data.update(recordings=[an_audit()])),
    "of several, of which one has no name": lambda data: (
        data.pop("recording"), data.update(recordings=[an_audit(), copy.deepcopy(data)])),
    "a layer without objections": lambda data: data["refusals"][0]["layers"][0].update(objections=[]),
    "neither layers nor a condition": lambda data: data["refusals"][0].update(layers=[]),
    "layers and a condition": lambda data: data["refusals"][0].update(condition="no right is named"),
    "no error": lambda data: data["refusals"][0].update(error="-"),
    "never": lambda data: data["refusals"][0]["programs"].update({"/bin/a": 0}),
    "a path that is none": lambda data: data["refusals"][0]["layers"][0]["objections"][0].update(path="a"),
    "a path without rights": lambda data: data["refusals"][0]["layers"][0]["objections"][0].pop("rights"),
    "a port past the last one": lambda data: data["refusals"][0]["layers"][0]["objections"][1].update(port=65536),
    "no ABIs": lambda data: data.update(abis=[]),
    "a list that is none": lambda data: data.update(not_judged=None),
    "a text that is none": lambda data: data.update(not_traced=[1]),
}
SPOILED_CHECKS: dict[str, Spoil] = {
    "another version": lambda data: data.update(format=2),
    "neither cases nor questions": lambda data: data.update(results=[], questions=[]),
    "another question": lambda data: data["questions"][0].update(kind="all"),
    "holds, and something passes": lambda data: data["questions"][0].update(holds=True),
    "does not hold, and nothing passes": lambda data: data["questions"][0].update(passes=[]),
    "an area that is no path": lambda data: data["questions"][0]["passes"][0]["area"].update(path="a"),
    "another answer": lambda data: data["results"][0].update(must_be="moot"),
    "refused by no layer": lambda data: data["results"][0]["answers"][0].update(layers=[]),
    "refused without an error": lambda data: data["results"][0]["answers"][0].update(error=None),
    "allowed with an error": lambda data: data["results"][0]["answers"][1].update(error="EACCES"),
    "held is a word": lambda data: data["results"][0].update(holds="yes"),
    "no rights": lambda data: data["results"][0]["grants"][0].update(rights=[]),
}


SPOILED_DIFFS: dict[str, Spoil] = {
    "another version": lambda data: data.update(format=2),
    "an old policy, and what is allowed without one": lambda data: data.update(old_allows="nothing"),
    "neither": lambda data: data.update(old=None),
    "no ABIs": lambda data: data["more"][0].update(abis=[]),
    "an unknown difference": lambda data: data["more"][0].update(kind="right"),
    "rights without an area": lambda data: data["more"][0].pop("area"),
    "a port past the last one": lambda data: data["more"][3].update(ports=[[1, 65536]]),
    "half a range": lambda data: data["more"][3].update(ports=[[1]]),
    "a move to nowhere": lambda data: data["less"][4].update(to=[]),
    "accepted without a reason": lambda data: data["accepted"][0].update(reason=""),
}


class Printed(StandIn):
    """What an audit prints, by a landaudit whose reports are written by hand."""

    def valid(self, printed: str) -> dict[str, Any]:
        """What is printed, which is as the schema says and has nothing besides."""
        data: dict[str, Any] = json.loads(printed)
        self.assertEqual(AUDIT.faults(data), [])
        self.assertEqual(AUDIT.undescribed(data), [])
        return data

    def test_an_audit_at_one_abi_and_at_several(self) -> None:
        for abi, steps in (("3", 1), ("1-5", 5)):
            data = self.valid(self.audited("audit", self.recording, "--policy", self.policy, "--json", abi=abi)[1])
            self.assertEqual((data["format"], len(data["abis"])), (1, steps))
            self.assertTrue(data["refusals"])

    def test_an_audit_without_a_policy(self) -> None:
        self.assertIsNone(self.valid(self.audited("audit", self.recording, "--json")[1])["policy"])

    def test_an_audit_of_several_recordings(self) -> None:
        second = self.folder / "second"
        second.mkdir()
        for file in ("tree.jsonl", "trace.jsonl"):
            (second / file).write_bytes((self.recording / file).read_bytes())
        words = ("audit", self.recording, second, "--policy", self.policy, "--json")
        data = self.valid(self.audited(*words)[1])
        self.assertEqual(len(data["recordings"]), 2)
        self.assertEqual([one["format"] for one in data["recordings"]], [1, 1])

    def test_a_summary_that_has_something_of_everything(self) -> None:
        data = an_audit(HOSTILE)
        self.assertEqual((AUDIT.faults(data), AUDIT.undescribed(data)), ([], []))
        self.assertTrue(data["abis"][1]["breaks"] and data["abis"][1]["refused_no_more"])


class Recordings(KeptLogs):
    """The files of a recording, by docs/recording.schema.json."""

    FILES = {"tree.jsonl": "tree", "trace.jsonl": "record", "unsaid.jsonl": "unsaid", "before.jsonl": "before",
             "start.jsonl": "start", "objects.jsonl": "object", "beside.jsonl": "object"}

    def is_described(self, file: Path, name: str, lines: Iterable[Any]) -> set[str]:
        """The members that the lines of a file have, which are as a definition of the schema says."""
        schema = json.loads((DOCS / "recording.schema.json").read_text(encoding="utf-8"))
        validator = Validator({"$schema": DIALECT, "$ref": f"#/$defs/{name}", "$defs": schema["$defs"]})
        members: set[str] = set()
        for line in lines:
            undescribed = [at for at in validator.undescribed(line) if name != "record" or at[1:] not in OF_AN_OP]
            self.assertEqual((validator.faults(line), undescribed), ([], []), f"{file}: {line}")
            members |= set(line)
        return members

    def test_of_kept_logs(self) -> None:
        seen: dict[str, set[str]] = {}
        for log in sorted(LOGS.glob("*/strace.txt")):
            folder = self.folder(log.parent.name)
            converting.convert(folder, Ports())
            for file, name in self.FILES.items():
                if (folder / file).exists():
                    lines = [line for _, line in jsonl.numbered(folder / file)]
                    seen.setdefault(name, set()).update(self.is_described(folder / file, name, lines))
            whole = [json.loads((folder / "converted.json").read_text(encoding="utf-8"))]
            self.is_described(folder / "converted.json", "converted", whole)
        self.assertLessEqual({"call", "kernel", "shown", "shown_to", "role"}, seen["record"])
        self.assertLessEqual({"made", "same", "shown", "target"}, seen["tree"])
        self.assertEqual(seen["unsaid"], {"line", "pid", "class", "call", "asks"})

    def test_classes_with_asks(self) -> None:
        classes = json.loads((DOCS / "recording.schema.json").read_text(encoding="utf-8"))["$defs"]["class_with_asks"]
        validator = Validator({"$schema": DIALECT, **classes})
        for log in sorted(LOGS.glob("*/strace.txt")):
            folder = self.folder(log.parent.name)
            converting.convert(folder, Ports())
            for line in self.lines(folder, "unsaid.jsonl"):
                self.assertEqual(not validator.faults(line["class"]), line.get("asks", False), line)
        package = (file.read_text(encoding="utf-8") for file in sorted(PACKAGE.rglob("*.py")))
        # A text that is broken in the source is one text.
        source = re.sub(r'"\s*f?"', "", "".join(package))
        for one in classes["oneOf"]:
            for text in one.get("enum", [one.get("pattern", "").removeprefix("^")]):
                self.assertTrue(text and text in source, text)

    def test_of_what_a_witness_heard(self) -> None:
        members: set[str] = set()
        for file in sorted(HEARD.glob("*/witness.jsonl")):
            first, *events, last = (line for _, line in jsonl.numbered(file))
            self.is_described(file, "heard_first", [first])
            members |= self.is_described(file, "event", events)
            self.is_described(file, "heard_last", [last])
        self.assertLessEqual({"path", "chain", "file", "flags", "last", "program", "ruleset", "fs", "nnp"}, members)

    def test_of_recordings_by_the_witness(self) -> None:
        classes = json.loads((DOCS / "recording.schema.json").read_text(encoding="utf-8"))["$defs"]["class_with_asks"]
        validator = Validator({"$schema": DIALECT, **classes})
        for name in ("by_witness", "received_ruleset", "unit"):
            folder = Path(shutil.copytree(HEARD / name, Path(self.enterContext(tempfile.TemporaryDirectory()), name)))
            converting.convert(folder, Ports())
            for file, kind in self.FILES.items():
                if (folder / file).exists():
                    self.is_described(folder / file, kind, [line for _, line in jsonl.numbered(folder / file)])
            for _, line in jsonl.numbered(folder / "unsaid.jsonl"):
                self.assertEqual(not validator.faults(line["class"]), line.get("asks", False), line)

    def test_what_is_no_line(self) -> None:
        for name, line in (("tree", {"path": "a", "kind": "reg"}), ("tree", {"path": "/a", "kind": None}),
                           ("record", {"op": "open", "pid": 1, "otherwise": False}), ("unsaid", {"line": 1, "pid": 1}),
                           ("heard_last", {"end": True}), ("converted", {"format": 2})):
            with self.subTest(name, line=line), self.assertRaises(AssertionError):
                self.is_described(Path(name), name, [line])


@unittest.skipUnless(BUILT.exists(), f"{BUILT} is not built")
class Built(KeptLogs):
    """What both commands print, by the built landaudit."""

    def called(self, program: Any, *words: object) -> dict[str, Any]:
        """What a command prints as data."""
        status, out, errors = called([*words, "--json"], program)
        self.assertIn(status, (0, 1, 5), errors)
        found: dict[str, Any] = json.loads(out)
        return found

    def file(self, name: str, text: str) -> Path:
        """A file in the test's folder."""
        path = Path(self._folder) / name
        path.write_text(text, encoding="utf-8")
        return path

    def test_audits_of_kept_logs(self) -> None:
        policy = self.file("policy.toml", POLICY)
        for name in ("descriptors", "forks", "moves", "objects", "policy", "script", "threads"):
            folder = self.folder(name)
            converting.convert(folder, Ports())
            for words in (("--as-recorded",), ("--policy", policy)):
                with self.subTest(name, words=words):
                    data = self.called(cli.RECORD, "audit", folder, *words)
                    self.assertEqual((AUDIT.faults(data), AUDIT.undescribed(data)), ([], []))
                    self.assertTrue(data["refusals"] or data["as_recorded"])

    def test_comparisons(self) -> None:
        policy = self.file("policy.toml", POLICY)
        other = POLICY.replace('"read"', '"read", "execute"').replace("[80, 443]", "[1, 2, 3]")
        kinds = set()
        for words in ((self.file("old.toml", other), policy), (policy, self.file("old.toml", other)),
                      (policy, "--old-allows", "nothing"), (policy, "--old-allows", "everything", "--abi", "1")):
            data = self.called(cli.POLICY, "diff", *words)
            self.assertEqual((DIFF.faults(data), DIFF.undescribed(data)), ([], []))
            kinds |= {one["kind"] for one in (*data["more"], *data["less"])}
        self.assertLessEqual({"rights", "ports", "moves", "mounts", "scope"}, kinds)

    def test_a_check(self) -> None:
        data = self.called(cli.POLICY, "check", self.file("policy.toml", POLICY), self.file("cases.toml", CASES))
        self.assertEqual((CHECK.faults(data), CHECK.undescribed(data)), ([], []))
        self.assertEqual((data["held"] + data["failed"], len(data["results"]), len(data["questions"])), (10, 8, 2))
        self.assertEqual([(one["kind"], one["holds"]) for one in data["questions"]], [("nothing", True), ("never", False)])
        by_case = {f"{one['call']} {one['place']}": one for one in data["results"]}
        self.assertEqual([by_case[case]["holds"] for case in ("open r /etc/passwd", "open r /usr")], [True, False])
        (layer,) = by_case["open r /etc/passwd"]["answers"][0]["layers"]
        self.assertEqual(layer["objections"], [
            {"text": "read_file on /etc/passwd", "rights": ["read_file"], "path": "/etc/passwd"}])
        (grant,) = by_case["connect port 80"]["grants"]
        self.assertEqual(grant, {"text": "layer 1: net_port 1 on port 80 grants connect_tcp", "layer": 1,
                                 "rule": "net_port 1", "on": "port 80", "rights": ["connect_tcp"]})
        self.assertEqual([one["abi"] for one in by_case["connect port 80"]["answers"]], [4, 5])
        self.assertEqual(by_case["mount -"]["answers"][0]["error"], "EPERM")
