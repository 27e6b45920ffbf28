"""landaudit-record merge: joined audits and distilled recordings are the same whatever is joined with what first."""

from __future__ import annotations

import json
import random
import tempfile
import unittest
from collections import Counter
from collections.abc import Callable, Sequence
from pathlib import Path
from typing import Any, TypeVar

from landaudit_record.audit import distilled, joining
from landaudit_record.common.jsonl import Record
from landaudit_record.common.problems import Problem
from landaudit_record.engine.landaudit import BUILT
from landaudit_record.recorder.names import MADE_OR_THERE

from . import brute, standing, stories
from .calling import InFolder
from .json_schema import Validator
from .recorded import write_lines

SCHEMA = Path(__file__).resolve().parents[2] / "docs" / "audit.schema.json"
TREES = 100
T = TypeVar("T")


def random_audit(of: random.Random, name: str) -> dict[str, Any]:
    """What an audit of one recording may print; few texts, so that audits have much in common."""
    def counts(names: str) -> dict[str, int]:
        return {f"/{name}": of.randrange(1, 9) for name in names if of.random() < 0.5} or {"/p": 1}

    def kind(**more: str) -> dict[str, Any]:
        programs = counts("pqr")
        path = of.choice(("/a", "/b"))
        kept = {"opened": of.randrange(1, 99)} if of.random() < 0.5 else {}
        about = f"truncate on {path}" + (f", opened at line {kept['opened']}" if kept else "")
        objection = {"text": about, "rights": ["truncate"], "path": path, **kept}
        return {"times": sum(programs.values()), "call": of.choice(("open r", "ftruncate")), "place": path,
                "error": "EACCES", "layers": [{"number": 1, "policy": 1, "objections": [objection]}],
                "condition": None, "programs": programs, **more}

    def some(make: Callable[[], T]) -> list[T]:
        return [make() for _ in range(of.randrange(4))]

    def verdicts() -> dict[str, int]:
        return {name: of.randrange(99) for name in ("records", "allowed", "refused", "moot", "unsure")}

    def place() -> dict[str, str]:
        return {"call": "open r", "place": of.choice(("/a", "/b")), "error": "EACCES"}

    def moot() -> dict[str, Any]:
        at = counts("xyz")
        return {"why": of.choice(("is not in the tree", "is a directory")), "times": sum(at.values()), "at": at}

    return {
        "format": 1, "recording": name, "policy": "P.toml", "as_recorded": False, "abi": 5, **verdicts(),
        "status": of.choice((0, 1, 5)),
        "refusals": some(kind), "may_be_refused": some(lambda: kind(unknown="its kind")),
        "accepted": some(lambda: {"times": of.randrange(1, 9), "call": "ioctl", "place": of.choice("ab"), "reason": "r"}),
        "moot_because": some(moot), "path_calls": of.randrange(99), "moot_path_calls": of.randrange(99),
        "warnings": some(lambda: {"text": of.choice(("one", "two")), "times": of.randrange(1, 5)}),
        "unsaid": counts("uv"), "not_judged": some(lambda: of.choice(("cut", "2 calls"))), "not_traced": ["signals"],
        "abis": [{"abi": abi, **verdicts(), "breaks": some(place), "refused_no_more": some(place),
                  "more_warnings": some(lambda: of.choice(("three", "four")))} for abi in range(1, 6)],
    }


def in_some_order(of: random.Random, leaves: Sequence[T], join: Callable[[list[T]], T]) -> T:
    """All leaves, joined by a random tree of joins."""
    left = list(leaves)
    while len(left) > 1:
        some = [left.pop(of.randrange(len(left))) for _ in range(min(of.choice((1, 2, 2, 3)), len(left)))]
        left.append(join(some))
    return join(left)


class Audits(unittest.TestCase):
    def setUp(self) -> None:
        self.folder = Path(self.enterContext(tempfile.TemporaryDirectory()))
        self._number = 0

    def written(self, text: str) -> Path:
        """A new file."""
        self._number += 1
        path = self.folder / f"{self._number}"
        path.write_text(text)
        return path

    def merged(self, files: list[Path]) -> Path:
        status, out, errors = standing.called(["merge", *files])
        self.assertEqual((status, errors), (json.loads(out)["status"], ""))
        return self.written(out)

    def test_the_order_does_not_matter(self) -> None:
        validator = Validator.of("audit.schema.json")
        for seed in range(TREES):
            with self.subTest(seed):
                of = random.Random(seed)
                audits = [random_audit(of, f"rec-{number}") for number in range(of.randrange(1, 7))]
                for audit in audits:
                    self.assertEqual(list(validator.faults(audit)), [])
                files = [self.written(json.dumps(audit)) for audit in audits]
                one, other = (in_some_order(of, files, self.merged).read_text() for _ in range(2))
                self.assertEqual(one, other)
                self.check_sums(json.loads(one), audits)
                self.assertEqual(list(validator.faults(json.loads(one))), [])

    def test_the_status_is_that_of_an_audit_of_all(self) -> None:
        """landaudit-record(1), EXIT STATUS: 1 if something is refused, else 5 if something may be."""
        audit = random_audit(random.Random(1), "")
        for statuses, of_all in (([0, 0], 0), ([0, 5], 5), ([5, 1], 1), ([1, 0, 5], 1), ([5], 5)):
            files = [self.written(json.dumps({**audit, "recording": str(number), "status": status}))
                     for number, status in enumerate(statuses)]
            self.assertEqual(standing.called(["merge", *files, "-o", self.folder / "all"])[0], of_all, statuses)
        status, _, errors = standing.called(["merge", self.written(json.dumps({**audit, "status": 3}))])
        self.assertEqual((status, "3 is no status of an audit" in errors), (3, True), errors)

    def check_sums(self, found: dict[str, Any], audits: list[dict[str, Any]]) -> None:
        """Counts of a joined audit are those of its audits together."""
        for name in ("records", "allowed", "refused", "moot", "unsure", "path_calls", "moot_path_calls"):
            self.assertEqual(found[name], sum(audit[name] for audit in audits))
        for name in ("refusals", "may_be_refused"):
            by_program: list[Counter[tuple[str, str, str]]] = [Counter(), Counter()]
            for count, some in zip(by_program, ([found], audits)):
                for kind in (kind for audit in some for kind in audit[name]):
                    for program, times in kind["programs"].items():
                        count[kind["call"], kind["place"], program] += times
            self.assertEqual(*by_program)
        where = {(kind["call"], kind["place"], name) for kind in found["refusals"] for name in kind["recordings"]}
        self.assertEqual(where, {(kind["call"], kind["place"], audit["recording"])
                                 for audit in audits for kind in audit["refusals"]})
        self.assertEqual([one["recording"] for one in found["merged"]], sorted(one["recording"] for one in audits))

    def test_what_can_not_be_joined(self) -> None:
        of = random.Random(1)
        one = random_audit(of, "a")
        for other, why in (
            ({**random_audit(of, "b"), "policy": "Q.toml"}, "audits whose policy differs"),
            ({**random_audit(of, "b"), "abi": 4}, "audits whose abi differs"),
            (random_audit(of, "a"), "a is in two of the audits"),
            ({**random_audit(of, "b"), "abis": []}, "audits at different ABIs"),
            ({**random_audit(of, "b"), "format": 2}, "is of format 2"),
            ({**random_audit(of, "b"), "refusals": 1}, "is not what landaudit-record audit --json prints"),
            ({**random_audit(of, "b"), "records": 10**4000}, "a number has more than 15 digits"),
            ({"format": 1}, "is not what landaudit-record audit --json prints"),
        ):
            with self.subTest(why):
                files = [self.written(json.dumps(audit)) for audit in (one, other)]
                status, out, errors = standing.called(["merge", *files])
                self.assertEqual((status, out, len(errors.splitlines())), (3, "", 1))
                self.assertIn(why, errors)
        for text in ("", "[]", "{", "1", "[" * 100_000):
            self.assertEqual(standing.called(["merge", self.written(text)])[0], 3)
        with self.assertRaises(Problem):
            joining.read(self.folder / "none")


@unittest.skipUnless(BUILT.exists(), f"{BUILT} is not built")
class Recordings(InFolder):
    def told(self, count: int) -> list[Path]:
        """Random stories."""
        folders = [self.folder / f"rec-{seed}" for seed in range(count)]
        for seed, folder in enumerate(folders):
            folder.mkdir()
            stories.told(folder, seed, 60)
        return folders

    def test_joined_audits_are_the_audit_of_all(self) -> None:
        recordings = self.told(3)
        policy = self.folder / "P.toml"
        policy.write_text('[[layer]]\nhandled_access_fs = ["all"]\n')
        files = []
        for folder in recordings:
            out = standing.called(["audit", folder, "--policy", policy, "--json"])[1]
            files.append(folder.with_suffix(".json"))
            files[-1].write_text(out)
        merged, audited = ["merge", *files], ["audit", *recordings, "--policy", policy, "--json"]
        joined, whole = (json.loads(standing.called(words)[1]) for words in (merged, audited))
        for name in ("records", "allowed", "refused", "moot", "unsure", "path_calls", "moot_path_calls", "unsaid"):
            self.assertEqual(joined[name], whole[name], name)
        kinds = [Counter((kind["call"], kind["place"], kind["times"], str(sorted(kind["programs"].items())),
                          *sorted(kind["recordings"])) for kind in one["refusals"]) for one in (joined, whole)]
        self.assertGreater(len(kinds[0]), 10)
        self.assertEqual(*kinds)
        self.assertEqual([(step["abi"], step["refused"]) for step in joined["abis"]],
                         [(step["abi"], step["refused"]) for step in whole["abis"]])
        again = self.folder / "whole.json"
        again.write_text(json.dumps(whole))
        self.assertEqual(json.loads(standing.called(["merge", again])[1]), joined)

    def test_it_ends_as_the_audit_of_all(self) -> None:
        """Of the recordings one writes, one may have made the file for that, and one moves a file, which ABI 1 refuses
        whatever the rules are."""
        starts: list[Record] = [{"op": "start"}, {"op": "exec", "path": "/program"}]
        write: Record = {"op": "open", "path": "/a/f", "mode": "w", "fd": 3}
        doubt = {"unknown": MADE_OR_THERE, **write}
        made = {"unknown": MADE_OR_THERE, "otherwise": True, **write, "fd": 4, "path": "/a/new", "create": True}
        of_file = {"write": [write], "make": [doubt, made], "move": [{"op": "link", "from": "/a/f", "to": "/b/g"}]}
        kinds = {"/a": "dir", "/a/f": "reg", "/b": "dir", "/program": "reg"}
        for name, records in of_file.items():
            folder = self.folder / name
            folder.mkdir()
            write_lines(folder / "tree.jsonl", [{"path": path, "kind": kind} for path, kind in kinds.items()])
            write_lines(folder / "trace.jsonl", ({**record, "pid": 1, "call": 1} for record in (*starts, *records)))
        layer = '[[layer]]\nhandled_access_fs = ["write_file", "make_reg", "refer"]\n'
        granted = f'{layer}[[layer.path_beneath]]\nallowed_access = ["write_file", "refer"]\nparent = "/"\n'
        accepted = '[[accepted]]\ncall = "open w"\npath = "/a/f"\nreason = "never written"\n'
        for names, policy, expected in (
            ("write", granted, 0), ("write", layer, 1), ("write", layer + accepted, 0), ("write move", granted, 1),
            ("write make", granted, 5), ("make move", granted, 1),
        ):
            with self.subTest(names, policy=policy):
                self.check_ends([self.folder / name for name in names.split()], policy, expected)

    def check_ends(self, recordings: list[Path], policy: str, expected: int) -> None:
        """The status of an audit of recordings, and of their merged audits."""
        file = self.folder / "policy.toml"
        file.write_text(policy)
        files = [folder.with_suffix(".json") for folder in recordings]
        for folder, out in zip(recordings, files):
            out.write_text(standing.called(["audit", folder, "--policy", file, "--json"])[1])
        self.assertEqual(standing.called(["audit", *recordings, "--policy", file])[0], expected, policy)
        self.assertEqual(standing.called(["merge", *files])[0], expected, policy)

    def test_distilled_recordings_join_in_any_order(self) -> None:
        files = [standing.distill([one], one.with_suffix(".d")) for one in self.told(5)]
        texts = set()
        for seed in range(10):
            of = random.Random(seed)
            number = iter(range(100))

            def merged(some: list[Path]) -> Path:
                to = self.folder / f"{seed}-{next(number)}"
                self.assertEqual(standing.called(["merge", *some, "-o", to])[0], 0)
                return to

            texts.add(in_some_order(of, files, merged).read_bytes())
        self.assertEqual(len(texts), 1)
        self.assertEqual({line for file in files for line in file.read_bytes().splitlines() if b'"asks"' in line},
                         {line for line in texts.pop().splitlines() if b'"asks"' in line})

    def test_equal_recordings_are_one_with_twice_the_calls(self) -> None:
        (one,) = [standing.distill([it], it.with_suffix(".d")) for it in self.told(1)]
        twice = self.folder / "twice"
        self.assertEqual(standing.called(["merge", one, one, "-o", twice])[0], 0)
        (before,), (after,) = distilled.read(one), distilled.read(twice)
        self.assertEqual({asked: 2 * times for asked, times in before.calls.items()}, dict(after.calls))

    def test_audits_and_recordings_are_not_mixed(self) -> None:
        (one,) = [standing.distill([it], it.with_suffix(".d")) for it in self.told(1)]
        status, _, errors = standing.called(["merge", one, SCHEMA])
        self.assertEqual(status, 2, errors)

    def test_a_file_of_several_is_judged_as_its_recordings(self) -> None:
        for seed in range(4):
            folder = self.folder / str(seed)
            folder.mkdir()
            words = brute.Recorded.of(seed, 60).written(folder)
            recordings = [Path(word) for word in words[4:]]
            files = [standing.distill([one], one.with_suffix(".d")) for one in recordings]
            whole = self.folder / f"{seed}.d"
            standing.called(["merge", *files, "-o", whole])
            self.assertEqual(standing.audited([whole, *words[:4]]), standing.audited([*recordings, *words[:4]]))
