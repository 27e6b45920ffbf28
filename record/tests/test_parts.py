"""Recordings in parts: nothing is answered otherwise than in one trace, and what is not whole is not audited."""

from __future__ import annotations

import json
import tempfile
import unittest
from pathlib import Path
from unittest import mock

from landaudit_record.commands.record import convert
from landaudit_record.policy import policies
from landaudit_record.policy.policies import Policy
from landaudit_record.recorder import converting, writing
from landaudit_record.recorder.ports import Ports
from landaudit_record.recorder.writing import LIMITS, Limits, ListedTree, Recording

from .answers import answers, parts, wanting
from .calling import called
from .kept_logs import LOGS, KeptLogs
from .stories import names, told
from .written_logs import CWD, WrittenLogs

TENTH = Limits(own=10)
POLICIES = {
    "reading": """[[layer]]
handled_access_fs = ["all"]
[[layer.path_beneath]]
allowed_access = ["read", "execute"]
parent = ["/usr", "/bin", "/a"]
""",
    "two layers": """[[layer]]
handled_access_fs = ["write_file", "truncate", "ioctl_dev", "refer"]
handled_access_net = ["bind_tcp"]
[[layer.path_beneath]]
allowed_access = ["write_file", "refer"]
parent = "/a/b"
[[layer]]
handled_access_fs = ["read_file", "make_reg"]
[[layer.path_beneath]]
allowed_access = ["read_file"]
parent = ["/d", "/tmp"]
""",
}


class Parts(KeptLogs):
    """Recordings cut at every tenth record, against the same in one trace."""

    def policy(self, text: str) -> Policy:
        path = Path(self._folder) / "policy.toml"
        path.write_text(text)
        return policies.read(path)

    def assert_alike(self, one: Path, cut: Path, *tried: tuple[str, str | None]) -> None:
        """Both recordings are answered alike: as they are, and under policies before programs."""
        self.assertEqual(parts(one), 1)
        self.assertGreater(parts(cut), 1)
        self.assertEqual(answers(one, best_effort=False), answers(cut, best_effort=False))
        for name, program in tried:
            with self.subTest(name, program=program):
                policy = self.policy(POLICIES[name])
                self.assertEqual(answers(one, policy, program), answers(cut, policy, program))

    @unittest.skipIf(wanting(), wanting() or "")
    def test_kept_logs(self) -> None:
        ports = convert.ports_of(policies.read(LOGS / "ports.toml"))
        for log in sorted(path.name for path in LOGS.iterdir() if path.is_dir()):
            one, cut = self.folder(log), self.folder(log).rename(Path(self._folder) / f"{log}-cut")
            one = self.folder(log)
            converting.convert(one, ports)
            converting.convert(cut, ports, TENTH)
            with self.subTest(log):
                self.assert_alike(one, cut, ("reading", None))

    @unittest.skipIf(wanting(), wanting() or "")
    def test_a_random_story(self) -> None:
        one, cut = (self.told(3, limits) for limits in (LIMITS, TENTH))
        self.assert_alike(one, cut, ("reading", None), ("two layers", "gcc"))

    @unittest.skipIf(wanting(), wanting() or "")
    def test_the_same_rules_are_suggested(self) -> None:
        one, cut = (self.told(3, limits) for limits in (LIMITS, TENTH))
        self.policy(POLICIES["two layers"])
        of_one = self.said("suggest", one)
        self.assertIn("[[layer.path_beneath]]", of_one)
        self.assertEqual(self.said("suggest", cut), of_one)

    @unittest.skipIf(wanting(), wanting() or "")
    def test_the_same_rights_are_needed(self) -> None:
        """The first line says how many audits there were, and each part has its own."""
        one, cut = (self.told(3, limits) for limits in (LIMITS, TENTH))
        self.policy(POLICIES["reading"])
        of_one = self.said("tighten", one).splitlines()[1:]
        self.assertTrue(any("# needed by" in line for line in of_one))
        self.assertEqual(self.said("tighten", cut).splitlines()[1:], of_one)

    def said(self, command: str, recording: Path) -> str:
        """What a subcommand prints of the policy that was read last."""
        return called([command, recording, "--policy", Path(self._folder) / "policy.toml"])[1]

    def told(self, seed: int, limits: Limits, calls: int = 100) -> Path:
        """The recording of a random story."""
        return told(Path(tempfile.mkdtemp(dir=self._folder)), seed, calls, limits)

    def test_what_a_part_begins_with_is_marked_and_the_rest_is_the_trace(self) -> None:
        one, cut = (self.told(1, limits) for limits in (LIMITS, TENTH))
        whole = (one / "trace.jsonl").read_text().splitlines()
        own: list[str] = []
        for number in range(1, parts(cut) + 1):
            lines = (cut / f"trace-{number}.jsonl").read_text().splitlines()
            fresh = [line for line in lines if "again" not in json.loads(line)]
            self.assertEqual(lines[len(lines) - len(fresh):], fresh)
            own += fresh
        self.assertEqual(own, whole)

    def test_the_trees_of_the_parts_are_the_tree(self) -> None:
        one, cut = (self.told(1, limits) for limits in (LIMITS, TENTH))
        listed = [line for number in range(1, parts(cut) + 1)
                  for line in (cut / f"tree-{number}.jsonl").read_text().splitlines()]
        self.assertEqual(set(listed), set((one / "tree.jsonl").read_text().splitlines()))


def _looked_for(number: int) -> str:
    return f'openat({CWD}, "/w/d/h{number}", 0 /* O_RDONLY */) = -1 ENOENT (No such file or directory)'


#: A program looks for files over and over that are not there, makes one of them, and moves it.
SEARCH = (
    *map(_looked_for, (*range(6), *range(6))),
    f'openat({CWD}, "/w/d/h3", 0x41 /* O_WRONLY|O_CREAT */, 0644) = 3</w/d/h3>',
    "close(3</w/d/h3>) = 0",
    *map(_looked_for, (0, 1, 2, 4, 5)),
    f'openat({CWD}, "/w/d/h3", 0 /* O_RDONLY */) = 3</w/d/h3>',
    'rename("/w/d/h3", "/w/d/h4") = 0',
    *map(_looked_for, (0, 1, 2, 3, 5)),
    f'openat({CWD}, "d/h4", 0 /* O_RDONLY */) = 4</w/d/h4>',
    "close(3</w/d/h4>) = 0",
)
#: The paths that this is to be in a trace: what is missing has a name that nothing ever has.
MISSING = {f"/w/d/h{number}~new~" for number in range(6)}


class Search(WrittenLogs):
    """A log in which more is looked for than is there, in one part and in several."""

    def setUp(self) -> None:
        super().setUp()
        self.conversion(*SEARCH)

    def files(self, limits: Limits) -> dict[str, list[str]]:
        """The lines of the traces and trees that the log becomes, by the files' names."""
        converting.convert(self.out, Ports(), limits)
        paths = [*self.out.glob("trace*.jsonl"), *self.out.glob("tree*.jsonl")]
        return {path.name: path.read_text().splitlines() for path in sorted(paths)}

    def test_what_is_missing_is_in_no_tree(self) -> None:
        files = self.files(LIMITS)
        named = {json.loads(line).get("path") for line in files["trace.jsonl"]}
        listed = {json.loads(line)["path"] for line in files["tree.jsonl"]}
        self.assertLessEqual(MISSING, named)
        self.assertFalse(MISSING & listed)

    def test_parts_have_the_records_of_the_whole_and_the_objects_that_they_name(self) -> None:
        whole, cut = self.files(LIMITS), self.files(TENTH)
        traces = sorted((name for name in cut if name.startswith("trace")), key=lambda name: (len(name), name))
        self.assertGreater(len(traces), 1)
        own = [line for name in traces for line in cut[name] if "again" not in json.loads(line)]
        self.assertEqual(own, whole["trace.jsonl"])
        for name in traces:
            named = {json.loads(line).get("path") for line in cut[name]}
            tree = cut[name.replace("trace", "tree")]
            wanted = [line for line in whole["tree.jsonl"] if json.loads(line)["path"] in named]
            self.assertLessEqual(set(wanted), set(tree))
            self.assertLessEqual(set(tree), set(whole["tree.jsonl"]))

    def test_names_may_be_forgotten_at_any_time(self) -> None:
        """What is kept of what is missing is kept for speed alone."""
        for limits in (LIMITS, TENTH):
            kept = self.files(limits)
            for most in (1, 2, 5):
                with self.subTest(own=limits.own, most=most), mock.patch.object(writing, "KEPT", most):
                    self.assertEqual(self.files(limits), kept)

    def test_how_much_is_kept_of_what_is_missing(self) -> None:
        """The root and the names in one call are beside what is kept."""
        with mock.patch.object(writing, "KEPT", 3), Recording(self.out, ListedTree(names())) as recording:
            for number in range(50):
                recording.tree.gap("/a/b", [f"h{number}"])
                recording.write("truncate", 1, number, "ok", path=f"/a/b/h{number}~new~")
                recording.commit()
            self.assertLessEqual(len(recording.tree._gaps), 3)
            self.assertLessEqual(len(recording._others), 3)
