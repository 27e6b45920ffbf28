"""Distilled recordings: they are judged as what they were made of, and files of equal recordings are equal."""

from __future__ import annotations

import json
import random
import shutil
import unittest
from collections.abc import Sequence
from pathlib import Path

from landaudit_record.audit import distilled
from landaudit_record.common import finished, jsonl
from landaudit_record.common.rights import FILE_RIGHTS, FS
from landaudit_record.engine.landaudit import BUILT
from landaudit_record.recorder import converting, recordings
from landaudit_record.recorder.ports import Ports
from landaudit_record.recorder.writing import Limits

from . import brute, standing, stories
from .calling import InFolder
from .json_schema import DIALECT, DOCS, Validator
from .kept_logs import LOGS
from .recorded import records, write_lines

#: How many random recordings of each kind are compared; 60 were, once.
SEEDS = 12
POLICY = """[[layer]]
handled_access_fs = ["all"]
handled_access_net = ["all"]
"""


class Scratch(InFolder):
    """A test with a folder."""

    def recording(self, name: str, *calls: jsonl.Record, tree: Sequence[jsonl.Record] = ()) -> Path:
        """A recording that is written by hand: each of its records is a call, or they say their calls."""
        folder = self.folder / name
        folder.mkdir()
        write_lines(folder / "tree.jsonl", tree)
        write_lines(folder / "trace.jsonl", ({"call": at, **one} for at, one in enumerate(records(*calls), start=1)))
        return folder

    def lines(self, *recordings: Path) -> list[jsonl.Record]:
        """The lines of these recordings, distilled."""
        file = standing.distill(recordings, self.folder / "file")
        return [line for _, line in jsonl.numbered(file)]


class Kept(Scratch):
    """What a file has."""

    def test_each_call_is_there_once_with_how_often_which_process_made_it(self) -> None:
        read = {"op": "open", "path": "/f", "mode": "r", "kernel": "ok"}
        ran = {"op": "exec", "path": "/bin/p", "kernel": "ok"}
        found = self.lines(self.recording(
            "r", {**read, "fd": 3}, {"op": "close", "fd": 3}, ran, {**read, "fd": 3}, {**read, "fd": 4},
            {"op": "adopt", "fd": 5, "kind": "device"}, {"op": "ioctl", "fd": 5, "driver": True},
            tree=[{"path": "/f", "kind": "reg"}],
        ))
        self.assertEqual(found[0], {"distilled": 1})
        self.assertEqual([line for line in found if "path" in line], [{"path": "/f", "kind": "reg"}])
        steps = {line["process"]: line["steps"] for line in found if "process" in line}
        before, after = sorted(steps)
        self.assertTrue(before.startswith("-:") and after.startswith("p:"), steps)
        self.assertEqual(steps[after], [{"start": True}, {"ran": "/bin/p", "first": True}])
        self.assertEqual([(line["asks"], line["by"]) for line in found if "asks" in line],
                         [([ran], {before: 1}), ([read], {before: 1, after: 2})])

    def test_the_links_of_listed_directories_are_kept(self) -> None:
        """A policy may have a rule on one that the run did not touch."""
        recording = self.recording("r", {"op": "exec", "path": "/bin/p"})
        there = self.folder / "there"
        there.mkdir()
        (there / "file").touch()
        (there / "link").symlink_to("file")
        recordings.watch(recording, [str(there)])
        (recording / "recording.json").write_text(json.dumps({"watched": [str(there)], "unlisted": []}))
        finished.Converted((finished.Size(1, 0, 0, (recording / "trace.jsonl").stat().st_size),), 1, 1).write(recording)
        self.assertEqual([line for line in self.lines(recording) if "before" in line],
                         [{"before": f"{there}/link", "kind": "sym", "target": "file"}])

    def test_a_descriptor_is_known_by_what_opened_it_and_by_the_steps_since(self) -> None:
        write = {"op": "open", "path": "/f", "mode": "w"}
        found = self.lines(self.recording("r", {**write, "fd": 3}, {"op": "dup", "fd": 3, "to": 7},
                                          {"op": "exec", "path": "/p"}, {"op": "ftruncate", "fd": 7}))
        self.assertIn([{"op": "ftruncate", "on": [{**write, "ago": 1}]}],
                      [line["asks"] for line in found if "asks" in line])

    def test_arguments_contents_and_environment_are_not_there(self) -> None:
        folder = shutil.copytree(LOGS / "setpriv", self.folder / "setpriv")
        converting.convert(folder, Ports())
        about = json.loads((folder / "recording.json").read_text())
        text = standing.distill([folder], self.folder / "file").read_text()
        arguments = [word for word in about["command"] if word.startswith("path-beneath:")]
        self.assertEqual(len(arguments), 3)
        for word in arguments:
            self.assertNotIn(word, text)
        of_records = set("op path from to port mode create trunc kind exchange driver kernel shown shown_to unknown "
                         "otherwise cuts role scoped on ago fd fs net rs of".split())
        for line in map(json.loads, text.splitlines()):
            for record in line.get("asks", ()):
                self.assertLessEqual(set(record), of_records)

    def test_each_line_is_as_the_schema_says(self) -> None:
        schema = json.loads((DOCS / "recording.schema.json").read_text(encoding="utf-8"))
        validators = {name: Validator({"$schema": DIALECT, "$ref": f"#/$defs/{name}", "$defs": schema["$defs"]})
                      for name in ("tree", "distilled")}
        seen: set[str] = set()
        for number in range(4):
            (self.folder / str(number)).mkdir()
            stories.told(self.folder / str(number), number, 100)
        for line in self.lines(*(self.folder / str(number) for number in range(4)))[1:]:
            validator = validators["tree" if "path" in line else "distilled"]
            self.assertEqual((validator.faults(line), validator.undescribed(line)), ([], []), line)
            seen |= set(line)
        self.assertLessEqual({"asks", "by", "process", "steps", "starting", "recording", "path"}, seen)

    def test_lines_are_in_one_order_whatever_the_order_of_calls(self) -> None:
        calls: list[jsonl.Record] = [{"op": "truncate", "path": f"/{name}"} for name in "dbacb"]
        tree = [{"path": f"/{name}", "kind": "reg"} for name in "abcd"]
        texts = []
        for name, some in (("one", calls), ("other", calls[::-1])):
            self.recording(name, *some, tree=tree if name == "one" else tree[::-1])
            texts.append(standing.distill([self.folder / name], self.folder / f"{name}.d").read_bytes())
        self.assertEqual(*texts)
        asked = [line for line in texts[0].splitlines() if line.startswith(b'{"asks"')]
        self.assertEqual(asked, sorted(asked))

    def test_a_name_that_is_not_utf_8_is_read_back(self) -> None:
        tree = [{"path": "/\udcff", "kind": "reg"}]
        folder = self.recording("r", {"op": "truncate", "path": "/\udcff"}, tree=tree)
        again = standing.distill([folder], self.folder / "a")
        self.assertEqual(again.read_bytes(), standing.distill([again], self.folder / "b").read_bytes())

    def test_what_is_no_such_file(self) -> None:
        folder = self.recording("r", {"op": "exec", "path": "/p"}, tree=[{"path": "/p", "kind": "reg"}])
        whole = standing.distill([folder], self.folder / "file").read_text().splitlines()
        policy = self.folder / "P.toml"
        policy.write_text(POLICY)
        for line, instead in ((0, '{"distilled":2}'), (1, '{"recording":[]}'), (1, '{"recording":{}}'),
                              (-1, '{"asks":[{"op":"exec"}],"by":{"p":1}}'), (-1, '{"asks":[{}],"by":{}}'),
                              (-1, whole[-1].replace(":1}", ":0}")), (-1, whole[-1].replace(":1}", f":{'9' * 4000}}}")),
                              (-1, "{"), (-2, '{"process":"p","steps":[1]}'),
                              (-1, whole[-1].replace('"op":"exec"', '"op":"open","on":[{"op":"open","ago":9}]'))):
            with self.subTest(instead):
                bad = self.folder / "bad"
                lines = [*whole]
                lines[line] = instead
                bad.write_text("".join(f"{one}\n" for one in lines))
                status, out, errors = standing.called(["audit", bad, "--policy", policy])
                self.assertEqual((status, out), (3, ""), errors)
                self.assertIn(f"landaudit-record: {bad}", errors)
                self.assertEqual(len(errors.splitlines()), 1, errors)


@unittest.skipUnless(BUILT.exists(), f"{BUILT} is not built")
class Stands(Scratch):
    """Files say what their recordings say."""

    def same(self, recordings: Sequence[Path], words: Sequence[object], *, tighten: bool = True) -> int:
        """Compares all that is said of recordings with what is said of their files; the number of kinds refused."""
        files = [standing.distill([one], self.folder / f"{one.name}.d") for one in recordings]
        said, of_files = (standing.audited([*some, *words]) for some in (recordings, files))
        if any((one / "tree-2.jsonl").exists() for one in recordings):
            for found in (said, of_files):
                standing.without_what_parts_list(found)
        self.assertEqual(of_files, said)
        abi = words[words.index("--abi") + 1] if "--abi" in words else "5"
        one_abi = [word for word in words if word not in ("--abi", abi)] + ["--abi", str(abi).rpartition("-")[2]]
        for command in ("suggest", "tighten") if tighten else ("suggest",):
            self.assertEqual(standing.printed(command, [*files, *one_abi]),
                             standing.printed(command, [*recordings, *one_abi]))
        return 0 if isinstance(said, str) else len(said["refusals"])

    def test_random_recordings(self) -> None:
        """As `tighten` is tried on: policies of ten rules, one or two recordings each."""
        kinds = 0
        for seed in range(SEEDS):
            with self.subTest(seed):
                folder = self.folder / str(seed)
                folder.mkdir()
                *words, = brute.Recorded.of(seed, 80).written(folder)
                kinds += self.same([Path(word) for word in words[4:]], words[:4])
        self.assertGreater(kinds, 2 * SEEDS)

    def test_random_stories(self) -> None:
        """Processes with layers of their own, numbers that are open already, programs that are run again, parts."""
        kinds = 0
        for seed in range(SEEDS):
            with self.subTest(seed):
                of = random.Random(seed)
                limits = of.choice((Limits(), Limits(own=40), Limits(own=120)))
                folder = self.folder / f"story-{seed}"
                folder.mkdir()
                told = stories.told(folder, seed, 200, limits)
                policy = self.folder / "P.toml"
                policy.write_text(_policy(of))
                words = ["--policy", policy, *of.choice(([], ["--program", "sh"], ["--program", "/usr/bin/cc"])),
                         *of.choice(([], [], ["--as-recorded"])), "--abi", of.choice(("1-5", "5", "2"))]
                kinds += self.same([told], words, tighten=False)
        self.assertGreater(kinds, 2 * SEEDS)

    def test_kept_logs(self) -> None:
        for name in ("descriptors", "forks", "moves", "objects", "policy", "script", "setpriv", "threads"):
            with self.subTest(name):
                folder = shutil.copytree(LOGS / name, self.folder / name)
                converting.convert(folder, Ports())
                policy = self.folder / "P.toml"
                policy.write_text(POLICY + '[[layer.path_beneath]]\nallowed_access = ["all"]\nparent = "/usr"\n')
                self.assertGreater(self.same([folder], ["--policy", policy]), 0)


def _policy(of: random.Random) -> str:
    """A policy on the paths of stories."""
    text = ""
    for _ in range(of.choice((1, 1, 2, 3))):
        text += POLICY
        for _ in range(of.randrange(6)):
            is_file = of.random() < 0.4
            path = of.choice((*stories.FILES, *stories.DEVICES) if is_file else (*stories.DIRECTORIES, *stories.LINKS, "/"))
            names = sorted(FILE_RIGHTS) if is_file else [*FS.since]
            some = [right for right in names if of.random() < 0.5] or ["read_file"]
            text += f"[[layer.path_beneath]]\nallowed_access = {json.dumps(some)}\nparent = {json.dumps(path)}\n"
        text += '[[layer.net_port]]\nallowed_access = ["all"]\nport = 80\n' if of.random() < 0.5 else ""
    return text
