#!/usr/bin/env python3
"""Random policies by brute force: whether what landaudit-policy diff and check and landaudit-record tighten say holds.

    record/tests/brute.py [--pairs N] [--calls N] [--checks N] [--cases N] [--asked N] [--questions N]
                          [--policies N] [--records N] [--first SEED] [--landaudit PATH]

Of each pair of policies, random calls on random trees are asked of landaudit under both. Where one policy alone lets a
call pass, a line of `diff` is to cover something that the call needs; and a line is to cover a call that needs one
thing alone only where that differs. In half of the trees, the objects that policies have rules on are elsewhere, in one
another, and files have several names: there a line is to name a right that the call needs. For each line on objects
that are moved, a tree is made in which they are as it says. Paths are on this disk, where some of them are by way of
links; policies have scopes and groups of rules. Random cases about files on this disk are checked (`random_checks`), and
random questions about all objects (`random_questions`).

Of each policy of ten rules `tighten` makes another for random recordings: it is to grant nothing more and refuse
nothing new, and each right on each path and port is taken from it by itself, to see that something is refused. Policies
with a rule that the kernel refuses are counted apart: `tighten` is to name such a rule.
"""

from __future__ import annotations

import argparse
import contextlib
import json
import random
import re
import sys
import tempfile
import tomllib
from collections.abc import Collection, Iterable, Iterator, Sequence
from dataclasses import dataclass
from itertools import product
from pathlib import Path
from unittest import mock

if __name__ == "__main__":
    sys.path.insert(0, str(Path(__file__).resolve().parents[1]))

from landaudit_record import cli  # noqa: E402
from landaudit_record.common import jsonl  # noqa: E402
from landaudit_record.common.jsonl import Record  # noqa: E402
from landaudit_record.common.problems import UNREADABLE, Problem  # noqa: E402
from landaudit_record.common.rights import FS, NET, NEWEST_ABI, OLDEST_ABI, alone  # noqa: E402
from landaudit_record.common.trees import ROOT, joined  # noqa: E402
from landaudit_record.engine import landaudit  # noqa: E402
from landaudit_record.policy import asking, policies  # noqa: E402
from tests import covering, random_checks, random_questions  # noqa: E402
from tests.calling import called  # noqa: E402
from tests.random_calls import Call, Caller, Move, Port, Right  # noqa: E402
from tests.random_policies import (  # noqa: E402
    GROUPS, LINKS, NAMES, Kinds, Layer, Maker, Names, Policy, Rule, granted, meant, plain,
)
from tests.random_runs import Run  # noqa: E402

ABIS = range(OLDEST_ABI, NEWEST_ABI + 1)
TREES = 4
_ROW = re.compile(r" *([0-9]+)  ([a-z_]+) +layer ([0-9]+), (path_beneath|net_port) ([0-9]+) \((?:port ([0-9]+)|(.*))\)")
_REFUSED_RULE = re.compile(r"layer ([0-9]+), path_beneath ([0-9]+), parent (.*): the kernel refuses this rule: ")
_TABLES = {"path_beneath": "path", "net_port": "port"}
RULES = 10
APART = 1000
"""How far the numbers of processes are apart that are under different policies."""
OWN_NUMBERS = 10_000
"""From here on descriptors have numbers that recordings don't use for two."""
MOST_SHOWN = 3
ENDED = 128
"""From here on a status says that a signal ended the command, and so it ends this program."""
Abis = frozenset[int]


@dataclass(frozen=True)
class Answer:
    """At which ABIs a record is allowed, and at which the policy is not asked."""

    allowed: Abis
    moot: Abis


def judged(program: Path, folder: Path, kinds: Kinds, records: Sequence[Record], abis: range = ABIS) -> list[Answer]:
    """What landaudit answers to each record of a trace."""
    tree, trace, report = folder / "tree.jsonl", folder / "trace.jsonl", folder / "report.jsonl"
    asking.write_tree(tree, kinds)
    jsonl.write(trace, records)
    landaudit.audit(program, abis, tree, trace, report, best_effort=True, explain=False)
    with open(report, encoding="utf-8") as lines:
        return [_answer(next(lines)) for _ in records]


def _answer(line: str) -> Answer:
    """The answer on a line of a report."""
    found: dict[str, Abis] = {}
    for said in json.loads(line)["answers"]:
        first, last = said["abi"]
        found[said["answer"]] = found.get(said["answer"], frozenset()) | frozenset(range(first, last + 1))
    return Answer(found.get("allowed", frozenset()), found.get("moot", frozenset()))


def run(words: Sequence[str], program: cli.CommandLineProgram) -> tuple[int, str, str]:
    """The status of a command, and what it writes to standard output and to standard error."""
    status, out, errors = called(words, program)
    if status >= ENDED:
        sys.exit(status)
    return status, out, errors


# ---- landaudit-policy diff


@dataclass(frozen=True)
class Ground:
    """A folder with the directories and links that policies name; its groups of rules are those of the package here."""

    top: Path

    @classmethod
    @contextlib.contextmanager
    def made(cls) -> Iterator[Ground]:
        """A new one, for as long as the groups are in force."""
        with tempfile.TemporaryDirectory() as name:
            ground = cls(Path(name).resolve())
            for count in (1, 2, 3):
                for names in product(NAMES, repeat=count):
                    ground.top.joinpath(*names).mkdir()
            for link, to in LINKS.items():
                (ground.top / link[1:]).symlink_to(to[1:])
            (ground.top / "groups").mkdir()
            for group, rules in GROUPS.items():
                written = ((json.dumps(rule.words), json.dumps(rule.on)) for rule in rules)
                text = "".join(f"[[path_beneath]]\nallowed_access = {of}\nparent = {on}\n" for of, on in written)
                (ground.top / "groups" / f"{group}.toml").write_text(ground.on(text))
            with mock.patch.object(policies, "GROUPS", ground.top / "groups"):
                policies._group.cache_clear()
                yield ground
            policies._group.cache_clear()

    def on(self, policy: str) -> str:
        """A policy's text with its paths in the folder, but for the root."""
        return re.sub(r'"/(?=[^"])', f'"{self.top}/', policy)

    def off(self, said: str) -> str:
        """What is said of them, with paths as policies name them without the folder."""
        return said.replace(f"{self.top}/", "/")


@dataclass(frozen=True)
class Pair:
    """Two policies, by the seed that they were made by."""

    seed: int
    old: Policy
    new: Policy
    maker: Maker

    @classmethod
    def of(cls, seed: int) -> Pair:
        """Two policies of one to four layers, mostly close to one another."""
        maker = Maker(random.Random(seed))
        old = maker.policy(maker.of.choice((1, 1, 1, 2, 2, 3, 4)))
        near = maker.of.random() < 0.85
        new = maker.changed(old) if near else maker.policy(maker.of.randint(1, 4))
        dressing = Maker(random.Random(-seed - 1))
        if near and dressing.of.random() < 0.5:
            old = dressing.dressed(old)
            new = maker.changed(old)
        return cls(seed, dressing.dressed(old), dressing.dressed(new) if dressing.of.random() < 0.7 else new, maker)

    @property
    def changed(self) -> frozenset[str]:
        """The paths that one of the policies alone has some rule on, but for the root."""
        rules = ([rule for layer in it.layers for rule in layer.on_paths] for it in (self.old, self.new))
        old, new = ({(plain(str(path)), rule.words) for rule in of for path in rule.on} for of in rules)
        return frozenset(path for path, _ in old ^ new) - {ROOT}

    @property
    def directories(self) -> set[str]:
        """The paths that must be directories for both policies to be in force."""
        return self.old.directories | self.new.directories

    def in_force(self, kinds: Kinds, names: Names | None) -> Abis:
        """The ABIs at which the kernel takes all rules of both policies on a tree."""
        of = kinds if names is None else {path: kinds[each[0]] for path, each in names.items() if each}
        return frozenset(abi for abi in ABIS if not any(one.not_taken(of, abi) for one in (self.old, self.new)))

    def said(self, program: Path, ground: Ground) -> covering.Said:
        """What `diff` says of them."""
        paths = [ground.top / name for name in ("old.toml", "new.toml")]
        for path, policy in zip(paths, (self.old, self.new)):
            path.write_text(ground.on(policy.toml()))
        status, out, errors = run(["diff", *map(str, paths), "--landaudit", str(program)], cli.POLICY)
        assert status in (0, 1), errors
        return covering.read(status, ground.off(out), "/old.toml", "/new.toml", ABIS)

    def passing(
        self, program: Path, folder: Path, kinds: Kinds, calls: Sequence[Call], names: Names | None = None
    ) -> Iterator[tuple[Call, Abis, Abis]]:
        """Each call on a tree, and at which ABIs the old policy lets it pass, and the new one."""
        asked = [record for call in calls for record in call.records]
        records: list[Record] = []
        first: list[int] = []
        for pid, policy in enumerate((self.old, self.new), start=1):
            own = policy.records(kinds, None if names is None else lambda path: names.get(plain(path), ()))
            records += [{"op": "start", "pid": pid}, *({**record, "pid": pid} for record in own)]
            first.append(len(records))
            records += [{**record, "pid": pid} for record in asked]
        found = judged(program, folder, kinds, records)
        both = [iter(found[at:]) for at in first]
        for call in calls:
            old, new = (frozenset(ABIS).intersection(*(next(of_one).allowed for _ in call.records)) for of_one in both)
            yield call, old, new


@dataclass
class Tried:
    """How many calls were tried, how many differ, and what is at fault, in words."""

    calls: int
    differ: int
    faults: list[str]
    told: int = 0
    """Policies with a rule that the kernel refuses, which is told in the place of an answer."""


def compared(program: Path, seed: int, count: int, ground: Ground) -> Tried:
    """Tries the calls of a pair, on several trees."""
    pair, tried = Pair.of(seed), Tried(0, 0, [])
    said = pair.said(program, ground)
    tried.faults += [f"seed {seed}: {fault}" for fault in _of_wholes(pair, said)]
    with tempfile.TemporaryDirectory() as name:
        for number in range(TREES):
            paths, is_moved = pair.old.paths | pair.new.paths, number % 2 == 1
            kinds, names = (pair.maker.elsewhere(paths, pair.directories) if is_moved
                            else (pair.maker.tree(paths, pair.directories), None))
            near = pair.changed if names is None else frozenset(one for path in pair.changed for one in names[path])
            calls, abis = list(Caller(pair.maker.of, kinds, near).calls(count // TREES)), pair.in_force(kinds, names)
            for call, old, new in pair.passing(program, Path(name), kinds, calls, names):
                tried.calls += 1
                tried.differ += old != new
                faults = (faults_of if names is None else faults_elsewhere)(said, call, old, new, abis)
                tried.faults += [f"seed {seed}, {fault}: {call}" for fault in faults]
        tried.faults += [f"seed {seed}, {fault}" for fault in _of_chains(program, Path(name), pair, said)]
    return tried


def _of_wholes(pair: Pair, said: covering.Said) -> Iterator[str]:
    """What is at fault in the status, and in the lines on scopes and on the number of layers."""
    if said.status != bool(said.more):
        yield f"status {said.status}"
    for lines, one, other in ((said.more, pair.new, pair.old), (said.less, pair.old, pair.new)):
        texts = [line for line in lines if covering.OF_LAYERS.fullmatch(line.text.split(" (at ABI")[0])]
        scopes = [line for line in texts if "no scope" in line.text]
        if len(scopes) != len(other.scoped - one.scoped):
            yield f"scopes {other.scoped - one.scoped}: {scopes}"
        for abi in ABIS:
            fewer = any(one.used(abi, scopes=has) < other.used(abi, scopes=has) for has in (False, True))
            if fewer != any(abi in line.abis for line in texts if line not in scopes):
                yield f"number of layers at ABI {abi}"


def faults_elsewhere(said: covering.Said, call: Call, old: Abis, new: Abis, abis: Abis) -> Iterator[str]:
    """What is at fault, at some ABIs, in what is said of a call on objects that are not where policies name them.

    A move may differ there for the rights that an object would gain, which are on some line.
    """
    if any(isinstance(need, Move) for need in call.needs):
        for abi in sorted(abis):
            for one, other, lines in ((new, old, said.more), (old, new, said.less)):
                if abi in one and abi not in other and not any(abi in line.abis for line in lines):
                    yield f"ABI {abi}, a move elsewhere, and no line"
        return
    rights = {need.name for need in call.needs if isinstance(need, (Right, Port))}
    for abi in sorted(abis):
        for one, other, lines in ((new, old, said.more), (old, new, said.less)):
            named = any(abi in line.abis and not rights.isdisjoint(re.findall("[a-z_]+", line.text.split(" /")[0]))
                        for line in lines)
            if abi in one and abi not in other and rights and not named:
                yield f"ABI {abi}, elsewhere, not named"


#: What asks for a right alone, in a directory or on a file.
_ASKING: dict[str, Record] = {
    "read_file": {"op": "open", "mode": "r"},
    "write_file": {"op": "open", "mode": "w"},
    "execute": {"op": "exec"},
    "truncate": {"op": "truncate"},
    "read_dir": {"op": "open", "mode": "r"},
    "remove_file": {"op": "unlink"},
    "remove_dir": {"op": "rmdir"},
    "make_dir": {"op": "mkdir"},
    "make_sym": {"op": "symlink"},
    **{f"make_{kind}": {"op": "mknod", "kind": kind} for kind in ("reg", "char", "block", "fifo", "sock")},
}


@dataclass
class _Chains:
    """A tree with objects as lines on moved objects say, each line in a directory of its own, and calls on them."""

    kinds: Kinds
    names: Names
    calls: list[tuple[Call, covering.Line, bool]]

    def add(self, line: covering.Line, more: bool) -> None:
        """Adds what a line is about, if it is on moved objects."""
        found = covering.ANYWHERE.fullmatch(line.text.split(" (at ABI")[0])
        if found is None:
            return
        objects = found["objects"].split(", ")
        file = objects.pop().removesuffix(" as a file") if objects[-1].endswith(" as a file") else None
        over = self._put(joined(ROOT, f"line{len(self.kinds)}"), "dir")
        for path in objects:
            over = self._put(joined(over, "in"), "dir")
            self.names.setdefault(path, []).append(over)
        inside, empty = self._put(joined(over, "file"), "reg"), self._put(joined(over, "empty"), "dir")
        if file is not None:
            self.names.setdefault(file, []).append(inside)
        for right in set(found["rights"].split(", ")) & _ASKING.keys():
            on = over if right == "read_dir" else empty if right == "remove_dir" else inside
            path = joined(over, "new") if right.startswith("make_") else on
            number = {"fd": 3 + len(self.calls)} if "mode" in _ASKING[right] else {}
            self.calls.append((Call(({**_ASKING[right], **number, "path": path},), ()), line, more))

    def _put(self, path: str, kind: str) -> str:
        self.kinds[path] = kind
        return path


def _of_chains(program: Path, folder: Path, pair: Pair, said: covering.Said) -> Iterator[str]:
    """What is at fault in the lines on moved objects: each right that one names is to pass under one policy alone."""
    chains = _Chains({ROOT: "dir"}, {}, [])
    for lines, more in ((said.more, True), (said.less, False)):
        for line in lines:
            chains.add(line, more)
    calls = [call for call, _, _ in chains.calls]
    for (_, line, more), (call, old, new) in zip(chains.calls, pair.passing(program, folder, chains.kinds, calls,
                                                                             chains.names)):
        passes = new - old if more else old - new
        if not line.abis <= passes:
            yield f"no difference at ABI {sorted(line.abis - passes)}: {call.records}: {line.text}"


def faults_of(said: covering.Said, call: Call, old: Abis, new: Abis, abis: Abis) -> Iterator[str]:
    """What is at fault, at some ABIs, in what is said of a call that two policies let pass."""
    for abi in sorted(abis):
        for one, other, more in ((new, old, True), (old, new, False)):
            differs = abi in one and abi not in other
            covered = said.covers(call.needs, abi, more)
            word = "more" if more else "less"
            if differs and not covered:
                yield f"ABI {abi}, {word}, not named"
            if covered and not differs and len(call.needs) == 1:
                yield f"ABI {abi}, {word}, named and no difference"


# ---- landaudit-record tighten

Unit = tuple[int, str, str | int, str]
"""A right on a path or a port: the layer's number, the rule as `path 1`, what it is on, and the right."""


@dataclass(frozen=True)
class Recorded:
    """A random tree and a recording on it, with a policy of ten rules that is tried, by the seed of all."""

    seed: int
    abi: int
    policy: Policy
    runs: tuple[Run, ...]

    @classmethod
    def of(cls, seed: int, count: int) -> Recorded:
        """A policy of one to three layers, seldom of nearly as many as a domain has, and one or two recordings."""
        maker = Maker(random.Random(seed))
        layers = maker.of.choice((1, 1, 2, 2, 3, 3, 5, 15))
        policy = maker.policy(layers, RULES)
        kinds = maker.tree(policy.paths)
        policy = policy.taken_on(kinds)
        runs = [Run(maker.of, kinds).made(count) for _ in range(maker.of.choice((1, 1, 2)))]
        return cls(seed, maker.of.choice((5, 5, 5, 5, 4, 3, 2, 1)), policy, tuple(runs))

    def written(self, folder: Path) -> list[str]:
        """The words that name the policy and the folders of the recordings, once they are written."""
        policy = folder / "policy.toml"
        policy.write_text(self.policy.toml())
        words = ["--policy", str(policy), "--abi", str(self.abi)]
        for number, run in enumerate(self.runs):
            one = folder / f"rec-{number}"
            one.mkdir()
            jsonl.write(one / "tree.jsonl", _listed(run.kinds))
            jsonl.write(one / "trace.jsonl", run.records)
            words.append(str(one))
        return words

    def refused(self, program: Path, folder: Path, policies: Sequence[Sequence[Record]]) -> list[set[tuple[int, int]]]:
        """What is refused under each of some policies, by recording and record: each has processes of its own.

        A call on a descriptor is on what it is open on under the first of them, or on nothing.
        """
        found: list[set[tuple[int, int]]] = [set() for _ in policies]
        for number, run in enumerate(self.runs):
            calls = self._numbered(program, folder, run, policies[0])
            traces = [list(_under(run, calls, policy, which * APART)) for which, policy in enumerate(policies)]
            records = [record for trace in traces for record in trace]
            verdicts = iter(judged(program, folder, run.kinds, records, alone(self.abi)))
            for refused, trace in zip(found, traces):
                said = [(record["call_of_run"], next(verdicts)) for record in trace]
                refused |= {(number, at) for at, answer in said if at is not None and not answer.allowed | answer.moot}
        return found


    def _numbered(self, program: Path, folder: Path, run: Run, policy: Sequence[Record]) -> list[Record]:
        """The records of a run in which each opening under a policy has a number of its own.

        So a number is open on nothing where its opening is refused, and on nothing that was open by it before.
        """
        trace = list(_under(run, run.records, policy, 0))
        answers = judged(program, folder, run.kinds, trace, alone(self.abi))
        passed = {record["call_of_run"] for record, answer in zip(trace, answers) if answer.allowed}
        return list(_own_numbers(run.records, passed))


def _listed(kinds: Kinds) -> Iterator[Record]:
    """The lines of a recording's tree, in which each link leads to nothing."""
    for path in sorted(kinds.keys() - {ROOT}):
        yield {"path": path, "kind": kinds[path]} | ({"target": "/~gone~"} if kinds[path] == "sym" else {})


def _own_numbers(records: Iterable[Record], passed: Collection[int]) -> Iterator[Record]:
    """Records in which each opening and each copy of one that passes has a number that no other has."""
    open_by: dict[int, dict[int, int]] = {}
    for at, record in enumerate(records):
        numbers = open_by.setdefault(record["pid"], {})
        op, done = record["op"], at in passed
        changed = {"fd": numbers.get(record["fd"], record["fd"])} if "fd" in record else {}
        if op in ("open", "dup"):
            key = "fd" if op == "open" else "to"
            changed[key] = OWN_NUMBERS + at
            if done:
                numbers[record[key]] = changed[key]
        elif op == "close" and done:
            numbers.pop(record["fd"], None)
        elif op == "fork" and done:
            open_by[record["child"]] = dict(numbers)
        yield {**record, **changed}


def _under(run: Run, calls: Iterable[Record], policy: Sequence[Record], pids: int) -> Iterator[Record]:
    """The calls of a run under a policy; its processes have numbers of their own, and its records their places."""
    for at, record in enumerate(calls):
        if at in run.first:
            yield from ({**one, "pid": run.first[at] + pids, "call_of_run": None} for one in policy)
        child = {"child": record["child"] + pids} if "child" in record else {}
        yield {**record, "pid": record["pid"] + pids, **child, "call_of_run": at}


def parsed(text: str) -> Policy:
    """A policy's file as it was printed."""
    layers = []
    for layer in tomllib.loads(text)["layer"]:
        rules = [
            tuple(Rule(tuple(it["allowed_access"]), tuple(it[on] if isinstance(it[on], list) else [it[on]]))
                  for it in layer.get(table, ()))
            for table, on in (("path_beneath", "parent"), ("net_port", "port"))
        ]
        handled = (tuple(layer.get(f"handled_access_{key}", ())) for key in ("fs", "net"))
        layers.append(Layer(*handled, *rules))
    return Policy(tuple(layers))


def units(policy: Policy, kinds: Kinds, abi: int) -> Iterator[Unit]:
    """Each right on each path and port that an ABI knows, the layer handles and an object of its kind can have.

    A path where nothing is counts as that of a directory.
    """
    for number, layer in enumerate(policy.layers, start=1):
        for place, rule in enumerate(layer.paths, start=1):
            for on in dict.fromkeys(map(str, rule.on)):
                handled = meant(layer.fs, FS)
                rights = granted(rule, handled, kinds.get(plain(on), "dir")) & handled & FS.known(abi)
                yield from ((number, f"path {place}", on, right) for right in FS.ordered(rights))
        for place, rule in enumerate(layer.ports, start=1):
            rights = meant(rule.words, NET) & meant(layer.net, NET) & NET.known(abi)
            for port in dict.fromkeys(rule.on):
                yield from ((number, f"port {place}", port, right) for right in NET.ordered(rights))


def without(records: Iterable[Record], gone: Iterable[Unit]) -> list[Record]:
    """The records of a policy without some rights."""
    taken = set(gone)
    left = []
    for record in records:
        if "rule" in record:
            rights = "fs" if "fs" in record else "net"
            place = record["layer"], record["rule"], record["on"]
            kept = [right for right in record[rights] if (*place, right) not in taken]
            if not kept:
                continue
            record = {**record, rights: kept}
        left.append(record)
    return left


def grants(records: Iterable[Record], abi: int) -> set[tuple[object, ...]]:
    """What the rules of a policy grant, by layer and by what they are on."""
    known = FS.known(abi) | NET.known(abi)
    return {(it["layer"], it.get("path"), it.get("port"), right)
            for it in records if "rule" in it for right in (*it.get("fs", ()), *it.get("net", ())) if right in known}


def tightened(program: Path, seed: int, count: int) -> Tried:
    """Tightens a policy and tries each right of what is left, and each of what is said of how many calls need it."""
    recorded, tried = Recorded.of(seed, count), Tried(0, 0, [])
    with tempfile.TemporaryDirectory() as name:
        folder = Path(name)
        words = ["tighten", *recorded.written(folder), "--landaudit", str(program)]
        status, out, errors = run(words, cli.RECORD)
        not_taken = recorded.policy.not_taken(recorded.runs[0].kinds, recorded.abi)
        if status == UNREADABLE and (named := _REFUSED_RULE.search(errors)) is not None:
            rule = int(named[1]), int(named[2]), named[3]
            return Tried(0, 0, [] if rule in not_taken else [f"seed {seed}: the kernel takes {rule}"], 1)
        if status or not_taken:
            return Tried(0, 0, [f"seed {seed}: status {status}, the kernel refuses {sorted(not_taken)}: {errors}"])
        table = run([*words, "--list"], cli.RECORD)[1]
        tried.calls = sum(len(it.records) for it in recorded.runs)
        tried.faults += [f"seed {seed}, ABI {recorded.abi}: {fault}"
                         for fault in _of_tight(program, folder, recorded, parsed(out), table, tried)]
    return tried


def _of_tight(
    program: Path, folder: Path, recorded: Recorded, tight: Policy, table: str, tried: Tried
) -> Iterator[str]:
    """What is at fault in a policy that was tightened, and in the table of how many calls need each right."""
    kinds, abi = recorded.runs[0].kinds, recorded.abi
    whole, left = recorded.policy.records(kinds), tight.records(kinds)
    more = grants(left, abi) - grants(whole, abi)
    if more or len(tight.layers) != len(recorded.policy.layers):
        yield f"grants more: {sorted(more, key=str)}"
    kept = list(units(tight, kinds, abi))
    counts = dict(_counts(table))
    listed = [unit for unit, calls in counts.items() if calls]
    of_list = without(whole, [unit for unit, calls in counts.items() if not calls])
    tried.differ = len(kept)
    before, after, by_table, *alone_gone = recorded.refused(
        program, folder, [whole, left, of_list, *(without(left, [unit]) for unit in kept),
                          *(without(of_list, [unit]) for unit in listed)])
    if after - before:
        yield f"refuses what passed: {sorted(after - before)}"
    if by_table - before:
        yield f"refuses what passed, by the table: {sorted(by_table - before)}"
    for number, at in sorted(before - (after & by_table)):
        if (op := recorded.runs[number].records[at]["op"]) not in ("rename", "link"):
            yield f"lets pass {op}, which is no move: {(number, at)}"
    for unit, refused in zip(kept, alone_gone):
        if not refused - before:
            yield f"nothing needs {unit}"
    for unit, refused in zip(listed, alone_gone[len(kept):]):
        if len(refused - before) != counts[unit]:
            yield f"{counts[unit]} calls are said to need {unit}, and it is {len(refused - before)}"


def _counts(table: str) -> Iterator[tuple[Unit, int]]:
    """Each right on each path and port in a table, with the number of calls that need it."""
    for row in table.splitlines()[1:]:
        found = _ROW.fullmatch(row)
        assert found is not None, row
        on = int(found[6]) if found[6] else found[7]
        yield (int(found[3]), f"{_TABLES[found[4]]} {found[5]}", on, found[2]), int(found[1])


# ---- the program


def main() -> int:
    """Tries pairs and policies, and prints what is at fault."""
    parser = argparse.ArgumentParser(description=__doc__, formatter_class=argparse.RawDescriptionHelpFormatter)
    for name, value, text in (
        ("pairs", 500, "pairs of policies to compare"),
        ("calls", 2000, "calls of each pair"),
        ("checks", 200, "policies to check"),
        ("cases", 60, "cases of each check"),
        ("asked", 500, "policies to ask questions about"),
        ("questions", 5, "questions about each"),
        ("policies", 200, "policies to tighten"),
        ("records", 300, "calls of each recording"),
        ("first", 0, "the first seed"),
    ):
        parser.add_argument(f"--{name}", type=int, default=value, help=f"{text} ({value} if it is left out)")
    parser.add_argument("--landaudit", metavar="PATH", help="landaudit itself")
    wanted = parser.parse_args()
    try:
        program = landaudit.find(wanted.landaudit)
    except Problem as problem:
        print(problem, file=sys.stderr)
        return problem.status
    with Ground.made() as ground:
        return 1 if _all_tried(program, wanted, ground) else 0


def _all_tried(program: Path, wanted: argparse.Namespace, ground: Ground) -> int:
    """Tries all pairs and policies that are wanted, and gives the number of faults."""
    faults = 0
    of_pairs = "pairs: {calls:,} calls, {differ:,} differ, {faults:,} faults"
    of_checks = "policies checked: {calls:,} cases, {faults:,} faults"
    of_questions = "policies asked about: {calls:,} questions, {differ:,} hold, {faults:,} faults"
    of_policies = ("policies: {calls:,} records, {differ:,} rights are left, "
                   "{told:,} policies with a rule that the kernel refuses, {faults:,} faults")

    def pair(seed: int) -> Tried:
        return compared(program, seed, wanted.calls, ground)

    def policy(seed: int) -> Tried:
        return tightened(program, seed, wanted.records)

    def check(seed: int) -> Tried:
        cases, found = random_checks.faults(program, random.Random(seed), wanted.cases)
        return Tried(cases, 0, [f"seed {seed}: {fault}" for fault in found])

    def question(seed: int) -> Tried:
        asked, hold, found = random_questions.faults(program, random.Random(seed), wanted.questions)
        return Tried(asked, hold, [f"seed {seed}: {fault}" for fault in found])

    for what, said, count in ((pair, of_pairs, wanted.pairs), (check, of_checks, wanted.checks),
                              (question, of_questions, wanted.asked),
                              (policy, of_policies, wanted.policies)):
        total = Tried(0, 0, [])
        for seed in range(wanted.first, wanted.first + count):
            tried = what(seed)
            total = Tried(total.calls + tried.calls, total.differ + tried.differ, total.faults + tried.faults,
                          total.told + tried.told)
            for fault in tried.faults[:MOST_SHOWN]:
                print(fault, flush=True)
        print(count, said.format(calls=total.calls, differ=total.differ, told=total.told, faults=len(total.faults)),
              flush=True)
        faults += len(total.faults)
    return faults


if __name__ == "__main__":
    sys.exit(main())
