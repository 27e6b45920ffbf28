"""Walks over a trace and its report: what is told of records singly, and by kinds."""

from __future__ import annotations

import random
import re
from collections import Counter
from collections.abc import Callable, Iterator, Sequence
from dataclasses import replace
from itertools import product
from typing import Any
from unittest import mock

from landaudit_record.audit import summary
from landaudit_record.audit.summary import Summaries
from landaudit_record.common import jsonl
from landaudit_record.common.jsonl import Record
from landaudit_record.common.problems import Problem
from landaudit_record.engine import reading
from landaudit_record.engine.answers import Kept, Refusing
from landaudit_record.engine.reading import Counted, Told, Walk

from .calling import InFolder
from .drawn import by_chance
from .recorded import (
    Object,
    Said,
    failed,
    kept_on,
    missing_on,
    moot,
    over_range,
    refused,
    write_lines,
    write_report,
)

ABIS = range(1, 6)
Call = tuple[Record, Said | list[Object]]
#: How a trace is written: as landaudit-record does, with blanks everywhere, and with blanks before numbers alone.
FORMS = COMPACT, BLANKS, HALF = ("compact", "blanks", "half")
_NUMBER = re.compile(r'":([0-9])')
READ = {"path": "/a/f", "fd": 3, "mode": "r", "kernel": "ok"}
NOT_OPEN = moot("unopened", fd=3)


def op(name: str, pid: int = 1, **members: Any) -> Record:
    """A record with its process where landaudit-record writes it."""
    return {"op": name, "pid": pid, **members}


class Written(InFolder):
    """Traces and reports in a folder, written in one form or another."""

    def walk(
        self, calls: Sequence[Call], form: str = COMPACT, number: int = 0, *, only_refused: bool = False
    ) -> Walk:
        """A walk over some calls with their answers."""
        trace, report = (self.folder / f"{name}-{number}" for name in ("trace", "report"))
        records = [record for record, _ in calls]
        if form == BLANKS:
            write_lines(trace, records)
        else:
            jsonl.write(trace, records)
        if form == HALF:
            trace.write_text(_NUMBER.sub(r'": \1', trace.read_text()))
        write_report(report, records, [answer for _, answer in calls], ABIS, only_refused=only_refused)
        return Walk(trace, report, ABIS, only_refused=only_refused)

    def told(self, *calls: Call) -> list[tuple[int, str, int, bool]]:
        """What is told of each kind, whichever way the trace is written: line, program, times, and whether an ABI
        misses the opening of its number."""
        each = Counter((told.program or "-", bool(told.missed)) for told in _each(self.walk(calls)) if told.answered)
        for form in FORMS:
            kinds = [(told.line, told.program or "-", times, bool(told.missed))
                     for told, times in kinds_of(self.walk(calls, form)) if told.answered]
            self.assertEqual(each, _counted(kinds), form)
        return [(told.line, told.program or "-", times, bool(told.missed))
                for told, times in kinds_of(self.walk(calls)) if told.answered]


def made_at(line: int, objection: Object) -> Object:
    """An answer by which the layer refuses that the `restrict` on a line made."""
    answer = refused(objection)
    answer["layers"][0]["line"] = line
    return answer


def kinds_of(walk: Walk) -> list[tuple[Told, int]]:
    """What is told of each kind, and how many records it has."""
    counted = walk.counted()
    return [(kind.told(counted.trace, line), times) for kind, line, times in counted.kinds]


def _each(walk: Walk) -> list[Told]:
    """What is told of each record by its kind."""
    return [kind.told(walk.files[0], line) for kind, line, _ in walk]


def _counted(kinds: list[tuple[int, str, int, bool]]) -> Counter[tuple[str, bool]]:
    found: Counter[tuple[str, bool]] = Counter()
    for _, program, times, missed in kinds:
        found[program, missed] += times
    return found


START = (op("start"), "allowed")
RUN = (op("exec", path="/bin", call=1, kernel="ok"), "allowed")
OPEN = (op("open", **READ), refused(missing_on("/a/f", "read_file")))
CLOSE = (op("close", fd=3), NOT_OPEN)
MADE = {"path": "/a/p", "kind": "fifo", "kernel": "ok"}
PIPE = (op("mknod", **MADE), refused(missing_on("/a", "make_fifo")))
DIRECTORY = (op("mkdir", path="/a/d", kernel="ok"), refused(missing_on("/a", "make_dir")))


class Kinds(Written):
    def test_alike_but_for_process_call_and_number_is_one_kind(self) -> None:
        fork = (op("fork", child=2, call=2), "allowed")
        again = [(op("open", pid, **{**READ, "fd": fd, "call": call}), OPEN[1]) for pid, fd, call in
                 ((1, 3, 3), (2, 4, 4), (2, 5, 5))]
        self.assertEqual(self.told(START, RUN, fork, *again), [(4, "/bin", 3, False)])

    def test_what_differs_is_another_kind(self) -> None:
        others = [
            (op("mknod", **{**MADE, "kind": "sock"}), PIPE[1]),
            (op("mknod", **{**MADE, "kernel": "EACCES"}), PIPE[1]),
            (op("mknod", **{**MADE, "shown": "/a/q"}), PIPE[1]),
            (PIPE[0], refused(missing_on("/a", "make_reg"))),
            (PIPE[0], refused(missing_on("/a", "make_fifo"), error="EXDEV")),
        ]
        self.assertEqual([line for line, *_ in self.told(START, PIPE, *others, PIPE)], [2, 3, 4, 5, 6, 7])

    def test_kinds_are_in_the_order_of_their_first(self) -> None:
        found = self.told(START, DIRECTORY, PIPE, DIRECTORY, PIPE, PIPE)
        self.assertEqual([(line, times) for line, _, times, _ in found], [(2, 2), (3, 3)])

    def test_which_line_made_a_layer_and_which_one_opened_a_file_makes_no_kind(self) -> None:
        """A layer is known by its number in the policy, and what was opened by its path as a person knows it."""
        again = (op("restrict", 2, rs=3, policy={"layer": 1}), "allowed")
        fork = (op("fork", child=2, call=2), "allowed")
        opens = [(op("open", path="/a/g~new~", shown="/a/g", fd=fd, mode="r", call=fd), "allowed") for fd in (3, 4)]
        kept = [(op("ioctl", pid, fd=7), made_at(restricted, kept_on("/a/g~new~", "ioctl_dev", line)))
                for pid, restricted, line in ((1, 3, 5), (2, 4, 6))]
        restrict = (op("restrict", rs=3, policy={"layer": 1}), "allowed")
        found = kinds_of(self.walk([START, fork, restrict, again, *opens, *kept]))
        ((told, times),) = [(told, times) for told, times in found if told.answered]
        ((_, answer),) = told.answered
        self.assertEqual((told.line, times), (7, 2))
        self.assertEqual(answer.layers, (Refusing(1, None, (Kept(("ioctl_dev",), "/a/g", 5),), 1),))
        self.assertEqual(answer.opened, (5,))

    def test_what_the_policy_does_is_told_and_what_the_program_is_allowed_is_not(self) -> None:
        rule = op("add_path", rs=3, path="/a", fs=["read_file"])
        own, of_policy = (rule, "allowed"), ({**rule, "policy": {"layer": 1, "rule": "path_beneath 1"}}, "allowed")
        for form in FORMS:
            found = [(told.line, times) for told, times in kinds_of(self.walk([START, own, of_policy, own], form))]
            self.assertEqual(found, [(3, 1)], form)


class Programs(Written):
    def test_who_ran_what(self) -> None:
        """An interpreter, a loader and an exec that the kernel refused are no program; a path may have escapes."""
        quoted = (op("exec", path='/a"b', call=7, kernel="ok"), "allowed")
        loader = (op("exec", path="/ld.so", role="interpreter", call=7, kernel="ok"), "allowed")
        none = (op("exec", path="/none", call=8, kernel="EACCES"), "allowed")
        kept = (op("exec", path="/kept", call=8), "allowed")
        self.assertEqual([program for _, program, *_ in self.told(START, OPEN, RUN, loader, none, OPEN, quoted, OPEN)],
                         ["-", "/bin", '/a"b'])
        self.assertEqual([program for _, program, *_ in self.told(START, RUN, kept, OPEN)], ["/kept"])

    def test_a_refused_program_runs_if_the_kernel_ran_it(self) -> None:
        again = (RUN[0], refused(missing_on("/bin", "execute")))
        self.assertEqual([program for _, program, *_ in self.told(START, again, OPEN)], ["-", "/bin"])

    def test_a_pid_that_is_used_again(self) -> None:
        """Its program is that of the parent, or none if the recording starts it."""
        ended, fork = (op("exit", call=3), "allowed"), (op("fork", 2, child=1, call=4), "allowed")
        other = [(op("start", 2), "allowed"), (op("exec", 2, path="/sh", call=1, kernel="ok"), "allowed")]
        self.assertEqual([program for _, program, *_ in self.told(START, RUN, *other, ended, fork, OPEN)], ["/sh"])
        self.assertEqual([program for _, program, *_ in self.told(START, RUN, ended, START, OPEN)], ["-"])


class Numbers(Written):
    """Numbers that are not open because their opening was not allowed (Told.missed)."""

    def missed(self, *calls: Call) -> list[tuple[int, bool]]:
        return [(line, missed) for line, _, _, missed in self.told(START, *calls)]

    def test_from_its_opening_to_its_close(self) -> None:
        self.assertEqual(self.missed(OPEN, (op("ioctl", fd=3), NOT_OPEN), CLOSE, (op("ftruncate", fd=3), NOT_OPEN)),
                         [(2, False), (3, True), (4, True), (5, False)])

    def test_an_opening_that_is_allowed_ends_it(self) -> None:
        other = (op("open", path="/a/g", fd=3, mode="r"), "allowed")
        socket = (op("adopt", fd=3, kind="other"), "allowed")
        onto = (op("dup", fd=0, to=3), "allowed")
        for opening in (other, socket, onto):
            self.assertEqual(self.missed(OPEN, opening, CLOSE), [(2, False), (4, False)], opening)

    def test_a_copy_is_missed_too(self) -> None:
        copy = (op("dup", fd=3, to=4), NOT_OPEN)
        self.assertEqual(self.missed(OPEN, copy, (op("close", fd=4), moot("unopened", fd=4))),
                         [(2, False), (3, True), (4, True)])

    def test_a_child_misses_what_its_parent_misses(self) -> None:
        fork, ends = (op("fork", child=2, call=1), "allowed"), (op("exit", call=2), "allowed")
        self.assertEqual(self.missed(OPEN, fork, ends, (op("close", 2, fd=3), NOT_OPEN)), [(2, False), (5, True)])

    def test_a_number_that_is_made_up_stays_with_its_process(self) -> None:
        """It is closed within the call, so no child ever has it."""
        made_up = (op("open", **{**READ, "fd": 1_000_001}), OPEN[1])
        fork = (op("fork", child=2, call=1), "allowed")
        closes = [(op("close", pid, fd=1_000_001), moot("unopened", fd=1000001)) for pid in (1, 2)]
        self.assertEqual(self.missed(made_up, fork, *closes), [(2, False), (4, True), (5, False)])

    def test_by_abi(self) -> None:
        answer = over_range({abi: OPEN[1] if abi > 3 else "allowed" for abi in ABIS})
        later = over_range({abi: NOT_OPEN if abi > 3 else "allowed" for abi in ABIS})
        for form in FORMS:
            walk = self.walk([START, (OPEN[0], answer), (CLOSE[0], later)], form)
            self.assertEqual([told.missed for told, _ in kinds_of(walk)], [frozenset(), {4, 5}], form)


class Places(Written):
    def test_calls_on_paths_and_ports(self) -> None:
        """Each counts at its path as a person knows it, if the kernel asked Landlock about it."""
        calls = [
            op("start"),
            op("open", path="/again", fd=3, mode="r", again=True),
            *(op("open", path="/a/f", fd=fd, mode="r", call=fd, kernel="ok") for fd in (3, 4)),
            op("open", path="/a/g~new~", shown="/a/g", fd=5, mode="r", call=5, kernel="EACCES"),
            op("open", path="/a/f", fd=6, mode="r", call=6, kernel="ENOENT"),
            op("connect", port=443, call=7, kernel="ok"),
            {"op": "rename", "from": "/a/f", "to": "/b/f", "pid": 1},
            op("close", fd=3, call=8),
            op("open", path="/a/f", fd=3, mode="w", call=9, kernel="ok"),
        ]
        for form, most in product(FORMS, (1, 1000)):
            trace = self.walk([(record, "allowed") for record in calls], form).files[0]
            trace.write_bytes(trace.read_bytes() + b"  \n")
            with mock.patch.object(reading, "MOST_KINDS", most):
                self.assertEqual(list(reading.places(trace).items()),
                                 [(("/a/f",), 3), (("/a/g",), 1), (443, 1), (("/a/f", "/b/f"), 1)], form)


class Faults(Written):
    def test_a_report_on_another_trace(self) -> None:
        other = (op("open", path="/b", fd=4, mode="r"), "allowed")
        calls = [START, OPEN, other, other, CLOSE]
        others = {
            "another process": [(op("start", 2), "allowed"), (op("open", 2, **READ), OPEN[1]), *calls[2:]],
            "another process later": [*calls[:4], (op("close", 2, fd=3), NOT_OPEN)],
            "one more before": [START, *calls],
            "one more behind": [*calls, CLOSE],
            **{f"{number} less": calls[:-number] for number in range(1, 5)},
        }
        for (why, said), form in product(others.items(), FORMS):
            trace, report = self.walk(calls, form).files[0], self.walk(said, number=1).files[1]
            with self.subTest(why, form=form), self.assertRaisesRegex(Problem, "is not a report on"):
                Walk(trace, report, ABIS).counted()


class OnlyRefused(Written):
    """Walks over reports of refused records alone."""

    @by_chance(examples=15)
    def test_what_is_refused_is_told_as_by_the_whole_report(self, chance: random.Random) -> None:
        calls = list(_random_calls(chance))
        for form in FORMS:
            whole, some = (_refusals(self.walk(calls, form, only_refused=only)) for only in (False, True))
            self.assertEqual(some, whole)

    def test_states_of_processes_are_told_and_moot_records_are_not(self) -> None:
        fork = (op("fork", child=2, call=2), "allowed")
        walk = self.walk([START, RUN, CLOSE, OPEN, fork, CLOSE], only_refused=True)
        (told,) = _each(walk)
        self.assertEqual((told.line, told.program, told.answered[0][1].error), (4, "/bin", OPEN[1]["error"]))
        self.assertEqual(walk.pids, {1, 2})

    def test_a_report_on_another_trace(self) -> None:
        calls = [START, OPEN, CLOSE]
        others = [START, (op("open", 2, **READ), OPEN[1])], [START, START, START, START, OPEN]
        for said in others:
            trace, report = self.walk(calls).files[0], self.walk(said, number=1, only_refused=True).files[1]
            with self.subTest(said), self.assertRaisesRegex(Problem, "is not a report on"):
                list(Walk(trace, report, ABIS, only_refused=True))


def _refusals(walk: Walk) -> list[tuple[object, ...]]:
    """What is told of refused records, and by which process."""
    return [(told.line, told.record, told.program, told.confined, abis, answer)
            for told in _each(walk) for abis, answer in told.answered if answer.refused]


class AnyTrace(Written):
    """Summaries of random traces: nothing depends on how lines are written, nor on which records are taken together."""

    @by_chance(examples=20)
    def test_a_summary_is_the_same_by_kinds_and_singly(self, chance: random.Random) -> None:
        calls = list(_random_calls(chance))
        each = [({**record, "own": number}, answer) for number, (record, answer) in enumerate(calls)]
        ways = [self.summed(some, form) for form in FORMS for some in (calls, each)]
        for way in ways[1:]:
            self.assertEqual(way, ways[0])
        self.assertGreater(len(ways[0]), 0)

    @by_chance(examples=10)
    def test_what_one_part_has_and_what_several_have_is_the_same(self, chance: random.Random) -> None:
        """A part that comes twice counts twice, and its kinds are decoded once."""
        calls = list(_random_calls(chance))
        parts = [self.walk(calls).counted() for _ in range(2)]
        kinds = [(kind, line, 2 * times) for kind, line, times in parts[0].kinds]
        doubled = replace(parts[0], kinds=kinds, records=2 * parts[0].records, path_calls=2 * parts[0].path_calls)
        with mock.patch.object(reading, "_told", side_effect=reading._told) as told:
            said, count = _said(parts), told.call_count
            self.assertEqual((_said([doubled]), told.call_count), (said, 2 * count))

    def test_kinds_that_differ_in_their_path_alone_are_decoded_once(self) -> None:
        """But for calls whose path is named in another way too."""
        ways: list[tuple[int, Callable[[str], Call]]] = [
            (1, lambda path: (op("truncate", path=path, kernel="ok"), refused(missing_on(path, "truncate")))),
            (1, lambda path: (op("unlink", path=path, kernel="ok"), refused(missing_on("/a", "remove_file")))),
            (1, lambda path: (op("truncate", path=path, kernel="ok"), moot("absent", path=path))),
            (1, lambda path: (op("truncate", path=path, kernel="ENOENT"), moot("absent", path="/a"))),
            (3, lambda path: (op("rmdir", path=path, shown="/d", kernel="ok"), refused(missing_on(path, "remove_dir")))),
            (3, lambda path: (op("link", **{"from": path, "to": "/c"}, kernel="ok"), refused(missing_on(path, "refer")))),
            (3, lambda path: (op("exec", path=f"{path}\n", kernel="ok"), refused(missing_on(f"{path}\n", "execute")))),
        ]
        for decoded, way in ways:
            calls = [START, RUN, *map(way, ("/a/f", "/a/g", "/b"))]
            walked = self.walk(calls).counted()
            with self.subTest(calls[2]), mock.patch.object(reading, "_told", side_effect=reading._told) as told:
                said = _said([walked])
                self.assertEqual(told.call_count, decoded)
                self.assertEqual(said, self.summed(calls, BLANKS))

    def test_each_abi_has_its_own_order_and_numbers(self) -> None:
        """A call that only ABI 1 refuses at first, and all later on, comes first at ABI 1 alone."""
        one, other = refused(missing_on("/a", "make_fifo")), refused(missing_on("/a", "make_dir"))
        first = over_range({abi: one if abi == 1 else "allowed" for abi in ABIS})
        sh = (op("exec", path="/sh", call=9, kernel="ok"), "allowed")
        calls: list[Call] = [START, RUN, (PIPE[0], first), (DIRECTORY[0], other), sh, PIPE, RUN, PIPE]
        found = Summaries(ABIS)
        found.take([self.walk(calls).counted()], ABIS)
        each = found.done(Counter())
        told = [[(kind.call.split()[0], dict(programs)) for kind, programs in at.refusals.items()] for at in each]
        self.assertEqual(told[0], [("mknod", {"/bin": 2, "/sh": 1}), ("mkdir", {"/bin": 1})])
        self.assertEqual(told[1:], [[("mkdir", {"/bin": 1}), ("mknod", {"/sh": 1, "/bin": 1})]] * 4)
        self.assertEqual([list(programs) for programs in each[-1].refusals.values()], [["/bin"], ["/sh", "/bin"]])
        self.assertEqual([one.verdicts["refused"] for one in each], [4, 3, 3, 3, 3])
        self.assertEqual([one.not_allowed["refused"][("/a/p",)] for one in each], [3, 2, 2, 2, 2])

    def summed(self, calls: list[Call], form: str = COMPACT) -> str:
        """All that a summary says, with the order of what it says."""
        return _said([self.walk(calls, form).counted()])


def _said(parts: list[Counted]) -> str:
    found = Summaries(ABIS)
    found.take(parts, ABIS)
    done = found.done(Counter())
    return repr([(summary.as_data(one), one.not_allowed, one.warnings) for one in done])


def _random_calls(chance: random.Random) -> Iterator[Call]:
    """Calls of a few processes with any answers, as a program by landaudit-record has them."""
    living = {1: False}
    yield START
    yield op("create", rs=3, fs=["read_file"], policy={"layer": 1}), "allowed"
    yield op("restrict", rs=3, policy={"layer": 1}), "allowed"
    for number in range(chance.randrange(5, 80)):
        pid = chance.choice(list(living))
        path, fd = chance.choice(("/a/f", "/a/g~new~", "/b")), chance.choice((3, 4))
        made_up = chance.choice((fd, 1_000_001 + number))
        shown = {"shown": "/a/g"} if path == "/a/g~new~" else {}
        end = {"call": number, "kernel": chance.choice(("ok", "ok", "EACCES", "ENOENT"))}
        record: Record
        match chance.choice(("open", "open", "open", "close", "close", "dup", "adopt", "ioctl", "exec", "fork", "exit",
                             "rename", "mkdir", "add_path")):
            case "open":
                record = op("open", pid, path=path, fd=made_up, mode=chance.choice("rw"), **shown, **end)
            case "exec":
                role = {"role": "interpreter"} if chance.random() < 0.3 else {}
                record = op("exec", pid, path=path, **role, **end)
            case "mkdir":
                record = op("mkdir", pid, path=path, **shown, **end)
            case "rename":
                record = op("rename", pid, **{"from": "/b", "to": "/a/h"}, **end)
            case "ioctl":
                record = op("ioctl", pid, fd=fd, **end)
            case "dup":
                record = op("dup", pid, fd=fd, to=chance.choice((3, 4)), call=number)
            case "close":
                record = op("close", pid, fd=fd, call=number)
            case "adopt":
                record = op("adopt", pid, fd=fd, kind="other", call=number)
            case "add_path":
                origin = {"layer": 1, "rule": "path_beneath 1", "parent": path}
                record = {"op": "add_path", "rs": 3, "path": path, "fs": ["read_file"], "policy": origin, "pid": pid}
            case "fork" if len(living) < 4:
                child = min({1, 2, 3, 4} - set(living))
                living[child] = True
                record = op("fork", pid, child=child, call=number)
            case "exit" if len(living) > 1:
                del living[pid]
                record = op("exit", pid, call=number)
            case _:
                record = op("nnp", pid, call=number)
        answer = _random_answer(chance, record)
        differing = {abi: _random_answer(chance, record) for abi in ABIS}
        yield record, over_range(differing if chance.random() < 0.3 else dict.fromkeys(ABIS, answer))


def _random_answer(chance: random.Random, record: Record) -> Said:
    """An answer that a record may have, or that it is allowed."""
    answers: dict[str, tuple[Object, ...]] = {
        "open": (refused(missing_on("/a/f", "read_file")), refused(missing_on("/b", "write_file")),
                 moot("absent", path="/a/g~new~")),
        "exec": (refused(missing_on("/a/f", "execute")),),
        "close": (moot("unopened", fd=3), moot("unopened", fd=4)),
        "ioctl": (moot("unopened", fd=3), refused(kept_on("/a/f", "ioctl_dev", 1))),
        "dup": (moot("unopened", fd=3),),
        "rename": (moot("absent", path="/b"), refused(missing_on("/a", "make_reg"))),
        "mkdir": (refused(missing_on("/a", "make_dir")), moot("present", path="/b")),
        "add_path": (moot("absent", path="/b"), failed("EINVAL", "unhandled", rights=["read_file"])),
    }.get(str(record["op"]), ())
    # An allowed close is of an open number, and nothing here says which numbers are open.
    return chance.choice(answers) if answers and (record["op"] == "close" or chance.random() < 0.6) else "allowed"
