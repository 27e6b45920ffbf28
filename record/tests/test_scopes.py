"""Calls that reach other processes: whether a layer refuses them, and what a recording knows of whom they reach."""

from __future__ import annotations

import json
import tempfile
import unittest
from collections import Counter
from pathlib import Path
from typing import Any

from landaudit_record.audit import auditor, condensing, distilled, reaching
from landaudit_record.audit.summary import Summary
from landaudit_record.common import finished, jsonl, reach
from landaudit_record.common.finished import LOOKING, READING_LINKS, SIGNALS, Finished
from landaudit_record.common.problems import Problem
from landaudit_record.common.reach import ABSTRACT, PTRACE, SIGNAL, ProcessLayer, refusing
from landaudit_record.common.rights import ABIS
from landaudit_record.engine.landaudit import BUILT
from landaudit_record.policy import policies
from landaudit_record.recorder.ports import Ports

from .calling import called
from .recorded import write_lines
from .written_logs import CONFINED, WrittenLogs

EPERM = "-1 EPERM (Operation not permitted)"
ESRCH = "-1 ESRCH (No such process)"
UNIX = "socket(0x1 /* AF_UNIX */, 0x1 /* SOCK_STREAM */, 0) = 3<socket:[7]>"
TO = '{sa_family=0x1 /* AF_UNIX */, sun_path=@"name"}, 7'
BOUND = f"bind(3<socket:[7]>, {TO}) = 0"
CONNECTED = f"connect(4<socket:[8]>, {TO}) = 0"
CALLS = (
    "kill({}, 0) = 0",
    "tkill({}, 15 /* SIGTERM */) = 0",
    "tgkill({}, 1, 15 /* SIGTERM */) = 0",
    "rt_sigqueueinfo({}, 10 /* SIGUSR1 */, {{si_signo=10}}) = 0",
    "rt_tgsigqueueinfo({}, 1, 10 /* SIGUSR1 */, {{si_signo=10}}) = 0",
    "pidfd_send_signal(3<pid:{}>, 15 /* SIGTERM */, NULL, 0) = 0",
    "pidfd_send_signal(3</proc/{}>, 15 /* SIGTERM */, NULL, 0) = 0",
)
FILES, OLD = frozenset({"make_sock"}), frozenset({"ioctl_dev"})
BOTH = ("abstract_unix_socket", "signal")
A, B, C = ProcessLayer(FILES, BOTH), ProcessLayer(FILES), ProcessLayer(FILES, ("signal",))
#: What is asked, the layers of the caller, those of what it reaches, and which refuse: the answers are those that Linux
#: 6.18 gave to live_scopes, where each row is a case.
ROWS = (
    (SIGNAL, (A,), (A,), ()),
    (SIGNAL, (A,), (), (A,)),
    (SIGNAL, (A,), (C,), (A,)),
    (SIGNAL, (A,), (A, B), ()),
    (SIGNAL, (A, C), (A,), (C,)),
    (SIGNAL, (A, B), (A,), ()),
    (SIGNAL, (B, A), (), (A,)),
    (SIGNAL, (B,), (), ()),
    (SIGNAL, (), (A,), ()),
    (ABSTRACT, (A,), (), (A,)),
    (ABSTRACT, (C,), (), ()),
    (ABSTRACT, (A, C), (), (A,)),
    (PTRACE, (B,), (), (B,)),
    (PTRACE, (B,), (B,), ()),
    (PTRACE, (B,), (B, A), ()),
    (PTRACE, (B, A), (B,), (A,)),
    (PTRACE, (B, A), (), (B, A)),
    (PTRACE, (), (B,), ()),
)


class Decided(unittest.TestCase):
    def test_the_rows(self) -> None:
        for asked, caller, other, layers in ROWS:
            with self.subTest(asked=asked, caller=caller, other=other):
                self.assertEqual(refusing(asked, caller, [other], 6), layers)
                self.assertEqual(refusing(asked, caller, [other], 5), layers if asked == PTRACE else ())

    def test_one_of_several_is_enough(self) -> None:
        self.assertEqual(refusing(PTRACE, (B,), [(B,), ()], 1), (B,))

    def test_the_abis_that_have_a_layer(self) -> None:
        """Best effort drops what an ABI does not know (docs/SEMANTICS.md); ioctl_dev is of ABI 5, scopes of ABI 6."""
        for layer, first in (
            (A, 1),
            (ProcessLayer(OLD), 5),
            (ProcessLayer(OLD | FILES), 1),
            (ProcessLayer(frozenset(), BOTH), 6),
            (ProcessLayer(OLD, BOTH), 5),
            (ProcessLayer(OLD | FILES, drops=False), 5),
            (ProcessLayer(frozenset({"bit_40"})), 8),
        ):
            with self.subTest(layer):
                self.assertEqual([abi for abi in ABIS if layer.is_there(abi)], [abi for abi in ABIS if abi >= first])


class Written(WrittenLogs):
    def reached(self, *lines: str) -> list[tuple[Any, ...]]:
        """What is written of the calls of a log: what they ask, who, whom, and what else is known."""
        self.conversion(*lines)
        told = [said for _, said in jsonl.numbered(self.out / finished.REACH)]
        return [(one["asks"], one["pid"], one["to"], *(one[name] for name in ("since", "name") if name in one))
                for one in told]

    def counted(self, *lines: str) -> Counter[str]:
        """How many calls each scope may refuse of which nobody knows whom they reach."""
        return self.conversion(*lines).scopes

    def test_signals_to_others(self) -> None:
        for call in CALLS:
            with self.subTest(call):
                self.assertEqual(self.reached(call.format(1)), [(SIGNAL, 10, [1])])
                self.assertEqual(self.reached("fork() = 11", call.format(11)), [(SIGNAL, 10, [11])])
                self.assertEqual(self.reached(call.format(10)), [])
                self.assertEqual(self.counted(call.format(1)), {})

    def test_signals_to_groups(self) -> None:
        for pid in ("0", "-1", "-7", "-10"):
            self.assertEqual(self.counted(f"kill({pid}, 15 /* SIGTERM */) = 0"), {SIGNAL: 1})
            self.assertEqual(self.reached(f"kill({pid}, 15 /* SIGTERM */) = 0"), [])
        by_descriptor = "pidfd_send_signal(3<pid:1>, 15 /* SIGTERM */, NULL, 0x4) = 0"
        self.assertEqual((self.counted(by_descriptor), self.reached(by_descriptor)), ({SIGNAL: 1}, []))

    def test_signals_of_a_descriptor(self) -> None:
        for pid, times in (("1", 1), ("-7", 1), ("10", 0), ("0", 0)):
            call = f"fcntl(3<socket:[7]>, 0x8 /* F_SETOWN */, {pid}) = 0"
            self.assertEqual(self.counted(UNIX, call)[SIGNAL], times, pid)

    def test_other_ways_to_own_a_descriptor(self) -> None:
        calls = {
            "fcntl(3<socket:[7]>, 0xf /* F_SETOWN_EX */, {type=0x2 /* F_OWNER_PGRP */, pid=1}) = 0": 1,
            "fcntl(3<socket:[7]>, 0xf /* F_SETOWN_EX */, {type=0x1 /* F_OWNER_PID */, pid=10}) = 0": 0,
            "ioctl(3<socket:[7]>, 0x8901 /* FIOSETOWN */, [1]) = 0": 1,
            "ioctl(3<socket:[7]>, 0x8902 /* SIOCSPGRP */, [-7]) = 0": 1,
        }
        for call, times in calls.items():
            self.assertEqual(self.counted(UNIX, call)[SIGNAL], times, call)

    def test_what_a_layer_may_have_refused(self) -> None:
        for call in (f"kill(1, 0) = {EPERM}", f"connect(3<socket:[7]>, {TO}) = {EPERM}"):
            with self.subTest(call):
                self.assertEqual(len(self.reached(*CONFINED, UNIX, call)), 1)
                self.assertEqual(self.reached(UNIX, call), [])
        self.assertEqual(self.reached(*CONFINED, f"kill(1, 0) = {ESRCH}"), [])

    def test_a_signal_to_a_process_that_has_ended(self) -> None:
        lines = ("fork() = 11", "fork() = 12", "11  +++ exited with 0 +++", "12  kill(11, 0) = 0")
        self.assertEqual(self.reached(*lines), [(SIGNAL, 12, [11])])

    def test_connections_to_abstract_names(self) -> None:
        outside = (ABSTRACT, 10, [], "@name")
        self.assertEqual(self.reached(UNIX, CONNECTED), [outside])
        own = (ABSTRACT, 10, [10])
        self.assertEqual([one[:3] for one in self.reached(UNIX, BOUND, CONNECTED)], [own])
        self.assertEqual([one[:3] for one in self.reached(UNIX, BOUND, "fork() = 11", f"11  {CONNECTED}")],
                         [(ABSTRACT, 11, [10])])
        self.assertEqual(self.reached(UNIX, CONNECTED.replace('@"name"', '"/w/f"')), [])

    def test_a_socket_is_of_the_moment_at_which_it_was_made(self) -> None:
        (*_, before, _), (*_, after, _) = (
            self.reached(UNIX, 'chdir("/w") = 0', "open(\"/w/f\", 0) = 5</w/f>", BOUND, CONNECTED)[0],
            self.reached("open(\"/w/f\", 0) = 5</w/f>", UNIX, BOUND, CONNECTED)[0],
        )
        self.assertEqual(after - before, 1)

    def test_sockets_of_which_nobody_knows_who_made_them(self) -> None:
        chosen = CONNECTED.replace('@"name"', '@"0001f"')
        self.assertEqual(self.counted(BOUND, CONNECTED), {ABSTRACT: 1})
        self.assertEqual(self.counted(UNIX, chosen), {ABSTRACT: 1})
        self.assertEqual(self.reached(UNIX, chosen), [])

    def test_a_name_whose_socket_is_closed_may_be_that_of_another(self) -> None:
        bound = UNIX, BOUND, "dup(3<socket:[7]>) = 5<socket:[7]>", "close(3<socket:[7]>) = 0"
        other = UNIX.replace("3<socket:[7]>", "3<socket:[8]>"), CONNECTED.replace("socket:[7]", "socket:[8]")
        self.assertEqual(self.counted(*bound, *other), {})
        self.assertEqual(self.counted(*bound, "close(5<socket:[7]>) = 0", *other), {ABSTRACT: 1})
        self.assertEqual(self.reached(*bound, "close(5<socket:[7]>) = 0", *other), [])

    def test_a_name_may_be_anothers_in_another_network_namespace(self) -> None:
        unshared = "unshare(0x40000000 /* CLONE_NEWNET */) = 0"
        forked = "clone(child_stack=NULL, flags=0x40000011 /* CLONE_NEWNET|SIGCHLD */) = 11"
        entered = "setns(5<net:[4026531840]>, 0) = 0"
        for moved in (unshared, forked, entered):
            with self.subTest(moved):
                self.assertEqual(self.counted(UNIX, BOUND, moved, CONNECTED), {ABSTRACT: 1})
                self.assertEqual(self.reached(UNIX, BOUND, moved, CONNECTED), [])
                self.assertEqual(self.reached(UNIX, moved, CONNECTED), [(ABSTRACT, 10, [], "@name")])
        refused = unshared.replace("= 0", f"= {EPERM}")
        self.assertEqual(self.counted(UNIX, BOUND, refused, CONNECTED), {})

    def test_datagrams(self) -> None:
        """strace hides what is sent, and with it the address of sendmsg(2)."""
        letters = UNIX.replace("0x1 /* SOCK_STREAM */", "0x2 /* SOCK_DGRAM */")
        addressed = "sendto(0x3, 0x7f, 0x1, 0, 0x7f, 0x10) = 1"
        calls = {addressed: 1, "sendto(0x3, 0x7f, 0x1, 0, 0, 0) = 1": 0, "sendmsg(0x3, 0x7f, 0) = 1": 1,
                 "sendmmsg(0x3, 0x7f, 0x1, 0) = 1": 1, f"sendmsg(0x3, 0x7f, 0) = {EPERM}": 0}
        for call, times in calls.items():
            with self.subTest(call):
                self.assertEqual(self.counted(letters, call)[ABSTRACT], times)
                self.assertEqual(self.counted(UNIX, call), {})
        self.assertEqual(self.counted(letters, "dup(3<socket:[7]>) = 5<socket:[7]>", addressed.replace("0x3", "0x5")),
                         {ABSTRACT: 1})

    def test_datagrams_of_pairs_and_of_sockets_from_elsewhere(self) -> None:
        """Linux 6.18 asks about a datagram with an abstract address, also if the socket is one of a pair."""
        addressed = "sendto(0x3, 0x7f, 0x1, 0, 0x7f, 0x10) = 1"
        pair = "socketpair(0x1 /* AF_UNIX */, %s, 0, [4<socket:[8]>, 3<socket:[7]>]) = 0"
        kinds = ((pair % "0x2 /* SOCK_DGRAM */", 1), (pair % "0x1 /* SOCK_STREAM */", 0), ('chdir("/w") = 0', 1))
        for made, times in kinds:
            self.assertEqual(self.counted(made, addressed)[ABSTRACT], times, made)

    def test_looks_into_others(self) -> None:
        self.assertEqual(self.reached("kcmp(1, 10, 0x1 /* KCMP_VM */, 0, 0) = 0"), [(PTRACE, 10, [1])])
        done = self.conversion("kcmp(1, 10, 0x1 /* KCMP_VM */, 0, 0) = 0")
        self.assertEqual((done.unsaid, done.holes), ({}, {}))
        found = finished.opened(str(self.out))
        self.assertEqual((found.unsaid, found.holes), ({}, {}))
        (self.out / finished.CONVERTED).unlink()
        for name in ("recording.json", "strace.txt"):
            (self.out / name).unlink()
        self.assertEqual(finished.opened(str(self.out)).holes, {})

    def test_a_path_into_another_fails_with_another_error(self) -> None:
        self.conversion('readlink("/proc/1/exe", "/p", 9) = 2')
        ((_, said),) = jsonl.numbered(self.out / finished.REACH)
        self.assertEqual((said["asks"], said["to"], said["error"]), (PTRACE, [1], "EACCES"))

    def test_what_is_kept_of_them(self) -> None:
        self.conversion("kill(1, 0) = 0")
        ((_, said),) = jsonl.numbered(self.out / finished.REACH)
        self.assertEqual(said, {"asks": "signal", "pid": 10, "to": [1], "after": said["after"], "line": 2,
                                "call": "kill(1, 0) = 0"})
        trace = (self.out / "trace.jsonl").read_text().splitlines()
        self.assertEqual(said["after"], len(trace))


#: 10 runs /a, forks 11, and runs /b; 11 runs /a. Both run the policy's program, 10 before it forks.
TREE = [{"path": path, "kind": "reg"} for path in ("/a", "/b")]
TRACE = [
    {"op": "start", "pid": 10},
    {"op": "exec", "pid": 10, "path": "/a", "kernel": "ok"},
    {"op": "fork", "pid": 10, "child": 11},
    {"op": "exec", "pid": 11, "path": "/a", "kernel": "ok"},
    {"op": "exec", "pid": 10, "path": "/b", "kernel": "ok"},
]
SCOPED = '[[layer]]\nhandled_access_fs = ["execute"]\nscoped = ["signal"]\n[[layer.path_beneath]]\n' \
         'allowed_access = ["execute", "read"]\nparent = "/"\n'


class Judged(unittest.TestCase):
    def setUp(self) -> None:
        self.folder = Path(self.enterContext(tempfile.TemporaryDirectory()))
        write_lines(self.folder / "tree.jsonl", TREE)
        write_lines(self.folder / "trace.jsonl", TRACE)
        self.policy = self.folder / "p.toml"
        self.policy.write_text(SCOPED)

    def judged(self, *reaches: dict[str, Any], program: str | None = None) -> list[Summary]:
        """The summaries at ABI 5 and 6 of calls that reach others, under the policy."""
        write_lines(self.folder / finished.REACH, list(reaches))
        recording = finished.opened(str(self.folder))
        tried = auditor.tried(recording, policies.read(self.policy), program)
        summaries = [Summary(5), Summary(6)]
        reaching.tell(summaries, recording, tried, best_effort=True)
        return summaries

    def refused(self, *reaches: dict[str, Any], program: str | None = None) -> list[int]:
        """How many calls each of both ABIs refuses."""
        return [summary.verdicts["refused"] for summary in self.judged(*reaches, program=program)]

    def signal(self, pid: int, to: int, after: int) -> dict[str, Any]:
        return {"asks": "signal", "pid": pid, "to": [to], "after": after}

    def test_who_is_under_the_policy(self) -> None:
        """It goes before the first program of the process that the recording starts, so the child is under it."""
        self.assertEqual(self.refused(self.signal(10, 11, 5)), [0, 0])
        self.assertEqual(self.refused(self.signal(11, 10, 5)), [0, 0])
        self.assertEqual(self.refused(self.signal(10, 1, 5)), [0, 1])
        self.assertEqual(self.refused(self.signal(10, 1, 1)), [0, 0])

    def test_a_policy_of_one_program(self) -> None:
        """Each run of /a has a layer of its own: that of 11 is within that of 10."""
        self.assertEqual(self.refused(self.signal(11, 10, 5), program="/a"), [0, 1])
        self.assertEqual(self.refused(self.signal(10, 11, 5), program="/a"), [0, 0])
        self.assertEqual(self.refused(self.signal(11, 10, 3), program="/a"), [0, 0])
        self.assertEqual(self.refused(self.signal(10, 11, 5), program="/b"), [0, 1])

    def test_a_socket_is_under_the_layers_of_its_making(self) -> None:
        self.policy.write_text(SCOPED.replace('"signal"', '"abstract_unix_socket"'))
        made = {"asks": "abstract_unix_socket", "pid": 10, "to": [10], "after": 5, "name": "@n"}
        self.assertEqual(self.refused(made), [0, 0])
        self.assertEqual(self.refused({**made, "since": 1}), [0, 1])
        self.assertEqual(self.refused({**made, "to": []}), [0, 1])

    def test_the_rule_on_ptrace_holds_at_each_abi(self) -> None:
        self.assertEqual(self.refused({"asks": "ptrace", "pid": 10, "to": [11, 1], "after": 5}), [1, 1])
        self.assertEqual(self.refused({"asks": "ptrace", "pid": 10, "to": [11], "after": 5}), [0, 0])

    def test_what_is_told_of_them(self) -> None:
        later = self.judged(self.signal(10, 1, 5) | {"call": "kill(1, 15) = 0"})[1]
        self.assertEqual([refusal.call for refusal in later.refusals], ["kill"])
        later = self.judged(self.signal(10, 1, 5), self.signal(11, 1, 5))[1]
        ((refusal, programs),) = later.refusals.items()
        self.assertEqual((refusal.call, str(refusal.subject), refusal.error), ("signal", "another process", "EPERM"))
        ((layer,), (objection,)) = refusal.layers, refusal.layers[0].objections
        self.assertEqual((layer.number, layer.name), (1, "policy's 1"))
        self.assertEqual(str(objection), "scope signal: another process is outside")
        self.assertEqual(programs, {"/a": 1, "/b": 1})

    def test_a_layer_of_scopes_alone(self) -> None:
        self.policy.write_text(SCOPED + '[[layer]]\nscoped = ["abstract_unix_socket"]\n')
        later = self.judged({"asks": "abstract_unix_socket", "pid": 10, "to": [], "after": 5, "name": "@n"})[1]
        (refusal,) = later.refusals
        self.assertEqual([(layer.number, layer.policy) for layer in refusal.layers], [(None, 2)])
        self.assertEqual((refusal.call, str(refusal.subject)), ("connect", "@n"))

    @unittest.skipUnless(BUILT.exists(), f"{BUILT} is not built")
    def test_moves_under_a_layer_of_scopes_alone(self) -> None:
        """It refuses those to another directory, from the first ABI on that knows it (docs/SEMANTICS.md)."""
        kinds = {"/a": "reg", "/b": "reg", "/d": "dir", "/d/f": "reg", "/e": "dir"}
        write_lines(self.folder / "tree.jsonl", [{"path": path, "kind": kind} for path, kind in kinds.items()])
        move = {"op": "rename", "pid": 11, "from": "/d/f", "to": "/e/f", "kernel": "ok"}
        write_lines(self.folder / "trace.jsonl", [*TRACE, move])
        self.policy.write_text('[[layer]]\nhandled_access_fs = ["refer"]\n[[layer.path_beneath]]\nallowed_access = '
                               '["refer"]\nparent = "/"\n[[layer]]\nscoped = ["signal"]\n')
        for abis, refused in (("3-7", [0, 0, 0, 1, 1]), ("5-6", [0, 1]), ("6-7", [1, 1]), ("5", [0])):
            status, out, _ = called(["audit", self.folder, "--policy", self.policy, "--abi", abis, "--json"])
            found = [one["refused"] for one in json.loads(out)["abis"]]
            self.assertEqual((status, found), (int(any(refused)), refused), abis)

    def test_layers_that_the_program_puts_on_itself(self) -> None:
        own = [
            {"op": "create", "pid": 11, "rs": 3, "fs": ["execute"], "scoped": ["signal"], "kernel": "ok"},
            {"op": "restrict", "pid": 11, "rs": 3, "kernel": "ok"},
        ]
        write_lines(self.folder / "trace.jsonl", [*TRACE[:4], *own])
        write_lines(self.folder / finished.REACH, [self.signal(11, 10, 5), self.signal(11, 10, 6)])
        summaries = [Summary(5), Summary(6)]
        reaching.tell(summaries, finished.opened(str(self.folder)), None, best_effort=True)
        self.assertEqual([summary.verdicts["refused"] for summary in summaries], [0, 1])
        ((layer,),) = (refusal.layers for refusal in summaries[1].refusals)
        self.assertEqual(layer.name, "program's 1")

    def own_layers(self, *records: dict[str, Any], signals: tuple[int, ...]) -> list[int]:
        """By the layers that programs put on themselves, how many signals of some processes to 1 are refused."""
        trace = [*TRACE[:4], *records]
        write_lines(self.folder / "trace.jsonl", trace)
        write_lines(self.folder / finished.REACH, [self.signal(pid, 1, len(trace)) for pid in signals])
        summaries = [Summary(5), Summary(6)]
        reaching.tell(summaries, finished.opened(str(self.folder)), None, best_effort=True)
        return [summary.verdicts["refused"] for summary in summaries]

    def test_each_process_has_numbers_of_rulesets_of_its_own(self) -> None:
        scoped, plain = ({"op": "create", "pid": 11, "rs": 3, "fs": ["execute"], "scoped": ["signal"], "kernel": "ok"},
                         {"op": "create", "pid": 10, "rs": 3, "fs": ["execute"], "kernel": "ok"})
        restricts = tuple({"op": "restrict", "pid": pid, "rs": 3, "kernel": "ok"} for pid in (10, 11))
        for made in ((scoped, plain), (plain, scoped)):
            self.assertEqual(self.own_layers(*made, *restricts, signals=(11,)), [0, 1])
            self.assertEqual(self.own_layers(*made, *restricts, signals=(10,)), [0, 0])

    def test_a_ruleset_goes_to_children_and_goes_when_it_is_closed(self) -> None:
        made = {"op": "create", "pid": 11, "rs": 3, "fs": ["execute"], "scoped": ["signal"], "kernel": "ok"}
        fork, closed = {"op": "fork", "pid": 11, "child": 12}, {"op": "close_rs", "pid": 11, "rs": 3, "kernel": "ok"}
        restricts = {pid: {"op": "restrict", "pid": pid, "rs": 3, "kernel": "ok"} for pid in (11, 12)}
        self.assertEqual(self.own_layers(made, fork, closed, restricts[12], signals=(12,)), [0, 1])
        self.assertEqual(self.own_layers(made, closed, restricts[11], signals=(11,)), [0, 0])

    def test_what_is_distilled_does_not_say_whom_calls_reach(self) -> None:
        look = {"asks": "ptrace", "pid": 10, "to": [1], "after": 5}
        write_lines(self.folder / finished.REACH, [self.signal(10, 1, 5), look, look])
        facts = distilled.facts(condensing.section(finished.opened(str(self.folder))))
        self.assertEqual((facts["scopes"], sum(facts["holes"].values())), ({"signal": 1}, 2))

    def test_lines_that_do_not_say_who_reaches_whom(self) -> None:
        right = self.signal(10, 1, 1)
        told = "reach.jsonl line 1 does not say who reaches whom"
        wrong = right | {"asks": "nothing", "call": "kill(1, 0) = 0"}
        for said in (wrong, right | {"to": 1}, {"asks": "signal", "pid": 10}):
            with self.subTest(said), self.assertRaisesRegex(Problem, told):
                self.judged(said)

    def test_an_audit_of_a_policy_with_scopes(self) -> None:
        """Without --abi it judges the ABIs that have scopes too, and its status is 1."""
        write_lines(self.folder / finished.REACH, [self.signal(10, 1, 5)])
        words = ["audit", str(self.folder), "--policy", str(self.policy), "--json"]
        for abi, refused in (((), [0, 0, 0, 0, 0, 1, 1]), (("--abi", "6"), [1]), (("--abi", "5"), [0]),
                             (("--abi", "4-6"), [0, 0, 1])):
            status, out, _ = called([*words, *abi])
            data = json.loads(out)
            self.assertEqual([step["refused"] for step in data["abis"]], refused)
            self.assertEqual((status, data["abi"]), (max(refused), data["abis"][-1]["abi"]))
            self.assertEqual([step["records"] for step in data["abis"]][-1], data["records"])


class Told(unittest.TestCase):
    def recording(self, *scoped: str, untraced: tuple[str, ...] = ()) -> Finished:
        """A recording of one signal of which nobody knows whom it reaches, under a policy with some scopes."""
        counted = Counter[str]() if SIGNALS in untraced else Counter({SIGNAL: 1})
        return Finished(Path("rec"), (), Counter(), Counter(), True, counted, untraced, scoped)

    def test_calls_that_the_policys_scopes_may_refuse_are_missing(self) -> None:
        self.assertEqual(self.recording().missing, [])
        self.assertEqual(self.recording("abstract_unix_socket").missing, [])
        said = "1 call that scoped = signal may refuse can't be judged: the target is not known"
        self.assertEqual(self.recording("signal").missing, [said])

    def test_a_recording_in_which_none_are_counted(self) -> None:
        older = self.recording("signal", untraced=(SIGNALS,))
        said = "scoped = signal: calls that it may refuse were not traced, so record it again"
        self.assertEqual(older.missing, [said])

    def test_what_stands_beside_each_audit(self) -> None:
        self.assertEqual(list(self.recording().notes), [])
        readlink = "readlink(2) into other processes is not recorded (run --readlink)"
        self.assertEqual(list(self.recording(untraced=(READING_LINKS,)).notes), [readlink])
        looks = "calls that only look (stat, readlink) into other processes are not recorded: record it again"
        self.assertEqual(list(self.recording(untraced=(LOOKING, READING_LINKS, SIGNALS)).notes), [looks])


class PortRules(WrittenLogs):
    """What a policy says beside rights for files, for a strace that prints only an ellipsis for it."""

    def ports(self) -> Ports:
        return Ports([[], ["bind_tcp"]], scoped=[[], []])

    def test_each_ruleset_is_the_next_layer(self) -> None:
        """Also one whose structure has nothing else."""
        made = self.convert(
            "landlock_create_ruleset({handled_access_fs=0x4}, 8, 0) = 3<anon_inode:[landlock-ruleset]>",
            "landlock_create_ruleset({handled_access_fs=0, ...}, 16, 0) = 4<anon_inode:[landlock-ruleset]>",
        )
        self.assertEqual([record.get("net") for record in made if record["op"] == "create"], [None, ["bind_tcp"]])
