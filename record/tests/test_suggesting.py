"""Rules that would have let refused calls pass: small traces with reports by the rules of docs/SEMANTICS.md."""

from __future__ import annotations

import tempfile
import tomllib
import unittest
from collections import Counter
from collections.abc import Callable, Iterator, Sequence
from pathlib import Path

from landaudit_record.common import comments
from landaudit_record.common.jsonl import Record
from landaudit_record.common.rights import FS, alone
from landaudit_record.common.trees import Tree
from landaudit_record.engine.reading import Walk
from landaudit_record.policy import policies
from landaudit_record.policy.policies import Policy
from landaudit_record.suggest import suggestion_text
from landaudit_record.suggest.missing_rights import SuggestedRule
from landaudit_record.suggest.remarks import Remark, RemarkKind
from landaudit_record.suggest.suggesting import Recorded, Round, Suggestion, suggest, with_rules

from .recorded import (
    MOUNTING,
    Object,
    Said,
    closed_on,
    failed,
    gained,
    kept_on,
    missing_on,
    moot,
    records,
    refused,
    write_lines,
    write_report,
)
from .worded import said

TREE = Tree(
    {
        "/": "dir",
        "/x": "reg",
        "/y": "reg",
        "/a": "dir",
        "/a/f": "reg",
        "/a/g": "reg",
        "/a/h": "reg",
        "/a/s": "dir",
        "/a/s/t": "reg",
        "/a/link": "sym",
        "/b": "dir",
        "/proc": "dir",
        "/proc/7": "dir",
        "/proc/7/maps": "reg",
        "/tty": "char",
        "/a/made": "dir",
        "/a/made/t": "reg",
        "/b/moved": "reg",
        "/a/g~2~": "reg",
    },
    made={"/a/made", "/a/made/t", "/b/moved", "/a/g~2~"},
    first={"/b/moved": "/a/f"},
    others={"/a/f": ["/b/moved"]},
    shown={"/a/g~2~": "/a/g"},
)
DENY = '[[layer]]\nhandled_access_fs = ["all"]\nhandled_access_net = ["all"]\n'
EVERYTHING = list(FS.since)

Call = tuple[Record, Said]
NONE: Counter[str] = Counter()


def policy(text: str = DENY) -> Policy:
    with tempfile.TemporaryDirectory() as folder:
        path = Path(folder, "P.toml")
        path.write_text(text)
        return policies.read(path)


def layer(number: int | None = 1, fs: Sequence[str] = EVERYTHING) -> list[Call]:
    """The records of one layer, of the policy or (None) of the program itself."""
    origin: Record = {} if number is None else {"policy": {"layer": number}}
    calls: list[Record] = [
        {"op": "create", "rs": 3, "fs": list(fs), "net": ["bind_tcp", "connect_tcp"]},
        {"op": "restrict", "rs": 3},
        {"op": "close_rs", "rs": 3},
    ]
    return [({**call, **origin}, "allowed") for call in calls]


def opened(path: str, mode: str = "r", call: int = 1, **members: object) -> Record:
    return {"op": "open", "path": path, "fd": 5, "mode": mode, "call": call, "kernel": "ok", **members}


def suggested(
    *rounds: list[Call], to: Policy | None = None, abi: int = 5, recorded: Recorded = Recorded(TREE)
) -> Suggestion:
    """What is suggested where the audits answer one after another as the rounds say, and then nothing is refused."""
    return suggested_of([recorded], *([calls] for calls in rounds), to=to, abi=abi)


def suggested_of(
    recorded: Sequence[Recorded], *rounds: list[list[Call]], to: Policy | None = None, abi: int = 5
) -> Suggestion:
    """What is suggested of several recordings, of which a round has the answers to each."""
    audits = iter(rounds)

    def audit(_: Policy, shows: Callable[[int, Walk], Round]) -> Iterator[Round]:
        for index, calls in enumerate(next(audits, [])):
            trace = records({"op": "nnp", "policy": {}}, *(record for record, _ in calls))
            with tempfile.TemporaryDirectory() as folder:
                answers: list[Said | list[Object]] = ["allowed", "allowed", *(answer for _, answer in calls)]
                report = write_report(Path(folder, "report.jsonl"), trace, answers, alone(abi))
                yield shows(index, Walk(write_lines(Path(folder, "trace.jsonl"), trace), report, alone(abi)))

    return suggest(recorded, to or policy(), abi, audit)


def rules(*calls: Call) -> list[tuple[object, list[str], int]]:
    """The rules for refused calls under one layer: the place, the rights by name, the calls that ask."""
    found = suggested([*layer(), *calls])
    return [(rule.place, sorted(rule.rights), rule.calls) for rule in found.rules.get(1, [])]


def reading(path: str, call: int = 1) -> tuple[Record, Object]:
    """A refused opening of a file for reading."""
    return opened(path, call=call), refused(missing_on(path, "read_file"))


def listing(path: str, call: int = 1) -> Call:
    """A refused opening of a directory."""
    return opened(path, call=call), refused(missing_on(path, "read_dir"))


class Paths(unittest.TestCase):
    def test_what_is_missing_is_granted_where_it_is_missing(self) -> None:
        call = (opened("/a/f", "rw", trunc=True), refused(missing_on("/a/f", "write_file", "read_file", "truncate")))
        self.assertEqual(rules(call), [("/a/f", ["read_file", "truncate", "write_file"], 1)])
        self.assertEqual(rules((call[0], refused(missing_on("/a/f", "write_file")))), [("/a/f", ["write_file"], 1)])

    def test_records_of_one_call_count_once(self) -> None:
        run = ({"op": "exec", "path": "/a/f", "call": 1, "kernel": "ok"}, refused(missing_on("/a/f", "execute")))
        self.assertEqual(rules(reading("/a/f"), run, reading("/a/f", 2)), [("/a/f", ["execute", "read_file"], 2)])

    def test_records_without_a_number_count_each(self) -> None:
        call = ({"op": "open", "path": "/a/f", "fd": 5, "mode": "r"}, refused(missing_on("/a/f", "read_file")))
        self.assertEqual(rules(call, call), [("/a/f", ["read_file"], 2)])

    def test_several_files_of_a_directory_have_a_rule_each(self) -> None:
        """A rule on the directory would grant the same on all that is in it."""
        paths = ("/a/f", "/a/g", "/a/h", "/a/s/t")
        calls = [reading(path, call) for call, path in enumerate(paths, start=1)]
        self.assertEqual(rules(*calls), [(path, ["read_file"], 1) for path in paths])

    def test_what_a_directory_has_for_another_reason_is_not_granted_again(self) -> None:
        """What the run makes can have no rule of its own, so its directory has one, which holds for all in it."""
        written = opened("/a/g", "w", 3), refused(missing_on("/a/g", "write_file"))
        found = rules(reading("/a/made/t"), reading("/a/f", 2), written)
        self.assertEqual(found, [("/a", ["read_file"], 2), ("/a/g", ["write_file"], 1)])

    def test_directories_are_not_joined(self) -> None:
        self.assertEqual(rules(listing("/a"), listing("/b", 2)), [("/a", ["read_dir"], 1), ("/b", ["read_dir"], 1)])

    def test_a_rule_on_a_directory_serves_what_is_beneath(self) -> None:
        self.assertEqual(rules(listing("/a/s"), listing("/a", 2)), [("/a", ["read_dir"], 2)])

    def test_new_objects_ask_their_directory(self) -> None:
        make = opened("/a/~new~", "w", create=True, shown="/a/n")
        answer = refused(missing_on("/a", "write_file", "make_reg"))
        self.assertEqual(rules((make, answer)), [("/a", ["make_reg", "write_file"], 1)])

    def test_what_the_run_makes_is_granted_on_the_directory_that_was_there(self) -> None:
        self.assertEqual(rules(reading("/a/made/t", 2)), [("/a", ["read_file"], 1)])

    def test_what_is_moved_is_granted_where_it_was(self) -> None:
        self.assertEqual(rules(reading("/b/moved")), [("/a/f", ["read_file"], 1)])

    def test_what_is_put_in_the_place_of_another_file_is_granted_on_the_directory(self) -> None:
        self.assertEqual(rules(reading("/a/g~2~")), [("/a", ["read_file"], 1)])

    def test_what_may_be_no_directory_has_no_rights_of_directories(self) -> None:
        """A rule with one is EINVAL on what is none (docs/SEMANTICS.md, "Rulesets"), so it is on the directory above."""
        tree = Tree({"/": "dir", "/w": "dir", "/w/x": "reg", "/w/x~2~": "dir", "/w/e": "dir"}, made={"/w/x~2~"},
                    first={"/w/x~2~": "/w/x"}, others={"/w/x": ["/w/x~2~"]}, shown={"/w/x~2~": "/w/x"})
        calls = [*layer(), reading("/w/x"), listing("/w/x~2~", 2), listing("/w/e", 3)]
        found = suggested(calls, recorded=Recorded(tree)).rules[1]
        self.assertEqual({(rule.place, *rule.rights) for rule in found},
                         {("/w/x", "read_file"), ("/w", "read_dir")})
        (above,) = (rule for rule in found if rule.place == "/w")
        self.assertEqual(list(map(str, above.remarks)), ["(for /w/x: not known whether it is a directory, and the kernel "
                                                         "takes its rights on nothing else)"])

    def test_files_of_a_process_are_granted_on_proc(self) -> None:
        self.assertEqual(rules(reading("/proc/7/maps")), [("/proc", ["read_file"], 1)])

    def test_the_rule_for_which_most_calls_ask_comes_first(self) -> None:
        found = rules(reading("/a/f"), listing("/b", 2), listing("/b", 3))
        self.assertEqual([place for place, _, _ in found], ["/b", "/a/f"])


class Remarks(unittest.TestCase):
    """What a rule is for, where it is not on the path that is asked for, and what to be warned of."""

    def remarks(self, *calls: Call) -> list[tuple[str, ...]]:
        return [said(rule) for rule in suggested([*layer(), *calls]).rules[1]]

    def test_a_rule_on_the_path_itself_has_none(self) -> None:
        self.assertEqual(self.remarks(reading("/a/f"), listing("/b", 2), reading("/b/moved", 3)), [(), ()])

    def test_what_the_run_makes(self) -> None:
        self.assertEqual(self.remarks(reading("/a/made/t"), reading("/a/made", 2)),
                         [("(for what the run makes there: made, made/t)",)])

    def test_what_a_call_is_to_make(self) -> None:
        make = (opened("/a/~new~", "w", create=True, shown="/a/n"), refused(missing_on("/a", "write_file", "make_reg")))
        move = ({"op": "rename", "from": "/a/f", "to": "/b/~new~", "shown_to": "/b/m", "call": 2, "kernel": "ok"},
                refused([missing_on("/a", "remove_file"), missing_on("/b", "make_reg")]))
        told = [f"(for what the run makes there: {name})" for name in ("n", "m")]
        self.assertEqual(self.remarks(make, move), [(text,) for text in told])

    def test_what_a_process_has(self) -> None:
        (remarks,) = self.remarks(reading("/proc/7/maps"))
        why = "for what a process has under its number, which differs in each run"
        self.assertEqual(remarks[0], f"({why}, as /proc/7/maps)")
        self.assertIn("warning: /proc: ", remarks[1])

    def test_a_link(self) -> None:
        move = ({"op": "rename", "from": "/a/link", "to": "/b/~new~", "call": 1, "kernel": "ok"},
                refused(gained("/a/link", "/b", "execute"), error="EXDEV"))
        self.assertEqual(self.remarks(move), [("(for the link /a/link, since a rule follows it)",)])

    def test_names_that_are_made_up(self) -> None:
        tree = Tree({**TREE.kinds, "/a/x.Ab3dEf": "reg"}, made={*TREE.made, "/a/x.Ab3dEf"})
        (rule,) = suggested([*layer(), reading("/a/x.Ab3dEf")], recorded=Recorded(tree)).rules[1]
        self.assertEqual((rule.place, said(rule)), ("/a", ("(for names that differ in each run, as x.Ab3dEf)",)))

    def test_names_beneath_a_made_up_one(self) -> None:
        make = (opened("/a/x.Ab3dEf/~new~", "w", create=True, shown="/a/x.Ab3dEf/n"),
                refused(missing_on("/a/x.Ab3dEf", "make_reg")))
        tree = Tree({**TREE.kinds, "/a/x.Ab3dEf": "dir"}, made={*TREE.made, "/a/x.Ab3dEf"})
        (rule,) = suggested([*layer(), make], recorded=Recorded(tree)).rules[1]
        told = "(for names that differ in each run, as x.Ab3dEf, x.Ab3dEf/n)"
        self.assertEqual((rule.place, said(rule)), ("/a", (told,)))

    def test_a_long_name_is_shortened(self) -> None:
        tree = Tree({**TREE.kinds, f"/a/{'n' * 200}": "reg"}, made={*TREE.made, f"/a/{'n' * 200}"})
        (rule,) = suggested([*layer(), reading(f"/a/{'n' * 200}")], recorded=Recorded(tree)).rules[1]
        self.assertRegex(said(rule)[0], r"^\(for what the run makes there: n{20,}…n{20,}\)$")
        self.assertLess(len(said(rule)[0]), 200)

    def test_a_name_that_looks_so_and_was_there(self) -> None:
        tree = Tree({**TREE.kinds, "/a/x.Ab3dEf": "dir", "/a/x.Ab3dEf/f": "reg"})
        (rule,) = suggested([*layer(), reading("/a/x.Ab3dEf/f")], recorded=Recorded(tree)).rules[1]
        told = "(/a/x.Ab3dEf looks like a name that differs in each run: then grant on /a)"
        self.assertEqual((rule.place, said(rule)), ("/a/x.Ab3dEf/f", (told,)))

    def test_a_warning(self) -> None:
        make = (opened("/~new~", "w", create=True, shown="/n"), refused(missing_on("/", "make_reg")))
        told = ("(for what the run makes there: /n)", "warning: make_reg on everything")
        self.assertEqual(self.remarks(make), [told])


class SeveralRecordings(unittest.TestCase):
    def test_what_one_of_them_lacks_is_granted(self) -> None:
        found = suggested_of([Recorded(TREE), Recorded(TREE)], [[*layer(), reading("/a/f")], [*layer(), listing("/b")]])
        self.assertEqual({rule.place: rule.calls for rule in found.rules[1]}, {"/a/f": 1, "/b": 1})

    def test_calls_of_each_count(self) -> None:
        found = suggested_of([Recorded(TREE), Recorded(TREE)], [[*layer(), reading("/a/f")]] * 2)
        self.assertEqual(found.rules[1], [SuggestedRule("/a/f", frozenset({"read_file"}), 2)])

    def test_what_one_run_made_and_another_found(self) -> None:
        """The second run is in the folder that the first left: before the first, no rule could be on the file."""
        first = Recorded(Tree({"/": "dir", "/w": "dir", "/w/out": "reg"}, made={"/w/out"}))
        second = Recorded(Tree({"/": "dir", "/w": "dir", "/w/out": "reg"}))
        make = (opened("/w/~new~", "w", create=True, shown="/w/out"), refused(missing_on("/w", "make_reg")))
        found = suggested_of([first, second], [[*layer(), make], [*layer(), reading("/w/out")]])
        self.assertEqual([(rule.place, rule.rights) for rule in found.rules[1]], [("/w", {"make_reg", "read_file"})])

    def test_names_that_differ_from_run_to_run(self) -> None:
        trees = [Tree({"/": "dir", "/r": "dir", f"/r/x-{part}": "dir", f"/r/x-{part}/sock": "reg"})
                 for part in ("8f3a1c", "77b0de")]
        calls = [[*layer(), reading(f"/r/x-{part}/sock")] for part in ("8f3a1c", "77b0de")]
        (rule,) = suggested_of([Recorded(tree) for tree in trees], calls).rules[1]
        self.assertEqual((rule.place, rule.calls), ("/r", 2))
        self.assertEqual(said(rule), ("(for names that differ in each run, as x-77b0de/sock, x-8f3a1c/sock)",))

    def test_files_that_were_named_to_the_program_stay(self) -> None:
        trees = [Tree({"/": "dir", "/w": "dir", f"/w/{name}": "reg"}) for name in ("left", "mode")]
        calls = [[*layer(), reading(f"/w/{name}")] for name in ("left", "mode")]
        found = suggested_of([Recorded(tree) for tree in trees], calls)
        self.assertEqual([rule.place for rule in found.rules[1]], ["/w/left", "/w/mode"])


class TheRunAfter(unittest.TestCase):
    """A file that the run makes and cuts is there in the run after, where opening it asks for truncate."""

    MAKE = (opened("/a/~new~", "w", create=True, trunc=True, shown="/a/n"),
            refused(missing_on("/a", "write_file", "make_reg")))

    def rights(self, handled: str = '["all"]', abi: int = 5, cut: frozenset[str] = frozenset({"/a/n"})) -> set[str]:
        to = policy(f"[[layer]]\nhandled_access_fs = {handled}\n")
        found = suggested([*layer(), self.MAKE], recorded=Recorded(TREE, cut), to=to, abi=abi)
        (rule,) = found.rules[1]
        self.assertEqual(rule.place, "/a")
        return set(rule.rights)

    def test_it_is_granted(self) -> None:
        self.assertEqual(self.rights(), {"write_file", "make_reg", "truncate"})

    def test_not_for_what_the_run_removes(self) -> None:
        self.assertEqual(self.rights(cut=frozenset()), {"write_file", "make_reg"})

    def test_not_where_it_is_not_handled_or_not_known(self) -> None:
        self.assertEqual(self.rights('["write_file", "make_reg"]'), {"write_file", "make_reg"})
        self.assertEqual(self.rights(abi=2), {"write_file", "make_reg"})


class FailedAnyway(unittest.TestCase):
    """What failed in the recording by file modes or file systems fails whatever the rules are."""

    def failing(self, kernel: str, *before: Call) -> Suggestion:
        record, answer = reading("/a/f")
        return suggested([*before, *layer(), ({**record, "kernel": kernel}, answer)])

    def test_no_rule_is_asked_for(self) -> None:
        for kernel in ("EACCES", "EPERM", "EROFS", "EXDEV"):
            with self.subTest(kernel):
                found = self.failing(kernel)
                self.assertEqual((found.rules, found.failed), ({}, {"open r": 1}))

    def test_it_is_said(self) -> None:
        written = "\n".join(suggestion_text.lines(self.failing("EPERM"), policy()))
        self.assertIn("# 1 call is refused that failed in the recording too, so no rule would help: open r 1", written)

    def test_under_a_layer_of_the_program_the_failure_may_be_that_layers(self) -> None:
        for kernel, places in (("EACCES", ["/a/f"]), ("EROFS", [])):
            with self.subTest(kernel):
                record, answer = reading("/a/f")
                (layer_of_policy,) = answer["layers"]
                by_second = {**answer, "layers": [{**layer_of_policy, "layer": 2, "line": 102}]}
                found = suggested([*layer(None), *layer(), ({**record, "kernel": kernel}, by_second)])
                self.assertEqual([rule.place for rule in found.rules.get(1, [])], places)

    def test_other_errors_come_after_landlock(self) -> None:
        self.assertEqual(self.failing("ENXIO").failed, {})


class Descriptors(unittest.TestCase):
    CUT = {"op": "ftruncate", "fd": 5, "call": 2}

    def test_what_a_file_lacked_when_it_was_opened_is_granted_on_it(self) -> None:
        cut = (self.CUT, refused(kept_on("/a/f", "truncate", 6)))
        self.assertEqual(rules((opened("/a/f", "w"), "allowed"), cut), [("/a/f", ["truncate"], 1)])
        ask = ({"op": "ioctl", "fd": 5, "driver": True, "call": 2}, refused(kept_on("/tty", "ioctl_dev", 6)))
        self.assertEqual(rules((opened("/tty"), "allowed"), ask), [("/tty", ["ioctl_dev"], 1)])

    def test_and_on_the_directory_of_a_new_file(self) -> None:
        cut = (self.CUT, refused(kept_on("/a/~new~", "truncate", 6)))
        make = (opened("/a/~new~", "w", create=True, shown="/a/n"), "allowed")
        self.assertEqual(rules(make, cut), [("/a", ["truncate"], 1)])


class Moves(unittest.TestCase):
    MOVE = {"op": "rename", "from": "/a/f", "to": "/b/~new~", "shown_to": "/b/n", "call": 1, "kernel": "ok"}
    REFER = refused([missing_on("/a", "refer"), missing_on("/b", "refer")], error="EXDEV")

    def test_eacces_asks_to_remove_and_to_make(self) -> None:
        found = rules((self.MOVE, refused([missing_on("/a", "remove_file"), missing_on("/b", "make_reg")])))
        self.assertEqual(found, [("/a", ["remove_file"], 1), ("/b", ["make_reg"], 1)])

    def test_exdev_asks_for_refer_on_both_directories(self) -> None:
        self.assertEqual(rules((self.MOVE, self.REFER)), [("/a", ["refer"], 1), ("/b", ["refer"], 1)])

    def test_what_would_be_gained_is_granted_on_the_object(self) -> None:
        gain = refused(gained("/a/f", "/b", "execute"), error="EXDEV")
        self.assertEqual(rules((self.MOVE, gain)), [("/a/f", ["execute"], 1)])

    def test_for_a_symbolic_link_on_its_directory(self) -> None:
        gain = refused(gained("/a/link", "/b", "execute"), error="EXDEV")
        self.assertEqual(rules(({**self.MOVE, "from": "/a/link"}, gain)), [("/a", ["execute"], 1)])

    def test_refer_is_unknown_to_abi_1(self) -> None:
        """Each layer with rights for files handles it there too, and no rule can grant it."""
        both = [missing_on("/a", "refer"), missing_on("/b", "refer"), gained("/a/f", "/b", "execute")]
        for refusal in (self.REFER, refused(both, error="EXDEV")):
            with self.subTest(refusal=refusal):
                found = suggested([*layer(1, ["execute"]), (self.MOVE, refusal)], abi=1)
                self.assertEqual((found.rules, found.unmended), ({}, {"rename": 1}))

    def test_a_layer_that_does_not_handle_refer_by_name_must(self) -> None:
        reads = policy('[[layer]]\nhandled_access_fs = ["read_file"]\n')
        found = suggested([*layer(1, ["read_file"]), (self.MOVE, self.REFER)], to=reads)
        written = "\n".join(suggestion_text.lines(found, reads))
        self.assertIn('# handled_access_fs = ["read_file", "refer"]', written)
        handled = with_rules(reads, found.rules).layers[0].handled_access_fs
        self.assertEqual(handled.rights, {"read_file", "refer"})


class Ports(unittest.TestCase):
    def test_ports_that_lack_the_same_are_one_rule(self) -> None:
        calls = [({"op": op, "port": port, "call": call}, refused(closed_on(port, f"{op}_tcp"))) for call, (op, port) in
                 enumerate((("connect", 443), ("connect", 80), ("bind", 8080), ("connect", 80)), start=1)]
        self.assertEqual(rules(*calls), [((80, 443), ["connect_tcp"], 3), ((8080,), ["bind_tcp"], 1)])

    def test_a_port_that_the_kernel_may_have_chosen_gets_a_warning(self) -> None:
        """ip(7): the kernel chooses among the ports 32,768 to 60,999."""
        for op, ports, told in (
            ("connect", (32767, 61000), ()),
            ("connect", (443, 32768, 60999), ("warning: 32768, 60999: if the kernel chose it (bind to port 0), it "
                                              "differs in each run",)),
            ("bind", (40000,), ()),
        ):
            calls = [({"op": op, "port": port, "call": port}, refused(closed_on(port, f"{op}_tcp"))) for port in ports]
            (rule,) = suggested([*layer(), *calls]).rules[1]
            self.assertEqual((rule.place, said(rule)), (ports, told))


MOUNT = ({"op": "mount"}, refused(MOUNTING, error="EPERM"))


class Layers(unittest.TestCase):
    def test_each_layer_lacks_its_own(self) -> None:
        both = (opened("/a/f", "rw"), refused(missing_on("/a/f", "read_file"), missing_on("/a/f", "write_file")))
        found = suggested([*layer(1), *layer(2), both], to=policy(DENY + DENY))
        reads, writes = (SuggestedRule("/a/f", frozenset({right}), 1) for right in ("read_file", "write_file"))
        self.assertEqual(found.rules, {1: [reads], 2: [writes]})

    def test_a_layer_of_the_program_is_not_mended(self) -> None:
        found = suggested([*layer(None), reading("/a/f")])
        self.assertEqual((found.rules, found.of_program), ({}, {"open r": 1}))

    def test_a_forked_child_has_its_parents_layers(self) -> None:
        record, answer = reading("/a/f")
        child: list[Call] = [({"op": "fork", "child": 11}, "allowed"), ({**record, "pid": 11}, answer)]
        self.assertEqual(rules(*child), [("/a/f", ["read_file"], 1)])

    def test_a_call_that_fails_by_itself_is_no_layers(self) -> None:
        create = ({"op": "create", "rs": 4, "fs": ["refer"]}, failed("EINVAL", "unknown", abi=1, rights=["refer"]))
        found = suggested([*layer(), create, reading("/a/f")], abi=1)
        self.assertEqual((found.unmended, found.of_program), ({}, {}))
        self.assertEqual(found.rules, {1: [SuggestedRule("/a/f", frozenset({"read_file"}), 1)]})

    def test_a_mount_is_not_mended(self) -> None:
        found = suggested([*layer(), MOUNT])
        self.assertEqual((found.rules, found.unmended), ({}, {"mount": 1}))


class Rounds(unittest.TestCase):
    def test_what_stood_behind_a_refusal_is_asked_for_too(self) -> None:
        cut, opening = {"op": "ftruncate", "fd": 5, "call": 2}, opened("/a/f", "w")
        first = [*layer(), (opening, refused(missing_on("/a/f", "write_file"))), (cut, moot("unopened", fd=5))]
        second = [*layer(), (opening, "allowed"), (cut, refused(kept_on("/a/f", "truncate", 6)))]
        found = suggested(first, second)
        self.assertEqual(found.rules, {1: [SuggestedRule("/a/f", frozenset({"write_file", "truncate"}), 2)]})
        self.assertEqual((found.rounds, found.finished), (3, True))

    def test_nothing_refused_suggests_nothing(self) -> None:
        found = suggested([*layer(), (opened("/none"), moot("absent", path="/none"))])
        self.assertEqual((found.rules, found.rounds, found.finished), ({}, 1, True))

    def test_it_comes_to_an_end(self) -> None:
        again = [*layer(), reading("/a/f")]
        found = suggested(*[again] * 50)
        self.assertEqual((found.finished, found.rounds), (False, 2))


class Text(unittest.TestCase):
    def test_what_is_printed_pastes_into_the_policy(self) -> None:
        connect = ({"op": "connect", "port": 80, "call": 2}, refused(closed_on(80, "connect_tcp")))
        found = suggested([*layer(), reading("/a/f"), connect])
        written = "\n".join(suggestion_text.lines(found, policy()))
        read = policy(DENY + written)
        self.assertEqual([rule.parents for rule in read.layers[0].path_beneath], [("/a/f",)])
        self.assertEqual([rule.ports for rule in read.layers[0].net_port], [(80,)])
        self.assertIn("# 1 call\n[[layer.path_beneath]]", written)

    def test_any_path_is_a_toml_text(self) -> None:
        for path in ('/a"b\\c', "/é\u2028\U0001f600", "/\x7f\x01\t\n"):
            with self.subTest(path=path):
                rule = SuggestedRule(path, frozenset({"read_file"}), 1)
                written = "\n".join(suggestion_text.lines(Suggestion({1: [rule]}, NONE, NONE, 1, True), policy()))
                self.assertEqual(tomllib.loads(DENY + written)["layer"][0]["path_beneath"][0]["parent"], path)

    def test_why_a_rule_on_the_file_would_not_do(self) -> None:
        found = suggested([*layer(), reading("/a/g~2~")])
        written = list(suggestion_text.lines(found, policy()))
        why = "# (the run puts another object at /a/g: a rule on that path stays with the first one)"
        self.assertIn(why, written)
        self.assertIn('parent = "/a"', written)

    def test_with_several_layers_each_is_named(self) -> None:
        rule = SuggestedRule("/a", frozenset({"read_file"}), 2)
        written = list(suggestion_text.lines(Suggestion({2: [rule]}, NONE, NONE, 1, True), policy(DENY + DENY)))
        self.assertRegex(written[0], "^# 1 rule for layer 2: paste them under the .*layer.* of that number")

    RULES = [SuggestedRule("/a/f", frozenset({"read_file"}), 3),
             SuggestedRule("/b", frozenset({"read_file"}), 2, (Remark(RemarkKind.ALSO, "why"),)),
             SuggestedRule("/c", frozenset({"read_file"}), 1), SuggestedRule((80, 81), frozenset({"bind_tcp"}), 1)]

    def test_rules_with_equal_rights_are_one_but_for_those_with_remarks(self) -> None:
        written = "\n".join(suggestion_text.written(self.RULES))
        self.assertEqual(written, """
# 1 to 3 calls each
[[layer.path_beneath]]
allowed_access = ["read_file"]
parent = [
    "/a/f",
    "/c",
]

# 2 calls
# also why
[[layer.path_beneath]]
allowed_access = ["read_file"]
parent = "/b"

# 1 call
[[layer.net_port]]
allowed_access = ["bind_tcp"]
port = [80, 81]
""")
        same = [SuggestedRule(f"/f{number}", frozenset({"read_file"}), 2) for number in range(2)]
        written = "\n".join(suggestion_text.written(same))
        self.assertTrue(written.startswith("\n# 2 calls each\n"), written)
        self.assertEqual(policy(DENY + written).layers[0].path_beneath[0].parents, ("/f0", "/f1"))

    def test_the_whole_policy(self) -> None:
        text = f'# Mine.\n\n{DENY}include = "base"\n'
        found = Suggestion({1: self.RULES}, NONE, NONE, 1, True, groups={1: {"tmp": 2}})
        whole = "\n".join(suggestion_text.whole(found, policy(text), comments.read(text)))
        self.assertTrue(whole.startswith("# Mine.\n\n# suggested tmp for 2 calls\n[[layer]]\n"), whole)
        self.assertIn("# suggested for 2 calls\n# also why\n[[layer.path_beneath]]\n", whole)
        self.assertIn('\ninclude = ["base", "tmp"]\n', whole)
        again, meant = policy(whole).layers, with_rules(policy(text), found.rules, found.groups).layers
        self.assertEqual([rule.ports for rule in again[0].net_port], [(80, 81)])
        self.assertEqual({(rule.parents, rule.allowed_access.rights) for rule in again[0].path_beneath},
                         {(rule.parents, rule.allowed_access.rights) for rule in meant[0].path_beneath})
        self.assertEqual(again[0].path_beneath[0].parents, ("/a/f", "/c"))

    def test_many_paths_of_one_directory_are_told(self) -> None:
        for number, told in ((7, False), (8, True)):
            rules = [SuggestedRule(f"/etc/php/{name}.ini", frozenset({"read_file"}), 1) for name in range(number)]
            said = list(suggestion_text.ending(Suggestion({1: rules}, NONE, NONE, 1, True)))
            hint = f"{number} of the paths are in /etc/php: --rules N grants on directories in their place"
            self.assertEqual(hint in said, told)

    def test_what_stays_refused_is_said(self) -> None:
        found = suggested([*layer(), MOUNT])
        written = "\n".join(suggestion_text.lines(found, policy()))
        self.assertIn("# 1 call is refused by layers of the policy whatever their rules are: mount 1", written)
