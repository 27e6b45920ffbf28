"""The summary of an audit: small traces with reports by the rules of docs/SEMANTICS.md."""

from __future__ import annotations

import os
import subprocess
import tempfile
import unittest
from collections import Counter
from collections.abc import Sequence
from io import StringIO
from itertools import product
from pathlib import Path
from unittest import mock

from landaudit_record.audit import summary
from landaudit_record.audit.summary import RefusingLayer, Summary
from landaudit_record.audit.warnings import NoLayer
from landaudit_record.common import layout
from landaudit_record.common.json_text import indented
from landaudit_record.common.jsonl import Record
from landaudit_record.common.problems import Problem
from landaudit_record.common.rights import FS, NEWEST_ABI, alone
from landaudit_record.engine.answers import Missing
from landaudit_record.engine.reading import Walk, judged
from landaudit_record.engine.subjects import Subject
from landaudit_record.summaries import summary_text
from landaudit_record.summaries.summary_text import Style, SummaryExtras

from .recorded import (
    Object,
    Said,
    closed_on,
    failed,
    gained,
    kept_on,
    missing_on,
    moot,
    records,
    refused,
    write_lines,
    write_report,
)

NNP = ({"op": "nnp"}, "allowed")
LAYER = [
    ({"op": "create", "rs": 3, "fs": ["read_file"], "policy": {"layer": 1}}, "allowed"),
    ({"op": "restrict", "rs": 3, "policy": {"layer": 1}}, "allowed"),
]
OWN = [({"op": "create", "rs": 4, "fs": ["read_file"]}, "allowed"), ({"op": "restrict", "rs": 4}, "allowed")]
RUN = ({"op": "exec", "path": "/bin", "kernel": "ok"}, "allowed")
READ = {"op": "open", "path": "/a/f", "fd": 5, "mode": "r", "kernel": "ok"}

REFUSED = refused(missing_on("/a/f", "read_file"))
NOT_OPEN = moot("unopened", fd=9)

Call = tuple[Record, Said]


def in_doubt(record: Record, otherwise: int = 0) -> Record:
    """A record of a call that may be another one; or that other one, with the number of its descriptor."""
    marks: Record = {"unknown": "its kind", "otherwise": True} if otherwise else {"unknown": "its kind"}
    return {**marks, **record, "fd": otherwise or record["fd"]}



def summed(
    calls: Sequence[Call], abi: int = 5, unsaid: Counter[str] | None = None, *, tried: bool = False
) -> Summary:
    """The summary of one process's calls, each with its answer."""
    trace = records(*(record for record, _ in calls))
    with tempfile.TemporaryDirectory() as name:
        folder = Path(name)
        said: list[Said | list[Object]] = ["allowed", *(answer for _, answer in calls)]
        report = write_report(folder / "report.jsonl", trace, said, alone(abi))
        found = summary.Summaries(alone(abi), tried=tried)
        walk = Walk(write_lines(folder / "trace.jsonl", trace), report, alone(abi))
        found.take([walk.counted()], alone(abi))
        (one,) = found.done(unsaid or Counter(), [])
        return one


def rule(path: str, *rights: str, parent: str | None = None) -> Record:
    """A rule of the policy, on a parent that may lead to the path by a link."""
    origin = {"layer": 1, "rule": "path_beneath 1", "parent": parent or path}
    return {"op": "add_path", "rs": 3, "path": path, "fs": list(rights), "policy": origin}


def text(found: Summary, coloured: bool = False, width: int = 80, beside: SummaryExtras = SummaryExtras()) -> str:
    return "\n".join(summary_text.lines(found, "rec", Style(coloured, width), beside))


class Refusals(unittest.TestCase):
    def test_like_refusals_are_one_row_and_the_most_frequent_comes_first(self) -> None:
        write = ({**READ, "mode": "w"}, refused(missing_on("/a/f", "write_file")))
        found = summed([NNP, *LAYER, RUN, write, (READ, REFUSED), (READ, REFUSED)])
        rows = [(row["times"], row["call"], row["place"], row["error"]) for row in summary.as_data(found)["refusals"]]
        self.assertEqual(rows, [(2, "open r", "/a/f", "EACCES"), (1, "open w", "/a/f", "EACCES")])

    def test_a_row_names_the_program_and_the_layers(self) -> None:
        both = (READ, refused(missing_on("/a/f", "read_file"), missing_on("/a/f", "read_file")))
        found = summed([NNP, *LAYER, *OWN, both, RUN, both])
        (row,) = summary.as_data(found)["refusals"]
        self.assertEqual(row["programs"], {"-": 1, "/bin": 1})
        self.assertEqual([(layer["number"], layer["policy"]) for layer in row["layers"]], [(1, 1), (2, None)])
        self.assertIn("policy's 1, program's 2", text(found))

    def test_a_child_runs_its_parents_program_until_its_own(self) -> None:
        fork = ({"op": "fork", "child": 11}, "allowed")
        child = [({**READ, "pid": 11}, REFUSED), ({**RUN[0], "pid": 11, "path": "/a/f"}, "allowed"),
                 ({**READ, "pid": 11, "path": "/bin"}, refused(missing_on("/bin", "read_file")))]
        found = summed([NNP, *LAYER, RUN, fork, *child])
        programs = {row["place"]: row["programs"] for row in summary.as_data(found)["refusals"]}
        self.assertEqual(programs, {"/a/f": {"/bin": 1}, "/bin": {"/a/f": 1}})

    def test_the_loader_and_a_failed_exec_are_no_program(self) -> None:
        loader = ({"op": "exec", "path": "/a/f", "role": "interpreter", "kernel": "ok"}, "allowed")
        failed = ({"op": "exec", "path": "/a/f", "kernel": "EACCES"}, "allowed")
        found = summed([NNP, *LAYER, RUN, loader, failed, (READ, REFUSED)])
        self.assertEqual(summary.as_data(found)["refusals"][0]["programs"], {"/bin": 1})

    def test_a_made_up_name_is_shown_as_the_real_one(self) -> None:
        made = {"op": "rename", "from": "/a/f", "to": "/b/~new~", "shown_to": "/b/f", "kernel": "ok"}
        opened = {**READ, "path": "/a/~new~", "shown": "/a/n", "create": True, "mode": "w"}
        found = summed([NNP, *LAYER, (made, refused([missing_on("/a", "refer"), missing_on("/b", "refer")], error="EXDEV")),
                        (opened, refused(missing_on("/a", "write_file", "make_reg")))])
        rows = [(row["call"], row["place"]) for row in summary.as_data(found)["refusals"]]
        self.assertEqual(rows, [("rename", "/a/f -> /b/f"), ("open w create", "/a/n")])

    def test_a_call_on_a_descriptor_names_its_file(self) -> None:
        opened = ({**READ, "mode": "w"}, "allowed")
        dup = ({"op": "dup", "fd": 5, "to": 6}, "allowed")
        cut = ({"op": "ftruncate", "fd": 6}, refused(kept_on("/a/f", "truncate", 5)))
        found = summed([NNP, *LAYER, opened, dup, cut])
        self.assertEqual(summary.as_data(found)["refusals"][0]["place"], "/a/f")

    def test_ports_exchanges_and_kinds(self) -> None:
        exchange = {"op": "rename", "from": "/a/f", "to": "/bin", "exchange": True}
        found = summed([NNP, *LAYER, ({"op": "bind", "port": 80}, refused(closed_on(80, "bind_tcp"))),
                        (exchange, refused(missing_on("/a", "remove_file", "make_reg"))),
                        ({"op": "mknod", "path": "/a/n", "kind": "fifo"}, refused(missing_on("/a", "make_fifo")))])
        rows = [(row["call"], row["place"]) for row in summary.as_data(found)["refusals"]]
        self.assertEqual(rows, [("bind", "port 80"), ("exchange", "/a/f -> /bin"), ("mknod fifo", "/a/n")])


class Whys(unittest.TestCase):
    """What the layers object to, in the last column and as data."""

    def why(self, *calls: Call) -> str:
        """The last column of a summary's one row."""
        lines = text(summed([NNP, *LAYER, *calls]), width=200).splitlines()
        heads = next(number for number, line in enumerate(lines) if line.startswith("  times  call"))
        return lines[heads + 1][lines[heads].index("why"):]

    def test_rights_alone_where_they_are_missing_on_the_place_itself(self) -> None:
        self.assertEqual(self.why((READ, REFUSED)), "read_file")
        own = {**READ, "path": "/a/~f~", "shown": "/a/f"}
        self.assertEqual(self.why((own, refused(missing_on("/a/~f~", "read_file")))), "read_file")
        connect = ({"op": "connect", "port": 443}, refused(closed_on(443, "connect_tcp")))
        self.assertEqual(self.why(connect), "connect_tcp")

    def test_with_the_path_where_they_are_missing_elsewhere(self) -> None:
        make = {**READ, "path": "/a/~new~", "shown": "/a/n", "create": True}
        said = refused(missing_on("/a", "read_file", "make_reg"))
        self.assertEqual(self.why((make, said)), "read_file, make_reg on /a")
        move = {"op": "rename", "from": "/a/f", "to": "/b/f"}
        for said, objections in (
            ("remove_file on /a; make_reg on /b", [missing_on("/a", "remove_file"), missing_on("/b", "make_reg")]),
            ("/a/f would gain execute in /b", [gained("/a/f", "/b", "execute")]),
        ):
            self.assertEqual(self.why((move, refused(objections))), said)

    def test_what_was_missing_at_an_opening_is_one_kind_whatever_line_that_stood_on(self) -> None:
        opened, close = ({**READ, "mode": "w"}, "allowed"), ({"op": "close", "fd": 5}, "allowed")
        cut, calls = {"op": "ftruncate", "fd": 5}, list[Call]()
        for line in (5, 8):
            calls += [opened, (cut, refused(kept_on("/a/f", "truncate", line))), close]
        self.assertEqual(self.why(*calls), "truncate when it was opened")
        (row,) = summary.as_data(summed([NNP, *LAYER, *calls]))["refusals"]
        self.assertEqual(row["times"], 2)

    def test_a_file_that_the_opening_made_has_its_real_name(self) -> None:
        made = ({**READ, "path": "/a/~new~", "shown": "/a/n", "mode": "w", "create": True}, "allowed")
        cut = ({"op": "ftruncate", "fd": 5}, refused(kept_on("/a/~new~", "truncate", 5)))
        (row,) = summary.as_data(summed([NNP, *LAYER, made, cut]))["refusals"]
        kept = {"text": "truncate on /a/n, opened at line 5", "rights": ("truncate",), "path": "/a/n", "opened": 5}
        self.assertEqual(row["layers"][0]["objections"], [kept])

    def test_each_layer_by_its_name_where_they_object_to_different_things(self) -> None:
        both = (READ, refused(missing_on("/a/f", "read_file"), missing_on("/a/f", "write_file", "read_file")))
        self.assertEqual(self.why(*OWN, both), "policy's 1: read_file; program's 2: write_file, read_file")
        alike = (READ, refused(missing_on("/a/f", "read_file"), missing_on("/a/f", "read_file")))
        self.assertEqual(self.why(*OWN, alike), "read_file")

    def test_the_condition_of_a_call_that_fails_by_itself(self) -> None:
        restrict = ({"op": "restrict", "rs": 9}, failed("EBADF", "unheld", rs=9))
        self.assertEqual(self.why(restrict), "ruleset 9 is not held")
        (row,) = summary.as_data(summed([NNP, restrict]))["refusals"]
        self.assertEqual((row["condition"], row["layers"]), ("ruleset 9 is not held", []))

    def test_objections_as_data(self) -> None:
        move = {"op": "rename", "from": "/a/f", "to": "/b/f"}
        said = refused([missing_on("/a", "refer"), gained("/a/f", "/b", "execute")], error="EXDEV")
        (row,) = summary.as_data(summed([NNP, *LAYER, (move, said)]))["refusals"]
        self.assertEqual(row["layers"], [{"number": 1, "policy": 1, "objections": [
            {"text": "refer on /a", "rights": ("refer",), "path": "/a"},
            {"text": "/a/f would gain execute in /b", "path": "/a/f", "rights": ("execute",), "directory": "/b"},
        ]}])
        self.assertIsNone(row["condition"])


class Moots(unittest.TestCase):
    def reasons(self, *calls: Call) -> dict[str, dict[str, int]]:
        return {row["why"]: row["at"] for row in summary.as_data(summed([NNP, *LAYER, *calls]))["moot_because"]}

    def test_reasons_are_landaudits_and_name_where_they_show(self) -> None:
        missing = ({**READ, "path": "/none/f"}, moot("absent", path="/none"))
        self.assertEqual(self.reasons(missing), {"is not in the tree": {"/none": 1}})
        self.assertEqual(self.reasons(({"op": "close", "fd": 9}, NOT_OPEN)), {"is not open": {"descriptor 9": 1}})
        make = ({"op": "mkdir", "path": "/a"}, moot("present", path="/a"))
        self.assertEqual(self.reasons(make), {"is in the tree already": {"/a": 1}})
        beneath = ({"op": "rename", "from": "/a", "to": "/a/~new~", "shown_to": "/a/n"},
                   moot("beneath_itself", **{"from": "/a", "to": "/a/~new~"}))
        self.assertEqual(self.reasons(beneath), {"would go beneath itself": {"/a -> /a/n": 1}})

    def test_a_made_up_name_is_shown_as_the_real_one(self) -> None:
        missing = ({**READ, "path": "/a/~new~", "shown": "/a/n"}, moot("absent", path="/a/~new~"))
        self.assertEqual(self.reasons(missing), {"is not in the tree": {"/a/n": 1}})

    def test_a_number_stays_closed_when_its_opening_was_refused(self) -> None:
        close = ({"op": "close", "fd": 5}, moot("unopened", fd=5))
        why = "is not open, its opening was refused or moot"
        self.assertEqual(self.reasons((READ, REFUSED), close), {why: {"descriptor 5": 1}})
        adopt = ({"op": "adopt", "fd": 5, "kind": "other"}, "allowed")
        again = [(READ, REFUSED), adopt, ({"op": "close", "fd": 5}, "allowed"), close]
        self.assertEqual(self.reasons(*again), {"is not open": {"descriptor 5": 1}})

    def test_a_rule_of_the_program_that_is_left_out(self) -> None:
        said = "left out, as this ABI supports none of the rule's rights"
        rules = [({"op": "add_path", "rs": 4, "path": "/a", "shown": "/a/n", "kernel": "ok"}, moot("unsupported")),
                 ({"op": "add_port", "rs": 4, "port": 443, "kernel": "ok"}, moot("unsupported")),
                 ({"op": "add_port", "rs": 4, "port": 80, "kernel": "EINVAL"}, moot("unsupported"))]
        self.assertEqual(self.reasons(*rules), {said: {"/a/n": 1, "port 443": 1, "port 80": 1}})
        self.assertEqual(summed([NNP, *LAYER, *rules]).warnings, {})

    def test_a_rule_of_the_policy_that_is_left_out_is_not_there(self) -> None:
        left_out = (rule("/a", "truncate"), moot("unsupported"))
        found = summed([NNP, *LAYER, left_out])
        self.assertEqual((found.records, found.moot, found.warnings), (4, {}, {}))

    def test_what_failed_by_itself_says_so(self) -> None:
        missing = {**READ, "path": "/a/~new~", "shown": "/a/none", "kernel": "ENOENT"}
        why = "the call failed in the recording too: ENOENT"
        found = self.reasons((missing, moot("absent", path="/a/~new~")))
        self.assertEqual(found, {why: {"/a/none": 1}})


class Warnings(unittest.TestCase):
    ABSENT = ({**READ, "path": "/none"}, moot("absent", path="/none"))

    def warnings(self, *calls: Call, abi: int = 5) -> list[str]:
        return list(map(str, summed([NNP, LAYER[0], *calls], abi).warnings))

    def test_a_rule_whose_parent_is_not_listed(self) -> None:
        (said,) = self.warnings((rule("/none", "read_file", parent="/bin/none"), moot("absent", path="/none")))
        self.assertIn("policy: layer 1, path_beneath 1, parent /bin/none is moot: /none is not in the tree;", said)

    def test_a_rule_that_is_refused(self) -> None:
        condition = "/a/f is not a directory, and only directories have read_dir"
        answer = failed("EINVAL", "only_for_directories", rights=["read_dir"], path="/a/f")
        (said,) = self.warnings((rule("/a/f", "read_file", "read_dir"), answer))
        self.assertEqual(said, f"policy: layer 1, path_beneath 1, parent /a/f is refused with EINVAL: {condition}")

    def test_a_rule_on_what_the_run_makes(self) -> None:
        added = rule("/a/made", "read_file")
        added |= {"path": "/~new~", "policy": {**added["policy"], "made": "/a"}}
        found = summed([(added, moot("absent", path="/~new~"))], tried=True)
        (said,) = map(str, found.warnings)
        self.assertIn("path_beneath 1, parent /a/made: the run makes it itself", said)
        self.assertIn("grant it on /a", said)
        self.assertEqual((found.records, found.moot), (1, {}))

    def test_a_rule_on_what_the_run_replaces(self) -> None:
        added = rule("/a/conf", "read_file")
        added["policy"]["replaced"] = "/a"
        (said,) = self.warnings((added, "allowed"))
        self.assertIn("path_beneath 1, parent /a/conf: the run puts another object there", said)
        self.assertIn("grant it on /a", said)

    def test_a_ruleset_of_the_program_that_an_older_abi_refuses(self) -> None:
        condition = "ABI 1 does not know refer"
        answer = failed("EINVAL", "unknown", abi=1, rights=["refer"])
        create = ({"op": "create", "rs": 4, "fs": ["read_file", "refer"]}, answer)
        (said,) = self.warnings(create, abi=1)
        self.assertIn(f"a ruleset of the program is refused at ABI 1 with EINVAL: {condition}; a program must", said)

    def test_a_ruleset_of_the_program_that_every_abi_refuses(self) -> None:
        (said,) = self.warnings(({"op": "create", "rs": 4}, failed("ENOMSG", "rightless")))
        self.assertIn("with ENOMSG: no right is named; the program runs without that layer", said)

    def test_a_recording_in_which_nothing_asks_for_a_layer(self) -> None:
        calls = [NNP, RUN, (READ, "allowed")]
        self.assertEqual(list(summed(calls).warnings), [NoLayer()])
        self.assertEqual(list(summed(calls, tried=True).warnings), [])
        self.assertEqual(list(summed([*OWN, *calls]).warnings), [])

    def test_more_than_a_tenth_of_the_calls_on_paths_are_moot(self) -> None:
        close = ({"op": "close", "fd": 5}, "allowed")
        asked = [(READ, "allowed"), close] * 9
        self.assertEqual(self.warnings(*asked, (READ, "allowed"), close, self.ABSENT), [])
        (said,) = self.warnings(*asked, self.ABSENT, self.ABSENT)
        self.assertIn("2 of 11 calls on paths are moot", said)

    def test_a_tenth_is_no_more_than_a_tenth(self) -> None:
        close = ({"op": "close", "fd": 5}, "allowed")
        self.assertEqual(self.warnings(*[(READ, "allowed"), close] * 9, self.ABSENT), [])

    def test_calls_that_failed_by_themselves_do_not_count(self) -> None:
        missing, answer = self.ABSENT
        self.assertEqual(self.warnings(({**missing, "kernel": "ENOENT"}, answer), (READ, "allowed")), [])


class Text(unittest.TestCase):
    def setUp(self) -> None:
        self.found = summed([NNP, *LAYER, RUN, (READ, REFUSED), ({"op": "close", "fd": 9}, NOT_OPEN)],
                            unsaid=Counter(splice=2, scopes=1))

    def test_totals(self) -> None:
        self.assertIn("7 records: 5 allowed, 1 refused, 1 not asked (moot)", text(self.found))

    def test_a_row_of_the_table(self) -> None:
        rows = [line.split() for line in text(self.found).splitlines()]
        self.assertIn(["times", "call", "place", "error", "layers", "program", "why"], rows)
        self.assertIn(["1", "open", "r", "/a/f", "EACCES", "policy's", "1", "/bin", "read_file"], rows)
        self.assertIn(["1", "its", "file", "is", "not", "open", "descriptor", "9"], rows)

    def test_what_was_not_recorded(self) -> None:
        self.assertIn("not recorded: 3 calls", text(self.found))
        self.assertIn(["2", "splice"], [line.split() for line in text(self.found).splitlines()])
        self.assertEqual(summary.as_data(self.found)["unsaid"], {"splice": 2, "scopes": 1})

    def test_a_path_cannot_speak_to_the_terminal(self) -> None:
        path = "/a/\x1b[2J\n"
        opened = {**READ, "path": path, "create": True, "mode": "w"}
        found = summed([NNP, *LAYER, (opened, refused(missing_on(path, "write_file")))])
        self.assertNotIn("\x1b", text(found))
        self.assertIn(r"/a/\x1b[2J\n", text(found))

    def test_up_to_twenty_kinds_are_told_one_by_one_and_more_in_groups(self) -> None:
        many = [({"op": "bind", "port": port}, refused(closed_on(port, "bind_tcp"))) for port in range(21)]
        self.assertIn("refused, the most frequent first (20 kinds)", text(summed([NNP, *LAYER, *many[:20]])))
        lines = text(summed([NNP, *LAYER, *many])).splitlines()
        self.assertIn("refused: 21 kinds in 1 group, the earliest first, then the most frequent", lines)
        self.assertIn("     21  bind_tcp  21 ports from 0 to 20  EACCES  policy's 1  -", lines)
        self.assertIn("  --all lists each kind by itself", lines)
        each = text(summed([NNP, *LAYER, *many]), beside=SummaryExtras(each=True))
        self.assertIn("refused, the most frequent first (21 kinds)", each)
        self.assertEqual(each.count("  bind  port "), 21)

    def test_so_many_groups_are_told(self) -> None:
        """Each of 25 moves has rights of its own; 20 groups are shown and 5 are not."""
        some = [right for right in FS.since if right.startswith(("make_", "remove_"))]
        pairs = [(one, other) for one in some for other in some if one != other][:25]
        both = ([missing_on("/a", one), missing_on("/b", other)] for one, other in pairs)
        moves = [({"op": "rename", "from": "/a/f", "to": "/b/f"}, refused(objections)) for objections in both]
        told = text(summed([NNP, *LAYER, *moves]))
        self.assertIn("refused: 25 kinds in 25 groups", told)
        self.assertIn("  --all lists 5 more groups and each kind by itself", told)

    def test_the_command_for_rules_is_one_command_on_lines_that_fit(self) -> None:
        command = ["landaudit-record", "suggest", "a recording", "--policy", "/" + "long/" * 30 + "p.toml"]
        for width in (20, 40, 80):
            lines = text(self.found, width=width, beside=SummaryExtras(suggesting=command)).splitlines()
            start = lines.index("rules for these:") + 1
            told = lines[start:lines.index("", start)]
            self.assertLessEqual(max(map(len, told)), width)
            printing = ["sh", "-c", "printf '%s\\n' " + "\n".join(told)]
            shown = subprocess.run(printing, stdout=subprocess.PIPE, check=True).stdout
            self.assertEqual(shown.decode().splitlines(), command)

    def test_numbers_of_descriptors_that_no_program_had_are_not_told(self) -> None:
        """1,000,001 is the first number that a recording makes up; 1,000,000 is a program's own."""
        closed = [({"op": "close", "fd": fd}, moot("unopened", fd=fd)) for fd in (1_000_001, 1_000_000)]
        told = text(summed([NNP, *LAYER, *closed]))
        self.assertNotIn("1000001", told)
        self.assertIn("      2  its file is not open  descriptor 1000000", told.splitlines())
        alone = text(summed([NNP, *LAYER, closed[0]]))
        self.assertIn("      1  its file is not open  -", alone.splitlines())

    def test_why_a_call_is_not_asked_is_said_in_words(self) -> None:
        absent = ({**READ, "path": "/none"}, moot("absent", path="/none"))
        tried = ({**READ, "path": "/none", "kernel": "ENOENT"}, moot("absent", path="/none"))
        made = ({"op": "mkdir", "path": "/a"}, moot("present", path="/a"))
        closed = [(READ, REFUSED), ({"op": "close", "fd": 5}, moot("unopened", fd=5))]
        lines = text(summed([NNP, *LAYER, absent, absent, tried, made, *closed])).splitlines()
        start = lines.index("not asked (moot), and why")
        self.assertEqual(lines[start + 1:start + 6], [
            "  times  why                                   at",
            "      2  the recording has no such file        /none",
            "      1  it failed when recorded too: ENOENT   /none",
            "      1  it is there already                   /a",
            "      1  its opening was refused or not asked  descriptor 5",
        ])

    def test_colours_on_a_terminal_alone(self) -> None:
        stream = StringIO()
        with mock.patch.dict(os.environ, clear=True):
            self.assertFalse(Style.of(stream).coloured)
            with mock.patch.object(stream, "isatty", return_value=True):
                self.assertTrue(Style.of(stream).coloured)
                os.environ["NO_COLOR"] = "1"
                self.assertFalse(Style.of(stream).coloured)
        self.assertIn("\x1b[31m1 refused\x1b[0m", text(self.found, coloured=True))
        self.assertNotIn("\x1b", text(self.found))


class ShortWarnings(unittest.TestCase):
    """Warnings as a person reads them: a line for each, in few words."""

    def told(self, *calls: Call, width: int = 80, each: bool = False) -> list[str]:
        lines = text(summed([NNP, *LAYER, *calls]), width=width, beside=SummaryExtras(each=each)).splitlines()
        return [line for line in lines if line.startswith("warning:")]

    def unused(self, parent: str) -> Call:
        return rule(parent, "read_file"), moot("absent", path=parent)

    def test_a_rule_that_the_run_never_used_by_whether_its_path_is_here(self) -> None:
        with tempfile.TemporaryDirectory() as here:
            self.assertEqual(self.told(self.unused(here), self.unused("/none")), [
                "warning: /none: no such path here",
                f"warning: {here}: exists here, but this run never used it",
            ])

    def test_some_of_many_and_each_with_its_rule_where_that_is_asked(self) -> None:
        calls = [self.unused(f"/none/{number}") for number in range(7)]
        self.assertEqual(self.told(*calls)[4:], [
            "warning: /none/4: no such path here",
            "warning: 2 more rules that this run never used: --all lists them",
        ])
        each = self.told(*calls, each=True)
        self.assertEqual((len(each), each[6]), (7, "warning: /none/6: no such path here (layer 1, path_beneath 1)"))

    def test_a_long_path_is_shortened_in_its_middle(self) -> None:
        (line,) = self.told(self.unused("/none/" + "x" * 100 + "/end"), width=60)
        self.assertEqual((len(line), line[:15], line[-24:]), (60, "warning: /none/", "x/end: no such path here"))

    def test_rules_on_what_the_run_makes_and_replaces(self) -> None:
        made, replaced = rule("/a/made", "read_file"), rule("/a/conf", "read_file")
        made |= {"path": "/~new~", "policy": {**made["policy"], "made": "/a"}}
        replaced["policy"]["replaced"] = "/a"
        self.assertEqual(self.told((made, moot("absent", path="/~new~")), (replaced, "allowed")), [
            "warning: /a/made: the run makes it: grant it on /a",
            "warning: /a/conf: the run puts another there: grant it on /a",
        ])

    def test_a_recording_without_layers(self) -> None:
        lines = text(summed([NNP, RUN])).splitlines()
        self.assertIn("warning: no process confines itself: try a policy with --policy", lines)


class Narrow(unittest.TestCase):
    """No line is wider than the screen, whatever is in it."""

    NAMES = ("/a/f", "/" + "x" * 4096, "/a/\udcff\udcfe", "/a/\x1b[2J\n\t\x07", "/a/\u05d0\u05d1\u05d2", "/a/\u202ef",
             "/a/" + "\u6f22" * 99, "/a/ -> /b; c", "/" + "d/" * 500)

    def summary(self) -> Summary:
        calls: list[Call] = []
        for name in self.NAMES:
            calls += [({**READ, "path": name}, refused(missing_on(name, "read_file"))),
                      ({"op": "mkdir", "path": name}, moot("present", path=name)),
                      (rule(name, "read_file"), moot("absent", path=name))]
        return summed([NNP, *LAYER, RUN, *calls], unsaid=Counter({name: 1 for name in self.NAMES}))

    def test_no_line_is_too_wide_and_why_is_seen(self) -> None:
        found = self.summary()
        for width, most in product((20, 33, 47, 80, 132), (1, 20)):
            with self.subTest(width=width, most=most), mock.patch.object(summary_text, "MOST_ROWS", most):
                lines = text(found, width=width).splitlines()
                self.assertLessEqual(max(map(layout.wide, lines)), width)
                self.assertTrue(all(line.isprintable() for line in lines))
                self.assertTrue(any("read_file" in line and "warning" not in line for line in lines))


class AtEighty(unittest.TestCase):
    """Screens of 80 columns: of rights and programs, the rights stay whole."""

    COMPILER = "/usr/lib/gcc/x86_64-linux-gnu/12/cc1"
    WRITES = ("write_file", "read_file", "make_reg")

    def found(self, *places: str) -> list[str]:
        """What is said of files that a compiler and an assembler make at some places."""
        found = Summary(5, Counter(refused=2 * len(places)))
        for index, place in enumerate(places):
            missing = Missing(self.WRITES, os.path.dirname(place))
            layers = (RefusingLayer(1, 1, (missing,)),)
            refusal = summary.Refusal("open rw create", Subject((place,)), "EACCES", layers, None)
            program = "/usr/bin/x86_64-linux-gnu-as" if index % 2 else self.COMPILER
            found.refusals[refusal] = Counter({program: 2 + index % 2})
        return text(found, width=80).splitlines()

    def test_rights_are_not_cut_for_their_path_nor_for_programs(self) -> None:
        lines = self.found("/srv/build/objects/cc4aUeXw.s", "/srv/build/objects/ccb0Tpq1.s")
        self.assertEqual(lines[3:], [
            "refused, the most frequent first (2 kinds)",
            "  all: error EACCES, layers policy's 1",
            "  $D is /srv/build/objects",
            "  programs: x86_64-linux-gnu-as, cc1",
            "  times  call            place          why",
            "      3  open rw create  $D/ccb0Tpq1.s  write_file, read_file, make_reg on $D",
            "      2  open rw create  $D/cc4aUeXw.s  write_file, read_file, make_reg on $D",
        ])

    def test_groups_have_their_rights_and_say_the_programs_once(self) -> None:
        places = (f"/srv/{('compiled', 'assembled')[number % 2]}/{number % 10}/cc{number}.s" for number in range(22))
        self.assertEqual(self.found(*places)[3:9], [
            "refused: 22 kinds in 2 groups, the earliest first, then the most frequent",
            "  all: error EACCES, layers policy's 1",
            "  programs: x86_64-linux-gnu-as, cc1",
            "  times  why                              where",
            "     22  write_file, read_file, make_reg  5 directories in /srv/compiled",
            "     33  write_file, read_file, make_reg  5 directories in /srv/assembled",
        ])


class Data(unittest.TestCase):
    def test_the_keys_stay(self) -> None:
        data = summary.as_data(summed([NNP, *LAYER, (READ, REFUSED), ({"op": "close", "fd": 9}, NOT_OPEN)]))
        self.assertEqual(
            sorted(data),
            ["abi", "accepted", "allowed", "may_be_refused", "moot", "moot_because", "moot_path_calls", "not_judged"]
            + ["not_traced", "path_calls", "records", "refusals", "refused", "unsaid", "unsure", "warnings"],
        )
        self.assertEqual((data["records"], data["allowed"], data["refused"], data["moot"]), (6, 4, 1, 1))
        self.assertEqual(
            sorted(data["refusals"][0]),
            ["call", "condition", "error", "layers", "place", "programs", "times"],
        )
        indented(data)

    def test_calls_that_may_be_refused(self) -> None:
        found = summed([NNP, *LAYER, (in_doubt(READ), "allowed"), (in_doubt(READ, 6), REFUSED)])
        data = summary.as_data(found)
        self.assertEqual([data[name] for name in ("records", "allowed", "refused", "unsure")], [5, 4, 0, 1])
        (told,) = data["may_be_refused"]
        about = (told["call"], told["place"], told["unknown"], told["times"])
        self.assertEqual(about, ("open r", "/a/f", "its kind", 1))
        self.assertEqual(([*data["refusals"]], found.others_refused), ([], False))
        lines = list(summary_text.lines(found, "title", Style(False)))
        self.assertIn("5 records: 4 allowed, 0 refused, 1 may be refused, 0 not asked (moot)", lines)
        self.assertIn("may be refused: what was there before is not known (1 kind)", lines)

    def test_calls_that_are_refused_in_all_cases(self) -> None:
        data = summary.as_data(summed([NNP, *LAYER, (in_doubt(READ), REFUSED), (in_doubt(READ, 6), REFUSED)]))
        self.assertEqual([data[name] for name in ("records", "allowed", "refused", "unsure")], [5, 4, 1, 0])
        self.assertEqual(([one["times"] for one in data["refusals"]], data["may_be_refused"]), ([1], []))


class Joining(unittest.TestCase):
    def test_a_report_on_another_trace(self) -> None:
        trace = records({"op": "nnp"})
        start, nnp = trace
        for said in ([start], [start, {**nnp, "pid": 11}], [start, nnp, nnp]):
            with self.subTest(said), tempfile.TemporaryDirectory() as folder:
                report = write_report(Path(folder, "report.jsonl"), said, ["allowed"] * len(said))
                with self.assertRaisesRegex(Problem, "is not a report on"):
                    list(judged(write_lines(Path(folder, "trace.jsonl"), trace), report, NEWEST_ABI))
