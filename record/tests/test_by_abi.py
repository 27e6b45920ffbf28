"""What changes from ABI to ABI: summaries written by hand, as data and as a table."""

from __future__ import annotations

import json
import unittest
from collections import Counter

from landaudit_record.audit import by_abi
from landaudit_record.audit.by_abi import VisibleRefusal
from landaudit_record.audit.summary import Refusal, RefusingLayer, Summary
from landaudit_record.audit.warnings import OfLog
from landaudit_record.summaries import summary_text
from landaudit_record.summaries.summary_text import Style

from .worded import subject

LAYER = RefusingLayer(1, 1, ())
MOVE = VisibleRefusal("rename", subject("/a/f -> /b/f"), "EXDEV")
CUT = VisibleRefusal("open w trunc", subject("/a/f"), "EACCES")
CALL = VisibleRefusal("connect", subject("port 443"), "EACCES")


def summary(abi: int, *kinds: VisibleRefusal, warnings: tuple[str, ...] = ()) -> Summary:
    """A summary with ten calls allowed, one moot, and one refused for each mention of a kind."""
    counts = Counter(allowed=10, moot=1, refused=len(kinds))
    found = Summary(abi, counts, warnings=dict.fromkeys(map(OfLog, warnings), 1))
    for kind in kinds:
        refusal = Refusal(kind.call, kind.subject, kind.error, (LAYER,), None)
        found.refusals.setdefault(refusal, Counter())["/bin"] += 1
    return found


def changes(*summaries: Summary) -> list[tuple[tuple[VisibleRefusal, ...], tuple[VisibleRefusal, ...]]]:
    """What breaks at each ABI, and what is refused no more."""
    return [(step.breaks, step.no_more) for step in by_abi.steps(summaries)]


def table(*summaries: Summary, width: int = 80) -> list[str]:
    """The rows of the table, with its heads."""
    empty, title, *rows = summary_text.by_abi(by_abi.steps(summaries), Style(False, width))
    assert (empty, title) == ("", "by ABI: what breaks there first, and what is refused no more")
    return rows


class Ranges(unittest.TestCase):
    def test_an_abi_that_adds_no_right_has_the_answers_of_the_newest_that_does(self) -> None:
        judged = [summary(4), summary(5, MOVE)]
        found = by_abi.of_range(judged, range(4, 8))
        self.assertEqual([one.abi for one in found], [4, 5, 6, 7])
        self.assertEqual([one.verdicts["refused"] for one in found], [0, 1, 1, 1])
        found[2].verdicts["refused"] += 1
        found[2].refusals.clear()
        self.assertEqual([one.verdicts["refused"] for one in found], [0, 1, 2, 1])
        self.assertEqual([len(one.refusals) for one in found], [0, 1, 0, 1])
        self.assertEqual([one.abi for one in by_abi.of_range([summary(5)], range(6, 7))], [6])


class Steps(unittest.TestCase):
    def test_all_that_the_oldest_refuses_breaks_there(self) -> None:
        self.assertEqual(changes(summary(2, MOVE, CUT)), [((MOVE, CUT), ())])

    def test_each_abi_is_held_against_the_one_before_it(self) -> None:
        found = changes(summary(1, MOVE), summary(2), summary(3, CUT), summary(4, CUT, CALL), summary(5, CUT, MOVE))
        self.assertEqual(found, [((MOVE,), ()), ((), (MOVE,)), ((CUT,), ()), ((CALL,), ()), ((MOVE,), (CALL,))])

    def test_the_earliest_comes_first_and_then_the_most_frequent(self) -> None:
        found = changes(summary(1, MOVE, CUT, CALL, CALL), summary(2), summary(3, CALL, MOVE, CUT, CUT))
        self.assertEqual([breaks for breaks, _ in found], [(MOVE, CALL, CUT), (), (CALL, CUT, MOVE)])

    def test_what_is_no_longer_refused_is_ordered_by_frequency(self) -> None:
        found = changes(summary(1, MOVE, CUT, CALL, CUT), summary(2))
        self.assertEqual(found[1], ((), (CUT, MOVE, CALL)))

    def test_a_kind_is_one_whichever_layers_refuse_it(self) -> None:
        both = summary(2, CALL)
        program = RefusingLayer(2, None, ())
        both.refusals[Refusal(CALL.call, CALL.subject, CALL.error, (LAYER, program), None)] = Counter({"/bin": 2})
        self.assertEqual(changes(summary(1, CALL), both), [((CALL,), ()), ((), ())])
        self.assertEqual(changes(both)[0][0], (CALL,))

    def test_another_error_is_another_kind_and_the_call_stays_refused(self) -> None:
        other = VisibleRefusal(MOVE.call, MOVE.subject, "EACCES")
        self.assertEqual(changes(summary(1, MOVE), summary(2, other)), [((MOVE,), ()), ((other,), ())])

    def test_warnings_that_the_newest_has_not(self) -> None:
        older, newer = summary(1, warnings=("a", "b")), summary(2, warnings=("b",))
        self.assertEqual([step.warnings for step in by_abi.steps([older, newer])], [(OfLog("a"),), ()])


class Written(unittest.TestCase):
    def test_a_row_for_each_abi_and_each_change(self) -> None:
        other = VisibleRefusal("exec", subject("/bin"), "EACCES")
        self.assertEqual(table(summary(1, MOVE, MOVE), summary(2, other), summary(3, other)), [
            "  ABI  allowed  refused  moot  what changes",
            "    1       10        2     1  breaks: rename /a/f -> /b/f EXDEV",
            "    2       10        1     1  breaks: exec /bin EACCES",
            "                               refused no more: rename /a/f -> /b/f EXDEV",
            "    3       10        1     1",
        ])

    def test_a_few_kinds_are_named(self) -> None:
        kinds = [VisibleRefusal("bind", subject(f"port {port}"), "EACCES") for port in range(5)]
        row = table(summary(4, *kinds), summary(5), width=120)[1]
        self.assertTrue(row.endswith("  breaks: bind port 0 EACCES, bind port 1 EACCES, bind port 2 EACCES and 2 more"))
        self.assertTrue(table(summary(4, *kinds[:3]), summary(5), width=120)[1].endswith(", bind port 2 EACCES"))
        self.assertTrue(table(summary(4, *kinds), summary(5))[1].endswith("  breaks: bind port 0 EACCES and 4 more"))

    def test_a_call_that_is_about_nothing_by_name(self) -> None:
        row = table(summary(1, VisibleRefusal("restrict", subject("-"), "EBADF")), summary(2))[1]
        self.assertTrue(row.endswith("  breaks: restrict EBADF"))

    def test_a_descriptor_that_no_program_had_has_no_number(self) -> None:
        row = table(summary(1, VisibleRefusal("ioctl", subject("descriptor 1000001"), "EACCES")), summary(2))[1]
        self.assertTrue(row.endswith("  breaks: ioctl a file of its own EACCES"))

    def test_warnings_that_the_summary_does_not_show(self) -> None:
        rows = table(summary(1, warnings=("a", "b")), summary(2, warnings=("a",)), summary(3))
        self.assertEqual([row.partition("     1  ")[2] for row in rows[1:]],
                         ["2 more warnings: see --abi 1", "1 more warning: see --abi 2", ""])

    def test_a_path_cannot_speak_to_the_terminal(self) -> None:
        rows = table(summary(1, VisibleRefusal("open r", subject("/a/\x1b[2J\n"), "EACCES")), summary(2))
        self.assertIn(r"/a/\x1b[2J\n", rows[1])
        self.assertNotIn("\x1b", "".join(rows))

    def test_as_data(self) -> None:
        data = by_abi.as_data(by_abi.steps([summary(1, MOVE, warnings=("a",)), summary(2)]))
        move = {"call": "rename", "place": "/a/f -> /b/f", "error": "EXDEV"}
        counts = {"allowed": 10, "moot": 1, "unsure": 0}
        self.assertEqual(data, [
            {"abi": 1, "records": 12, "refused": 1, **counts, "breaks": [move], "refused_no_more": [],
             "more_warnings": ["a"]},
            {"abi": 2, "records": 11, "refused": 0, **counts, "breaks": [], "refused_no_more": [move],
             "more_warnings": []},
        ])
        json.dumps(data)
