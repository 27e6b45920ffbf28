"""Reports as JSON: what is read of their lines, over one ABI and over several."""

from __future__ import annotations

import json
import tempfile
import unittest
from pathlib import Path

from landaudit_record.common import jsonl
from landaudit_record.common.problems import Problem
from landaudit_record.common.rights import alone
from landaudit_record.common.wording import span
from landaudit_record.engine import reports
from landaudit_record.engine.answers import Answer, Condition, Kept, Missing, Reason, Refusing
from landaudit_record.engine.reports import Row

#: By docs/FORMATS.md, "The report as JSON", and its example.
REPORT = """\
{"line":6,"pid":300,"op":"close","answers":[{"abi":[1,5],"answer":"allowed"}]}
{"line":7,"pid":300,"op":"rename","answers":[{"abi":[1,1],"answer":"refused","error":"EXDEV","layers":[\
{"layer":1,"line":6,"objections":[{"missing":["refer"],"on":"/build/tmp"},{"missing":["refer"],"on":"/build/bin"}]}]},{"abi":[2,5],\
"answer":"allowed"}]}
{"line":9,"pid":301,"op":"open","answers":[{"abi":[1,4],"answer":"moot","why":{"reason":"absent","path":"/none"}},\
{"abi":[5,5],"answer":"refused","error":"EBADF","layers":[],"why":{"condition":"unheld","rs":3}}]}
{"totals":[{"abi":1,"records":9,"allowed":7,"refused":1,"moot":1}],"version":"0.2"}
"""
LINES = REPORT.encode().splitlines(keepends=True)
AT_BOTH = (Refusing(1, 6, (Missing(("refer",), "/build/tmp"), Missing(("refer",), "/build/bin"))),)
PLAIN, ABSENT = Answer("allowed"), Answer("moot", why=Reason("absent", path="/none"))


class Written(unittest.TestCase):
    """Reports in a folder."""

    def report(self, text: str = REPORT) -> Path:
        folder = self.enterContext(tempfile.TemporaryDirectory())
        path = Path(folder, "report.jsonl")
        path.write_text(text, encoding="utf-8", newline="\n")
        return path


class Rows(Written):
    def test_each_abi_has_its_own_answers(self) -> None:
        moved = Answer("refused", "EXDEV", AT_BOTH)
        closed = Answer("refused", "EBADF", why=Condition("unheld", rs=3))
        for abi, second, third in ((1, moved, ABSENT), (2, PLAIN, ABSENT), (4, PLAIN, ABSENT), (5, PLAIN, closed)):
            with self.subTest(abi):
                found = list(reports.rows(self.report(), abi))
                self.assertEqual(found, [Row(6, 300, PLAIN), Row(7, 300, second), Row(9, 301, third)])

    def test_an_abi_that_the_report_has_not(self) -> None:
        with self.assertRaisesRegex(Problem, "can't be read at '{\"line\":6"):
            list(reports.rows(self.report(), 6))

    def test_the_numbers_of_the_records_that_are_shown(self) -> None:
        self.assertEqual(list(reports.numbers(self.report())), [6, 7, 9])

    def test_a_text_is_no_report(self) -> None:
        for text in ("1 10 start allowed\n", "[]\n", '{"line":1}\n', '{"line":1,"pid":1,"op":"exit","answers":{}}\n'):
            with self.subTest(text), self.assertRaisesRegex(Problem, "use programs of one version"):
                list(reports.rows(self.report(text), 5))

    def test_a_line_ends_at_a_line_feed_alone(self) -> None:
        said = {"line": 1, "pid": 2, "op": "open", "answers": [
            {"abi": [5, 5], "answer": "moot", "why": {"reason": "absent", "path": "/\u2028\u0085\r\x0c"}}]}
        text = json.dumps(said, ensure_ascii=False, separators=(",", ":"))
        (found,) = reports.rows(self.report(f"{text}\n"), 5)
        self.assertEqual(found.answer.reason.path, "/\u2028\u0085\r\x0c")


class Some(Written):
    """A report that leaves out records."""

    def test_the_line_on_each_record_that_is_shown(self) -> None:
        with open(self.report(), "rb") as lines:
            shown = reports.Shown(lines)
            self.assertEqual(shown.block(1, 6) + shown.block(7, 2), [b""] * 5 + [*LINES[:2], b""])
            self.assertEqual((shown.block(9, 1), shown.line, shown.block(10, 1)), ([LINES[2]], LINES[3], [b""]))

    def test_nothing_is_shown(self) -> None:
        with open(self.report(LINES[3].decode()), "rb") as lines:
            shown = reports.Shown(lines)
            self.assertEqual((shown.block(1, 1), shown.line), ([b""], LINES[3]))


class Bytes(unittest.TestCase):
    """What is known of a line by its bytes."""

    def test_where_a_line_begins_and_how_it_ends(self) -> None:
        self.assertTrue(LINES[0].startswith(reports.head(6, 300)))
        self.assertFalse(LINES[0].startswith(reports.head(6, 30)))
        self.assertTrue(LINES[-1].startswith(reports.LAST))
        for abis, differing in ((range(1, 6), [False, True, True]), (range(2, 6), [True, True, True])):
            self.assertEqual(reports.differing(abis, only_refused=False)(LINES[:3]), differing)
        self.assertEqual(reports.differing(range(1, 6), only_refused=True)((b"", LINES[1])), [False, True])
        alike = [reports.split(line)[3].startswith(reports.by_all(range(1, 6))) for line in LINES[:3]]
        self.assertEqual(alike, [True, False, False])

    def test_the_abis_that_do_not_allow(self) -> None:
        self.assertEqual([reports.abis_of_others(reports.split(line)[3]) for line in LINES[:3]],
                         [frozenset(), frozenset({1}), frozenset(range(1, 6))])

    def test_a_text_is_no_answer(self) -> None:
        said = jsonl.line({"answers": [{"abi": [1, 1], "answer": "refused", "on": '"abi":[2,2],"answer":"refused"'}]})
        self.assertEqual(reports.abis_of_others(said.encode()), {1})

    def test_of_one_abi(self) -> None:
        line = b'{"line":6,"pid":300,"op":"close","answers":[{"abi":[3,3],"answer":"%b"}]}\n'
        self.assertEqual(reports.differing(alone(3), only_refused=False)([line % b"allowed"]), [False])
        self.assertTrue((line % b"allowed").endswith(reports.ENDS_ALLOWED))
        self.assertFalse((line % b"moot").endswith(reports.ENDS_ALLOWED))
        self.assertIn(reports.HAS_REFUSED, line % b"refused")

    def test_the_members_of_a_line(self) -> None:
        *first, answers = reports.split(LINES[2])
        self.assertEqual(first, [b'{"line":9', b'"pid":301', b'"op":"open"'])
        closed = Answer("refused", "EBADF", why=Condition("unheld", rs=3))
        self.assertEqual(reports.not_allowed(answers), (((1, 2, 3, 4), ABSENT), ((5,), closed)))
        self.assertEqual(reports.not_allowed(reports.split(LINES[0])[3]), ())

    def test_a_layer_in_place_of_its_line_and_a_path_as_it_is_shown(self) -> None:
        """As a walk that counts hands answers over."""
        said = (b'"answers":[{"abi":[1,5],"answer":"refused","error":"EACCES","layers":[{"layer":2,"policy":1,'
                b'"objections":[{"missing":["truncate"],"on":"/a~2~","opened":7,"shown":"/a"}]}]}]}')
        layer = Refusing(2, None, (Kept(("truncate",), "/a", 7),), 1)
        self.assertEqual(reports.not_allowed(said), (((1, 2, 3, 4, 5), Answer("refused", "EACCES", (layer,))),))

    def test_a_cut_line_has_no_answers(self) -> None:
        whole = reports.split(LINES[2])[3]
        for cut in (whole[: len(whole) // 2], whole[:-2], b'"others":[]}', b""):
            with self.subTest(cut), self.assertRaisesRegex(Problem, "use programs of one version"):
                reports.not_allowed(cut)

    def test_the_abis_of_each_answer(self) -> None:
        found = reports.abis_by_verdict(reports.split(LINES[2])[3])
        self.assertEqual(found, {"allowed": frozenset(), "moot": {1, 2, 3, 4}, "refused": {5}})


class Words(unittest.TestCase):
    def test_a_range_of_one_is_named_as_one(self) -> None:
        self.assertEqual((span(alone(3)), span(range(2, 5)), span(range(1, 6))), ("3", "2-4", "1-5"))
