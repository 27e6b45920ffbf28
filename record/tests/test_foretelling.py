"""What a bare recording foretold, against refusals written by hand."""

from __future__ import annotations

import tempfile
import unittest
from pathlib import Path
from typing import Any
from unittest import mock

from landaudit_record.common import jsonl

from . import foretelling
from .foretelling import Asked, Refusal

BARE, CONFINED, POLICY = Path("bare"), Path("confined"), Path("policy.toml")


def refused(*refusals: tuple[str, str, str]) -> dict[str, Any]:
    """An audit with refusals by a layer: call, place and error of each."""
    keys = ("call", "place", "error")
    return {"refusals": [{**dict(zip(keys, one)), "layers": [{"number": 1}]} for one in refusals], "may_be_refused": []}


def audits(*, said: dict[str, Any], met: dict[str, Any], bare: dict[str, Any], confined: dict[str, Any]) -> Any:
    """Audits by recording and policy, as `foretelling` asks for them: nothing is asked of descriptors."""
    answers = {
        (BARE, POLICY): said,
        (CONFINED, None): met,
        (BARE, foretelling.DENYING[0]): bare,
        (CONFINED, foretelling.DENYING[0]): confined,
    }
    return mock.patch.multiple(
        foretelling,
        _audit=lambda *asked: answers.get(asked[:2], refused()),
        _made_under_layers=foretelling._made,
    )


class Foretelling(unittest.TestCase):
    def test_a_refusal_is_foretold_behind_another_or_missed(self) -> None:
        known, behind, missed = (("open r", f"/{name}", "EACCES") for name in ("known", "behind", "missed"))
        with audits(
            said=refused(known),
            met=refused(known, behind, missed),
            bare=refused(known, missed),
            confined=refused(known, behind, missed),
        ):
            told = foretelling.compared(BARE, CONFINED, POLICY, 5)
        self.assertEqual(told.foretold, {Refusal(Asked("open r", "/known"), "EACCES")})
        self.assertEqual(told.behind, {Refusal(Asked("open r", "/behind"), "EACCES")})
        self.assertEqual(told.missed, {Refusal(Asked("open r", "/missed"), "EACCES")})
        self.assertEqual(list(foretelling.details(told)), ["missed: open r /missed EACCES"])

    def test_a_refusal_of_which_it_was_said_that_it_may_be_is_not_missed(self) -> None:
        unsure = refused(("open r", "/unsure", "EACCES"))
        said = {**refused(), "may_be_refused": unsure["refusals"]}
        with audits(said=said, met=unsure, bare=unsure, confined=unsure):
            told = foretelling.compared(BARE, CONFINED, POLICY, 5)
        self.assertEqual(told.may_be, {Refusal(Asked("open r", "/unsure"), "EACCES")})
        self.assertFalse(told.is_wrong or told.behind)

    def test_what_was_foretold_and_passes_is_a_false_alarm_and_what_was_never_asked_is_none(self) -> None:
        passes, unasked = ("mkdir", "/passes", "EACCES"), ("mkdir", "/unasked", "EACCES")
        with audits(
            said=refused(passes, unasked), met=refused(), bare=refused(passes, unasked), confined=refused(passes)
        ):
            told = foretelling.compared(BARE, CONFINED, POLICY, 5)
        self.assertEqual(told.false_alarms, {Refusal(Asked("mkdir", "/passes"), "EACCES")})
        self.assertTrue(told.is_wrong)

    def test_calls_before_the_first_layer_are_not_made_under_one(self) -> None:
        trace: list[jsonl.Record] = [
            {"op": "start", "pid": 1},
            {"op": "open", "pid": 1, "path": "/bin/sandbox", "fd": 9, "mode": "r", "kernel": "ok"},
            {"op": "exec", "pid": 1, "path": "/bin/sandbox", "kernel": "ok"},
            {"op": "open", "pid": 1, "path": "/etc/sandbox", "fd": 3, "mode": "r", "kernel": "ok"},
            {"op": "fork", "pid": 1, "child": 2},
            {"op": "create", "pid": 1, "rs": 4, "fs": ["execute"], "kernel": "ok"},
            {"op": "restrict", "pid": 1, "rs": 4, "kernel": "ok"},
            {"op": "mkdir", "pid": 2, "path": "/w/n", "kernel": "ok"},
            {"op": "fork", "pid": 1, "child": 3},
            {"op": "exec", "pid": 1, "path": "/bin/ls", "kernel": "ok"},
            {"op": "mkdir", "pid": 3, "path": "/w/m", "kernel": "ok"},
        ]
        kept = [(record["op"], record.get("path")) for record in foretelling.under_layers(trace)]
        self.assertEqual(
            [one for one in kept if one[1] is not None],
            [("exec", "/bin/sandbox"), ("exec", "/bin/ls"), ("mkdir", "/w/m")],
        )
        self.assertEqual(len(kept), 8)

    def test_names_that_are_made_up_are_alike(self) -> None:
        self.assertEqual(foretelling.alike("/tmp/sortQx7aB2"), foretelling.alike("/tmp/sort9pLmZa"))
        self.assertEqual(foretelling.alike("/proc/123/fd"), foretelling.alike("/proc/4567/fd"))
        self.assertEqual(foretelling.alike("/usr/lib/locale"), "/usr/lib/locale")


class Audits(unittest.TestCase):
    """An audit that a program stands for which says something and ends with a status."""

    def audit(self, status: int) -> dict[str, Any]:
        folder = self.enterContext(tempfile.TemporaryDirectory())
        recorder = Path(folder) / "recorder"
        recorder.write_text(f'print(\'{{"refusals": []}}\')\nraise SystemExit({status})\n', encoding="utf-8")
        with mock.patch.object(foretelling, "RECORDER", recorder):
            return foretelling._audit(BARE, None, 5)

    def test_one_that_refuses_or_could_not_judge_all_came_to_its_end(self) -> None:
        for status in (0, 1, 5):
            self.assertEqual(self.audit(status), {"refusals": []})

    def test_one_that_failed_is_a_failure(self) -> None:
        for status in (2, 3, 4):
            with self.assertRaises(RuntimeError):
                self.audit(status)
