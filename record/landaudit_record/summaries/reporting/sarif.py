"""SARIF 2.1.0 (OASIS): one run, with a result for each finding that is no passed test.

GitHub's code scanning takes results with a location alone, and tells them apart by `primaryLocationLineHash`.
"""

from __future__ import annotations

import json
import os
from collections.abc import Iterator, Sequence
from pathlib import Path
from typing import Any
from urllib.parse import quote

from ... import VERSION
from ...common.findings import Finding, FindingKind, Position, Report
from ...common.wording import plain

SCHEMA = "https://docs.oasis-open.org/sarif/sarif/v2.1.0/errata01/os/schemas/sarif-schema-2.1.0.json"


def lines(report: Report) -> Iterator[str]:
    """The report as one JSON object."""
    kinds = list(dict.fromkeys(finding.kind for finding in report.open))
    program, _, _ = report.command.partition(" ")
    driver = {"name": program, "version": VERSION, "rules": [_rule(kind) for kind in kinds]}
    run = {
        "tool": {"driver": driver},
        "automationDetails": {"id": f"{report.command}/"},
        "columnKind": "unicodeCodePoints",
        "results": [_result(finding, kinds) for finding in report.open],
    }
    yield json.dumps({"$schema": SCHEMA, "version": "2.1.0", "runs": [run]}, indent=2)


def _rule(kind: FindingKind) -> dict[str, Any]:
    """A kind of findings; GitHub wants all three texts."""
    told = {"text": kind.about}
    return {"id": kind.name, "shortDescription": told, "fullDescription": told, "help": told}


def _result(finding: Finding, kinds: Sequence[FindingKind]) -> dict[str, Any]:
    """A finding."""
    times = {"occurrenceCount": finding.times} if finding.times else {}
    return {
        "ruleId": finding.kind.name,
        "ruleIndex": kinds.index(finding.kind),
        "level": finding.level.value,
        "message": {"text": plain(finding.message)},
        "locations": [_location(finding.spot)] if finding.spot else [],
        **times,
        "partialFingerprints": {"primaryLocationLineHash": f"{finding.fingerprint}:1"},
    }


def _location(spot: Position) -> dict[str, Any]:
    """A place in a file."""
    found: dict[str, Any] = {"artifactLocation": {"uri": _uri(spot.name)}}
    if spot.line is not None:
        end = {} if spot.end is None else {"endColumn": spot.end}
        found["region"] = {"startLine": spot.line, "startColumn": spot.column, **end}
    return {"physicalLocation": found}


def _uri(name: str) -> str:
    """A file as a URI; a relative one is as seen from the working directory."""
    return Path(name).as_uri() if name.startswith("/") else quote(os.fsencode(name))
