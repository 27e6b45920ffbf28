"""JUnit's XML, as GitLab reads it: one suite, in which each finding is a test case, a failed one unless it is a note.

There is no standard; the names are those of GitLab's documentation, "Unit test reports".
"""

from __future__ import annotations

from collections.abc import Iterator
from xml.etree import ElementTree
from xml.etree.ElementTree import Element, SubElement

from ...common.findings import Finding, Level, Report
from ...common.wording import plain

_FAILED = (Level.ERROR, Level.WARNING)


def lines(report: Report) -> Iterator[str]:
    """The report as one XML document; without findings it has one passed test, of what holds then."""
    failed = str(sum(finding.level in _FAILED for finding in report.findings))
    counts = {"tests": str(len(report.findings) or 1), "failures": failed, "errors": "0"}
    top = Element("testsuites", counts)
    suite = SubElement(top, "testsuite", {"name": plain(f"{report.command}: {report.about}"), **counts})
    for finding in report.findings:
        _case(suite, report, finding)
    if not report.findings:
        SubElement(suite, "testcase", {"classname": report.command, "name": plain(report.holds)})
    SubElement(suite, "system-out").text = plain(report.summary)
    ElementTree.indent(top)
    yield ElementTree.tostring(top, encoding="us-ascii", xml_declaration=True).decode()


def _case(suite: Element, report: Report, finding: Finding) -> None:
    """A test case: what failed, or what else is said."""
    about = {"classname": f"{report.command}.{finding.kind.name}", "name": plain(finding.subject)}
    spot = finding.spot
    case = SubElement(suite, "testcase", about if spot is None else {**about, "file": plain(spot.name)})
    where = f"{spot.name}:{spot.line}: " if spot is not None and spot.line is not None else ""
    told = plain(f"{where}{finding.message}")
    if finding.level in _FAILED:
        SubElement(case, "failure", {"type": finding.level.value, "message": plain(finding.text)}).text = told
    elif finding.text:
        SubElement(case, "system-out").text = told
