"""A comparison of two policies as findings: what only the new policy lets pass is an error, the reverse a note.

What passes belongs to the rule of the new policy that lets it pass, if it has one.
"""

from __future__ import annotations

from ...common.findings import Finding, FindingKind, Level, Position, Report
from ...common.wording import counted, spans
from ...policy import differing_text
from ...policy.differing_rows import DifferenceRow, Gains, Moves, RightsInArea, RightsOnMoved, RightsOnPorts, What
from ...policy.policies import Policy
from ...policy.reviewing import Review
from .rules import Rules

MORE = FindingKind("allows-more", "The new policy lets something pass that the old one refuses.")
LESS = FindingKind("allows-less", "The new policy refuses something that the old one lets pass.")
NOT_THERE = FindingKind("accepted-not-there", "An accepted difference does not occur.")


def report(review: Review, new: Policy) -> Report:
    """The report on a comparison; the parents of the new policy are what they lead to on this machine."""
    rules = Rules(new)
    found = [_finding(row, review, MORE, Level.ERROR, _spot(row.what, rules)) for row in review.more]
    found += [_finding(row, review, LESS, Level.NOTE, Position(review.new)) for row in review.less]
    found += [Finding(NOT_THERE, Level.NOTE, str(one), f"accepted, but does not occur ({one.reason})", (str(one),),
                      Position(review.new)) for one in review.not_there]
    summary = (f"{counted(len(review.more), 'difference')} by which it allows more, {len(review.less):,} by which it "
               f"allows less, {len(review.accepted):,} accepted; {differing_text.tried(review)}")
    about = f"{review.new} after {review.old}" if review.old else str(review.new)
    return Report("landaudit-policy diff", about, summary, "nothing more is allowed", found)


def _finding(row: DifferenceRow, review: Review, kind: FindingKind, level: Level, spot: Position) -> Finding:
    """A difference."""
    subject, layer = differing_text.text(row.what), differing_text.refusing_layer(row.what, review)
    does = "passes" if level is Level.ERROR else "passes no more"
    other = f", where layer {layer} of the other policy refuses it" if layer else ""
    return Finding(kind, level, subject, f"{does} at ABI {spans(row.abis)}{other}", (subject,), spot)


def _spot(what: What, rules: Rules) -> Position:
    """The rule that lets something pass; else the file."""
    match what:
        case RightsInArea(rights=rights, area=area):
            found = rules.over(area.path, rights=rights)
        case RightsOnMoved(rights=rights, directories=directories, file=file) if directories or file:
            found = rules.over((*directories, file or "")[0], rights=rights)
        case RightsOnPorts(rights=rights, ports=ports, every=False) if ports:
            found = rules.on_port(ports[0], rights=rights)
        case Moves(to=(first, *_)):
            found = rules.over(first.path)
        case Gains(directory=directory):
            found = rules.over(directory)
        case _:
            found = None
    return found or rules.places.layer(None)
