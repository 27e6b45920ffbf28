"""What the text of a report with explanations says, as the objects of the report as JSON.

It is put together from docs/FORMATS.md alone: "The report", "Explanations" and "Several versions" say how the text is
read, and "The report as JSON" which members say the same. The paths of the examples have no spaces.
"""

from __future__ import annotations

import json
import re
from collections.abc import Callable
from typing import Any

Object = dict[str, Any]

KINDS = {
    "a directory": "dir",
    "a regular file": "reg",
    "a symbolic link": "sym",
    "a character device": "char",
    "a block device": "block",
    "a named pipe": "fifo",
    "a socket": "sock",
}


def path(text: str) -> str:
    """A path, which the text escapes as JSON does."""
    read = json.loads(f'"{text}"')
    assert isinstance(read, str)
    return read


def rights(text: str) -> list[str]:
    return text.split(", ")


def both(found: re.Match[str]) -> Object:
    return {"from": path(found[1]), "to": path(found[2])}


#: What layers object to, the first that fits: docs/FORMATS.md, "Explanations".
OBJECTIONS: list[tuple[str, Callable[[re.Match[str]], Object]]] = [
    (r"it handles rights for files", lambda found: {"mounting": True}),
    (
        r"(.+) on (\S+), opened at line (\d+)",
        lambda found: {"missing": [found[1]], "on": path(found[2]), "opened": int(found[3])},
    ),
    (r"(.+) on port (\d+)", lambda found: {"closed": rights(found[1]), "port": int(found[2])}),
    (
        r"(\S+) would gain (.+) in (\S+)",
        lambda found: {"gains": rights(found[2]), "object": path(found[1]), "in": path(found[3])},
    ),
    (r"(.+) on (\S+)", lambda found: {"missing": rights(found[1]), "on": path(found[2])}),
]


def unhandled(found: re.Match[str]) -> Object:
    named = rights(found[1])
    ports = set(named) <= {"bind_tcp", "connect_tcp"}
    return {"condition": "unhandled_on_ports" if ports else "unhandled", "rights": named}


CONDITIONS: list[tuple[str, Callable[[re.Match[str]], Object]]] = [
    (
        r"ABI (\d) does not know a right for ports",
        lambda found: {"condition": "unknown", "abi": int(found[1]), "rights": []},
    ),
    (
        r"ABI (\d) does not know (.+)",
        lambda found: {"condition": "unknown", "abi": int(found[1]), "rights": rights(found[2])},
    ),
    (r"ABI (\d) has no rules for ports", lambda found: {"condition": "portless", "abi": int(found[1])}),
    (r"no right is named", lambda found: {"condition": "rightless"}),
    (r"ruleset (\d+) is not held", lambda found: {"condition": "unheld", "rs": int(found[1])}),
    (r"the ruleset does not handle (.+)", unhandled),
    (
        r"(\S+) is not a directory, and only directories have (.+)",
        lambda found: {"condition": "only_for_directories", "rights": rights(found[2]), "path": path(found[1])},
    ),
    (r"port (\d+) is above 65535", lambda found: {"condition": "no_port", "port": int(found[1])}),
    (
        r"the process has neither no_new_privs nor CAP_SYS_ADMIN",
        lambda found: {"condition": "unprivileged"},
    ),
    (r"the process has 16 layers already", lambda found: {"condition": "full"}),
]

REASONS: list[tuple[str, Callable[[re.Match[str]], Object]]] = [
    (r"/ stays where it is", lambda found: {"reason": "root"}),
    (r"(\S+) is not in the tree", lambda found: {"reason": "absent", "path": path(found[1])}),
    (r"(\S+) is not a directory", lambda found: {"reason": "no_directory", "path": path(found[1])}),
    (r"(\S+) is in the tree already", lambda found: {"reason": "present", "path": path(found[1])}),
    (
        rf"(\S+) is ({'|'.join(KINDS)})",
        lambda found: {"reason": "of_kind", "path": path(found[1]), "kind": KINDS[found[2]]},
    ),
    (r"(\S+) would go where it is", lambda found: {"reason": "unmoved", "path": path(found[1])}),
    (
        r"(\S+) would go beneath itself, to (\S+)",
        lambda found: {"reason": "beneath_itself", **both(found)},
    ),
    (
        r"(\S+) would take the place of (\S+), which it is in",
        lambda found: {"reason": "over_itself", **both(found)},
    ),
    (
        r"one of (\S+) and (\S+) is a directory, the other is not",
        lambda found: {"reason": "mixed", **both(found)},
    ),
    (r"descriptor (\d+) is open already", lambda found: {"reason": "open_already", "fd": int(found[1])}),
    (r"descriptor (\d+) is not open", lambda found: {"reason": "unopened", "fd": int(found[1])}),
    (
        r"descriptor (\d+) is not a regular file open for writing",
        lambda found: {"reason": "not_for_writing", "fd": int(found[1])},
    ),
    (r"ruleset (\d+) is held already", lambda found: {"reason": "held_already", "rs": int(found[1])}),
    (r"ruleset (\d+) is not held", lambda found: {"reason": "unheld", "rs": int(found[1])}),
    (r"left out, as this ABI supports none of the rule's rights", lambda found: {"reason": "unsupported"}),
    (r"left out, as this ABI supports none of the ruleset's rights", lambda found: {"reason": "unenforced"}),
]

HEADING = re.compile(r"abi (\d)(?:-(\d))?:")
LAYER = re.compile(r"layer (\d+) \(line (\d+)\): (.+)")
SPAN = re.compile(r"(\d)(?:-(\d))?")
TOTAL = re.compile(r"total (\d+)(?: abi (\d))? allowed (\d+) refused (\d+) moot (\d+)")


def by_table(table: list[tuple[str, Callable[[re.Match[str]], Object]]], text: str) -> Object:
    """What the first row of a table says that fits the whole text."""
    for pattern, said in table:
        found = re.fullmatch(pattern, text)
        if found is not None:
            return said(found)
    raise ValueError(f"docs/FORMATS.md has no such words: {text}")


def span(words: str, abis: range) -> range:
    """The ABIs that a span names."""
    found = SPAN.fullmatch(words)
    assert found is not None, words
    return range(int(found[1]), int(found[2] or found[1]) + 1)


def answers(words: list[str], abis: range) -> dict[int, list[str]]:
    """The words of the answer at each ABI, from the words behind a record's operation."""
    if words[0] in ("allowed", "moot", "refused"):
        return {abi: words for abi in abis}
    said: dict[int, list[str]] = {}
    while words:
        length = 3 if words[1] == "refused" else 1
        for abi in span(words[0], abis):
            said[abi] = words[1 : 1 + length]
        words = words[1 + length :]
    return said


def explanations(lines: list[str], abis: range) -> dict[int, list[str]]:
    """The lines of the explanation at each ABI, from those behind a record's line."""
    said: dict[int, list[str]] = {abi: [] for abi in abis}
    under = abis
    for line in lines:
        found = HEADING.fullmatch(line)
        if found is not None:
            under = range(int(found[1]), int(found[2] or found[1]) + 1)
            continue
        for abi in under:
            said[abi].append(line)
    return said


def layer(text: str) -> Object:
    found = LAYER.fullmatch(text)
    assert found is not None, text
    objections = [by_table(OBJECTIONS, one) for one in found[3].split("; ")]
    return {"layer": int(found[1]), "line": int(found[2]), "objections": objections}


def members(words: list[str], lines: list[str]) -> Object:
    """The members of an answer, from its words and the lines that explain it."""
    if words[0] == "refused":
        refused: Object = {"answer": "refused", "error": words[1], "layers": []}
        if words[2] == "-":
            return {**refused, "why": by_table(CONDITIONS, lines[0])}
        explained = [layer(line) for line in lines]
        assert [one["layer"] for one in explained] == [int(number) for number in words[2].split(",")]
        return {**refused, "layers": explained}
    if words[0] == "moot" and lines:
        return {"answer": "moot", "why": by_table(REASONS, lines[0])}
    assert not lines, lines
    return {"answer": words[0]}


def joined(each: dict[int, Object]) -> list[Object]:
    """Neighbouring ABIs whose members are the same, together."""
    spans: list[Object] = []
    for abi, said in each.items():
        if spans and {**spans[-1], "abi": None} == {"abi": None, **said}:
            spans[-1]["abi"] = [spans[-1]["abi"][0], abi]
        else:
            spans.append({"abi": [abi, abi], **said})
    return spans


def record(line: str, behind: list[str], abis: range) -> Object:
    """The object of a record, from its line and those behind it."""
    number, pid, op, *words = line.split(" ")
    said, why = answers(words, abis), explanations(behind, abis)
    each = {abi: members(said[abi], why[abi]) for abi in abis}
    return {"line": int(number), "pid": int(pid), "op": op, "answers": joined(each)}


def total(line: str, only: int) -> Object:
    found = TOTAL.fullmatch(line)
    assert found is not None, line
    counts = zip(("records", "allowed", "refused", "moot"), (found[1], found[3], found[4], found[5]))
    return {"abi": int(found[2] or only), **{name: int(count) for name, count in counts}}


def objects(text: str, abis: range, version: str) -> list[Object]:
    """The objects of the report as JSON that say what the text says."""
    blocks: list[tuple[str, list[str]]] = []
    totals: list[Object] = []
    for line in text.splitlines():
        if line.startswith("    "):
            blocks[-1][1].append(line[4:])
        elif line.startswith("total "):
            totals.append(total(line, abis[0]))
        else:
            blocks.append((line, []))
    return [*(record(line, behind, abis) for line, behind in blocks), {"totals": totals, "version": version}]
