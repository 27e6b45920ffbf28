"""What audit, suggest and tighten say of recordings, without what a distilled recording does not keep.

It does not keep the order of calls, the numbers of processes and descriptors, and calls that ask a policy nothing.
"""

from __future__ import annotations

import json
import re
from collections import Counter
from collections.abc import Sequence
from pathlib import Path
from typing import Any

from .calling import called

Said = dict[str, Any]
_LINE = re.compile(r", opened at line [0-9]+")


def distill(recordings: Sequence[object], to: Path) -> Path:
    """Recordings in one file."""
    status, _, errors = called(["distill", *recordings, "-o", to])
    if status:
        raise AssertionError(errors)
    return to


def audited(words: Sequence[object]) -> Said | str:
    """What an audit says: each kind by itself; or why there is none."""
    status, out, errors = called(["audit", *words, "--json"])
    if not out:
        return _without_names(errors, words)
    data = json.loads(out)
    notes = sorted(_without_names(line, words) for line in errors.splitlines() if ": note: " in line)
    return {
        "status": status,
        "notes": notes,
        "refused": data["refused"],
        "unsure": data["unsure"],
        "refusals": Counter(map(_kind, data["refusals"])),
        "may be refused": Counter(map(_kind, data["may_be_refused"])),
        "moot": {one["why"]: at for one in data["moot_because"] if (at := _on_paths(one["at"]))},
        "path calls": (data["path_calls"], data["moot_path_calls"]),
        "warnings": {one["text"]: one["times"] for one in data["warnings"]},
        **{name: data[name] for name in ("unsaid", "not_traced")},
        "not judged": sorted(text.rpartition(": ")[2] for text in data["not_judged"]),
        "abis": [_at(abi) for abi in data["abis"]],
    }


def without_what_parts_list(said: Said | str) -> None:
    """Takes away what depends on which part of a recording lists a path of the policy that no call names."""
    if not isinstance(said, str):
        del said["moot"], said["warnings"]
        for abi in said["abis"]:
            del abi["more_warnings"]


def _kind(kind: Said) -> str:
    """A kind of refused calls, with how often which programs made them."""
    layers = [{**layer, "objections": [_objection(one) for one in layer["objections"]]} for layer in kind["layers"]]
    about = {**kind, "layers": layers}
    about.pop("recordings", None)
    return json.dumps(about, sort_keys=True)


def _objection(objection: Said) -> Said:
    return {name: _LINE.sub("", value) if name == "text" else value
            for name, value in objection.items() if name != "opened"}


def _on_paths(at: dict[str, int]) -> dict[str, int]:
    return {place: times for place, times in at.items() if place.startswith("/")}


def _at(abi: Said) -> Said:
    """What changes at an ABI, in one order."""
    kinds = {name: sorted(map(str, abi[name])) for name in ("breaks", "refused_no_more", "more_warnings")}
    return {name: abi[name] for name in ("abi", "refused", "unsure")} | kinds


def printed(command: str, words: Sequence[object]) -> tuple[int, list[str], list[str]]:
    """What `suggest` or `tighten` says."""
    status, out, errors = called([command, *words])
    notes = sorted(_without_names(line, words) for line in errors.splitlines())
    return status, [_in_order(line) for line in _without_names(out, words).splitlines()], notes


def _in_order(line: str) -> str:
    """A line; one that counts calls, with calls of one number in one order."""
    said, colon, counts = line.partition(": ")
    if not line.startswith("# ") or " calls are refused " not in said:
        return line
    return said + colon + ", ".join(sorted(counts.split(", ")))


def _without_names(text: str, words: Sequence[object]) -> str:
    """A text without the names of recordings: those of a file with several are numbered."""
    for name in sorted((str(word) for word in words if "/" in str(word)), key=len, reverse=True):
        text = re.sub(re.escape(name) + r"(/(tree|trace)[-0-9]*\.jsonl)?( \([0-9]+\))?", "REC", text)
    return text
