"""Joins what audits of different recordings print as JSON: docs/audit.schema.json.

Numbers are added up, and lists are joined, by what their entries are about, and put into one order. So it does not
matter in which order audits are joined, or which of them were joined before.
"""

from __future__ import annotations

import json
from collections import Counter
from collections.abc import Callable, Collection, Iterable, Mapping, Sequence
from pathlib import Path
from typing import Any

from ..common.problems import NOT_ALL_JUDGED, Problem

Data = Mapping[str, Any]
FORMAT = 1
#: How many digits a number may have: sums of far longer ones would be numbers that can't be written.
_DIGITS = 15
#: What an audit ends with that was made, the worst first.
_STATUSES = (1, NOT_ALL_JUDGED, 0)
_VERDICTS = ("records", "allowed", "refused", "moot", "unsure")
#: The members of the first level that are numbers of calls.
_NUMBERS = (*_VERDICTS, "path_calls", "moot_path_calls")
#: What audits must have in common to be joined.
_ALIKE = ("policy", "as_recorded", "abi")


def read(path: Path) -> list[Data]:
    """The audits in a file, those of several recordings each by itself; what is none is a Problem."""
    try:
        data: Data = json.loads(path.read_bytes(), parse_int=_number)
        if data["format"] != FORMAT:
            raise Problem(f"{path} is of format {data['format']}, and format {FORMAT} is known: use one version")
        found = [_joinable(one) for one in data.get("recordings", [data])]
        joined(found)
    except OSError as error:
        raise Problem(f"cannot read {path}: {error.strerror}") from error
    except (ValueError, KeyError, TypeError, AttributeError, RecursionError) as error:
        raise Problem(f"{path} is not what landaudit-record audit --json prints: {error!r}") from error
    return found


def _number(text: str) -> int:
    """A number of calls, or of something else that an audit counts."""
    if len(text) > _DIGITS:
        raise ValueError(f"a number has more than {_DIGITS} digits")
    return int(text)


def _joinable(data: Data) -> Data:
    """An audit in the form of joined ones; one of these stays as it is."""
    if "merged" in data:
        return data
    name = data["recording"]
    entries = {kind: [{**_without_lines(one), "recordings": [name]} for one in data[kind]]
               for kind in ("refusals", "may_be_refused")}
    return {
        **{key: value for key, value in data.items() if key != "recording"},
        **entries,
        "not_judged": [f"{name}: {text}" for text in data["not_judged"]],
        "merged": [{"recording": name, **{verdict: data[verdict] for verdict in _VERDICTS}}],
    }


def _without_lines(refusal: Data) -> dict[str, Any]:
    """A kind of refused calls without lines of a trace: those of others differ."""
    layers = [{**layer, "objections": [_without_line(one) for one in layer["objections"]]}
              for layer in refusal["layers"]]
    return {**refusal, "layers": layers}


def _without_line(objection: Data) -> dict[str, Any]:
    about = {name: value for name, value in objection.items() if name != "opened"}
    if "opened" in objection:
        about["text"] = f"{', '.join(objection['rights'])} on {objection['path']}, when it was opened"
    return about


def joined(audits: Sequence[Data]) -> dict[str, Any]:
    """Several audits as one."""
    first = audits[0]
    for name in _ALIKE:
        if any(one[name] != first[name] for one in audits):
            several = sorted({json.dumps(one[name]) for one in audits})
            raise Problem(f"audits whose {name} differs can't be merged: {', '.join(several)}")
    if len({tuple(step["abi"] for step in one["abis"]) for one in audits}) > 1:
        raise Problem("audits at different ABIs can't be merged: give each the same --abi")
    merged = _all(audits, "merged")
    twice = [name for name, times in Counter(one["recording"] for one in merged).items() if times > 1]
    if twice:
        raise Problem(f"{min(twice)} is in two of the audits: merge each recording once, each by a name of its own")
    return {
        "format": FORMAT,
        **{name: first[name] for name in ("policy", "as_recorded")},
        "status": _status({one["status"] for one in audits}),
        "abi": first["abi"],
        **{name: sum(one[name] for one in audits) for name in _VERDICTS},
        "refusals": _kinds(_all(audits, "refusals")),
        "may_be_refused": _kinds(_all(audits, "may_be_refused")),
        "accepted": _added(_all(audits, "accepted")),
        "moot_because": _by(_all(audits, "moot_because"), ("why",), _with_places),
        **{name: sum(one[name] for one in audits) for name in ("path_calls", "moot_path_calls")},
        "warnings": _added(_all(audits, "warnings")),
        "unsaid": _counted(one["unsaid"] for one in audits),
        "not_judged": sorted(set(_all(audits, "not_judged"))),
        "not_traced": sorted(set(_all(audits, "not_traced"))),
        "abis": [_step([one["abis"][number] for one in audits]) for number in range(len(first["abis"]))],
        "merged": sorted(merged, key=lambda one: str(one["recording"])),
    }


def _status(of_audits: Collection[int]) -> int:
    """The status of an audit of all: something is refused, or else not all is judged, or else neither."""
    unknown = set(of_audits) - set(_STATUSES)
    if unknown:
        raise ValueError(f"{min(unknown)} is no status of an audit")
    return next(status for status in _STATUSES if status in of_audits)


def _all(audits: Iterable[Data], member: str) -> list[Any]:
    """The entries of a list of all audits."""
    return [entry for one in audits for entry in one[member]]


def _text(value: Any) -> str:
    return json.dumps(value, sort_keys=True)


def _by(entries: Iterable[Data], about: Sequence[str], join: Callable[[list[Data]], dict[str, Any]]) -> list[Any]:
    """Entries, those that are about the same joined; the most frequent come first."""
    alike: dict[str, list[Data]] = {}
    for entry in entries:
        alike.setdefault(_text([entry.get(name) for name in about]), []).append(entry)
    return sorted(map(join, alike.values()), key=lambda entry: (-entry["times"], _text(entry)))


def _kinds(entries: Iterable[Data]) -> list[Any]:
    """Kinds of refused calls, with all programs that make them and all recordings in which they occur."""
    return _by(entries, ("call", "place", "error", "layers", "condition", "unknown"), lambda some: {
        **some[0],
        "times": _times(some),
        "programs": _counted(one["programs"] for one in some),
        "recordings": sorted({name for one in some for name in one["recordings"]}),
    })


def _added(entries: Sequence[Data]) -> list[Any]:
    """Entries that have nothing but a number besides what they are about."""
    about = sorted({name for one in entries for name in one} - {"times"})
    return _by(entries, about, lambda some: {**some[0], "times": _times(some)})


def _with_places(some: list[Data]) -> dict[str, Any]:
    return {**some[0], "times": _times(some), "at": _counted(one["at"] for one in some)}


def _times(some: Iterable[Data]) -> int:
    return sum(one["times"] for one in some)


def _counted(counts: Iterable[Mapping[str, int]]) -> dict[str, int]:
    """Counts, added up; the highest come first."""
    found: Counter[str] = Counter()
    for one in counts:
        found.update(one)
    return dict(sorted(found.items(), key=lambda item: (-item[1], item[0])))


def _step(steps: Sequence[Data]) -> dict[str, Any]:
    """What changes at an ABI in some recordings: what breaks there, or is no longer refused there, in one or more."""
    lists = {name: sorted({_text(entry): entry for entry in _all(steps, name)}.items())
             for name in ("breaks", "refused_no_more", "more_warnings")}
    return {
        "abi": steps[0]["abi"],
        **{name: sum(step[name] for step in steps) for name in _VERDICTS},
        **{name: [entry for _, entry in entries] for name, entries in lists.items()},
    }
