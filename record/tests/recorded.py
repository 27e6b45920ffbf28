"""Small recordings and reports for tests, written by hand, by docs/FORMATS.md, "The report as JSON"."""

from __future__ import annotations

import json
from collections.abc import Iterable, Iterator, Mapping, Sequence
from itertools import groupby
from pathlib import Path
from typing import Any

from landaudit_record.common.jsonl import Record
from landaudit_record.common.rights import NEWEST_ABI, alone

PID = 10

#: An object of a report.
Object = dict[str, Any]
#: What an ABI answers, without the ABI: its verdict alone, or with what belongs to it.
Said = str | Object

MOUNTING: Object = {"mounting": True}


def write_lines(path: Path, objects: Iterable[Any]) -> Path:
    """Writes objects, one a line."""
    path.write_text("".join(json.dumps(one) + "\n" for one in objects), encoding="utf-8")
    return path


def records(*calls: Record) -> list[Record]:
    """Records of one process, which a start begins."""
    return [{"op": "start", "pid": PID}, *({"pid": PID, **call} for call in calls)]


def missing_on(path: str, *rights: str) -> Object:
    """An objection: rights that are missing on a path."""
    return {"missing": list(rights), "on": path}


def kept_on(path: str, right: str, opened: int) -> Object:
    """An objection: a right that was missing when a line opened a file."""
    return {"missing": [right], "on": path, "opened": opened}


def closed_on(port: int, *rights: str) -> Object:
    """An objection: rights that no rule grants on a port."""
    return {"closed": list(rights), "port": port}


def gained(path: str, directory: str, *rights: str) -> Object:
    """An objection: rights that an object would gain in a directory."""
    return {"gains": list(rights), "object": path, "in": directory}


def refused(*objections: Object | list[Object], error: str = "EACCES") -> Object:
    """An answer by which layers refuse, counted from 1, with what each objects to."""
    layers = [
        {"layer": number, "line": 100 + number, "objections": one if isinstance(one, list) else [one]}
        for number, one in enumerate(objections, start=1)
    ]
    return {"answer": "refused", "error": error, "layers": layers}


def unexplained(error: str, *layers: int) -> Object:
    """A refusal of a report without explanations, by some layers or by the call itself."""
    return {"answer": "refused", "error": error, "layers": [{"layer": layer} for layer in layers]}


def failed(error: str, condition: str, **about: Any) -> Object:
    """An answer by which a call fails by itself."""
    return {"answer": "refused", "error": error, "layers": [], "why": {"condition": condition, **about}}


def moot(reason: str, **about: Any) -> Object:
    """An answer by which the policy is not asked."""
    return {"answer": "moot", "why": {"reason": reason, **about}}


def at_its_line(trace: Sequence[Record], said: Said) -> Said:
    """An answer of `refused` in which each layer is that of a trace's restrict, in their order."""
    if isinstance(said, str) or "layers" not in said:
        return said
    made = [line for line, one in enumerate(trace, start=1) if one["op"] == "restrict"]
    lines = {100 + number: line for number, line in enumerate(made, start=1)}
    layers = [{**layer, "line": lines.get(layer["line"], layer["line"])} for layer in said["layers"] if "line" in layer]
    return {**said, "layers": layers or said["layers"]}


def over_range(answers: Mapping[int, Said]) -> list[Object]:
    """What the ABIs of a range answer to a record: neighbours that say the same say it once."""
    each = {abi: {"answer": said} if isinstance(said, str) else said for abi, said in answers.items()}
    return list(_together(each))


def _together(each: Mapping[int, Any]) -> Iterator[Object]:
    for said, abis in groupby(sorted(each), key=each.__getitem__):
        some = list(abis)
        yield {"abi": [some[0], some[-1]], **said}


def report_line(number: int, record: Record, answers: list[Object]) -> str:
    """A report's line on a record, as landaudit prints it."""
    return compact({"line": number, "pid": record["pid"], "op": record["op"], "answers": answers})


def last_line(records: int, abis: range) -> str:
    """A report's last line, whose counts no test reads."""
    totals = [{"abi": abi, "records": records, "allowed": 0, "refused": 0, "moot": 0} for abi in abis]
    return compact({"totals": totals, "version": "0.2"})


def compact(value: Object) -> str:
    """A line as landaudit prints it."""
    return json.dumps(value, ensure_ascii=False, separators=(",", ":")) + "\n"


def allow_all(words: Sequence[str], otherwise: Said = "allowed") -> None:
    """Prints the report of a landaudit that is called with some words and allows all that the trace has, but for the
    records that say what a call may be otherwise: these have an answer of their own.
    """
    oldest, _, newest = words[2].partition("-")
    abis = range(int(oldest), int(newest or oldest) + 1)
    lines = Path(words[-1]).read_text(encoding="utf-8").splitlines()
    for number, record in enumerate(map(json.loads, lines), start=1):
        answer = otherwise if "otherwise" in record else "allowed"
        print(report_line(number, record, over_range(dict.fromkeys(abis, answer))), end="")
    print(last_line(len(lines), abis), end="")


def write_report(
    path: Path,
    trace: Sequence[Record],
    answers: Sequence[Said | list[Object]],
    abis: range = alone(NEWEST_ABI),
    *,
    only_refused: bool = False,
) -> Path:
    """A report on a trace: the answers in its order, of all ABIs or those of each; or as with --refused."""
    with open(path, "w", encoding="utf-8", errors="surrogatepass", newline="\n") as out:
        for number, (record, said) in enumerate(zip(trace, answers, strict=True), start=1):
            each = said if isinstance(said, list) else over_range(dict.fromkeys(abis, at_its_line(trace, said)))
            if not only_refused or any(one["answer"] == "refused" for one in each):
                out.write(report_line(number, record, each))
        out.write(last_line(len(trace), abis))
    return path
