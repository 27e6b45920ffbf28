"""Says beside the policy of a recorded program whose it is, how often it was put in force, and what it lacks."""

from __future__ import annotations

from collections import Counter
from collections.abc import Iterable, Iterator, Sequence
from pathlib import Path

from ..common.comments import Comments
from ..common.problems import USAGE, Problem
from ..common.wording import counted, plain, some_of
from . import importing
from .importing import InForce, Own

MOST_SHOWN = 8
#: Calls of Landlock that were not recorded may have made a policy other than what is printed.
NOT_ALL = "NOT ALL IS KNOWN"


def choose(found: InForce, name: str, program: str | None, process: int | None) -> Own:
    """The one policy of a program, or of a process; a Problem that says what there is if there is none, or several."""
    if not found.own:
        raise Problem(f"{name}: no process restricts itself{_unseen(found, ', but ')}")
    chosen = [own for own, times in found.own.items()
              if program in (None, own.program, own.program.rpartition("/")[2]) and process in (None, *times.pids)]
    if len(chosen) == 1 and any(ruleset.is_layer for ruleset in chosen[0].layers):
        return chosen[0]
    if len(chosen) == 1:
        raise Problem(f"{name}: no layer of {chosen[0].program} handles what a policy can name: "
                      + "; ".join(text for ruleset in chosen[0].layers for text in ruleset.dropped))
    there = some_of(list(_listed(found, chosen or found.own)), MOST_SHOWN, "; ")
    if not chosen:
        raise Problem(f"{name}: nothing of this name or number restricts itself: give one of {plain(there)}", USAGE)
    raise Problem(f"{name}: there are {len(chosen)} policies that programs put in force by themselves: choose one with "
                  f"--program or --process: {plain(there)}", USAGE)


def _listed(found: InForce, some: Iterable[Own]) -> Iterator[str]:
    """Each policy by its program, its number of layers and rules, and its first process."""
    for own in some:
        times = found.own[own]
        rules = sum(len(ruleset.rules) for ruleset in own.layers)
        yield (f"{own.program} (process {times.pids[0]}: {counted(len(own.layers), 'layer')}, "
               f"{counted(rules, 'rule')}, {counted(len(times.pids), 'time')})")


def comments(found: InForce, own: Own, name: str) -> Comments:
    """The comments on a program's policy, its layers and its rules."""
    written = Comments(list(_whole(found, own, name)))
    layers = [ruleset for ruleset in own.layers if ruleset.is_layer]
    policy = importing.policy(own, Path(name))
    for ruleset, layer in zip(layers, policy.layers):
        written.parts[layer.number, None] = [f"left out: {text}" for text in _times(ruleset.dropped)]
        made = {rule.on for rule in ruleset.rules if rule.made is not None}
        for rule in layer.path_beneath:
            some = [parent for parent in rule.parents if parent in made]
            written.parts[layer.number, rule.place] = [f"made by the run itself: {some_of(some)}"] if some else []
    return written


def _whole(found: InForce, own: Own, name: str) -> Iterator[str]:
    times = found.own[own]
    yield f"what {own.program} puts in force by itself, as recorded in {name}"
    processes = "process" if len(times.pids) == 1 else "processes"
    yield f"{counted(len(times.pids), 'time')}, by {processes} {some_of([str(pid) for pid in times.pids], MOST_SHOWN)}"
    if times.then:
        yield f"programs that were run under it: {_counts(times.then)}"
    if times.under:
        yield f"layers of others were in force before, which are not here: {_counts(times.under)}"
    for ruleset in own.layers:
        if not ruleset.is_layer:
            yield f"a layer is left out, since it handles nothing that is named here: {'; '.join(ruleset.dropped)}"
    if found.failed:
        yield f"calls that the kernel refused: {_counts(found.failed)}"
    if found.unseen:
        yield _unseen(found)


def _unseen(found: InForce, before: str = "") -> str:
    """What of the calls of Landlock the recording does not have."""
    if not found.unseen:
        return ""
    calls = counted(found.unseen.total(), "call")
    return f"{before}{NOT_ALL}: {calls} of Landlock could not be recorded: {_counts(found.unseen)}"


def notes(found: InForce) -> list[str]:
    """Notes for standard error: what makes the policy another one than the program's."""
    return [_unseen(found)] if found.unseen else []


def _times(texts: Sequence[str]) -> list[str]:
    """Texts, each once, with how often it is there."""
    return [text if times == 1 else f"{text} ({times} times)" for text, times in Counter(texts).items()]


def _counts(counts: Counter[str]) -> str:
    return some_of([f"{name} ({times})" for name, times in counts.most_common()], MOST_SHOWN)
