"""Moves that the kernel refuses since a layer of the process handles no right for files, beside one that handles some.

Linux then takes `refer` for handled by all layers (`landlock_get_fs_access_mask`), and landaudit looks at each by
itself. Of a policy, `fitting` writes such layers as ones that handle `refer`; a program's own stay as they were
recorded, so an audit counts the moves.
"""

from __future__ import annotations

from collections.abc import Iterator, Set

from ..common.finished import Finished
from ..common.jsonl import Record
from ..common.operations import MOVES
from ..common.resolving import directory_of
from ..common.rights import ABI_OF_PORTS, FS, NET
from ..common.trace_lines import heads, told
from ..policy import fitting
from ..policy.applying import Handled
from .auditor import TriedPolicy


def moves(recording: Finished, tried: TriedPolicy | None, abis: range) -> int:
    """How many calls move to another directory, if the layers of programs and of the policy are of both kinds at one of
    some ABIs.
    """
    if tried is None:
        own = {Handled.of(record) for record in _told(recording, {"create"})}
    else:
        own = set[Handled]().union(*(places.own for places in tried.places))
    if not any(_are_mixed(own, tried, abi) for abi in abis if abi >= ABI_OF_PORTS):
        return 0
    return sum(record.get("stands_for", 1) for record in _told(recording, MOVES)
               if directory_of(record["from"]) != directory_of(record["to"]) and "again" not in record)


def _are_mixed(own: Set[Handled], tried: TriedPolicy | None, abi: int) -> bool:
    """Whether some layers at an ABI handle rights for files and others none, beside those of the policy alone."""
    fs, net = FS.known(abi), NET.known(abi)
    kinds = {bool(one.fs & fs) for one in own if one.fs & fs or one.net & net}
    if not kinds:
        return False
    layers = fitting.in_force(tried.policy, abi)[0] if tried is not None else []
    return len(kinds | ({any(layer.handled_fs for layer in layers)} if layers else set())) > 1


def _told(recording: Finished, ops: Set[str]) -> Iterator[Record]:
    """The records of some operations in all parts."""
    for part in recording.parts:
        yield from (record for _, record in told(part.trace, heads(ops)) if record.get("op") in ops)
