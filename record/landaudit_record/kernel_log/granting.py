"""The rules that grant what a log says was refused, as far as a rule can and the log says enough.

Nothing is granted for a call that succeeded all the same. What no rule grants (scopes, ptrace, mounts, rights of a
newer ABI) is counted. Of a move or a link between directories, the record lists each right that the layer does not
grant on the directory if the object would gain one of them; then what the call needs is not in the log, and there is no
rule for it.
"""

from __future__ import annotations

import os
import shlex
from collections import Counter, defaultdict
from collections.abc import Iterable, Iterator, Mapping
from dataclasses import dataclass, field, replace

from ..common.rights import FILE_RIGHTS, FS, NET
from ..common.trees import directory_of
from ..common.wording import some_of
from ..engine.answers import Closed, Missing, Objection
from ..suggest import missing_rights, varying
from ..suggest.missing_rights import CallsByRight, OnPaths, SuggestedRule, Wanted
from ..suggest.placing import Cause, RulePlace
from ..suggest.remarks import Remark, RemarkKind
from .counting import maker_of
from .denials import LONGEST_COMMAND, Denial, DeniedAccess, Log, MakesFile
from .matching import Matched

#: What d_path() adds to the path of an object that was removed.
_REMOVED = " (deleted)"
_MAKING = frozenset(right for right in FS.since if right.startswith("make_"))
_REMOVING = frozenset({"remove_dir", "remove_file"})
#: The rights that a call asks on a directory for a name in it, which the log does not have.
_ON_NAMES = _MAKING | _REMOVING | {"refer"}
_OF_LISTS = frozenset({"read_dir"})
#: The calls that move or link, and the operations of io_uring that do (io_uring.h).
_MOVES = frozenset({"rename", "renameat", "renameat2", "link", "linkat", "io_uring 35", "io_uring 39"})
NO_NAME = "the log has the directory and not the name in it: this grants it for all names there"


@dataclass(frozen=True)
class Target:
    """What rules are for: a layer of the policy by its number or, without a policy, the layers that a program made."""

    layer: int | None
    maker: str


@dataclass
class Granted:
    """The rules for each target, and the calls that they leave refused: those that no rule can fix, those that an
    object would gain rights by, and those of layers that are not of the policy; with what was granted since.
    """

    rules: dict[Target, list[SuggestedRule]] = field(default_factory=dict)
    unmended: Counter[str] = field(default_factory=Counter)
    gaining: Counter[str] = field(default_factory=Counter)
    of_others: Counter[str] = field(default_factory=Counter)
    succeeded: Counter[str] = field(default_factory=Counter)
    since: Counter[str] = field(default_factory=Counter)

    @property
    def stay_refused(self) -> bool:
        """Whether the rules leave a call refused."""
        return bool(self.unmended or self.gaining or self.of_others)


@dataclass
class _Wanted:
    """What the layers of a target lack."""

    paths: OnPaths = field(default_factory=dict)
    ports: dict[int, CallsByRight] = field(default_factory=dict)
    spots: list[RulePlace] = field(default_factory=list)
    asked_by: defaultdict[str, set[str]] = field(default_factory=lambda: defaultdict(set))


def grant(log: Log, matched: Matched | None = None) -> Granted:
    """The rules for what a log says was refused; with a policy, only for its layers."""
    found = Granted()
    wanted: dict[Target, _Wanted] = {}
    for number, denial in enumerate(log.denials):
        name = _name(denial)
        if denial.succeeded:
            found.succeeded[name] += 1
        elif not all(_is_grantable(access.objection) for access in denial.accesses):
            found.unmended[name] += 1
        elif matched is not None and not all(access.domain in matched.layers for access in denial.accesses):
            found.of_others[name] += 1
        elif matched is not None and matched.is_granted_since(denial):
            found.since[name] += 1
        elif _would_gain(denial):
            found.gaining[name] += 1
        else:
            for access in denial.accesses:
                target = _target(access, log, matched)
                place = _place(access, denial, matched)
                call = missing_rights.CallId(0, number)
                _want(wanted.setdefault(target, _Wanted()), access.objection, place, call, _command(denial))
    found.rules = {target: list(_rules(wanted[target])) for target in sorted(wanted, key=lambda it: it.layer or 0)}
    return found


def _name(denial: Denial) -> str:
    return "-" if denial.call is None else denial.call.name


def _is_grantable(objection: Objection) -> bool:
    """Whether a rule can fix an objection; no policy can name a path that is not UTF-8."""
    match objection:
        case Missing(rights=rights, path=path):
            return set(rights) <= FS.since.keys() and not any(map(_is_no_text, path))
        case Closed(rights=rights):
            return set(rights) <= NET.since.keys()
    return False


def _is_no_text(character: str) -> bool:
    """Whether a character stands for a byte that is not UTF-8 (PEP 383)."""
    return "\ud800" <= character <= "\udfff"


def _would_gain(denial: Denial) -> bool:
    """Whether the rights of a move or a link are not those that it asks for.

    By itself, a call asks `refer` on both directories, and the right to make or to remove one object on each. It lists
    all that a directory lacks if the object would gain a right by the move. Without a record of the call, it is one if
    a directory lacks a right that calls ask on files.
    """
    objections = [access.objection for access in denial.accesses if isinstance(access.objection, Missing)]
    asked = [set(objection.rights) for objection in objections]
    if denial.call is None:
        return any(set(it.rights) - _ON_NAMES - _OF_LISTS and os.path.isdir(it.path) for it in objections)
    if denial.call.name not in _MOVES:
        return False
    between = len(asked) > 1 or any("refer" in rights for rights in asked)
    several = any(len(rights & _MAKING) > 1 or len(rights & _REMOVING) > 1 for rights in asked)
    return any(rights - _ON_NAMES for rights in asked) or between and several


def _target(access: DeniedAccess, log: Log, matched: Matched | None) -> Target:
    if matched is not None:
        return Target(matched.layers[access.domain], "")
    return Target(None, maker_of(log.domains[access.domain]))


def _command(denial: Denial) -> str:
    """The command line of the program, with dots where the kernel cut it."""
    words, length = shlex.join(denial.command), len(os.fsencode("\0".join(denial.command)))
    return words if length < LONGEST_COMMAND - 1 else f"{words}.."


def _place(access: DeniedAccess, denial: Denial, matched: Matched | None) -> RulePlace | None:
    """Where the rule for what is lacking on a path can be."""
    objection = access.objection
    if not isinstance(objection, Missing):
        return None
    path, made = objection.path, denial.call is not None and denial.call.making is MakesFile.NEW
    process = varying.of_process(path)
    if process is not None:
        return RulePlace(directory_of(process), path, Cause.OF_PROCESS)
    if path.endswith(_REMOVED):
        return RulePlace(directory_of(path), path.removesuffix(_REMOVED), Cause.MADE)
    if matched is not None and matched.is_made(access, denial.stamp.milliseconds):
        making = denial.call is not None and denial.call.making is not MakesFile.NO
        return RulePlace(directory_of(path), path, Cause.MADE if making else Cause.REPLACED)
    if made and set(objection.rights) <= FILE_RIGHTS:
        return RulePlace(directory_of(path), path, Cause.MADE)
    return RulePlace(path, path)


def _want(
    wanted: _Wanted, objection: Objection, spot: RulePlace | None, call: missing_rights.CallId, command: str
) -> None:
    """Adds what one objection lacks, at the place of its rule."""
    match objection:
        case Missing(rights=rights) if spot is not None:
            wanted.spots.append(spot)
            missing_rights.unite(wanted.paths, {spot.place: {right: {call} for right in rights}})
            if command:
                wanted.asked_by[spot.place].add(command)
        case Closed(rights=rights, port=port):
            missing_rights.unite(wanted.ports, {port: {right: {call} for right in rights}})


def _rules(wanted: _Wanted) -> Iterator[SuggestedRule]:
    """The rules for what is lacking; those on directories say which commands asked for a name there."""
    for rule in missing_rights.rules(Wanted(wanted.paths, wanted.spots, wanted.ports)):
        yield replace(rule, remarks=(*_on_names(rule, wanted.asked_by), *rule.remarks))


def _on_names(rule: SuggestedRule, asked_by: Mapping[str, Iterable[str]]) -> Iterator[Remark]:
    """A remark on a rule that is on a directory because of a name in it."""
    if isinstance(rule.place, str) and rule.rights & _ON_NAMES:
        commands = sorted(asked_by.get(rule.place, ()))
        yield Remark(RemarkKind.PURPOSE, f"{NO_NAME}{f'; asked by: {some_of(commands)}' if commands else ''}")

