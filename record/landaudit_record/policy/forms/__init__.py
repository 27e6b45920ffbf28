"""Policies in the forms of other programs and languages, read as policies of this package, and written.

What a form has and a policy can't say, or is not known here, is a Problem that names its place. Where it is not sure
what a form means, the reading that grants less is taken and a comment says so, or it is a Problem. What a policy has
and a form can't say is a `Loss`, which is a Problem too unless the wider form is asked for.
"""

from __future__ import annotations

from collections.abc import Iterable, Mapping, Sequence
from dataclasses import dataclass, field
from typing import TypeVar

from ...common.comments import Comments
from ...common.numbered import Numbered
from ...common.rights import FS, Rights
from ...common.wording import is_utf8
from ..policies import LONGEST_PATH, Access, PathRule, Policy, PortRule

On = TypeVar("On", str, int)


@dataclass(frozen=True)
class Imported:
    """A policy that was read from another form, and comments that say what it was and what is not part of it."""

    policy: Policy
    comments: Comments = field(default_factory=Comments)


@dataclass(frozen=True)
class Loss:
    """What a form can't say, at a place of the policy, and what the wider form grants for it."""

    place: str
    lacks: str
    more: str

    def __str__(self) -> str:
        return f"{self.place}: {self.lacks}: {self.more}"


@dataclass(frozen=True)
class Exported:
    """A policy in another form, what of it is lost, and notes on what is left out."""

    lines: Sequence[str]
    losses: Sequence[Loss] = ()
    notes: Sequence[str] = ()


def head(policy: Policy, comments: Comments, form: str, version: str) -> list[str]:
    """What the first comments of a policy in another form say."""
    return [f"Made of {policy.path.name} by landaudit-policy export, for {form} {version}.", *comments.whole]


def path_rules(rules: Iterable[tuple[Access, str]]) -> tuple[PathRule, ...]:
    """Rules, of which those with equal rights are one."""
    together = enumerate(_together(rules).items(), start=1)
    return tuple(PathRule(Numbered("path_beneath", number), access, tuple(on)) for number, (access, on) in together)


def port_rules(rules: Iterable[tuple[Access, int]]) -> tuple[PortRule, ...]:
    """Rules on ports, of which those with equal rights are one."""
    together = enumerate(_together(rules).items(), start=1)
    return tuple(PortRule(Numbered("net_port", number), access, tuple(on)) for number, (access, on) in together)


def _together(rules: Iterable[tuple[Access, On]]) -> Mapping[Access, Iterable[On]]:
    """What rules are on by their rights, each thing once."""
    found: dict[Access, dict[On, None]] = {}
    for access, on in rules:
        found.setdefault(access, {})[on] = None
    return found


def path_fault(text: str) -> str | None:
    """What is wrong with a path that a rule is to be on, if anything is."""
    if not text.startswith("/"):
        return f"{text!r} is not absolute: it depends on where the program is started, so write it from /"
    if "\0" in text or not is_utf8(text) or len(text.encode()) > LONGEST_PATH:
        return f"{text!r} is no path that a rule can be on"
    return None


def all_of(names: Iterable[str]) -> Rights:
    """The rights of several groups of rights for files."""
    return frozenset[str]().union(*(FS.groups[name] for name in names))
