"""Finds in a policy what its author should look at: rules that the kernel refuses or that have no effect, rules that
reach secrets, files that may be written and executed, and parents that are missing or lead elsewhere.

It looks at the policy by itself and at this machine's disk; no call is tried.
"""

from __future__ import annotations

from collections.abc import Iterator, Sequence
from dataclasses import dataclass
from functools import cached_property
from pathlib import Path

from ..common.findings import FindingKind, Level
from ..common.numbered import Numbered
from ..common.resolving import DISK
from ..common.rights import FILE_RIGHTS, FS, NET, NONE, Rights
from ..common.trees import ROOT, upwards
from ..recorder import disk
from . import parents, sensitive
from .parents import Parent
from .policies import Layer, PathRule, Policy, PortRule, group_names

_BOTH = frozenset({"write_file", "execute"})

NOWHERE = FindingKind("parent-leads-nowhere",
                      "A parent goes through something that is no directory, so there is no rule.")
VARIES = FindingKind("parent-varies", "What is at a parent differs from process to process.")
ABSENT = FindingKind("parent-missing", "Nothing is at a parent on this machine, so there is no rule on it.")
LINK = FindingKind("parent-is-a-link", "A parent is a symbolic link, and the rule is on what it leads to.")
REFUSED = FindingKind("rule-refused", "The kernel refuses a rule that gives a file the rights of a directory.")
NO_RIGHT = FindingKind("rule-without-right", "A rule on a file has no right that a file can have.")
SECRET = FindingKind("rule-reaches-secrets", "A rule grants rights on a place where secrets are kept.")
IDLE = FindingKind("rule-without-effect", "Other rules of the layer grant as much, or another layer refuses it anyway.")
WRITE_RUN = FindingKind("written-and-run", "Files may be both written and executed.")


@dataclass(frozen=True)
class Where:
    """A part of a policy: a rule of a layer, and its parent or its port; without a layer it is the whole policy."""

    policy: Path
    layer: int | None = None
    rule: Numbered | None = None
    on: str | int | None = None

    def __str__(self) -> str:
        if self.layer is None:
            return str(self.policy)
        return f"layer {self.layer}, {self.rule}, {'port' if isinstance(self.on, int) else 'parent'} {self.on}"


@dataclass(frozen=True)
class LintRemark:
    """A part of a policy, and what there is to say of it: a warning, or a note, which is nothing to mend."""

    where: Where
    kind: FindingKind
    level: Level
    text: str

    def __str__(self) -> str:
        return f"{self.where}: {self.level.value}: {self.text}"


@dataclass(frozen=True)
class _RuleOnObject:
    """A rule on one object of this machine: `path` is where its parent leads, `places` are all paths of the object that
    are known, and `rights` is what it can grant there. A file that is `linked` has further names (hard links)."""

    parent: Parent
    path: str
    places: tuple[str, ...]
    is_file: bool
    rights: Rights
    linked: bool

    @property
    def rule(self) -> PathRule:
        """The rule."""
        return self.parent.rule


@dataclass(frozen=True)
class _Layer:
    """A layer with its rules, each on the objects that its parents lead to."""

    layer: Layer
    rules: Sequence[_RuleOnObject]

    @property
    def handled(self) -> Rights:
        """The rights for files that it handles."""
        return self.layer.handled_access_fs.rights

    def granted(self, path: str, but: _RuleOnObject | None = None) -> Rights:
        """The rights that its rules grant on a path, without one of them."""
        over = set(upwards(path))
        return NONE.union(*(on.rights for on in self.rules if on is not but and not over.isdisjoint(on.places)))

    def lets_pass(self, path: str) -> Rights:
        """The rights that it does not refuse on a path."""
        return self.granted(path) | FS.groups["all"] - self.handled

    def grants_near(self, path: str, right: str, *, is_file: bool) -> bool:
        """Whether it does not refuse a right on a path, or on something that may be beneath it."""
        beneath = (on for on in self.rules
                   if (on.linked and not is_file) or any(path in upwards(place) for place in on.places))
        return right in self.lets_pass(path) or any(right in on.rights for on in beneath)


@dataclass(frozen=True)
class Linting:
    """A policy on this machine."""

    policy: Policy

    @cached_property
    def _layers(self) -> list[_Layer]:
        by_number: dict[int, list[_RuleOnObject]] = {layer.number: [] for layer in self.policy.layers}
        found = [parent for parent in parents.each(self.policy, DISK) if parent.led.blocked is None]
        names = parents.by_object((*(parent.led.path for parent in found), *sensitive.SECRETS))
        for parent in found:
            by_number[parent.layer].append(self._on(parent, parents.places(parent.led.path, names)))
        return [_Layer(layer, by_number[layer.number]) for layer in self.policy.layers]

    def _on(self, parent: Parent, places: tuple[str, ...]) -> _RuleOnObject:
        seen = None if parent.led.varies else disk.look(parent.led.path)
        is_file = seen is not None and seen.kind != "dir"
        handled = self.policy.layers[parent.layer - 1].handled_access_fs.rights
        rights = parent.rule.allowed_access.rights & handled
        return _RuleOnObject(parent, parent.led.path, places, is_file, rights & FILE_RIGHTS if is_file else rights,
                             is_file and parents.has_names_beside(parent.led.path, places))

    def remarks(self) -> Iterator[LintRemark]:
        """All remarks: those on each rule in the order of the policy, then those on all of it."""
        yield from self._of_parents()
        for number, layer in enumerate(self._layers):
            for index, on in enumerate(layer.rules):
                yield from self._of_rule(layer, index, on)
            yield from self._of_ports(layer.layer, self.policy.layers[:number] + self.policy.layers[number + 1 :])
        yield from self._written_and_run()

    def _of_parents(self) -> Iterator[LintRemark]:
        """What this machine has at the parents of the policy's own rules."""
        for parent in parents.each(self.policy, DISK):
            if parent.rule.group is not None:
                continue
            led = parent.led
            if led.blocked is not None:
                yield self._warning(parent, NOWHERE, f"{led.blocked} is no directory, so the path leads nowhere")
            elif led.unknown is not None:
                yield self._note(parent, VARIES, f"what is at {led.unknown} differs from process to process")
            elif disk.look(led.path) is None:
                yield self._warning(parent, ABSENT, "is not on this machine, so there is no rule on it")
            elif led.now:
                yield self._note(parent, LINK, f"leads by a link to {led.path}, on which the rule is")

    def _warning(self, parent: Parent, kind: FindingKind, text: str) -> LintRemark:
        return LintRemark(self._where(parent), kind, Level.WARNING, text)

    def _note(self, parent: Parent, kind: FindingKind, text: str) -> LintRemark:
        return LintRemark(self._where(parent), kind, Level.NOTE, text)

    def _where(self, parent: Parent) -> Where:
        return Where(self.policy.path, parent.layer, parent.rule.place, parent.written)

    def _of_rule(self, layer: _Layer, index: int, on: _RuleOnObject) -> Iterator[LintRemark]:
        named = FS.ordered(on.rule.allowed_access.outright - FILE_RIGHTS) if on.is_file else []
        if named:
            text = f"is no directory, so the kernel refuses the rule for {', '.join(named)}"
            yield self._warning(on.parent, REFUSED, text)
        elif not on.rights and on.rule.group is None:
            yield self._warning(on.parent, NO_RIGHT, "is no directory, and the rule has no right that a file can have")
        if named or not on.rights:
            return
        texts = (text for place in on.places for text in sensitive.warnings(place, on.rights))
        for text in dict.fromkeys(texts) if on.rule.group not in group_names() else ():
            yield self._warning(on.parent, SECRET, text)
        if on.rule.group is None:
            yield from self._without_effect(layer, index, on)

    def _without_effect(self, layer: _Layer, index: int, on: _RuleOnObject) -> Iterator[LintRemark]:
        """What a rule grants that other rules of its layer grant too, and what another layer refuses anyway."""
        others = dict[_RuleOnObject, None]()
        for place in on.places:
            left, over = on.rights, set(upwards(place))
            for at, one in enumerate(layer.rules):
                is_other = on.path not in one.places or at < index
                if is_other and left & one.rights and not over.isdisjoint(one.places):
                    left -= one.rights
                    others[one] = None
            if left:
                break
        else:
            names = ", ".join(dict.fromkeys(f"{one.rule.place} on {one.parent.written}" for one in others))
            say = self._note if on.parent.led.now or on.linked else self._warning
            where = "by this name, but it has others (hard links)" if on.linked else "unless it is moved or linked"
            yield say(on.parent, IDLE, f"without effect {where}: {names} grants as much")
        for other in self._layers if not on.linked else ():
            if other is not layer:
                none = [right for right in FS.ordered(on.rights)
                        if not any(other.grants_near(place, right, is_file=on.is_file) for place in on.places)]
                if none:
                    yield self._warning(on.parent, IDLE, f"{', '.join(none)} without effect: layer "
                                        f"{other.layer.number} grants it neither there nor beneath")

    def _of_ports(self, layer: Layer, others: Sequence[Layer]) -> Iterator[LintRemark]:
        """Rules on ports that grant nothing new, or what another layer refuses."""
        granted: dict[int, Rights] = {}
        for rule in layer.net_port:
            for port in rule.ports:
                where = Where(self.policy.path, layer.number, rule.place, port)
                rights = rule.allowed_access.rights & layer.handled_access_net.rights
                if rights <= granted.get(port, NONE):
                    yield LintRemark(where, IDLE, Level.WARNING, "without effect: rules before it grant as much")
                granted[port] = granted.get(port, NONE) | rights
                for other in others:
                    none = NET.ordered(rights & other.handled_access_net.rights - _on_port(other.net_port, port))
                    if none:
                        text = f"{', '.join(none)} without effect: layer {other.number} does not grant it there"
                        yield LintRemark(where, IDLE, Level.WARNING, text)

    def _written_and_run(self) -> Iterator[LintRemark]:
        """Where files may be written and executed: the topmost places."""
        places = {ROOT, *(place for layer in self._layers for on in layer.rules for place in on.places)}
        told: set[str] = set()
        for path in sorted(places, key=lambda path: (path.count("/"), path)):
            over = set(upwards(path))
            if not told & over and all(_BOTH <= layer.lets_pass(path) for layer in self._layers):
                told.add(path)
                there = "everywhere" if path == ROOT else f"at {path} and beneath" if _is_dir(path) else f"at {path}"
                yield LintRemark(Where(self.policy.path), WRITE_RUN, Level.WARNING,
                             f"files {there} may be both written and executed")


def _is_dir(path: str) -> bool:
    seen = disk.look(path)
    return seen is None or seen.kind == "dir"


def _on_port(rules: Sequence[PortRule], port: int) -> Rights:
    """The rights that rules grant on a port."""
    return NONE.union(*(rule.allowed_access.rights for rule in rules if port in rule.ports))
