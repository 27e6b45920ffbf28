"""The policies that recorded programs put in force by themselves, read from their calls of Landlock.

A program makes a ruleset, adds rules, and restricts itself by it; each ruleset becomes a layer. What programs of any
language do is known by these calls alone (landlock(7)).
"""

from __future__ import annotations

from collections import Counter
from collections.abc import Container, Mapping, Sequence
from dataclasses import dataclass, field, replace
from pathlib import Path

from ..common import jsonl
from ..common.finished import OF_SCOPES, Finished
from ..common.jsonl import Record
from ..common.numbered import Numbered
from ..common.operations import OPERATIONS
from ..common.rights import FILE_RIGHTS, FS, NET, NONE, SCOPES, Family, Rights
from ..common.trace_lines import RAN, heads, told
from ..common.trees import Tree
from ..engine.processes import program_run, shown
from .policies import HIGHEST_PORT, LONGEST_PATH, Access, Layer, PathRule, Policy, PortRule

#: The records that say which processes there are, what they run, and what they do with rulesets. One that only repeats
#: what there was may be of any kind and say what is run after it.
OF_PROCESSES = heads({"start", "fork", "exit", "exec", *(op for op, of in OPERATIONS.items() if "rs" in of.numbers)})
#: How the calls of Landlock begin in the list of calls that could not be recorded, and how those that failed end.
_OF_LANDLOCK = "landlock_"
_FAILED = " = -1 "
#: A restriction without a ruleset, which only says what is logged.
_NO_LAYER = "landlock_restrict_self(-1,"
NO_PROGRAM = "-"


@dataclass(frozen=True)
class ImportedRule:
    """A rule on a path or on a TCP port. If the run made the object at the path, `made` is its name in the tree."""

    on: str | int
    rights: Rights
    made: str | None = None


@dataclass(frozen=True)
class ImportedRuleset:
    """What a ruleset has when a process restricts itself by it; `dropped` says what of it a policy can't have."""

    fs: Rights
    net: Rights
    rules: tuple[ImportedRule, ...] = ()
    scoped: tuple[str, ...] = ()
    dropped: tuple[str, ...] = ()

    @property
    def is_layer(self) -> bool:
        """Whether a policy can have it as a layer."""
        return bool(self.fs or self.net or self.scoped)


@dataclass(frozen=True)
class Own:
    """The layers that a program puts in force by itself, the oldest first, and its path, `-` if it is not known."""

    program: str
    layers: tuple[ImportedRuleset, ...]


@dataclass
class Times:
    """By which processes a policy was put in force, once for each, and which programs were then run under it.

    `under` has the programs whose layers were in force before, if there are any.
    """

    pids: list[int] = field(default_factory=list)
    then: Counter[str] = field(default_factory=Counter)
    under: Counter[str] = field(default_factory=Counter)


@dataclass
class _Open:
    """A ruleset that processes hold, which may still get rules."""

    now: ImportedRuleset


@dataclass
class _RestrictedProcess:
    """What a process has: its program, its layers since it runs that, the programs of those before, its rulesets."""

    program: str = NO_PROGRAM
    layers: tuple[ImportedRuleset, ...] = ()
    before: tuple[str, ...] = ()
    rulesets: dict[int, _Open] = field(default_factory=dict)

    def forked(self) -> _RestrictedProcess:
        """A child, which holds the same rulesets."""
        return replace(self, rulesets=dict(self.rulesets))


@dataclass(frozen=True)
class Restricted:
    """A restriction that the kernel allowed: the process, and the layers of its program with this one as the last.

    `again` says that the record only gives a process what it had.
    """

    pid: int
    own: Own
    again: bool


class Following:
    """Follows one part of a recording, record by record."""

    def __init__(self, tree: Tree, found: dict[Own, Times], failed: Counter[str]) -> None:
        #: The numbers of calls that make rulesets with scopes.
        self.scoping: set[int] = set()
        self._tree = tree
        self._found = found
        self._failed = failed
        self._by_pid: dict[int, _RestrictedProcess] = {}
        self._rule: tuple[int, int] | None = None

    def take(self, record: Record) -> Restricted | None:
        """Follows a record, and gives the restriction that it is, if it is one."""
        pid = record["pid"]
        process = self._by_pid.setdefault(pid, _RestrictedProcess())
        done = self._restrict(process, record) if record["op"] == "restrict" else None
        match record["op"]:
            case "start":
                self._by_pid[pid] = _RestrictedProcess()
            case "fork":
                self._by_pid[record["child"]] = process.forked()
            case "exit":
                self._by_pid.pop(pid, None)
            case "exec" if program_run(record) is not None:
                self._run(process, str(shown(record, "path")), again="again" in record)
            case "create" | "add_path" | "add_port" | "close_rs":
                self._on_ruleset(process, record)
        for ran in record.get("ran", ()):
            self._run(self._by_pid[record.get("child", pid)], self._tree.real(ran["path"]), again=True)
        return done

    def _run(self, process: _RestrictedProcess, program: str, *, again: bool) -> None:
        """A process runs a program: the layers that it has are no longer the program's own."""
        own = Own(process.program, process.layers)
        if own in self._found and not again:
            self._found[own].then[program] += 1
        process.before += (process.program,) * len(process.layers)
        process.program, process.layers = program, ()

    def _on_ruleset(self, process: _RestrictedProcess, record: Record) -> None:
        rs, kernel = record["rs"], record.get("kernel", "ok")
        if record["op"] == "create":
            if "scoped" in record:
                self.scoping.add(record.get("call", 0))
            if kernel == "ok":
                process.rulesets[rs] = _Open(_made(record))
            else:
                self._fails(process, record)
        elif record["op"] == "close_rs":
            process.rulesets.pop(rs, None)
        elif rs in process.rulesets and not self._is_said(record):
            held = process.rulesets[rs]
            held.now = _with_rule(held.now, record, self._tree)

    def _is_said(self, record: Record) -> bool:
        """Whether a record is a copy of the one before, for a further name of the object."""
        before, call = self._rule, record.get("call")
        self._rule = (record["pid"], call) if type(call) is int else None
        return self._rule is not None and self._rule == before

    def _fails(self, process: _RestrictedProcess, record: Record) -> None:
        self._failed[f"{record['op']} of {process.program}: {record['kernel']}"] += 1

    def _restrict(self, process: _RestrictedProcess, record: Record) -> Restricted | None:
        if record.get("kernel", "ok") != "ok":
            self._fails(process, record)
            return None
        if record["rs"] not in process.rulesets:
            return None
        before = Own(process.program, process.layers)
        process.layers += (process.rulesets[record["rs"]].now,)
        own = Own(process.program, process.layers)
        if "again" not in record:
            self._count(record["pid"], process, before, own)
        return Restricted(record["pid"], own, "again" in record)

    def _count(self, pid: int, process: _RestrictedProcess, before: Own, own: Own) -> None:
        """Counts the layers of a process, in place of those that it had before in the same program."""
        found = self._found
        if before in found and pid in found[before].pids:
            found[before].pids.remove(pid)
            found[before].under -= Counter(dict.fromkeys(process.before, 1))
            if not found[before].pids:
                del found[before]
        times = found.setdefault(own, Times())
        times.pids.append(pid)
        times.under.update(dict.fromkeys(process.before, 1))


def _made(record: Record) -> ImportedRuleset:
    """A ruleset without rules, from the record that makes it."""
    dropped: list[str] = []
    fs, net = _known(record, "fs", FS, "handles", dropped), _known(record, "net", NET, "handles", dropped)
    scoped = tuple(scope for scope in record.get("scoped", ()) if scope in SCOPES)
    dropped += [f"it has the scope {scope}" for scope in record.get("scoped", ()) if scope not in SCOPES]
    return ImportedRuleset(fs, net, scoped=scoped, dropped=tuple(dropped))


def _known(record: Record, member: str, family: Family, says: str, dropped: list[str]) -> Rights:
    """The rights of a record that a policy can name."""
    rights = frozenset(record.get(member) or ())
    unknown = sorted(rights - set(family.since))
    if unknown:
        dropped.append(f"it {says} {', '.join(unknown)} {family.what}, which no ABI here has")
    return rights & set(family.since)


def _with_rule(ruleset: ImportedRuleset, record: Record, tree: Tree) -> ImportedRuleset:
    """A ruleset with the rule of a record, or with the reason why that is dropped."""
    on = record["port"] if record["op"] == "add_port" else str(shown(record, "path"))
    family, handled = (NET, ruleset.net) if record["op"] == "add_port" else (FS, ruleset.fs)
    dropped = list(ruleset.dropped)
    rights = _known(record, "net" if family is NET else "fs", family, f"has a rule on {on} with", dropped)
    why = _refusal(record, rights, handled, tree)
    if why is None and isinstance(on, str) and (not on.startswith("/") or len(on.encode()) > LONGEST_PATH):
        why = "a policy can't name the path"
    if why is None and "path" in record and tree.kind(record["path"]) == "sym":
        why = "it is on the symbolic link itself"
    if why is not None or not rights:
        named = ", ".join(family.ordered(rights)) or "no right"
        text = [f"its rule on {on} ({named}): {why}"] if why is not None else []
        return replace(ruleset, dropped=(*dropped, *text))
    made = record["path"] if isinstance(on, str) and not tree.is_there_before(record["path"]) else None
    return replace(ruleset, rules=(*ruleset.rules, ImportedRule(on, rights, made)), dropped=tuple(dropped))


def _refusal(record: Record, rights: Rights, handled: Rights, tree: Tree) -> str | None:
    """Why the kernel refused a rule; a trace that nobody recorded does not say it (landlock_add_rule(2), EINVAL)."""
    if record.get("kernel", "ok") != "ok":
        return f"the kernel refused it with {record['kernel']}"
    if not rights <= handled:
        return "the kernel refuses it with EINVAL, since the ruleset does not handle all of it"
    if record.get("port", 0) > HIGHEST_PORT:
        return "the kernel refuses it with EINVAL, since it is on no port"
    kind = tree.kind(record["path"]) if "path" in record else None
    if kind not in (None, "dir") and not rights <= FILE_RIGHTS:
        return "the kernel refuses it with EINVAL, since it is on no directory"
    return None


# ---- all that a recording has


@dataclass(frozen=True)
class InForce:
    """What programs of a recording put in force by themselves, in the order of the first times.

    `failed` counts calls on rulesets that the kernel refused, `unseen` those that could not be recorded, by class.
    """

    own: Mapping[Own, Times]
    failed: Counter[str]
    unseen: Counter[str]


def found(recording: Finished, tree: Tree) -> InForce:
    """What the programs of a recording put in force by themselves."""
    own: dict[Own, Times] = {}
    failed: Counter[str] = Counter()
    scoping: set[int] = set()
    for part in recording.parts:
        following = Following(tree, own, failed)
        for _, record in told(part.trace, OF_PROCESSES, RAN):
            following.take(record)
        scoping |= following.scoping
    return InForce(own, failed, _unseen(recording.folder / "unsaid.jsonl", scoping))


def _unseen(unsaid: Path, scoping: Container[int]) -> Counter[str]:
    """The calls of Landlock that could not be recorded, by class, without those that failed.

    Scopes are known of the calls that have a record.
    """
    found: Counter[str] = Counter()
    for _, entry in jsonl.numbered(unsaid) if unsaid.is_file() else ():
        why, call = str(entry.get("class")), str(entry.get("call", ""))
        known = why == OF_SCOPES and entry.get("line") in scoping
        if call.startswith(_OF_LANDLOCK) and not (_FAILED in call or call.startswith(_NO_LAYER) or known):
            found[why] += 1
    return found


# ---- as a policy


def policy(own: Own, path: Path) -> Policy:
    """A program's own layers as a policy. Rules with equal rights are one rule, on all their paths or ports."""
    some = [ruleset for ruleset in own.layers if ruleset.is_layer]
    return Policy(path, tuple(_layer(ruleset, number) for number, ruleset in enumerate(some, start=1)))


def _layer(ruleset: ImportedRuleset, number: int) -> Layer:
    by_rights = {"path_beneath": _together(ruleset.rules, str), "net_port": _together(ruleset.rules, int)}
    paths = tuple(PathRule(Numbered("path_beneath", at), Access(rights), tuple(map(str, on)))
                  for at, (rights, on) in enumerate(by_rights["path_beneath"].items(), start=1))
    ports = tuple(PortRule(Numbered("net_port", at), Access(rights), tuple(map(int, on)))
                  for at, (rights, on) in enumerate(by_rights["net_port"].items(), start=1))
    return Layer(number, _access(ruleset.fs, FS), _access(ruleset.net, NET), paths, ports, ruleset.scoped)


def _access(rights: Rights, family: Family) -> Access:
    """What a layer handles: `all` if it is all that there is."""
    return Access(grouped=rights) if rights == family.groups["all"] else Access(rights)


def _together(rules: Sequence[ImportedRule], kind: type) -> dict[Rights, list[str | int]]:
    """What the rules of a kind are on, by their rights: several rules on one thing grant together what each grants."""
    rights: dict[str | int, Rights] = {}
    for rule in rules:
        if isinstance(rule.on, kind):
            rights[rule.on] = rights.get(rule.on, NONE) | rule.rights
    on: dict[Rights, list[str | int]] = {}
    for one, granted in rights.items():
        on.setdefault(granted, []).append(one)
    return on
