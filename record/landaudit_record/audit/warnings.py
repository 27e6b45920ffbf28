"""What the reader of an audit must know besides what was refused: each warning as a value, whose text is its `str`."""

from __future__ import annotations

from dataclasses import dataclass
from typing import Any

from ..common.jsonl import Record
from ..common.numbered import Numbered
from ..engine.answers import Condition
from ..engine.subjects import Subject
from .moot import Unasked


@dataclass(frozen=True)
class OfPolicy:
    """A record of the tried policy: a rule on a parent or a port, or another call by its name."""

    layer: int | None
    rule: Numbered | str
    parent: str | None = None
    port: int | None = None

    @classmethod
    def of(cls, origin: dict[str, Any], record: Record) -> OfPolicy:
        """What a record's member `policy` says."""
        rule = origin.get("rule", record["op"])
        return cls(origin.get("layer"), Numbered.read(rule) or rule, origin.get("parent"), origin.get("port"))

    @property
    def place(self) -> str:
        """The layer and the rule, as the policy names them."""
        return str(self.rule) if self.layer is None else f"layer {self.layer}, {self.rule}"

    def __str__(self) -> str:
        on = [f"parent {self.parent}"] if self.parent is not None else []
        on += [f"port {self.port}"] if self.port is not None else []
        return "policy: " + ", ".join([self.place, *on])


@dataclass(frozen=True)
class RuleRefused:
    """The kernel refuses a record of the policy."""

    rule: OfPolicy
    error: str | None
    condition: Condition

    def __str__(self) -> str:
        return f"{self.rule} is refused with {self.error}: {self.condition}"


@dataclass(frozen=True)
class RulesetRefused:
    """The kernel refuses a ruleset that a program makes."""

    abi: int
    error: str | None
    condition: Condition

    def __str__(self) -> str:
        without = "the program runs without that layer"
        if self.condition.of_abi:
            without = "a program must drop what the kernel does not have, or it runs without that layer"
        return f"a ruleset of the program is refused at ABI {self.abi} with {self.error}: {self.condition}; {without}"


@dataclass(frozen=True)
class RuleUnused:
    """Landlock is not asked about a rule of the policy, since the run never touched what it is on."""

    rule: OfPolicy
    subject: Subject
    why: Unasked

    def __str__(self) -> str:
        return f"{self.rule} is moot: {self.subject} {self.why}; was it never touched in the run, or is the name wrong?"


@dataclass(frozen=True)
class MadeByRun:
    """The run makes the object of a rule itself; a rule on the directory `above` would serve."""

    rule: OfPolicy
    above: str

    def __str__(self) -> str:
        return f"{self.rule}: the run makes it itself, so no sandboxer can put a rule on it: grant it on {self.above}"


@dataclass(frozen=True)
class ReplacedByRun:
    """The run puts another object in the place of a rule's; a rule on the directory `above` would serve."""

    rule: OfPolicy
    above: str

    def __str__(self) -> str:
        return (f"{self.rule}: the run puts another object there, and the rule stays with the first one: grant it on "
                f"{self.above}")


@dataclass(frozen=True)
class NoLayer:
    """No process has a layer."""

    def __str__(self) -> str:
        return ("no process confines itself, so nothing is refused: try a policy with --policy, or record a program "
                "that confines itself")


@dataclass(frozen=True)
class ManyMoot:
    """Landlock is not asked about many of the calls on paths."""

    moot: int
    calls: int

    def __str__(self) -> str:
        return (f"{self.moot} of {self.calls} calls on paths are moot, so the policy was not asked: does the tree list "
                "what the run touched?")


@dataclass(frozen=True)
class OfLog:
    """What a reader must know of a kernel's log, in words."""

    text: str

    def __str__(self) -> str:
        return self.text


Warned = RuleRefused | RulesetRefused | RuleUnused | MadeByRun | ReplacedByRun | NoLayer | ManyMoot | OfLog
