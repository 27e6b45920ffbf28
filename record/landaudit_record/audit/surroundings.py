"""What a recording knows of objects that its run did not touch, so that a rule on a link is on what the link leads to.

`run` keeps what is in `/`, what is on the way to each parent of the policy and of the groups of rules (START), and what
is in the watched directories. Anything else is looked up on this machine if the recording was made on it, and is not
known if it was not.
"""

from __future__ import annotations

import hashlib
import hmac
import json
import os
import socket
from collections.abc import Iterable, Iterator
from dataclasses import dataclass
from functools import cached_property
from pathlib import Path
from typing import Any

from ..common import jsonl, resolving
from ..common.finished import CONVERTED
from ..common.resolving import DISK, NOTHING, ROOT, KnownObjects, LinkLoop, Met, NothingElse, directory_of, joined
from ..common.rights import FS
from ..policy import policies
from ..policy.policies import Policy
from ..recorder.recordings import ABOUT, BEFORE

START = "start.jsonl"
_MACHINE_ID = Path("/etc/machine-id")
_BOOT_ID = Path("/proc/sys/kernel/random/boot_id")
#: What `run` lists besides, where each machine has the same links to other devices.
_MADE_BY_KERNEL = ("/dev/", "/proc/", "/sys/")


def machine() -> str:
    """What tells this machine from others: a hash of its id (machine-id(5)), its name, and the number of its root.

    Containers of one image may have one id. A machine without an id has another one after each boot.
    """
    own = _text(_MACHINE_ID) or _text(_BOOT_ID)
    about = f"landaudit-record {socket.gethostname()} {os.stat(ROOT).st_ino}"
    return hmac.new(own.encode(), about.encode(), hashlib.sha256).hexdigest()


def _text(file: Path) -> str:
    try:
        return file.read_text(encoding="ascii").strip()
    except (OSError, ValueError):
        return ""


# ---- before the run


def keep(folder: Path, policy: Policy | None) -> None:
    """Keeps in a recording's folder what is in `/`, and on the way to each parent that a rule may have."""
    jsonl.write(folder / START, _lines(_parents(policy)))


def _parents(policy: Policy | None) -> Iterator[str]:
    """The parents of the groups of rules, and of a policy."""
    rules = [rule for name in policies.group_names() for rule in policies.group_rules(name, FS.groups["all"])]
    rules += [rule for layer in (policy.layers if policy else ()) for rule in layer.path_beneath]
    yield from (parent for rule in rules for parent in rule.parents)


def _lines(parents: Iterable[str]) -> Iterator[jsonl.Record]:
    seeing = _Seeing({})
    for name in sorted(os.listdir(ROOT)):
        seeing.at(joined(ROOT, name))
    for parent in parents:
        try:
            resolving.walked(parent, seeing)
        except LinkLoop:
            continue
    for path, met in seeing.seen.items():
        if _is_text(path) and _is_text(met.target or ""):
            yield {"path": path, "kind": met.kind} | ({} if met.target is None else {"target": met.target})


def _is_text(name: str) -> bool:
    """Whether a name can be written as UTF-8."""
    return not any("\ud800" <= letter <= "\udfff" for letter in name)


@dataclass(frozen=True)
class _Seeing:
    """The disk, and what was seen of it."""

    seen: dict[str, Met]

    def at(self, path: str) -> Met | None:
        """What is at a path; what is not known is not kept."""
        met = DISK.at(path)
        if met is not None:
            self.seen[path] = met
        return met


# ---- after the run


@dataclass(frozen=True)
class _Kept:
    """What a recording kept, and this disk if it is the one of the recording."""

    seen: dict[str, Met]
    listed: _Listed
    here: bool

    def at(self, path: str) -> Met | None:
        """What was at a path when the run began, or is there now."""
        if path in self.seen:
            return self.seen[path]
        if self.seen and directory_of(path) == ROOT:
            return NOTHING
        if self.listed.has(path):
            return self.listed.there.get(path, NOTHING)
        return DISK.at(path) if self.here else None


@dataclass(frozen=True)
class _Listed:
    """The directories that were listed before a run, but for those in them that were not; what was there is read late."""

    folder: Path
    watched: tuple[str, ...]
    unlisted: tuple[str, ...]

    @classmethod
    def of(cls, folder: Path) -> _Listed:
        """Those of a recording that is complete in its folder; a distilled one has none."""
        about = _about(folder) if (folder / BEFORE).is_file() else {}
        return cls(folder, *(tuple(str(top).rstrip("/") + "/" for top in about.get(name) or ())
                             for name in ("watched", "unlisted")))

    def has(self, path: str) -> bool:
        """Whether it is known what was at a path: the nearest directory above that was listed, or was not, counts."""
        listed, not_listed = (max((len(top) for top in tops if path.startswith(top)), default=0)
                              for tops in (self.watched, self.unlisted))
        return listed > not_listed

    @cached_property
    def there(self) -> dict[str, Met]:
        """What was in the directories."""
        lines = jsonl.numbered(self.folder / BEFORE) if self.watched else ()
        return {line["path"]: Met(line["kind"], line.get("target")) for _, line in lines}


def of(folder: Path) -> KnownObjects:
    """What is known of the objects that the tree of a recording does not list.

    A tree and a trace that were not recorded by `run` are taken as all that there is.
    """
    where = machine_of(folder)
    if where is None:
        return NothingElse()
    seen = {line["path"]: Met(line["kind"], line.get("target")) for line in lines_of(folder)}
    return _Kept(seen, _Listed.of(folder), here=where == machine())


def lines_of(folder: Path) -> Iterator[jsonl.Record]:
    """What a recording keeps of objects that its run need not touch, as lines."""
    start = folder / START
    yield from (line for _, line in jsonl.numbered(start)) if start.is_file() else ()


def links_of(folder: Path) -> Iterator[jsonl.Record]:
    """The links that were in the watched directories before the run, as such lines, but for those that the kernel made."""
    for path, met in _Listed.of(folder).there.items():
        if met.target is not None and not path.startswith(_MADE_BY_KERNEL):
            yield {"path": path, "kind": met.kind, "target": met.target}


def write(folder: Path, where: str, lines: Iterable[jsonl.Record]) -> None:
    """Keeps in a folder what another recording keeps of such objects, and on which machine it was made."""
    (folder / ABOUT).write_text(json.dumps({"machine": where}) + "\n", encoding="utf-8")
    jsonl.write(folder / START, lines)


def machine_of(folder: Path) -> str | None:
    """The machine of a recording, "" if it is not known; None for a tree and a trace that are taken as they are."""
    if (folder / ABOUT).is_file():
        said = _about(folder).get("machine")
        return said if isinstance(said, str) else ""
    return "" if (folder / CONVERTED).is_file() else None


def _about(folder: Path) -> dict[str, Any]:
    """How a recording was made; those of older versions say less."""
    try:
        said = json.loads((folder / ABOUT).read_text(encoding="utf-8"))
    except ValueError:
        return {}
    return said if isinstance(said, dict) else {}
