"""Records of the kernel's audit, one a line, as auditd, journalctl and dmesg write them.

    type=UNKNOWN[1423] msg=audit(1795939711.837:268): domain=12b597e21 blockers=fs.make_dir path="/a" dev="vda" ino=1
    [ 2055.030941] audit: type=1423 audit(1795939649.573:260): domain=12b597d8e blockers=fs.make_dir ..

auditd may write a host before a record and, after a separator, names for the numbers in it. The kernel writes a text in
quotes, or in hexadecimal digits if it has a blank, a quote, or a byte that is not a plain character.
"""

from __future__ import annotations

import os
import re
from collections.abc import Iterable, Iterator, Mapping
from dataclasses import dataclass
from enum import IntEnum
from functools import cached_property


class RecordType(IntEnum):
    """The types of records that tell of a denial (linux/audit.h); another type is OTHER."""

    OTHER = 0
    SYSCALL = 1300
    PROCTITLE = 1327
    URINGOP = 1336
    ACCESS = 1423
    DOMAIN = 1424


#: The types that only Landlock has.
OF_LANDLOCK = frozenset({RecordType.ACCESS, RecordType.DOMAIN})
_BY_NAME = {
    "SYSCALL": RecordType.SYSCALL,
    "PROCTITLE": RecordType.PROCTITLE,
    "URINGOP": RecordType.URINGOP,
    "LANDLOCK_ACCESS": RecordType.ACCESS,
    "LANDLOCK_DOMAIN": RecordType.DOMAIN,
    **{f"{form}{kind.value}{end}": kind for kind in RecordType for form, end in (("", ""), ("UNKNOWN[", "]"))},
}
_STAMP = rb"audit\(([0-9]{1,11})\.([0-9]{3}):([0-9]{1,20})\) ?: ?(.*)"
#: A record as auditd writes it, and as the kernel prints it.
_BY_AUDITD = re.compile(rb"(?:node=\S+ )?type=(\S+) msg=" + _STAMP, re.DOTALL)
_PRINTED = re.compile(rb"(?:^|.*?\s)audit: type=([0-9]+) " + _STAMP, re.DOTALL)
#: A record of Landlock in another form: of ausearch, of journald's own socket, or in JSON.
_ABOUT_LANDLOCK = re.compile(
    rb"(?:type=(?:142[34]|UNKNOWN\[142[34]\]|LANDLOCK_(?:ACCESS|DOMAIN))|"
    rb"audit(?:\[[0-9]+\])?: (?:AUDIT142[34]|UNKNOWN\[142[34]\]|LANDLOCK_(?:ACCESS|DOMAIN)))(?![0-9A-Za-z_])"
)
#: Every line that is read has one of these.
_WORDS = (b"audit", b"LANDLOCK_", b"UNKNOWN[142", b"type=142", b" kernel messages")
#: Before the names that auditd adds.
_SEPARATOR = b"\x1d"
_FIELD = re.compile(rb'([A-Za-z0-9_-]+)=(?:"([^"]*)"|([^\s"]*))(?:\s+|$)')
_HEXADECIMAL = re.compile(rb"(?:[0-9A-F]{2})+")
#: The fields that have texts: what a record writes without quotes is in hexadecimal digits.
_TEXTS = frozenset({b"path", b"name", b"exe", b"comm", b"ocomm", b"proctitle", b"dev"})
#: How many characters are shown of what can't be read.
_SHOWN = 40


@dataclass(frozen=True, order=True)
class Stamp:
    """When an event was, in milliseconds since 1970, and its serial number: all records of one event have the same."""

    milliseconds: int
    serial: int


@dataclass(frozen=True)
class LogRecord:
    """A record: what it is of, its text, and whether the kernel printed it itself."""

    kind: RecordType
    stamp: Stamp
    text: bytes = b""
    printed: bool = False

    @cached_property
    def fields(self) -> Mapping[str, str]:
        """The fields that the kernel wrote, all of those of Landlock's own records, or else Cut."""
        own = self.text.partition(_SEPARATOR)[0]
        return _fields(own) if self.kind in OF_LANDLOCK else _some_fields(own)

    @cached_property
    def added(self) -> Mapping[str, str]:
        """The names that auditd added."""
        return _some_fields(self.text.partition(_SEPARATOR)[2])


@dataclass(frozen=True)
class UnreadRecord:
    """A line that is a record of Landlock and can't be read, with its place and the reason."""

    place: str
    why: str

    def __str__(self) -> str:
        return f"{self.place}: {self.why}"


@dataclass(frozen=True)
class Lost:
    """A line by which records were lost: its place, and what it says."""

    place: str
    said: str

    def __str__(self) -> str:
        return f"{self.place}: {self.said}"


#: How the kernel and journald say that records were lost (kernel/audit.c, lib/ratelimit.c, journald-kmsg.c).
_LOSSES = re.compile(
    rb"audit_lost=[1-9][0-9]*|audit: (?:rate limit|backlog limit) exceeded|audit: audit_backlog=[0-9]+ > "
    rb"audit_backlog_limit=[0-9]+|audit: kauditd \w+ queue overflow|audit: out of memory in audit_log_start|"
    rb"kauditd_printk_skb: [0-9]+ callbacks suppressed|Missed [0-9]+ kernel messages"
)

Line = LogRecord | UnreadRecord | Lost


class Cut(Exception):
    """A record that does not end as it should, or that misses what it should have."""


def read(name: str, lines: Iterable[bytes]) -> Iterator[tuple[str, Line]]:
    """The records of a log, what can't be read of those of Landlock, and what says that some were lost; with places."""
    for number, line in enumerate(lines, start=1):
        place = f"{name}:{number}"
        found = _record(line.rstrip(b"\r\n\0"), place)
        if found is not None:
            yield place, found


def _record(line: bytes, place: str) -> Line | None:
    """What a line says; None if it is no record of the kernel's audit."""
    if not any(word in line for word in _WORDS):
        return None
    by_auditd = _BY_AUDITD.match(line)
    match = by_auditd or _PRINTED.match(line)
    if match is None:
        loss = _LOSSES.search(line)
        if loss is not None:
            return Lost(place, os.fsdecode(loss[0]))
        if _ABOUT_LANDLOCK.search(line):
            return UnreadRecord(place, "has no audit(TIME:SERIAL) as the kernel writes it: give the log as auditd or "
                                 "journalctl -k writes it")
        return None
    kind = _BY_NAME.get(os.fsdecode(match[1]), RecordType.OTHER)
    stamp = Stamp(int(match[2]) * 1000 + int(match[3]), int(match[4]))
    if kind is RecordType.OTHER:
        return LogRecord(kind, stamp, printed=by_auditd is None)
    record = LogRecord(kind, stamp, match[5], by_auditd is None)
    try:
        if kind in OF_LANDLOCK and not record.fields:
            raise Cut("has no fields: is it cut?")
        return record
    except Cut as fault:
        return UnreadRecord(place, str(fault))


def _fields(text: bytes) -> dict[str, str]:
    """All fields of a record, each with its text decoded."""
    found: dict[str, str] = {}
    text, at = text.strip(), 0
    while at < len(text):
        match = _FIELD.match(text, at)
        value = None if match is None else _value(match)
        if match is None or value is None:
            raise Cut(f"can't be read from {os.fsdecode(text[at:at + _SHOWN])!r} on: is it cut?")
        found[match[1].decode("ascii")] = os.fsdecode(value)
        at = match.end()
    return found


def _some_fields(text: bytes) -> dict[str, str]:
    """Those fields of a record that can be read: security modules add labels of any form to some records."""
    values = ((match[1].decode("ascii"), _value(match)) for match in _FIELD.finditer(text))
    return {name: os.fsdecode(value) for name, value in values if value is not None}


def _value(match: re.Match[bytes]) -> bytes | None:
    """The value of a field; None if it stands for nothing, or has half a byte."""
    name, quoted, bare = match.groups()
    if quoted is not None or name not in _TEXTS:
        return bare if quoted is None else quoted
    return bytes.fromhex(bare.decode("ascii")) if _HEXADECIMAL.fullmatch(bare) else None
