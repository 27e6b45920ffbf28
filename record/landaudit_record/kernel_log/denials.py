"""Denials: the calls that Landlock refused, each put together of the records that the kernel wrote of it.

All records of a call have one serial number, whatever other records come between them. If the system has no records of
calls (an audit rule such as `never,task`), each record of Landlock has a serial number of its own.
"""

from __future__ import annotations

import errno
import os
from collections import OrderedDict, deque
from collections.abc import Iterable, Iterator, Mapping
from dataclasses import dataclass, field, replace
from enum import Enum

from ..common.wording import counted
from ..engine.answers import Objection
from . import calls
from .objecting import objection, place_of
from .records import OF_LANDLOCK, Cut, Line, LogRecord, Lost, RecordType, Stamp, UnreadRecord

#: The records of other events that are kept, in case a record of Landlock comes behind that of its call.
_MOST_WAITING = 10_000
#: The kernel prints so many records in so many milliseconds at most (printk_ratelimit, by default), and may say that it
#: left out others only when it prints the next one.
_MOST_PRINTED, _PRINTED_WITHIN = 10, 5_000
OTHERS = ("others were lost, or are of an executed program, which the kernel logs only if the sandboxer asks for that "
          "(landaudit-policy confine --log)")
LIMITED = ("the kernel prints at most ten records in five seconds (kernel.printk_ratelimit), and here are ten: others "
           "may be missing, which the log of auditd would have")
#: The length at which the kernel cuts a command line (MAX_PROCTITLE_AUDIT_LEN).
LONGEST_COMMAND = 128
#: The fields of a domain's records that are numbers.
_NUMBERS = frozenset({"pid", "uid", "denials"})
#: The argument with the flags of a call, and the flags by which it makes a file (asm-generic/fcntl.h).
_FLAGS = {"open": "a1", "openat": "a2"}
_O_CREAT, _O_EXCL = 0o100, 0o200
_ALLOCATED, _DEALLOCATED = "allocated", "deallocated"


@dataclass(frozen=True)
class DeniedAccess:
    """One record of a denial: the domain whose youngest layer refuses, what that objects to, and where."""

    domain: str
    objection: Objection
    place: str


class MakesFile(Enum):
    """Whether a call that opens a file makes it: it does, it does if the file is not there, or it does not."""

    NEW = "new"
    IF_NEEDED = "if needed"
    NO = "no"


@dataclass(frozen=True)
class DeniedCall:
    """The call that was denied, by the kernel's record of it: its name, its program, and how it ended."""

    name: str
    program: str | None
    comm: str | None
    pid: int | None
    error: str | None
    succeeded: bool
    making: MakesFile = MakesFile.NO


@dataclass(frozen=True)
class Denial:
    """What Landlock denied a call, by one record or several. Without a record of the call, that is not known.

    `command` are the words of the program's command line, the last of which may be cut.
    """

    stamp: Stamp
    accesses: tuple[DeniedAccess, ...]
    call: DeniedCall | None = None
    command: tuple[str, ...] = ()

    @property
    def succeeded(self) -> bool:
        """Whether the call is known to have succeeded all the same."""
        return self.call is not None and self.call.succeeded


@dataclass(frozen=True)
class Maker:
    """The process that restricted itself by a layer, as it was then."""

    pid: int
    uid: int
    program: str
    comm: str


@dataclass(frozen=True)
class LoggedDomain:
    """A domain by the number that the kernel gives it; the layer that refuses is its youngest one. `maker` is the
    process that made that layer, if the log says so.

    `logged` is how many denials of it the log has, and `first` the time of its first record, in milliseconds. When the
    last of its processes has `ended`, the kernel logs how many denials there were, `counted`.
    """

    number: str
    first: int
    maker: Maker | None = None
    logged: int = 0
    counted: int | None = None
    ended: int | None = None

    @property
    def not_logged(self) -> int:
        """How many denials the kernel counted that the log does not have."""
        return 0 if self.counted is None else max(0, self.counted - self.logged)


@dataclass(frozen=True)
class Log:
    """All that logs say of Landlock: denials in the order of time, domains by number, and what is not known.

    `limited` has the places from which on the kernel may have printed no more records for some seconds. `records`
    counts the records of the kernel's audit of any kind; `first` and `last` are the times of these, in milliseconds
    since 1970. If only the denials of one `program` are here, `nameless` are those that may be of it or not.
    """

    denials: tuple[Denial, ...] = ()
    domains: Mapping[str, LoggedDomain] = field(default_factory=dict)
    unread: tuple[UnreadRecord, ...] = ()
    lost: tuple[Lost, ...] = ()
    limited: tuple[str, ...] = ()
    records: int = 0
    first: int | None = None
    last: int | None = None
    program: str | None = None
    nameless: int = 0

    def not_known(self) -> Iterator[str]:
        """What the log shows to be missing from it, each in a sentence; nothing if it may be complete."""
        if not self.records:
            yield ("the log has no record of the kernel's audit: is it switched on (auditctl -e 1, or audit=1 at "
                   "boot), and is this its log?")
        yield from (f"{one}: records were lost" for one in self.lost)
        yield from (f"{place}: {LIMITED}" for place in self.limited)
        yield from (f"{one.place}: a record of Landlock {one.why}" for one in self.unread)
        if self.nameless:
            yield (f"{counted(self.nameless, 'denial')} without a record of the call: it is not known whether "
                   f"{self.program} made it")
        for domain in self.domains.values():
            if domain.not_logged:
                yield (f"domain {domain.number}: the log has {domain.logged:,} of the "
                       f"{counted(domain.counted or 0, 'denial')} that the kernel counted: {OTHERS}")
            elif domain.maker is None:
                yield f"domain {domain.number}: the log does not have its first denial"


@dataclass
class _Event:
    """The records of one serial number so far."""

    accesses: list[DeniedAccess] = field(default_factory=list)
    domains: list[LogRecord] = field(default_factory=list)
    others: dict[RecordType, LogRecord] = field(default_factory=dict)

    def __len__(self) -> int:
        return len(self.accesses) + len(self.domains) + len(self.others)


class _LogReader:
    """Puts the records of one log together."""

    def __init__(self) -> None:
        self.events: dict[Stamp, _Event] = {}
        self.unread: list[UnreadRecord] = []
        self.lost: list[Lost] = []
        self.limited: list[str] = []
        self.records = 0
        self.times: list[int] = []
        self._printed: deque[int] = deque(maxlen=_MOST_PRINTED)
        self._waiting: OrderedDict[Stamp, _Event] = OrderedDict()

    def take(self, line: Line, place: str) -> None:
        """Takes what one line says."""
        match line:
            case UnreadRecord():
                self.unread.append(line)
            case Lost():
                self.lost.append(line)
            case LogRecord():
                self._count(line.stamp.milliseconds)
                if line.printed:
                    self._watch_limit(line.stamp.milliseconds, place)
                if line.kind in OF_LANDLOCK:
                    self._of_landlock(line, place)
                elif line.kind is not RecordType.OTHER:
                    self._other(line)

    def _count(self, time: int) -> None:
        self.records += 1
        self.times = [min(time, *self.times), max(time, *self.times)] if self.times else [time, time]

    def _watch_limit(self, time: int, place: str) -> None:
        """Notes where so many records were printed in so short a time that the kernel may have left out others."""
        self._printed.append(time)
        if len(self._printed) == _MOST_PRINTED and time - self._printed[0] <= _PRINTED_WITHIN:
            self.limited.append(place)
            self._printed.clear()

    def _of_landlock(self, record: LogRecord, place: str) -> None:
        """Takes a record of Landlock, with those of its event that came before."""
        event = self.events.get(record.stamp)
        if event is None:
            self.events[record.stamp] = event = self._waiting.pop(record.stamp, _Event())
        try:
            if record.kind is RecordType.ACCESS:
                found = objection(record.fields)
                event.accesses.append(DeniedAccess(_domain(record), found, place_of(found, record.fields)))
            else:
                _check_domain(record)
                event.domains.append(record)
        except Cut as fault:
            self.unread.append(UnreadRecord(place, str(fault)))

    def _other(self, record: LogRecord) -> None:
        """Takes a record that belongs to an event, perhaps to one of Landlock."""
        event = self.events.get(record.stamp)
        if event is None:
            event = self._waiting.setdefault(record.stamp, _Event())
            if len(self._waiting) > _MOST_WAITING:
                self._waiting.popitem(last=False)
        event.others[record.kind] = record


def _needed(record: LogRecord, name: str) -> str:
    """A field that each record of a kind has."""
    if not record.fields.get(name):
        raise Cut(f"has no {name}: is it cut?")
    return record.fields[name]


def _domain(record: LogRecord) -> str:
    """The number of a domain, in hexadecimal digits."""
    number = _needed(record, "domain")
    if _number(number, 16) is None:
        raise Cut(f"has the domain {number!r}")
    return number


def _check_domain(record: LogRecord) -> None:
    """Raises Cut if a record of a domain has not what is read of it."""
    _domain(record)
    status = _needed(record, "status")
    names = {_ALLOCATED: ("pid", "uid", "exe", "comm"), _DEALLOCATED: ("denials",)}.get(status)
    if names is None:
        raise Cut(f"has the unknown status {status!r}")
    for name in names:
        if name in _NUMBERS and _number(_needed(record, name)) is None:
            raise Cut(f"has no number as {name}")
        _needed(record, name)


def read(logs: Iterable[Iterable[tuple[str, Line]]]) -> Log:
    """All that some logs say, each line with its place. An event that several logs have is taken from the fullest."""
    events: dict[Stamp, _Event] = {}
    readers = []
    for log in logs:
        reader = _LogReader()
        for place, line in log:
            reader.take(line, place)
        for stamp, event in reader.events.items():
            if len(event) > len(events.get(stamp, _Event())):
                events[stamp] = event
        readers.append(reader)
    times = [time for reader in readers for time in reader.times]
    ordered = sorted(events.items())
    return Log(
        tuple(_denial(stamp, event) for stamp, event in ordered if event.accesses),
        _domains(ordered),
        tuple(one for reader in readers for one in reader.unread),
        tuple(one for reader in readers for one in reader.lost),
        tuple(place for reader in readers for place in reader.limited[:1]),
        sum(reader.records for reader in readers),
        min(times, default=None),
        max(times, default=None),
    )


def _denial(stamp: Stamp, event: _Event) -> Denial:
    """A denial of an event's records; those of its call are let go, since a log may have very many."""
    others, event.others = event.others, {}
    record = others.get(RecordType.SYSCALL) or others.get(RecordType.URINGOP)
    title = others.get(RecordType.PROCTITLE)
    said = "" if title is None else title.fields.get("proctitle", "")
    command = tuple(said.rstrip("\0").split("\0")) if said else ()
    return Denial(stamp, tuple(event.accesses), None if record is None else _call(record), command)


def _call(record: LogRecord) -> DeniedCall:
    """The call of its record."""
    fields = record.fields
    exit_code = _number(fields.get("exit"))
    error = None if exit_code is None or exit_code >= 0 else errno.errorcode.get(-exit_code)
    name = _name_of_call(record)
    return DeniedCall(
        name,
        fields.get("exe"),
        fields.get("comm"),
        _number(fields.get("pid")),
        error,
        fields.get("success") == "yes",
        _making(name, fields),
    )


def _making(name: str, fields: Mapping[str, str]) -> MakesFile:
    """Whether a call makes the file that it opens, by its flags (open(2)); those of openat2 are not in the record."""
    if name == "creat":
        return MakesFile.IF_NEEDED
    flags = _number(fields.get(_FLAGS.get(name, "")), 16) or 0
    if not flags & _O_CREAT:
        return MakesFile.NO
    return MakesFile.NEW if flags & _O_EXCL else MakesFile.IF_NEEDED


def _name_of_call(record: LogRecord) -> str:
    """The name of a call: as auditd names it, else by its number."""
    if record.kind is RecordType.URINGOP:
        return f"io_uring {record.fields.get('uring_op', '-')}"
    number = _number(record.fields.get("syscall"))
    added = record.added.get("SYSCALL", "")
    if added and not added.startswith("unknown"):
        return added
    return "-" if number is None else calls.name(_number(record.fields.get("arch"), 16) or 0, number)


def _number(text: str | None, base: int = 10) -> int | None:
    """A number, None if the text is none."""
    try:
        return None if text is None else int(text, base)
    except ValueError:
        return None


def _domains(events: Iterable[tuple[Stamp, _Event]]) -> dict[str, LoggedDomain]:
    """The domains of events that are in the order of time."""
    found: dict[str, LoggedDomain] = {}
    for stamp, event in events:
        time = stamp.milliseconds
        for access in event.accesses:
            domain = found.setdefault(access.domain, LoggedDomain(access.domain, time))
            found[domain.number] = replace(domain, logged=domain.logged + 1)
        for record in event.domains:
            domain = found.setdefault(record.fields["domain"], LoggedDomain(record.fields["domain"], time))
            found[domain.number] = _with(domain, record.fields, time)
    return found


def _with(domain: LoggedDomain, fields: Mapping[str, str], time: int) -> LoggedDomain:
    """A domain with what a record of it says."""
    if fields["status"] == _DEALLOCATED:
        return replace(domain, counted=int(fields["denials"]), ended=time)
    return replace(domain, maker=Maker(int(fields["pid"]), int(fields["uid"]), fields["exe"], fields["comm"]))


def of_program(log: Log, name: str) -> Log:
    """What a log says of one program, given by its name or whole path: of its denials, and of the layers it made."""
    kept = tuple(one for one in log.denials if _is_of(name, log, one))
    numbers = {access.domain for one in kept for access in one.accesses}
    numbers |= {it.number for it in log.domains.values() if it.maker is not None and _is_maker(name, it.maker)}
    domains = {number: domain for number, domain in log.domains.items() if number in numbers}
    nameless = sum(denial.call is None for denial in log.denials) - sum(denial.call is None for denial in kept)
    return replace(log, denials=kept, domains=domains, program=name, nameless=nameless)


def _is_of(name: str, log: Log, denial: Denial) -> bool:
    """Whether a denial is of a program, or of a layer that the program made."""
    if denial.call is not None and _is_named(name, denial.call.program, denial.call.comm):
        return True
    makers = (log.domains[access.domain].maker for access in denial.accesses)
    return any(maker is not None and _is_maker(name, maker) for maker in makers)


def _is_maker(name: str, maker: Maker) -> bool:
    return _is_named(name, maker.program, maker.comm)


def _is_named(name: str, program: str | None, comm: str | None) -> bool:
    """Whether a program has a name: its whole path, the last name of that, or the name that the kernel keeps of it."""
    return name in (program, comm, os.path.basename(program or ""))
