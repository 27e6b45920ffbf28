"""The kernel's audit, switched on for a test and off again: its records as auditd takes them, on a netlink socket.

The numbers and structures are those of linux/audit.h and linux/netlink.h.
"""

from __future__ import annotations

import contextlib
import os
import select
import socket
import struct
import threading
import time
from collections.abc import Iterator
from dataclasses import dataclass
from pathlib import Path

_NETLINK_AUDIT = 9
_GET, _SET, _ADD_RULE, _REMOVE_RULE = 1000, 1001, 1011, 1012
_REQUEST, _ACKNOWLEDGE = 1, 4
_ERROR = 2
_HEADER = struct.Struct("=IHHII")
#: The members of struct audit_status, which begins with mask, enabled, failure, pid, rate_limit and backlog_limit.
_STATUS = struct.Struct("=11I")
_ENABLED, _PID, _BACKLOG_LIMIT = 1, 4, 16
#: The members of struct audit_rule_data: flags (of the list `task`), action (`never`), and how many fields there are;
#: then a mask of calls, fields, values, and the flags of fields, 64 each, and the length of texts.
_TASK, _NEVER = 1, 0
_RULE = struct.Struct("=3I64I192II")
#: The records that may wait for the one who takes them: by default 64, of which a program's denials take more.
BACKLOG = 8192
_FIRST_RECORD = 1100
#: Long enough for the kernel to send what it has.
_SETTLED = 0.5


@dataclass(frozen=True)
class Status:
    """Whether audit is on, the process that takes its records, and how many may wait."""

    enabled: bool
    daemon: int
    backlog: int


class Audit:
    """A connection with the kernel's audit."""

    def __init__(self) -> None:
        self._socket = socket.socket(socket.AF_NETLINK, socket.SOCK_RAW, _NETLINK_AUDIT)
        self._socket.setsockopt(socket.SOL_SOCKET, socket.SO_RCVBUF, 8 << 20)
        self._socket.bind((0, 0))
        self._number = 0

    def close(self) -> None:
        self._socket.close()

    def _send(self, kind: int, data: bytes = b"") -> None:
        self._number += 1
        flags = _REQUEST | _ACKNOWLEDGE
        self._socket.send(_HEADER.pack(_HEADER.size + len(data), kind, flags, self._number, 0) + data)

    def receive(self, seconds: float) -> tuple[int, bytes] | None:
        """The type and the data of a message, None if none comes in so many seconds."""
        if not select.select([self._socket], [], [], seconds)[0]:
            return None
        message = self._socket.recv(65536)
        return _HEADER.unpack_from(message)[1], message[_HEADER.size :]

    def _asked(self, kind: int, data: bytes = b"", answer: int = _ERROR) -> bytes:
        """Sends a request, and waits for a message of a type, which may be the one that the request is acknowledged."""
        self._send(kind, data)
        while (message := self.receive(5)) is not None:
            if message[0] == _ERROR:
                (number,) = struct.unpack_from("=i", message[1])
                if number:
                    raise OSError(-number, os.strerror(-number))
            if message[0] == answer:
                return message[1]
        raise TimeoutError("the kernel's audit does not answer")

    def status(self) -> Status:
        """Whether audit is on."""
        found = self._asked(_GET, answer=_GET)
        _, enabled, _, daemon, _, backlog = struct.unpack_from("=6I", found)
        return Status(bool(enabled), daemon, backlog)

    def rule(self, kind: int) -> None:
        """Adds or removes the rule `never,task`: processes that start then have no records of their calls."""
        self._asked(kind, _RULE.pack(_TASK, _NEVER, 0, *[0xFFFFFFFF] * 64, *[0] * 193))

    def switch(self, status: Status) -> None:
        """Switches audit on or off; the daemon 0 stands for the kernel, which prints the records."""
        mask = _ENABLED | _PID | _BACKLOG_LIMIT
        told = (mask, int(status.enabled), 0, status.daemon, 0, status.backlog)
        self._asked(_SET, _STATUS.pack(*told, *[0] * 5))


def wanting() -> str | None:
    """Why a test can't switch audit on here, if it can't."""
    if os.getuid() != 0:
        return "only root may switch audit on"
    try:
        with contextlib.closing(Audit()) as audit:
            status = audit.status()
    except OSError as error:
        return f"the kernel's audit does not answer: {error.strerror or error}"
    return "audit is on already" if status.enabled or status.daemon else None


@contextlib.contextmanager
def _on(audit: Audit, daemon: int) -> Iterator[None]:
    """Audit on; afterwards it is as it was."""
    before = audit.status()
    try:
        audit.switch(Status(True, daemon, BACKLOG))
        yield
        time.sleep(_SETTLED)
    finally:
        off = Audit()
        off.switch(before)
        off.close()


@contextlib.contextmanager
def without_calls() -> Iterator[None]:
    """The rule `never,task`, as some systems have it."""
    with contextlib.closing(Audit()) as audit:
        audit.rule(_ADD_RULE)
        try:
            yield
        finally:
            audit.rule(_REMOVE_RULE)


@contextlib.contextmanager
def printed() -> Iterator[None]:
    """Audit without a daemon: the kernel prints its records."""
    with contextlib.closing(Audit()) as audit, _on(audit, 0):
        yield


@contextlib.contextmanager
def written(file: Path) -> Iterator[None]:
    """Audit whose records are written to a file, in the form of an auditd that does not know Landlock's types."""
    end = threading.Event()

    def take() -> None:
        message: tuple[int, bytes] | None = None
        with open(file, "ab") as log:
            while not end.is_set() or message is not None:
                message = audit.receive(0.1)
                if message is not None and message[0] >= _FIRST_RECORD:
                    log.write(b"type=UNKNOWN[%d] msg=%b\n" % (message[0], message[1].rstrip(b"\0")))

    with contextlib.closing(Audit()) as audit:
        taking = threading.Thread(target=take)
        try:
            with _on(audit, os.getpid()):
                taking.start()
                yield
        finally:
            end.set()
            taking.join()
