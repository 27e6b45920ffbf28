"""What a layer objects to, as a record of a denial says it (security/landlock/audit.c, security/lsm_audit.c).

The record lists `blockers`: rights, as `fs.read_file` or `net.connect_tcp`, or what else Landlock restricts. Then comes
the object: a path with its device and inode, an address with a port, a process, or the name of a socket.
"""

from __future__ import annotations

import re
from collections.abc import Mapping

from ..engine.answers import Closed, Missing, Mounting, Objection, Scoped, Tracing, Unplaced
from ..policy.policies import HIGHEST_PORT
from .records import Cut

_OF_FILES, _OF_NETWORK, _OF_SCOPE = "fs.", "net.", "scope."
_MOUNTS, _PTRACE = "fs.change_topology", "ptrace"
_SOCKETS = "abstract_unix_socket"
#: The fields with a port: of an address that a socket gets, and of one that it connects to.
_PORTS = ("dest", "src")
_PORT = re.compile("[0-9]{1,5}")
#: How many characters are shown of what is no port.
_SHOWN = 10


def objection(fields: Mapping[str, str]) -> Objection:
    """The objection of a record; Cut if the record has not all of it."""
    blockers = tuple(fields.get("blockers", "").split(","))
    if not all(blockers):
        raise Cut("has no blockers: is it cut?")
    first = blockers[0]
    if first == _MOUNTS:
        return Mounting()
    if first == _PTRACE:
        return Tracing(_process(fields))
    if first.startswith(_OF_SCOPE):
        scope = first.removeprefix(_OF_SCOPE)
        return Scoped(scope, _socket(fields) if scope == _SOCKETS else _process(fields))
    if all(one.startswith(_OF_FILES) for one in blockers):
        return _on_path(_without(_OF_FILES, blockers), fields)
    if all(one.startswith(_OF_NETWORK) for one in blockers):
        return Closed(_without(_OF_NETWORK, blockers), _port(fields))
    raise Cut(f"has unknown blockers: {fields['blockers']}")


def place_of(found: Objection, fields: Mapping[str, str]) -> str:
    """What a denied call is about, in the words of an audit."""
    match found:
        case Missing(path=path):
            return path
        case Closed(port=port):
            return f"port {port}"
        case Scoped(whom=whom) | Tracing(whom=whom):
            return whom
        case Unplaced(said=said):
            return said
    return fields.get("path") or f"{fields.get('name', '-')} of {fields.get('dev', '-')}"


def _without(prefix: str, blockers: tuple[str, ...]) -> tuple[str, ...]:
    return tuple(one.removeprefix(prefix) for one in blockers)


def _on_path(rights: tuple[str, ...], fields: Mapping[str, str]) -> Objection:
    """Rights on the object at a path; the kernel writes its inode behind the path."""
    path = fields.get("path")
    if path is None or "ino" not in fields:
        raise Cut("has no path with its inode: is it cut?")
    return Missing(rights, path) if path.startswith("/") else Unplaced(rights, path)


def _port(fields: Mapping[str, str]) -> int:
    """The port of an address; the kernel leaves out the port 0."""
    port = next((fields[name] for name in _PORTS if name in fields), "0")
    if not _PORT.fullmatch(port) or int(port) > HIGHEST_PORT:
        raise Cut(f"has the port {port[:_SHOWN]!r}")
    return int(port)


def _process(fields: Mapping[str, str]) -> str:
    """The other process, by the name that the kernel keeps of it."""
    return fields.get("ocomm") or "another process"


def _socket(fields: Mapping[str, str]) -> str:
    """The name of an abstract socket, as people write it: the first byte of its address is NUL."""
    path = fields.get("path")
    return "a socket" if path is None else path.replace("\0", "@")
