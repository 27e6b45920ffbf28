"""The options of landrun, as its version 0.1.17 has them.

It restricts paths, ports and scopes by one layer, with all rights of ABI 5 and one more of ABI 9. A file gets those of
an option's rights that files can have.
"""

from __future__ import annotations

from collections.abc import Iterator, Sequence
from dataclasses import replace
from pathlib import Path

from ...common.comments import Comments
from ...common.documents import listed
from ...common.problems import Problem
from ...common.rights import FILE_RIGHTS, FS, NET, NONE, REFER, SCOPES, Rights
from ..policies import Access, Layer, Policy
from . import Exported, Imported, Loss, all_of, flat, path_rules, port_rules, words
from .flat import ROOT, Flat, OnPath
from .words import CommandLine, KnownOptions

VERSION = "0.1.17"
NAME = "landrun"
#: The groups of rights that its options about paths stand for, the least first.
PATHS = {
    "--ro": ("read",), "--rox": ("read", "execute"), "--rw": ("read", "write"), "--rwx": ("read", "write", "execute"),
}
PORTS = {"--bind-tcp": "bind_tcp", "--connect-tcp": "connect_tcp"}
NO_PATHS, NO_PORTS, NO_SCOPES = "--unrestricted-filesystem", "--unrestricted-network", "--unrestricted-scoped"
#: Options by which it looks for files on the machine.
LOOKS = ("--add-exec", "--ldd")
BEST, MISSING, LOG = "--best-effort", "--ignore-missing", "--log-enable-subprocesses"
#: Grants to read, and from ABI 9 on to connect to sockets; no policy here has that right.
SOCKETS = "--unix"
KNOWN = KnownOptions(
    valued=(*PATHS, *PORTS, SOCKETS, "--env", "--log-level"),
    flags=(NO_PATHS, NO_PORTS, NO_SCOPES, *LOOKS, BEST, MISSING, LOG, "--log-disable-originating",
           "--log-disable-subdomains"),
)
_NEWEST_ABI = 9


def read(text: str) -> Imported:
    """The policy of a command line."""
    line = words.read(text, NAME, KNOWN)
    given = {option.name for option in line.options}
    paths, ports = _paths(line), _ports(line)
    for option in line.options:
        if option.name in (*PATHS, SOCKETS) and NO_PATHS in given or option.name in PORTS and NO_PORTS in given:
            option.fault(f"has no effect with {NO_PORTS if option.name in PORTS else NO_PATHS}: leave one of them out")
    if {NO_PATHS, NO_PORTS, NO_SCOPES} <= given:
        raise Problem(f"--{NAME}: it restricts neither paths nor ports nor scopes, so it puts no layer in force")
    fs = NONE if NO_PATHS in given else FS.groups["all"]
    net = NONE if NO_PORTS in given else NET.groups["all"]
    scoped = () if NO_SCOPES in given else SCOPES
    layer = Layer(1, Access(grouped=fs), Access(grouped=net), path_rules(paths), port_rules(ports), scoped)
    of_policy = (*PATHS, *PORTS, SOCKETS, NO_PATHS, NO_PORTS, NO_SCOPES, BEST, MISSING)
    said = [f"from a command line of {NAME} ({VERSION})", *words.beside(line, of_policy)]
    said.append(f"on a kernel before ABI {_NEWEST_ABI} it goes on with less" if BEST in given
                else f"it runs on ABI {_NEWEST_ABI} and later only")
    if fs:
        said.append(f"left out: resolve_unix of ABI {_NEWEST_ABI}, which restricts connections to sockets in files")
    if MISSING not in given:
        said.append("it ends with an error where a path is missing; here the rule is left out")
    return Imported(Policy(Path(NAME), (layer,)), Comments(said))


def _paths(line: CommandLine) -> Iterator[tuple[Access, str]]:
    """What each path gets; a comma is between paths, and blanks around them are dropped."""
    for option in line.options:
        if option.name in LOOKS:
            option.fault("adds files that it finds on the machine: name them with --rox, or import a recording of it")
        if option.name in PATHS or option.name == SOCKETS:
            access = Access(grouped=all_of(PATHS.get(option.name, PATHS["--ro"])))
            yield from ((access, option.path(path.strip())) for path in option.value.split(","))


def _ports(line: CommandLine) -> Iterator[tuple[Access, int]]:
    for option in line.options:
        if option.name in PORTS:
            access = Access(frozenset({PORTS[option.name]}))
            yield from ((access, option.port(port.strip())) for port in option.value.split(","))


def written(policy: Policy, comments: Comments, log: bool) -> Exported:
    """The command line that puts a policy in force."""
    found = flat.flat(policy, NAME, with_missing=True)
    losses = [*found.losses]
    options = [[BEST], [MISSING], *([[LOG]] if log else [])]
    options += _of_paths(policy, found, losses)
    options += _of_ports(policy, found, losses)
    options += _of_scopes(policy, found, losses)
    if [NO_PATHS] in options and [NO_PORTS] in options and [NO_SCOPES] in options:
        raise Problem(f"{policy.path}: {NAME} can't express any of it: it restricts files, all of TCP, or both scopes")
    besides = [f"On a kernel before ABI {_NEWEST_ABI} it goes on with less, as {BEST} says."]
    if any(option[0] in ("--rw", "--rwx") for option in options):
        besides.append("On ABI 1 it restricts nothing, since --rw and --rwx of a directory grant refer.")
    if found.fs:
        besides.append(f"From ABI {_NEWEST_ABI} on it also refuses connections to sockets in files (resolve_unix).")
    return words.written(policy, comments, NAME, VERSION, options, besides, losses, found.notes)


def _of_paths(policy: Policy, found: Flat, losses: list[Loss]) -> list[list[str]]:
    """The options for paths. What the policy does not handle is allowed from the root on."""
    if not found.fs:
        return [[NO_PATHS]]
    for on in found.paths:
        if "," in on.path or on.path != on.path.strip():
            raise Problem(f"{policy.path}: {on.place}: {NAME} can't name {on.path!r}, since it takes several paths "
                          "with commas between them, and drops blanks around them")
    unhandled = FS.groups["all"] - found.fs - {REFER}
    first = next(layer.number for layer in policy.layers if layer.handled_access_fs.rights)
    free = [OnPath(first, None, ROOT, ROOT, True, unhandled)] if unhandled else []
    chosen = dict(_covered(_joined([*free, *found.paths]), losses))
    return [[option, path] for path, option in chosen.items()]


def _joined(paths: Sequence[OnPath]) -> list[OnPath]:
    """What each object gets of all rules on it, in the order of the policy."""
    found: dict[str, OnPath] = {}
    for on in paths:
        there = found.setdefault(on.real, on)
        found[on.real] = replace(there, rights=there.rights | on.rights)
    return list(found.values())


def _covered(paths: Sequence[OnPath], losses: list[Loss]) -> Iterator[tuple[str, str]]:
    """The option of each path that needs one: the one that grants least besides what the policy grants.

    What the root grants is granted everywhere. What another path grants is not on an object that is moved from there.
    """
    root = next((on.rights for on in paths if on.real == ROOT), NONE)
    free = NONE
    for on in sorted(paths, key=lambda on: on.real != ROOT):
        over = NONE.union(*(other.rights for other in paths if on.is_beneath(other)))
        if on.rights <= free:
            continue
        choices = [(option, rights - on.rights - root) for option, rights in _options(on) if on.rights <= free | rights]
        option, more = min(choices, key=lambda it: (len(it[1] - over), len(it[1])))
        free = all_of(PATHS[option]) if on.real == ROOT else free
        if more:
            losses.append(Loss(f"{on.place}, parent {on.path}",
                               f"{NAME} has no option for {listed(FS.ordered(on.rights))} alone",
                               f"{option} also grants {_listed(more - over, more & over)}"))
        yield on.path, option


def _listed(now: Rights, once_moved: Rights) -> str:
    """Rights that are granted besides, and those that the policy grants as long as the object is where it is."""
    later = f"{listed(FS.ordered(once_moved))} once it is moved"
    return ", ".join(filter(None, (listed(FS.ordered(now)), later if once_moved else "")))


def _options(on: OnPath) -> Iterator[tuple[str, Rights]]:
    """What each option grants on an object."""
    for option, groups in PATHS.items():
        yield option, all_of(groups) if on.is_directory else all_of(groups) & FILE_RIGHTS


def _of_scopes(policy: Policy, found: Flat, losses: list[Loss]) -> list[list[str]]:
    """The option for scopes, of which it has both or none."""
    if set(found.scoped) == set(SCOPES):
        return []
    losses += [Loss(f"layer {layer.number}, scoped", f"{NAME} has both scopes or none",
                    f"{listed(layer.scoped)} without a scope") for layer in policy.layers if layer.scoped]
    return [[NO_SCOPES]]


def _of_ports(policy: Policy, found: Flat, losses: list[Loss]) -> list[list[str]]:
    """The options for ports."""
    if found.net != NET.groups["all"]:
        losses += [Loss(f"layer {layer.number}, handled_access_net",
                        f"{NAME} restricts {listed(NET.since)} together or not at all",
                        f"{listed(NET.ordered(layer.handled_access_net.rights))} allowed on every port")
                   for layer in policy.layers if layer.handled_access_net.rights]
        return [[NO_PORTS]]
    return [[option, str(port)] for option, right in PORTS.items()
            for port in dict.fromkeys(on.port for on in found.ports if right in on.rights)]
