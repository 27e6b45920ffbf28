"""The options of setpriv(1) about Landlock, as util-linux 2.41 has them (Debian 13)."""

from __future__ import annotations

from collections.abc import Iterator
from pathlib import Path

from ...common.comments import Comments
from ...common.documents import listed
from ...common.problems import Problem
from ...common.rights import FS, NET, Rights
from ..policies import Access, Layer, Policy
from . import Exported, Imported, Loss, flat, path_rules, words
from .words import KnownOptions, Option

VERSION = "util-linux 2.41"
NAME = "setpriv"
ACCESS, RULE = "--landlock-access", "--landlock-rule"
#: Its other options, by its help.
KNOWN = KnownOptions(
    valued=(ACCESS, RULE, "--ambient-caps", "--inh-caps", "--bounding-set", "--ruid", "--euid", "--rgid", "--egid",
            "--reuid", "--regid", "--groups", "--securebits", "--pdeathsig", "--ptracer", "--selinux-label",
            "--apparmor-profile", "--seccomp-filter"),
    flags=("--nnp", "--no-new-privs", "--clear-groups", "--keep-groups", "--init-groups", "--reset-env"),
)
#: What it calls the rights, by their names here: all that Landlock has at ABI 3.
RIGHTS = {right.replace("_", "-"): right for right in FS.ordered(FS.known(3))}


def read(text: str) -> Imported:
    """The policy of a command line."""
    line = words.read(text, NAME, KNOWN)
    handled: Rights = frozenset()
    for option in line.options:
        if option.name == ACCESS:
            family, sign, named = option.value.partition(":")
            if family != "fs":
                option.fault(f"{option.value!r} begins with no kind of access that is known: use fs or fs:RIGHT,..")
            handled |= _rights(option, named) if sign else frozenset(RIGHTS.values())
    if not handled:
        raise Problem(f"--{NAME}: there is no {ACCESS}, so {NAME} puts no layer in force")
    rules = [_rule(option, handled) for option in line.options if option.name == RULE]
    layer = Layer(1, Access(handled), Access(), path_rules(rules), ())
    said = [f"from a command line of {NAME} ({VERSION})", *words.beside(line, (ACCESS, RULE))]
    return Imported(Policy(Path(NAME), (layer,)), Comments(said))


def _rights(option: Option, named: str) -> Rights:
    """Rights with commas between them; none stands for all."""
    found = named.split(",") if named else list(RIGHTS)
    for name in found:
        if name not in RIGHTS:
            option.fault(f"unknown right {name!r}: use {listed(RIGHTS)}")
    return frozenset(RIGHTS[name] for name in found)


def _rule(option: Option, handled: Rights) -> tuple[Access, str]:
    """A rule `path-beneath:RIGHTS:PATH`; the kernel takes none with a right that is not handled."""
    kind, _, rest = option.value.partition(":")
    named, sign, path = rest.partition(":")
    if kind != "path-beneath" or not sign:
        option.fault(f"{option.value!r} is not path-beneath:RIGHT,..:PATH")
    rights = _rights(option, named)
    if not rights <= handled:
        option.fault(f"the kernel refuses it, since {ACCESS} does not name {listed(FS.ordered(rights - handled))}")
    return Access(rights), option.path(path)


def written(policy: Policy, comments: Comments, _: bool) -> Exported:
    """The command line that puts a policy in force on this machine."""
    found = flat.flat(policy, NAME, with_missing=False)
    handled = found.fs & frozenset(RIGHTS.values())
    losses = [*found.losses, *_losses(policy)]
    if not handled:
        raise Problem(f"{policy.path}: {NAME} can't express any of it: it restricts files alone, by {listed(RIGHTS)}")
    options = [["--no-new-privs"], [ACCESS, f"fs:{_named(handled)}"]]
    options += [[RULE, f"path-beneath:{_named(on.rights & handled)}:{on.path}"]
                for on in found.paths if on.rights & handled]
    since = max(FS.since[right] for right in handled)
    besides = ["It is made for the paths of this machine, and ends with an error where one of them is missing.",
               f"It ends with an error on a kernel before ABI {since}."]
    return words.written(policy, comments, NAME, f"of {VERSION}", options, besides, losses, found.notes)


def _named(rights: Rights) -> str:
    """Rights as it names them."""
    return ",".join(name for name, right in RIGHTS.items() if right in rights)


def _losses(policy: Policy) -> Iterator[Loss]:
    """What layers handle and it doesn't know."""
    for layer in policy.layers:
        place = f"layer {layer.number}"
        unknown = FS.ordered(layer.handled_access_fs.rights - frozenset(RIGHTS.values()))
        if unknown:
            yield Loss(place, f"{NAME} does not know {listed(unknown)}", "allowed everywhere")
        if ports := NET.ordered(layer.handled_access_net.rights):
            yield Loss(place, f"{NAME} has no ports", f"{listed(ports)} allowed on every port")
        if layer.scoped:
            yield Loss(place, f"{NAME} has no scopes", f"{listed(layer.scoped)} without a scope")
