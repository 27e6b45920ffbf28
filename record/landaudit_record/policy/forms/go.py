"""A policy as Go, by go-landlock."""

from __future__ import annotations

import textwrap
from collections.abc import Iterable, Iterator, Sequence

from ...common.comments import Comments
from ...common.rights import FS, LATEST_ABI, NET, NEWEST_ABI, SCOPES
from ...common.wording import plain
from ..fitting import FittedLayer, FittedPathRule, in_force
from ..policies import Policy
from . import Exported, head

VERSION = "0.9.0"
NAME = "go-landlock"
WIDTH = 100
#: The scopes by the library's names.
_SCOPES = dict(zip(SCOPES, ("ScopeAbstractUnixSocket", "ScopeSignal")))
_PORTS = {"bind_tcp": "BindTCP", "connect_tcp": "ConnectTCP"}
_LIBRARY = "github.com/landlock-lsm/go-landlock/landlock"
_WHOLE = """\
// ConfineByPolicy confines this process, and all that it starts afterwards, by the policy above. Rights that the
// kernel's ABI does not have are left out, and so are rules on objects that do not exist. On a kernel of ABI 1 a layer
// is left out if one of its rules grants refer. After an error, the process may be confined by some of the layers.
func ConfineByPolicy() error {
	var rules []landlock.Rule"""
_BENEATH = """\

// beneath grants rights beneath the directories among some paths, and rights on the files.
func beneath(onDirectory, onFile landlock.AccessFSSet, paths ...string) (rules []landlock.Rule) {
	for _, path := range paths {
		access := onDirectory
		about, err := os.Stat(path)
		if err != nil {
			continue
		}
		if !about.IsDir() {
			access = onFile
		}
		if access != 0 {
			rules = append(rules, landlock.PathAccess(access, path).IgnoreIfMissing())
		}
	}
	return rules
}"""


def written(policy: Policy, comments: Comments, log: bool) -> Exported:
    """The code: a function that restricts the process by one layer after another."""
    code = [line for layer in in_force(policy, LATEST_ABI)[0] for line in _layer(layer, comments, log)]
    helper = _BENEATH.splitlines() if any("beneath(" in line for line in code) else []
    constants = any("ll." in line for line in code)
    return Exported([*_comments(head(policy, comments, NAME, VERSION), ""), "", "package main", "",
                     *_imports(bool(helper), constants), "", *_WHOLE.splitlines(), *code, "\treturn nil", "}", *helper])


def _imports(os: bool, constants: bool) -> Iterator[str]:
    """What the code imports."""
    yield "import ("
    yield from ('\t"os"', "") if os else ()
    yield f'\t"{_LIBRARY}"'
    yield from [f'\tll "{_LIBRARY}/syscall"'] if constants else []
    yield ")"


def _layer(layer: FittedLayer, comments: Comments, log: bool) -> Iterator[str]:
    """The statements for a layer."""
    yield ""
    yield from _comments(comments.on_layer(layer.number), "\t")
    yield "\trules = nil"
    for rule in layer.path_rules:
        of_group = [] if rule.group is None else [f"of the group {rule.group}"]
        yield from _comments([*comments.on_rule(layer.number, rule.place), *of_group], "\t")
        yield from _path_rule(rule)
    for on_ports in layer.port_rules:
        yield from _comments(comments.on_rule(layer.number, on_ports.place), "\t")
        calls = [f"landlock.{_PORTS[right]}({port})" for port in on_ports.ports for right in on_ports.on_port]
        yield from _append(calls)
    config = f"{_config(layer)}.BestEffort(){'.EnableLoggingForSubprocesses()' if log else ''}"
    yield f"\tif err := {config}.Restrict(rules...); err != nil {{"
    yield from ("\t\treturn err", "\t}")


def _config(layer: FittedLayer) -> str:
    """What a layer handles."""
    fs, net = layer.handled_fs, layer.handled_net
    if (fs, net) == (list(FS.since), list(NET.since)) and not layer.scoped:
        return f"landlock.V{NEWEST_ABI}"
    sets = [f"landlock.AccessFSSet({_fs(fs)})"] if fs else []
    sets += [f"landlock.AccessNetSet({_any(f'AccessNet{_PORTS[right]}' for right in net)})"] if net else []
    sets += [f"landlock.ScopedSet({_any(map(_SCOPES.__getitem__, layer.scoped))})"] if layer.scoped else []
    if len(sets) == 1:
        sets = [sets[0].replace("|", " | ").replace("| \n", "|\n")]
    return "landlock.MustConfig(" + "".join(f"\n\t\t{one}," for one in sets) + "\n\t)"


def _path_rule(rule: FittedPathRule) -> Iterator[str]:
    """A rule on each of some paths."""
    paths = [_text(parent) for parent in rule.parents]
    yield from _append([_fs(rule.on_directory), _fs(rule.on_file), *paths], "beneath")


def _append(arguments: Sequence[str], function: str = "") -> Iterator[str]:
    """A statement that adds rules, or those that a function gives."""
    yield f"\trules = append(rules,{f' {function}(' if function else ''}"
    yield from (f"\t\t{argument}," for argument in arguments)
    yield "\t)...)" if function else "\t)"


def _fs(rights: Iterable[str]) -> str:
    """A set of rights for files, continued over lines."""
    return _any("AccessFS" + "".join(part.capitalize() for part in right.split("_")) for right in rights)


def _any(names: Iterable[str]) -> str:
    """A set by its members."""
    text = "| ".join(f"ll.{name}" for name in names) or "0"
    return "\n\t\t\t".join(line.replace(" ", "") for line in textwrap.wrap(text, WIDTH))


def _comments(texts: Iterable[str], indent: str) -> Iterator[str]:
    yield from (f"{indent}// {plain(text)}".rstrip() for text in texts)


def _text(text: str) -> str:
    """A text as Go has it: each byte that is no plain character is an escape."""
    letters = (chr(byte) if 32 <= byte < 127 and chr(byte) not in '"\\' else f"\\x{byte:02x}"
               for byte in text.encode())
    return f'"{"".join(letters)}"'
