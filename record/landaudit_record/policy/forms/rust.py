"""A policy as Rust, by the crate landlock."""

from __future__ import annotations

import re
import textwrap
from collections.abc import Iterable, Iterator, Sequence

from ...common.comments import Comments
from ...common.rights import FS, LATEST_ABI, NET, NEWEST_ABI
from ...common.wording import plain
from ..fitting import FittedLayer, FittedPathRule, in_force
from ..policies import Policy
from . import Exported, head

VERSION = "0.4.7"
NAME = "the crate landlock"
#: The most columns of a line, and of an array on one line, as rustfmt has them.
WIDTH, ARRAY_WIDTH = 100, 60
#: What the code may use of the crate.
_NAMES = ("make_bitflags", "path_beneath_rules", "Access", "AccessFs", "AccessNet", "CompatLevel", "Compatible",
          "NetPort", "RestrictionStatus", "Ruleset", "RulesetAttr", "RulesetCreatedAttr", "RulesetError", "Scope", "ABI")
#: The traits whose methods are used, by the methods' names.
_BY_METHOD = {"Access": r"::from_all\(", "Compatible": r"\.set_compatibility\(",
              "RulesetAttr": r"\.(handle_access|scope)\(", "RulesetCreatedAttr": r"\.(add_rules?|log_new_exec)\("}
_WHOLE = """\
/// Confines the calling thread, and all that it starts afterwards, by the policy above.
///
/// The status of each layer says whether the kernel knows all that it asks for. Rights that the kernel's ABI does not
/// have are left out, and so are rules on objects that do not exist. After an error, the thread may be confined by some
/// of the layers.
pub fn confine_by_policy() -> Result<Vec<RestrictionStatus>, RulesetError> {"""


def written(policy: Policy, comments: Comments, log: bool) -> Exported:
    """The code: a function for each layer, and one that calls these."""
    layers, _ = in_force(policy, LATEST_ABI)
    code = [*_whole(layers), *(line for layer in layers for line in _layer(layer, comments, log))]
    return Exported([*_comments(head(policy, comments, NAME, VERSION), ""), "", *_uses(code), "", *code])


def _uses(code: Iterable[str]) -> Iterator[str]:
    """The names that the code uses; a trait by its methods."""
    text = "\n".join(line for line in code if not line.lstrip().startswith("//"))
    used = [name for name in _NAMES if re.search(_BY_METHOD.get(name, rf"\b{name}\b"), text)]
    yield "use landlock::{"
    yield from textwrap.wrap(f"{', '.join(used)},", WIDTH - 1, initial_indent="    ", subsequent_indent="    ")
    yield "};"


def _whole(layers: Sequence[FittedLayer]) -> Iterator[str]:
    yield from _WHOLE.splitlines()
    yield f"    Ok(vec![{', '.join(f'layer_{layer.number}()?' for layer in layers)}])"
    yield "}"


def _layer(layer: FittedLayer, comments: Comments, log: bool) -> Iterator[str]:
    """The function of a layer."""
    yield ""
    yield from _comments(comments.on_layer(layer.number), "")
    yield f"fn layer_{layer.number}() -> Result<RestrictionStatus, RulesetError> {{"
    yield "    Ruleset::default()"
    yield "        .set_compatibility(CompatLevel::BestEffort)"
    for name, family, rights in (("AccessFs", FS, layer.handled_fs), ("AccessNet", NET, layer.handled_net)):
        if rights == list(family.since):
            yield f"        .handle_access({name}::from_all(ABI::V{NEWEST_ABI}))?"
        elif rights:
            yield from _set(name, rights, "        .handle_access(", ")?")
    if layer.scoped:
        yield from _set("Scope", layer.scoped, "        .scope(", ")?")
    yield "        .create()?"
    if log:
        yield "        .log_new_exec(true)?"
    yield from _rules(layer, comments)
    yield from ("        .restrict_self()", "}")


def _rules(layer: FittedLayer, comments: Comments) -> Iterator[str]:
    """The rules of a layer, as calls."""
    for rule in layer.path_rules:
        of_group = [] if rule.group is None else [f"of the group {rule.group}"]
        yield from _comments([*comments.on_rule(layer.number, rule.place), *of_group], "        ")
        yield from _path_rule(rule)
    for on_ports in layer.port_rules:
        yield from _comments(comments.on_rule(layer.number, on_ports.place), "        ")
        for port in on_ports.ports:
            yield from _set("AccessNet", on_ports.on_port, f"        .add_rule(NetPort::new({port}, ", "))?")


def _path_rule(rule: FittedPathRule) -> Iterator[str]:
    """A rule. On a file, path_beneath_rules() leaves out what only directories have; nothing may be left of a group."""
    alone = "" if rule.on_file else ".into_iter().filter(|path| std::path::Path::new(path).is_dir())"
    yield "        .add_rules(path_beneath_rules("
    yield from _array([_text(parent) for parent in rule.parents], f"{alone},")
    yield from _set("AccessFs", rule.on_directory, "            ", ",")
    yield "        ))?"


def _array(items: Sequence[str], behind: str) -> Iterator[str]:
    """An array, on one line if that is short."""
    array = f"[{', '.join(items)}]"
    if len(array) <= ARRAY_WIDTH:
        yield f"            {array}{behind}"
    else:
        yield "            ["
        yield from (f"                {item}," for item in items)
        yield f"            ]{behind}"


def _set(name: str, words: Iterable[str], before: str, behind: str) -> Iterator[str]:
    """A set between other code, as `make_bitflags!(AccessFs::{ReadFile | ReadDir})`, on one line if that is short."""
    members = " | ".join("".join(part.capitalize() for part in word.split("_")) for word in words)
    line = f"{before}make_bitflags!({name}::{{{members}}}){behind}"
    if len(line) <= WIDTH:
        yield line
    else:
        indent = before[: len(before) - len(before.lstrip())]
        yield f"{before}make_bitflags!({name}::{{"
        yield from textwrap.wrap(members, WIDTH, initial_indent=f"{indent}    ", subsequent_indent=f"{indent}    ")
        yield f"{indent}}}){behind}"


def _comments(texts: Iterable[str], indent: str) -> Iterator[str]:
    yield from (f"{indent}// {plain(text)}".rstrip() for text in texts)


def _text(text: str) -> str:
    """A text as Rust has it: each character that is not plain is an escape."""
    letters = (one if one.isascii() and one.isprintable() and one not in '"\\' else f"\\u{{{ord(one):x}}}"
               for one in text)
    return f'"{"".join(letters)}"'
