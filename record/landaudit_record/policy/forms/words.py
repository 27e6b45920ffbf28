"""Command lines of other programs, as their users write them in a shell."""

from __future__ import annotations

import re
import shlex
from collections.abc import Collection, Iterable, Iterator, Sequence
from dataclasses import dataclass
from typing import NoReturn

from ...common.comments import Comments
from ...common.documents import unknown
from ...common.problems import Problem
from ...common.wording import plain
from ..policies import HIGHEST_PORT, Policy
from . import Exported, Loss, head, path_fault

#: Comments before the first word, and a line that goes on in the next one outside of quotes.
_COMMENTS = re.compile(r"(?:[ \t]*(?:#.*)?\n)+")
_GOES_ON = re.compile(r"""("(?:[^"\\]|\\.)*"|'[^']*')|\\\n""", re.DOTALL)


@dataclass(frozen=True)
class Option:
    """An option with its value, and the number of its word in the command line of a program."""

    program: str
    number: int
    name: str
    value: str = ""

    def fault(self, text: str) -> NoReturn:
        """Raises the Problem that there is an error here."""
        raise Problem(f"--{self.program}: word {self.number}, {self.name}: {text}")

    def path(self, text: str) -> str:
        """A path that a rule can be on."""
        if (wrong := path_fault(text)) is not None:
            self.fault(wrong)
        return text

    def port(self, text: str) -> int:
        """A TCP port."""
        if not (text.isascii() and text.isdecimal()) or int(text) > HIGHEST_PORT:
            self.fault(f"{text!r} is not a port: a number from 0 to {HIGHEST_PORT}")
        return int(text)


@dataclass(frozen=True)
class KnownOptions:
    """The options of a program: those that have a value, and those that have none."""

    valued: Collection[str]
    flags: Collection[str]


@dataclass(frozen=True)
class CommandLine:
    """The options of a command line, and the command behind them."""

    options: tuple[Option, ...]
    command: tuple[str, ...]


def read(text: str, program: str, known: KnownOptions) -> CommandLine:
    """The command line of a program, which may begin with comments and the program's name."""
    if begins := _COMMENTS.match(text):
        text = text[begins.end():]
    try:
        words = shlex.split(_GOES_ON.sub(lambda found: found[1] or "", text))
    except ValueError as error:
        raise Problem(f"--{program}: not the words of a shell: {error}") from error
    number = 1 if words and words[0].rpartition("/")[2] == program else 0
    options: list[Option] = []
    while number < len(words) and words[number].startswith("-") and words[number] != "--":
        option = _option(words, number, program, known)
        number += 2 if option.name in known.valued and "=" not in words[number] else 1
        options.append(option)
    behind = words[number + (words[number : number + 1] == ["--"]) :]
    return CommandLine(tuple(options), tuple(behind))


def _option(words: list[str], number: int, program: str, known: KnownOptions) -> Option:
    name, sign, value = words[number].partition("=")
    option = Option(program, number + 1, name, value)
    if name in known.flags:
        if sign:
            option.fault("has no value")
        return option
    if name not in known.valued:
        option.fault(f"unknown option {unknown(name, [*known.valued, *known.flags])}")
    if sign:
        return option
    if number + 1 == len(words):
        option.fault("its value is missing")
    return Option(program, number + 1, name, words[number + 1])


def beside(line: CommandLine, of_policy: Collection[str]) -> Iterator[str]:
    """Comments on what of a command line is no part of the policy."""
    others = dict.fromkeys(option.name for option in line.options if option.name not in of_policy)
    if others:
        yield f"options that are no part of the policy: {', '.join(others)}"
    if line.command:
        yield f"the command: {shlex.join(line.command)}"


def written(
    policy: Policy, comments: Comments, program: str, version: str, options: Sequence[Sequence[str]],
    besides: Iterable[str] = (), losses: Sequence[Loss] = (), notes: Sequence[str] = (),
) -> Exported:
    """A script that runs a command under a policy: its comments, and a command line with an option on each line."""
    said = [*head(policy, comments, program, version), *besides, *_on_parts(policy, comments)]
    said += [f"wider than the policy: {loss}" for loss in losses]
    said += notes
    lines = [*(f"# {plain(text)}" for text in said), f"{program} \\"]
    lines += [f"    {shlex.join(words)} \\" for words in options]
    return Exported([*lines, '    -- "$@"'], losses, notes)


def _on_parts(policy: Policy, comments: Comments) -> Iterator[str]:
    """The comments on layers and rules, with what they are on."""
    for layer in policy.layers:
        yield from (f"layer {layer.number}: {text}" for text in comments.on_layer(layer.number))
        for rule in layer.path_beneath:
            yield from (f"{', '.join(rule.parents)}: {text}" for text in comments.on_rule(layer.number, rule.place))
        for on_ports in layer.net_port:
            ports = ", ".join(map(str, on_ports.ports))
            yield from (f"port {ports}: {text}" for text in comments.on_rule(layer.number, on_ports.place))
