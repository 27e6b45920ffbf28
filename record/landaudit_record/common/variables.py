"""Variables in the texts of a policy, of cases and of accepted refusals: `${NAME}`.

    [variables]
    APP = "/srv/app"
    [[layer.path_beneath]]
    allowed_access = ["read"]
    parent = "${APP}/data"

A value is given by `--set NAME=VALUE`, else by LANDAUDIT_NAME in the environment, else by the file under
`[variables]`. `$${` stands for the characters `${`.
"""

from __future__ import annotations

import argparse
import difflib
import os
import re
from collections.abc import Mapping
from dataclasses import dataclass, field
from pathlib import Path
from typing import Any, NoReturn

from . import documents, outline
from .documents import DocumentPlace
from .numbered import Numbered
from .problems import USAGE, Problem
from .wording import is_utf8, quoted

KEY = "variables"
INCLUDE = "include"
OWN_GROUP = ("./", "../", "/")
"""How the name of a group of one's own begins."""

PREFIX = "LANDAUDIT_"
#: The keys whose values `Filled.written` has.
_WRITTEN = ("parent", "port")
_NAME = re.compile(r"[A-Za-z_][A-Za-z0-9_]*")
#: A dollar before a brace, and with it what stands for these two characters, or a variable.
_USE = re.compile(r"\$\$\{|\$\{(?P<name>[^}]*)(?P<end>\}?)")


@dataclass(frozen=True)
class Given:
    """The values that are given for a command: by its options, and by the environment.

    `used` collects the names that files have, so that a name that no file has is told.
    """

    by_option: Mapping[str, str] = field(default_factory=dict)
    environment: Mapping[str, str] = field(default_factory=dict)
    used: set[str] = field(default_factory=set)

    def value(self, name: str) -> str | None:
        """The value of a variable, None if none is given."""
        self.used.add(name)
        return self.by_option.get(name, self.environment.get(PREFIX + name))

    def check_used(self) -> None:
        """Checks, once all files are read, that each variable that an option gives is in one of them."""
        for name in self.by_option:
            if name not in self.used:
                near = difflib.get_close_matches(name, self.used, n=1)
                meant = f", did you mean {near[0]}?" if near else ""
                raise Problem(f"--set {name}: no file has ${{{name}}}{meant}", USAGE)


NOTHING_GIVEN = Given()


def add_set(parser: argparse.ArgumentParser) -> None:
    """Adds the option that gives values."""
    parser.add_argument(
        "--set",
        metavar="NAME=VALUE",
        action="append",
        type=_pair,
        default=[],
        help="the value of ${NAME} in the policy and in the files beside it; may be repeated (default: the value of "
        "LANDAUDIT_NAME in the environment, else that in the file's own [variables])",
    )


def _pair(text: str) -> tuple[str, str]:
    """The name and the value of `NAME=VALUE`."""
    name, sign, value = text.partition("=")
    if not sign or not value or not _NAME.fullmatch(name):
        raise argparse.ArgumentTypeError(f"{text!r} gives no value to a variable: write NAME=VALUE")
    return name, value


def given(arguments: argparse.Namespace) -> Given:
    """The values that are given for a command."""
    values: dict[str, str] = {}
    for name, value in arguments.set:
        if values.setdefault(name, value) != value:
            raise Problem(f"--set {name} is given twice", USAGE)
    return Given(values, os.environ)


@dataclass(frozen=True)
class Filled:
    """A document with values in place of its variables, and without `[variables]`.

    `defaults` are the values of `[variables]`. `written` has parents and ports that have variables as the file writes
    them, by their values, unless the file also writes a value in another way.
    """

    table: Mapping[str, Any]
    defaults: Mapping[str, str]
    written: Mapping[str | int, str]


def read(path: Path, given: Given, over: Mapping[str, str] | None = None) -> Filled:
    """The document in a file; `over` are the default values of the file that includes it, which go before its own."""
    table, place = dict(documents.read(path)), DocumentPlace(path)
    defaults = _defaults(table.pop(KEY, {}), place / KEY)
    filling = _Filling(given, {**defaults, **(over or {})})
    filled = filling.table(table, place)
    written = {value: text for value, texts in filling.texts.items() for text in texts
               if len(texts) == 1 and text != value and not isinstance(text, int)}
    return Filled(filled, defaults, written)


def _defaults(value: Any, place: DocumentPlace) -> dict[str, str]:
    """The values that a file gives itself."""
    if not isinstance(value, dict):
        place.fault('must be a table: write [variables], and under it APP = "/srv/app"')
    for name, default in value.items():
        if not _NAME.fullmatch(name):
            place.at(name).fault(f"{name!r} is not a name: use letters, digits and _")
        if type(default) not in (str, int) or default == "":
            place.at(name).fault(f"{default!r} is not a value: write a text that is not empty, or a number")
        if _USE.search(str(default)):
            place.at(name).fault("a value has no variables")
    return {name: str(default) for name, default in value.items()}


@dataclass(frozen=True)
class _Filling:
    """Puts values in place of variables. `texts` has for each parent and port how the file writes it."""

    given: Given
    defaults: Mapping[str, str]
    texts: dict[str | int, set[str | int]] = field(default_factory=dict)

    def table(self, table: Mapping[str, Any], place: DocumentPlace) -> dict[str, Any]:
        """A table with values. A key that is not a word stays as it is: the reader refuses it."""
        return {key: self._value(value, place, key) if _NAME.fullmatch(key) else value for key, value in table.items()}

    def _value(self, value: Any, place: DocumentPlace, key: str) -> Any:
        if isinstance(value, dict):
            return self.table(value, place / key)
        if isinstance(value, list):
            return [self.table(item, place / Numbered(key, number)) if isinstance(item, dict)
                    else self._text(item, place, key, number - 1) for number, item in enumerate(value, start=1)]
        return self._text(value, place, key)

    def _text(self, value: Any, place: DocumentPlace, key: str, within: int | None = None) -> Any:
        """A text under a key, or an item of its list, with values; a port that is a variable is a number."""
        filled = value
        if isinstance(value, str):
            filled = _USE.sub(lambda use: self._use(use, DocumentPlace(place.path, (*place.steps, key), within)), value)
        if key == "port" and filled != value and filled.isdecimal():
            filled = int(filled)
        if key in _WRITTEN and type(filled) in (str, int):
            self.texts.setdefault(filled, set()).add(value)
        return filled

    def _use(self, use: re.Match[str], place: DocumentPlace) -> str:
        name = use["name"]
        if name is None:
            return "${"
        if not use["end"] or not _NAME.fullmatch(name):
            place.fault(f"{use[0]!r} is no variable: write ${{NAME}}, or $${{ for the characters ${{")
        value = self.given.value(name)
        if value is None:
            value = self.defaults.get(name)
        if value is None:
            self._unknown(name, place)
        if not value:
            place.fault(f"the value of ${{{name}}} is empty")
        if not is_utf8(value):
            place.fault(f"the value of ${{{name}}} is not UTF-8")
        return value

    def _unknown(self, name: str, place: DocumentPlace) -> NoReturn:
        known = [*self.defaults, *self.given.by_option,
                 *(one.removeprefix(PREFIX) for one in self.given.environment if one.startswith(PREFIX))]
        near = difflib.get_close_matches(name, known, n=1)
        meant = f", did you mean ${{{near[0]}}}?" if near else ":"
        place.fault(f"unknown variable ${{{name}}}{meant} give it a value by --set {name}=VALUE, by {PREFIX}{name} in "
                    "the environment, or under [variables]")


def keep(path: Path, given: Given, to: Path, over: Mapping[str, str] | None = None) -> None:
    """Writes a file that reads to another place, with values in place of variables, and beside it the groups of one's
    own that it includes. `over` is as in `read`.
    """
    text, filled = documents.text_of(path), read(path, given, over)
    groups: dict[str, Path] = {}
    for where, offset in sorted(outline.of(text).values.items(), key=lambda item: -item[1]):
        value, end = _at(filled.table, where), outline.end_of_text(text, offset)
        if INCLUDE in where and type(value) is str and value.startswith(OWN_GROUP):
            value = "./" + groups.setdefault(value, to.with_name(f"{to.stem}-group-{len(groups) + 1}.toml")).name
        if end is not None and type(value) in (str, int):
            text = text[:offset] + (str(value) if type(value) is int else quoted(escaped(value))) + text[end:]
    to.write_text(text, encoding="utf-8")
    for name, file in groups.items():
        keep(path.parent / name, given, file, filled.defaults)


def _at(table: Any, where: outline.Path) -> Any:
    """What is at a position of a document, None for `[variables]`."""
    for step in where:
        if step == KEY:
            return None
        table = table[step]
    return table


def names(text: str) -> list[str]:
    """The variables of a text."""
    return [use["name"] for use in _USE.finditer(text) if use["name"]]


def escaped(text: str) -> str:
    """A text without variables as a file has it."""
    return text.replace("${", "$${")
