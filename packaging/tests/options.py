"""The options of all programs, as the programs themselves have them."""

from __future__ import annotations

import argparse
import re

from landaudit_record import cli

from .places import TOP

COMMAND = TOP / "crates" / "ll_command" / "src" / "command.rt"
#: A function that makes an argument of the command from a name, and its text.
MAKER = re.compile(r"^fn (\w+)<'a>\([^)]*\bname: &'a str\b(.*?)^}", re.MULTILINE | re.DOTALL)
#: The programs that have subcommands.
SCRIPTS = (cli.RECORD, cli.POLICY)
#: clap adds these by itself, the latter where the command has a version.
OWN = {"-h", "--help"}
OF_VERSION = {"-V", "--version"}


def of_landaudit() -> set[str]:
    """The options of landaudit, read from the source of its command line."""
    source = COMMAND.read_text(encoding="utf-8")
    makers = "|".join(_makers_of_options(source))
    named = re.findall(rf'\b(?:{makers})\(\s*\w+,\s*"([\w-]+)"', source)
    named += re.findall(r'\.long\("([\w-]+)"\)', source)
    short = re.findall(r"\.short\('(\w)'\)", source)
    own = OWN | OF_VERSION if re.search(r"\.version\(", source) else OWN
    return own | {f"--{name}" for name in named} | {f"-{name}" for name in short}


def of_rules() -> set[str]:
    """The options of landaudit-rules, read from the source of its command line."""
    source = (TOP / "crates" / "landaudit_rules" / "src" / "asking.rt").read_text(encoding="utf-8")
    return set(re.findall(r'^        "(--?[\w-]+)" => ', source, re.MULTILINE))


def _makers_of_options(source: str) -> set[str]:
    """The functions that make an option of a name, by themselves or by another that does."""
    texts = dict(MAKER.findall(source))
    makers = {name for name, text in texts.items() if ".long(name)" in text}
    called = re.compile(rf"\b(?:{'|'.join(makers)})\(\w+, name\b")
    return makers | {name for name, text in texts.items() if called.search(text)}


def subcommands(script: cli.CommandLineProgram) -> dict[str, set[str]]:
    """The subcommands of a script, and the options of each."""
    top = cli.parser(script)
    action = next(action for action in top._actions if isinstance(action, argparse._SubParsersAction))
    return {name: _of(parser) for name, parser in action.choices.items()}


def before_a_subcommand(script: cli.CommandLineProgram) -> set[str]:
    """The options of a script before a subcommand."""
    return _of(cli.parser(script))


def _of(parser: argparse.ArgumentParser) -> set[str]:
    return {option for action in parser._actions for option in action.option_strings}
