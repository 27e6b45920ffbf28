"""The command lines of landaudit-record and landaudit-policy."""

from __future__ import annotations

import argparse
import contextlib
import gc
import importlib
import os
import shlex
import signal
import sys
from collections.abc import Sequence
from dataclasses import dataclass
from types import ModuleType
from typing import NoReturn

from . import POLICIES, RECORDER, VERSION
from .commands import policy, record
from .common import stopping, streams
from .common.problems import WANTING, Problem
from .common.wording import plain


@dataclass(frozen=True)
class CommandLineProgram:
    """A program of this package: its name, the text of its help, and its subcommands, the modules of a package."""

    name: str
    description: str
    example: str
    package: str
    commands: Sequence[str]

    def modules(self, words: Sequence[str]) -> list[ModuleType]:
        """All subcommands, or only the one that begins the words: importing the others takes longer than parsing.

        A module whose name would be a keyword ends in an underscore.
        """
        named = [name for name in self.commands if name.rstrip("_") == words[0]] if words else []
        return [importlib.import_module(f"{self.package}.{name}") for name in named or self.commands]


RECORD = CommandLineProgram(
    RECORDER,
    "Record a program, try a Landlock policy on the recording, and read what breaks.",
    """landaudit-record run rec -- sort /etc/passwd
  landaudit-record audit rec --policy policy.toml --abi 4""",
    record.__name__,
    record.NAMES,
)
POLICY = CommandLineProgram(
    POLICIES,
    "Put a Landlock policy in force, compare policies, and check them, without a recording.",
    "landaudit-policy confine policy.toml -- sort /etc/passwd",
    policy.__name__,
    policy.NAMES,
)


class _Parser(argparse.ArgumentParser):
    """A parser whose errors are on one line: they repeat words of the command line."""

    def error(self, message: str) -> NoReturn:
        """Prints how to call the program and what is wrong, and ends it."""
        super().error(plain(message))


def parser(program: CommandLineProgram = RECORD, words: Sequence[str] = ()) -> argparse.ArgumentParser:
    """The parser of a program's command line, with all subcommands, or only the one that begins the words."""
    top = _Parser(
        prog=program.name,
        description=program.description,
        epilog="example:\n  " + program.example,
        formatter_class=argparse.RawDescriptionHelpFormatter,
    )
    top.add_argument("-V", "--version", action="version", version=f"{program.name} {VERSION}")
    subcommands = top.add_subparsers(dest="command", required=True, metavar="SUBCOMMAND")
    for command in program.modules(words):
        sub = subcommands.add_parser(
            command.NAME,
            help=command.HELP,
            description=command.HELP,
            epilog="example:\n  " + command.EXAMPLE,
            formatter_class=argparse.RawDescriptionHelpFormatter,
        )
        command.add_arguments(sub)
        hint = getattr(command, "BEHIND_DASHES", None)
        more = getattr(command, "MORE_OBJECTS", MORE_OBJECTS)
        sub.set_defaults(run=command.run, fault=sub.error, hint=f" ({hint})" if hint else "", more_objects=more)
    return top


def parse(words: Sequence[str], program: CommandLineProgram = RECORD) -> argparse.Namespace:
    """The arguments of a subcommand; the words after the first `--` are a command of their own, in `behind`."""
    end = words.index("--") if "--" in words else len(words)
    arguments, left = parser(program, words[:end]).parse_known_args(words[:end])
    if left:
        arguments.fault(f"unrecognized arguments: {shlex.join(left)}{arguments.hint}")
    arguments.behind = list(words[end + 1 :])
    return arguments


#: Python looks for cycles each time that there are this many more objects (its default is 700), unless a subcommand has
#: another number. Conversions make millions that stay, and looking through them takes long.
MORE_OBJECTS = 100_000


def main(words: Sequence[str] | None = None, program: CommandLineProgram = RECORD) -> int:
    """Runs one subcommand of a program and gives the status that it ends with."""
    gc.set_threshold(MORE_OBJECTS)
    streams.make_whole()
    try:
        with stopping.in_order(), streams.written():
            arguments = parse(sys.argv[1:] if words is None else words, program)
            gc.set_threshold(arguments.more_objects)
            return int(arguments.run(arguments))
    except Problem as problem:
        return _failed(program, str(problem), problem.status)
    except BrokenPipeError:
        streams.give_up()
        return 128 + signal.SIGPIPE
    except KeyboardInterrupt as interrupt:
        number = stopping.number_of(interrupt)
        return _failed(program, f"ended by {signal.Signals(number).name}", 128 + number)
    except OSError as error:
        streams.give_up()
        where = f"{os.fsdecode(error.filename)}: " if error.filename else ""
        return _failed(program, f"{where}{error.strerror or error}", WANTING)


def _failed(program: CommandLineProgram, why: str, status: int) -> int:
    """Says why a subcommand ends, if anything can still be said, and gives the status."""
    with contextlib.suppress(OSError):
        print(plain(f"{program.name}: {why}"), file=sys.stderr, flush=True)
    return status


def policy_main() -> int:
    """Runs one subcommand of landaudit-policy and gives the status that it ends with."""
    return main(program=POLICY)
