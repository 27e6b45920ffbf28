"""Writes a trace with a policy's records in it."""

from __future__ import annotations

import argparse
import sys
from pathlib import Path

from ...audit import surroundings
from ...common import finished, trees, variables
from ...common.options import add_abi, add_program, note
from ...common.problems import NOT_ALL_JUDGED, USAGE, Problem
from ...policy import applying, fitting, parents, policies

NAME = "apply"
HELP = "write a trace in which the recorded program starts under a policy"
EXAMPLE = """landaudit-record apply policy.toml rec --out tried.jsonl
  landaudit --abi 1-5 --best-effort rec/tree.jsonl tried.jsonl"""
POLICIES = """
A policy is a TOML file: each [[layer]] has handled_access_fs, handled_access_net,
and rules, [[layer.path_beneath]] with allowed_access and parent (one or several)
and [[layer.net_port]] with allowed_access and port (one or several). In a layer
or before all layers, include = ["base"] stands for a group of rules. The groups
are base, nameservice, ssl, tmp, and some for languages; include = "./site.toml"
stands for the [[path_beneath]] of that file. ${NAME} stands for a value: see --set.

A right has its name in Landlock, such as read_file. The groups all, read, write
and execute stand for several rights. In a rule, a group stands for those of its
rights that the layer handles and, on a parent that is a file, that apply to
files. The layer must handle each right that one of its rules names. Rights that
the ABI does not know are dropped, as the kernel's documentation advises, with a
note if the policy named them."""


def add_arguments(parser: argparse.ArgumentParser) -> None:
    """Adds the arguments of the subcommand."""
    parser.description = f"{HELP}\n{POLICIES}"
    parser.add_argument("policy", metavar="POLICY.toml", help="the policy: layers, what they handle, and their rules")
    parser.add_argument("trace", metavar="TRACE", help="a recording's folder, or its trace.jsonl")
    parser.add_argument("--out", metavar="FILE", help="where to write the trace (default: standard output)")
    parser.add_argument("--tree", metavar="TREE", help="the tree (default: tree.jsonl beside the trace)")
    variables.add_set(parser)
    add_program(parser)
    add_abi(parser)


def _only_trace(folder: Path) -> Path:
    """The trace of a recording of one part; if there are several parts, the user must name one."""
    parts = finished.opened(str(folder)).parts
    if len(parts) > 1:
        raise Problem(f"{folder} has {len(parts)} parts: name one of its traces, such as {parts[0].trace}", USAGE)
    return parts[0].trace


def _tree_beside(trace: Path) -> Path:
    """The tree of a part, which is beside its trace and has a similar name."""
    name = trace.name.replace("trace", "tree", 1)
    return trace.with_name(name if name.startswith("tree") else "tree.jsonl")


def run(arguments: argparse.Namespace) -> int:
    """Writes the trace; notes on what the ABI drops go to standard error."""
    given = variables.given(arguments)
    policy = policies.read(Path(arguments.policy), given)
    given.check_used()
    named = Path(arguments.trace)
    trace = _only_trace(named) if named.is_dir() else named
    tree = trees.read(
        Path(arguments.tree) if arguments.tree else _tree_beside(trace), beside=surroundings.of(trace.absolute().parent)
    )
    layers, notes = fitting.fit(policy, arguments.abi)
    places = applying.plan(trace, tree, arguments.program)
    there = applying.made_before(tree, [places]) if arguments.program is not None else frozenset[str]()
    inserted = applying.records(policy, layers, tree, places.rs, there)
    unknown, moved = applying.not_known(policy, tree), applying.moved(policy, tree, [places])
    note(notes)
    note(text for parent in parents.each(policy, tree) for text in applying.notes_on_way(parent))
    note(f"NOT ALL IS JUDGED: it is not known where {parent} led on the machine that recorded" for parent in unknown)
    note(f"NOT ALL IS JUDGED: another object may be at {parent} when the program begins" for parent in moved)
    status = NOT_ALL_JUDGED if unknown or moved else 0
    if arguments.out is None:
        applying.write(trace, places, inserted, sys.stdout.buffer)
        return status
    out = Path(arguments.out)
    if out.exists() and out.samefile(trace):
        raise Problem(f"--out {out} is the trace itself: name another file", USAGE)
    with open(out, "wb") as file:
        applying.write(trace, places, inserted, file)
    return status
