"""Landlock's own calls, and no_new_privs (landlock(7), prctl(2))."""

from __future__ import annotations

from ...common.finished import BESIDE_FILES, FOREIGN_RULESET, NOT_DECODED, OF_SCOPES
from ...common.rights import FS, NET, SCOPES, Family
from .. import values
from ..unwritten import CannotSay, NotAsked
from ..processes import UNSEEN, Handle, Thread
from ..scene import Scene
from ..strace_log import Call
from . import arguments, users

PR_SET_NO_NEW_PRIVS = 38
RULE_PATH_BENEATH = 1
RULE_NET_PORT = 2

#: The sizes of landlock_ruleset_attr: with rights for files (ABI 1), for ports (ABI 4), with scopes (ABI 6).
SIZES = (8, 16, 24)

WITH_FLAGS = "a call of Landlock's with flags"
#: The flags of landlock_restrict_self(2) that say what the kernel logs (ABI 7). Without a ruleset they make no layer.
LOGGING = 0b111


def named(bits: int, family: Family) -> list[str] | None:
    """The names of a set of rights by their bits; a bit without a name here becomes a name that no ABI knows."""
    names = list(family.since)
    found = [names[bit] if bit < len(names) else f"bit_{bit}" for bit in range(64) if bits >> bit & 1]
    return found or None


def _handled(scene: Scene, thread: Thread, call: Call) -> tuple[list[str] | None, list[str] | None, list[str]]:
    """Handled rights for files and for ports, and the scopes.

    strace before 6.7 prints only an ellipsis for everything after the rights for files.
    """
    argument = call.arguments[0]
    files, ports, scoped = (_member(argument, name) for name in ("handled_access_fs", "handled_access_net", "scoped"))
    of_policy, scopes = scene.ports.handled(), scene.ports.scopes()
    if "..." not in argument:
        return named(files, FS), named(ports, NET), scopes_of(scoped)
    if of_policy is None:
        scene.leave_out(thread, call, BESIDE_FILES, asks=True)
    return named(files, FS), of_policy or None, scopes if arguments.number_at(call, 1) == SIZES[-1] else []


def scopes_of(bits: int) -> list[str]:
    """The names of scopes by their bits, as `named` has those of rights."""
    return [SCOPES[bit] if bit < len(SCOPES) else f"bit_{bit}" for bit in range(64) if bits >> bit & 1]


def can_be_judged(scoped: list[str], *, alone: bool) -> bool:
    """Whether an audit knows what the scopes of a ruleset refuse: a trace has no ruleset that has them alone."""
    return not scoped or (not alone and set(scoped) <= set(SCOPES))


def _member(argument: str, name: str) -> int:
    found = values.member(argument, name)
    return values.number(found) if found is not None else 0


def _create_ruleset(scene: Scene, thread: Thread, call: Call) -> None:
    if arguments.number_at(call, 2) or call.error in ("EFAULT", "EOPNOTSUPP", "ENOSYS"):
        return
    if arguments.number_at(call, 1) not in SIZES or not call.arguments[0].startswith("{"):
        raise _unsaid(call, "a ruleset whose structure has no size that is known")
    files, ports, scoped = _handled(scene, thread, call)
    can_be_said = bool(files or ports) or not call.ok
    number = thread.process.made_up()
    if call.ok and call.value is not None:
        scene.close(thread, call, call.value)
        number = call.value if not thread.process.holds(call.value) else number
        scene.put(thread, call, call.value, Handle(close_on_exec=True, ruleset=number if can_be_said else UNSEEN))
    if not can_be_judged(scoped, alone=not can_be_said):
        scene.leave_out(thread, call, OF_SCOPES, asks=True)
    if can_be_said:
        scene.say(thread, call, "create", rs=number, fs=files, net=ports, scoped=scoped or None)


def _unsaid(call: Call, reason: str) -> CannotSay:
    """The exception for a call that can't be written: if it failed, it changes nothing that Landlock is asked about."""
    return CannotSay(reason) if call.ok else NotAsked(reason)


def _ruleset(thread: Thread, call: Call, flags: int, known: int = 0) -> int:
    """The number of the ruleset of a call without flags; a number that names no ruleset gets one of its own.

    It is UNSEEN if the trace does not have the ruleset. Flags that are `known` change no answer if the kernel takes
    them.
    """
    number, given = values.descriptor(call.arguments[0]).number, arguments.number_at(call, flags)
    if given and number < 0:
        raise NotAsked(WITH_FLAGS)
    if given & ~known or (given and not call.ok):
        raise _unsaid(call, WITH_FLAGS)
    handle = thread.process.table.get(number)
    if handle is not None and handle.ruleset is not None:
        return handle.ruleset
    return number if number >= 0 and not thread.process.holds(number) else thread.process.made_up()


def _is_foreign(scene: Scene, thread: Thread, call: Call) -> bool:
    """Whether the ruleset of a call was not made by the process, nor by one that it was forked from."""
    handle = scene.handle(thread, call, values.descriptor(call.arguments[0]))
    return handle is not None and handle.foreign


def _add_rule(scene: Scene, thread: Thread, call: Call) -> None:
    if _is_foreign(scene, thread, call):
        raise NotAsked("a rule of a ruleset that came from elsewhere")
    number = _ruleset(thread, call, 3)
    kind = arguments.number_at(call, 1)
    if number == UNSEEN:
        raise NotAsked("a rule of a ruleset without a record")
    if call.error == "EFAULT":
        return
    if kind == RULE_PATH_BENEATH:
        _add_path(scene, thread, call, number)
    elif kind == RULE_NET_PORT:
        _add_port(scene, thread, call, number)
    else:
        raise _unsaid(call, "a rule of a kind that is not known")


def _add_path(scene: Scene, thread: Thread, call: Call, number: int) -> None:
    parent = values.member(call.arguments[2], "parent_fd")
    allowed = values.member(call.arguments[2], "allowed_access")
    of = values.descriptor(parent) if parent is not None else None
    if of is None or of.path is None or of.in_memory or allowed is None:
        raise NotAsked("a rule under what has no path")
    spot = scene.opened(thread, of)
    node = spot.node or scene.names.ensure(of.path, "dir")
    spot = scene.there(of.path, node)
    path = scene.tree.rule(spot.real, node)
    granted = named(values.number(allowed), FS)
    scene.say(thread, call, "add_path", rs=number, path=path, fs=granted, **arguments.shown(spot))
    scene.ruled.append((path, node))


def _add_port(scene: Scene, thread: Thread, call: Call, number: int) -> None:
    allowed, port = (values.member(call.arguments[2], name) for name in ("allowed_access", "port"))
    if allowed is not None and port is not None:
        granted, on = named(values.number(allowed), NET), values.number(port)
    else:
        rule = scene.ports.rule()
        if rule is None:
            raise NotAsked("a rule on a port" + NOT_DECODED)
        granted, on = rule
    scene.say(thread, call, "add_port", rs=number, port=on, net=granted)


def _restrict_self(scene: Scene, thread: Thread, call: Call) -> None:
    """A new layer, with any flags for logging; without a ruleset these flags make none."""
    if call.ok and values.descriptor(call.arguments[0]).number < 0:
        raise NotAsked(WITH_FLAGS)
    thread.process.confined |= call.ok
    if _is_foreign(scene, thread, call):
        _restricted_unseen(thread, call)
    number = _ruleset(thread, call, 1, LOGGING)
    restricted = thread.process.restricted
    if call.ok and thread.layers < len(restricted):
        if restricted[thread.layers] != number:
            raise CannotSay("a thread that restricts itself otherwise than its siblings")
        thread.layers += 1
        return
    if number != UNSEEN:
        scene.say(thread, call, "restrict", rs=number)
    if call.ok:
        restricted.append(number)
        thread.layers += 1


def _restricted_unseen(thread: Thread, call: Call) -> None:
    """A thread has a layer of which nothing is known; its number stands for no ruleset of the trace."""
    if call.ok:
        thread.process.unseen_layer = True
        thread.process.restricted.append(UNSEEN)
        thread.layers += 1
    raise _unsaid(call, FOREIGN_RULESET)


def _prctl(scene: Scene, thread: Thread, call: Call) -> None:
    users.controlled(thread, call)
    if call.ok and arguments.number_at(call, 0) == PR_SET_NO_NEW_PRIVS and arguments.number_at(call, 1) == 1:
        scene.note(thread, call, "nnp")


HANDLERS = {
    "landlock_create_ruleset": _create_ruleset,
    "landlock_add_rule": _add_rule,
    "landlock_restrict_self": _restrict_self,
    "prctl": _prctl,
}
