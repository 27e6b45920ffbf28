"""Users: calls by which a process asks for files as another user, or with other privileges (credentials(7)).

File modes refuse calls of a user without privileges, whatever a policy says. A change of user takes away the privileges
of root, and an exec those that another user was given since (capabilities(7)). Each thread has a user of its own, which
the C library changes by a call of every thread, but for setfsuid(2) and the like.
"""

from __future__ import annotations

from dataclasses import replace

from .. import values
from ..processes import Thread
from ..scene import Handler, Scene
from ..strace_log import Call
from . import arguments

PR_SET_SECUREBITS, PR_CAP_AMBIENT, PR_CAP_AMBIENT_RAISE = 28, 47, 2
#: The capabilities that override file modes.
OVERRIDING = ("CAP_DAC_OVERRIDE", "CAP_DAC_READ_SEARCH")
UNCHANGED = -1


def _user(index: int) -> Handler:
    """The handler of a call that sets the user by an argument."""

    def changed(scene: Scene, thread: Thread, call: Call) -> None:
        uid = arguments.number_at(call, index)
        if call.ok and uid != UNCHANGED:
            thread.user = thread.user.become(uid)

    return changed


def _group(index: int) -> Handler:
    """The handler of a call that sets the group by an argument."""

    def changed(scene: Scene, thread: Thread, call: Call) -> None:
        gid = arguments.number_at(call, index)
        if call.ok and gid != UNCHANGED:
            thread.user = replace(thread.user, gid=gid)

    return changed


def _setgroups(scene: Scene, thread: Thread, call: Call) -> None:
    listed = call.arguments[1]
    if not call.ok:
        return
    if not listed.startswith("[") and arguments.number_at(call, 0):
        return lose(thread)
    groups = frozenset(values.number(one) for one in listed.strip("[]").split(",") if listed.startswith("[") and one)
    thread.user = replace(thread.user, groups=groups)


def _capset(scene: Scene, thread: Thread, call: Call) -> None:
    if call.ok:
        effective = values.member(call.arguments[1], "effective") or ""
        overrides = any(name in effective for name in OVERRIDING)
        thread.user = replace(thread.user, overrides=overrides)


def lose(thread: Thread) -> None:
    """Nothing is known any more of the privileges of a thread, or of the modes of what its paths lead to."""
    thread.user = replace(thread.user, known=False)


def controlled(thread: Thread, call: Call) -> None:
    """Follows prctl(2): privileges that a change of user or an exec leaves are not followed any further."""
    option = arguments.number_at(call, 0)
    raises = option == PR_CAP_AMBIENT and arguments.number_at(call, 1) == PR_CAP_AMBIENT_RAISE
    if call.ok and (raises or option == PR_SET_SECUREBITS):
        lose(thread)


#: The calls on users and groups, which 32-bit programs have twice.
_ONCE: dict[str, Handler] = {
    "setuid": _user(0),
    "setreuid": _user(1),
    "setresuid": _user(1),
    "setfsuid": _user(0),
    "setgid": _group(0),
    "setregid": _group(1),
    "setresgid": _group(1),
    "setfsgid": _group(0),
    "setgroups": _setgroups,
}
HANDLERS: dict[str, Handler] = {**_ONCE, **{f"{name}32": does for name, does in _ONCE.items()}, "capset": _capset}
