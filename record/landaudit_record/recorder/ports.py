"""What a policy says about ports, and its scopes, for a strace that can't read it from the calls (before 6.7)."""

from __future__ import annotations

from collections.abc import Iterator, Sequence
from itertools import cycle


class Ports:
    """The rights for ports and the scopes of each layer, and the rules on ports, in the policy's order, repeated.

    Each ruleset that is made is the next layer, also one whose structure ends before what strace does not decode.
    """

    def __init__(
        self,
        handled: Sequence[list[str]] = (),
        rules: Sequence[tuple[list[str], int]] = (),
        scoped: Sequence[list[str]] = (),
    ) -> None:
        self._handled: Iterator[list[str]] = cycle(handled)
        self._scoped: Iterator[list[str]] = cycle(scoped)
        self._rules: Iterator[tuple[list[str], int]] = cycle(rules)

    def handled(self) -> list[str] | None:
        """The rights for ports that the next ruleset handles; None without a policy."""
        return next(self._handled, None)

    def scopes(self) -> list[str]:
        """The scopes of the next ruleset; none without a policy."""
        return next(self._scoped, [])

    def rule(self) -> tuple[list[str], int] | None:
        """The next rule: its rights and its port."""
        return next(self._rules, None)
