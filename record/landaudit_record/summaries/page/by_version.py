"""Parts of the page that differ from ABI to ABI: equal ones are written once, and the page shows one at a time."""

from __future__ import annotations

from collections.abc import Iterable, Sequence

from ...common.rights import ABIS
from .markup import Markup, element, together


def kinds(abis: Iterable[int]) -> str:
    """The classes of an element that is shown only at some ABIs."""
    return " ".join(("a", *(f"a{abi}" for abi in abis)))


def varied(abis: Sequence[int], said: Sequence[str]) -> Markup:
    """The text of each ABI; the page shows that of the chosen one."""
    if len(set(said)) == 1:
        return together(said[:1])
    groups: dict[str, list[int]] = {}
    for abi, one in zip(abis, said):
        groups.setdefault(one, []).append(abi)
    return together(element("span", one, kind=kinds(some)) for one, some in groups.items())


def choice(abi: int) -> str:
    """The name in the page of the button that chooses an ABI."""
    return f"abi-{abi}"


def rules(newest: int) -> Markup:
    """The rules of style that show the chosen ABI without a script; an old browser shows the newest ABI.

    The selector starts at the bar with the buttons and not at the body: Chromium searches all of the element that has
    `:has`, once for each row.
    """
    chosen = (f"nav:has(#{choice(abi)}:checked)~main .a:not(.a{abi}){{display:none}}\n"
              f"nav:has(#{choice(abi)}:checked)~main .t{abi}{{background:var(--chosen)}}\n"
              for abi in ABIS)
    old = f"@supports not selector(:has(a)){{.a:not(.a{newest}),.abis{{display:none}}}}\n"
    return Markup("".join((*chosen, old)))
