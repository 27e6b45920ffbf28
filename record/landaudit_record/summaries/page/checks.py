"""What a policy says to cases and questions as a page, in the form of an audit's page."""

from __future__ import annotations

from collections.abc import Iterable, Iterator, Sequence
from pathlib import Path

from ...policy import checking_text
from ...policy.checking import Checked, CheckedCase
from ...policy.deciding import Decision
from . import put
from .markup import Markup, element, together
from .parts import Figure, page
from .sections import Section
from .tables import named, row, table

CheckResult = CheckedCase | Decision


def write(file: Path, checked: Checked) -> None:
    """Writes the page, either whole or not at all."""
    put(file, made(checked).encode())


def made(checked: Checked) -> str:
    """The page of a check."""
    failed: Figure = (checked.failed, "fail", "refused" if checked.failed else "none")
    about = "What the policy must allow and refuse, and what it does."
    title = f"{checked.policy} checked by {checked.cases}"
    return page(title, about, (failed, (checked.held, "hold", "")), list(_parts(checked)))


def _parts(checked: Checked) -> Iterator[Section]:
    """The cases and questions that fail, and those that hold."""
    failed = [one for one in checked.results if not one.holds]
    yield Section("failed", "Fail", element("div", *map(_card, failed), kind="cards") if failed else Markup())
    yield Section("held", "Hold", _table([one for one in checked.results if one.holds]))


def _card(result: CheckResult) -> Markup:
    """A card of a result that fails: what must be, and what is."""
    must, _, what = checking_text.title(result).partition(": ")
    title = element("h3", element("b", must), " ", element("span", named(what), kind="path"))
    return element("article", title, *_about(result), kind="card")


def _about(result: CheckResult) -> Iterator[Markup]:
    """What is known of a result."""
    for key, said in checking_text.about(result).items():
        kind = "why" if key.startswith("abi ") else "also"
        texts = [said] if isinstance(said, str) else said
        yield element("p", key.replace("abi", "ABI", 1), kind="quiet")
        yield element("ul", *(element("li", named(text), kind=kind) for text in texts), kind="said")


def _table(results: Sequence[CheckResult]) -> Markup:
    """A table of results that hold."""
    rows = (row(must, named(what), together(_why(result))) for result in results
            for must, _, what in (checking_text.title(result).partition(": "),))
    return table("kinds checks", ("must be", "place", "why"), rows) if results else Markup()


def _why(result: CheckResult) -> Iterable[Markup]:
    """What is known of a result, in one cell."""
    for key, said in checking_text.about(result).items():
        texts = said if isinstance(said, str) else "; ".join(said)
        yield element("div", element("span", f"{key.replace('abi', 'ABI', 1)}: ", kind="quiet"), named(texts))
