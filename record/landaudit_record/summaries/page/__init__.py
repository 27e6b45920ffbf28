"""An audit as one page of HTML, which can be opened from the disk and loads nothing from elsewhere.

It has the data of `audit --json` for every ABI, and begins with what to do: rules for groups of refused calls. All data
are in tables and lists that need no script. The buttons that choose an ABI need only style, and a script adds filters,
sorting and copying. Names from a recording are always text (`markup`), and the page's own policy allows only the page's
own style and script.
"""

from __future__ import annotations

import base64
import contextlib
import hashlib
import os
from collections.abc import Iterable, Iterator, Sequence
from dataclasses import dataclass
from pathlib import Path

from ... import RECORDER, VERSION
from ...audit import by_abi
from ...audit.auditor import TriedPolicy
from ...audit.summary import Summary
from ...common.finished import Part
from . import annotated, by_version, cards, matrix, recorded, sections
from .counting import Paths, asked
from .markup import Markup, element, together
from .recorded import Facts
from .sections import Section

_HERE = Path(__file__).resolve().parent


@dataclass(frozen=True)
class Title:
    """What was audited, in the words of the command line.

    `suggesting` is the command that suggests rules for it, `recorded` says how each recording was made.
    """

    recording: str
    policy: str | None
    as_recorded: bool
    suggesting: Sequence[str] = ()
    recorded: Sequence[Facts] = ()

    @property
    def title(self) -> str:
        """What the page is about."""
        return f"{self.recording} under {self.policy}" if self.policy else self.recording


def write(
    file: Path, about: Title, summaries: Sequence[Summary], parts: Iterable[Part], tried: TriedPolicy | None
) -> None:
    """Writes the page of an audit, either whole or not at all."""
    paths = Paths(asked(part.trace for part in parts), summaries)
    put(file, made(about, summaries, paths, tried).encode())


def made(about: Title, summaries: Sequence[Summary], found: Paths, tried: TriedPolicy | None = None) -> str:
    """The page of an audit; the last summary is that of the newest ABI."""
    newest = summaries[-1]
    top = element("header", element("h1", about.title), element("p", _judged(about), kind="quiet"),
                  *recorded.told(about.recorded))
    parts = [part for part in _parts(about, summaries, found, tried) if part.inside]
    bar = element("nav", sections.switch(summaries), links(parts))
    first = (sections.in_short(summaries), sections.not_judged(newest), sections.warnings(summaries))
    main = element("main", *first, *(part.markup() for part in parts), sections.looking())
    return whole(about.title, together((top, bar, main)), by_version.rules(newest.abi))


def whole(title: str, body: Markup, rules: Markup = Markup(), program: str = RECORDER) -> str:
    """A page with its head and foot, and with rules of style besides those of all pages."""
    maker = element("footer", element("p", f"Made by {program} {VERSION}.", kind="quiet"))
    page = element("html", _head(title, rules), element("body", body, maker), attributes={"lang": "en"})
    return f"<!DOCTYPE html>\n{page}\n"


def _parts(about: Title, summaries: Sequence[Summary], found: Paths, tried: TriedPolicy | None) -> Iterator[Section]:
    """All parts that a page may have, in their order."""
    newest, abis = summaries[-1], [summary.abi for summary in summaries]
    policy = tried.policy if tried else None
    yield Section("grant", "What to grant" if tried else "Groups", cards.cards(summaries, tried, about.suggesting))
    yield Section("abis", "By ABI", matrix.matrix(summaries, by_abi.steps(summaries), policy))
    yield Section("policy", "The policy", annotated.annotated(abis, tried, found) if tried else Markup())
    yield Section("paths", "Paths", sections.paths(abis, found))
    yield Section("refused", "Refused", sections.refused(summaries))
    yield Section("unsure", "May be refused", sections.unsure(summaries))
    yield Section("accepted", "Refused and accepted", sections.accepted(summaries))
    yield Section("moot", "Not asked (moot)", sections.moot(newest))
    yield Section("unsaid", "Not recorded", sections.unsaid(newest))


def links(parts: Iterable[Section]) -> Markup:
    """The links to the parts of a page."""
    return element("ul", *(element("li", element("a", it.title, attributes={"href": f"#{it.name}"})) for it in parts))


def _head(title: str, rules: Markup) -> Markup:
    """The invisible parts, among them the page's own policy, which allows only the page's own style and script."""
    style = together((own("page.css"), rules))
    script = own("page.js")
    own_alone = f"style-src {_hash(style)}; script-src {_hash(script)}"
    only = f"default-src 'none'; {own_alone}; base-uri 'none'; form-action 'none'"
    return element(
        "head",
        element("meta", attributes={"charset": "utf-8"}),
        element("meta", attributes={"http-equiv": "Content-Security-Policy", "content": only}),
        element("meta", attributes={"name": "viewport", "content": "width=device-width, initial-scale=1"}),
        element("meta", attributes={"name": "color-scheme", "content": "light dark"}),
        element("title", f"{title} - landaudit"),
        element("style", style),
        element("script", script, attributes={"type": "module"}),
    )


def own(name: str) -> Markup:
    """A file that is beside this module."""
    return Markup((_HERE / name).read_text(encoding="utf-8"))


def _hash(text: str) -> str:
    """A text as the policy of a page names it (CSP 3, 2.3.1)."""
    return f"'sha256-{base64.b64encode(hashlib.sha256(text.encode()).digest()).decode()}'"


def _judged(about: Title) -> str:
    """The sentences that say what was judged, and how."""
    what = "What the policy would refuse of the recording" if about.policy else "What the program's own layers refuse"
    how = ("as they were recorded" if about.as_recorded
           else "as those of a program that drops the rights which the ABI does not have")
    return f"{what}. Rulesets that the program makes itself are judged {how}."


def put(file: Path, text: bytes) -> None:
    """Writes a file so that no reader sees half of it; a link, or a file that is not regular, is written into."""
    in_place = file.is_symlink() or (file.exists() and not file.is_file())
    written = file if in_place else file.with_name(f".page-{os.getpid()}.new")
    try:
        written.write_bytes(text)
        if not in_place:
            written.replace(file)
    except OSError as error:
        if not in_place:
            with contextlib.suppress(OSError):
                written.unlink()
        raise OSError(error.errno, error.strerror, str(file)) from error
