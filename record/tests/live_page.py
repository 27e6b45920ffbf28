"""The page of an audit in a headless Chromium: opened from the disk, looked at, filtered, sorted, switched, with keys.

Pictures of it go to the folder that LANDAUDIT_PICTURES names; where it names none, they are looked at and thrown away.
One page is that of a recorded build: of the recording that LANDAUDIT_RECORDING names, under the policy in the file that
LANDAUDIT_POLICY names, or else of a small build that is recorded for it.
"""

from __future__ import annotations

import base64
import json
import os
import re
import shutil
import struct
import subprocess
import tempfile
import unittest
from collections import Counter
from collections.abc import Iterator, Sequence
from contextlib import ExitStack
from pathlib import Path
from typing import Any, ClassVar

from landaudit_record.audit.auditor import TriedPolicy
from landaudit_record.audit.moot import FAILED_TOO, Unasked
from landaudit_record.audit.summary import Accepted, Refusal, RefusingLayer, Summary
from landaudit_record.audit.warnings import OfLog
from landaudit_record.common.trees import Tree, upwards
from landaudit_record.engine.answers import Missing
from landaudit_record.engine.landaudit import BUILT
from landaudit_record.engine.reading import NamedSubject
from landaudit_record.engine.subjects import Subject
from landaudit_record.policy import policies
from landaudit_record.summaries import page
from landaudit_record.summaries.page.counting import Paths
from landaudit_record.summaries.page.recorded import Facts

from .chromium import CHROMIUM, Tab, browser
from .pages import Element, read
from .test_page import HOSTILE

RECORDER = Path(__file__).resolve().parents[1] / "landaudit-record"
WIDTHS = (400, 1280, 1920)
SCHEMES = (("light", "rgb(255, 255, 255)"), ("dark", "rgb(21, 24, 28)"))
MANY = 10_000
#: How long a page may keep the browser's main thread until it is there, in seconds.
SOON = 2.0
#: A4 paper has these many pages for the largest of the small pages here.
MOST_PAGES = 5
DIRECTORIES = ("/usr/lib/python3.11", "/usr/include/linux", "/home/builder/src/crypto/evp", "/etc/ssl/certs", "/tmp/cc")
CALLS = (("open r", "read_file"), ("open w create", "make_reg"), ("exec", "execute"), ("open w trunc", "truncate"))
#: What a recording says of itself.
FACTS = [("command", "make -j4 -C /home/builder/src/openssl build_libs build_programs"), ("in", "/home/builder/src"),
         ("when", "2026-11-29 18:46 UTC"), ("by", "strace 6.1"), ("kernel", "Linux 6.1.0-13-amd64"), ("user", "root")]
#: A policy that lets a build in the folder `@` work but for what its compiler puts into /tmp, and for truncating.
POLICY = """[[layer]]
handled_access_fs = ["all"]
[[layer.path_beneath]]
allowed_access = ["read", "execute"]
parent = ["/usr", "/lib", "/lib64", "/bin", "/etc"]
[[layer.path_beneath]]
allowed_access = ["read_file", "write_file"]
parent = "/dev/null"
[[layer.path_beneath]]
allowed_access = ["read", "execute", "write_file", "make_reg", "make_dir", "remove_file"]
parent = "@"
"""
#: Of the first cells those that are seen and have more in them than fits; each is laid out for that.
CUT = ("[...document.querySelectorAll('th, td, .card p, .card h3, .row > span')].slice(0, 400)"
       ".filter(cell => cell.checkVisibility() && cell.scrollWidth > cell.clientWidth + 1)"
       ".map(cell => cell.textContent)")
#: Puts large numbers where the policy, line by line, says how many calls a rule was asked for and let pass.
LARGE_COUNTS = ("document.querySelectorAll('.policy td.count:last-child').forEach(cell => {"
                " cell.innerHTML = '1,234,567<span class=bad> 123,456 refused</span>'; })")
WIDER = "document.documentElement.scrollWidth - document.documentElement.clientWidth"
EACH = "document.getElementById('each').open = true"
VISIBLE = "[...document.querySelectorAll('table.refusals tbody tr')].filter(row => row.checkVisibility())"


def refusals(groups: int, abi: int) -> Iterator[tuple[Refusal, int]]:
    """Kinds of refused calls in some directories, with how many there are of each; ABI 3 brings truncate."""
    for number in range(groups):
        call, right = CALLS[number % len(CALLS)]
        if right == "truncate" and abi < 3:
            continue
        place = f"{DIRECTORIES[number % len(DIRECTORIES)]}/{number % 7}/file_{number}"
        layer = RefusingLayer(1, 1, (Missing((right,), place),))
        yield Refusal(call, Subject((place,)), "EACCES", (layer,), None), 1 + number % 5


def summary(abi: int, groups: int) -> Summary:
    """What an ABI answers to a build."""
    found = Summary(abi, Counter(allowed=90_210, moot=412))
    for refusal, times in refusals(groups, abi):
        found.refusals[refusal] = Counter({"/usr/bin/make": times})
        found.not_allowed["refused"][refusal.subject.paths] = times
    found.verdicts["refused"] = sum(programs.total() for programs in found.refusals.values())
    found.moot = {Unasked("absent"): Counter({Subject(("/etc/ld.so.preload",)): 400, Subject(("/etc/nscd",)): 12})}
    found.unsaid = Counter({"a line that is not understood": 3})
    return found


def written(folder: Path, summaries: list[Summary], name: str = "build.rec", facts: Sequence[Facts] = ()) -> Path:
    """The page of summaries, as a file."""
    calls: Counter[NamedSubject] = Counter()
    for one in summaries:
        for place, times in one.not_allowed["refused"].items():
            calls[place] = times + 7
    file = folder / "page.html"
    suggesting = ["landaudit-record", "suggest", name, "--policy", "policy.toml"]
    about = page.Title(name, "policy.toml", False, suggesting, facts)
    file.write_text(page.made(about, summaries, Paths(calls, summaries), tried_in(folder, summaries)), encoding="utf-8")
    return file


def tried_in(folder: Path, summaries: list[Summary]) -> TriedPolicy:
    """A policy that denies all, tried on the files that the summaries tell of."""
    file = folder / "policy.toml"
    file.write_text('[[layer]]\nhandled_access_fs = ["all"]\n', encoding="utf-8")
    kinds = {over: "dir" for one in summaries for refusal in one.refusals for path in refusal.subject.paths
             for over in upwards(path)}
    kinds |= {path: "reg" for one in summaries for refusal in one.refusals for path in refusal.subject.paths}
    return TriedPolicy(None, policies.read(file), None, Tree(kinds), [])  # type: ignore[arg-type]


def hostile() -> Summary:
    """A summary in which each name is hostile."""
    found = Summary(5, Counter(allowed=1, refused=len(HOSTILE)))
    for name in HOSTILE:
        layer = RefusingLayer(1, 1, (Missing((name,), f"/a/{name}"),))
        found.refusals[Refusal(name, Subject((f"/a/{name}",)), name, (layer,), None)] = Counter({name: 1})
        found.not_allowed["refused"][(f"/a/{name}",)] = 1
        found.accepted[Accepted(name, Subject((name,)), name)] = 1
        found.moot[Unasked(FAILED_TOO, error=name)] = Counter({Subject((name,)): 1})
    found.warnings, found.unsaid, found.missing = dict.fromkeys(map(OfLog, HOSTILE), 1), Counter(HOSTILE), HOSTILE
    return found


def missing() -> str | None:
    """Why no page of a build can be made here, if none can."""
    if CHROMIUM is None:
        return "chromium is not installed"
    if not BUILT.exists():
        return f"{BUILT} is not built: run 'make landaudit'"
    absent = [program for program in ("strace", "make", "cc") if shutil.which(program) is None]
    return f"{absent[0]} is not installed" if absent and "LANDAUDIT_RECORDING" not in os.environ else None


def given() -> tuple[Path, Path] | None:
    """The recording that somebody wants the page of, and its policy."""
    if "LANDAUDIT_RECORDING" not in os.environ:
        return None
    return Path(os.environ["LANDAUDIT_RECORDING"]).resolve(), Path(os.environ["LANDAUDIT_POLICY"]).resolve()


def build(folder: Path) -> tuple[Path, Path]:
    """Records a small build in a folder; gives the recording and a policy for it."""
    for number in range(12):
        (folder / f"part{number}.c").write_text(f"int part{number}(void) {{ return {number}; }}\n", encoding="utf-8")
    rule = "libparts.a: $(patsubst %.c,%.o,$(wildcard *.c))\n\tar rcs $@ $^\n"
    (folder / "Makefile").write_text(rule, encoding="utf-8")
    policy = folder / "policy.toml"
    policy.write_text(POLICY.replace("@", str(folder)), encoding="utf-8")
    subprocess.run([RECORDER, "run", "build.rec", "--", "make", "-j4"], cwd=folder, check=True, capture_output=True)
    return folder / "build.rec", policy


def kept(name: str, picture: bytes) -> None:
    """Keeps a picture where somebody wants to look at it."""
    if folder := os.environ.get("LANDAUDIT_PICTURES"):
        Path(folder, f"{name}.png").write_bytes(picture)


def size(picture: bytes) -> tuple[int, int]:
    """The width and height of a picture, by its header (PNG, 11.2.2)."""
    width, height = struct.unpack(">II", picture[16:24])
    return width, height


@unittest.skipIf(CHROMIUM is None, "chromium is not installed")
class LivePage(unittest.TestCase):
    opened: ClassVar[ExitStack]
    tab: ClassVar[Tab]

    @classmethod
    def setUpClass(cls) -> None:
        cls.opened = ExitStack()
        cls.addClassCleanup(cls.opened.close)
        cls.tab = cls.opened.enter_context(browser())

    def setUp(self) -> None:
        self.folder = Path(self.enterContext(tempfile.TemporaryDirectory())).resolve()
        self.tab.faults.clear()
        self.tab.wide(1280)
        self.tab.scheme("light")

    def tearDown(self) -> None:
        self.assertEqual(self.tab.faults, [])

    def build(self, groups: int = 40) -> Path:
        return written(self.folder, [summary(abi, groups) for abi in range(1, 6)])

    def shown(self, column: int = 2) -> list[str]:
        """What a column of the refusals says, of the rows that are seen."""
        found: list[str] = self.tab.says(f"{VISIBLE}.map(row => row.cells[{column}].textContent)")
        return found

    def counted(self) -> Any:
        return self.tab.says("document.getElementById('left').textContent")

    def test_pictures_at_three_widths_light_and_dark(self) -> None:
        file = self.build()
        for width in WIDTHS:
            pictures = {}
            for scheme, ground in SCHEMES:
                with self.subTest(width=width, scheme=scheme):
                    self.tab.wide(width, 760)
                    self.tab.scheme(scheme)
                    self.tab.open(file)
                    pictures[scheme] = self.tab.picture()
                    kept(f"page-{width}-{scheme}", pictures[scheme])
                    self.assertEqual(size(pictures[scheme])[0], width)
                    self.assertEqual(self.tab.says("getComputedStyle(document.body).backgroundColor"), ground)
                    self.assertEqual(self.tab.says(WIDER), 0, "the page is wider than the window")
                    self.assertEqual(self.tab.says(CUT), [])
            self.assertNotEqual(pictures["light"], pictures["dark"])

    def test_the_first_screen_has_a_rule_to_copy(self) -> None:
        file = written(self.folder, [summary(abi, 40) for abi in range(1, 6)], facts=[FACTS])
        for width in WIDTHS:
            with self.subTest(width=width):
                self.tab.wide(width, 760)
                self.tab.open(file)
                below = self.tab.says("document.querySelector('.card pre').getBoundingClientRect().bottom")
                self.assertLess(below, 760)

    def test_no_number_or_name_is_broken_on_a_phone(self) -> None:
        """Of a long recording with long numbers, and of what was recorded."""
        summaries = [summary(abi, 40) for abi in range(1, 6)]
        for one in summaries:
            one.verdicts["allowed"] = 12_345_678
        file = written(self.folder, summaries, facts=[FACTS])
        self.tab.wide(400)
        self.tab.open(file)
        lines = ("(one => { const range = document.createRange(); range.selectNodeContents(one);"
                 " return new Set([...range.getClientRects()].map(at => at.top)).size; })")
        broken = (f"[...document.querySelectorAll('.matrix td, .matrix tbody th, .recorded dt')]"
                  f".filter(one => !one.textContent.includes(' ') && {lines}(one) > 1).map(one => one.textContent)")
        self.assertEqual(self.tab.says(broken), [])
        self.assertEqual(self.tab.says(WIDER), 0)

    def test_many_groups_are_there_soon(self) -> None:
        file = self.build(MANY)
        self.tab("Performance.enable", timeDomain="threadTicks")
        self.tab.open(file)
        duration = self.duration()
        self.assertEqual(self.tab.says("document.querySelectorAll('table.refusals tbody tr').length"), MANY)
        self.assertLess(duration, SOON)

    def test_many_groups_follow_the_window(self) -> None:
        """The page of many groups is laid out anew, for a window that is narrow, without a search of all for each."""
        self.tab.open(self.build(MANY))
        self.tab("Performance.enable", timeDomain="threadTicks")
        before = self.duration()
        self.tab.wide(400)
        self.tab.picture()
        self.assertLess(self.duration() - before, 2 * SOON)

    def duration(self) -> float:
        """How long the browser's main thread has worked."""
        metrics = {one["name"]: one["value"] for one in self.tab("Performance.getMetrics")["metrics"]}
        return float(metrics["TaskDuration"])

    def test_the_filter_leaves_rows_that_have_all_words(self) -> None:
        self.tab.open(self.build(), "#find=ssl+MAKE_REG")
        self.assertEqual(self.shown(), ["/etc/ssl/certs/6/file_13", "/etc/ssl/certs/5/file_33"])
        self.assertEqual(self.counted(), "2 kinds, 8 calls")
        self.tab.says("find = document.getElementById('find'); find.value = ''; find.dispatchEvent(new Event('input'))")
        self.assertEqual((len(self.shown()), self.counted()), (40, "40 kinds, 120 calls"))

    def test_the_switch_shows_what_an_abi_refuses(self) -> None:
        self.tab.open(self.build())
        self.assertEqual(self.shown(), [])
        self.tab.says(EACH)
        self.assertEqual(len(self.shown()), 40)
        self.tab.says("document.getElementById('abi-2').click()")
        self.assertEqual((len(self.shown()), self.counted()), (30, "30 kinds, 90 calls"))
        self.assertNotIn("open w trunc", self.shown(1))
        self.assertEqual(self.tab.says("location.hash"), "#abi=2")
        self.tab.says("document.querySelector('.matrix label[for=abi-4]').click()")
        self.assertEqual((len(self.shown()), self.tab.says("location.hash")), (40, "#abi=4"))
        self.tab.open(self.folder / "page.html", "#abi=2")
        self.tab.says(EACH)
        self.assertEqual(len(self.shown()), 30)

    def test_a_click_on_a_directory_filters_the_page(self) -> None:
        self.tab.open(self.build())
        self.tab.says(EACH)
        cards = ("[...document.querySelectorAll('.card')].filter(card => card.checkVisibility())"
                 ".map(card => card.dataset.at)")
        before = self.tab.says(cards)
        cell = "document.querySelector('.icicle [data-at=\"/etc/ssl/certs\"]')"
        self.tab.says(f"{cell}.dispatchEvent(new MouseEvent('click', {{bubbles: true, cancelable: true}}))")
        self.assertEqual(self.counted(), "8 kinds, 32 calls")
        self.assertTrue(all(path.startswith("/etc/ssl/certs/") for path in self.shown()), self.shown())
        after = self.tab.says(cards)
        self.assertTrue(set(after) < set(before), after)
        self.assertEqual(self.tab.says("location.hash"), "#at=%2Fetc%2Fssl%2Fcerts")
        self.tab.says("document.querySelector('#at button').click()")
        self.assertEqual((len(self.shown()), self.tab.says(cards)), (40, before))

    def test_keys_alone_choose_a_directory(self) -> None:
        self.tab.open(self.build())
        self.tab.says(EACH)
        self.tab.says("document.querySelector('.icicle [data-at=\"/etc/ssl/certs\"]').focus()")
        self.tab.press("Enter", "Enter", 13, "\r")
        self.assertEqual(self.counted(), "8 kinds, 32 calls")

    def test_the_copy_button_copies_the_text_beside_it(self) -> None:
        self.tab.open(self.build())
        self.tab.says("navigator.clipboard.writeText = async (text) => { globalThis.copied = text; }")
        buttons = "document.querySelectorAll('.copy')"
        self.assertEqual(self.tab.says(f"{buttons}.length"), self.tab.says("document.querySelectorAll('pre').length"))
        self.tab.says(f"{buttons}[0].click()")
        self.assertEqual(self.tab.says("copied"), self.tab.says("document.querySelector('pre').textContent"))
        self.assertIn("[[layer.path_beneath]]\nallowed_access = [", self.tab.says("copied"))
        self.tab.says(f"[...{buttons}].at(-1).click()")
        self.assertEqual(self.tab.says("copied"), "landaudit-record suggest build.rec --policy policy.toml")

    def test_a_page_is_printed_in_few_pages(self) -> None:
        self.tab.open(self.build(160))
        document = base64.b64decode(self.tab("Page.printToPDF")["data"])
        self.assertLessEqual(len(re.findall(rb"/Type\s*/Page\b", document)), MOST_PAGES)

    def test_a_kind_takes_three_lines_on_a_phone(self) -> None:
        self.tab.wide(400)
        self.tab.open(self.build())
        self.tab.says(EACH)
        tall = "map(row => { row.scrollIntoView(); return row.offsetHeight; })"
        heights = self.tab.says(f"{VISIBLE}.slice(0, 9).{tall}")
        line = self.tab.says("parseFloat(getComputedStyle(document.body).lineHeight)")
        self.assertLess(max(heights), 4 * line)

    def test_a_kind_of_many_programs_takes_three_lines_on_a_phone(self) -> None:
        found = summary(5, 9)
        for at, programs in enumerate(found.refusals.values()):
            programs.update({f"/usr/lib/gcc/x86_64-linux-gnu/12/cc{at + number}": 9 for number in range(9)})
        self.tab.wide(400)
        self.tab.open(written(self.folder, [found]))
        self.tab.says(EACH)
        line = self.tab.says("parseFloat(getComputedStyle(document.body).lineHeight)")
        heights = self.tab.says(f"{VISIBLE}.map(row => {{ row.scrollIntoView(); return row.offsetHeight; }})")
        self.assertEqual(len(heights), 9)
        self.assertLess(max(heights), 4 * line)
        self.tab.wide(1280)
        self.assertIn("/usr/lib/gcc/x86_64-linux-gnu/12/cc", self.tab.says(f"{VISIBLE}[0].innerText"))

    def test_sorting_by_a_column_and_back(self) -> None:
        self.tab.open(self.build())
        self.tab.says(EACH)
        for name, column, first, last in (("place", 2, "/etc/ssl/certs/0/file_28", "/usr/lib/python3.11/6/file_20"),
                                          ("times", 0, "5", "1")):
            head = f"[...document.querySelectorAll('.refusals th')].find(head => head.textContent.startsWith('{name}'))"
            for ends in ((first, last), (last, first)):
                with self.subTest(name, ends=ends):
                    self.tab.says(f"{head}.firstChild.click()")
                    cells = self.shown(column)
                    self.assertEqual((cells[0], cells[-1]), ends)
                    self.assertEqual(len(cells), 40)
        self.assertEqual(self.tab.says(f"{head}.getAttribute('aria-sort')"), "ascending")

    def test_keys_alone_choose_an_abi_and_open_a_directory(self) -> None:
        self.tab.open(self.build())
        self.tab.press("Tab", "Tab", 9)
        self.assertEqual(self.tab.says("document.activeElement.id"), "abi-5")
        self.tab.press("ArrowLeft", "ArrowLeft", 37)
        self.assertEqual(self.tab.says("document.querySelector('.abis :checked').value"), "4")
        self.tab.says("document.querySelector('#paths details').open = true")
        self.tab.says("document.querySelector('.tree summary').focus()")
        for opened in (False, True):
            self.tab.press("Enter", "Enter", 13, "\r")
            self.assertIs(self.tab.says("document.querySelector('.tree details').open"), opened)

    def test_all_reads_without_a_script(self) -> None:
        self.tab("Emulation.setScriptExecutionDisabled", value=True)
        try:
            self.tab.open(self.build())
            self.tab.says("document.querySelector('#each > summary').click()")
            self.assertEqual(len(self.shown()), 40)
            self.assertEqual(self.tab.says("document.querySelector('.copy').checkVisibility()"), False)
            self.assertEqual(self.tab.says("getComputedStyle(document.getElementById('filter')).display"), "none")
            kept("page-1280-no-script", self.tab.picture())
            self.tab.says("document.getElementById('abi-2').click()")
            self.assertEqual(len(self.shown()), 30)
            self.tab.says("document.querySelector('.tree summary').click()")
            self.assertIs(self.tab.says("document.querySelector('.tree details').open"), False)
        finally:
            self.tab("Emulation.setScriptExecutionDisabled", value=False)

    def test_hostile_names_are_text(self) -> None:
        for width in WIDTHS:
            self.tab.wide(width)
            self.tab.open(written(self.folder, [hostile()], HOSTILE[0]), "#find=%3Cimg+src%3Dx&sort=%3Cb%3E&abi=%22%3E")
            self.assertEqual(self.tab.says("document.title"), f"{HOSTILE[0]} under policy.toml - landaudit")
            foreign = self.tab.says("document.querySelectorAll('img, iframe, svg[onload], [onerror]').length")
            self.assertEqual(foreign, 0)
            self.assertEqual(self.tab.says("document.scripts.length"), 1)
            self.assertEqual(self.shown(), [f"/a/{HOSTILE[1]}"])
            self.assertEqual(self.tab.says(WIDER), 0, f"a name is wider than the window of {width}")
            kept(f"hostile-{width}", self.tab.picture(whole=True))

    def test_the_pages_policy_lets_no_other_script_or_style_work(self) -> None:
        file = self.build()
        text = file.read_text(encoding="utf-8")
        more = "<script>document.title = 'broken'</script><style>body { background: #010203 !important }</style>"
        more += "<img src=x onerror=\"document.title = 'broken'\"><p style='color: #010203'>x</p>"
        file.write_text(text.replace("<footer>", f"{more}<footer>"), encoding="utf-8")
        self.tab.open(file)
        self.assertEqual(self.tab.says("document.title"), "build.rec under policy.toml - landaudit")
        self.assertEqual(self.tab.says("getComputedStyle(document.body).backgroundColor"), "rgb(255, 255, 255)")
        self.assertEqual(self.tab.says("getComputedStyle(document.querySelector('main > p, body > p')).color"),
                         self.tab.says("getComputedStyle(document.body).color"))
        broken = [fault for fault in self.tab.faults if "Content Security Policy" in fault]
        self.assertGreaterEqual(len(broken), 4)
        self.tab.faults.clear()


@unittest.skipIf(missing() is not None, missing() or "")
class LiveBuild(unittest.TestCase):
    def test_the_page_of_a_recorded_build(self) -> None:
        folder = Path(self.enterContext(tempfile.TemporaryDirectory())).resolve()
        recording, policy = given() or build(folder)
        file = folder / "page.html"
        words = ["audit", recording.name, "--policy", os.path.relpath(policy, recording.parent), "--html", file]
        run = subprocess.run([RECORDER, *words], cwd=recording.parent, capture_output=True, text=True, check=False)
        self.assertEqual(run.returncode, 1, run.stderr)
        with browser() as tab:
            for width in WIDTHS:
                for scheme, ground in SCHEMES:
                    with self.subTest(width=width, scheme=scheme):
                        tab.wide(width, 900)
                        tab.scheme(scheme)
                        tab.open(file)
                        kept(f"build-{width}-{scheme}", tab.picture())
                        self.assertEqual(tab.says("getComputedStyle(document.body).backgroundColor"), ground)
                        self.assertEqual((tab.says(WIDER), tab.says(CUT)), (0, []))
                        self.assertGreater(tab.says("document.querySelectorAll('.card').length"), 0)
                        self.assertGreater(tab.says("document.querySelectorAll('.policy td.count').length"), 0)
                        tab.says(LARGE_COUNTS)
                        self.assertEqual((tab.says(WIDER), tab.says(CUT)), (0, []))
            self.assertEqual(tab.faults, [])

    def test_with_the_rules_of_all_cards_nothing_is_refused_that_was(self) -> None:
        folder = Path(self.enterContext(tempfile.TemporaryDirectory())).resolve()
        recording, policy = given() or build(folder)
        before, page_before = self.audited(recording, policy, folder)
        self.assertGreater(len(before), 9)
        for which in (0, -1):
            pasted = [card.all("pre")[which].text(5) for card in page_before.all("article") if card.all("pre")]
            with_rules = folder / "with_rules.toml"
            with_rules.write_text(policy.read_text(encoding="utf-8") + "\n" + "\n".join(pasted), encoding="utf-8")
            after, _ = self.audited(recording, with_rules, folder)
            self.assertEqual(before & after, set())

    def audited(self, recording: Path, policy: Path, folder: Path) -> tuple[set[tuple[str, str]], Element]:
        """The kinds of calls that a policy refuses, by call and place, and the page of the audit."""
        words = ["audit", recording, "--policy", policy, "--abi", "5", "--json", "--html", folder / "audited.html"]
        run = subprocess.run([RECORDER, *words], capture_output=True, text=True, check=False)
        self.assertIn(run.returncode, (0, 1), run.stderr)
        found = {(one["call"], one["place"]) for one in json.loads(run.stdout)["refusals"]}
        return found, read((folder / "audited.html").read_text(encoding="utf-8"))
