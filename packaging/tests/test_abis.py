"""All files that name the versions of Landlock's interface name the same ones."""

from __future__ import annotations

import re
import unittest

from landaudit_record.common.rights import ABIS, LATEST_ABI, NEWEST_ABI, OLDEST_ABI

from .places import MAN, TOP

VERSIONS = TOP / "crates" / "ll_rights" / "src" / "abi.rt"
#: The oldest and the newest, in the words by which a page says what an ABI is.
NAMED = re.compile(r"(?:Landlock's interface|Landlock's ABI|ABI of Landlock), (\d+) to (\d+)")
#: The witness hears questions of any version.
OF_NO_VERSION = MAN / "landaudit-witness.1"
#: These judge scopes too, which are of ABIs that landaudit does not know.
WITH_SCOPES = ("landaudit-record.1", "landaudit-policy.1")
PAGES = (*set(MAN.glob("*.1")) - {OF_NO_VERSION}, TOP / "docs" / "FORMATS.md", TOP / "docs" / "GLOSSARY.md")


class Versions(unittest.TestCase):
    def test_both_programs_know_the_same(self) -> None:
        known = re.findall(r"^    V(\d+),$", VERSIONS.read_text(encoding="utf-8"), re.MULTILINE)
        self.assertEqual([int(number) for number in known], list(range(OLDEST_ABI, NEWEST_ABI + 1)))

    def test_the_readme_names_their_kernels(self) -> None:
        rows = re.findall(r"^\| (\d+) \| (\S+) \| (.*?) ?\| ", (TOP / "README.md").read_text(encoding="utf-8"), re.M)
        self.assertEqual({int(abi): (linux, release) for abi, linux, release in rows},
                         {abi: (of.linux, of.release or "") for abi, of in ABIS.items()})

    def test_pages_name_the_newest(self) -> None:
        for page in PAGES:
            with self.subTest(page.name):
                named = NAMED.findall(page.read_text(encoding="utf-8"))
                newest = LATEST_ABI if page.name in WITH_SCOPES else NEWEST_ABI
                self.assertEqual(set(named), {(str(OLDEST_ABI), str(newest))})
