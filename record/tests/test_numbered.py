"""Names of tables that are one of several, as traces have them and as they are printed."""

from __future__ import annotations

import unittest

from landaudit_record.common.numbered import Numbered


class Names(unittest.TestCase):
    def test_each_prints_as_a_policy_says_it_and_reads_again(self) -> None:
        for name, said in ((Numbered("path_beneath", 2), "path_beneath 2"), (Numbered("net_port", 10), "net_port 10"),
                           (Numbered("path_beneath", 1, "base"), "base path_beneath 1"),
                           (Numbered("path_beneath", 3, "./my own 2.toml"), "./my own 2.toml path_beneath 3")):
            with self.subTest(said):
                self.assertEqual(str(name), said)
                self.assertEqual(Numbered.read(said), name)

    def test_another_text_is_no_name(self) -> None:
        for text in ("", "restrict", "path_beneath", "path_beneath two"):
            self.assertIsNone(Numbered.read(text), text)

    def test_the_way_to_it_counts_from_zero(self) -> None:
        self.assertEqual(Numbered("layer", 3).steps, ("layer", 2))
