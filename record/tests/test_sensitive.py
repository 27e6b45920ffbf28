"""What a rule's author is warned of."""

from __future__ import annotations

import tempfile
import unittest
from pathlib import Path

from landaudit_record.policy import sensitive

READ = frozenset({"read_file"})


def warned(place: str, *rights: str) -> str:
    return "\n".join(sensitive.warnings(place, frozenset(rights) or READ))


class Warnings(unittest.TestCase):
    def test_everything(self) -> None:
        self.assertEqual(warned("/", "make_reg"), "make_reg on everything")

    def test_what_is_the_kernels(self) -> None:
        for place in ("/proc", "/proc/meminfo", "/proc/sys/kernel/pid_max"):
            self.assertRegex(warned(place), r"\A/proc: .*every process")
        self.assertRegex(warned("/sys/devices/system/cpu"), r"\A/sys: .*devices\Z")

    def test_secrets_and_what_is_beneath(self) -> None:
        for place, secret in (("/etc/shadow", "/etc/shadow"), ("/etc/ssl/private/a.pem", "/etc/ssl/private"),
                              ("/home/me/.ssh/known_hosts", "/home/me/.ssh"), ("/srv/web.key", "/srv/web.key"),
                              ("/home/me/.gnupg", "/home/me/.gnupg")):
            with self.subTest(place):
                self.assertEqual(warned(place), f"{secret} holds secrets")

    def test_a_directory_over_secrets(self) -> None:
        self.assertIn("reaches /etc/shadow, /etc/gshadow, /etc/ssl/private", warned("/etc"))
        self.assertIn("/root/.ssh", warned("/root"))
        with tempfile.TemporaryDirectory() as home:
            self.assertEqual(warned(home), "")
            keys = Path(home, ".ssh")
            keys.mkdir()
            self.assertEqual(warned(home), f"this reaches {keys}")

    def test_rights_that_reach_no_file_that_is_there(self) -> None:
        self.assertEqual(warned("/etc", "read_dir"), "")

    def test_a_name_that_no_file_here_can_have(self) -> None:
        for place in ("/a/" + "x" * 300, "/a/\0"):
            self.assertEqual(warned(place), "")

    def test_all_else(self) -> None:
        for place in ("/etc/passwd", "/usr/lib", "/etc/ssl/certs", "/procession", "/system", "/home/me/keyboard"):
            with self.subTest(place):
                self.assertEqual(warned(place), "")
