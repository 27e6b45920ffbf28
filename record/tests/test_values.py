"""What arguments of calls say."""

from __future__ import annotations

import unittest

from landaudit_record.recorder import values
from landaudit_record.recorder.unwritten import NotUnderstood
from landaudit_record.recorder.values import Descriptor


class Values(unittest.TestCase):
    def test_numbers(self) -> None:
        self.assertEqual(values.number("0x80042 /* O_RDWR|O_CREAT|O_CLOEXEC */"), 0x80042)
        self.assertEqual(values.number("0x1 /* SOCK_STREAM */|0x80000 /* SOCK_CLOEXEC */"), 0x80001)
        self.assertEqual(values.number("0666"), 0o666)
        self.assertEqual(values.number("-1"), -1)
        self.assertEqual(values.number("NULL"), 0)

    def test_names_without_numbers_are_no_numbers(self) -> None:
        for text in ("O_RDONLY|O_CLOEXEC", "", "08"):
            with self.subTest(text), self.assertRaises(NotUnderstood):
                values.number(text)

    def test_processes_by_the_numbers_of_the_log(self) -> None:
        self.assertEqual(values.pid("2 /* 22556 in strace's PID NS */"), 22556)
        self.assertEqual(values.pid("11118"), 11118)

    def test_texts(self) -> None:
        self.assertEqual(values.text(r'"a\"b\\c\n\303\251\x41"'), 'a"b\\c\né' + "A")
        self.assertEqual(values.text(r'"\1\0"'), "\x01\x00")
        self.assertIsNone(values.text("0x7ffd"))
        self.assertIsNone(values.text('"cut"...'))

    def test_escapes_that_strace_does_not_write(self) -> None:
        for text in (r'"\x"', r'"\x4"', r'"\8"'):
            with self.subTest(text), self.assertRaises(NotUnderstood):
                values.text(text)

    def test_a_byte_that_is_not_utf_8_is_no_text_that_json_can_hold(self) -> None:
        with self.assertRaises(UnicodeEncodeError):
            (values.text(r'"\377"') or "").encode()

    def test_descriptors(self) -> None:
        self.assertEqual(values.descriptor("3</etc/passwd>"), Descriptor(3, "/etc/passwd"))
        self.assertEqual(values.descriptor("0</dev/null<char 1:3>>"), Descriptor(0, "/dev/null", "char"))
        self.assertEqual(values.descriptor(r"4</tmp/x\74y\76>(deleted)"), Descriptor(4, "/tmp/x<y>", None, True))
        self.assertEqual(values.descriptor("-100 /* AT_FDCWD */</tmp>"), Descriptor(-100, "/tmp"))
        self.assertEqual(values.descriptor("9"), Descriptor(9, None))
        self.assertIsNone(Descriptor(3, "pipe:[7]").path)

    def test_members_of_structures(self) -> None:
        attr = "{handled_access_fs=0xd /* A|B */, handled_access_net=0x2 /* C */}"
        self.assertEqual(values.number(values.member(attr, "handled_access_fs") or ""), 13)
        self.assertEqual(values.number(values.member(attr, "handled_access_net") or ""), 2)
        self.assertIsNone(values.member(attr, "scoped"))
        self.assertEqual(values.member('{sa_family=0x1 /* AF_UNIX */, sun_path="a, b=}"}', "sun_path"), '"a, b=}"')
