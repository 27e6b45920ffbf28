"""The kernel's log of denials: records of Linux 6.18 in four forms, and what can be lost, cut or mixed in them.

`denied/` has the lines that the kernel sent for programs that a policy confined: on the netlink socket of audit, as
dmesg shows them, and as two versions of auditd write them. The expected errors and rights are what those programs tried
and how the kernel answered them; what the fields mean is in the kernel's Documentation/admin-guide/LSM/landlock.rst.
"""

from __future__ import annotations

import json
import random
import re
import unittest
from collections.abc import Iterable
from pathlib import Path

from landaudit_record.engine.answers import Closed, Missing, Mounting, Objection, Scoped, Tracing
from landaudit_record.kernel_log import calls, counting, data, denials, granting, records
from landaudit_record.kernel_log.denials import Denial, Log
from landaudit_record.kernel_log.records import UnreadRecord

from .drawn import by_chance

DENIED = Path(__file__).resolve().parent / "denied"
HEADERS = Path("/usr/include")
OUT, IN, BOX = "/work/box/out", "/work/box/in", "/work/box/box"


def read(*texts: str | bytes) -> Log:
    """What some logs say."""
    data = [text.encode() if isinstance(text, str) else text for text in texts]
    return denials.read(records.read(f"log{number}", one.split(b"\n")) for number, one in enumerate(data, start=1))


def kept(name: str) -> bytes:
    """A kept log."""
    return (DENIED / name).read_bytes()


def on(path: str, *rights: str) -> Missing:
    return Missing(rights, path)


#: What each program tried, by the serial number of its denial: the call, how it ended, and what was lacking.
TRIED: dict[int, tuple[str, str | None, tuple[Objection, ...]]] = {
    175: ("openat", "EACCES", (on(f"{OUT}/file", "read_file"),)),
    177: ("openat", "EACCES", (on(f"{OUT}/with space", "read_file"),)),
    179: ("openat", "EACCES", (on(f'{OUT}/n\u00e9"q', "read_file"),)),
    181: ("openat", "EACCES", (on(f"{OUT}/file", "write_file"),)),
    183: ("openat", "EACCES", (on(f"{OUT}/file", "write_file", "read_file"),)),
    185: ("truncate", "EACCES", (on(f"{OUT}/file", "truncate"),)),
    187: ("openat", "EACCES", (on(f"{IN}/file", "truncate"),)),
    189: ("execve", "EACCES", (on(f"{IN}/prog", "execute"),)),
    191: ("execve", "EACCES", (on(f"{IN}/true", "execute"),)),
    193: ("openat", "EACCES", (on(f"{OUT}/dir", "read_dir"),)),
    195: ("openat", "EACCES", (on(OUT, "make_reg"),)),
    197: ("mkdir", "EACCES", (on(OUT, "make_dir"),)),
    199: ("symlink", "EACCES", (on(OUT, "make_sym"),)),
    201: ("mknodat", "EACCES", (on(OUT, "make_fifo"),)),
    203: ("mknodat", "EACCES", (on(OUT, "make_char"),)),
    205: ("bind", "EACCES", (on(OUT, "make_sock"),)),
    207: ("unlink", "EACCES", (on(OUT, "remove_file"),)),
    209: ("rmdir", "EACCES", (on(OUT, "remove_dir"),)),
    211: ("rename", "EACCES", (on(OUT, "remove_file", "make_reg"),)),
    215: ("ioctl", "EACCES", (on("/dev/null", "ioctl_dev"),)),
    217: ("mount", "EPERM", (Mounting(),)),
    219: ("umount2", "EPERM", (Mounting(),)),
    221: ("bind", "EACCES", (Closed(("bind_tcp",), 8080),)),
    223: ("bind", "EACCES", (Closed(("bind_tcp",), 8081),)),
    225: ("connect", "EACCES", (Closed(("connect_tcp",), 443),)),
    227: ("kill", "EPERM", (Scoped("signal", "sleep"),)),
    229: ("connect", "EPERM", (Scoped("abstract_unix_socket", "@hE-abstract"),)),
    231: ("sendto", "EPERM", (Scoped("abstract_unix_socket", "@hE-dgram"),)),
    233: ("ptrace", "EPERM", (Tracing("sleep"),)),
    235: ("openat", None, (Tracing("sleep"),)),
    237: ("readlink", "EACCES", (Tracing("sleep"),)),
    241: ("renameat", "EXDEV", (on(BOX, "refer"), on(f"{BOX}/sub", "refer"))),
    243: ("openat", "EACCES", (on(f"{OUT}/file", "write_file"),)),
    245: ("openat", "EACCES", (on(IN, "make_reg"),)),
    247: ("connect", "EACCES", (Closed(("connect_tcp",), 443),)),
    249: ("openat", "EACCES", (on(IN, "make_reg"),)),
    250: ("mkdir", "EACCES", (on(IN, "make_dir"),)),
    251: ("openat", "EACCES", (on("/dev/null", "write_file"),)),
    252: ("unlinkat", "EACCES", (on(IN, "remove_file"),)),
    255: ("execve", "EACCES", (on(f"{IN}/prog", "execute"),)),
    257: ("openat", "EACCES", (on(IN, "make_reg"),)),
}
ACCESS = ('type=UNKNOWN[1423] msg=audit(1795939711.837:{serial}): domain={domain} blockers=fs.make_dir path="/a" '
          'dev="vda" ino=1')
DOMAIN = ('type=UNKNOWN[1424] msg=audit(1795939711.837:{serial}): domain={domain} status=allocated mode=enforcing '
          'pid=7 uid=0 exe="/bin/x" comm="x"')
CALL = ('type=SYSCALL msg=audit(1795939711.837:{serial}): arch=c000003e syscall=83 success=no exit=-13 ppid=1 pid=7 '
        'comm="x" exe="/bin/x" subj=a b (enforce) key=(null)')
ENDED = "type=UNKNOWN[1424] msg=audit(1795939719.000:{serial}): domain={domain} status=deallocated denials={denials}"


def line(form: str, serial: int = 1, domain: str = "a1", denials: int = 1) -> str:
    return form.format(serial=serial, domain=domain, denials=denials)


class Real(unittest.TestCase):
    """The kernel's own records."""

    def setUp(self) -> None:
        self.log = read(kept("netlink.log"))
        self.found = {denial.stamp.serial: denial for denial in self.log.denials}

    def test_all_44_records_are_read_and_nothing_is_missing(self) -> None:
        self.assertEqual(sum(len(denial.accesses) for denial in self.log.denials), 44)
        self.assertEqual(self.log.records, len(kept("netlink.log").splitlines()))
        self.assertEqual(([*self.log.not_known()], self.log.unread, self.log.lost), ([], (), ()))

    def test_each_call_and_what_it_lacked(self) -> None:
        self.assertEqual(self.found.keys() - TRIED.keys(), {213})
        for serial, (name, error, objections) in TRIED.items():
            with self.subTest(serial):
                denial = self.found[serial]
                self.assertEqual(tuple(access.objection for access in denial.accesses), objections)
                assert denial.call is not None
                self.assertEqual((denial.call.name, denial.call.error), (name, error))
                self.assertEqual(denial.succeeded, error is None)

    def test_a_link_lists_each_right_that_a_directory_lacks(self) -> None:
        first, second = (access.objection for access in self.found[213].accesses)
        assert isinstance(first, Missing) and isinstance(second, Missing)
        self.assertEqual((len(first.rights), first.path), (14, IN))
        self.assertEqual((second.rights, second.path), (("execute",), BOX))

    def test_the_places_of_mounts(self) -> None:
        self.assertEqual([self.found[serial].accesses[0].place for serial in (217, 219)], [f"{OUT}/dir", "/ of proc"])

    def test_a_domain_tells_of_the_sandboxer_and_a_call_of_the_program(self) -> None:
        denial = self.found[250]
        maker = self.log.domains[denial.accesses[0].domain].maker
        assert maker is not None and denial.call is not None
        self.assertEqual((maker.pid, maker.uid), (31367, 0))
        self.assertEqual((maker.program, maker.comm), ("/usr/bin/python3.11", "python3"))
        self.assertEqual((denial.call.program, denial.call.comm, denial.call.pid), ("/usr/bin/mkdir", "mkdir", 31425))
        self.assertEqual(denial.command, ("mkdir", "in/b"))

    def test_the_kernel_counts_as_many_denials_as_it_logs(self) -> None:
        self.assertTrue(self.log.domains)
        for domain in self.log.domains.values():
            self.assertEqual(domain.logged, domain.counted)

    def test_the_other_forms(self) -> None:
        """Both versions of auditd, and dmesg, in the same words."""
        wanted = {"dmesg.log": ["make_dir", "read_file"],
                  "auditd-3.0.9.log": ["make_dir", "read_file", "connect_tcp", "signal"],
                  "auditd-4.0.2.log": ["make_dir", "read_file", "connect_tcp", "signal"]}
        for name, lacking in wanted.items():
            with self.subTest(name):
                log = read(kept(name))
                said = [str(denial.accesses[0].objection) for denial in log.denials]
                self.assertEqual(len(said), len(lacking))
                for word, text in zip(lacking, said):
                    self.assertIn(word, text)
                printed = name == "dmesg.log"
                self.assertEqual(["at most ten records" in one for one in log.not_known()], [True] * printed)
                for denial in log.denials:
                    assert denial.call is not None
                    self.assertIn(denial.call.name, ("mkdir", "openat", "connect", "kill"))

    def test_a_journal_has_the_forms_of_dmesg_behind_a_host(self) -> None:
        text = kept("dmesg.log").decode()
        for prefix in ("[ 2055.030941] host kernel: ", "Nov 29 08:07:29 host kernel: ", ""):
            with self.subTest(prefix):
                log = read(re.sub(r"^\[[^]]*\] ", prefix, text, flags=re.MULTILINE))
                self.assertEqual(log.denials, read(text).denials)

    def test_records_may_come_in_any_order(self) -> None:
        lines = kept("netlink.log").splitlines()
        random.Random(7).shuffle(lines)
        log = read(b"\n".join(lines))
        self.assertEqual({denial.stamp: denial.call for denial in log.denials},
                         {denial.stamp: denial.call for denial in self.log.denials})
        self.assertEqual(log.domains, self.log.domains)

    def test_an_event_that_two_logs_have_counts_once(self) -> None:
        text = kept("netlink.log")
        both = read(text, b"\n".join(text.splitlines()[:100]))
        self.assertEqual((both.denials, both.domains), (self.log.denials, self.log.domains))

    def test_only_one_program(self) -> None:
        for name in ("mkdir", "/usr/bin/mkdir"):
            some = denials.of_program(self.log, name)
            self.assertEqual([denial.stamp.serial for denial in some.denials], [250])
            self.assertEqual(list(some.domains), [some.denials[0].accesses[0].domain])
        for name, wanted in (("python3", self.log.denials), ("nosuch", ())):
            some = denials.of_program(self.log, name)
            self.assertEqual((some.denials, some.nameless, [*some.not_known()]), (wanted, 0, []))

    def test_a_denial_without_a_program_may_be_of_any(self) -> None:
        log = read("\n".join([line(ACCESS), line(DOMAIN, 2), line(ENDED, 3)]))
        self.assertEqual(len(denials.of_program(log, "x").denials), 1)
        some = denials.of_program(log, "other")
        self.assertEqual((some.denials, some.nameless), ((), 1))
        (said,) = some.not_known()
        self.assertEqual(said, "1 denial without a record of the call: it is not known whether other made it")


class Missed(unittest.TestCase):
    """What a log does not have: each is told."""

    def said(self, *lines: str) -> list[str]:
        return list(read("\n".join(lines)).not_known())

    def test_a_whole_log(self) -> None:
        self.assertEqual(self.said(line(ACCESS), line(DOMAIN), line(CALL), line(ENDED, 2)), [])

    def test_no_record_at_all(self) -> None:
        for text in ("", "some other log\n"):
            (said,) = self.said(text)
            self.assertIn("no record of the kernel's audit", said)

    def test_records_of_other_kinds_alone(self) -> None:
        self.assertEqual(self.said("type=DAEMON_START msg=audit(1795939711.837:9): op=start ver=4.0.2"), [])

    def test_denials_that_the_kernel_counted(self) -> None:
        (said,) = self.said(line(ACCESS), line(DOMAIN), line(ENDED, 2, denials=3))
        self.assertTrue(said.startswith("domain a1: the log has 1 of the 3 denials that the kernel counted: "), said)

    def test_a_log_that_begins_later(self) -> None:
        self.assertEqual(self.said(line(ACCESS)), ["domain a1: the log does not have its first denial"])
        (said,) = self.said(line(ENDED, denials=1))
        self.assertTrue(said.startswith("domain a1: the log has 0 of the 1 denial that the kernel counted: "), said)

    def test_records_that_the_kernel_lost(self) -> None:
        for lost in ("audit: audit_lost=3 audit_rate_limit=0 audit_backlog_limit=64", "audit: rate limit exceeded",
                     "audit: backlog limit exceeded", "audit: audit_backlog=65 > audit_backlog_limit=64",
                     "audit: kauditd hold queue overflow", "kauditd_printk_skb: 15 callbacks suppressed",
                     "audit: out of memory in audit_log_start", "Missed 4 kernel messages"):
            with self.subTest(lost):
                (said,) = self.said(f"[ 12.5] {lost}", line(ACCESS), line(DOMAIN), line(ENDED, 2))
                self.assertTrue(said.startswith("log1:1: "), said)
                self.assertTrue(said.endswith(": records were lost"), said)

    def test_as_many_records_as_the_kernel_prints(self) -> None:
        """It prints ten in five seconds by default (Documentation/admin-guide/sysctl/kernel.rst, printk_ratelimit)."""
        def printed(number: int, seconds: int) -> str:
            return "\n".join(f"audit: type=1327 audit({1000 + index * seconds}.000:{index}): proctitle=61"
                             for index in range(number))

        self.assertEqual(self.said(printed(9, 0)), [])
        self.assertEqual(self.said(printed(30, 1)), [])
        (said,) = self.said(printed(10, 0))
        self.assertTrue(said.startswith("log1:10: the kernel prints at most ten records in five seconds"))
        by_auditd = printed(30, 0).replace("audit: type=1327 ", "type=PROCTITLE msg=")
        self.assertEqual(self.said(by_auditd), [])

    def test_a_record_that_is_cut(self) -> None:
        """The kernel prints at most a thousand bytes of a record: what is read of those must be whole."""
        for form in (ACCESS, DOMAIN, ENDED):
            text = line(form)
            told = text.index("): ") + len("): ")
            for end in range(told, len(text)):
                if not _is_whole(text[:end], form):
                    with self.subTest(text[:end]):
                        log = read("\n".join([line(ACCESS, 5), line(DOMAIN, 5), text[:end]]))
                        self.assertEqual([one.place for one in log.unread], ["log1:3"])

    def test_a_path_in_hexadecimal_that_is_cut(self) -> None:
        for path in ("2F61", "2F6", '"/a'):
            text = line(ACCESS).partition("path=")[0] + f"path={path}"
            (unread,) = read(text).unread
            self.assertEqual(unread.place, "log1:1")

    def test_a_record_in_another_form(self) -> None:
        """As ausearch -i, journald's own socket of audit, and journalctl -o json write it, and one that is cut."""
        for text in ("type=LANDLOCK_ACCESS msg=audit(11/29/2026 08:08:31.837:268) : domain=a1 blockers=fs.make_dir",
                     "Nov 29 08:08:31 host audit[11632]: UNKNOWN[1423] domain=a1 blockers=fs.make_dir path=\"/a\"",
                     "Nov 29 08:08:31 host audit[11632]: LANDLOCK_DOMAIN domain=a1 status=allocated",
                     "Nov 29 08:08:31 host audit[11632]: AUDIT1423 domain=a1 blockers=fs.make_dir",
                     '{"MESSAGE":"audit: type=1423 audit(1795939649.573:260): domain=a1 blockers=fs.make_dir"}',
                     "[ 2055.030941] audit: type=1423 audit(17959"):
            with self.subTest(text):
                (unread,) = read(text).unread
                self.assertIn("no audit(TIME:SERIAL)", str(unread))

    def test_huge_numbers(self) -> None:
        """Python turns no text of more than 4,300 digits into a number by itself."""
        huge = "1" * 5_000
        port = line(ACCESS).partition("fs.")[0] + f"net.bind_tcp src={huge}"
        for text in (port, line(DOMAIN).replace("pid=7", f"pid={huge}"), line(ACCESS).replace("1795939711", huge),
                     line(ENDED).replace("denials=1", f"denials={huge}")):
            log = read(text)
            self.assertEqual((len(log.unread), log.denials), (1, ()))
        call = line(CALL).replace("syscall=83", f"syscall={huge}").replace("exit=-13", f"exit=-{huge}")
        (denial,) = read("\n".join([line(ACCESS), call])).denials
        assert denial.call is not None
        self.assertEqual((denial.call.name, denial.call.error), ("-", None))

    def test_unknown_blockers_and_states(self) -> None:
        for text in (line(ACCESS).replace("fs.make_dir", "proc.look"), line(ACCESS).replace("fs.make_dir", ""),
                     line(DOMAIN).replace("allocated", "born"), line(ENDED).replace("denials=1", "denials=x")):
            with self.subTest(text):
                self.assertEqual(len(read(text).unread), 1)

    @by_chance(examples=40)
    def test_no_log_is_too_odd_to_be_read(self, chance: random.Random) -> None:
        """Logs with some bytes changed, removed and doubled: all that is read of them can be counted and written."""
        odd = bytearray(kept("netlink.log")[:20_000] + kept("dmesg.log") + kept("auditd-4.0.2.log"))
        for _ in range(chance.randint(1, 400)):
            at = chance.randrange(len(odd))
            odd[at:at + chance.randrange(3)] = chance.choice((b"", b"0", b"\xff", b'"', b" ", b"=", b"-", b"F" * 9))
        log = read(bytes(odd))
        found = counting.count(log)
        written = json.dumps(data.as_data(found, granting.grant(log)))
        self.assertEqual(json.loads(written)["denied"], len(log.denials))

    def test_other_lines_are_passed_over(self) -> None:
        """Also one of a command whose words look like a record."""
        fake = 'type=EXECVE msg=audit(1795939711.837:3): argc=2 a0="grep" a1="type=LANDLOCK_ACCESS msg=audit(1.0:1): x"'
        log = read("\n".join(["a line", fake, "\0\0", "type=EOE msg=audit(1795939711.837:3): "]))
        self.assertEqual((log.denials, log.unread, log.records), ((), (), 2))


def _is_whole(text: str, form: str) -> bool:
    """Whether the beginning of a record has all that is read of it."""
    needed = {ACCESS: r" ino=", DOMAIN: r' comm="x"', ENDED: r" denials=[0-9]+"}[form]
    return re.search(needed, text) is not None


class Unusual(unittest.TestCase):
    def one(self, *lines: str) -> Denial:
        (denial,) = read("\n".join(lines)).denials
        return denial

    def test_without_records_of_calls(self) -> None:
        """An audit rule `never,task` leaves each record with a serial number of its own."""
        denial = self.one(line(ACCESS, 1), line(DOMAIN, 2))
        self.assertEqual((denial.call, denial.succeeded, denial.command), (None, False, ()))

    def test_labels_of_any_form(self) -> None:
        call = self.one(line(ACCESS), line(CALL)).call
        assert call is not None
        self.assertEqual((call.name, call.program, call.error), ("mkdir", "/bin/x", "EACCES"))

    def test_a_host_before_a_record(self) -> None:
        self.assertEqual(self.one(f"node=web {line(ACCESS)}"), self.one(line(ACCESS)))

    def test_a_port_of_zero_is_not_written(self) -> None:
        text = line(ACCESS).partition("fs.make_dir")[0] + "net.bind_tcp"
        self.assertEqual(self.one(text).accesses[0].objection, Closed(("bind_tcp",), 0))

    def test_a_path_that_is_not_utf_8(self) -> None:
        text = line(ACCESS).replace('"/a"', "2FFF")
        self.assertEqual(self.one(text).accesses[0].objection, on("/\udcff", "make_dir"))

    def test_a_path_that_the_kernel_does_not_write(self) -> None:
        """audit_log_d_path() writes these words if the path is too long, or memory is missing."""
        text = line(ACCESS).replace('"/a"', '"<too_long>"')
        self.assertEqual(str(self.one(text).accesses[0].objection), "make_dir on <too_long>")

    def test_a_call_of_io_uring(self) -> None:
        ring = "type=URINGOP msg=audit(1795939711.837:1): uring_op=18 success=no exit=-13 items=0 ppid=1 pid=7 uid=0"
        call = self.one(line(ACCESS), ring).call
        assert call is not None
        self.assertEqual((call.name, call.error, call.program), ("io_uring 18", "EACCES", None))

    def test_the_next_number_of_auditds_types(self) -> None:
        for name in ("LANDLOCK_ACCESS", "UNKNOWN[1423]"):
            self.assertEqual(self.one(line(ACCESS).replace("UNKNOWN[1423]", name)), self.one(line(ACCESS)))


class Calls(unittest.TestCase):
    def test_numbers_are_those_of_the_kernels_headers(self) -> None:
        tables = {"x86_64-linux-gnu/asm/unistd_64.h": 0xC000003E, "x86_64-linux-gnu/asm/unistd_32.h": 0x40000003,
                  "asm-generic/unistd.h": 0xC00000B7}
        for header, architecture in tables.items():
            file = HEADERS / header
            if not file.exists():
                self.skipTest(f"{file} is not there: it is of linux-libc-dev on x86_64")
            numbers = dict(_numbers(file.read_text().splitlines()))
            named = {number: calls.name(architecture, number) for number in range(500)}
            known = {number: name for number, name in named.items() if not name.startswith("system call")}
            self.assertGreater(len(known), 40)
            for number, name in known.items():
                with self.subTest(header, name=name):
                    self.assertEqual(numbers.get(name), number)

    def test_another_number_or_architecture(self) -> None:
        self.assertEqual(calls.name(0xC000003E, 0), "system call 0")
        self.assertEqual(calls.name(0x12345678, 83), "system call 83")


def _numbers(lines: Iterable[str]) -> Iterable[tuple[str, int]]:
    for text in lines:
        found = re.match(r"#define __NR(?:3264)?_(\w+)\s+([0-9]+)\b", text)
        if found:
            yield found[1], int(found[2])


class Told(unittest.TestCase):
    def test_an_unread_line_is_one_line(self) -> None:
        self.assertEqual(str(UnreadRecord("log:3", "is cut")), "log:3: is cut")
