"""What file modes refuse (path_resolution(7), "Permissions"; open(2), EACCES)."""

from __future__ import annotations

import unittest
from typing import Any

from landaudit_record.recorder import modes
from landaudit_record.recorder.modes import READ, RUN, WRITE, Credentials, Mode
from landaudit_record.recorder.scene import BEFORE_MODES, BY_MODES, BY_UNSEEN_LAYER

from .strace_lines import CONFINED, CWD, StraceLines

ME = Credentials(1000, frozenset({100, 27}))
MODES = {
    "/": Mode(0o755, 0, 0),
    "/d": Mode(0o755, 0, 0),
    "/d/mine": Mode(0o600, 1000, 100),
    "/d/ours": Mode(0o640, 0, 27),
    "/d/all": Mode(0o644, 0, 0),
    "/d/not-mine": Mode(0o077, 1000, 100),
    "/closed": Mode(0o700, 0, 0),
    "/closed/all": Mode(0o666, 0, 0),
    "/tmp": Mode(0o777, 0, 0),
}


def refused(op: str, runs: bool = False, **members: Any) -> bool:
    return modes.refuse(ME, MODES.get, op, members, runs)


class Modes(unittest.TestCase):
    def test_the_bits_of_the_class_count_alone(self) -> None:
        for path, read, write in (("mine", True, True), ("ours", True, False), ("all", True, False),
                                  ("not-mine", False, False)):
            with self.subTest(path=path):
                self.assertEqual((ME.may(MODES[f"/d/{path}"], READ), ME.may(MODES[f"/d/{path}"], WRITE)), (read, write))
        self.assertTrue(ME.may(None, READ | WRITE | RUN))

    def test_a_file(self) -> None:
        self.assertFalse(refused("open", path="/d/all", mode="r"))
        self.assertTrue(refused("open", path="/d/all", mode="rw"))
        self.assertTrue(refused("truncate", path="/d/all"))
        self.assertTrue(refused("exec", path="/d/all", runs=True))
        self.assertTrue(refused("open", path="/d/all~2~", shown="/d/all", mode="w"))

    def test_a_directory_on_the_way(self) -> None:
        self.assertTrue(refused("open", path="/closed/all", mode="r"))
        self.assertTrue(refused("open", path="/closed/none", mode="r"))

    def test_a_directory_that_is_changed(self) -> None:
        for op in ("mkdir", "unlink", "rmdir", "mknod", "symlink"):
            self.assertTrue(refused(op, path="/d/x"))
            self.assertFalse(refused(op, path="/tmp/x"))
        self.assertTrue(refused("open", path="/d/x", mode="w", create=True))
        self.assertTrue(refused("rename", **{"from": "/d/all"}, to="/tmp/x"))
        self.assertTrue(refused("link", **{"from": "/tmp/x"}, to="/d/x"))
        self.assertFalse(refused("link", **{"from": "/d/all"}, to="/tmp/x"))
        self.assertFalse(refused("bind", port=80))


class Calls(StraceLines):
    uid = 1000

    def test_what_modes_refuse_under_a_layer_is_left_out(self) -> None:
        trace = self.convert(
            CONFINED,
            f'openat({CWD}, "secret", 0 /* O_RDONLY */) = -1 EACCES (Permission denied)',
            f'openat({CWD}, "f", 0 /* O_RDONLY */) = -1 EACCES (Permission denied)',
        )
        self.assertEqual([record["path"] for record in trace if record["op"] == "open"], ["/w/f"])
        self.assertEqual(self.unsaid(), ["EACCES by file modes, whatever a policy says"])


    def test_a_move_to_another_directory_is_asked_before_the_modes_of_directories(self) -> None:
        """Linux 6.18 says EXDEV where a layer does not grant `refer`, and else EACCES."""
        moved = 'rename("f", "{}/f") = -1 EACCES (Permission denied)'
        asked, otherwise = self.convert(moved.format("d"))
        self.assertEqual((asked["from"], asked["unknown"]), ("/w/f", BEFORE_MODES))
        self.assertEqual((otherwise["shown"], otherwise["otherwise"]), ("/w/f", True))
        self.assertNotIn(otherwise["from"], self.tree())
        self.assertEqual(len(self.convert('link("f", "d/f") = -1 EACCES (Permission denied)')), 2)
        self.assertEqual(self.convert(moved.format(".")), [])
        self.assertEqual(self.convert(moved.format("closed")), [])
        self.assertEqual(self.unsaid(), [BY_MODES])


class UnderALayer(StraceLines):
    """A recorder that is under a layer itself, of which the log has nothing."""

    under_layer = True

    def test_the_layer_may_have_refused_what_ends_in_eacces(self) -> None:
        self.assertEqual(self.convert(f'openat({CWD}, "f", 0 /* O_RDONLY */) = -1 EACCES (Permission denied)'), [])
        self.assertEqual(self.unsaid(), [BY_UNSEEN_LAYER])
        self.assertEqual(self.one(f'openat({CWD}, "f", 0 /* O_RDONLY */) = 3</w/f>')["path"], "/w/f")


class Links(StraceLines):
    """Links that a kernel with protected hard links refuses: Linux 6.18 says EPERM also under a layer that would refuse
    them, and EACCES there of the others.
    """

    uid = 1000
    protected_hardlinks = True

    def test_which_files_are_not_safe(self) -> None:
        for bits, kind, uid, forbidden in (
            (0o644, "reg", 0, True), (0o666, "reg", 0, False), (0o4666, "reg", 0, True), (0o2676, "reg", 0, True),
            (0o2666, "reg", 0, False), (0o600, "reg", 1000, False), (0o777, "sym", 0, True), (0o666, "fifo", 0, True),
        ):
            with self.subTest(bits=oct(bits), kind=kind, uid=uid):
                self.assertEqual(modes.forbid_link(ME, Mode(bits, uid, 0), kind), forbidden)
        self.assertFalse(modes.forbid_link(ME, None, "reg"))
        self.assertTrue(modes.forbid_link(ME, None, "sym"))

    def test_they_are_no_question_to_landlock(self) -> None:
        link = 'link("/w/{}", "/w/n") = -1 EPERM (Operation not permitted)'
        self.assertEqual(self.convert(link.format("theirs")), [])
        self.assertEqual(self.unsaid(), ["EPERM of a protected hard link, before Landlock is asked"])
        self.assertEqual([record["op"] for record in self.convert(link.format("f"))], ["link"])
        self.protected_hardlinks = False
        self.assertEqual([record["op"] for record in self.convert(link.format("theirs"))], ["link"])


class Privileged(StraceLines):
    def test_modes_do_not_count_for_who_has_privileges(self) -> None:
        trace = self.convert(
            CONFINED, f'openat({CWD}, "secret", 0 /* O_RDONLY */) = -1 EACCES (Permission denied)',
        )
        self.assertEqual([record["path"] for record in trace if record["op"] == "open"], ["/w/secret"])


class Users(StraceLines):
    """A program that root starts and that becomes another user (credentials(7), capabilities(7), setpriv(1))."""

    euid = 0
    ALL = "effective=0xfeffffff /* 1<<CAP_CHOWN|1<<CAP_DAC_OVERRIDE|1<<CAP_DAC_READ_SEARCH */|0x1ff, permitted=0x7"
    BECOMES = "setresuid(65534, 65534, 65534) = 0"
    RUNS = 'execve("/w/p", ["p"], 0x1 /* 2 vars */) = 0'

    def judged(self, *calls: str, of: str = "secret") -> bool:
        """Whether a refused call counts as one that Landlock may have refused."""
        opens = f'openat({CWD}, "{of}", 0 /* O_RDONLY */) = -1 EACCES (Permission denied)'
        trace = self.convert(CONFINED, *calls, opens)
        return any(record.get("path") == f"/w/{of}" for record in trace)

    def test_modes_count_for_another_user(self) -> None:
        self.assertTrue(self.judged())
        for becomes in (self.BECOMES, "setuid(65534) = 0", "setreuid(-1, 65534) = 0", "setuid32(65534) = 0"):
            self.assertFalse(self.judged(becomes))
            self.assertFalse(self.judged(becomes, self.RUNS))
        self.assertTrue(self.judged("setresuid(65534, -1, -1) = 0"))
        self.assertTrue(self.judged("setuid(65534) = -1 EPERM (Operation not permitted)"))
        self.assertTrue(self.judged("setfsuid(65534) = 0", "setfsuid(0) = 65534"))

    def test_groups_count_too(self) -> None:
        for groups in ("setgid(27) = 0", "setresgid(-1, 27, -1) = 0", "setgroups(2, [5, 27]) = 0"):
            self.assertTrue(self.judged(groups, self.BECOMES, of="ours"))
        self.assertFalse(self.judged("setgroups(0, []) = 0", self.BECOMES, of="ours"))
        self.assertTrue(self.judged("setgroups(2, 0x7ffe) = 0", self.BECOMES, of="ours"))

    def test_privileges_that_are_kept_end_with_an_exec(self) -> None:
        kept = f"capset({{version=0x20080522, pid=10}}, {{{self.ALL}}}) = 0"
        self.assertTrue(self.judged(self.BECOMES, kept))
        self.assertFalse(self.judged(self.BECOMES, kept, self.RUNS))
        none = "capset({version=0x20080522, pid=10}, {effective=0, permitted=0x7, inheritable=0}) = 0"
        self.assertFalse(self.judged(none, of="theirs"))
        self.assertTrue(self.judged(none, self.RUNS, of="theirs"))

    def test_what_is_not_followed_is_not_known(self) -> None:
        for losing in (
            "unshare(0x10000000 /* CLONE_NEWUSER */) = 0",
            "setns(3<user:[4026531837]>, 0) = 0",
            "prctl(0x1c /* PR_SET_SECUREBITS */, 0x4) = 0",
            "prctl(0x2f /* PR_CAP_AMBIENT */, 0x2 /* PR_CAP_AMBIENT_RAISE */, 0x1, 0, 0) = 0",
        ):
            self.assertTrue(self.judged(losing, self.BECOMES))
        asks = "prctl(0x2f /* PR_CAP_AMBIENT */, 0x1 /* PR_CAP_AMBIENT_IS_SET */, 0, 0, 0) = 0"
        self.assertFalse(self.judged(asks, self.BECOMES))

    def test_each_thread_has_a_user_of_its_own(self) -> None:
        """credentials(7), "Process: setfsuid(2)": the C library changes the user of other threads by calls of theirs."""
        opens = f'openat({CWD}, "secret", 0 /* O_RDONLY */) = -1 EACCES (Permission denied)'
        fork = "clone(child_stack=NULL, flags=0x10f00 /* CLONE_VM|CLONE_FS|CLONE_FILES|CLONE_SIGHAND|CLONE_THREAD */) = 11"
        trace = self.convert(CONFINED, f"{fork}\n11  setfsuid(65534) = 0\n11  {opens}", opens)
        self.assertEqual([record["call"] for record in trace if record.get("path") == "/w/secret"], [6])
        self.assertEqual(self.unsaid(), [BY_MODES])

    def test_another_mount_namespace_has_other_modes(self) -> None:
        for goes in ("unshare(0x20000 /* CLONE_NEWNS */) = 0", "setns(3<mnt:[4026531841]>, 0x20000 /* CLONE_NEWNS */) = 0"):
            self.assertTrue(self.judged(goes, self.BECOMES))

    def test_secure_bits_from_before_the_recording(self) -> None:
        """capabilities(7): with SECBIT_NO_SETUID_FIXUP a change of user changes no capabilities."""
        self.keeps_privileges = True
        self.assertTrue(self.judged(self.BECOMES))

    def test_a_child_is_of_its_makers_user(self) -> None:
        opens = f'openat({CWD}, "secret", 0 /* O_RDONLY */) = -1 EACCES (Permission denied)'
        for flags, left in (("17", 1), ("0x10000000 /* CLONE_NEWUSER */|17", 0)):
            fork = f"clone(child_stack=NULL, flags={flags}) = 11"
            self.convert(CONFINED, self.BECOMES, fork, f"{opens}\n11  {opens}")
            self.assertEqual(len(self.unsaid()), 1 + left)
