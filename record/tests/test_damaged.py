"""Logs with damaged lines: what is not understood is counted, and no call is written by halves."""

from __future__ import annotations

import contextlib
import random
from itertools import groupby

from landaudit_record.common.jsonl import Record
from landaudit_record.common.problems import Problem
from landaudit_record.recorder import converting
from landaudit_record.recorder.ports import Ports
from landaudit_record.recorder.writing import ListedTree, Recording

from .drawn import by_chance
from .kept_logs import LOGS, KeptLogs
from .stories import names
from .written_logs import CWD, WrittenLogs

LOGGED = sorted(path.name for path in LOGS.iterdir() if path.is_dir())
MARKS = ('"', ",", "(", ")", "{", "}", "<", ">", "=", "0", "9", "-", " ", "\\", "|", "/")


def damaged(line: str, chance: random.Random) -> str:
    """A line that lacks a piece, has one twice, or has a mark too much."""
    start, end = sorted(chance.randrange(len(line) + 1) for _ in range(2))
    match chance.randrange(3):
        case 0:
            return line[:start] + line[end:]
        case 1:
            return line[:end] + line[start:]
    return line[:start] + chance.choice(MARKS) + line[start:]


class DamagedLogs(KeptLogs):
    @by_chance(examples=20 * len(LOGGED))
    def test_damaged_lines_are_counted_and_every_exec_is_whole(self, chance: random.Random) -> None:
        folder = self.folder(chance.choice(LOGGED))
        log = folder / "strace.txt"
        lines = log.read_text("latin-1").splitlines()
        for at in chance.sample(range(len(lines)), chance.randint(1, min(len(lines), 60))):
            lines[at] = damaged(lines[at], chance)
        log.write_text("".join(f"{line}\n" for line in lines), "latin-1")
        with contextlib.suppress(Problem):
            converting.convert(folder, Ports())
            self.assert_whole(self.lines(folder, "trace.jsonl"))

    def assert_whole(self, trace: list[Record]) -> None:
        """Each file that is opened to be run is run, and what it is opened by is closed."""
        for call, together in groupby(trace, key=lambda record: record["call"]):
            records = list(together)
            runs = [record["path"] for record in records if record["op"] == "exec"]
            if runs:
                opened = [record for record in records if record["op"] == "open"]
                self.assertLessEqual({record["path"] for record in opened}, set(runs), call)
                closed = {record["fd"] for record in records if record["op"] == "close"}
                self.assertLessEqual({record["fd"] for record in opened}, closed, call)


class Halves(WrittenLogs):
    def test_a_root_that_is_made_is_no_line_of_a_kernel(self) -> None:
        made = 'bind(3<socket:[7]>, {sa_family=0x1 /* AF_UNIX */, sun_path="/"}, 110) = 0'
        self.assertEqual(self.convert(made), [])
        self.assertEqual(self.unsaid(), [("a line that is not understood", True)])

    def test_a_call_whose_second_record_cannot_be_said_has_no_first(self) -> None:
        """The other end of a terminal is opened by a name that is not UTF-8: the command is not said either."""
        trace = self.convert(
            f'openat({CWD}, "/dev/ptmx", 0x2 /* O_RDWR */) = 3</dev/ptmx<char 5:2>>',
            r"ioctl(3</dev/ptmx<char 5:2>>, 0x5441 /* TIOCGPTPEER */, 0x2) = 4</dev/pts/\377<char 136:0>>",
            "close(3</dev/ptmx<char 5:2>>) = 0",
        )
        self.assertEqual([record["op"] for record in trace], ["open", "close"])
        self.assertEqual(self.unsaid(), [("a name that is not UTF-8", True)])

    def test_what_keeps_the_books_stays(self) -> None:
        """A number that is used again was closed, whether or not its new file can be said."""
        trace = self.convert(
            f'openat({CWD}, "f", 0 /* O_RDONLY */) = 3</w/f>',
            rf'openat({CWD}, "\377", 0 /* O_RDONLY */) = 3</w/\377>',
            f'openat({CWD}, "g", 0 /* O_RDONLY */) = 4</w/g>',
        )
        self.assertEqual([(record["op"], record["fd"]) for record in trace], [("open", 3), ("close", 3), ("open", 4)])

    def test_records_of_a_call_that_is_dropped(self) -> None:
        with Recording(self.out, ListedTree(names())) as recording:
            recording.write("open", 1, 1, "ok", path="/w/f", fd=1_000_001)
            recording.write("close", 1, 1, fd=1_000_001)
            recording.write("close", 1, 1, fd=3)
            recording.drop()
            recording.write("truncate", 1, 2, "ok", path="/w/f")
            self.assertEqual(recording.records, 2)
            recording.finish(ended=True)
        lines = (self.out / "trace.jsonl").read_text().splitlines()
        self.assertEqual([line[:15] for line in lines], ['{"op":"close","', '{"op":"truncate'])
