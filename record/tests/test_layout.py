"""Text that fits a width: worked out by hand, character by character."""

from __future__ import annotations

import os
import subprocess
import unittest
from io import BytesIO, StringIO, TextIOWrapper
from unittest import mock

from landaudit_record.common import layout, wording
from landaudit_record.common.layout import Column, Lack, words


class Widths(unittest.TestCase):
    def test_a_stream_that_is_no_terminal(self) -> None:
        for columns, wanted in ((None, 80), ("123", 123), ("20", 20), ("7", 20)):
            given = {} if columns is None else {"COLUMNS": columns}
            with self.subTest(columns), mock.patch.dict(os.environ, given, clear=True):
                self.assertEqual(layout.width_of(StringIO()), wanted)

    def test_a_terminal(self) -> None:
        stream = StringIO()
        size = os.terminal_size((57, 9))
        with (mock.patch.dict(os.environ, clear=True), mock.patch.object(stream, "isatty", return_value=True),
              mock.patch("os.get_terminal_size", return_value=size)):
            self.assertEqual(layout.width_of(stream), 57)

    def test_wide_characters_take_two_columns(self) -> None:
        self.assertEqual([layout.wide(text) for text in ("", "abc", "é", "\u6f22a", "\u05d0")], [0, 3, 1, 3, 1])

    def test_what_a_stream_can_not_encode(self) -> None:
        stream = TextIOWrapper(BytesIO(), encoding="ascii")
        self.assertEqual(layout.encodable("a…\u6f22é", stream), "a???")
        self.assertEqual(layout.encodable("a…", StringIO()), "a…")


class Texts(unittest.TestCase):
    def test_the_middle_is_left_out(self) -> None:
        """Of nine columns eight are left beside the ellipsis, of which 0.3 are two, so six are behind it."""
        self.assertEqual(layout.shortened("abcdefghij", 10), "abcdefghij")
        self.assertEqual(layout.shortened("abcdefghij", 9), "ab…efghij")
        self.assertEqual(layout.shortened("abcdefghij", 1), "…")

    def test_a_wide_character_is_whole_or_left_out(self) -> None:
        """Of six columns five are left, one for the beginning, which holds none. Five behind hold two."""
        self.assertEqual(layout.shortened("\u6f22" * 9, 6), "…\u6f22\u6f22")

    def test_letters_from_right_to_left_are_escaped(self) -> None:
        self.assertEqual(wording.plain("/a/\u05d0b\u0661"), r"/a/\u05d0b\u0661")
        self.assertEqual(wording.plain("/a/é\u6f22"), "/a/é\u6f22")
        self.assertEqual(wording.plain("\u202e\x1b\udcff"), r"\u202e\x1b\udcff")

    def test_a_sentence_is_folded_at_blanks(self) -> None:
        self.assertEqual(layout.folded("one two three four", 9), ["one two", "  three", "  four"])
        self.assertEqual(layout.folded("a bcdefghijklmno", 9), ["a", "  b…klmno"])

    def test_a_command_is_read_by_a_shell_as_it_was(self) -> None:
        words = ["run", "a b", "x" * 30, "--to", "it's"]
        lines = layout.command(words, 12)
        long = ["x" * 11 + "\\", "x" * 11 + "\\", "xxxxxxxx \\"]
        self.assertEqual(lines, ["run 'a b' \\", *long, "--to \\", "'it'\"'\"'s'"])
        shown = subprocess.run(["sh", "-c", "printf '%s\\n' " + "\n".join(lines)], stdout=subprocess.PIPE, check=True)
        self.assertEqual(shown.stdout.decode().splitlines(), words)


class Cells(unittest.TestCase):
    def test_words_before_a_path_stay(self) -> None:
        cell = layout.behind("3 files in ", "/usr/lib/python3")
        self.assertEqual((cell(27), cell(21)), ("3 files in /usr/lib/python3", "3 files in /u…python3"))

    def test_fewer_names_and_then_shorter_ones(self) -> None:
        cell = layout.names(["/bin/one", "/bin/two", "/bin/three", "/bin/four"], brief=os.path.basename)
        self.assertEqual(cell(41), "/bin/one, /bin/two, /bin/three and 1 more")
        self.assertEqual((cell(40), cell(29)), ("/bin/one, /bin/two and 2 more",) * 2)
        self.assertEqual((cell(28), cell(19)), ("/bin/one and 3 more",) * 2)
        self.assertEqual((cell(18), cell(11)), ("/bin/one +3",) * 2)
        self.assertEqual(cell(10), "one +3")

    def test_room_is_shared_and_who_wants_little_gets_it(self) -> None:
        self.assertEqual(layout.shared([4, 30, 40], 44), [4, 20, 20])
        self.assertEqual(layout.shared([4, 10, 40], 44), [4, 10, 30])

    def test_a_move_has_both_of_its_paths(self) -> None:
        cell = layout.parts(["/a/aaaaaaaaaa", "/b"], " -> ")
        self.assertEqual((cell(19), cell(15)), ("/a/aaaaaaaaaa -> /b", "/a…aaaaaa -> /b"))

    def test_rights_stay_whole_longer_than_their_path(self) -> None:
        cell = layout.lacks([Lack(("write_file", "read_file", "make_reg"), " on ", "/srv/data/files")])
        self.assertEqual(cell(50), "write_file, read_file, make_reg on /srv/data/files")
        self.assertEqual(cell(42), "write_file, read_file, make_reg on …/files")
        self.assertEqual(cell(41), "write_file, read_file, make_reg")
        self.assertEqual((cell(30), cell(24)), ("write_file, read_file +1",) * 2)
        self.assertEqual((cell(23), cell(13)), ("write_file +2",) * 2)
        self.assertEqual(layout.wide(cell(12)), 12)

    def test_rights_on_two_paths(self) -> None:
        cell = layout.lacks([Lack(("refer",), " on ", "/srv/data"), Lack(("refer",), " on ", "/srv/files")])
        self.assertEqual(cell(39), "refer on /srv/data; refer on /srv/files")
        self.assertEqual(cell(30), "refer on …data; refer on …iles")
        self.assertEqual((cell(29), cell(5)), ("refer", "refer"))

    def test_rights_without_a_path(self) -> None:
        one, two = Lack(("write_file", "read_file", "make_reg")), Lack(("truncate",))
        self.assertEqual(layout.lacks([one])(24), "write_file, read_file +1")
        cell = layout.lacks([one, two])
        self.assertEqual(cell(41), "write_file, read_file, make_reg; truncate")
        self.assertEqual(cell(40), "write_file, read_file, make…eg; truncate")

    def test_names_that_are_alike_by_a_shorter_form_are_told_once(self) -> None:
        cell = layout.names(["/usr/bin/git", "/usr/lib/git-core/git"], brief=os.path.basename)
        self.assertEqual((cell(35), cell(10)), ("/usr/bin/git, /usr/lib/git-core/git", "git"))

    def test_many_names_have_separators_in_their_number(self) -> None:
        self.assertEqual(layout.names([str(number) for number in range(2000)])(30), "0, 1, 2 and 1,997 more")


class Tables(unittest.TestCase):
    COLUMNS = (Column("times", number=True), Column("place", short=True), Column("error", once=True),
               Column("program", short=True, less=True, once=True, none=" or none yet"), Column("why", short=True))

    def table(self, width: int, *rows: tuple[str, ...]) -> list[str]:
        return list(layout.table(self.COLUMNS, [[words(cell) for cell in row] for row in rows], width))

    def test_as_it_is_where_it_fits(self) -> None:
        self.assertEqual(self.table(50, ("2", "/a", "EACCES", "/bin/x", "execute")), [
            "  times  place  error   program  why",
            "      2  /a     EACCES  /bin/x   execute",
        ])

    def test_what_is_alike_in_all_rows_is_told_once_where_it_does_not_fit(self) -> None:
        rows = ("2", "/a/long/path/to", "EACCES", "-", "execute"), ("1", "/b", "EACCES", "/bin/x", "read_file")
        self.assertEqual(self.table(45, *rows), [
            "  all: error EACCES, program /bin/x or none",
            "    yet",
            "  times  place            why",
            "      2  /a/long/path/to  execute",
            "      1  /b               read_file",
        ])

    def test_what_differs_stays_and_is_shortened(self) -> None:
        """Of 51 columns 28 are for blanks and the others; `why` takes nine and leaves 14, which is the least."""
        rows = ("2", "/a/long/path/to/a/file", "EACCES", "/x", "execute"), ("1", "/b", "EXDEV", "/y", "read_file")
        lines = self.table(51, *rows)
        self.assertEqual(lines[1], "      2  /a/…/to/a/file  EACCES  /x       execute")
        self.assertEqual(max(map(len, lines)), 51)
        self.assertEqual(self.table(50, *rows)[0], "- times: 2")

    def test_a_column_that_is_told_before_the_table_where_others_would_be_shortened(self) -> None:
        columns = (*self.COLUMNS[:3], Column("program", short=True, less=True, instead=words("programs: x, y")),
                   self.COLUMNS[4])
        rows = ("2", "/a/long/path", "EACCES", "/bin/x", "execute"), ("1", "/b", "EXDEV", "/bin/y", "read_file")
        cells = [[words(cell) for cell in row] for row in rows]
        self.assertEqual(list(layout.table(columns, cells, 54))[0], "  times  place         error   program  why")
        self.assertEqual(list(layout.table(columns, cells, 48)), [
            "  programs: x, y",
            "  times  place         error   why",
            "      2  /a/long/path  EACCES  execute",
            "      1  /b            EXDEV   read_file",
        ])

    def test_a_directory_of_several_paths_is_named_once_where_the_table_does_not_fit(self) -> None:
        """`/home/me/web` saves ten columns four times; the longer `/home/me/web/css` would save 14 of them twice."""
        columns = Column("times", number=True), Column("place", short=True), Column("why", short=True)
        rows = [
            [words("2"), layout.parts(["/home/me/web/css/a", "/home/me/web/css/b"], " -> "), words("refer")],
            [words("1"), layout.parts(["/home/me/web"], " -> "), words("read_dir")],
            [words("1"), layout.parts(["/home/me/website"], " -> "),
             layout.lacks([Lack(("make_reg",), " on ", "/home/me/web")])],
        ]
        self.assertEqual(list(layout.table(columns, rows, 75))[0], "  times  place                                     why")
        self.assertEqual(list(layout.table(columns, rows, 72)), [
            "  $D is /home/me/web",
            "  times  place                 why",
            "      2  $D/css/a -> $D/css/b  refer",
            "      1  $D                    read_dir",
            "      1  /home/me/website      make_reg on $D",
        ])

    def test_no_short_name_that_no_row_would_have(self) -> None:
        """The rights alone have 14 columns; their paths are left out."""
        rows = [[layout.lacks([Lack(("remove_file",), " on ", f"/home/me/web/{name}")])] for name in "ab"]
        self.assertEqual(list(layout.table((Column("why", short=True),), rows, 16)),
                         ["  why", "  remove_file", "  remove_file"])

    def test_no_short_name_for_a_short_directory_or_a_single_path(self) -> None:
        for paths in (["/usr/lib/a", "/usr/lib/b"], ["/usr/lib/python3/dist-packages"]):
            with self.subTest(paths):
                rows = [[layout.parts([path], " -> ")] for path in paths]
                self.assertNotIn("$D", "".join(layout.table((Column("place", short=True),), rows, 20)))

    def test_words_are_folded_where_no_row_can_be_one(self) -> None:
        lines = list(layout.table((Column("why", short=True), Column("place")), [
            [words("its opening was refused or not asked"), words("/a/name/longer/than/the/line")]], 20))
        self.assertEqual(lines, ["- why: its opening", "    was refused or", "    not asked", "  place: /a/…he/line"])

    def test_a_line_for_each_cell_where_no_row_can_be_one(self) -> None:
        self.assertEqual(self.table(20, ("2", "/a/long/path/to", "EACCES", "/x", "execute")), [
            "  all: error EACCES,",
            "    program /x",
            "- times: 2",
            "  place: /a/…path/to",
            "  why: execute",
        ])
