"""Paths of many names, as configure scripts make them to try getcwd(3)."""

from __future__ import annotations

from landaudit_record.common import jsonl

from .written_logs import WrittenLogs


class Deep(WrittenLogs):
    def made(self, name: str, levels: int) -> list[str]:
        """The directories that a log says are made, each in the one before it."""
        down = (f'mkdir("{name}", 0700) = 0', f'chdir("{name}") = 0')
        return [record["path"].replace("~new~", "") for record in self.convert(*down * levels)]

    def test_each_directory_is_made_in_the_one_before_it(self) -> None:
        self.assertEqual(self.made("n", 600), ["/w" + "/n" * count for count in range(1, 601)])
        # Those in which something is made are listed, each behind the one that it is in.
        listed = [line["path"] for _, line in jsonl.numbered(self.out / "tree.jsonl")]
        self.assertEqual([path for path in listed if "/n" in path], ["/w" + "/n" * count for count in range(1, 600)])

    def test_what_is_longer_than_a_path_is_counted(self) -> None:
        name = "n" * 19
        made = self.made(name, 500)
        fitting = [f"/w{f'/{name}' * count}" for count in range(1, 205)]
        self.assertEqual(made, [path for path in fitting if len(path) + len("~new~") <= 4096])
        self.assertEqual(len(self.unsaid()), 500 - len(made))
