"""Distilled recordings of real programs: audit, suggest and tighten say of them what they say of the recordings."""

from __future__ import annotations

import os
import shutil
import subprocess
import sys
import tempfile
import unittest
from pathlib import Path

from . import standing
from .calling import InFolder
from .live_actor import RECORDER, wanting

#: Shell commands, each with a program that it needs.
COMMANDS = {
    "sort": "sort -o out words; sort -u words > unique; sort none",
    "tar": "tar czf all.tgz src words; tar xzf all.tgz -C made; tar tf all.tgz",
    "gcc": "gcc -O1 -o prog src/one.c && ./prog; gcc -c src/one.c -o made/one.o",
    "make": "make -f src/Makefile -j2 all clean",
    "git": "git init -q repo; cd repo; cp ../words .; git add .; git -c user.name=n -c user.email=e@x commit -qm one; "
           "git status; git gc -q",
    "python3": "python3 -c 'import tempfile, os; f = tempfile.mkstemp(dir=\".\"); os.unlink(f[1]); open(\"w\", \"w\")'",
    "perl": "perl -e 'open F, \">>\", \"words\"; rename \"src\", \"sources\"; print `cat words`'",
    "find": "find src -name '*.c' -exec wc -l {} +; find . -newer words; find /etc -maxdepth 1 -name 'h*'",
    "bash": "for i in 1 2 3; do (echo $i; ls /etc/host* | sort) > made/$i; done; cat made/* | while read l; do :; done",
    "mv": "mv words made; ln made/words link; mv made elsewhere; ln -s elsewhere/words soft; cat soft; rm link; mkfifo p",
    "sed": "sed -i s/1/2/ words; sed -n 'w copy' words; truncate -s 9 words; chmod 600 words; mkdir -p a/b; rm -r a",
    "script": "script -qc 'tty; stty -a' typescript",
    "bc": "echo '2^9' | bc; yes | head -n 3 > made/yes; cp -a src copied; dd if=/dev/zero of=blob bs=1k count=2",
    "setpriv": "setpriv --no-new-privs cat words",
    "awk": "awk '{print > \"made/\" NR % 3}' words; awk 'BEGIN {\"date\" | getline d; print d}'",
}
FEWEST = 10
POLICIES = (
    "",
    '[[layer.path_beneath]]\nallowed_access = ["read", "execute"]\nparent = ["/usr", "/bin", "/lib", "/etc/passwd"]\n',
    '[[layer.path_beneath]]\nallowed_access = ["all"]\nparent = ["/usr", "/lib64", "/dev", "{work}", "{work}/made"]\n'
    '[[layer]]\nhandled_access_fs = ["make_reg", "remove_file", "refer"]\n',
)


@unittest.skipIf(wanting() is not None, wanting() or "")
class LiveDistilling(InFolder):
    def recorded(self, name: str, command: str) -> tuple[Path, Path]:
        """A recording of a command that runs in a new folder, and that folder."""
        work, recording = self.folder / f"{name}-work", self.folder / f"rec-{name}"
        (work / "src").mkdir(parents=True)
        (work / "made").mkdir()
        (work / "words").write_text("".join(f"word {n * 7919 % 401}\n" for n in range(400)))
        (work / "src" / "one.c").write_text("int main(void) { return 0; }\n")
        (work / "src" / "Makefile").write_text("all: one\none: src/one.c\n\t$(CC) -o $@ $<\nclean:\n\trm -f one\n")
        words = [sys.executable, RECORDER, "run", recording, "--", "/bin/sh", "-c", command]
        variables = {"PATH": "/usr/bin:/bin", "LC_ALL": "C", "HOME": str(work)}
        subprocess.run(words, cwd=work, env=variables, check=False, stdin=subprocess.DEVNULL, capture_output=True)
        return recording, work

    def test_real_programs(self) -> None:
        ran, kinds = 0, 0
        for name, command in COMMANDS.items():
            if shutil.which(name, path="/usr/bin:/bin") is None:
                continue
            with self.subTest(name):
                recording, work = self.recorded(name, command)
                file = standing.distill([recording], self.folder / f"{name}.distilled")
                kinds += sum(self.same(recording, file, text.replace("{work}", str(work))) for text in POLICIES)
                self.assertLess(2 * file.stat().st_size, size(recording))
                ran += 1
        self.assertGreaterEqual(ran, FEWEST)
        self.assertGreater(kinds, 20 * ran)

    def same(self, recording: Path, file: Path, rules: str) -> int:
        """Compares what is said of a recording and of its file; how many kinds of calls are refused."""
        policy = self.folder / "P.toml"
        policy.write_text('[[layer]]\nhandled_access_fs = ["all"]\nhandled_access_net = ["all"]\n' + rules)
        said = standing.audited([recording, "--policy", policy])
        assert not isinstance(said, str), said
        self.assertEqual(standing.audited([file, "--policy", policy]), said)
        program = "--policy", policy, "--program", "sh", "--abi", "3"
        of_file, of_recording = standing.audited([file, *program]), standing.audited([recording, *program])
        assert not isinstance(of_file, str) and not isinstance(of_recording, str), (of_file, of_recording)
        # The calls of a file are in no order, so what the run moves at any time may be moved before the program begins.
        self.assertLessEqual(set(of_recording["not judged"]), set(of_file["not judged"]))
        for one in (of_file, of_recording):
            del one["not judged"], one["status"]
        self.assertEqual(of_file, of_recording)
        for command, words in (("suggest", []), ("suggest", ["--style", "base"]),
                               ("tighten", []), ("tighten", ["--list"])):
            self.assertEqual(standing.printed(command, [file, "--policy", policy, *words]),
                             standing.printed(command, [recording, "--policy", policy, *words]), (command, words))
        return len(said["refusals"])


def size(folder: Path) -> int:
    """The bytes of all files of a folder."""
    return sum(path.stat().st_size for path in folder.rglob("*") if os.path.isfile(path))
