"""`make deb` and `make dist`, with a small program in the place of the proved one, which would take minutes."""

from __future__ import annotations

import gzip
import hashlib
import io
import os
import re
import shutil
import subprocess
import tarfile
import tempfile
import unittest
from pathlib import Path
from typing import ClassVar

from landaudit_record import VERSION

from .places import TOP, script
from .test_trusted import LINES

TOOLCHAIN = "rattle-kit-13f logic dac8208d650f15bf"
STAND_IN = """#include <stdio.h>
int main(void) { puts("%s %s (%s)"); return 0; }
"""
#: What `make landaudit` keeps of a check of these sources.
KEPT = f"sources sha256 {script('sources').digest()}\n{LINES}"
KEPT_OF_RULES = KEPT.replace("crate landaudit", "crate landaudit_rules")
NOT_RUN = "The tests of the sources were not run on this commit."
EPOCH = 1_700_000_000
TAR = f"landaudit-{VERSION}-x86_64-linux-glibc*.tar.xz"
DOC = "./usr/share/doc/landaudit"


def wanting(*programs: str) -> str | None:
    """Which program is not here, or that this is no repository."""
    absent = [program for program in (*programs, "cc", "objdump", "git") if shutil.which(program) is None]
    if absent:
        return f"{absent[0]} is not installed"
    return None if (TOP / ".git").exists() else "the sources are no repository"


OF_DEBIAN = wanting("dpkg-deb", "dpkg-shlibdeps")


def ran(*words: str | Path, **variables: str) -> subprocess.CompletedProcess[str]:
    """What a command does, at the top of the sources."""
    environment = {name: value for name, value in os.environ.items() if not name.startswith("MAKE")}
    return subprocess.run(words, capture_output=True, text=True, check=False, env={**environment, **variables}, cwd=TOP)


def stand_in(folder: Path, version: str = VERSION, name: str = "landaudit") -> Path:
    """A small program of a name and a version."""
    source, program = folder / f"{name}.c", folder / name
    source.write_text(STAND_IN % (name, version, TOOLCHAIN), encoding="utf-8")
    subprocess.run(["cc", "-o", program, source], check=True)
    return program


class Packages(unittest.TestCase):
    """Packages in a scratch folder."""

    def setUp(self) -> None:
        self.folder = Path(self.enterContext(tempfile.TemporaryDirectory())).resolve()
        self.out = self.folder / "out"
        self.check = self.folder / "check.txt"
        self.check.write_text(KEPT, encoding="utf-8")
        self.rules = stand_in(self.folder, name="landaudit-rules")
        self.rules_check = self.folder / "rules.txt"
        self.rules_check.write_text(KEPT_OF_RULES, encoding="utf-8")

    def make(self, target: str, program: Path) -> subprocess.CompletedProcess[str]:
        """Makes a package."""
        files = (f"PROGRAM={program}", f"CHECK={self.check}", f"RULES={self.rules}", f"RULES_CHECK={self.rules_check}",
                 f"GATE={self.folder}/none", f"PACKAGES={self.out}")
        return ran("make", "--no-print-directory", target, *files)


class Made(unittest.TestCase):
    """One package for all tests of it."""

    TARGET: ClassVar[str]
    folder: ClassVar[Path]
    program: ClassVar[Path]
    rules: ClassVar[Path]
    package: ClassVar[Path]

    @classmethod
    def setUpClass(cls) -> None:
        cls.folder = Path(cls.enterClassContext(tempfile.TemporaryDirectory())).resolve()
        cls.program, cls.rules = stand_in(cls.folder), stand_in(cls.folder, name="landaudit-rules")
        (cls.folder / "check.txt").write_text(KEPT, encoding="utf-8")
        (cls.folder / "rules.txt").write_text(KEPT_OF_RULES, encoding="utf-8")
        run, cls.package = cls.made("out")
        assert run.stdout.startswith(f"{cls.package}: needs the GNU C library 2."), run.stdout

    @classmethod
    def made(cls, out: str, *before: str, **variables: str) -> tuple[subprocess.CompletedProcess[str], Path]:
        """Makes the package, with its time by SOURCE_DATE_EPOCH."""
        files = (f"PROGRAM={cls.program}", f"CHECK={cls.folder}/check.txt", f"RULES={cls.rules}",
                 f"RULES_CHECK={cls.folder}/rules.txt", f"GATE={cls.folder}/none", f"PACKAGES={cls.folder}/{out}")
        words = (*before, "make", "--no-print-directory", cls.TARGET, *files)
        run = ran(*words, SOURCE_DATE_EPOCH=str(EPOCH), **variables)
        assert (run.returncode, run.stderr) == (0, ""), run.stderr
        (package,) = (cls.folder / out).iterdir()
        return run, package

    def installed(self) -> set[str]:
        """What `make install` installs, from its prefix on."""
        root = self.folder / "installed"
        run = ran("make", "--no-print-directory", "install", f"DESTDIR={root}", "PREFIX=/", f"PROGRAM={self.program}",
                  f"RULES={self.rules}")
        self.assertEqual(run.returncode, 0, run.stderr)
        return {str(path.relative_to(root)) for path in root.rglob("*") if path.is_symlink() or not path.is_dir()}

    def assert_alike(self) -> None:
        """The package has the same bytes another day, elsewhere, and by another who makes it."""
        other = ("sh", "-c", 'umask 077; exec "$@"', "sh")
        _, again = self.made("again", *other, TZ="Asia/Tokyo", LC_ALL="C", HOME=str(self.folder))
        self.assertEqual(again.read_bytes(), self.package.read_bytes())


@unittest.skipIf(OF_DEBIAN, OF_DEBIAN or "")
class Refused(Packages):
    """No package is made of what is not the proved program, and one line says why."""

    def refused(self, program: Path, why: str) -> None:
        for target in ("deb", "dist"):
            with self.subTest(target):
                run = self.make(target, program)
                lines = [line for line in run.stderr.splitlines() if not re.match(r"make: .* Error \d+$", line)]
                self.assertEqual((run.returncode, run.stdout, len(lines)), (2, "", 1), run.stderr)
                self.assertIn(why, lines[0])
                self.assertFalse(self.out.exists())

    def test_no_program(self) -> None:
        self.refused(self.folder / "absent", "landaudit is not built: run 'make landaudit' first")

    def test_no_word_of_a_proof(self) -> None:
        self.check.unlink()
        self.refused(stand_in(self.folder), "nothing says that ")

    def test_a_check_that_proved_nothing(self) -> None:
        other = KEPT.replace("crate landaudit", "crate ll_tree")
        for text in ("", other, KEPT.replace("logic=proved", "logic=unproved")):
            self.check.write_text(text)
            self.refused(stand_in(self.folder), "does not say that landaudit is proved")

    def test_a_check_of_other_sources(self) -> None:
        for text in (LINES, KEPT.replace("sha256 ", "sha256 0")[:-1], re.sub("[0-9a-f]{64}", "0" * 64, KEPT)):
            self.check.write_text(text)
            self.refused(stand_in(self.folder), "the sources are not those that ")

    def test_another_version(self) -> None:
        self.refused(stand_in(self.folder, "9.9"), f"and not landaudit of version {VERSION}")

    def test_rules_that_are_not_those_that_were_proved(self) -> None:
        program = stand_in(self.folder)
        self.rules = program
        self.refused(program, f"and not landaudit-rules of version {VERSION}")
        self.rules = stand_in(self.folder, name="landaudit-rules")
        self.rules_check.write_text(KEPT)
        self.refused(program, "does not say that landaudit-rules is proved")
        self.rules_check.unlink()
        self.refused(program, "nothing says that ")

    def test_a_script_in_the_place_of_the_program(self) -> None:
        script = self.folder / "script"
        script.write_text(f"#!/bin/sh\necho 'landaudit {VERSION} ({TOOLCHAIN})'\n")
        script.chmod(0o755)
        self.refused(script, "objdump: ")


@unittest.skipIf(OF_DEBIAN, OF_DEBIAN or "")
class Deb(Made):
    TARGET = "deb"

    def contents(self) -> tarfile.TarFile:
        """The files of the package."""
        data = subprocess.run(["dpkg-deb", "--fsys-tarfile", self.package], capture_output=True, check=True).stdout
        return tarfile.open(fileobj=io.BytesIO(data))

    def text(self, files: tarfile.TarFile, name: str) -> str:
        found = files.extractfile(name)
        assert found is not None
        data = found.read()
        return (gzip.decompress(data) if name.endswith(".gz") else data).decode()

    def test_it_has_what_make_install_installs(self) -> None:
        names = {entry.name for entry in self.contents().getmembers() if not entry.isdir()}
        wanted = {f"./usr/{name}".replace("zsh/site-functions", "zsh/vendor-completions") for name in self.installed()}
        wanted = {f"{name}.gz" if "/man/" in name else name for name in wanted}
        own = {f"{DOC}/PROOF", f"{DOC}/copyright", f"{DOC}/changelog.gz", "./usr/share/lintian/overrides/landaudit"}
        self.assertEqual(names, wanted | own)

    def test_what_it_needs(self) -> None:
        said = ran("dpkg-deb", "--field", self.package).stdout
        fields = dict(re.findall(r"^(\S+): (.*)$", said, re.MULTILINE))
        named = [fields[name] for name in ("Package", "Version", "Architecture")]
        self.assertEqual(named, ["landaudit", VERSION, "amd64"])
        self.assertRegex(fields["Depends"], r"\Alibc6 \(>= 2\.\d+\), python3 \(>= 3\.11\)\Z")
        self.assertEqual(fields["Recommends"], "strace (>= 6.1)")

    def test_it_says_what_was_proved(self) -> None:
        files = self.contents()
        text = self.text(files, f"{DOC}/PROOF")
        commit = ran("git", "rev-parse", "HEAD").stdout.strip()
        digests = [hashlib.sha256(program.read_bytes()).hexdigest() for program in (self.program, self.rules)]
        for words in (commit, TOOLCHAIN, *digests, KEPT, KEPT_OF_RULES, NOT_RUN):
            self.assertIn(words, text)
        self.assertIn(commit, self.text(files, f"{DOC}/changelog.gz"))

    def test_nobody_owns_it_and_it_is_as_old_as_its_commit(self) -> None:
        entries = self.contents().getmembers()
        self.assertEqual({(entry.uid, entry.gid, entry.mtime) for entry in entries}, {(0, 0, EPOCH)})
        self.assertEqual({entry.mode for entry in entries if entry.isfile()}, {0o644, 0o755})

    def test_the_same_sources_make_the_same_bytes(self) -> None:
        self.assert_alike()

    @unittest.skipUnless(shutil.which("lintian"), "lintian is not installed")
    def test_lintian_finds_no_error(self) -> None:
        run = ran("lintian", "--fail-on", "error", "--allow-root", self.package)
        self.assertEqual((run.returncode, run.stdout), (0, ""))


@unittest.skipIf(wanting(), wanting() or "")
class Dist(Made):
    TARGET = "dist"

    def test_it_has_what_make_install_installs_and_runs_where_it_is_unpacked(self) -> None:
        with tarfile.open(self.package) as files:
            entries = files.getmembers()
        unpacked = self.folder / "un packed"
        unpacked.mkdir()
        subprocess.run(["tar", "-C", unpacked, "-xf", self.package], check=True)
        top = self.package.name.removesuffix(".tar.xz")
        names = {entry.name for entry in entries if not entry.isdir()}
        self.assertEqual(names, {f"{top}/{name}" for name in (*self.installed(), "PROOF", "README")})
        self.assertEqual([entry.name for entry in entries], sorted(entry.name for entry in entries))
        self.assertEqual({(entry.uid, entry.gid, entry.uname, entry.gname) for entry in entries}, {(0, 0, "", "")})
        for script in ("landaudit-record", "landaudit-policy"):
            run = ran(unpacked / top / "bin" / script, "--version")
            self.assertEqual(run.stdout, f"{script} {VERSION}\n")

    @unittest.skipUnless(shutil.which("readelf"), "readelf is not installed")
    def test_it_names_the_oldest_library_that_will_do(self) -> None:
        found = re.findall(r"Name: GLIBC_2\.(\d+)", ran("readelf", "--version-info", self.program).stdout)
        newest = f"2.{max(map(int, found))}"
        self.assertEqual(self.package.name, TAR.replace("*", newest))
        with tarfile.open(self.package) as files:
            for name in ("README", "PROOF"):
                text = files.extractfile(f"{self.package.name.removesuffix('.tar.xz')}/{name}")
                assert text is not None
                self.assertIn(f"the GNU C library {newest}", text.read().decode())

    def test_the_same_sources_make_the_same_bytes(self) -> None:
        self.assert_alike()


class Tested(unittest.TestCase):
    """What a package says of the gate: its last line, if that is of the commit and nothing is changed."""

    package = script("package")

    def setUp(self) -> None:
        self.gate = Path(self.enterContext(tempfile.TemporaryDirectory())) / "gate.txt"

    def said(self, text: str | None, changed: bool = False) -> str:
        """What is said where this is kept of the gate."""
        if text is not None:
            self.gate.write_text(text, encoding="utf-8")
        tested = self.package.last_of_the_gate(self.gate, self.package.Origin("a" * 40, EPOCH, "me <me>", changed))
        what = self.package.Proved((), "libc.so.6", "2.34", tested)
        return str(self.package.tested_text(what))

    def test_the_last_line_of_the_gate(self) -> None:
        text = self.said(f"{'a' * 40}\n308 passed, 0 failed\n")
        self.assertEqual(text.splitlines()[-1], "308 passed, 0 failed")
        self.assertNotIn(NOT_RUN, text)

    def test_where_it_was_not_run_on_this_commit(self) -> None:
        passed = f"{'a' * 40}\n308 passed, 0 failed\n"
        self.assertIn(NOT_RUN, self.said(None))
        self.assertIn(NOT_RUN, self.said(passed, changed=True))
        for text in (passed.replace("a", "b", 1), passed.replace(" 0 ", " 1 "), passed.splitlines()[1], "", passed * 2):
            with self.subTest(text):
                self.assertIn(NOT_RUN, self.said(text))


class Versions(unittest.TestCase):
    def test_landaudit_and_the_scripts_have_one_version(self) -> None:
        for crate, file in (("ll_command", "command.rt"), ("landaudit_rules", "asking.rt")):
            source = (TOP / "crates" / crate / "src" / file).read_text(encoding="utf-8")
            self.assertEqual(re.findall(r'^pub const VERSION: &str = "(\S+) \(', source, re.MULTILINE), [VERSION])


if __name__ == "__main__":
    unittest.main()
