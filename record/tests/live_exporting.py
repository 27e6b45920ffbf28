"""A policy in other forms beside landaudit-policy confine on a running kernel: what a program may do is the same.

What a form can't say is widened: then the program may do what the form says, and no less than the policy lets it do.
"""

from __future__ import annotations

import os
import shutil
import subprocess
import sys
import tempfile
import unittest
from collections.abc import Callable, Mapping
from dataclasses import dataclass
from pathlib import Path

from . import libraries
from .live_actor import CONFINER, POLICIES, PYTHON, WORK, wanting

MAIN = """
#include <stdio.h>
#include <string.h>
#include <unistd.h>
int confine_by_policy(void);
int main(int argc, char **argv)
{
    int error = confine_by_policy();
    if (error || argc < 2) {
        fprintf(stderr, "%s\\n", strerror(error));
        return 99;
    }
    execvp(argv[1], argv + 1);
    return 98;
}
"""
MAIN_OF_RUST = """
mod policy;
use std::os::unix::process::CommandExt;
fn main() {
    let words: Vec<_> = std::env::args_os().skip(1).collect();
    match policy::confine_by_policy() {
        Ok(_) => eprintln!("{}", std::process::Command::new(&words[0]).args(&words[1..]).exec()),
        Err(error) => eprintln!("{error}"),
    }
    std::process::exit(99);
}
"""
MAIN_OF_GO = """package main

import (
	"fmt"
	"os"
	"syscall"
)

func main() {
	err := ConfineByPolicy()
	if err == nil {
		err = syscall.Exec(os.Args[1], os.Args[1:], os.Environ())
	}
	fmt.Fprintln(os.Stderr, err)
	os.Exit(99)
}
"""
#: Tries calls of every kind in three folders and on two devices, and prints how each ends.
PROBE = """
import errno, fcntl, os, socket, sys, termios
def tell(what, call, *words):
    try:
        call(*words)
        print(what, *words, "ok")
    except OSError as error:
        print(what, *words, errno.errorcode[error.errno])
def ioctl(path):
    fd = os.open(path, os.O_RDONLY)
    try:
        fcntl.ioctl(fd, termios.TCGETS)
    finally:
        os.close(fd)
def connect(port):
    with socket.socket() as it:
        it.connect(("127.0.0.1", port))
def bind(port):
    with socket.socket() as it:
        it.setsockopt(socket.SOL_SOCKET, socket.SO_REUSEADDR, 1)
        it.bind(("127.0.0.1", port))
top = sys.argv[1]
for name in ("actor/a", "actor/b", "actor/b/y", "src", "out"):
    here = f"{top}/{name}"
    tell("list", os.listdir, here)
    for mode in (os.O_RDONLY, os.O_WRONLY, os.O_RDWR, os.O_WRONLY | os.O_TRUNC, os.O_WRONLY | os.O_CREAT):
        tell("open", os.open, f"{here}/file", mode)
    tell("create", os.open, f"{here}/new", os.O_WRONLY | os.O_CREAT | os.O_EXCL)
    tell("truncate", os.truncate, f"{here}/file", 0)
    tell("mkdir", os.mkdir, f"{here}/made")
    tell("mkfifo", os.mkfifo, f"{here}/fifo")
    tell("symlink", os.symlink, "x", f"{here}/link")
    tell("rename", os.rename, f"{here}/file", f"{here}/moved")
    for other in ("actor/a", "actor/b", "actor/b/y", "src", "out"):
        tell("link", os.link, f"{here}/kept", f"{top}/{other}/from-{name.replace('/', '-')}")
    tell("rmdir", os.rmdir, f"{here}/empty")
    tell("unlink", os.unlink, f"{here}/gone")
for path in ("/dev/null", "/dev/zero", "/etc/passwd", "/usr", "/proc/self/status"):
    tell("open", os.open, path, os.O_RDONLY)
    tell("open", os.open, path, os.O_WRONLY)
    tell("ioctl", ioctl, path)
for port in (20081, 20082, 28080, 443):
    tell("connect", connect, port)
    tell("bind", bind, port)
"""
FOLDERS = ("actor/a", "actor/b/y", "src", "out")




def exported(policy: Path, *words: str) -> bytes:
    """What an export prints; notes on what is wider are no failure."""
    command = [PYTHON, CONFINER, "export", policy, *words]
    return subprocess.run(command, stdout=subprocess.PIPE, stderr=subprocess.DEVNULL, check=True).stdout


def by_c(folder: Path, policy: Path) -> list[str]:
    """The command that confines itself by C and becomes another one."""
    (folder / "main.c").write_text(MAIN)
    (folder / "policy.c").write_bytes(exported(policy, "--c"))
    words = ["cc", "-std=c99", "-Wall", "-Wextra", "-Werror", "policy.c", "main.c", "-o", "confined"]
    subprocess.run(words, cwd=folder, check=True)
    return [str(folder / "confined")]


def by_rust(folder: Path, policy: Path) -> list[str]:
    """The same by Rust; what one policy needs of the crate is built once for all."""
    if not (folder / "src").exists():
        libraries.crate(folder)
    (folder / "src" / "main.rs").write_text(MAIN_OF_RUST)
    (folder / "src" / "policy.rs").write_bytes(exported(policy, "--rust"))
    environment = {**os.environ, "RUSTFLAGS": "-D warnings"}
    subprocess.run(["cargo", "build", "-q", "--offline"], cwd=folder, env=environment, check=True)
    return [str(folder / "target" / "debug" / "confined")]


def by_go(folder: Path, policy: Path) -> list[str]:
    """The same by Go. Without cgo, go-landlock adds no rule of its own."""
    (folder / "go").mkdir(exist_ok=True)
    (folder / "go" / "main.go").write_text(MAIN_OF_GO)
    (folder / "go" / "policy.go").write_bytes(exported(policy, "--go"))
    environment = {**libraries.go_environment(libraries.GO), "CGO_ENABLED": "0"}
    words = [str(libraries.go()), "build", "-o", folder / "confined-go", "."]
    subprocess.run(words, cwd=folder / "go", env=environment, check=True)
    return [str(folder / "confined-go")]


def by_setpriv(folder: Path, policy: Path) -> list[str]:
    """A script that runs a command by setpriv."""
    return _script(folder, policy, "setpriv", libraries.setpriv())


def by_landrun(folder: Path, policy: Path) -> list[str]:
    """A script that runs a command by landrun."""
    return _script(folder, policy, "landrun", libraries.program("landrun"))


def _script(folder: Path, policy: Path, name: str, program: list[str] | None) -> list[str]:
    """A script that is exported, with the words that run its program; landrun gives no environment on."""
    assert program is not None
    text = exported(policy, f"--{name}", "--widen").decode()
    assert text.count(f"\n{name} \\\n") == 1
    (folder / "script.sh").write_text(text.replace(f"\n{name} \\\n", f"\n{' '.join(program)} \\\n"))
    return ["sh", str(folder / "script.sh")]


@dataclass(frozen=True)
class Form:
    """A form: what makes the command that runs others under a policy, why that can't be, whether it may be wider, and
    the policies of which it can say nothing.
    """

    command: Callable[[Path, Path], list[str]]
    wanting: Callable[[], str | None]
    is_poorer: bool = False
    unsaid: tuple[str, ...] = ()


def unless(there: object, what: str) -> str | None:
    """What is not there, if that is so."""
    return None if there else f"{what} is not there ({libraries.__name__})"


FORMS: Mapping[str, Form] = {
    "c": Form(by_c, lambda: unless(shutil.which("cc"), "a C compiler")),
    "rust": Form(by_rust, lambda: unless(libraries.has_crate(), "the crate landlock")),
    "go": Form(by_go, lambda: unless(libraries.has_go_landlock(), "go-landlock, or Go 1.24,")),
    "setpriv": Form(by_setpriv, lambda: unless(libraries.setpriv(), "a setpriv that knows Landlock"), is_poorer=True,
                    unsaid=("no-network.toml",)),
    "landrun": Form(by_landrun, lambda: unless(libraries.program("landrun"), "landrun"), is_poorer=True),
}


@unittest.skipIf(wanting() is not None, wanting() or "")
class LiveExporting(unittest.TestCase):
    def setUp(self) -> None:
        self.folder = Path(self.enterContext(tempfile.TemporaryDirectory())).resolve()
        self.work = self.folder / "work"
        self.policy = self.folder / "policy.toml"

    def fill(self) -> None:
        """Fills the folder in which the probe works, always alike."""
        shutil.rmtree(self.work, ignore_errors=True)
        for folder in FOLDERS:
            (self.work / folder / "empty").mkdir(parents=True)
        (self.work / "actor" / "b" / "empty").mkdir()
        for here in (*FOLDERS, "actor/b"):
            for name in ("file", "kept", "gone"):
                (self.work / here / name).write_text("text\n")

    def said(self, *words: str | Path) -> tuple[int, str, str]:
        self.fill()
        run = subprocess.run(words, capture_output=True, text=True, check=False)
        return run.returncode, run.stdout, run.stderr

    def confined(self, policy: Path, *words: str | Path) -> tuple[int, str, str]:
        """What a command says under a policy."""
        return self.said(PYTHON, CONFINER, "confine", policy, "--", *words)

    def test_the_same_calls_pass(self) -> None:
        for name, form in FORMS.items():
            if (why := form.wanting()) is not None:
                print(f"skipped: --{name}: {why}", file=sys.stderr)
                continue
            refusals: set[str] = set()
            for file in (it for it in sorted(POLICIES.rglob("*.toml")) if it.name not in form.unsaid):
                with self.subTest(file.name, form=name):
                    self.policy.write_text(file.read_text().replace(WORK, str(self.work)))
                    self.fill()
                    refusals |= self.compare(name, form, (PYTHON, "-c", PROBE, self.work), "start-only" in file.name)
            self.assertLessEqual({"ok", "EACCES", "EXDEV"}, refusals)

    def compare(self, name: str, form: Form, probe: tuple[str | Path, ...], fails: bool) -> set[str]:
        """Compares a form with confine; gives how calls end."""
        status, by_form, error = self.said(*form.command(self.folder, self.policy), *probe)
        _, by_confine, _ = self.confined(self.policy, *probe)
        if form.is_poorer:
            self.assertEqual(by_form, self.confined(self.imported(name), *probe)[1], error)
            self.assertLessEqual(passing(by_confine), passing(by_form))
        else:
            self.assertEqual(by_form, by_confine, error)
        if not fails:
            self.assertEqual((status, len(by_form.splitlines())), (0, 5 * 19 + 5 * 3 + 4 * 2), error)
        return {line.split()[-1] for line in by_form.splitlines()}

    def imported(self, name: str) -> Path:
        """The policy of what was exported."""
        words = [PYTHON, CONFINER, "import", f"--{name}", exported(self.policy, f"--{name}", "--widen")]
        path = self.folder / "imported.toml"
        path.write_bytes(subprocess.run(words, stdout=subprocess.PIPE, check=True).stdout)
        return path

    @unittest.skipUnless(shutil.which("cc"), "no C compiler is installed")
    def test_where_the_kernel_refuses_a_rule_the_errno_is_given(self) -> None:
        rule = '[[layer.path_beneath]]\nallowed_access = ["read_dir"]\nparent = "/etc/passwd"\n'
        self.policy.write_text(f'[[layer]]\nhandled_access_fs = ["all"]\n{rule}')
        self.assertEqual(self.said(*by_c(self.folder, self.policy), "true"), (99, "", "Invalid argument\n"))

    def test_a_group_on_a_file_that_gets_no_right_of_it(self) -> None:
        groups = 'include = ["base", "nameservice", "ssl"]\n'
        self.policy.write_text(f'[[layer]]\nhandled_access_fs = ["read_dir"]\n{groups}')
        listing = ("/bin/sh", "-c", "echo /usr/lib/*; echo /h*")
        for name, form in FORMS.items():
            if form.wanting() is None and not form.is_poorer:
                with self.subTest(name):
                    by_form = self.said(*form.command(self.folder, self.policy), *listing)
                    self.assertEqual(by_form, self.confined(self.policy, *listing))
                    self.assertEqual((by_form[0], by_form[1].splitlines()[1]), (0, "/h*"))
                    self.assertNotIn("*", by_form[1].splitlines()[0])


def passing(said: str) -> set[str]:
    """The calls that pass, by the lines of the probe."""
    return {line for line in said.splitlines() if line.endswith(" ok")}
