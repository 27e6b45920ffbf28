"""What exported policies are compiled and run with: packages of Debian, else types that stand in for them.

The packages are librust-landlock-dev, golang-github-landlock-lsm-go-landlock-dev, landrun, and util-linux from 2.41 on.
They are installed, or unpacked (dpkg-deb -x) in the folder that LANDAUDIT_PACKAGES names, with libc6 and libcap-ng0.
"""

from __future__ import annotations

import os
import re
import shutil
import subprocess
from pathlib import Path

ROOT = Path(os.environ.get("LANDAUDIT_PACKAGES", "/"))
STUBS = Path(__file__).resolve().parent / "stubs"
CRATES = ROOT / "usr/share/cargo/registry"
GO = ROOT / "usr/share/gocode"
_LIBRARY = "src/github.com/landlock-lsm/go-landlock/landlock"
_LOADER, _LIBRARIES = ROOT / "usr/lib64/ld-linux-x86-64.so.2", ROOT / "usr/lib/x86_64-linux-gnu"

CARGO = """[package]
name = "confined"
version = "0.0.0"
edition = "2021"
[dependencies]
landlock = "0.4"
"""
_CRATES = """[source.crates-io]
replace-with = "debian"
[source.debian]
directory = "{}"
"""


def has_crate() -> bool:
    """Whether the crate landlock is there."""
    return shutil.which("cargo") is not None and bool(list(CRATES.glob("landlock-0.4.*")))


def go() -> str | None:
    """The compiler of Go, the newest of those that are unpacked."""
    return next((str(one) for one in sorted(ROOT.glob("usr/lib/go-*/bin/go"), reverse=True)), shutil.which("go"))


def has_go_landlock() -> bool:
    """Whether go-landlock is there, and a compiler that it can be built with."""
    return go() is not None and (GO / _LIBRARY).exists() and _version_of_go() >= (1, 24)


def _version_of_go() -> tuple[int, ...]:
    words = [str(go()), "env", "GOVERSION"]
    said = subprocess.run(words, stdout=subprocess.PIPE, text=True, env=go_environment(GO), check=False).stdout
    return tuple(map(int, re.findall(r"\d+", said)[:2]))


def go_environment(libraries: Path) -> dict[str, str]:
    """The environment in which Go finds libraries in a folder, and asks no server."""
    root = Path(str(go())).resolve().parents[1]
    return {**os.environ, "GO111MODULE": "off", "GOPATH": str(libraries), "GOFLAGS": "", "GOTOOLCHAIN": "local",
            **({"GOROOT": str(root)} if ROOT in root.parents and ROOT != Path("/") else {})}


def program(name: str) -> list[str] | None:
    """The words that run a program of the packages; with their own C library if they are only unpacked."""
    if ROOT == Path("/"):
        found = shutil.which(name)
        return None if found is None else [found]
    path = ROOT / "usr/bin" / name
    return [str(_LOADER), "--library-path", str(_LIBRARIES), str(path)] if path.exists() else None


def setpriv() -> list[str] | None:
    """The words that run setpriv, if it knows Landlock."""
    words = program("setpriv")
    if words is None:
        return None
    said = subprocess.run([*words, "--help"], capture_output=True, text=True).stdout
    return words if "--landlock-access" in said else None


def crate(folder: Path) -> None:
    """Makes a folder a crate that finds the packages' crates."""
    (folder / "Cargo.toml").write_text(CARGO)
    (folder / ".cargo").mkdir()
    (folder / ".cargo" / "config.toml").write_text(_CRATES.format(CRATES))
    (folder / "src").mkdir()
