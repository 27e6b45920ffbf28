"""Puts the folder of a recording into one compressed file, and takes it out again: a tar archive, by zstd or gzip.

What a stranger packed is unpacked with care: only folders and regular files, by names that stay in the new folder, no
more of them and no larger than a recording has.
"""

from __future__ import annotations

import gzip
import os
import shutil
import subprocess
import tarfile
import tempfile
from collections.abc import Iterator
from contextlib import ExitStack, contextmanager, suppress
from pathlib import Path, PurePosixPath
from typing import IO, Self, cast

from ..common.problems import Problem

ZSTD = "zstd"
#: How files begin that zstd and gzip write (RFC 8878, 3.1.1; RFC 1952, 2.3.1).
_ZSTD_BEGINS, _GZIP_BEGINS = b"\x28\xb5\x2f\xfd", b"\x1f\x8b"
#: The most files of an archive, and the most bytes of all together, unless a caller says otherwise.
MOST_FILES = 100_000
MOST_BYTES = 1 << 40
_BLOCK = 1 << 20


def pack(folder: Path, to: Path) -> None:
    """Writes the folder of a recording as an archive, either whole or not at all."""
    try:
        if not folder.is_dir():
            raise Problem(f"{folder} is no folder of a recording")
        os.listdir(folder)
    except OSError as error:
        raise Problem(f"cannot read {folder}: {error.strerror}") from error
    descriptor, name = tempfile.mkstemp(prefix=f".{to.name}-", dir=to.parent)
    try:
        with os.fdopen(descriptor, "wb") as out, _compressing(out, to) as stream:
            with tarfile.open(fileobj=stream, mode="w|", format=tarfile.PAX_FORMAT) as archive:
                for path in _files(folder):
                    archive.add(path, str(path.relative_to(folder)), recursive=False, filter=_plain)
        os.chmod(name, 0o644)
        os.replace(name, to)
    except BaseException:
        os.unlink(name)
        raise


def _files(folder: Path) -> Iterator[Path]:
    """The regular files of a folder and below it, in one order."""
    for path in sorted(folder.rglob("*")):
        if path.is_file() and not path.is_symlink():
            yield path


def _plain(member: tarfile.TarInfo) -> tarfile.TarInfo:
    """A file without its owner."""
    member.uid = member.gid = 0
    member.uname = member.gname = ""
    member.mode = 0o644
    return member


@contextmanager
def _compressing(out: IO[bytes], to: Path) -> Iterator[IO[bytes]]:
    """A stream that compresses into a file: by zstd, or by gzip if the file's name says so."""
    if to.suffix in (".gz", ".tgz"):
        with gzip.GzipFile(fileobj=out, mode="wb", mtime=0) as stream:
            yield cast(IO[bytes], stream)
        return
    with _run([_zstd(to), "-q", "-T0", "-c"], stdin=subprocess.PIPE, stdout=out) as run:
        assert run.stdin is not None
        yield run.stdin


def _zstd(file: Path) -> str:
    """The program zstd."""
    found = shutil.which(ZSTD)
    if found is None:
        raise Problem(f"{file}: the program {ZSTD} is not there: install it, or name a file that ends in .tar.gz")
    return found


@contextmanager
def _run(words: list[str], **streams: int | IO[bytes]) -> Iterator[subprocess.Popen[bytes]]:
    """A program that is ended with the block; if it fails, that is a Problem."""
    run: subprocess.Popen[bytes] = subprocess.Popen(words, stderr=subprocess.PIPE, **streams)  # type: ignore[call-overload]
    said = ""
    try:
        yield run
    except BrokenPipeError:
        said = "it ended before all was written"
    except BaseException:
        run.kill()
        raise
    finally:
        for stream in (run.stdin, run.stdout):
            if stream is not None:
                with suppress(BrokenPipeError):
                    stream.close()
        if run.stderr is not None:
            said = run.stderr.read().decode(errors="replace").strip() or said
            run.stderr.close()
        run.wait()
    if run.returncode or said:
        raise Problem(f"{ZSTD} ended with status {run.returncode}: {said}")


class _Member(tarfile.TarInfo):
    """A member of an archive whose name is no longer than a name can be: names are read into memory at once."""

    @classmethod
    def frombuf(cls, buf: bytes | bytearray, encoding: str, errors: str) -> Self:
        """A member, from its header."""
        member = super().frombuf(buf, encoding, errors)
        if not (member.isreg() or member.isdir()) and member.size > _BLOCK:
            raise ValueError("the name of a file is too long")
        return member


def unpack(file: Path, folder: Path, most_bytes: int = MOST_BYTES) -> None:
    """Takes a recording out of an archive into a new folder, either whole or not at all."""
    if folder.exists():
        raise Problem(f"{folder} is there already: name a new folder")
    made = Path(tempfile.mkdtemp(prefix=f".{folder.name}-", dir=folder.parent))
    try:
        with _expanding(file) as stream, tarfile.open(fileobj=stream, mode="r|", tarinfo=_Member) as archive:
            _extract(archive, made, file, most_bytes)
        made.chmod(0o755)
        made.rename(folder)
    except (tarfile.TarError, EOFError, gzip.BadGzipFile, ValueError) as error:
        shutil.rmtree(made)
        raise Problem(f"{file} is not what landaudit-record pack writes: {error}") from error
    except BaseException:
        shutil.rmtree(made)
        raise


@contextmanager
def _expanding(file: Path) -> Iterator[IO[bytes]]:
    """A stream of what a compressed file has."""
    with ExitStack() as stack:
        try:
            packed = stack.enter_context(open(file, "rb", buffering=0))
        except OSError as error:
            raise Problem(f"cannot read {file}: {error.strerror}") from error
        begins = packed.read(len(_ZSTD_BEGINS))
        packed.seek(0)
        if begins.startswith(_GZIP_BEGINS):
            yield cast(IO[bytes], stack.enter_context(gzip.open(packed)))
            return
        if begins != _ZSTD_BEGINS:
            raise Problem(f"{file} is not what landaudit-record pack writes: neither zstd nor gzip")
        run = stack.enter_context(_run([_zstd(file), "-q", "-d", "-c"], stdin=packed, stdout=subprocess.PIPE))
        assert run.stdout is not None
        yield run.stdout
        while run.stdout.read(_BLOCK):
            pass


def _extract(archive: tarfile.TarFile, folder: Path, file: Path, most_bytes: int) -> None:
    """Writes the regular files of an archive into a folder."""
    left = most_bytes
    for number, member in enumerate(archive):
        name = PurePosixPath(member.name)
        if member.isdir() and _stays(name):
            continue
        if not member.isreg() or not _stays(name) or not name.parts:
            raise Problem(f"{file}: {member.name!r} is not a file of a recording")
        left -= member.size
        if number >= MOST_FILES or left < 0:
            raise Problem(f"{file}: more than {MOST_FILES:,} files or {most_bytes:,} bytes: if you trust it, give "
                          "--most-bytes")
        place = folder / name
        place.parent.mkdir(parents=True, exist_ok=True)
        content = archive.extractfile(member)
        assert content is not None
        with content, open(place, "xb") as out:
            shutil.copyfileobj(content, out, _BLOCK)


def _stays(name: PurePosixPath) -> bool:
    """Whether a name stays in the folder that it is put in."""
    return not name.is_absolute() and ".." not in name.parts
