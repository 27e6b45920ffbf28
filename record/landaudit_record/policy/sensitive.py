"""Warnings for the author of a policy: rules that reach secrets, the kernel's own files, or everything."""

from __future__ import annotations

import re
from collections.abc import Iterator
from pathlib import Path

from ..common.rights import FILE_RIGHTS, Rights
from ..common.trees import ROOT, upwards

#: Files with secrets, and folders of them, that have the same path on every machine.
SECRETS = ("/etc/shadow", "/etc/gshadow", "/etc/ssl/private", "/root/.ssh", "/root/.gnupg")
#: The folder with the secrets of users.
HOMES = "/home"
#: Names of files and folders with keys, wherever they are.
_OF_KEYS = re.compile(r"\.ssh|\.gnupg|.*\.key")
_OF_KERNEL = {
    "/proc": "it has files of every process, and settings of the kernel",
    "/sys": "it has settings of the kernel and of devices",
}
_KEYS = ".ssh"
_OF_USERS = "*/.ssh"


def warnings(place: str, rights: Rights) -> Iterator[str]:
    """The warnings for a rule on a path."""
    if place == ROOT:
        yield f"{', '.join(sorted(rights))} on everything"
        return
    over = list(upwards(place))
    for path, why in _OF_KERNEL.items():
        if path in over:
            yield f"{path}: {why}"
    secret = next((path for path in over if path in SECRETS or _OF_KEYS.fullmatch(path.rpartition("/")[2])), None)
    if secret is not None:
        yield f"{secret} holds secrets"
    elif rights & FILE_RIGHTS:
        beneath = [path for path in SECRETS if place in upwards(path)]
        beneath += _keys(place, _OF_USERS if place == HOMES else _KEYS)
        if beneath:
            yield f"this reaches {', '.join(dict.fromkeys(beneath))}"


def _keys(place: str, pattern: str) -> list[str]:
    """The folders with keys in a directory of this machine; none if no file here can have its name."""
    try:
        return [str(keys) for keys in sorted(Path(place).glob(pattern))]
    except (OSError, ValueError):
        return []
