"""The program that runs decks: where it is, which one it is, and one call of it."""

from __future__ import annotations

import hashlib
import os
import shutil
import subprocess
from functools import cache
from pathlib import Path

HOME = Path(__file__).resolve().parents[2]
RELEASED = HOME / "release" / "pic-x86_64-linux"


def program(named: str | None = None) -> str:
    """The path of the program: the one that is named here or by PIC_PROGRAM, else that which ./pic runs."""
    named = named or os.environ.get("PIC_PROGRAM")
    if named:
        found = shutil.which(named)
        if not found:
            raise ValueError(f"there is no program {named}; --program or PIC_PROGRAM names one")
        return os.path.realpath(found)
    if (HOME / "pic").is_file():
        built = subprocess.run([HOME / "pic", "built"], capture_output=True, text=True)
        if built.returncode == 0:
            return built.stdout.strip()
        if os.access(RELEASED, os.X_OK):
            return str(RELEASED)
    raise ValueError("there is no program pic: --program or PIC_PROGRAM names one, and ./pic build builds one")


def checksum(path: str | os.PathLike) -> str:
    """The SHA-256 of a file."""
    with open(path, "rb") as file:
        return hashlib.file_digest(file, "sha256").hexdigest()


@cache
def known(path: str) -> dict[str, str]:
    """What can be told of a program: its path and checksum and, of the released one, its version and commit."""
    told = {"path": path, "sha256": checksum(path)}
    try:
        manifest = dict(line.split(" ", 1) for line in (HOME / "release" / "MANIFEST").read_text().splitlines())
    except (OSError, ValueError):
        return told
    return told | {name: manifest[name] for name in ("version", "commit") if manifest.get("sha256") == told["sha256"]}
