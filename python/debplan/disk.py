"""How files are written, and their sums."""
from __future__ import annotations

import contextlib
import hashlib
import os
import pathlib
from typing import Optional

from debplan.answers import Path


def write_text(path: Path, text: str) -> None:
    """Writes a file whole, and then puts it in its place."""
    write_bytes(path, text.encode("utf-8", "surrogateescape"))


def write_bytes(path: Path, data: bytes) -> None:
    """The same of bytes. No link is followed that stands there, nor one that has the name of the
    new file."""
    path = pathlib.Path(path)
    new = path.with_name(f".{path.name}.new")
    with contextlib.suppress(FileNotFoundError):
        new.unlink()
    with open(new, "wb", opener=new_file) as file:
        file.write(data)
    os.replace(new, path)


def new_file(path: str, flags: int, mode: int = 0o666, folder: Optional[int] = None) -> int:
    """Opens a file that isn't there yet, for `open`."""
    return os.open(path, flags | os.O_CREAT | os.O_EXCL | os.O_NOFOLLOW, mode, dir_fd=folder)


def sha256_of(path: Path) -> str:
    """The SHA256 of a file."""
    return sum_of(path, "SHA256")


def sum_of(path: Path, kind: str) -> str:
    """A sum of a file: SHA256 or SHA512."""
    found = hashlib.new(kind)
    with open(path, "rb") as file:
        for block in iter(lambda: file.read(1 << 20), b""):
            found.update(block)
    return found.hexdigest()
