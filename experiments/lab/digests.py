"""Digests of what a run is made of, so that a run of other inputs is found out."""

import hashlib
import os
from functools import lru_cache
from pathlib import Path

LAB = Path(__file__).resolve().parent


def digest_of(*parts: str | bytes) -> str:
    """A short digest of some texts, each told from the next."""
    found = hashlib.sha256()
    for part in parts:
        raw = part.encode() if isinstance(part, str) else part
        found.update(b"%d:" % len(raw) + raw)
    return found.hexdigest()[:16]


def file_digest(path: str) -> str:
    """The digest of a file's contents; one that hasn't changed is read once."""
    found = os.stat(path)
    return _file_digest(path, found.st_mtime_ns, found.st_size)


@lru_cache(maxsize=None)
def _file_digest(path: str, _written: int, _size: int) -> str:
    with open(path, "rb") as source:
        return hashlib.file_digest(source, "sha256").hexdigest()


@lru_cache(maxsize=None)
def scripts_digest() -> str:
    """The digest of all that computes a run's lines: the modules beside this one."""
    return digest_of(*(path.read_bytes() for path in sorted(LAB.rglob("*.py"))))
