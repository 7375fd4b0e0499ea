"""Text files line by line, also where they are packed by gzip."""

import gzip
import io
import os
import zlib
from typing import IO, Callable, Iterator, NamedTuple, cast

from lab.refusals import WrongInput

GZIP = b"\x1f\x8b"  # how a packed file begins
CHUNK = 1 << 20


class Mark(NamedTuple):
    """A place in a file: where a line begins, in bytes, and its number."""

    offset: int = 0
    line: int = 1


START = Mark()


def opened(path: str) -> IO[str]:
    """The file's text, unpacked where it is packed; bytes that are no text are replaced."""
    source = open(path, "rb")
    packed = source.peek(len(GZIP)).startswith(GZIP)
    stream = cast(IO[bytes], gzip.GzipFile(fileobj=source)) if packed else source
    return io.TextIOWrapper(stream, encoding="utf-8", errors="replace")


def numbered_lines(path: str, mark: Mark = START) -> Iterator[tuple[int, str]]:
    """The lines of a file with their numbers, from the mark on."""
    try:
        with opened(path) as lines:
            if mark.offset:
                lines.seek(mark.offset)
            yield from enumerate(lines, mark.line)
    except (EOFError, zlib.error, gzip.BadGzipFile) as fault:
        raise WrongInput(f"{path}: packed by gzip, and cut off or damaged: {fault}") from None


def is_plain(path: str) -> bool:
    """Whether it is a file whose lines can be looked for from anywhere on: neither a pipe nor packed."""
    if not os.path.isfile(path):
        return False
    with open(path, "rb") as source:
        return not source.read(len(GZIP)) == GZIP


def mark_before(path: str, key: Callable[[bytes], int | None], value: int) -> Mark:
    """The last line of a plain file whose key is at most `value`, or the first line. Keys don't fall from line to line;
    lines without one (None) are passed over."""
    with open(path, "rb") as source:
        low, high = 0, source.seek(0, os.SEEK_END)  # `low` begins the first line, or one whose key is at most `value`
        while high - low > 1:
            middle = (low + high) // 2
            source.seek(middle - 1)
            source.readline()
            at, found = _next_key(source, key)
            if found is None or at >= high or found > value:
                high = middle
            else:
                low = at
        source.seek(0)
        number, left = 1, low
        while left:
            chunk = source.read(min(CHUNK, left))
            number += chunk.count(b"\n")
            left -= len(chunk)
    return Mark(low, number)


def _next_key(source: IO[bytes], key: Callable[[bytes], int | None]) -> tuple[int, int | None]:
    """The first line from here on that has a key: where it begins, and the key."""
    while True:
        at = source.tell()
        line = source.readline()
        found = key(line)
        if found is not None or not line:
            return at, found
