"""How a run ended, by the last lines of its background report, which are read first."""

import os
from typing import Iterator, NamedTuple

from lab.reports import ReportError
from lab.texts import GZIP, numbered_lines

STEP = 65_536  # bytes that are read from the end at first
LAST = (b"task ", b"end ")


class TaskEnd(NamedTuple):
    """How a task stands at the end; counts of blocks."""

    kind: str
    blocks: int  # registered
    delivered: int
    aborted: int
    left: int
    complete: bool


class Ending(NamedTuple):
    """When a run ended (nanoseconds), and its tasks by name."""

    end: int
    tasks: dict[str, TaskEnd]


def ending_of(path: str) -> Ending:
    """The end of a background report."""
    tasks: dict[str, TaskEnd] = {}
    end = None
    try:
        for line in _last_lines(path):
            fields = line.split()
            if fields[0] == "task":
                blocks, delivered, aborted, left = map(int, fields[3:7])
                tasks[fields[1]] = TaskEnd(fields[2], blocks, delivered, aborted, left, fields[7] == "complete")
            else:
                end = int(fields[1])
    except (ValueError, IndexError):
        raise ReportError(f"{path}: the lines at its end aren't those of a background report") from None
    if end is None:
        raise ReportError(f"{path}: no background report, or one without an end")
    return Ending(end, tasks)


def _last_lines(path: str) -> Iterator[str]:
    """The lines that tell of tasks and of the end."""
    with open(path, "rb") as source:
        if not source.seekable():
            raise ReportError(f"{path}: a pipe, whose end can't be read first: name a file")
        if source.peek(2).startswith(GZIP):
            yield from (line for _, line in numbered_lines(path) if line.startswith(("task ", "end ")))
            return
        size, step = source.seek(0, os.SEEK_END), STEP
        while True:
            source.seek(max(0, size - step))
            lines = source.read().split(b"\n")[1 if step < size else 0:]
            if step >= size or not all(line.startswith(LAST) for line in lines if line):
                break
            step *= 2
    yield from (line.decode(errors="replace") for line in lines if line.startswith(LAST))
