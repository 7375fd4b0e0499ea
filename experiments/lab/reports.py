"""The reports of a run, row by row, without holding them."""

import re
from collections import Counter
from typing import Iterator, NamedTuple

from lab.disk import Track
from lab.refusals import WrongInput
from lab.texts import CHUNK, START, Mark, is_plain, mark_before, numbered_lines


class Served(NamedTuple):
    """A row of the foreground report; instants in nanoseconds."""

    name: str
    is_read: bool
    sector: int
    length: int
    arrival: int
    start: int
    media: int
    finish: int
    line: int = 0  # of the file, from 1 on


class Gap(NamedTuple):
    """The head's way before a request, which is `served`."""

    served: Served
    source: Track
    target: Track
    now: int
    deadline: int
    by: Track | None  # the track of a detour
    leave: int
    line: int = 0  # of the background report; 0 where there is none


class Idle(NamedTuple):
    """A stay with nothing to serve."""

    track: Track
    begin: int
    end: int
    line: int = 0


class Got(NamedTuple):
    """A delivered block; `how` is gap, idle or ride."""

    task: str
    number: int
    sector: int
    length: int
    begin: int
    end: int
    how: str
    line: int = 0


class Note(NamedTuple):
    """A row about a task (bad, seal, seg, done, task) or the end of the run, by its fields."""

    verb: str
    fields: list[str]
    line: int = 0


class Spill(NamedTuple):
    """A stay on a track to write there, in the gap that stands before it."""

    track: Track
    begin: int
    end: int
    line: int = 0  # of the text of spills


class Wrote(NamedTuple):
    """A block of a put that was written in the stay before it."""

    put: int
    sector: int
    length: int
    begin: int
    end: int
    line: int = 0


class Spilled(NamedTuple):
    """The end of the text of spills: sectors that were written, and that were not."""

    written: int
    left: int


Row = Gap | Idle | Got | Note | Spill | Wrote | Spilled
GOT = re.compile(rb"^got (\S+)", re.MULTILINE)
WAYS = {how: how for how in ("gap", "idle", "ride")}
NOTES = {"bad": (2, (1,)), "seal": (4, (1, 2)), "seg": (5, (1, 2, 3)), "done": (2, (1,)), "task": (7, (2, 3, 4, 5)),
         "end": (1, (0,))}  # how many fields follow the verb, and which of them are numbers


class ReportError(WrongInput):
    """A file that isn't the report that it is taken for, or two that don't belong together."""


def served_rows(path: str, section: int | None = None, mark: Mark = START) -> Iterator[Served]:
    """The rows of a foreground report, in the order of service; `section` is a device of an array's reports. With a
    mark they are those from there on."""
    for number, line in row_lines(path, section, mark):
        try:
            name, way, *numbers, _ = line.split(None, 8)
            sector, count, arrival, start, media, finish = map(int, numbers)
        except ValueError:
            raise no_row(path, number) from None
        yield Served(name, way == "R", sector, count, arrival, start, media, finish, number)


def row_lines(path: str, section: int | None = None, mark: Mark = START) -> Iterator[tuple[int, str]]:
    """The lines of the rows of a foreground report, with their numbers."""
    lines = numbered_lines(path)
    _find(path, lines, section)
    if mark.offset:
        lines = numbered_lines(path, mark)
    for number, line in lines:
        if line.startswith("end "):
            return
        yield number, line
    raise ReportError(f"{path}: it has no end")


def no_row(path: str, number: int) -> ReportError:
    """What is said of a line that isn't one of a foreground report."""
    return ReportError(f"{path}: line {number} is no line of a foreground report")


def _find(path: str, lines: Iterator[tuple[int, str]], section: int | None) -> None:
    """Reads up to the first row of the report, be it the whole file or a section of an array's."""
    first = next(lines, (1, ""))[1]
    if section is None and first.startswith("freeblock array "):
        raise ReportError(f"{path}: the reports of an array: name one of its devices by --section")
    if section is not None:
        if not first.startswith("freeblock array "):
            raise ReportError(f"{path}: no reports of an array, so it has no section {section}")
        first = _opened_section(path, lines, section)
    if first.rstrip("\n") != "freeblock fore 1":
        raise ReportError(f"{path}: no foreground report")


def _opened_section(path: str, lines: Iterator[tuple[int, str]], section: int) -> str:
    """The first line of the report of a device."""
    there = []
    for _, line in lines:
        fields = line.split()
        if fields[:1] == ["device"]:
            there.append(fields[-1])
            if there[-1] == str(section):
                return next(lines, (0, ""))[1]
    raise ReportError(f"{path}: no section {section}; it has {', '.join(there) or 'none'}")


def rows(fore: str, back: str, section: int | None = None, since: int = 0) -> Iterator[Row]:
    """The rows of a background report, each gap with its request from the foreground report beside it. Where they can
    be looked for, rows are left out that stand before the last gap that begins by the instant `since` (nanoseconds)."""
    lines = numbered_lines(back)
    if next(lines, (1, ""))[1].rstrip("\n") != "freeblock back 1":
        raise ReportError(f"{back}: no background report")
    first, behind = marks(fore, back, section, since)
    requests = served_rows(fore, section, first)
    if behind.offset:
        lines = numbered_lines(back, behind)
    for number, line in lines:
        fields = line.split(None, 8)
        try:
            if fields[0] == "got":  # most lines are
                _, task, block, sector, count, begin, end, how, _ = fields
                yield Got(task, int(block), int(sector), int(count), int(begin), int(end), WAYS[how], number)
                continue
            row = _row(fields, number, requests, back)
        except (ValueError, IndexError, KeyError):
            raise ReportError(f"{back}: line {number} is no line of a background report") from None
        yield row
        if fields[0] == "end":
            _end(requests, fore, back)
            return
    raise ReportError(f"{back}: it has no end")


def marks(fore: str, back: str, section: int | None, since: int) -> tuple[Mark, Mark]:
    """Where the two reports can be read from: at the last gap that begins by this instant, and at its request; or at
    their beginnings, where lines can't be looked for."""
    if not since or section is not None or not is_plain(fore) or not is_plain(back):
        return START, START
    behind = mark_before(back, _gap_begin, since)
    if not behind.offset:
        return START, START
    with open(back, "rb") as source:
        source.seek(behind.offset)
        now = _gap_begin(source.readline())
    return mark_before(fore, _start, now or 0), behind


def deliveries_before(back: str, mark: Mark) -> Counter[str]:
    """How many blocks of each task are delivered on the lines of a background report before the mark."""
    found: Counter[str] = Counter()
    left = mark.offset
    with open(back, "rb") as source:
        while left:
            lines = source.read(min(CHUNK, left))
            lines += source.readline() if len(lines) < left else b""
            left -= len(lines)
            found.update(task.decode() for task in GOT.findall(lines))
    return found


def _gap_begin(line: bytes) -> int | None:
    """When the gap begins, if the line tells of one."""
    fields = line.split(None, 5)
    return int(fields[4]) if len(fields) == 6 and fields[0] == b"gap" and fields[4].isdigit() else None


def _start(line: bytes) -> int | None:
    """When the request is started, if the line of a foreground report tells of one."""
    fields = line.split(None, 6)
    return int(fields[5]) if len(fields) == 7 and fields[5].isdigit() else None


def _row(fields: list[str], number: int, requests: Iterator[Served], back: str) -> Row:
    verb = fields[0]
    if verb == "gap":
        return _gap(fields, next(requests, None), back, number)
    if verb == "idle":
        return Idle(track_of(fields[1]), int(fields[2]), int(fields[3]), number)
    count, numbers = NOTES[verb]
    if len(fields) != 1 + count or not all(fields[1 + at].isdecimal() for at in numbers):
        raise ValueError
    return Note(verb, fields[1:], number)


def _end(requests: Iterator[Served], fore: str, back: str) -> None:
    """Refuses a foreground report that goes on where the background report has ended."""
    more = next(requests, None)
    if more is not None:
        raise ReportError(f"{fore}: line {more.line}: request {more.name} has no gap in {back}")


def _gap(fields: list[str], served: Served | None, back: str, number: int) -> Gap:
    if served is None or served.name != fields[1] or served.media != int(fields[5]):
        raise ReportError(f"{back}: line {number}: request {fields[1]} isn't that of the foreground report")
    by = track_of(fields[7]) if fields[6] == "detour" else None
    return Gap(served, track_of(fields[2]), track_of(fields[3]), int(fields[4]), int(fields[5]), by, int(fields[-1]),
               number)


def track_of(text: str) -> Track:
    """A track as reports write it, `cylinder.head`."""
    cylinder, head = text.split(".")
    return int(cylinder), int(head)
