"""A whole run from its files: the foreground report by itself or with the background report, and what was spilled."""

from typing import Iterable, Iterator, NamedTuple

from lab.angles import checked
from lab.disk import Disk, Track
from lab.reports import (Gap, Idle, Note, ReportError, Row, Spill, Spilled, Wrote, rows, served_rows, track_of)
from lab.texts import numbered_lines


class Reports(NamedTuple):
    """The files of a run."""

    fore: str
    back: str | None = None
    spill: str | None = None
    section: int | None = None  # the device, where `fore` has the reports of an array

    @property
    def files(self) -> list[str]:
        """All that are there."""
        return [path for path in (self.fore, self.back, self.spill) if path is not None]


def run_rows(disk: Disk, reports: Reports, since: int = 0) -> Iterator[Row]:
    """The rows of a run in their order; a gap's spill comes behind it. The first row that isn't of the disk is refused.
    Rows that stand before the last gap that begins by the instant `since` may be left out."""
    if reports.back is None:
        found = alone(disk, reports.fore, reports.section)
    else:
        found = rows(reports.fore, reports.back, reports.section, since)
    return checked(disk, found if reports.spill is None else with_spills(found, reports.spill))


def alone(disk: Disk, fore: str, section: int | None) -> Iterator[Row]:
    """The run that a foreground report tells of by itself: gaps without a stay, idle time between them, and the end at
    the last finish."""
    track: Track = (0, 0)
    now = 0
    for served in served_rows(fore, section):
        if served.start > now:
            yield Idle(track, now, served.start)
        fits = 0 <= served.sector < disk.sectors
        target = disk.stretch(served.sector, 1).track if fits else track
        yield Gap(served, track, target, served.start, served.media, None, served.start)
        track, now = disk.stretch(served.sector + served.length - 1, 1).track, served.finish
    yield Note("end", [str(now)])


class _Stay(NamedTuple):
    """What was written in the gap before a request."""

    name: str
    rows: list[Spill | Wrote]


def with_spills(found: Iterable[Row], path: str) -> Iterator[Row]:
    """The rows of a run, with those of its text of spills behind their gaps."""
    stays = _stays(path)
    stay = next(stays)
    first = True
    for row in found:
        if first and isinstance(row, Gap):  # rows before it may have been left out
            first = False
            while isinstance(stay, _Stay) and stay.rows[0].begin < row.now:
                stay = next(stays)
        if isinstance(row, Note) and row.verb == "end":
            if isinstance(stay, _Stay):
                raise ReportError(f"{path}: line {stay.rows[0].line}: request {stay.name} isn't that of the reports")
            yield stay
        yield row
        if isinstance(row, Gap) and isinstance(stay, _Stay) and stay.name == row.served.name:
            yield from stay.rows
            stay = next(stays)


def _stays(path: str) -> Iterator[_Stay | Spilled]:
    """The stays of a text of spills, and its end."""
    lines = numbered_lines(path)
    if next(lines, (1, ""))[1].rstrip("\n") != "freeblock spill 1":
        raise ReportError(f"{path}: no text of spills")
    stay: _Stay | None = None
    for number, line in lines:
        fields = line.split()
        try:
            if fields[0] == "wrote" and stay is not None:
                put, sector, count, begin, end = map(int, fields[1:6])
                stay.rows.append(Wrote(put, sector, count, begin, end, number))
                continue
            if stay is not None:
                yield stay
            if fields[0] == "end":
                yield Spilled(int(fields[1]), int(fields[2]))
                return
            if fields[0] != "spill":
                raise ValueError
            stay = _Stay(fields[1], [Spill(track_of(fields[2]), int(fields[3]), int(fields[4]), number)])
        except (ValueError, IndexError):
            raise ReportError(f"{path}: line {number} is no line of a text of spills") from None
    raise ReportError(f"{path}: it has no end")
