"""The head's way through a stretch of a run, piece by piece: on which track it is, and what passes under it."""

from dataclasses import dataclass
from typing import Iterable, Iterator, NamedTuple

from lab.disk import Disk, Track
from lab.reports import Gap, Got, Idle, Row, Spill, Wrote

ON_THE_WAY = ("move", "wait", "rest")


class Piece(NamedTuple):
    """What the head does from one instant to another (nanoseconds), and between which tracks."""

    kind: str  # read, write, gap, ride, idle, put, wait, rest or move
    begin: int
    end: int
    source: Track
    target: Track
    name: str = ""  # of the request or of the task
    sectors: int = 0


@dataclass
class Stay:
    """Where the head is while blocks are delivered: on the early track until it leaves it, then on the late one."""

    early: Track
    leave: int
    late: Track


def pieces(disk: Disk, rows: Iterable[Row]) -> Iterator[Piece]:
    """The pieces of a run in about their order: blocks follow the stays in which they pass."""
    stay = Stay((0, 0), 0, (0, 0))
    waiting: Gap | None = None  # a gap whose way isn't known before it is seen whether a spill follows
    for row in rows:
        if waiting is not None:
            yield from _spilled(disk, waiting, row) if isinstance(row, Spill) else _way(disk, waiting)
            waiting = None
        if isinstance(row, Gap):
            stay = Stay(row.by or row.source, row.leave, row.target)
            waiting = row
        elif isinstance(row, Idle):
            stay = Stay(row.track, row.end, row.track)
            yield Piece("rest", row.begin, row.end, row.track, row.track)
        elif isinstance(row, Spill):
            stay = Stay(row.track, row.end, row.track)
        elif isinstance(row, Wrote):
            yield Piece("put", row.begin, row.end, stay.early, stay.early, f"put {row.put}", row.length)
        elif isinstance(row, Got):
            track = stay.early if row.end <= stay.leave else stay.late
            if row.how == "ride":
                track = disk.stretch(row.sector, 1).track
            yield Piece(row.how, row.begin, row.end, track, track, row.task, row.length)


def _way(disk: Disk, gap: Gap) -> Iterator[Piece]:
    """The head's way to a request, and the request."""
    here, now = gap.source, gap.now
    if gap.by is not None:
        there = now + disk.positioning(here, gap.by, False)
        yield Piece("move", now, there, here, gap.by)
        here, now = gap.by, there
    yield from _last_leg(disk, gap, here, now, gap.leave)


def _spilled(disk: Disk, gap: Gap, spill: Spill) -> Iterator[Piece]:
    """The same by way of a track that is written."""
    yield Piece("move", gap.now, spill.begin, gap.source, spill.track)
    yield from _last_leg(disk, gap, spill.track, spill.begin, spill.end)


def _last_leg(disk: Disk, gap: Gap, here: Track, now: int, leave: int) -> Iterator[Piece]:
    served = gap.served
    yield Piece("wait", now, leave, here, here)
    there = leave + disk.positioning(here, gap.target, not served.is_read)
    yield Piece("move", leave, there, here, gap.target)
    yield Piece("wait", there, gap.deadline, gap.target, gap.target)
    last = disk.stretch(served.sector + served.length - 1, 1).track
    yield Piece("read" if served.is_read else "write", served.media, served.finish, gap.target, last, served.name,
                served.length)


def within(found: Iterable[Piece], begin: int, end: int) -> list[Piece]:
    """The pieces that lie in the stretch at least in part; what comes behind it isn't read."""
    kept = []
    for piece in found:
        if piece.begin >= end and piece.kind in ON_THE_WAY:
            break
        if piece.end > begin and piece.begin < end and piece.end > piece.begin:
            kept.append(piece)
    return kept
