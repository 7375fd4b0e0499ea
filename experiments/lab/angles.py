"""Whether a run was made on this disk: each passage must begin and end at the angles of the disk's slots, each move
must take the time that the disk gives it, and each sector must lie on the track that the report names."""

from typing import Iterable, Iterator

from lab.disk import Disk, Stretch, Track
from lab.reports import Gap, Got, Idle, ReportError, Row, Served, Spill, Wrote

Judged = Gap | Idle | Got | Spill | Wrote
Passing = Gap | Got | Wrote


class Judge:
    """Judges the rows of a run one after another, and refuses the first that can't be of this disk."""

    def __init__(self, disk: Disk) -> None:
        self.disk = disk
        self._stay: Gap | Idle | None = None  # where the blocks that follow are read
        self._spill: Spill | None = None  # where those that follow are written

    def see(self, row: Row) -> None:
        """Refuses the row if it isn't of this disk."""
        if isinstance(row, Got):
            self._got(row)
        elif isinstance(row, Gap):
            self._gap(row)
        elif isinstance(row, Spill):
            self._to_spill(row)
        elif isinstance(row, Wrote):
            self._wrote(row)
        elif isinstance(row, Idle):
            self._on_disk(row, row.track)
            self._stay = row

    def _gap(self, gap: Gap) -> None:
        served = gap.served
        first = self._stretch(gap, served.sector, served.length)
        self._on_disk(gap, gap.source)
        if gap.target != first.track:
            self._refuse(gap, f"sector {served.sector} lies on track {_text(first.track)} and not on "
                              f"{_text(gap.target)}")
        self._at_angle(gap, served.sector, first, gap.deadline)
        least = self.disk.positioning(gap.source, gap.target, not served.is_read)
        if not 0 <= gap.deadline - gap.now - least < self.disk.turn:
            self._refuse(gap, f"the head takes {least} ns from track {_text(gap.source)} to {_text(gap.target)}, so "
                              f"that it can't be there first at {gap.deadline}")
        self._plan(gap)
        finish = self._finish(served, first)
        if finish != served.finish:
            self._refuse(gap, f"request {served.name} is done at {finish} and not at {served.finish}")
        self._stay = gap

    def _plan(self, gap: Gap) -> None:
        """Refuses a gap whose moves don't fit into it."""
        here, now = gap.source, gap.now
        if gap.by is not None:
            self._on_disk(gap, gap.by)
            here, now = gap.by, now + self.disk.positioning(here, gap.by, False)
        there = gap.leave + self.disk.positioning(here, gap.target, not gap.served.is_read)
        if not (now <= gap.leave and there <= gap.deadline):
            self._refuse(gap, f"the head can't leave track {_text(here)} at {gap.leave} and be on "
                              f"{_text(gap.target)} by {gap.deadline}")

    def _finish(self, served: Served, first: Stretch) -> int:
        """When the request is done that begins to pass at its media instant."""
        now = served.media + self.disk.passage(first)
        sector, left, track = served.sector + first.length, served.length - first.length, first.track
        while left:
            next_ = self.disk.stretch(sector, left)
            now += self.disk.positioning(track, next_.track, not served.is_read)
            now += (self.disk.angle(next_) - now) % self.disk.turn + self.disk.passage(next_)
            sector, left, track = sector + next_.length, left - next_.length, next_.track
        return now

    def _got(self, got: Got) -> None:
        track = self._passing(got)
        if not self._is_reached(got, track):
            self._refuse(got, f"{_name(got)} lies on track {_text(track)}, where the head isn't from {got.begin} to "
                              f"{got.end}")

    def _passing(self, row: Got | Wrote) -> Track:
        """The track of a block, which is to pass from its first sector to its last within one rotation."""
        first = self._stretch(row, row.sector, row.length)
        self._at_angle(row, row.sector, first, row.begin)
        end = row.begin + self._lasts(row, first)
        if row.end != end:
            self._refuse(row, f"{_name(row)}, which begins to pass at {row.begin}, ends at {end} and not at {row.end}")
        return first.track

    def _lasts(self, row: Got | Wrote, first: Stretch) -> int:
        if first.length == row.length:
            return self.disk.passage(first)
        last = self.disk.stretch(row.sector + row.length - 1, 1)
        behind = self.disk.angle(last) + self.disk.passage(last) - self.disk.angle(first)
        return behind % self.disk.turn or self.disk.turn

    def _to_spill(self, spill: Spill) -> None:
        self._on_disk(spill, spill.track)
        gap = self._stay
        if not isinstance(gap, Gap):
            self._refuse(spill, "there is no gap before it")
            return
        come = gap.now + self.disk.positioning(gap.source, spill.track, True)
        there = spill.end + self.disk.positioning(spill.track, gap.target, not gap.served.is_read)
        if come != spill.begin or spill.end < come or there > gap.deadline:
            self._refuse(spill, f"the head comes to track {_text(spill.track)} at {come} and is on {_text(gap.target)} "
                                f"at {there}, which doesn't fit the gap until {gap.deadline}")
        self._spill = spill

    def _wrote(self, wrote: Wrote) -> None:
        track, spill = self._passing(wrote), self._spill
        if spill is None or track != spill.track or wrote.begin < spill.begin or wrote.end > spill.end:
            self._refuse(wrote, f"{_name(wrote)} lies on track {_text(track)}, where the head isn't from {wrote.begin} "
                                f"to {wrote.end}")

    def _is_reached(self, got: Got, track: Track) -> bool:
        """Whether the head is on the block's track while it passes."""
        stay = self._stay
        if isinstance(stay, Idle):
            return got.how == "idle" and track == stay.track and stay.begin <= got.begin and got.end <= stay.end
        if stay is None or got.how == "idle":
            return False
        served = stay.served
        if got.how == "ride":
            return (served.is_read and served.sector <= got.sector
                    and got.sector + got.length <= served.sector + served.length
                    and served.media <= got.begin and got.end <= served.finish)
        early = stay.source if stay.by is None else stay.by
        if track == early and got.end <= stay.leave:
            come = 0 if stay.by is None else self.disk.positioning(stay.source, early, False)
            return stay.now + come <= got.begin
        there = stay.leave + self.disk.positioning(early, stay.target, not served.is_read)
        return track == stay.target and there <= got.begin and got.end <= stay.deadline

    def _stretch(self, row: Passing, sector: int, length: int) -> Stretch:
        if sector < 0 or not 0 < length <= self.disk.sectors - sector:
            self._refuse(row, f"sectors {sector} to {sector + length - 1} aren't on it: it has {self.disk.sectors}")
        return self.disk.stretch(sector, length)

    def _on_disk(self, row: Judged, track: Track) -> None:
        if min(track) < 0 or track[0] >= self.disk.cylinders or track[1] >= self.disk.heads:
            self._refuse(row, f"it has no track {_text(track)}")

    def _at_angle(self, row: Judged, sector: int, stretch: Stretch, instant: int) -> None:
        due, angle = self.disk.angle(stretch), instant % self.disk.turn
        if angle != due:
            self._refuse(row, f"sector {sector} begins to pass {due} ns into a rotation, but the instant {instant} is "
                              f"{angle} ns into one")

    def _refuse(self, row: Judged, why: str) -> None:
        raise ReportError(f"{_place(row)}: not a run on the disk {self.disk.path}: {why}")


def _place(row: Judged) -> str:
    """Which line it is; a gap that is known by the foreground report alone stands there."""
    if isinstance(row, Gap) and not row.line:
        return f"line {row.served.line} of the foreground report"
    return f"line {row.line} of the {'text of spills' if isinstance(row, Spill | Wrote) else 'background report'}"


def _name(row: Got | Wrote) -> str:
    return f"a block of put {row.put}" if isinstance(row, Wrote) else f"block {row.number} of {row.task}"


def _text(track: Track) -> str:
    return f"{track[0]}.{track[1]}"


def checked(disk: Disk, rows: Iterable[Row]) -> Iterator[Row]:
    """The rows as they come, up to the first that can't be of this disk, which is refused with its line."""
    judge = Judge(disk)
    for row in rows:
        judge.see(row)
        yield row
