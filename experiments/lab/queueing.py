"""How many requests wait: those that have arrived and aren't done, at any instant of a run."""

from bisect import bisect_left, bisect_right
from collections import Counter
from typing import NamedTuple

from lab.reports import no_row, row_lines


class Queue(NamedTuple):
    """Arrivals and finishes of all requests of a run, each ascending (nanoseconds)."""

    arrivals: list[int]
    finishes: list[int]

    def length(self, now: int) -> int:
        """How many have arrived by this instant and aren't done."""
        return bisect_right(self.arrivals, now) - bisect_right(self.finishes, now)

    def steps(self, begin: int, end: int) -> tuple[list[int], list[int]]:
        """Where the length changes in a stretch, with its beginning and end, and the length from each of these on."""
        changes = Counter(_behind(self.arrivals, begin, end))
        changes.subtract(_behind(self.finishes, begin, end))
        now = self.length(begin)
        instants, lengths = [begin], [now]
        for at in sorted(changes):
            now += changes[at]
            instants.append(at)
            lengths.append(now)
        return [*instants, end], [*lengths, now]

    def arrived(self, begin: int, end: int) -> list[int]:
        """The arrivals from the beginning of a stretch on, before its end."""
        return self.arrivals[bisect_left(self.arrivals, begin):bisect_left(self.arrivals, end)]


def _behind(ascending: list[int], begin: int, end: int) -> list[int]:
    """The instants behind the beginning of a stretch, up to its end."""
    return ascending[bisect_right(ascending, begin):bisect_right(ascending, end)]


def queue_of(fore: str, section: int | None) -> Queue:
    """The queue of a run, of all of its foreground report."""
    arrivals, finishes = [], []
    for number, line in row_lines(fore, section):
        fields = line.split(None, 8)
        try:
            arrivals.append(int(fields[4]))
            finishes.append(int(fields[7]))
        except (ValueError, IndexError):
            raise no_row(fore, number) from None
    return Queue(sorted(arrivals), finishes)
