"""Accesses of another tool made into a trace that a disk takes: their places, their times, and what is lost."""

from dataclasses import dataclass
from fractions import Fraction
from heapq import merge
from typing import Iterator, NamedTuple

from lab.foreign import Access, LineError, Losses
from lab.workload import Request

GREATEST_REQUEST = 2_048  # sectors
MOST_REQUESTS = 1_000_000  # of a device
LATEST = 1_000_000_000_000_000  # nanoseconds; the latest arrival that a trace may have


class DoesNotFit(LineError):
    """An access that lies beyond the disk."""


@dataclass
class Fit:
    """How accesses are put on a disk of `sectors` sectors of `sector_bytes` bytes."""

    sectors: int
    sector_bytes: int
    place: str = "keep"  # keep, scale or fold
    source_bytes: int = 0  # what a traced device holds; 0: up to the last byte of it that was accessed
    time_scale: Fraction = Fraction(1)  # times between arrivals are multiplied by it
    repeat: int = 1  # how often the trace comes, one after another


class Arrived(NamedTuple):
    """A line of a trace; the arrival in nanoseconds from the first one's."""

    arrival: int
    device: int
    request: Request


def fitted(found: dict[str, list[Access]], fit: Fit, losses: Losses) -> list[Arrived]:
    """The lines of a trace by their arrivals, from 0 on; the devices numbered from 0, as they stand in `found`.

    A repetition begins behind the last arrival of the one before, after the mean time between two arrivals."""
    first = min(access.arrival for accesses in found.values() for access in accesses)
    lines = [_of_device(number, accesses, first, fit, losses) for number, accesses in enumerate(found.values())]
    once = list(merge(*lines, key=lambda line: line.arrival))
    last = once[-1].arrival if once else 0
    period = last + last // max(len(once) - 1, 1)
    return list(_within_limits(once, period, len(found), fit.repeat, losses))


def _within_limits(once: list[Arrived], period: int, devices: int, repeat: int, losses: Losses) -> Iterator[Arrived]:
    """The repetitions, without what a trace may not have."""
    made = [0] * devices
    for number in range(repeat):
        if number * period > LATEST or min(made) >= MOST_REQUESTS:
            losses["requests of further repetitions"] += (repeat - number) * len(once)
            return
        for arrival, device, request in once:
            made[device] += 1
            if made[device] > MOST_REQUESTS:
                losses["requests behind the millionth of a device"] += 1
            elif arrival + number * period > LATEST:
                losses["requests that arrive later than after 1,000,000,000 ms"] += 1
            else:
                yield Arrived(arrival + number * period, device, request)


def _of_device(number: int, accesses: list[Access], first: int, fit: Fit, losses: Losses) -> list[Arrived]:
    losses["lines whose arrival is before an earlier line's (they are sorted)"] += _descents(accesses)
    accesses = sorted(accesses, key=lambda access: access.arrival)
    source = fit.source_bytes or max(access.begin + access.length for access in accesses)
    scale, over = fit.time_scale.numerator, fit.time_scale.denominator
    return [Arrived((access.arrival - first) * scale // over, number, request)
            for access in accesses for request in _requests(access, fit, source, losses)]


def _descents(accesses: list[Access]) -> int:
    return sum(one.arrival > next_.arrival for one, next_ in zip(accesses, accesses[1:]))


def _requests(access: Access, fit: Fit, source: int, losses: Losses) -> Iterator[Request]:
    """The access in whole sectors, in pieces of what a request may have at most."""
    first = access.begin // fit.sector_bytes
    count = -(-(access.begin + access.length) // fit.sector_bytes) - first
    if access.length == 0:
        losses["accesses of no bytes"] += 1
        return
    losses["accesses that didn't begin and end with a sector (widened to whole ones)"] += (
        access.begin % fit.sector_bytes != 0 or access.length % fit.sector_bytes != 0)
    if count > fit.sectors:
        raise DoesNotFit(f"an access of {access.length} bytes is larger than the disk, which has "
                         f"{fit.sectors * fit.sector_bytes}")
    first = _placed(first, count, fit, source, losses)
    losses["accesses cut into several that arrive together (more than 2,048 sectors)"] += count > GREATEST_REQUEST
    for begin in range(first, first + count, GREATEST_REQUEST):
        yield Request(begin, min(GREATEST_REQUEST, first + count - begin), access.is_read)


def _placed(first: int, count: int, fit: Fit, source: int, losses: Losses) -> int:
    """The first sector on the disk."""
    last = fit.sectors - count
    if fit.place == "fold":
        folded = first % fit.sectors
        losses["accesses moved by a multiple of the disk's size"] += folded != first
        losses["accesses moved to the disk's end, over which they would have run"] += folded > last
        return min(folded, last)
    if fit.place == "scale":
        losses["distances between accesses (places are scaled, sizes aren't)"] = 0
        scaled = first * fit.sectors * fit.sector_bytes // source
        losses["accesses moved to the disk's end, over which they would have run"] += scaled > last
        return min(scaled, last)
    if first > last:
        byte = first * fit.sector_bytes
        raise DoesNotFit(f"an access at byte {byte} lies beyond the disk, which has {fit.sectors * fit.sector_bytes}: "
                         f"name --place scale or fold")
    return first
