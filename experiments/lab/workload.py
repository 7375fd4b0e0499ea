"""Foreground traces: where requests fall, when they arrive, and the file that says so."""

import random
from typing import Iterable, NamedTuple


class Request(NamedTuple):
    """`length` sectors from `sector` on."""

    sector: int
    length: int
    is_read: bool


class Mix(NamedTuple):
    """What requests are like: their size in sectors, the share of reads, and where they fall."""

    size: int = 8
    reads: float = 2 / 3
    first: int = 0  # the first sector of the range in which they fall
    sectors: int | None = None  # the length of that range; None: to the end of the disk
    hot: tuple[float, float] | None = None  # this share of the requests falls in this share of the range, at its front


ALIGNMENT = 8  # sectors: requests begin at multiples of it


def random_requests(sectors: int, number: int, mix: Mix, seed: int) -> list[Request]:
    """So many requests on a disk of `sectors`, uniform in the range of the mix or in its hot front and the rest."""
    rng = random.Random(seed)
    length = mix.sectors or sectors - mix.first
    edge = int(length * mix.hot[1]) if mix.hot else 0
    made = []
    for _ in range(number):
        in_front = mix.hot is not None and rng.random() < mix.hot[0]
        begin, end = (0, edge) if in_front else (edge, length)
        place = begin + rng.randrange((end - begin - mix.size) // ALIGNMENT) * ALIGNMENT
        made.append(Request(mix.first + place, mix.size, rng.random() < mix.reads))
    return made


def poisson_arrivals(number: int, a_second: float, seed: int) -> list[int]:
    """Arrivals (nanoseconds) that don't depend on the disk, so many a second on average."""
    rng = random.Random(seed)
    now = 0
    arrivals = []
    for _ in range(number):
        now += int(rng.expovariate(a_second) * 1e9)
        arrivals.append(now)
    return arrivals


def trace_line(arrival: int, device: int, request: Request) -> str:
    """The line of a trace for a request that arrives at this instant (nanoseconds)."""
    sector, count, is_read = request
    return f"{arrival // 1_000_000}.{arrival % 1_000_000:06} {device} {sector} {count} {int(is_read)}\n"


def write_trace(path: str, arrivals: Iterable[int], requests: Iterable[Request]) -> None:
    """Writes a trace of device 0."""
    with open(path, "w") as out:
        out.writelines(trace_line(arrival, 0, request) for arrival, request in zip(arrivals, requests))
