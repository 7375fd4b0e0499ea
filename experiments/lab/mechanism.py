"""The foreground by itself, request by request: when each is served, so that closed loops can be computed."""

from typing import Callable

from lab.disk import Disk, Stretch, Track
from lab.workload import Request


class Arm:
    """The head of a disk: where it stands, and since when it is free (nanoseconds)."""

    def __init__(self, disk: Disk) -> None:
        self.disk = disk
        self.track: Track = (0, 0)
        self.now = 0

    def until_first(self, stretch: Stretch, is_read: bool) -> int:
        """How long from now until the first sector of the stretch begins to pass."""
        move = self.disk.positioning(self.track, stretch.track, not is_read)
        return move + (self.disk.angle(stretch) - self.now - move) % self.disk.turn

    def serve(self, request: Request) -> None:
        """Serves the request whole: the arm stands on its last track afterwards, and is free at its finish."""
        sector, left = request.sector, request.length
        while left:
            stretch = self.disk.stretch(sector, left)
            self.now += self.until_first(stretch, request.is_read)
            self.now += self.disk.passage(stretch)
            self.track = stretch.track
            sector, left = sector + stretch.length, left - stretch.length


Waiting = tuple[Stretch, Request]  # where a request begins, and the request


def key_of(policy: str, arm: Arm) -> Callable[[Waiting], int]:
    """By what an order of service chooses: the least is served first, and of equal ones the first that came."""
    cylinders = arm.disk.cylinders
    return {
        "fcfs": lambda waiting: 0,
        "sstf": lambda waiting: abs(waiting[0].track[0] - arm.track[0]),
        "clook": lambda waiting: (waiting[0].track[0] - arm.track[0]) % cylinders,
        "sptf": lambda waiting: arm.until_first(waiting[0], waiting[1].is_read),
    }[policy]


def closed_arrivals(disk: Disk, requests: list[Request], policy: str, outstanding: int) -> list[int]:
    """When the requests arrive (nanoseconds) if so many are always outstanding: each next one as another finishes."""
    arm = Arm(disk)
    key = key_of(policy, arm)
    arrivals = [0] * min(outstanding, len(requests))
    waiting = [(disk.stretch(request.sector, request.length), request) for request in requests[:outstanding]]
    for request in requests[outstanding:]:
        chosen = min(waiting, key=key)
        waiting.remove(chosen)
        arm.serve(chosen[1])
        arrivals.append(arm.now)
        waiting.append((disk.stretch(request.sector, request.length), request))
    return arrivals
