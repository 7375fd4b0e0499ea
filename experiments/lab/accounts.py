"""Where the head's time goes and what the background gets of it, added up row by row."""

from dataclasses import dataclass, field
from typing import Iterable, Iterator

from lab.disk import Disk
from lab.reports import Gap, Got, Idle, Note, Row, Spill, Wrote

MOVES, USED, DETOURS, UNUSED, TRANSFER, IDLE_USED, IDLE_UNUSED, WRITTEN = range(8)
PARTS = ["seek", "wait used", "detour moves", "wait unused", "transfer", "idle used", "idle unused"]  # without puts
HOWS = ("gap", "idle", "ride")


@dataclass
class Account:
    """What was counted over some stretch of a run."""

    spent: list[int] = field(default_factory=lambda: [0] * (WRITTEN + 1))  # nanoseconds, by what they went into
    got: dict[str, int] = field(default_factory=lambda: dict.fromkeys(HOWS, 0))  # bytes for the background
    requests: int = 0
    sectors: int = 0  # of the foreground
    detours: int = 0
    responses: int = 0  # nanoseconds, summed
    services: int = 0  # nanoseconds, summed
    spills: int = 0
    puts: int = 0  # bytes written in free gaps

    @property
    def whole(self) -> int:
        """The time that was accounted for, in nanoseconds."""
        return sum(self.spent)

    def percent(self, *parts: int) -> float:
        """The share of the time that went into these parts, in percent."""
        return 100 * sum(self.spent[part] for part in parts) / self.whole if self.whole else 0.0

    def megabytes_a_second(self, *hows: str) -> float:
        """What the background got by these ways (all where none is named), in 10^6 bytes a second."""
        return sum(self.got[how] for how in hows or HOWS) / self.whole * 1e3 if self.whole else 0.0


class Bookkeeper:
    """Adds rows to accounts of `width` nanoseconds each, by when a gap or an idle stay begins; None: one account."""

    def __init__(self, disk: Disk, width: int | None = None) -> None:
        self.disk = disk
        self.width = width
        self.accounts = [Account()]
        self._passages: list[tuple[int, int]] = []  # of the blocks that the present gap or idle stay delivers
        self._written: list[tuple[int, int]] = []  # passages of the blocks that were written in the present gap
        self._idle = False
        self._gap: Gap | None = None

    def add(self, row: Row) -> None:
        """Counts a row; all rows are to come in their order, the run's `end` last."""
        if isinstance(row, Got):
            self.accounts[-1].got[row.how] += row.length * self.disk.sector_bytes
            if row.how != "ride":
                self._passages.append((row.begin, row.end))
        elif isinstance(row, Gap):
            self._open(row.now, False)
            self._add_gap(row)
        elif isinstance(row, Idle):
            self._open(row.begin, True)
            self.accounts[-1].spent[IDLE_UNUSED] += row.end - row.begin
        elif isinstance(row, Spill):
            self._add_spill(row)
        elif isinstance(row, Wrote):
            self.accounts[-1].puts += row.length * self.disk.sector_bytes
            self._written.append((row.begin, row.end))
        elif isinstance(row, Note) and row.verb == "end":
            self._close()

    def _open(self, now: int, idle: bool) -> None:
        self._close()
        self._idle = idle
        while self.width and len(self.accounts) <= now // self.width:
            self.accounts.append(Account())

    def _close(self) -> None:
        """Moves the time in which blocks passed from unused to used. Blocks of two tasks may pass together."""
        used = union_length(self._passages)
        self._passages = []
        to, of = (IDLE_USED, IDLE_UNUSED) if self._idle else (USED, UNUSED)
        written = union_length(self._written)
        self._written = []
        spent = self.accounts[-1].spent
        spent[to] += used
        spent[of] -= used
        spent[WRITTEN] += written
        spent[UNUSED] -= written

    def _add_spill(self, spill: Spill) -> None:
        """The moves to a track that is written and on, beyond the way that the gap takes anyway."""
        gap, account = self._gap, self.accounts[-1]
        account.spills += 1
        if gap is not None:
            write = not gap.served.is_read
            more = (self.disk.positioning(gap.source, spill.track, True)
                    + self.disk.positioning(spill.track, gap.target, write)
                    - self.disk.positioning(gap.source, gap.target, write))
            account.spent[DETOURS] += more
            account.spent[UNUSED] -= more

    def _add_gap(self, gap: Gap) -> None:
        self._gap = gap
        account, served = self.accounts[-1], gap.served
        needed = moved = self.disk.positioning(gap.source, gap.target, not served.is_read)
        if gap.by is not None:
            moved = self.disk.positioning(gap.source, gap.by, False)
            moved += self.disk.positioning(gap.by, gap.target, not served.is_read)
            account.detours += 1
        account.spent[MOVES] += needed
        account.spent[DETOURS] += moved - needed
        account.spent[UNUSED] += gap.deadline - gap.now - moved
        account.spent[TRANSFER] += served.finish - served.media
        account.requests += 1
        account.sectors += served.length
        account.responses += served.finish - served.arrival
        account.services += served.finish - served.start


def merged(passages: list[tuple[int, int]]) -> Iterator[tuple[int, int]]:
    """The time in which at least one of the passages lasts, as stretches that don't touch."""
    if not passages:
        return
    ascending = sorted(passages)
    low, high = ascending[0]
    for begin, end in ascending:
        if begin > high:
            yield low, high
            low, high = begin, end
        elif end > high:
            high = end
    yield low, high


def union_length(passages: list[tuple[int, int]]) -> int:
    """How long at least one of the passages lasts."""
    return sum(end - begin for begin, end in merged(passages))


def accounts(disk: Disk, rows: Iterable[Row], width: int | None = None) -> list[Account]:
    """The accounts of a whole run."""
    keeper = Bookkeeper(disk, width)
    for row in rows:
        keeper.add(row)
    return keeper.accounts
