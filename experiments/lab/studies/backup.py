"""Backup under writes: how far one consistent image comes while its blocks are overwritten."""

from array import array
from typing import Any, Iterable, Iterator, NamedTuple

from lab.program import Touched
from lab.reports import Gap, Got, Idle, Note, Row, Served, rows
from lab.runs import BLOCK, Closed, closed_run, disk_named
from lab.scripts import wanted_range
from lab.study import Study
from lab.tables import Line
from lab.workload import Mix

PART = 16  # the volume that is backed up and written to is this part of the disk, at its front
REQUESTS = 30_000
STEP = 10_000_000_000  # nanoseconds between two lines of the table
LOOP = Closed("fcfs", 2)


class Writes(NamedTuple):
    """A run: the share of writes, and whether they go to a tenth of the volume only."""

    share: float
    hot: bool = False


RUNS = {"0": Writes(0.0), "1": Writes(0.01), "5": Writes(0.05), "33": Writes(1 / 3), "33-hot": Writes(1 / 3, True),
        "100": Writes(1.0)}
LABELS = {"0": "no writes", "1": "1 % writes", "5": "5 % writes", "33": "33 % writes",
          "33-hot": "33 % writes, nine tenths of\nall requests to a tenth", "100": "writes only"}


class Progress(NamedTuple):
    """How an image stands at an instant (nanoseconds)."""

    now: int
    delivered: int  # blocks
    again: int  # deliveries of blocks that had been delivered before
    sealed: bool


class Image:
    """The blocks of a backup of `sectors` sectors from 0 on, as deliveries and writes leave them."""

    def __init__(self, sectors: int) -> None:
        self._block_of = array("i", [-1]) * sectors  # by sector, once its block was delivered
        self._is_held = bytearray(sectors)  # by block
        self._seen = bytearray(sectors)
        self._write: Served | None = None  # one whose blocks aren't given up yet
        self.held = self.again = 0
        self.sealed = False

    def add(self, row: Row) -> None:
        """Counts a row. A write comes after the deliveries of its own gap, and before all that follows."""
        if isinstance(row, Got):
            self._take(row)
        elif isinstance(row, Note) and row.verb == "seal":
            self.sealed = True
        elif isinstance(row, Gap | Idle) or row.verb == "task":
            self._overwrite()
            self._write = row.served if isinstance(row, Gap) and not row.served.is_read else None

    def _take(self, got: Got) -> None:
        for sector in range(got.sector, got.sector + got.length):
            self._block_of[sector] = got.number
        self.again += self._seen[got.number]
        self._seen[got.number] = self._is_held[got.number] = 1
        self.held += 1

    def _overwrite(self) -> None:
        """The delivered blocks that share a sector with the write are wanted again, unless the image is sealed."""
        if self._write is None or self.sealed:
            return
        begin, end = self._write.sector, self._write.sector + self._write.length
        for block in set(self._block_of[begin:end]) - {-1}:
            self.held -= self._is_held[block]
            self._is_held[block] = 0


def progress(image: Image, found: Iterable[Row]) -> Iterator[Progress]:
    """How the image stands at each step, and at the end, where it must be as the program counts it."""
    due = 0
    for row in found:
        image.add(row)
        while isinstance(row, Gap) and row.now >= due:
            yield Progress(due, image.held, image.again, image.sealed)
            due += STEP
        if isinstance(row, Note) and row.verb == "task" and image.held != int(row.fields[3]):
            raise Touched("the image isn't as the program counts it")
        if isinstance(row, Note) and row.verb == "end":
            yield Progress(int(row.fields[0]), image.held, image.again, image.sealed)


def measure(run: str, folder: str, part: float) -> list[Line]:
    """A line for each step of ten simulated seconds: what is left, and what was read again."""
    share, hot = RUNS[run]
    disk = disk_named(LOOP.disk)
    volume = disk.sectors // PART
    mix = Mix(reads=1 - share, sectors=volume, hot=(0.9, 0.1) if hot else None)
    runs = closed_run(LOOP, disk, round(REQUESTS * part), mix, wanted_range("backup", BLOCK, 0, volume), folder)
    blocks = _registered(runs.back)
    return [{"writes": share, "hot": int(hot), "second": at.now / 1e9, "left %": 100 * (1 - at.delivered / blocks),
             "read again %": 100 * at.again / blocks, "sealed": int(at.sealed)}
            for at in progress(Image(volume), rows(runs.fore, runs.back))]


def _registered(back: str) -> int:
    """How many blocks the backup has."""
    with open(back) as lines:
        return next(int(line.split()[3]) for line in lines if line.startswith("task "))


def draw(table: list[dict[str, Any]], path: str) -> None:
    """What is left until the seal, and what was read again."""
    from lab.drawing import AMBER, GREEN, RED, panels, save

    looks = {"0": ("#222222", "-", "o"), "1": (GREEN, "--", "s"), "5": (AMBER, "-.", "^"), "33": (RED, ":", "D"),
             "33-hot": ("#2f6fc0", (0, (5, 1)), "v"), "100": ("#7a5a9a", (0, (1, 1)), "x")}
    figure, (left, again) = panels(1, 2, 4.2)
    there = {str(line["run"]) for line in table}
    for run, (colour, dashes, marker) in ((run, look) for run, look in looks.items() if run in there):
        lines = [line for line in table if str(line["run"]) == run]
        style = {"color": colour, "ls": dashes, "marker": marker, "markevery": 3}
        sealed = next((at for at, line in enumerate(lines) if line["sealed"]), len(lines) - 1)
        shown = lines[:sealed + 1]
        left.plot([line["second"] for line in shown], [max(line["left %"], 0.01) for line in shown], **style)
        if lines[sealed]["sealed"]:
            left.plot(lines[sealed]["second"], 0.01, marker="*", ms=13, color=colour, clip_on=False, zorder=5)
        again.plot([line["second"] for line in shown], [line["read again %"] for line in shown], **style, label=LABELS[run])
    left.set_yscale("log")
    left.set_ylim(0.01, 120)
    left.set_ylabel("percent of the blocks left\n(a star: sealed)")
    again.set_ylabel("blocks read again, in percent of all")
    again.legend(loc="upper left", fontsize=8)
    for panel in (left, again):
        panel.set_xlabel("time (seconds)")
    save(figure, path)


STUDY = Study("backup", "progress of a backup to its seal under writes", list(RUNS), measure, draw)
