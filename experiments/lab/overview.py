"""A long stretch of a run as a picture: what the head's time went into, rates, the queue, and what is left of tasks."""

from typing import Iterable, Iterator, NamedTuple

from matplotlib.axes import Axes

from lab.accounts import merged
from lab.disk import Disk
from lab.drawing import AMBER, GREEN, LIGHT, MIDDLE, NAVY, OTHERS, RED, colours_of, panels, save
from lab.ending import Ending, ending_of
from lab.pieces import Piece, pieces
from lab.queueing import Queue, queue_of
from lab.reading import Reports, run_rows
from lab.refusals import Refused
from lab.reports import Gap, Idle, Note, Row, deliveries_before, marks, served_rows
from lab.tasks import Tasks

SECOND = 1_000_000_000
PART = SECOND // 10  # how long a part of a stretch lasts, where that makes neither too few nor too many
FEWEST, MOST = 60, 240

# What the head's time went into, from below, by the kinds of pieces; with `used` in a name, of a wait or of idle time
# that part in which blocks pass.
PARTS = {"foreground read": NAVY, "foreground write": RED, "used in gaps": GREEN, "used for puts": "#e377c2",
         "used when idle": "#8fd4a6", "wait unused": AMBER, "arm or head moves": MIDDLE, "idle unused": LIGHT}
RATES = {"read": ("foreground read", NAVY, "-"), "write": ("foreground write", RED, "-"),
         "gap": ("in gaps", GREEN, "-"), "ride": ("by rides", GREEN, "--"), "idle": ("in idle time", GREEN, ":"),
         "put": ("puts", "#e377c2", "-")}


class Bins:
    """Sums over equal parts of a stretch."""

    def __init__(self, begin: int, end: int) -> None:
        self.begin, self.end = begin, end
        self.number = max(FEWEST, min(MOST, (end - begin) // PART))
        self.width = (end - begin) / self.number
        self.of: dict[str, list[float]] = {}

    @property
    def edges(self) -> list[int]:
        """The beginnings of the parts, and the end of the last."""
        return [self.begin + (self.end - self.begin) * at // self.number for at in range(self.number + 1)]

    def add(self, name: str, begin: int, end: int, amount: float) -> None:
        """Spreads an amount evenly from one instant to another; what lies outside of the stretch isn't counted."""
        sums = self.of.get(name)
        if sums is None:
            sums = self.of[name] = [0.0] * self.number
        low, high = begin - self.begin, end - self.begin
        first = int(low / self.width)
        if low >= 0 and first < self.number and high <= (first + 1) * self.width:
            sums[first] += amount
            return
        low, high = max(low, 0), min(high, self.end - self.begin)
        for at in range(int(low / self.width), min(int(high / self.width), self.number - 1) + 1):
            there = min(high, (at + 1) * self.width) - max(low, at * self.width)
            sums[at] += amount * max(0.0, there) / (end - begin)

    def sums(self, name: str) -> list[float]:
        """The sums of a name."""
        return self.of.get(name, [0.0] * self.number)


class Long(NamedTuple):
    """What is drawn of a stretch."""

    bins: Bins
    queue: Queue
    tasks: Tasks


def end_of(reports: Reports) -> int:
    """When the run ended; where there is no background report, its last request."""
    if reports.back is not None:
        return ending_of(reports.back).end
    return max((row.finish for row in served_rows(reports.fore, reports.section)), default=0)


def found_in(disk: Disk, reports: Reports, begin: int, end: int) -> Long:
    """What there is in a stretch, which ends with the run at the latest."""
    end = min(end, end_of(reports))
    if end <= begin:
        raise Refused(f"the run ended after {end / 1e6:g} ms, so that there is nothing in this stretch")
    bins = Bins(begin, end)
    tasks = Tasks(ending_of(reports.back) if reports.back is not None else Ending(end, {}), bins.edges)
    since = _counted_to(reports, tasks, begin)
    _sum_up(bins, disk, pieces(disk, _inside(run_rows(disk, reports, since), tasks, begin, end)))
    tasks.stop()
    return Long(bins, queue_of(reports.fore, reports.section), tasks)


def _counted_to(reports: Reports, tasks: Tasks, begin: int) -> int:
    """Counts what was delivered before the rows that are read for a stretch, and says since when they are: from the
    start on where a backup's blocks may have been overwritten, which the deliveries don't tell."""
    if reports.back is None or any(task.at_end.kind == "backup" for task in tasks.by_name.values()):
        return 0
    _, behind = marks(reports.fore, reports.back, reports.section, begin)
    tasks.begin_with(deliveries_before(reports.back, behind))
    return begin


def _inside(found: Iterable[Row], tasks: Tasks, begin: int, end: int) -> Iterator[Row]:
    """The rows of the stretch; the tasks count those before it too."""
    inside = False
    for row in found:
        if isinstance(row, Gap):
            inside = row.served.finish > begin
        elif isinstance(row, Idle):
            inside = row.end > begin
        if isinstance(row, Gap) and row.now >= end or isinstance(row, Idle) and row.begin >= end:
            yield Note("end", [str(end)])
            return
        tasks.add(row)
        if inside:
            yield row


class Passages:
    """The blocks of one kind that pass in a stay, or in a read."""

    def __init__(self) -> None:
        self.found: list[tuple[int, int]] = []
        self.sectors = 0

    def add(self, piece: Piece) -> None:
        """One more block."""
        self.found.append((piece.begin, piece.end))
        self.sectors += piece.sectors

    def sum_up(self, bins: Bins, kind: str, sector_bytes: int) -> None:
        """Counts the time in which at least one passes, and spreads the bytes over it; then there are none."""
        stretches = list(merged(self.found))
        lasted = sum(end - begin for begin, end in stretches)
        for begin, end in stretches:
            bins.add(f"time {kind}", begin, end, end - begin)
            bins.add(f"bytes {kind}", begin, end, self.sectors * sector_bytes * (end - begin) / lasted)
        self.found, self.sectors = [], 0


def _sum_up(bins: Bins, disk: Disk, found: Iterable[Piece]) -> None:
    """Times and bytes by kind."""
    blocks = {kind: Passages() for kind in ("gap", "idle", "ride", "put")}
    for piece in found:
        of_kind = blocks.get(piece.kind)
        if of_kind is not None:
            of_kind.add(piece)
            continue
        for kind, passages in blocks.items():
            if passages.sectors:
                passages.sum_up(bins, kind, disk.sector_bytes)
        begin, end = piece.begin, piece.end
        if end > begin:
            bins.add(f"time {piece.kind}", begin, end, end - begin)
        if piece.sectors:
            bins.add(f"bytes {piece.kind}", begin, end, piece.sectors * disk.sector_bytes)
    for kind, passages in blocks.items():
        passages.sum_up(bins, kind, disk.sector_bytes)


def shares(bins: Bins) -> dict[str, list[float]]:
    """What the head's time went into, in percent of each part of the stretch."""
    of = {kind: [100 * time / bins.width for time in bins.sums(f"time {kind}")]
          for kind in ("read", "write", "gap", "put", "idle", "wait", "move", "rest")}
    unused = [wait - gap - put for wait, gap, put in zip(of["wait"], of["gap"], of["put"])]
    idle = [rest - used for rest, used in zip(of["rest"], of["idle"])]
    return dict(zip(PARTS, (of["read"], of["write"], of["gap"], of["put"], of["idle"], unused, of["move"], idle)))


def draw(long: Long, path: str, title: str) -> None:
    """Draws shares of time, bytes a second, the queue, and what is left of each task."""
    heights = (1.5, 1.1, 0.8, 1.1) if long.tasks.by_name else (1.5, 1.1, 0.8)
    figure, axes = panels(len(heights), 1, 2.2 * len(heights), sharex=True, height_ratios=heights)
    unit, scale = ("milliseconds", 1e6) if long.bins.end - long.bins.begin < 2 * SECOND else ("seconds", 1e9)
    edges = [edge / scale for edge in long.bins.edges]
    _draw_shares(axes[0], long.bins, edges)
    _draw_rates(axes[1], long.bins, edges)
    _draw_queue(axes[2], long, edges)
    if long.tasks.by_name:
        _draw_left(axes[3], long.tasks, edges)
    axes[0].set_title(title, fontsize=10, loc="left", parse_math=False)
    axes[-1].set_xlabel(f"time ({unit})")
    axes[-1].set_xlim(edges[0], edges[-1])
    for panel in axes:
        if panel.get_legend_handles_labels()[0]:
            panel.legend(loc="center left", bbox_to_anchor=(1.0, 0.5), fontsize=8)
    figure.align_ylabels()
    save(figure, path)


def _draw_shares(axes: Axes, bins: Bins, edges: list[float]) -> None:
    base = [0.0] * bins.number
    for name, share in shares(bins).items():
        if max(share) > 1e-9:
            top = [low + more for low, more in zip(base, share)]
            axes.fill_between(edges, [*base, base[-1]], [*top, top[-1]], step="post", color=PARTS[name], lw=0,
                              label=name)
            base = top
    axes.set_ylim(0, 100)
    axes.set_ylabel("percent of the\nhead's time")


def _draw_rates(axes: Axes, bins: Bins, edges: list[float]) -> None:
    for kind, (name, colour, dashes) in RATES.items():
        rates = [amount / bins.width * 1e3 for amount in bins.sums(f"bytes {kind}")]  # bytes a ns are 1,000 MB/s
        if max(rates) > 0:
            axes.step(edges, [*rates, rates[-1]], where="post", color=colour, ls=dashes, lw=1.2, label=name)
    axes.set_ylim(0)
    axes.set_ylabel("MB/s")


def _draw_queue(axes: Axes, long: Long, edges: list[float]) -> None:
    """The mean length in each part, and the greatest."""
    bins, (instants, lengths) = long.bins, long.queue.steps(long.bins.begin, long.bins.end)
    greatest = [0] * bins.number
    for begin, end, length in zip(instants, instants[1:], lengths):
        bins.add("queue", begin, end, length * (end - begin))
        first, last = int((begin - bins.begin) / bins.width), int((end - bins.begin) / bins.width)
        for at in range(first, min(last, bins.number - 1) + 1):
            greatest[at] = max(greatest[at], length)
    mean = [sum_ / bins.width for sum_ in bins.sums("queue")]
    axes.fill_between(edges, [*greatest, greatest[-1]], step="post", color="#c9d3e3", lw=0, label="greatest")
    axes.step(edges, [*mean, mean[-1]], where="post", color=NAVY, lw=1.2, label="mean")
    axes.set_ylim(0)
    axes.set_ylabel("requests\nnot done")


def _draw_left(axes: Axes, tasks: Tasks, edges: list[float]) -> None:
    """What is left of each task, in percent of the blocks that it has at the end and that weren't aborted."""
    others = 0
    for name, colour in colours_of(list(tasks.by_name)).items():
        task = tasks.by_name[name]
        wanted = task.at_end.blocks - task.at_end.aborted
        left = [100 * blocks / wanted if wanted else 0.0 for blocks in task.over_time]
        others += colour == OTHERS
        label = f"left of {name}" if colour != OTHERS else "left of other tasks" if others == 1 else None
        axes.plot(edges, left, color=colour, lw=1.6 if colour != OTHERS else 0.6, label=label)
    low, high = axes.get_ylim()
    axes.set_ylim(max(low, -3), min(high, 103))
    axes.set_ylabel("percent of\nblocks left")
