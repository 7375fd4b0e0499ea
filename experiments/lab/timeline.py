"""A short stretch of a run as a picture: the head's way, what passes under it, and what waits."""

from typing import NamedTuple

from matplotlib.axes import Axes
from matplotlib.collections import LineCollection
from matplotlib.patches import Patch

from lab.disk import Disk
from lab.drawing import AMBER, GREEN, LIGHT, MIDDLE, NAVY, RED, WIDTH, colours_of, named, panels, save
from lab.ending import ending_of
from lab.pieces import Piece, pieces, within
from lab.queueing import Queue, queue_of
from lab.reading import Reports, run_rows
from lab.refusals import Refused

COLUMNS = 780  # into which a lane is cut: about a pixel of a PNG each


class Look(NamedTuple):
    """How a kind of piece is drawn; the lanes stand in this order."""

    lane: str
    colour: str  # where it isn't the task's
    width: float  # points


LOOKS = {
    "read": Look("foreground read", NAVY, 7),
    "write": Look("foreground write", RED, 7),
    "gap": Look("block read in a gap", GREEN, 5),
    "ride": Look("block in a read", GREEN, 3),
    "idle": Look("block in idle time", GREEN, 5),
    "put": Look("put written in a gap", "#e377c2", 5),
    "wait": Look("wait for the angle", AMBER, 1.8),
    "rest": Look("nothing to serve", LIGHT, 3),
    "move": Look("arm or head moves", MIDDLE, 1.2),
}
OF_TASKS = ("gap", "ride", "idle")
OPTIONAL = ("put", "idle", "ride", "gap")  # lanes that aren't drawn where they are empty
Segment = list[tuple[float, float]]


class Stretch(NamedTuple):
    """What is drawn: the pieces between two instants (nanoseconds), and the queue."""

    disk: Disk
    found: list[Piece]
    queue: Queue
    begin: int
    end: int
    tasks: list[str]  # all of the run, in the order of the report

    @property
    def scale(self) -> float:
        """Nanoseconds of a unit of the time that is shown."""
        return 1e3 if self.end - self.begin < 1_000_000 else 1e6

    def colours(self) -> dict[str, str]:
        """The colours of the tasks whose blocks are read, which are those of any other stretch of the run."""
        names = {piece.name for piece in self.found if piece.kind in OF_TASKS}
        return {task: colour for task, colour in colours_of(self.tasks).items() if task in names}


def found_in(disk: Disk, reports: Reports, begin: int, end: int) -> Stretch:
    """What there is in a stretch, which ends with the run at the latest."""
    found = within(pieces(disk, run_rows(disk, reports, begin)), begin, end)
    if not found:
        raise Refused("the run has nothing in this stretch")
    last = max(piece.end for piece in found)
    tasks = [] if reports.back is None else list(ending_of(reports.back).tasks)
    return Stretch(disk, found, queue_of(reports.fore, reports.section), begin, min(end, last), tasks)


def draw(stretch: Stretch, path: str, title: str) -> None:
    """Draws cylinder, angle and queue over time, and one lane for each kind of piece."""
    figure, (way, angle, queue, lanes) = panels(4, 1, 8.4, sharex=True, height_ratios=(1.7, 0.9, 0.6, 1.4))
    colours, scale = stretch.colours(), stretch.scale
    _draw_lines(way, _ways(stretch), colours, stretch)
    _draw_lines(angle, _angles(stretch), colours, stretch)
    _draw_queue(queue, stretch)
    _draw_lanes(lanes, stretch, colours)
    is_narrow = _span(stretch.found) < 50
    way.set_ylabel("cylinder, and head\nas a part of one" if is_narrow else "cylinder")
    way.autoscale_view()
    way.margins(y=0.12)
    way.set_title(title, fontsize=10, loc="left", parse_math=False)
    angle.set_ylabel("angle\n(turns)")
    angle.set_ylim(0, 1)
    lanes.set_xlabel(f"time ({'microseconds' if scale == 1e3 else 'milliseconds'})")
    lanes.set_xlim(stretch.begin / scale, stretch.end / scale)
    lanes.ticklabel_format(axis="x", useOffset=False)
    if colours:
        entries = [Patch(color=colour, label=f"blocks of {name}") for name, colour in named(colours).items()]
        lanes.legend(handles=entries, loc="upper left", bbox_to_anchor=(-0.02, -0.2), ncol=4, fontsize=8,
                     borderaxespad=0)
    figure.align_ylabels()
    figure.tight_layout()
    _name_requests(way, stretch)
    save(figure, path)


def _span(found: list[Piece]) -> int:
    """Over how many cylinders the pieces go."""
    cylinders = [piece.target[0] for piece in found]
    return max(cylinders, default=0) - min(cylinders, default=0)


def _ways(stretch: Stretch) -> list[tuple[Piece, Segment]]:
    """Each piece from cylinder to cylinder; one that would be narrower than a point is drawn that wide."""
    least = (stretch.end - stretch.begin) / (WIDTH * 0.82 * 72)
    made = []
    for piece in stretch.found:
        low, high = (cylinder + head / stretch.disk.heads for cylinder, head in (piece.source, piece.target))
        more = 0.0 if piece.kind == "move" else max(0.0, least - (piece.end - piece.begin)) / 2
        begin, end = (piece.begin - more) / stretch.scale, (piece.end + more) / stretch.scale
        made.append((piece, [(begin, low), (end, high)]))
    return made


def _angles(stretch: Stretch) -> list[tuple[Piece, Segment]]:
    """The angle rises with time, and falls back to 0 at the end of each turn."""
    turn, made = stretch.disk.turn, []
    for piece in stretch.found:
        now, end = max(piece.begin, stretch.begin), min(piece.end, stretch.end)
        while now < end:
            stop = min(end, now - now % turn + turn)
            made.append((piece, [(now / stretch.scale, now % turn / turn),
                                 (stop / stretch.scale, (stop - now + now % turn) / turn)]))
            now = stop
    return made


def _draw_lines(axes: Axes, lines: list[tuple[Piece, Segment]], colours: dict[str, str], stretch: Stretch) -> None:
    """All lines, those of one kind at once; thick ones above thin ones, but for blocks in a read, which lie on it."""
    for kind, look in LOOKS.items():
        of_kind = [(piece, segment) for piece, segment in lines if piece.kind == kind]
        shown = [_colour(piece, colours) for piece, _ in of_kind]
        axes.add_collection(LineCollection([segment for _, segment in of_kind], colors=shown, linewidths=look.width,
                                           capstyle="butt", zorder=2 + look.width / 10 + (kind == "ride")))


def _colour(piece: Piece, colours: dict[str, str]) -> str:
    return colours[piece.name] if piece.kind in OF_TASKS else LOOKS[piece.kind].colour


def _name_requests(axes: Axes, stretch: Stretch) -> None:
    """The requests' names over their bars, where there is room beside those that are written already."""
    figure = axes.figure
    to_dots = axes.transData.transform
    taken: list[tuple[float, float]] = []
    for piece in stretch.found:
        if piece.kind not in ("read", "write") or not stretch.begin <= piece.begin <= stretch.end:
            continue
        at = (piece.begin + min(piece.end, stretch.end)) / 2 / stretch.scale
        height = piece.source[0] + piece.source[1] / stretch.disk.heads
        across, up = to_dots((at, height))
        width = 6.5 * len(piece.name) * figure.dpi / 100
        if any(abs(across - other) < width + 2 and abs(up - level) < 12 for other, level in taken):
            continue
        taken.append((across, up))
        axes.annotate(piece.name, (at, height), xytext=(0, 5), textcoords="offset points", ha="center", fontsize=7.5,
                      color=LOOKS[piece.kind].colour, annotation_clip=False)


def _draw_queue(axes: Axes, stretch: Stretch) -> None:
    """How many requests have arrived and aren't done, and a mark for each that arrives."""
    instants, lengths = stretch.queue.steps(stretch.begin, stretch.end)
    shown = [at / stretch.scale for at in instants]
    axes.fill_between(shown, lengths, step="post", color="#c9d3e3", lw=0)
    axes.step(shown, lengths, where="post", color=NAVY, lw=1)
    arrived = [at / stretch.scale for at in stretch.queue.arrived(stretch.begin, stretch.end)]
    axes.plot(arrived, [stretch.queue.length(round(at * stretch.scale)) for at in arrived], "v", color=RED, ms=4,
              clip_on=False)
    axes.set_ylim(0, max(1, max(lengths)) * 1.5)
    axes.yaxis.get_major_locator().set_params(integer=True)
    axes.set_ylabel("requests\nnot done")
    if arrived:
        axes.plot([], [], "v", color=RED, ms=4, label=f"{len(arrived)} arrive")
        axes.legend(loc="upper right", fontsize=8, borderaxespad=0)


def _draw_lanes(axes: Axes, stretch: Stretch, colours: dict[str, str]) -> None:
    """A lane for each kind. Its height in a column says how much of the column's time the pieces take, so that what is
    narrower than a column is summed; beside it stands how many pieces there are and how long they last."""
    there = {piece.kind for piece in stretch.found}
    kinds = [kind for kind in LOOKS if kind in there or kind not in OPTIONAL]
    for lane, kind in enumerate(kinds):
        of_kind = [piece for piece in stretch.found if piece.kind == kind]
        base = [lane + 0.4] * COLUMNS
        for colour, shares in _shares(of_kind, stretch, colours).items():
            top = [low - 0.8 * share for low, share in zip(base, shares)]
            _fill(axes, stretch, base, top, colour)
            base = top
        lasted = sum(min(piece.end, stretch.end) - max(piece.begin, stretch.begin) for piece in of_kind)
        unit = "µs" if stretch.scale == 1e3 else "ms"
        text = f"{len(of_kind)}: {lasted / stretch.scale:.3g} {unit}" if of_kind else "0"
        axes.text(1.008, lane, text, transform=axes.get_yaxis_transform(), fontsize=8, va="center")
    axes.set_yticks(range(len(kinds)), [LOOKS[kind].lane for kind in kinds], fontsize=9)
    axes.set_ylim(len(kinds) - 0.4, -0.6)


def _shares(found: list[Piece], stretch: Stretch, colours: dict[str, str]) -> dict[str, list[float]]:
    """The share of each column by colour; of blocks of several tasks that pass together each has its part."""
    of: dict[str, list[Piece]] = {}
    for piece in found:
        of.setdefault(_colour(piece, colours), []).append(piece)
    shares = {colour: covered(some, stretch) for colour, some in of.items()}
    whole = [max(1.0, sum(column)) for column in zip(*shares.values())]
    return {colour: [share / total for share, total in zip(some, whole)] for colour, some in shares.items()}


def covered(found: list[Piece], stretch: Stretch) -> list[float]:
    """The share of each column's time that the pieces cover; where several do at once, all count."""
    width = (stretch.end - stretch.begin) / COLUMNS
    sums = [0.0] * COLUMNS
    for piece in found:
        begin, end = max(piece.begin, stretch.begin) - stretch.begin, min(piece.end, stretch.end) - stretch.begin
        first, last = int(begin / width), min(int(end / width), COLUMNS - 1)
        for column in range(first, last + 1):
            sums[column] += max(0.0, min(end, (column + 1) * width) - max(begin, column * width)) / width
    return sums


def _fill(axes: Axes, stretch: Stretch, base: list[float], top: list[float], colour: str) -> None:
    whole = stretch.end - stretch.begin
    edges = [(stretch.begin + whole * at / COLUMNS) / stretch.scale for at in range(COLUMNS + 1)]
    axes.fill_between(edges, [*base, base[-1]], [*top, top[-1]], where=[low > high for low, high in zip(base, top)]
                      + [False], step="post", color=colour, lw=0)
