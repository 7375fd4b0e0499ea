"""A sweep's picture: what the background got and what requests took, by one or two varied keys."""

from textwrap import fill
from typing import Any, Callable, Iterator, NamedTuple

from matplotlib.axes import Axes

from lab.drawing import AMBER, GREEN, LOOKS, NAVY, RED, panels, save
from lab.grid import Grid, Key
from lab.tables import Line

HOWS = ("gap MB/s", "ride MB/s", "idle MB/s")
SHADES = {"gap MB/s": (GREEN, ""), "ride MB/s": ("#8fd4a6", ".."), "idle MB/s": ("#cdeed6", "///")}
OTHERS: list[dict[str, Any]] = [
    {"color": NAVY, "ls": "-", "marker": "o"}, {"color": RED, "ls": "--", "marker": "^"},
    {"color": GREEN, "ls": "-.", "marker": "s"}, {"color": AMBER, "ls": ":", "marker": "D"},
    {"color": "#7a5a9a", "ls": (0, (5, 1)), "marker": "v"}, {"color": "#222222", "ls": (0, (1, 1)), "marker": "x"}]
UNITS = {"block": " (sectors)", "until": " (ms)", "range": " (first sector + sectors)"}


class Curve(NamedTuple):
    """The lines of the table with one value of the second key, or all of them."""

    label: str
    look: dict[str, Any]
    lines: list[Line]


def draw_sweep(grid: Grid, table: list[Line], path: str) -> None:
    """Four panels: MB/s for the background, free share, response times, what is left."""
    along, across = _roles(grid.varied)
    curves = _curves(grid.varied, along, across, table)
    figure, (rate, free, response, left) = panels(2, 2, 6.6)
    if across is None:
        _stacked(rate, along, curves[0].lines)
    else:
        _plot(rate, along, curves, _sum_of_hows)
    _plot(free, along, curves, _column("free %"))
    _plot(response, along, curves, _column("mean ms"), label="mean")
    _plot(response, along, curves, _column("95 % ms"), is_hollow=True, label="95 % take no longer")
    _plot(left, along, curves, _column("left %"))
    for axes, label in zip((rate, free, response, left), (
            "MB/s read for the background", "percent of the head's time\nin which blocks are read",
            "response time (ms)", "percent of the blocks left")):
        _finish(axes, along, label)
    left.set_ylim(0, max(5, left.get_ylim()[1]))
    response.set_ylim(0, 1.2 * response.get_ylim()[1])
    _keyed(response)
    if across is not None:
        handles, labels = free.get_legend_handles_labels()
        figure.legend(handles, labels, loc="upper center", ncol=min(len(labels), 6), bbox_to_anchor=(0.5, 0.96),
                      title=across.name + UNITS.get(across.name.split(".")[-1], ""), title_fontsize=9)
    figure.suptitle(_fixed(grid), fontsize=9, x=0.01, ha="left", y=0.995)
    save(figure, path, rect=(0, 0, 1, 0.9 if across is not None else 0.96))


def _roles(keys: list[Key]) -> tuple[Key, Key | None]:
    """The key along the axis, a number if there is one and the longer of two alike; and the one of the curves."""
    if len(keys) == 1:
        return keys[0], None
    along = max(keys, key=lambda key: (key.is_number, len(key.choices)))
    return along, keys[1] if along is keys[0] else keys[0]


def _curves(keys: list[Key], along: Key, across: Key | None, table: list[Line]) -> list[Curve]:
    """The table's lines stand in the order of the combinations: those of the last key change fastest."""
    if across is None:
        return [Curve("", OTHERS[0], table)]
    number = len(keys[1].choices)
    rows = [table[at:at + number] for at in range(0, len(table), number)]
    groups = rows if across is keys[0] else [list(group) for group in zip(*rows)]
    return [Curve(choice.label, _look(across, number, choice.label), group)
            for number, (choice, group) in enumerate(zip(across.choices, groups))]


def _look(across: Key, number: int, label: str) -> dict[str, Any]:
    return dict(LOOKS[label]) if across.name == "policy" else OTHERS[number % len(OTHERS)]


def _column(name: str) -> Callable[[Line], float | None]:
    return lambda line: line[name] if isinstance(line.get(name), (int, float)) else None


def _sum_of_hows(line: Line) -> float:
    return float(sum(line[how] for how in HOWS))


def _places(along: Key) -> list[float]:
    """Where the values of the key stand on the axis: numbers at their value, all else one after another."""
    if along.is_number:
        return [float(choice.value) for choice in along.choices]
    return [float(at) for at in range(len(along.choices))]


def _points(along: Key, curve: Curve, value: Callable[[Line], float | None]) -> Iterator[tuple[float, float]]:
    """The points of a curve from left to right; lines without a value have none."""
    for place, line in sorted(zip(_places(along), curve.lines), key=lambda pair: pair[0]):
        found = value(line)
        if found is not None:
            yield place, found


def _plot(axes: Axes, along: Key, curves: list[Curve], value: Callable[[Line], float | None],
          is_hollow: bool = False, label: str = "") -> None:
    """Curves over numbers; over names only marks, side by side, as nothing lies between two names."""
    for number, curve in enumerate(curves):
        points = list(_points(along, curve, value))
        look = dict(curve.look) | ({"markerfacecolor": "white"} if is_hollow else {})
        shift = 0.0
        if not along.is_number:
            look["ls"] = ""
            shift = 0.6 * ((number + 0.5) / len(curves) - 0.5)
        shown = curve.label if label == "" else "_"
        axes.plot([place + shift for place, _ in points], [found for _, found in points], **look, label=shown)
    if label:
        axes.plot([], [], color="#666666", ls="", marker="o", markerfacecolor="white" if is_hollow else "#666666",
                  label=label)


def _stacked(axes: Axes, along: Key, lines: list[Line]) -> None:
    """Bars of what came by each way, one on the other."""
    places = list(range(len(lines)))
    order = sorted(places, key=lambda at: _places(along)[at])
    below = [0.0] * len(lines)
    for how in HOWS:
        colour, hatch = SHADES[how]
        values = [lines[at][how] for at in order]
        axes.bar(places, values, 0.7, below, color=colour, hatch=hatch, edgecolor="#8a8a8a", lw=0,
                 label=how.removesuffix(" MB/s"))
        below = [low + value for low, value in zip(below, values)]
    axes.set_xticks(places, [along.choices[at].label for at in order])
    axes.set_ylim(0, 1.15 * max(below) or 1)
    axes.legend(fontsize=8, loc="upper left", ncol=3)


def _finish(axes: Axes, along: Key, label: str) -> None:
    """Ticks at the values that were run, and a scale from nothing on."""
    axes.set_ylabel(label)
    axes.set_xlabel(along.name + UNITS.get(along.name.split(".")[-1], ""))
    if axes.containers:  # bars, whose scale and ticks are set
        return
    top = axes.dataLim.y1
    axes.set_ylim(0, 1.08 * top if 0 < top < float("inf") else 1)
    places = _places(along)
    if along.is_number and min(places) > 0 and max(places) >= 8 * min(places):
        axes.set_xscale("log")
        axes.minorticks_off()
    axes.set_xticks(places, [choice.label for choice in along.choices],
                    rotation=20 if max(len(choice.label) for choice in along.choices) > 9 else 0)
    if not along.is_number:
        axes.set_xlim(-0.6, len(places) - 0.4)


def _keyed(axes: Axes) -> None:
    """A legend of the filled and the hollow marks alone."""
    handles, labels = axes.get_legend_handles_labels()
    kept = [(handle, label) for handle, label in zip(handles, labels) if not label.startswith("_") and label]
    axes.legend(*zip(*kept), fontsize=8, loc="upper left", ncol=2)


def _fixed(grid: Grid) -> str:
    """What is the same in all runs."""
    fixed = [f"{key.name} {key.choices[0].label}" for key in grid.keys if not key.is_varied]
    return fill(f"{grid.name}: " + ", ".join(fixed) if fixed else grid.name, 130)
