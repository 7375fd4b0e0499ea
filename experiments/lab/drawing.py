"""What all pictures share: colours that differ in grey too, sizes for a page, and how they are saved."""

import matplotlib

matplotlib.use("Agg")
import matplotlib.pyplot as plt  # noqa: E402  (the backend is chosen first)
from matplotlib.axes import Axes  # noqa: E402
from matplotlib.figure import Figure  # noqa: E402

WIDTH = 9.0  # inches; at 110 dots an inch 990 pixels, somewhat more than a page of a README is wide
DOTS = 110
SUFFIXES = (".png", ".svg", ".pdf")  # what a picture may be

LIGHT, MIDDLE, GREEN, NAVY, RED, AMBER = "#dcd8ce", "#9aa7b5", "#35a35a", "#17305c", "#b03060", "#d98e1f"
TASKS = (GREEN, "#7a5ac8", "#1f9fb0", "#b5a300", "#8fd4a6", "#c46fb0", "#6b4f2a")  # tasks by their names
OTHERS = "#707070"  # all tasks beyond these

# One look for each order of service: colour, dashes and marker differ, so that lines are told apart in grey too.
LOOKS: dict[str, dict[str, object]] = {
    "fcfs": {"color": "#222222", "ls": "-", "marker": "o"},
    "clook": {"color": AMBER, "ls": "-.", "marker": "s"},
    "sstf": {"color": RED, "ls": "--", "marker": "^"},
    "sptf": {"color": "#2f6fc0", "ls": ":", "marker": "D"},
}

plt.rcParams.update({
    "font.size": 10, "axes.spines.top": False, "axes.spines.right": False, "axes.grid": True, "grid.color": "#e6e6e6",
    "axes.axisbelow": True, "legend.frameon": False, "legend.fontsize": 9, "lines.markersize": 4.5,
    "hatch.linewidth": 0.6,
})


def panels(rows: int, columns: int, height: float, **more: object) -> tuple[Figure, list[Axes]]:
    """A picture of the common width, `height` inches high, with its axes row by row."""
    figure, axes = plt.subplots(rows, columns, figsize=(WIDTH, height), squeeze=False, **more)
    return figure, list(axes.flat)


def colours_of(tasks: list[str]) -> dict[str, str]:
    """A colour for each task; those beyond the colours that there are share one."""
    return {task: TASKS[at] if at < len(TASKS) else OTHERS for at, task in enumerate(tasks)}


def named(colours: dict[str, str]) -> dict[str, str]:
    """The colours by what a legend calls them."""
    own = {task: colour for task, colour in colours.items() if colour != OTHERS}
    others = len(colours) - len(own)
    return own | ({f"{others} other tasks": OTHERS} if others else {})


def save(figure: Figure, path: str, **layout: object) -> None:
    """Writes the picture and lets go of it."""
    figure.tight_layout(**layout)
    figure.savefig(path, dpi=DOTS)
    plt.close(figure)
