"""Sizes: of a block, of a foreground request, and of the part of the disk that is wanted."""

from typing import Any, NamedTuple

from lab.runs import BLOCK, REQUESTS, Closed, account_of, closed_run, columns, disk_named
from lab.scripts import wanted_part, wanted_range
from lab.study import Study
from lab.tables import Line
from lab.workload import Mix


class Size(NamedTuple):
    """A run: what is varied, and its value (sectors, or percent of the disk)."""

    loop: Closed
    what: str
    value: float


LOOPS = (Closed("fcfs", 2), Closed("sptf", 20))
VALUES = {"block": (4, 16, 64, 256), "request": (8, 32, 128, 256), "part": (1, 5, 20, 50, 100)}
RUNS = {f"{what}-{value}-{loop.policy}-{loop.outstanding}": Size(loop, what, value)
        for what, values in VALUES.items() for loop in LOOPS for value in values}
NUMBERS = {"block": REQUESTS, "request": REQUESTS, "part": REQUESTS // 5}  # few requests, so that the part stays about


def measure(run: str, folder: str, part: float) -> list[Line]:
    """A closed loop with one size varied."""
    loop, what, value = RUNS[run]
    disk = disk_named(loop.disk)
    block = int(value) if what == "block" else BLOCK
    request = int(value) if what == "request" else 8
    script = wanted_range("plain", block, 0, disk.sectors)
    if what == "part":
        script = wanted_part(block, disk.sectors, value / 100, seed=5)
    runs = closed_run(loop, disk, round(NUMBERS[what] * part), Mix(size=request), script, folder)
    return [{"policy": loop.policy, "outstanding": loop.outstanding, "varied": what, "value": value,
             **columns(account_of(disk, runs))}]


def draw(table: list[dict[str, Any]], path: str) -> None:
    """The free share by each of the three."""
    from lab.drawing import LOOKS, panels, save

    titles = {"block": "block (sectors)", "request": "foreground request (sectors)", "part": "wanted part (percent)"}
    figure, axes = panels(1, 3, 3.8, sharey=True)
    for panel, (what, title) in zip(axes, titles.items()):
        for loop in LOOPS:
            lines = [line for line in table if (line["policy"], line["varied"]) == (loop.policy, what)]
            panel.plot([line["value"] for line in lines], [line["free %"] for line in lines], **LOOKS[loop.policy],
                       label=f"{loop.policy}, {loop.outstanding} outstanding")
        panel.set_xscale("log", base=2 if what != "part" else 10)
        panel.xaxis.set_major_formatter("{x:g}")
        panel.set_xlabel(title)
        panel.set_ylim(0)
    axes[0].set_ylabel("percent of the head's time\nin which blocks are read")
    axes[1].legend(loc="upper right")
    save(figure, path)


STUDY = Study("sizes", "the free share by block, request and wanted part", list(RUNS), measure, draw)
