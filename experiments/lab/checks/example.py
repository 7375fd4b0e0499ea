"""`measure` and `picture` of the README's example."""

import json
from pathlib import Path
from typing import Any

from lab.checks._tools import SMALL_DISK, answer, differences, has_matplotlib, small_run


def left(*blocks: int, end: int = 6000) -> list[dict[str, int]]:
    """What is left at each tenth of a run."""
    return [{"at": end * step // 10, "left": number} for step, number in enumerate(blocks)]


# The README's example, reckoned by hand from its two reports: the run lasts 6,000 ns; requests 2 and 4 move the arm for
# 350 ns (300 over one cylinder, 50 to settle) and 400 ns (over two cylinders); the waits of the four gaps are 500, 600,
# 1,000 and 1,100 ns, in which blocks pass for 200 and 300 ns; the requests pass for 100, 300, 200 and 200 ns, and the
# head rests for 50 and 1,200 ns. The requests take 600, 1,250, 2,400 and 2,800 ns. Sectors have 16 bytes. The blocks of
# `copy` are in at 2,000, 2,100, 2,900, 3,000 and 3,100 ns; of the four of `scan` one is aborted, and one in at 1,200.
BY_HAND: dict[str, Any] = {
    "end": 6000,
    "foreground": {"requests": 4, "bytes": 8 * 16, "requests a second": 4 / 6e-6, "MB/s": 8 * 16 / 6},
    "response": {"mean": 7050 / 4, "median": 1250, "90th percentile": 2800, "95th percentile": 2800,
                 "99th percentile": 2800, "99.9th percentile": 2800, "greatest": 2800,
                 "mean service": (600 + 1250 + 1200 + 1700) / 4},
    "histogram": [{"from": 500, "to": 1000, "requests": 1}, {"from": 1000, "to": 2000, "requests": 1},
                  {"from": 2000, "to": 5000, "requests": 2}],
    "time": {"seek": 75000 / 6000, "rotational wait used": 50000 / 6000, "rotational wait written": 0,
             "rotational wait unused": 270000 / 6000, "detour moves": 0, "transfer": 80000 / 6000, "idle used": 0,
             "idle unused": 125000 / 6000},
    "background": {"bytes by gap": 5 * 16, "bytes by idle": 0, "bytes by ride": 2 * 16, "MB/s by gap": 5 * 16 / 6,
                   "MB/s by idle": 0, "MB/s by ride": 2 * 16 / 6, "bytes": 7 * 16, "MB/s": 7 * 16 / 6,
                   "gaps with a detour": 0},
    "spills": None,
    "tasks": {
        "scan": {"kind": "scrub", "blocks": 4, "delivered": 1, "aborted": 1, "left": 2, "complete": False,
                 "first delivery": 1200, "last delivery": 1200, "completion": None, "seal": None,
                 "blocks read again": 0, "unreadable sectors": 0, "segments cleaned": 0,
                 "left over time": left(3, 3, 2, 2, 2, 2, 2, 2, 2, 2, 2), "blocks a second in the last tenth": 0,
                 "complete at that rate": None},
        "copy": {"kind": "backup", "blocks": 5, "delivered": 5, "aborted": 0, "left": 0, "complete": True,
                 "first delivery": 2000, "last delivery": 3100, "completion": 3100, "seal": 3100,
                 "blocks read again": 0, "unreadable sectors": 0, "segments cleaned": 0,
                 "left over time": left(5, 5, 5, 5, 3, 1, 0, 0, 0, 0, 0), "blocks a second in the last tenth": 0,
                 "complete at that rate": None},
    },
}


def check(folder: Path) -> list[str]:
    """The figures are those by hand, and the picture isn't empty."""
    fore, back = small_run(folder)
    faults = differences(json.loads(answer("measure", SMALL_DISK, fore, back, "--json")), BY_HAND)
    if not has_matplotlib():
        return faults
    from matplotlib.image import imread
    png = folder / "small.png"
    answer("picture", SMALL_DISK, fore, back, png)
    image = imread(png)
    return faults + (["the picture is empty"] if image.shape[1] < 900 or image.min() == image.max() else [])
