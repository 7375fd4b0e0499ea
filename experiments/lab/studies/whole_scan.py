"""Whole scan: a disk read to its last block beside a busy foreground, and the free share as less is left."""

from typing import Any, NamedTuple

from lab.accounts import USED, accounts
from lab.reports import rows
from lab.runs import BLOCK, Closed, closed_run, disk_named
from lab.scripts import wanted_range
from lab.study import Study
from lab.tables import Line
from lab.workload import Mix

MINUTE = 60_000_000_000  # nanoseconds


class Scan(NamedTuple):
    """A closed loop, which lasts until the disk is read where nothing else is said."""

    loop: Closed
    requests: int
    mix: Mix = Mix()


RUNS = {
    "fcfs-2": Scan(Closed("fcfs", 2), 240_000),
    "sstf-20": Scan(Closed("sstf", 20), 300_000),
    "sptf-20": Scan(Closed("sptf", 20), 150_000),  # it would take 900,000 to read the whole disk
    "fcfs-2-hot": Scan(Closed("fcfs", 2), 150_000, Mix(hot=(0.8, 0.2))),
}
LABELS = {"fcfs-2": "fcfs, 2 outstanding", "sstf-20": "sstf, 20", "sptf-20": "sptf, 20",
          "fcfs-2-hot": "fcfs, 2, four fifths of the\nrequests to a fifth of the disk"}


def measure(run: str, folder: str, part: float) -> list[Line]:
    """A line for each simulated minute: what is left at its beginning, and what it gave."""
    scan = RUNS[run]
    disk = disk_named(scan.loop.disk)
    script = wanted_range("plain", BLOCK, 0, disk.sectors)
    runs = closed_run(scan.loop, disk, round(scan.requests * part), scan.mix, script, folder)
    lines, left = [], disk.bytes
    for minute, account in enumerate(accounts(disk, rows(runs.fore, runs.back), MINUTE)):
        lines.append({"policy": scan.loop.policy, "outstanding": scan.loop.outstanding, "minute": minute,
                      "left %": 100 * left / disk.bytes, "free %": account.percent(USED),
                      "MB/s": account.megabytes_a_second()})
        left -= sum(account.got.values())
    return lines


def draw(table: list[dict[str, Any]], path: str) -> None:
    """What is read over time, and the free share by what is left."""
    from lab.drawing import LOOKS, panels, save

    figure, (over_time, by_left) = panels(1, 2, 4.2)
    there = {line["run"] for line in table}
    for run, label in ((run, label) for run, label in LABELS.items() if run in there):
        lines = [line for line in table if line["run"] == run]
        look = dict(LOOKS[run.split("-")[0]], markevery=5)
        if run == "fcfs-2-hot":
            look |= {"markerfacecolor": "white"}
        read = [100 - line["left %"] for line in lines]
        over_time.plot([line["minute"] for line in lines], read, **look, label=label)
        lines = [line for line in lines if line["left %"] > 0.5]
        by_left.plot([line["left %"] for line in lines], [line["free %"] for line in lines], **look)
    over_time.set_xlabel("time (minutes)")
    over_time.set_ylabel("percent of the disk that is read")
    over_time.legend(loc="lower right", fontsize=8)
    by_left.set_xlabel("percent of the disk that is left")
    by_left.set_ylabel("percent of the head's time\nin which blocks are read")
    by_left.set_xlim(100, 0)
    by_left.set_ylim(0)
    save(figure, path)


STUDY = Study("whole-scan", "what is read of a whole disk over time", list(RUNS), measure, draw)
