"""Use of time: where the head's time goes, by the order of service and by how many requests are outstanding."""

from typing import Any

from lab.accounts import PARTS, TRANSFER
from lab.runs import BLOCK, REQUESTS, Closed, account_of, closed_run, columns, disk_named
from lab.scripts import wanted_range
from lab.study import Study
from lab.tables import Line
from lab.workload import Mix

RUNS = {f"{policy}-{outstanding}": Closed(policy, outstanding)
        for policy in ("fcfs", "clook", "sstf", "sptf")
        for outstanding in ((2,) if policy == "fcfs" else (2, 4, 8, 20, 64))}
DISK_RUNS = {f"{disk}-{policy}-{outstanding}": Closed(policy, outstanding, disk)
             for disk in ("atlas10k", "fast-15000rpm", "large-7200rpm")
             for policy, outstanding in (("fcfs", 2), ("sptf", 20))}
DISK_BLOCK = 65_536  # bytes


def _line(loop: Closed, folder: str, part: float, request: int, block: int) -> Line:
    """A closed loop while the whole disk is wanted; sizes in sectors."""
    disk = disk_named(loop.disk)
    script = wanted_range("plain", block, 0, disk.sectors)
    runs = closed_run(loop, disk, round(REQUESTS * part), Mix(size=request), script, folder)
    names: Line = {"disk": loop.disk, "policy": loop.policy, "outstanding": loop.outstanding}
    return names | columns(account_of(disk, runs))


def measure(run: str, folder: str, part: float) -> list[Line]:
    """Requests of 4 KB on the Atlas, blocks of 8 KB."""
    return [_line(RUNS[run], folder, part, 8, BLOCK)]


def measure_disks(run: str, folder: str, part: float) -> list[Line]:
    """Requests of 4 KB on each disk, blocks of 64 KB."""
    loop = DISK_RUNS[run]
    sector = disk_named(loop.disk).sector_bytes
    return [_line(loop, folder, part, 4096 // sector, DISK_BLOCK // sector)]


def draw(table: list[dict[str, Any]], path: str) -> None:
    """One bar for each run of the Atlas."""
    _bars(table, path, [f"{line['policy']}, {line['outstanding']}" for line in table], "policy",
          "percent of the head's time (4 KB requests, never idle; the whole disk wanted in blocks of 8 KB)")


def draw_disks(table: list[dict[str, Any]], path: str) -> None:
    """One bar for each run of each disk."""
    _bars(table, path, [f"{line['disk']}, {line['policy']}, {line['outstanding']}" for line in table], "disk",
          "percent of the head's time (4 KB requests, never idle; the disk wanted in blocks of 64 KB)")


def _bars(table: list[dict[str, Any]], path: str, labels: list[str], group: str, label: str) -> None:
    """Bars of the head's time, with the background's rate behind them; a space where `group` changes."""
    from lab.drawing import GREEN, LIGHT, MIDDLE, NAVY, panels, save

    looks = {"seek": (MIDDLE, ""), "wait used": (GREEN, ""), "detour moves": ("#e9c46a", "xxx"),
             "wait unused": (LIGHT, "///"), "transfer": (NAVY, "")}
    figure, (axes,) = panels(1, 1, 1.6 + 0.27 * len(table))
    heights = [-at - 0.6 * len({line[group] for line in table[:at + 1]}) for at in range(len(table))]
    left = [0.0] * len(table)
    for name in PARTS[:TRANSFER + 1]:
        colour, hatch = looks[name]
        shares = [line[f"{name} %"] for line in table]
        axes.barh(heights, shares, 0.85, left, color=colour, hatch=hatch, edgecolor="white", lw=0, label=name)
        for height, begin, share in zip(heights, left, shares):
            if share >= 4 and name in ("seek", "wait used", "transfer"):
                axes.text(begin + share / 2, height, f"{share:.0f}", ha="center", va="center", fontsize=8,
                          color="black" if name == "seek" else "white")
        left = [begin + share for begin, share in zip(left, shares)]
    for height, line in zip(heights, table):
        axes.text(101, height, f"{line['MB/s']:.1f} MB/s", va="center", fontsize=9)
    axes.set_yticks(heights, labels)
    axes.set_xlim(0, 100)
    axes.set_xlabel(label, fontsize=9)
    axes.grid(axis="y", visible=False)
    axes.legend(loc="lower center", bbox_to_anchor=(0.45, 1), ncol=5)
    save(figure, path)


STUDY = Study("use-of-time", "where the head's time goes, by policy and number outstanding", list(RUNS), measure, draw)
DISKS = Study("disks", "the same on three disks, with larger blocks", list(DISK_RUNS), measure_disks, draw_disks)
