"""Load: the rate at which requests arrive, from a disk that is mostly idle to one that is hardly ever."""

import os
from array import array
from typing import Any, NamedTuple

from lab.figures import percentile
from lab.program import replay_both
from lab.reports import served_rows
from lab.runs import BLOCK, REQUESTS, account_of, columns, disk_named
from lab.scripts import wanted_range, write_script
from lab.study import Study
from lab.tables import Line
from lab.workload import Mix, poisson_arrivals, random_requests, write_trace


class Rate(NamedTuple):
    """Requests a second on average."""

    policy: str
    a_second: int


RUNS = {f"{policy}-{rate}": Rate(policy, rate) for policy, rates in (
    ("fcfs", (5, 20, 40, 60, 80, 100, 110)), ("sptf", (5, 20, 40, 60, 80, 100, 120, 160, 200))) for rate in rates}


def measure(run: str, folder: str, part: float) -> list[Line]:
    """Requests of 4 KB that arrive by themselves, while the whole disk is wanted."""
    policy, rate = RUNS[run]
    disk, number = disk_named("atlas10k"), round(REQUESTS * part)
    trace = os.path.join(folder, "trace")
    write_trace(trace, poisson_arrivals(number, rate, seed=3), random_requests(disk.sectors, number, Mix(), seed=2))
    script = write_script(os.path.join(folder, "calls"), wanted_range("plain", BLOCK, 0, disk.sectors))
    runs = replay_both(disk.path, trace, policy, script, folder)
    waits = array("q", sorted(row.finish - row.arrival for row in served_rows(runs.fore)))
    line = columns(account_of(disk, runs))
    return [{"policy": policy, "a second": rate, "95th percentile ms": percentile(waits, 95) / 1e6, **line}]


def draw(table: list[dict[str, Any]], path: str) -> None:
    """What gaps and idle time give, and beside it how long requests take."""
    from lab.drawing import GREEN, LOOKS, panels, save

    figure, axes = panels(1, 3, 3.8, width_ratios=(1, 1, 1.25))
    for panel, policy in zip(axes, ("fcfs", "sptf")):
        lines = [line for line in table if line["policy"] == policy]
        stack = panel.stackplot([line["a second"] for line in lines], [line["gap MB/s"] for line in lines],
                                [line["idle MB/s"] for line in lines], labels=["in gaps", "in idle time"],
                                colors=[GREEN, "#cdeed6"])
        stack[1].set(hatch="///", edgecolor="#8a8a8a", linewidth=0)
        panel.set_xlabel(f"requests a second ({policy})")
        panel.set_xlim(0, 200)
        panel.set_ylim(0, 10)
        panel.legend(loc="upper right", fontsize=8)
        times = {"mean": "response ms", "95 % below": "95th percentile ms"}
        for (label, name), filled in zip(times.items(), (True, False)):
            look = LOOKS[policy] | ({} if filled else {"markerfacecolor": "white"})
            axes[2].plot([line["a second"] for line in lines], [line[name] for line in lines], **look,
                         label=f"{policy}, {label}")
    axes[0].set_ylabel("MB/s read for the background")
    axes[2].set_xlabel("requests a second")
    axes[2].set_ylabel("response time (ms)")
    axes[2].set_ylim(0, 160)
    axes[2].legend(loc="upper left", fontsize=8)
    save(figure, path)


STUDY = Study("load", "gaps, idle time and response times by the rate of arrivals", list(RUNS), measure, draw)
