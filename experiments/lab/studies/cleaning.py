"""Cleaning: what log segments get, by how many sessions clean side by side."""

from typing import Any, NamedTuple

from lab.ending import ending_of
from lab.reports import rows
from lab.runs import REQUESTS, Closed, account_of, closed_run, columns, disk_named
from lab.scripts import log_segments
from lab.study import Study
from lab.tables import Line
from lab.tasks import Tasks
from lab.workload import Mix

BLOCKS, BLOCK, LIVE = 64, 16, 0.6  # blocks of a segment, sectors of a block, share of live blocks


class Cleaning(NamedTuple):
    """A run: the foreground, and the number of sessions."""

    loop: Closed
    sessions: int


RUNS = {f"{loop.policy}-{loop.outstanding}-{sessions}": Cleaning(loop, sessions)
        for loop in (Closed("fcfs", 2), Closed("sstf", 20), Closed("sptf", 20))
        for sessions in (1, 3, 10, 30, 100, 300, 1000)}


def measure(run: str, folder: str, part: float) -> list[Line]:
    """The whole disk as segments of 512 KB, of which three fifths of the blocks are live, dealt out to the sessions."""
    loop, sessions = RUNS[run]
    disk = disk_named(loop.disk)
    script = log_segments(disk.sectors, sessions, BLOCKS, BLOCK, LIVE, seed=3)
    runs = closed_run(loop, disk, round(REQUESTS * part), Mix(), script, folder)
    ending = ending_of(runs.back)
    tasks = Tasks(ending, [])
    for row in rows(runs.fore, runs.back):
        tasks.add(row)
    cleaned = sum(task.segments for task in tasks.by_name.values())
    return [{"policy": loop.policy, "outstanding": loop.outstanding, "sessions": sessions,
             "segments a second": cleaned / ending.end * 1e9, **columns(account_of(disk, runs))}]


def draw(table: list[dict[str, Any]], path: str) -> None:
    """Segments cleaned a second and bytes read, by sessions."""
    from lab.drawing import LOOKS, panels, save

    figure, axes = panels(1, 2, 3.8)
    for panel, (name, label) in zip(axes, (("segments a second", "segments cleaned a second"), ("MB/s", "MB/s read"))):
        for policy, outstanding in dict.fromkeys((line["policy"], line["outstanding"]) for line in table):
            lines = [line for line in table if line["policy"] == policy]
            panel.plot([line["sessions"] for line in lines], [line[name] for line in lines], **LOOKS[policy],
                       label=f"{policy}, {outstanding} outstanding")
        panel.set_xscale("log")
        panel.xaxis.set_major_formatter("{x:g}")
        panel.set_xlabel("sessions")
        panel.set_ylabel(label)
        panel.set_ylim(0)
    axes[1].legend(loc="upper left")
    save(figure, path)


STUDY = Study("cleaning", "segments cleaned, by the number of sessions", list(RUNS), measure, draw)
