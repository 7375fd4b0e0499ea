"""One combination of a grid: its replay with its background and without, and its line of the table."""

import os
from typing import Any, Iterable

from lab.digests import digest_of, file_digest, scripts_digest
from lab.disk import Disk
from lab.figures import figures_of
from lab.grid import FILES, Combination
from lab.params import disk_of
from lab.program import Runs, replay_both
from lab.reading import Reports
from lab.refusals import Refused
from lab.scripts import wanted_range, write_script
from lab.tables import NOTHING, Line

RESPONSES = {"mean ms": "mean", "95 % ms": "95th percentile", "99.9 % ms": "99.9th percentile"}
MOST_TASKS = 8  # of which each has its columns


def stamp_of(combination: Combination) -> str:
    """A digest of all that decides the line: contents of files, values of the other keys, and the scripts."""
    parts = [f"{name}={file_digest(choice.value) if name in FILES else choice.value!r}"
             for name, choice in combination.items()]
    return digest_of(scripts_digest(), *parts)


def measured(combination: Combination, varied: Iterable[str], tasks: list[str], folder: str) -> Line:
    """The line of a combination, after its replay with the background and without."""
    value = {name: choice.value for name, choice in combination.items()}
    disk = disk_of(value["params"])
    more = [word for key, option in (("until", "--until"), ("device", "--device")) if key in value
            for word in (option, combination[key].label)]
    script = value.get("calls") or write_script(os.path.join(folder, "calls"), _script(value, tasks, disk))
    runs = replay_both(disk.path, value["trace"], value["policy"], script, folder, *more)
    return {name: combination[name].label for name in varied} | figures(disk, runs)


def _script(value: dict[str, Any], tasks: list[str], disk: Disk) -> list[str]:
    """The lines that open each task of the grid and want its range."""
    lines: list[str] = []
    for name in tasks:
        kind, block, weight, wanted = (value[f"{name}.{key}"] for key in ("kind", "block", "weight", "range"))
        first, sectors = wanted or (0, disk.sectors)
        if first + sectors > disk.sectors:
            raise Refused(f"task {name} wants sectors up to {first + sectors - 1}, and the disk has {disk.sectors}")
        lines += wanted_range(kind, block, first, sectors, name, weight)
    return lines


def figures(disk: Disk, runs: Runs) -> Line:
    """The figures of a run that a table shows, as `measure` gives them; times of the foreground in milliseconds."""
    found = figures_of(disk, Reports(runs.fore, runs.back))
    response, time, background, tasks = (found[group] for group in ("response", "time", "background", "tasks"))
    line: Line = {"requests": found["foreground"]["requests"]}
    line |= {name: response[key] / 1e6 if response else NOTHING for name, key in RESPONSES.items()}
    line["free %"] = time["rotational wait used"] + time["idle used"]
    line |= {f"{how} MB/s": background[f"MB/s by {how}"] for how in ("gap", "ride", "idle")}
    blocks = sum(task["blocks"] for task in tasks.values())
    line["left %"] = 100 * sum(task["left"] for task in tasks.values()) / blocks if blocks else NOTHING
    for name, task in tasks.items() if len(tasks) <= MOST_TASKS else ():
        line |= {f"{name} done s": task["completion"] / 1e9 if task["complete"] else NOTHING,
                 f"{name} left": task["left"], f"{name} end blocks/s": task["blocks a second in the last tenth"]}
    return line
