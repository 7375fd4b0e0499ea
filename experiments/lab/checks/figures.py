"""Figures of runs without a background, of arrays, with spills, and of what is left over time, all reckoned by hand."""

import json
from pathlib import Path
from typing import Any

from lab.checks._tools import EXAMPLES, SMALL_DISK, answer, differences, run
from lab.checks.example import left
from lab.program import program

TASKS_TRACE = EXAMPLES / "tasks.trace"


def check(folder: Path) -> list[str]:
    """Each of these, and the table."""
    return [fault for part in (_without_background, _of_an_array, _with_spills, _of_a_backup, _outlook, _table)
            for fault in part(folder)]


def _figures(*words: str | Path) -> dict[str, Any]:
    found: dict[str, Any] = json.loads(answer("measure", SMALL_DISK, *words, "--json"))
    return found


def _replay(folder: Path, name: str, *words: str | Path) -> Path:
    fore = folder / f"{name}.fore"
    fore.write_text(run(program(), "replay", "--params", SMALL_DISK, "--policy", "sptf", "--trace", *words))
    return fore


# The four requests of the README's example by themselves: the run ends with the last, at 4,800 ns. Without stays the
# moves and waits are the same, and the head rests for the 50 ns between requests 1 and 2.
ALONE = {"seek": 75000 / 4800, "rotational wait used": 0, "rotational wait written": 0,
         "rotational wait unused": 320000 / 4800, "detour moves": 0, "transfer": 80000 / 4800, "idle used": 0,
         "idle unused": 5000 / 4800}


def _without_background(folder: Path) -> list[str]:
    found = _figures(_replay(folder, "alone", EXAMPLES / "small.trace"))
    wanted = {"end": 4800, "time": ALONE, "background": None, "tasks": {}}
    return differences({name: found[name] for name in wanted}, wanted, "alone")


def _of_an_array(folder: Path) -> list[str]:
    """Two devices with one request each: it begins at slot 5 or 6, and passes for 100 ns or 200."""
    trace, both = folder / "two.trace", folder / "array"
    trace.write_text("0 0 5 1 1\n0 1 6 2 1\n")
    both.write_text(run(program(), "array", "--params", SMALL_DISK, "--trace", trace, "--policy", "sptf", "--devices",
                        "2"))
    return [fault for section, end in ((0, 600), (1, 800)) for fault in
            differences(_figures(both, "--section", str(section))["response"]["greatest"], end, f"section {section}")]


# The puts of USING's example: four blocks of two sectors are written in three gaps, for 200, 400 and 200 ns of 9,000.
# Each of the three ways goes by track 1.1. To 1.1 and on it takes 350 + 250, 250 + 300 and 350 + 300 ns, where the gaps
# without it take 350, 300 and 400.
SPILLS = {"spills": 3, "gaps with a spill": 37.5, "bytes": 8 * 16, "MB/s": 8 * 16 / 9, "sectors written": 8,
          "sectors left": 4}


def _with_spills(folder: Path) -> list[str]:
    spill = folder / "spill"
    fore = _replay(folder, "puts", TASKS_TRACE, "--puts", EXAMPLES / "log.puts", "--spill", spill)
    found = _figures(fore, "--spill", spill)
    return (differences(found["spills"], SPILLS, "spills")
            + differences(found["time"]["rotational wait written"], 80000 / 9000, "written")
            + differences(found["time"]["detour moves"], 75000 / 9000, "detour moves"))


def _of_a_backup(folder: Path) -> list[str]:
    """USING's backup of three blocks: they are in at 1,600, 3,200 and 4,800 ns, the first is overwritten at 3,800, and
    in again at 10,000."""
    back = folder / "backup.back"
    fore = _replay(folder, "backup", TASKS_TRACE, "--calls", EXAMPLES / "backup.calls", "--back", back, "--until",
                   "0.012")
    found = _figures(fore, back)["tasks"]["copy"]["left over time"]
    return differences(found, left(3, 3, 2, 1, 1, 1, 1, 1, 1, 0, 0, end=12000), "backup")


def _outlook(folder: Path) -> list[str]:
    """An idle disk whose first track is scrubbed, sector by sector, for 1,000 ns; ten of 24 are read, one each 100 ns,
    so that the 14 that are left would take 1,400 more."""
    fore, back = folder / "idle.fore", folder / "idle.back"
    fore.write_text("freeblock fore 1\nend 0 0\n")
    rows = [f"got scan {at} {at} 1 {100 * at} {100 * at + 100} idle 0 -\n" for at in range(10)]
    back.write_text("freeblock back 1\nidle 0.0 0 1000\n" + "".join(rows)
                    + "task scan scrub 24 10 0 14 open\nend 1000\n")
    found = _figures(fore, back)["tasks"]["scan"]
    faults = differences(found["left over time"], left(*range(24, 13, -1), end=1000), "outlook")
    faults += differences(found["blocks a second in the last tenth"], 1e7, "rate")
    return faults + differences(found["complete at that rate"], 2400, "complete at that rate")


def _table(folder: Path) -> list[str]:
    lines = answer("measure", SMALL_DISK, folder / "backup.fore", folder / "backup.back", "--csv").splitlines()
    wanted = ("group,name,value", "end,,12000", "histogram,from 500 to 1000,1", "task copy,seal,10000",
              "task copy,left at 4800,1")
    return [f"the table has no line {line}" for line in wanted if line not in lines]
