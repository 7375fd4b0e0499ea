"""`disk` of the disk that docs/USING.md describes, whose figures that page works out; and `disk --sheet`."""

import json
import re
from io import StringIO
from pathlib import Path
from subprocess import run as run_with
from typing import Any

from lab.checks._tools import EXAMPLES, HERE, Ended, answer, ended, has_matplotlib, run
from lab.program import program
from lab.refusals import Refused
from lab.sheet import write_from_sheet

# An 8 TB disk's sheet: rotations, MB/s outside and inside, GB, heads, bytes of a sector, mean seeks, track to track, full
# seek, head switch.
SHEET = ["7200", "249", "120", "8000", "", "4096", "8.5", "9.5", "", "", ""]
# Answers that are changed: the question's number, the answer, and a part of what is said.
WRONG_ANSWERS = {
    "no number": (0, "fast", "is no number"),
    "no answer": (1, "", "is no number"),
    "a rate that rises inwards": (2, "260", "inside is above"),
    "a mean beyond the full seek": (9, "8", "don't go together"),
    "a mean below the next track": (8, "9", "don't go together"),
    "half a head": (4, "2.5", "whole number"),
    "a sector of 500 bytes": (5, "500", "multiple of 16"),
    "a write quicker than a read": (7, "8", "below that to read"),
    "one head for all of it": (4, "1", "cylinders"),
}


def check(folder: Path) -> list[str]:
    """Figures, advice, a sheet, and what is refused."""
    return [*_figures(folder), *_sheet(folder), *_refused(folder)]


def _figures(folder: Path) -> list[str]:
    """What USING says of its disk, and of the same with one slot less of skew."""
    using = (HERE.parent / "docs/USING.md").read_text()
    found = re.search(r"```toml my-disk.toml\n(.*?)```", using, re.DOTALL)
    if not found:
        return ["docs/USING.md has no my-disk.toml"]
    disk = folder / "my-disk.toml"
    disk.write_text(found[1])
    facts = _facts(disk)
    zone = facts["zones"][0]
    # 130 slots of 1,200 take 902,777 ns, in which the heads switch within 900,000; 129 take 895,833, too little.
    wants = [("bytes", facts["bytes"], 122_880_000_000), ("tracks", facts["tracks"], 240_000),
             ("mean seek", round(facts["seek"]["mean to read"] / 1e4), 850),
             ("MB/s", round(zone["MB/s on a track"], 3), 73.728), ("border", zone["border of tracks"]["read"], 902_777),
             ("spared", zone["border of tracks"]["spared_to_read"], 0)]
    disk.write_text(found[1].replace("track_skew = 130", "track_skew = 129"))
    border = _facts(disk)["zones"][0]["border of tracks"]
    wants += [("border with less skew", border["read"], 895_833 + 8_333_333),
              ("spared by one slot more", border["spared_to_read"], 895_833 + 8_333_333 - 902_777),
              ("the least skew", border["skew_for_reads"], 130)]
    faults = [f"disk says {name} {value}, by hand {due}" for name, value, due in wants if value != due]
    page = answer("disk", disk)
    return faults + ([] if "track_skew 130 would spare 8.326 ms" in page else ["the page doesn't advise another skew"])


def _sheet(folder: Path) -> list[str]:
    """The file of a sheet has the sheet's figures, and the program takes it."""
    disk = folder / "sheet.toml"
    said = _asked(disk, SHEET, *(("--picture", str(folder / "disk.png")) if has_matplotlib() else ()))
    if said.status:
        return [f"disk --sheet says {said}"]
    facts = _facts(disk)
    rates = [facts["zones"][at][f"MB/s {way} in order"] for way in ("read", "written") for at in (0, -1)]
    wants = [("GB", facts["bytes"] / 1e9, 8_000.0), ("mean seek", facts["seek"]["mean to read"] / 1e6, 8.5),
             ("mean seek to write", facts["seek"]["mean to write"] / 1e6, 9.5),
             *(("MB/s", rate, due) for rate, due in zip(rates, (249.0, 120.0) * 2))]
    faults = [f"the sheet's disk has {name} {value}, and the sheet {due}" for name, value, due in wants
              if abs(value - due) > due / 200]
    report = run(program(), "replay", "--params", disk, "--trace", "/dev/null", "--policy", "fcfs")
    if report != "freeblock fore 1\nend 0 0\n":
        faults.append("the program doesn't take the sheet's disk")
    return faults


def _refused(folder: Path) -> list[str]:
    """Faulty answers, files and pictures are refused in one line."""
    faults, disk = [], folder / "never.toml"
    for name, (at, answer, what) in WRONG_ANSWERS.items():
        said = _refusal(disk, [*SHEET[:at], answer, *SHEET[at + 1:]])
        faults += [] if what in said and not disk.exists() else [f"a sheet with {name} gives {said or 'no fault'}"]
    small = EXAMPLES / "small-disk.toml"
    cases = {"no answers": (_asked(disk, []), "is no number"),
             "a file that is there": (_asked(small, SHEET), "is there already"),
             "no folder": (_asked(folder / "no/disk.toml", SHEET), "no folder"),
             "no file": (ended("disk", folder / "no.toml"), "no such file"),
             "a trace": (ended("disk", EXAMPLES / "small.trace"), "no parameter file")}
    if has_matplotlib():
        cases["a picture over its disk"] = (ended("disk", small, "--picture", small), "would be lost")
        cases["a picture of no kind"] = (ended("disk", small, "--picture", folder / "disk.doc"), "ends with")
    wrong = {name: said for name, (said, what) in cases.items() if not _refuses(said, what)}
    return faults + [f"disk with {name} says {said}" for name, said in wrong.items()]


def _facts(disk: Path) -> dict[str, Any]:
    return dict(json.loads(answer("disk", disk, "--json")))


def _asked(disk: Path, answers: list[str], *more: str) -> Ended:
    done = run_with([str(HERE / "disk"), str(disk), "--sheet", *more], capture_output=True, text=True,
                    input="".join(f"{answer}\n" for answer in answers))
    return Ended(done.returncode, done.stdout, done.stderr)


def _refusal(disk: Path, answers: list[str]) -> str:
    """Why a sheet's answers are refused; nothing where they are taken."""
    try:
        write_from_sheet(str(disk), StringIO("\n".join(answers)), StringIO())
    except Refused as fault:
        return str(fault)
    return ""


def _refuses(said: Ended, what: str) -> bool:
    return said.status == 2 and what in said.err and "Traceback" not in said.err and not said.out
