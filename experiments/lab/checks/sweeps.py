"""`sweep` from a grid to its table; runs that fail, that are broken, missing, there twice or foreign; faulty grids."""

from pathlib import Path

from lab.checks._tools import EXAMPLES, SMALL_DISK, Ended, answer, ended, has_matplotlib
from lab.grid import read_grid
from lab.refusals import Refused

GRID = f"""
params = "disk.toml"
trace = "{EXAMPLES / 'small.trace'}"
policy = ["fcfs", "sptf"]
calls = "{EXAMPLES / 'small.calls'}"
until = 0.006
"""
# The README's example: see `example`. Of 9 blocks 2 are left; in the last tenth of the run nothing is read.
BY_HAND = {"requests": "4", "free %": "8.333", "gap MB/s": "13.333", "ride MB/s": "5.333", "idle MB/s": "0.000",
           "left %": "22.222", "scan done s": "-", "scan left": "2", "scan end blocks/s": "0.000", "copy done s": "0.000",
           "copy left": "0", "copy end blocks/s": "0.000"}
TASKS = """
[[task]]
name = "scan"
kind = "scrub"
block = [1, 2]
"""
# Faulty grids: what takes the place of what in a grid that is right, and a part of what is said.
FAULTY = {
    "no TOML": ("policy =", "policy", "line"),
    "an unknown key": ("until =", "untill =", "untill"),
    "no policy": ('policy = ["fcfs", "sptf"]', "", "policy is missing"),
    "a wrong policy": ('"sptf"', '"lifo"', "policy is to be"),
    "a policy twice": ('"sptf"', '"fcfs"', "fcfs twice"),
    "no file": ("small.trace", "no.trace", "no.trace"),
    "a time below 0": ("0.006", "-1", "until is to be"),
    "no values": ('["fcfs", "sptf"]', "[]", "policy is to be"),
    "a task beside scripts": ("until = 0.006", f"until = 0.006\n{TASKS}", "not both"),
    "a task that is no table": ("until = 0.006", "task = 1", "[[task]]"),
}
FAULTY_TASKS = {
    "no name": ('name = "scan"', "", "name"),
    "a wrong kind": ('"scrub"', '"clean"', "kind is to be"),
    "a block of no sector": ("[1, 2]", "[0, 2]", "block is to be"),
    "a block that is no number": ("[1, 2]", "true", "block is to be"),
    "a range of no sectors": ("block = [1, 2]", "block = 1\nrange = [0, 0]", "range is to be"),
    "an unknown key": ("block =", "blocks =", "block is missing"),
    "a name twice": ("[1, 2]", f"1\n{TASKS}", "two tasks"),
}


def check(folder: Path) -> list[str]:
    """A sweep of two runs, and what is refused."""
    grid = folder / "small.toml"
    grid.write_text(GRID)
    (folder / "disk.toml").write_text(SMALL_DISK.read_text())
    return [*_table(grid, folder), *_resumed(grid, folder), *_joined(grid, folder), *_failing(folder), *_faulty(folder)]


def _table(grid: Path, folder: Path) -> list[str]:
    """The line of the README's example, and a picture."""
    said = ended("sweep", grid, "--out", folder / "out")
    if said.status:
        return [f"sweep says {said}"]
    names, *rows = [line.split("\t") for line in (folder / "out/table.tsv").read_text().splitlines()]
    line = dict(zip(names, rows[-1]))
    faults = [f"the table has {name} {line.get(name)}, by hand {value}" for name, value in BY_HAND.items()
              if line.get(name) != value]
    if [row[0] for row in rows] != ["fcfs", "sptf"]:
        faults.append(f"the table's runs are {rows}")
    if has_matplotlib():
        from matplotlib.image import imread
        image = imread(folder / "out/picture.png")
        faults += ["the sweep's picture is empty"] if image.shape[1] < 900 or image.min() == image.max() else []
    return faults


def _resumed(grid: Path, folder: Path) -> list[str]:
    """Runs that are there aren't made again, but for one that is broken."""
    kept = folder / "out/runs/sptf.tsv"
    table = (folder / "out/table.tsv").read_text()
    whole = kept.read_text()
    kept.write_text(whole[:-6])
    said = ended("sweep", grid, "--out", folder / "out")
    faults = []
    if said.status or "sptf is broken" not in said.err or "1 of 2 runs are there" not in said.err:
        faults.append(f"with a broken run sweep says {said}")
    if kept.read_text() != whole or (folder / "out/table.tsv").read_text() != table:
        faults.append("a broken run isn't made again as it was")
    return faults


def _joined(grid: Path, folder: Path) -> list[str]:
    """Each run once, from one file or several, and no other."""
    fcfs, sptf = folder / "out/runs/fcfs.tsv", folder / "out/runs/sptf.tsv"
    both, broken, empty, other = (folder / name for name in ("both", "broken", "empty", "other"))
    both.write_text(sptf.read_text() + answer("sweep", grid, "--run", "fcfs"))
    broken.write_text(sptf.read_text()[:-6])
    empty.write_text("")
    (folder / "large.toml").write_text(GRID)
    other.write_text(answer("sweep", folder / "large.toml", "--run", "sptf"))
    wants = {
        "one missing": ([fcfs], "1 run is missing: sptf"),
        "one twice": ([fcfs, sptf, both], "run sptf a second time"),
        "one broken": ([fcfs, broken], "run sptf is broken"),
        "an empty file": ([both, empty], "the file is empty"),
        "another grid's": ([fcfs, other], "run sptf is of sweep large and not of sweep small"),
        "no run": ([both, grid], "no run begins there"),
        "no file": ([folder / "no"], "No such file"),
    }
    faults = []
    for name, (files, what) in wants.items():
        said = ended("sweep", grid, "--join", *files)
        faults += [] if _refuses(said, what) else [f"join with {name} says {said}"]
    said = ended("sweep", grid, "--join", both)
    if said.status or said.out != (folder / "out/table.tsv").read_text():
        faults.append(f"join of both runs says {said}")
    (folder / "disk.toml").write_text((EXAMPLES / "worn-disk.toml").read_text())
    said = ended("sweep", grid, "--join", both)
    (folder / "disk.toml").write_text(SMALL_DISK.read_text())
    return faults + ([] if _refuses(said, "made of other inputs") else [f"join of another disk's runs says {said}"])


def _failing(folder: Path) -> list[str]:
    """A run that the program refuses is named with the program's note, and the other is kept."""
    trace, grid = folder / "wide.trace", folder / "wide.toml"
    trace.write_text("0 0 90 4 1\n")  # the worn disk has 80 sectors, the small one 96
    worn = EXAMPLES / "worn-disk.toml"
    grid.write_text(f'params = ["{SMALL_DISK}", "{worn}"]\ntrace = "wide.trace"\npolicy = "fcfs"\n{TASKS}')
    said = ended("sweep", grid, "--out", folder / "wide", "--jobs", "2")
    faults = []
    note = "worn-disk-1: freeblock: trace: line 1: BeyondDisk"
    if said.status != 1 or note not in said.err or "Traceback" in said.err:
        faults.append(f"sweep over a disk that is too small says {said}")
    if (folder / "wide/table.tsv").exists() or not (folder / "wide/runs/small-disk-2.tsv").exists():
        faults.append("a failing run leaves a table, or takes the others with it")
    return faults


def _faulty(folder: Path) -> list[str]:
    """Each faulty grid is refused in one line."""
    right = GRID.replace(f'calls = "{EXAMPLES / "small.calls"}"\n', "") + TASKS
    cases = [(name, GRID.replace(old, new), what) for name, (old, new, what) in FAULTY.items()]
    cases += [(name, right.replace(old, new), what) for name, (old, new, what) in FAULTY_TASKS.items()]
    faults, grid = [], folder / "faulty.toml"
    for name, text, what in cases:
        grid.write_text(text)
        why = _refusal(grid)
        faults += [] if what in why else [f"a grid with {name} gives {why or 'no fault'}"]
    cases_of_words: list[tuple[Path, list[str], str]] = [
        (folder / "no.toml", [], "no such file"), (folder, [], "a folder"), (grid, ["--list"], "two tasks"),
        (folder / "small.toml", ["--run", "lifo"], "there is no run lifo")]
    for file, words, what in cases_of_words:
        said = ended("sweep", file, *words)
        faults += [] if _refuses(said, what) else [f"sweep of {file} {words} says {said}"]
    return faults


def _refusal(grid: Path) -> str:
    """Why a grid is refused; nothing where it is taken."""
    try:
        read_grid(str(grid))
    except Refused as fault:
        return str(fault)
    return ""


def _refuses(said: Ended, what: str) -> bool:
    return said.status == 2 and what in said.err and "Traceback" not in said.err and not said.out
