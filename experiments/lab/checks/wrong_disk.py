"""`measure` and `picture` refuse a run on another disk, and a report with an instant that can't be."""

from pathlib import Path

from lab.checks._tools import EXAMPLES, SMALL_DISK, Ended, ended, has_matplotlib, small_run

# The first row of the example's reports that can't be of the disk, and a part of what is said. On the worn disk, slot 3
# of track 0.0 has no sector, so that sector 5 is in slot 6. The gap of request 4 lasts 1,500 ns, too short for a seek
# of 2,000 over two cylinders, and that of request 2 lasts 950, too short for one of 300 and a settling of 900.
DISKS = {
    "worn": ("", "line 2 of the background report", "sector 5 begins to pass 600 ns into a rotation"),
    "slow": ("seek = [[1, 300], [3, 3700]]", "line 14 of the background report", "2000 ns from track 1.1 to 3.1"),
    "faster turn": ("rotation_ns = 1000", "line 2 of the background report", "sector 5 begins"),
    "more slots": ("sectors = 13", "line 2 of the background report", "sector 5 begins"),
    "settling": ("write_settle_ns = 900", "line 4 of the background report", "the head takes 1200 ns"),
}
# Lines of the background report that are changed: what stands there, what takes its place, and a part of what is said.
LINES = {
    "a block's beginning": ("got scan 3 10 2 1000 1200", "got scan 3 10 2 900 1200", "line 5"),
    "a block's end": ("got scan 3 10 2 1000 1200", "got scan 3 10 2 1000 1300", "line 5"),
    "a block on a track where the head isn't": ("got scan 3 10 2 1000 1200", "got scan 3 22 2 1000 1200", "line 5"),
    "a block after the head has left": ("got scan 3 10 2 1000 1200", "got scan 3 10 2 2200 2400", "line 5"),
    "a block that the read didn't carry": ("got copy 2 42 1 3000 3100", "got copy 2 43 1 3100 3200", "line 11"),
    "a target": ("gap 3 1.1 1.1", "gap 3 1.1 1.0", "line 6"),
    "a leave": ("direct 1200", "direct 1300", "line 4"),
    "no number": ("got copy 0 40", "got copy 0 4o", "line 9"),
    "a row too many": ("end 6000", "end 6000 0", "line 18"),
}


def check(folder: Path) -> list[str]:
    """Each wrong disk and each wrong line is refused, by line, with status 1 and without a traceback."""
    fore, back = small_run(folder)
    small = SMALL_DISK.read_text()
    faults = []
    for name, (line, where, what) in DISKS.items():
        disk = folder / "other.toml"
        disk.write_text(_changed(small, line) if line else (EXAMPLES / "worn-disk.toml").read_text())
        said = ended("measure", disk, fore, back)
        faults += [] if _refuses(said, where, what) else [f"measure on the disk '{name}' says {said}"]
    for name, (old, new, where) in LINES.items():
        wrong = folder / "wrong.back"
        text = back.read_text()
        wrong.write_text(text.replace(old, new, 1))
        said = ended("measure", SMALL_DISK, fore, wrong)
        faults += [] if old in text and _refuses(said, where, "") else [f"measure with {name} changed says {said}"]
    if has_matplotlib():
        said = ended("picture", EXAMPLES / "worn-disk.toml", fore, back, folder / "never.png")
        faults += [] if _refuses(said, "line 2", "sector 5 begins") else [f"picture on another disk says {said}"]
    return faults


def _changed(disk: str, line: str) -> str:
    """The parameter file with a line in the place of that with its key."""
    key = line.split(" ")[0]
    return "".join(line + "\n" if old.split(" ")[0] == key else old + "\n" for old in disk.splitlines())


def _refuses(said: Ended, where: str, what: str) -> bool:
    return said.status == 1 and where in said.err and what in said.err and said.err.count("\n") == 1 and not said.out
