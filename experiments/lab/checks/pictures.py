"""Pictures of long stretches: they sum up what `measure` counts, and nothing is lost by reading from the middle."""

from pathlib import Path

from lab.checks._tools import EXAMPLES, answer, differences, has_matplotlib, run
from lab.program import program

DISK = EXAMPLES / "disk-10000rpm.toml"
CALLS = ("0 open all scrub 1 16\n0 want all 0 2000000\n0 open some plain 2 64\n0 want some 1000000 400000\n")
WHOLE, SHORT = ["--whole"], ["--from", "900", "--to", "950"]
FORMS = {"long.png": (b"\x89PNG", WHOLE), "short.svg": (b"<?xml", SHORT), "long.pdf": (b"%PDF", WHOLE)}


def check(folder: Path) -> list[str]:
    """A run of 500 requests, whole and from its middle on, and a picture in each form."""
    if not has_matplotlib():
        return []
    fore, back = _made_run(folder)
    faults = _sums(fore, back) + _from_the_middle(fore, back)
    for name, (start, stretch) in FORMS.items():
        out = folder / name
        answer("picture", DISK, fore, back, out, *stretch, "--title", r"<500> requests & $\two tasks_{")
        faults += [] if out.read_bytes().startswith(start) else [f"{name} isn't what its name says"]
    return faults


def _made_run(folder: Path) -> tuple[Path, Path]:
    trace, calls, script = folder / "made.trace", folder / "made.calls", folder / "calls"
    fore, back = folder / "fore", folder / "back"
    run(program(), "make", "--params", DISK, "--trace", trace, "--calls", calls, "--number", "7", "--requests", "500")
    script.write_text(CALLS)
    fore.write_text(run(program(), "replay", "--params", DISK, "--trace", trace, "--policy", "clook", "--calls", script,
                        "--back", back))
    return fore, back


def _sums(fore: Path, back: Path) -> list[str]:
    """Times and bytes over the whole run are those of `measure`, where transfer and moves are told apart otherwise."""
    from lab.figures import figures_of
    from lab.overview import end_of, found_in, shares
    from lab.params import disk_of
    from lab.reading import Reports

    disk, reports = disk_of(str(DISK)), Reports(str(fore), str(back))
    bins = found_in(disk, reports, 0, end_of(reports)).bins
    figures = figures_of(disk, reports)
    time, background = figures["time"], figures["background"]
    found = {name: sum(parts) / bins.number for name, parts in shares(bins).items()}
    wanted = {"used in gaps": time["rotational wait used"], "used for puts": 0, "used when idle": time["idle used"],
              "wait unused": time["rotational wait unused"], "idle unused": time["idle unused"],
              "arm or head moves": time["seek"] + time["detour moves"],
              "foreground read": time["transfer"] - found["foreground write"],
              "foreground write": found["foreground write"]}
    faults = differences({name: round(share, 6) for name, share in found.items()},
                         {name: round(share, 6) for name, share in wanted.items()}, "sums")
    for how in ("gap", "idle", "ride"):
        faults += differences(round(sum(bins.sums(f"bytes {how}"))), background[f"bytes by {how}"], f"bytes by {how}")
    return faults


def _from_the_middle(fore: Path, back: Path) -> list[str]:
    """What is left in the middle of the run, by its lines."""
    from lab.overview import end_of, found_in
    from lab.params import disk_of
    from lab.reading import Reports

    reports = Reports(str(fore), str(back))
    end = end_of(reports)
    faults = []
    for begin in (1, end // 3, end // 2, end - 300_000_000):
        tasks = found_in(disk_of(str(DISK)), reports, begin, end).tasks
        for name, task in tasks.by_name.items():
            done = [line for line in back.read_text().splitlines() if line.startswith(f"got {name} ")]
            before = sum(int(line.split()[6]) <= begin for line in done)
            faults += differences(task.over_time[0], task.at_end.blocks - before, f"{name} from {begin}")
            faults += differences(task.over_time[-1], task.at_end.left, f"{name} at the end")
    return faults
