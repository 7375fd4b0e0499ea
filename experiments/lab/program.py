"""Runs the proved program, with the background and without, and compares what the foreground got."""

import filecmp
import os
import subprocess
from pathlib import Path
from typing import NamedTuple

from lab.refusals import WrongInput
from lab.reports import served_rows

TREE = Path(__file__).resolve().parents[2]


class Runs(NamedTuple):
    """The reports of a run with a background, and how long the program took for it (seconds of processor time)."""

    fore: str
    back: str
    seconds: float


class RunFailed(WrongInput):
    """A run that has come to nothing."""


class Touched(RunFailed):
    """The foreground wasn't as it is without the background, or its arrivals weren't those of the loop."""


def program() -> str:
    """The program: what the variable FREEBLOCK names, else the one that the tree has built."""
    path = os.environ.get("FREEBLOCK") or str(TREE / "crates/freeblock/out/freeblock")
    if not os.path.isfile(path) or not os.access(path, os.X_OK):
        raise FileNotFoundError(f"no program at {path}: build it by ./freeblock, or name it by FREEBLOCK")
    return path


def replay(params: str, trace: str, policy: str, fore: str, *more: str) -> None:
    """One replay; its foreground report goes to the file `fore`. Where it is refused, its own note says why."""
    words = [program(), "replay", "--params", params, "--trace", trace, "--policy", policy, *more]
    with open(fore, "w") as out:
        done = subprocess.run(words, stdout=out, stderr=subprocess.PIPE, text=True, errors="replace")
    if done.returncode:
        raise RunFailed(done.stderr.strip() or f"{words[0]} ended with status {done.returncode}")


def replay_both(params: str, trace: str, policy: str, script: str, folder: str, *more: str) -> Runs:
    """A replay with a call script, whose foreground report must be byte for byte that of a replay without."""
    alone, fore, back = (os.path.join(folder, name) for name in ("alone", "fore", "back"))
    replay(params, trace, policy, alone, *more)
    before = _children()
    replay(params, trace, policy, fore, "--calls", script, "--back", back, *more)
    seconds = _children() - before
    if not filecmp.cmp(alone, fore, shallow=False):
        raise Touched("the background has touched the foreground: the report with it isn't that without it")
    os.remove(alone)
    return Runs(fore, back, seconds)


def _children() -> float:
    """Processor time of all programs that were waited for, in seconds."""
    times = os.times()
    return times.children_user + times.children_system


def assert_closed(fore: str, outstanding: int) -> None:
    """Refuses a report in which request k + outstanding doesn't arrive at the k-th finish."""
    arrivals, finishes = [], []
    for row in served_rows(fore):
        arrivals.append(row.arrival)
        finishes.append(row.finish)
    arrivals.sort()
    if any(arrivals[:outstanding]) or arrivals[outstanding:] != finishes[:max(0, len(finishes) - outstanding)]:
        raise Touched(f"the arrivals of {fore} aren't those of a closed loop with {outstanding} outstanding")
