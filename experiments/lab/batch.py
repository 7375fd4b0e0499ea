"""Runs that make one table together: side by side, taken up again where some are there, or joined from machines."""

import os
import subprocess
import sys
import tempfile
import time
from concurrent.futures import FIRST_COMPLETED, Future, ThreadPoolExecutor, wait
from dataclasses import dataclass
from pathlib import Path
from typing import Callable, Iterator

from lab.program import RunFailed
from lab.runtext import joined, kept_run, text_of_run
from lab.tables import Line, read_table, write_lines, write_table


@dataclass(frozen=True)
class Batch:
    """Runs by name; what each is made of, and what it gives."""

    speaker: str  # who says something on standard error
    name: str
    runs: list[str]
    words: list[str]  # the command that, with `--run NAME` behind it, prints one run's lines
    stamp_of: Callable[[str], str]  # a digest of all that decides what a run gives
    measure: Callable[[str, str], list[Line]]  # run, folder for its files: table lines
    draw: Callable[[list[Line], str], str | None]  # table, picture: why there is none, where there is none

    def say(self, text: str) -> None:
        """A line on standard error."""
        print(f"{self.speaker}: {text}", file=sys.stderr, flush=True)


@dataclass(frozen=True)
class Places:
    """Where a batch leaves its table, its picture, and, if it keeps them, the lines of its runs."""

    table: Path
    picture: Path
    runs: Path | None


def run_one(batch: Batch, run: str) -> str:
    """The lines of one run, which has a folder of its own below WORK; that is removed."""
    with tempfile.TemporaryDirectory(dir=os.environ.get("WORK"), prefix="freeblock-") as folder:
        lines = [{"run": run, **line} for line in batch.measure(run, folder)]
    return text_of_run(batch.name, run, batch.stamp_of(run), lines)


def run_all(batch: Batch, jobs: int, places: Places) -> bool:
    """Makes the runs that aren't there yet, so many side by side, then table and picture; whether all of them came.

    Each is a process of its own, the same as on another machine."""
    for path in (places.table.parent, places.picture.parent, places.runs):
        if path is not None:
            path.mkdir(parents=True, exist_ok=True)
    texts = kept(batch, places.runs)
    left = [run for run in batch.runs if run not in texts]
    if len(left) < len(batch.runs):
        batch.say(f"{len(batch.runs) - len(left)} of {len(batch.runs)} runs are there already")
    begin = time.monotonic()
    failed = 0
    for number, (run, text) in enumerate(_made(batch, left, jobs), len(batch.runs) - len(left) + 1):
        if text is None:
            failed += 1
            continue
        texts[run] = text
        if places.runs:
            write_whole(places.runs / f"{run}.tsv", text)
        batch.say(f"{number}/{len(batch.runs)} {run} {time.monotonic() - begin:.0f} s")
    if failed:
        there = f"; the others are kept in {places.runs}" if places.runs else ""
        batch.say(f"no table, as {failed} of {len(batch.runs)} runs failed{there}")
        return False
    finish(batch, joined(batch, {run: texts[run] for run in batch.runs}), places)
    return True


def kept(batch: Batch, folder: Path | None) -> dict[str, str]:
    """The runs that are there already; those that are broken or made of other inputs are left out, and named."""
    texts: dict[str, str] = {}
    if folder is None:
        return texts
    for run in batch.runs:
        path = folder / f"{run}.tsv"
        if not path.exists():
            continue
        text, fault = kept_run(batch, run, path)
        if fault:
            batch.say(f"{fault}; it is run again")
        else:
            texts[run] = text
    return texts


def _made(batch: Batch, runs: list[str], jobs: int) -> Iterator[tuple[str, str | None]]:
    """Each run and its text as it comes; None where it failed, which is told."""
    with ThreadPoolExecutor(jobs) as pool:
        waiting: dict[Future[str], str] = {pool.submit(_in_process, batch, run): run for run in runs}
        try:
            while waiting:
                done, _ = wait(waiting, return_when=FIRST_COMPLETED)
                for future in done:
                    run = waiting.pop(future)
                    yield run, _text_or_none(batch, future)
        finally:
            pool.shutdown(cancel_futures=True)


def _text_or_none(batch: Batch, future: "Future[str]") -> str | None:
    try:
        return future.result()
    except RunFailed as fault:
        print(fault, file=sys.stderr, flush=True)
        return None


def _in_process(batch: Batch, run: str) -> str:
    """One run by a process of its own; what it says where it fails is the fault."""
    done = subprocess.run([sys.executable, "-B", *batch.words, "--run", run], stdout=subprocess.PIPE,
                          stderr=subprocess.PIPE, text=True)
    if done.returncode:
        raise RunFailed(done.stderr.strip() or f"{batch.speaker}: {run}: status {done.returncode}")
    return done.stdout


def finish(batch: Batch, lines: list[Line], places: Places) -> None:
    """Writes the table and, where matplotlib is there and the batch has one, the picture."""
    places.table.parent.mkdir(parents=True, exist_ok=True)
    places.picture.parent.mkdir(parents=True, exist_ok=True)
    write_table(places.table, lines)
    try:
        why = batch.draw(read_table(places.table), str(places.picture))
    except ImportError:
        why = "there is no matplotlib (apt-get install --no-install-recommends python3-matplotlib)"
    batch.say(f"{places.table}" + (f"; no picture, as {why}" if why else f", {places.picture}"))


def print_table(lines: list[Line]) -> None:
    """The table on standard output."""
    sys.stdout.writelines(write_lines(lines))


def write_whole(path: Path, text: str) -> None:
    """Writes a file so that it is never there in part."""
    path.parent.mkdir(parents=True, exist_ok=True)
    part = path.with_name(f".{path.name}.{os.getpid()}")
    part.write_text(text)
    part.replace(path)
