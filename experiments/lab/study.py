"""A study: its runs, its table, its picture, and how long it took."""

import resource
from dataclasses import dataclass
from functools import partial
from pathlib import Path
from typing import Any, Callable

from lab.batch import Batch, Places
from lab.digests import digest_of, file_digest, scripts_digest
from lab.tables import Line, read_table, write_table

EXPERIMENTS = Path(__file__).resolve().parents[1]


@dataclass(frozen=True)
class Study:
    """A study: its runs by name, what a run gives, and how the table is drawn."""

    name: str
    about: str
    runs: list[str]
    measure: Callable[[str, str, float], list[Line]]  # run, folder for its files, part of the full size: table lines
    draw: Callable[[list[dict[str, Any]], str], None]  # table, picture

    def batch(self, part: float) -> Batch:
        """The runs with this part of their full size."""
        words = [str(EXPERIMENTS / "study"), self.name, "--part", str(part)]
        return Batch("study", f"study {self.name}", self.runs, words, partial(_stamp, self.name, part),
                     partial(_measure, self, part), self.draw)

    def places(self, folder: Path | None) -> Places:
        """Below a folder, where runs are kept too; or those of the tree."""
        root = folder or EXPERIMENTS
        return Places(root / "results" / f"{self.name}.tsv", root / "pictures" / f"{self.name}.png",
                      root / "runs" / self.name if folder else None)


def _stamp(name: str, part: float, run: str) -> str:
    """What decides a run: its name, its size, the disks and the scripts."""
    disks = [file_digest(str(path)) for path in sorted((EXPERIMENTS / "disks").glob("*.toml"))]
    return digest_of(name, run, repr(part), scripts_digest(), *disks)


def _measure(study: Study, part: float, run: str, folder: str) -> list[Line]:
    return study.measure(run, folder, part)


def note_time(study: Study, seconds: float, jobs: int, table: Path) -> None:
    """Keeps the study's line of times.tsv: seconds, jobs, processor seconds, greatest memory of a program."""
    path = table.with_name("times.tsv")
    times = {line["study"]: line for line in (read_table(path) if path.exists() else [])}
    used = resource.getrusage(resource.RUSAGE_CHILDREN)
    times[study.name] = {"study": study.name, "runs": len(study.runs), "jobs": jobs, "seconds": round(seconds),
                         "processor seconds": round(used.ru_utime + used.ru_stime),
                         "greatest MB": round(used.ru_maxrss / 1e3)}
    write_table(path, list(times.values()))
