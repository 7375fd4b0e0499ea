"""What the checks share: running a command, comparing figures, and the README's example."""

import contextlib
import importlib.util
import io
import runpy
import subprocess
import sys
import traceback
from pathlib import Path
from typing import Any, NamedTuple

from lab.program import program

HERE = Path(__file__).resolve().parents[2]
EXAMPLES = HERE.parent / "examples"
SMALL_DISK = EXAMPLES / "small-disk.toml"


class Ended(NamedTuple):
    """How a command ended."""

    status: int
    out: str
    err: str


def ended(script: str, *words: str | Path) -> Ended:
    """Runs a script of this folder in this process, which saves starting another, and tells how it ended."""
    before, out, err = sys.argv, io.StringIO(), io.StringIO()
    sys.argv = [script, *map(str, words)]
    status: Any = None
    with contextlib.redirect_stdout(out), contextlib.redirect_stderr(err):
        try:
            runpy.run_path(str(HERE / script), run_name="__main__")
        except SystemExit as end:
            status = end.code
        except BaseException:
            traceback.print_exc()
            status = "a traceback"
    sys.argv = before
    return Ended(status, out.getvalue(), err.getvalue())


def answer(script: str, *words: str | Path) -> str:
    """What a script of this folder prints; a failure ends the check."""
    done = ended(script, *words)
    if done.status:
        raise CheckFailed(f"{script} {' '.join(map(str, words))} ends with {done.status}: {done.err}")
    return done.out


class CheckFailed(Exception):
    """A command that should have gone well."""


def run(*words: str | Path) -> str:
    """What the command prints; a failure ends the check."""
    return subprocess.run(list(map(str, words)), check=True, stdout=subprocess.PIPE, text=True).stdout


def small_run(folder: Path, *more: str | Path) -> tuple[Path, Path]:
    """The two reports of the README's example, which lasts 6,000 ns."""
    fore, back = folder / "small.fore", folder / "small.back"
    fore.write_text(run(program(), "replay", "--params", SMALL_DISK, "--trace", EXAMPLES / "small.trace", "--policy",
                        "sptf", "--calls", EXAMPLES / "small.calls", "--back", back, "--until", "0.006", *more))
    return fore, back


def has_matplotlib() -> bool:
    """Whether pictures can be drawn; says so where they can't."""
    there = importlib.util.find_spec("matplotlib") is not None
    if not there:
        print("check: no matplotlib, so no picture is drawn: apt-get install --no-install-recommends "
              "python3-matplotlib", flush=True)
    return there


def differences(found: Any, wanted: Any, where: str = "") -> list[str]:
    """Where figures differ by more than rounding."""
    if isinstance(wanted, dict):
        names = (found or {}).keys() | wanted.keys()
        return [text for name in sorted(names)
                for text in differences((found or {}).get(name), wanted.get(name), f"{where}/{name}")]
    same = found == wanted
    if isinstance(wanted, (int, float)) and isinstance(found, (int, float)):
        same = abs(found - wanted) <= 1e-9 * abs(wanted)
    return [] if same else [f"{where} is {found}, by hand {wanted}"]
