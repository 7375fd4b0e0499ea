"""The lines of one run as text, which says what batch and what run it is, and where it ends.

    freeblock run <batch> <run> <stamp>     the last three behind a tab each
    <names of the columns>
    <values>                                a line for each row of the table
    end <number of rows>

Texts of several runs may stand one after another in a file, as GNU parallel leaves them."""

from pathlib import Path
from typing import Iterable, Iterator, NamedTuple, Protocol

from lab.refusals import Refused
from lab.tables import Line, lines_of, write_lines

HEAD = "freeblock run"


class JoinFault(Exception):
    """Texts that aren't those of all runs, each once; one argument for each fault."""


class Owner(Protocol):
    """Whose runs they are."""

    @property
    def name(self) -> str:
        """The batch's name."""

    @property
    def runs(self) -> list[str]:
        """Its runs by name."""

    def stamp_of(self, run: str) -> str:
        """A digest of all that decides what a run gives."""


class Found(NamedTuple):
    """A run that was found in a file; `fault` says why it is none."""

    place: str
    batch: str
    run: str
    stamp: str
    lines: list[Line]
    fault: str = ""


def text_of_run(batch: str, run: str, stamp: str, lines: list[Line]) -> str:
    """The text of one run."""
    return "".join([f"{HEAD}\t{batch}\t{run}\t{stamp}\n", *write_lines(lines), f"end\t{len(lines)}\n"])


def runs_in(text: str, place: str) -> Iterator[Found]:
    """The runs of a text, whole ones and broken ones."""
    rows = text.splitlines()
    heads = [at for at, row in enumerate(rows) if row.startswith(f"{HEAD}\t") and row.count("\t") == 3]
    if not heads or heads[0] > 0:
        yield Found(f"{place}, line 1", "", "", "", [], "no run begins there" if rows else "the file is empty")
    for head, behind in zip(heads, [*heads[1:], len(rows)]):
        yield _found(rows[head:behind], f"{place}, line {head + 1}")


def _found(rows: list[str], place: str) -> Found:
    """The run whose rows these are."""
    _, batch, run, stamp = rows[0].split("\t")
    last = rows[-1].split("\t")
    if last[0] != "end" or last[1:] != [str(len(rows) - 3 if len(rows) > 2 else 0)]:
        return Found(place, batch, run, stamp, [], f"run {run} is broken: it has no end")
    try:
        return Found(place, batch, run, stamp, lines_of(rows[1:-1]))
    except ValueError as fault:
        return Found(place, batch, run, stamp, [], f"run {run} is broken: {fault}")


def fault_of(owner: Owner, found: Found) -> str:
    """Why a run isn't one of the batch; empty where it is."""
    if found.fault:
        return found.fault
    if found.batch != owner.name:
        return f"run {found.run} is of {found.batch} and not of {owner.name}"
    if found.run not in owner.runs:
        return f"there is no run {found.run} in {owner.name}"
    if found.stamp != owner.stamp_of(found.run):
        return f"run {found.run} was made of other inputs, or by other scripts"
    return ""


def kept_run(owner: Owner, run: str, path: Path) -> tuple[str, str]:
    """The text of a run that was kept, and why it isn't that run; empty where it is."""
    text = path.read_text(errors="replace")
    for found in runs_in(text, str(path)):
        fault = fault_of(owner, found)
        if not fault and found.run != run:
            fault = f"it is run {found.run} and not {run}"
        if fault:
            return text, f"{found.place}: {fault}"
    return text, ""


def joined(owner: Owner, texts: dict[str, str]) -> list[Line]:
    """The lines of all runs in the order of the batch, from texts by place; tells what is missing, twice or foreign."""
    found: dict[str, Found] = {}
    faults: list[str] = []
    named: set[str] = set()
    for one in (one for place, text in texts.items() for one in runs_in(text, place)):
        fault = fault_of(owner, one)
        if not fault and one.run in found:
            fault = f"run {one.run} a second time; the first is in {found[one.run].place}"
        if fault:
            faults.append(f"{one.place}: {fault}")
            named.add(one.run)
        else:
            found[one.run] = one
    missing = [run for run in owner.runs if run not in found and run not in named]
    faults += [f"{_number(missing)} missing: {' '.join(missing)}"] if missing else []
    if faults:
        raise JoinFault(*faults)
    return [line for run in owner.runs for line in found[run].lines]


def texts_of(files: Iterable[str]) -> dict[str, str]:
    """The texts of files, by their names."""
    texts = {}
    for file in files:
        if file in texts:
            raise Refused(f"{file} is named twice")
        texts[file] = Path(file).read_text(errors="replace")
    return texts


def _number(runs: list[str]) -> str:
    return "1 run is" if len(runs) == 1 else f"{len(runs)} runs are"
