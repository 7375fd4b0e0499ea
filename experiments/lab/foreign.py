"""What the readers of other tools' traces share: accesses, losses, exact numbers, and which device is meant."""

import re
from collections import Counter
from fractions import Fraction
from typing import Callable, Iterable, Iterator, NamedTuple

from lab.refusals import WrongInput

LINUX_SECTOR = 512  # bytes; what the kernel's block layer counts in
SECOND, MILLISECOND, MICROSECOND, FILETIME = 1_000_000_000, 1_000_000, 1_000, 100  # nanoseconds

Losses = Counter[str]  # what isn't carried over, and how often
Lines = Iterable[tuple[int, str]]  # numbered from 1 on

OTHER_DEVICE = "which device it was: all are laid on the same disk (--device and --all-devices part them)"


class Access(NamedTuple):
    """One access as a tool wrote it down; `arrival` in nanoseconds from any beginning, place and length in bytes."""

    arrival: int
    device: str  # empty where the log names none
    begin: int
    length: int
    is_read: bool


class LineError(WrongInput):
    """A line that isn't of the tool's format, or a device that isn't in the log."""


class Format(NamedTuple):
    """A format of traces: what a line of it is, and its reader."""

    about: str  # where such a log comes from
    line: str  # what a line has
    read: Callable[[Lines, Losses, int], Iterator[Access]]  # numbered lines, losses, bytes of a block: accesses


class BadLine(Exception):
    """A line that a reader can't take; what is wrong with it, if more can be said than what was expected."""


def accesses_of(form: Format, lines: Lines, losses: Losses, block_bytes: int) -> Iterator[Access]:
    """The accesses of a log; a line that isn't of the format is named, with what was expected."""
    last = (0, "")

    def watched() -> Iterator[tuple[int, str]]:
        nonlocal last
        for last in lines:
            yield last

    try:
        yield from form.read(watched(), losses, block_bytes)
    except BadLine as fault:
        said = f" ({fault})" if str(fault) else ""
        raise LineError(f"line {last[0]}: {_short(last[1])}{said}; expected: {form.line}") from None


def _short(line: str) -> str:
    text = line.strip()
    return repr(text if len(text) <= 70 else text[:67] + "...") if text else "an empty line"


NUMBER = re.compile(r"\d{1,30}")
DECIMAL = re.compile(r"(\d{1,30})(?:\.(\d{0,30}))?(?:[eE]([+-]?\d{1,2}))?")


def number(text: str) -> int:
    """A whole number that isn't negative."""
    if not NUMBER.fullmatch(text):
        raise BadLine(f"{text[:30]!r} is no whole number")
    return int(text)


def nanoseconds(text: str, unit: int) -> int:
    """A time that has a point, in units of so many nanoseconds; exact, but for what is below a nanosecond."""
    found = DECIMAL.fullmatch(text)
    if not found:
        raise BadLine(f"{text[:30]!r} is no time")
    whole, behind, power = found[1], found[2] or "", int(found[3] or 0)
    return int(Fraction(int(whole + behind), 10 ** len(behind)) * Fraction(10) ** power * unit)


def direction(text: str, read: str, write: str) -> bool:
    """Whether it is a read, of the two words for it."""
    if text not in (read, write):
        raise BadLine(f"{text[:30]!r} is neither {read} nor {write}")
    return text == read


def chosen(accesses: Iterable[Access], devices: list[str], every: bool, losses: Losses) -> dict[str, list[Access]]:
    """The accesses of each device that is asked for, in the order in which they are named or, of all, come.

    Where none is asked for, they are all together, under the name of the first."""
    kept: list[Access] = []
    seen: Counter[str] = Counter()
    for access in accesses:
        seen[access.device] += 1
        if not devices or access.device in devices:
            kept.append(access)
    if not seen:
        raise LineError("no accesses in it")
    missing = [device for device in devices if device not in seen]
    if missing:
        there = ", ".join(sorted(seen)) if list(seen) != [""] else "none, as this format names no devices"
        raise LineError(f"no accesses of the device {missing[0]}; devices in it: {there}")
    first = next(iter(seen))
    if not devices and not every:
        losses[OTHER_DEVICE] = len(kept) - seen[first]
        return {first: kept}
    losses["accesses of other devices"] = seen.total() - len(kept)
    found: dict[str, list[Access]] = {device: [] for device in devices or seen}
    for access in kept:
        found[access.device].append(access)
    return found
