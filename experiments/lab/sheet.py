"""A parameter file from a data sheet that gives MB/s and no zones: what a sheet has is asked for, the rest assumed."""

import os
from dataclasses import dataclass
from math import sqrt
from textwrap import wrap
from typing import TextIO

from lab.disk_facts import mean_seek
from lab.refusals import Refused, writable

MS = 1_000_000  # nanoseconds
ZONES = 16
MOST_CYLINDERS = 1_000_000
CYLINDERS = 400_000  # of a disk whose heads aren't known, about at most
MOST_SLOTS = 10_000
STEPS = (1, 2, 5, 10, 20, 50, 100, 200, 500, 1_000, 2_000, 5_000, 10_000, 20_000, 50_000, 100_000, 200_000)


class Question:
    """What is asked, and between which values the answer is to lie; `needed` where nothing is assumed instead."""

    def __init__(self, text: str, least: float, most: float, needed: bool = False) -> None:
        self.text, self.least, self.most, self.needed = text, least, most, needed


QUESTIONS = {
    "rotations": Question("rotations a minute", 60, 60_000, True),
    "outside": Question("MB/s outside: the greatest sustained rate, in 10^6 bytes a second", 0.1, 10_000, True),
    "inside": Question("MB/s inside: the least sustained rate", 0.1, 10_000),
    "capacity": Question("capacity in GB, 10^9 bytes", 0.001, 1_000_000),
    "heads": Question("heads: recording surfaces", 1, 64),
    "sector": Question("bytes of a sector: 512, or 4096 of a 4Kn disk", 16, 4_096),
    "mean": Question("mean seek to read, in ms", 0.01, 100, True),
    "mean_write": Question("mean seek to write, in ms", 0.01, 100),
    "near": Question("track-to-track seek, in ms", 0.001, 100),
    "full": Question("full seek, over the whole disk, in ms", 0.01, 500),
    "switch": Question("head switch, in ms", 0, 100),
}


@dataclass
class Sheet:
    """A sheet's answers with what is assumed where it has none; times in milliseconds, rates in MB/s."""

    rotation: float
    outside: float
    inside: float
    sector: int
    heads: int
    cylinders: int
    slots: list[int]  # of a track, by zone
    mean: float
    settle: float
    near: float
    full: float
    switch: float
    said: list[str]  # what the sheet says
    assumed: list[str]

    @property
    def skewed(self) -> tuple[float, float]:
        """How long a border of tracks and one of cylinders take, with the settling of a write."""
        return self.switch + self.settle, max(self.switch, self.near) + self.settle


def write_from_sheet(path: str, answers: TextIO, prompts: TextIO) -> None:
    """Asks, and writes the file; what was assumed stands in it and is told. A file that is there isn't replaced."""
    if os.path.exists(path):
        raise Refused(f"{path} is there already; --sheet makes a new file")
    writable(path)
    sheet = sheet_of(_asked(answers, prompts))
    text = text_of(sheet)
    with open(path, "x") as out:
        out.write(text)
    for line in sheet.assumed:
        print(f"disk: assumed: {line}", file=prompts)


def _asked(answers: TextIO, prompts: TextIO) -> dict[str, float]:
    """The answers by name; an empty one where the sheet doesn't say."""
    found: dict[str, float] = {}
    for name, question in QUESTIONS.items():
        prompts.write(f"{question.text}{'' if question.needed else ' (may be empty)'}: ")
        prompts.flush()
        text = answers.readline().strip().replace(",", "")
        if not answers.isatty():
            prompts.write(text + "\n")
        if not text and not question.needed:
            continue
        try:
            value = float(text)
        except ValueError:
            raise Refused(f"{question.text}: {text or 'nothing'} is no number") from None
        if not question.least <= value <= question.most:
            raise Refused(f"{question.text}: {text} isn't between {question.least:g} and {question.most:g}")
        found[name] = value
    return found


def sheet_of(given: dict[str, float]) -> Sheet:
    """The sheet with all that isn't on it assumed."""
    assumed: list[str] = []

    def known(name: str, value: float, why: str) -> float:
        if name not in given:
            assumed.append(why)
        return given.get(name, value)

    rotation = 60_000 / given["rotations"]
    mean = given["mean"]
    inside = known("inside", given["outside"] / 2, "half of the outer rate inside")
    sector = int(known("sector", 512, "sectors of 512 bytes"))
    near = known("near", mean / 10, f"a track-to-track seek of a tenth of the mean, {mean / 10:.3f} ms")
    full = known("full", 2 * mean, f"a full seek of twice the mean, {2 * mean:.3f} ms")
    switch = known("switch", near, f"a head switch as long as the track-to-track seek, {near:.3f} ms")
    settle = known("mean_write", mean + 0.4, "0.4 ms to settle before a write") - mean
    _refuse_impossible(given, inside, sector, near, full, settle)
    borders = switch + settle, max(switch, near) + settle
    heads, cylinders, slots = _geometry(given, (given["outside"], inside), (rotation, *borders), sector, assumed)
    assumed += [f"{ZONES} zones of about one width, whose tracks get shorter in even steps",
                "skews that just cover a switch of heads, or a step to the next cylinder, and the settling of a write",
                "sectors a track so that with these skews reading and writing in order give the sheet's MB/s",
                "a seek curve that rises as a root up to a third of the cylinders, and then straight",
                "no spares and no bad places"]
    said = [f"{QUESTIONS[name].text}: {value:g}" for name, value in given.items()]
    return Sheet(rotation, given["outside"], inside, sector, heads, cylinders, slots, mean, settle, near, full, switch,
                 said, assumed)


def _refuse_impossible(given: dict[str, float], inside: float, sector: int, near: float, full: float,
                       settle: float) -> None:
    if "capacity" not in given and "heads" not in given:
        raise Refused("either the capacity or the heads are to be known")
    if inside > given["outside"]:
        raise Refused("the rate inside is above that outside")
    if sector % 16 or "sector" in given and given["sector"] != sector:
        raise Refused("bytes of a sector are to be a multiple of 16")
    if "heads" in given and given["heads"] != int(given["heads"]):
        raise Refused("heads are to be a whole number")
    if not near < given["mean"] < full:
        raise Refused(f"the seeks don't go together: {near:g} ms to the next track, {given['mean']:g} on average, "
                      f"{full:g} over the whole disk")
    if settle < 0:
        raise Refused("the mean seek to write is below that to read")


def _geometry(given: dict[str, float], rates: tuple[float, float], times: tuple[float, float, float], sector: int,
              assumed: list[str]) -> tuple[int, int, list[int]]:
    """Heads, cylinders, and slots of a track by zone. With many heads a border of cylinders is rare."""
    rotation, switch, step = times
    heads = int(given.get("heads", 1))
    while True:
        each = rotation + (switch * (heads - 1) + step) / heads  # milliseconds from one track to the next
        ends = [rate * 1e3 * each / sector for rate in rates]
        slots = [_whole(ends[0] + (ends[1] - ends[0]) * zone / (ZONES - 1), sector) for zone in range(ZONES)]
        if min(slots) < 1 or max(slots) > MOST_SLOTS:
            raise Refused(f"{slots[0]} to {slots[-1]} sectors of {sector} bytes a track, and a track has 1 to "
                          f"{MOST_SLOTS}: are rates, rotations and the size of a sector right?")
        tracks = given.get("capacity", 0) * 1e9 / sector / (sum(slots) / ZONES)
        cylinders = max(ZONES, round(tracks / heads))
        if "heads" in given or heads == 64 or cylinders <= CYLINDERS:
            break
        heads += 1
    if "capacity" not in given:
        cylinders = CYLINDERS // 2
        assumed.append(f"{cylinders} cylinders")
    elif "heads" not in given:
        assumed.append(f"{heads} heads, as few as leave {CYLINDERS} cylinders or fewer")
    if cylinders > MOST_CYLINDERS:
        raise Refused(f"{cylinders} cylinders, and a disk has {MOST_CYLINDERS} at most: is the number of heads right?")
    return heads, cylinders, slots


def _whole(slots: float, sector: int) -> int:
    """A whole number of slots; of 512 bytes a multiple of eight, so that no 4 KB lie on two tracks."""
    unit = 8 if sector == 512 and slots >= 80 else 1
    return round(slots / unit) * unit


def seek_points(sheet: Sheet) -> list[list[int]]:
    """The curve whose mean over all pairs of cylinders is the sheet's; that mean is linear in the middle time."""
    low, high = (mean_seek(_points(sheet, middle), sheet.cylinders) / MS for middle in (sheet.near, sheet.full))
    middle = sheet.near + (sheet.full - sheet.near) * (sheet.mean - low) / (high - low)
    if not sheet.near < middle <= sheet.full:
        raise Refused(f"no curve from {sheet.near:g} ms to {sheet.full:g} ms has a mean of {sheet.mean:g} ms")
    return _points(sheet, middle)


def _points(sheet: Sheet, middle: float) -> list[list[int]]:
    """A root from the first distance to a third of the cylinders, where it takes `middle` ms, then a straight line."""
    knee, last = max(2, sheet.cylinders // 3), sheet.cylinders - 1
    root = [[distance, round((sheet.near + (middle - sheet.near) * (sqrt(distance) - 1) / (sqrt(knee) - 1)) * MS)]
            for distance in (*(step for step in STEPS if step < knee), knee)]
    return [*root, [last, round(sheet.full * MS)]]


def text_of(sheet: Sheet) -> str:
    """The parameter file, with what was said and what assumed at its head."""
    lines = ["# From a data sheet that says:", *(f"#   {text}" for text in sheet.said), "# Assumed:"]
    for text in sheet.assumed:
        lines += wrap(text, 110, initial_indent="#   ", subsequent_indent="#     ")
    turn = round(sheet.rotation * MS)
    lines += ["version = 1", f"rotation_ns = {turn}", f"sector_bytes = {sheet.sector}", f"heads = {sheet.heads}",
              f"head_switch_ns = {round(sheet.switch * MS)}", f"write_settle_ns = {round(sheet.settle * MS)}",
              f"seek = {seek_points(sheet)}"]
    for zone, slots in enumerate(sheet.slots):
        first, last = (sheet.cylinders * (zone + more) // ZONES - more for more in (0, 1))
        track, cylinder = (-(-round(time * MS) * slots // turn) % slots for time in sheet.skewed)
        lines += ["", "[[zone]]", f"first = {first}", f"last = {last}", f"sectors = {slots}", f"track_skew = {track}",
                  f"cylinder_skew = {cylinder}"]
    return "\n".join(lines) + "\n"
