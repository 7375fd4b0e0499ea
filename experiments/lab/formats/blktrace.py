"""What blkparse prints of a blktrace."""

import re
from typing import Iterator

from lab.foreign import LINUX_SECTOR, SECOND, Access, BadLine, Format, Lines, Losses, nanoseconds, number

DEVICE = re.compile(r"\d+,\d+")


def read(lines: Lines, losses: Losses, _block_bytes: int) -> Iterator[Access]:
    """Accesses arrive where they are queued (action Q); the other actions tell no more."""
    events = 0
    for _, line in lines:
        fields = line.split()
        if not fields:
            continue
        if not DEVICE.fullmatch(fields[0]):
            if not events and not line.startswith(("Input file", "CPU")):
                raise BadLine
            losses["lines that are no event (the summary)"] += 1
            continue
        events += 1
        if len(fields) < 6:
            raise BadLine
        if fields[5] != "Q":
            losses["events other than Q (their times and merges)"] += 1
        elif len(fields) < 10 or fields[8] != "+" or "D" in fields[6] or not set(fields[6]) & set("RW"):
            losses["queued flushes, discards and other accesses without data"] += 1
        else:
            place, length = number(fields[7]) * LINUX_SECTOR, number(fields[9]) * LINUX_SECTOR
            yield Access(nanoseconds(fields[3], SECOND), fields[0], place, length, "R" in fields[6])


FORMAT = Format(
    "what blkparse prints: blktrace -d /dev/sda -o - | blkparse -i -; a device is 8,0",
    "major,minor cpu number seconds process action kind sector + sectors [name]", read)
