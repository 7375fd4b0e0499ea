"""The block traces of Alibaba's cloud, as CSV."""

from typing import Iterator

from lab.foreign import MICROSECOND, Access, BadLine, Format, Lines, Losses, direction, number

NAMES = "device_id"  # how a line with the columns' names would begin


def read(lines: Lines, losses: Losses, _block_bytes: int) -> Iterator[Access]:
    """One access a line."""
    for at, line in lines:
        fields = [field.strip() for field in line.split(",")]
        if fields == [""] or at == 1 and fields[0].lower() == NAMES:
            continue
        if len(fields) != 5:
            raise BadLine
        device, way, offset, length, time = fields
        yield Access(number(time) * MICROSECOND, str(number(device)), number(offset), number(length),
                     direction(way, "R", "W"))


FORMAT = Format(
    "an Alibaba block trace (CSV); a device is a number",
    "device,R|W,offset in bytes,length in bytes,time in microseconds", read)
