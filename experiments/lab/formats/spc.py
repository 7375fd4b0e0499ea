"""The trace format of the Storage Performance Council, in which the UMass repository has its traces."""

from typing import Iterator

from lab.foreign import SECOND, Access, BadLine, Format, Lines, Losses, direction, nanoseconds, number


def read(lines: Lines, losses: Losses, block_bytes: int) -> Iterator[Access]:
    """One access a line; what follows the fifth field is optional."""
    for _, line in lines:
        fields = [field.strip() for field in line.split(",")]
        if fields == [""]:
            continue
        if len(fields) < 5:
            raise BadLine
        unit, place, size, way, time = fields[:5]
        losses["optional fields"] += len(fields) > 5
        yield Access(nanoseconds(time, SECOND), str(number(unit)), number(place) * block_bytes, number(size),
                     direction(way.upper(), "R", "W"))


FORMAT = Format(
    "an SPC trace, as UMass has them; a device is an application storage unit (ASU), a number",
    "ASU,first block,size in bytes,R|W,seconds", read)
