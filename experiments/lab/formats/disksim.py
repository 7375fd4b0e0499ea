"""DiskSim's ASCII trace."""

from typing import Iterator

from lab.foreign import MILLISECOND, Access, BadLine, Format, Lines, Losses, nanoseconds, number


def read(lines: Lines, losses: Losses, block_bytes: int) -> Iterator[Access]:
    """One request a line; bit 0 of the flags is a read."""
    for _, line in lines:
        fields = line.split()
        if not fields:
            continue
        if len(fields) < 5:
            raise BadLine
        number(fields[1])
        flags = _flags(fields[4])
        losses["flags other than the read bit"] += flags > 1
        yield Access(nanoseconds(fields[0], MILLISECOND), fields[1], number(fields[2]) * block_bytes,
                     number(fields[3]) * block_bytes, flags & 1 == 1)


def _flags(text: str) -> int:
    try:
        return int(text, 16)
    except ValueError:
        raise BadLine(f"{text[:30]!r} are no flags in hexadecimal") from None


FORMAT = Format(
    "DiskSim's own ASCII trace; a device is a number",
    "arrival in ms, device, first block, blocks, flags in hexadecimal (bit 0: read)", read)
