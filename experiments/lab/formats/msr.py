"""The block traces of servers at Microsoft Research in Cambridge, as CSV."""

from typing import Iterator

from lab.foreign import FILETIME, Access, BadLine, Format, Lines, Losses, direction, number

NAMES = "timestamp"  # how a line with the columns' names would begin


def read(lines: Lines, losses: Losses, _block_bytes: int) -> Iterator[Access]:
    """A stamp counts 100 ns since 1601."""
    losses["response times"] = 0
    for at, line in lines:
        fields = [field.strip() for field in line.split(",")]
        if fields == [""] or at == 1 and fields[0].lower() == NAMES:
            continue
        if len(fields) != 7:
            raise BadLine
        stamp, host, disk, way, offset, size, response = fields
        number(response)
        losses["response times"] += 1
        yield Access(number(stamp) * FILETIME, f"{host}.{number(disk)}", number(offset), number(size),
                     direction(way.capitalize(), "Read", "Write"))


FORMAT = Format(
    "an MSR Cambridge trace (CSV); a device is host.disk, as usr.0",
    "timestamp in 100 ns,host,disk,Read|Write,offset in bytes,size in bytes,response in 100 ns", read)
