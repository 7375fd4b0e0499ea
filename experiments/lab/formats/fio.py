"""fio's log of the latency of each I/O, with offsets."""

from typing import Iterator

from lab.foreign import MILLISECOND, Access, BadLine, Format, Lines, Losses, number

READ, WRITE, TRIM = 0, 1, 2


def read(lines: Lines, losses: Losses, _block_bytes: int) -> Iterator[Access]:
    """An access arrives its latency before its completion."""
    losses["completion times are whole milliseconds, so arrivals are that exact at most"] = 0
    for _, line in lines:
        fields = [field.strip() for field in line.split(",")]
        if fields == [""]:
            continue
        if len(fields) < 5:
            raise BadLine("was the log written with log_offset=1?")
        time, latency, way, length, offset = map(number, fields[:5])
        if way > TRIM:
            raise BadLine(f"there is no direction {way}")
        if length == 0:
            raise BadLine("an average and no single access: write the log without log_avg_msec")
        if way == TRIM:
            losses["trims"] += 1
        else:
            yield Access(time * MILLISECOND - latency, "", offset, length, way == READ)


FORMAT = Format(
    "a latency log of each I/O: fio --write_lat_log=NAME --log_offset=1, file NAME_lat.1.log",
    "completion in ms, latency in ns, 0 (read), 1 (write) or 2 (trim), length in bytes, offset in bytes", read)
