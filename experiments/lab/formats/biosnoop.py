"""What biosnoop of the BPF compiler collection prints of each disk access."""

from typing import Iterator

from lab.foreign import LINUX_SECTOR, MILLISECOND, SECOND, Access, BadLine, Format, Lines, Losses, nanoseconds, number

HEAD = ["TIME(s)", "COMM", "PID", "DISK", "T", "SECTOR", "BYTES"]
EXTRA = ("P", "QUE(ms)", "LAT(ms)")


def read(lines: Lines, losses: Losses, _block_bytes: int) -> Iterator[Access]:
    """Lines tell of completions: an access arrives its latency before, and its time in the queue where that is shown.

    A command's name may have spaces, so that the columns behind it are counted from the end."""
    losses["latencies have two digits of a millisecond, so arrivals are that exact at most"] = 0
    columns: list[str] = []
    for _, line in lines:
        fields = line.split()
        if not fields:
            continue
        if not columns:
            columns = _columns(fields)
            continue
        behind = len(columns) - 2
        if fields[:len(HEAD)] == HEAD:
            continue
        if len(fields) < behind + 1:
            raise BadLine
        of = dict(zip(columns[2:], fields[-behind:]))
        if not set(of["T"]) & set("RW") or number(of["BYTES"]) == 0:
            losses["accesses without data"] += 1
            continue
        waited = sum(nanoseconds(of[name], MILLISECOND) for name in EXTRA[1:] if name in of)
        yield Access(nanoseconds(fields[0], SECOND) - waited, of["DISK"], number(of["SECTOR"]) * LINUX_SECTOR,
                     number(of["BYTES"]), "R" in of["T"])


def _columns(fields: list[str]) -> list[str]:
    """The names of the columns."""
    extra = fields[len(HEAD):]
    if fields[:len(HEAD)] != HEAD or extra != [name for name in EXTRA if name in extra] or "LAT(ms)" not in extra:
        raise BadLine("the line with the columns' names comes first")
    return fields


FORMAT = Format(
    "what biosnoop prints (bcc; also with -Q): biosnoop-bpfcc >FILE; a device is a disk's name, sda",
    "TIME(s) COMM PID DISK T SECTOR BYTES [QUE(ms)] LAT(ms), first these names and then a line for each access", read)
