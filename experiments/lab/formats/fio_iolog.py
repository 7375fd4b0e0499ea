"""fio's I/O log, versions 2 and 3: the accesses that a job issued, by file."""

from typing import Iterator

from lab.foreign import MICROSECOND, Access, BadLine, Format, Lines, Losses, number

VERSIONS = {"fio version 2 iolog": 2, "fio version 3 iolog": 3}
ON_FILES = ("add", "open", "close")
WITHOUT_DATA = ("sync", "datasync", "trim")


def read(lines: Lines, losses: Losses, _block_bytes: int) -> Iterator[Access]:
    """Version 3 has an instant on each line; in version 2 time passes by `wait` alone, each counted from the last."""
    version = now = 0
    for _, line in lines:
        fields = line.split()
        if not version:
            version = VERSIONS.get(line.strip(), 0)
            if not version:
                raise BadLine("the first line isn't that of an I/O log")
            if version == 2:
                losses["when accesses between two waits were issued: they arrive together"] = 0
            continue
        if not fields:
            continue
        if version == 3:
            now = number(fields.pop(0))
        name, action, place = _action(fields)
        if action == "wait" and version == 2:
            now += place[0]
        elif action in ON_FILES:
            continue
        elif action in WITHOUT_DATA:
            losses["syncs and trims"] += 1
        elif action in ("read", "write"):
            yield Access(now * MICROSECOND, name, place[0], place[1], action == "read")
        else:
            raise BadLine(f"no action {action}")


def _action(fields: list[str]) -> tuple[str, str, tuple[int, int]]:
    """The file, what is done with it, and offset and length."""
    if len(fields) == 2:
        if fields[1] not in ON_FILES:
            raise BadLine(f"{fields[1]} has no offset and length")
        return fields[0], fields[1], (0, 0)
    if len(fields) != 4:
        raise BadLine
    return fields[0], fields[1], (number(fields[2]), number(fields[3]))


FORMAT = Format(
    "an I/O log: fio --write_iolog=FILE (version 3), or an older one (version 2); a device is a file of the job",
    "'fio version 2 iolog' or 'fio version 3 iolog' first, and then [microseconds in version 3] file action "
    "[offset length]", read)
