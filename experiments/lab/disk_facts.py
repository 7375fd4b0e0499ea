"""What a parameter file comes to: capacity, speed of each zone, mean seek, and what borders of tracks cost."""

from textwrap import wrap
from typing import Any, NamedTuple

from lab.disk import Disk, Zone


class Border(NamedTuple):
    """Going on from the last sector of a track to the first of the next, in the order of the sectors.

    `slots` pass between the two at least. Times in nanoseconds, skews in slots; the least skews are those by which a
    read or a write isn't too late for the next sector."""

    skew: int
    slots: int
    move: int
    read: int
    write: int
    skew_for_reads: int
    skew_for_writes: int
    spared_to_read: int  # by the least skew
    spared_to_write: int


def border(disk: Disk, zone: Zone, skew: int, slots: int, move: int) -> Border:
    """The border at which so many slots pass and the head takes so long, for reads."""
    write_move = move + disk.write_settle
    read, write = _cost(disk, zone, slots, move), _cost(disk, zone, slots, write_move)
    least = [-(-time * zone.slots // disk.turn) % zone.slots for time in (move, write_move)]
    best = [_cost(disk, zone, number, time) for number, time in zip(least, (move, write_move))]
    skews = [(skew + number - slots) % zone.slots for number in least]
    return Border(skew, slots, move, read, write, skews[0], skews[1], read - best[0], write - best[1])


def _cost(disk: Disk, zone: Zone, slots: int, move: int) -> int:
    """How long from the end of a sector to the begin of one that so many slots later follows: whole turns as well."""
    passing = slots * disk.turn // zone.slots
    return passing if passing >= move else passing + -(-(move - passing) // disk.turn) * disk.turn


def track_border(disk: Disk, zone: Zone) -> Border | None:
    """From one head to the next; None on a disk with one head."""
    if disk.heads == 1:
        return None
    slots = (zone.track_skew - zone.track_data) % zone.slots
    return border(disk, zone, zone.track_skew, slots, disk.head_switch)


def cylinder_border(disk: Disk, zone: Zone) -> Border:
    """From the last sector of a cylinder to the next cylinder; with spares at its end not from the last slot."""
    head, last = divmod(zone.data - 1, zone.track_data)
    skew = (disk.heads - 1 - head) * zone.track_skew + zone.cylinder_skew
    move = disk.positioning((0, head), (1, 0), False)
    return border(disk, zone, zone.cylinder_skew, (skew - last - 1) % zone.slots, move)


def mean_seek(points: list[list[int]], cylinders: int) -> float:
    """The mean of the curve over all pairs of cylinders, in nanoseconds: each distance d counts 2 (n - d) / n^2."""
    total = 0.0
    for (begin, time), (end, later) in zip(points, [*points[1:], points[-1]]):
        slope = (later - time) / (end - begin) if end > begin else 0.0
        stop = min(end, cylinders) if end > begin else min(end + 1, cylinders)
        count = stop - begin
        if count <= 0:
            continue
        first, second = _sum(begin, stop), _squares(begin, stop)
        level = time - slope * begin
        total += 2 * (level * cylinders * count + (slope * cylinders - level) * first - slope * second)
    return total / cylinders / cylinders


def _sum(begin: int, stop: int) -> int:
    """Of the numbers from `begin` on, below `stop`."""
    return (stop - 1) * stop // 2 - (begin - 1) * begin // 2


def _squares(begin: int, stop: int) -> int:
    """Of their squares."""
    return (stop - 1) * stop * (2 * stop - 1) // 6 - (begin - 1) * begin * (2 * begin - 1) // 6


def facts_of(disk: Disk) -> dict[str, Any]:
    """All of it; times in nanoseconds, MB and GB by powers of ten."""
    mean = mean_seek(disk.seek_points, disk.cylinders)
    settle = disk.write_settle if disk.cylinders > 1 else 0
    return {
        "sectors": disk.sectors, "sector bytes": disk.sector_bytes, "bytes": disk.bytes, "cylinders": disk.cylinders,
        "heads": disk.heads, "tracks": disk.cylinders * disk.heads, "rotation": disk.turn,
        "head switch": disk.head_switch, "write settle": disk.write_settle,
        "seek": {"to the next cylinder": disk.seek(1) if disk.cylinders > 1 else 0, "mean to read": mean,
                 "mean to write": mean + settle, "over all cylinders": disk.seek(disk.cylinders - 1)},
        "zones": [_zone(disk, zone) for zone in disk.zones],
    }


def _zone(disk: Disk, zone: Zone) -> dict[str, Any]:
    cylinders = zone.last - zone.first + 1
    tracks, last = track_border(disk, zone), cylinder_border(disk, zone)
    switches = (zone.data - 1) // zone.track_data
    passing = zone.data * disk.turn / zone.slots
    read, write = (passing + cost + switches * (each or 0) for cost, each in (
        (last.read, tracks and tracks.read), (last.write, tracks and tracks.write)))
    bytes_ = zone.data * disk.sector_bytes
    return {
        "first": zone.first, "last": zone.last, "tracks": cylinders * disk.heads, "sectors a track": zone.track_data,
        "bytes": cylinders * bytes_, "MB/s on a track": zone.track_data * disk.sector_bytes / disk.turn * 1e3,
        "MB/s read in order": bytes_ / read * 1e3, "MB/s written in order": bytes_ / write * 1e3,
        "border of tracks": tracks._asdict() if tracks else None, "border of cylinders": last._asdict()}


def page_of(facts: dict[str, Any]) -> str:
    """The facts as a page of text."""
    seek = facts["seek"]
    lines = [f"capacity     {facts['sectors']} sectors of {facts['sector bytes']} bytes: {facts['bytes']} bytes, "
             f"{facts['bytes'] / 1e9:.3f} GB",
             f"tracks       {facts['tracks']}: {facts['cylinders']} cylinders, {facts['heads']} heads",
             f"rotation     {_ms(facts['rotation'])} ms, {60e9 / facts['rotation']:.0f} a minute",
             f"head switch  {_ms(facts['head switch'])} ms",
             f"settling     {_ms(facts['write settle'])} ms before a write",
             f"seek         {_ms(seek['to the next cylinder'])} ms to the next cylinder, "
             f"{_ms(seek['over all cylinders'])} ms over all of them",
             f"mean seek    {_ms(seek['mean to read'])} ms to read, {_ms(seek['mean to write'])} ms to write "
             "(over all pairs of cylinders)"]
    return "\n".join([*lines, "", *_zone_lines(facts["zones"]), "", *_border_lines(facts["zones"]), "",
                      *advice(facts)]) + "\n"


def _zone_lines(zones: list[dict[str, Any]]) -> list[str]:
    lines = [f"{'zone':>4} {'cylinders':>15} {'tracks':>8} {'sectors':>8} {'GB':>9} {'MB/s on':>9} {'read in':>9} "
             f"{'written':>9}",
             f"{'':>4} {'':>15} {'':>8} {'a track':>8} {'':>9} {'a track':>9} {'order':>9} {'in order':>9}"]
    return lines + [
        f"{number:>4} {zone['first']:>7}-{zone['last']:<7} {zone['tracks']:>8} {zone['sectors a track']:>8} "
        f"{zone['bytes'] / 1e9:>9.3f} {zone['MB/s on a track']:>9.2f} {zone['MB/s read in order']:>9.2f} "
        f"{zone['MB/s written in order']:>9.2f}" for number, zone in enumerate(zones)]


def _border_lines(zones: list[dict[str, Any]]) -> list[str]:
    """What a border costs, and beside each skew the least that does for reads, and for writes."""
    lines = [f"{'zone':>4} {'border of tracks':>21} {'skew':>6} {'least to':>10} {'border of cylinders':>22} "
             f"{'skew':>6} {'least to':>10}",
             f"{'':>4} {'read ms':>10} {'write ms':>10} {'':>6} {'read/write':>10} {'read ms':>11} {'write ms':>10} "
             f"{'':>6} {'read/write':>10}"]
    for number, zone in enumerate(zones):
        lines.append(f"{number:>4} {_border(zone['border of tracks'], 10)} {_border(zone['border of cylinders'], 11)}")
    return lines


def _border(one: dict[str, int] | None, width: int) -> str:
    if one is None:
        return f"{'-':>{width}} {'-':>10} {'-':>6} {'-':>10}"
    least = f"{one['skew_for_reads']}/{one['skew_for_writes']}"
    return f"{_ms(one['read']):>{width}} {_ms(one['write']):>10} {one['skew']:>6} {least:>10}"


def advice(facts: dict[str, Any]) -> list[str]:
    """Where the next sector is missed at each border, and which skews would spare the rotation."""
    lines = []
    for what, key in (("border of tracks", "track_skew"), ("border of cylinders", "cylinder_skew")):
        for way, verb in (("reads", "read"), ("writes", "write")):
            lost = [(number, zone[what][f"skew_for_{way}"], zone[what][f"spared_to_{verb}"])
                    for number, zone in enumerate(facts["zones"])
                    if zone[what] and 2 * zone[what][f"spared_to_{verb}"] > facts["rotation"]]
            if lost:
                lines += wrap(_lost(what, key, way, lost), 118, subsequent_indent="  ")
    return lines or ["No border loses a rotation, neither for reads nor for writes."]


def _lost(what: str, key: str, way: str, lost: list[tuple[int, int, int]]) -> str:
    """One line for all zones with this fault."""
    zones, skews = (", ".join(str(one[at]) for one in lost) for at in (0, 1))
    times = sorted({_ms(one[2]) for one in lost})
    spared = times[0] if len(times) == 1 else f"{times[0]} to {times[-1]}"
    return (f"{way.capitalize()} miss the next sector at each {what} of zone{'s' * (len(lost) > 1)} {zones}: {key} {skews} would "
            f"spare {spared} ms each time.")


def _ms(nanoseconds: float) -> str:
    """Milliseconds with three digits behind the point, and with six where three would tell nothing."""
    return f"{nanoseconds / 1e6:.3f}" if nanoseconds >= 100_000 or not nanoseconds else f"{nanoseconds / 1e6:.6f}"
