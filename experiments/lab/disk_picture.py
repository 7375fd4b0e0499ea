"""A picture of a disk: how fast its zones are, and how long its arm takes over a distance."""

from typing import Any

from matplotlib.axes import Axes

from lab.disk import Disk
from lab.drawing import GREEN, NAVY, RED, panels, save

UNITS = {"TB": 10**12, "GB": 10**9, "MB": 10**6, "bytes": 1}


def draw_disk(disk: Disk, facts: dict[str, Any], path: str, title: str) -> None:
    """Zones from the first sector to the last, and the seek curve twice: over all distances, and the short ones."""
    figure, (zones, curve, near) = panels(1, 3, 3.9, width_ratios=(1.25, 1, 1))
    _draw_zones(zones, facts)
    _draw_curve(curve, disk, facts, False)
    _draw_curve(near, disk, facts, True)
    figure.suptitle(title, fontsize=9, x=0.01, ha="left")
    save(figure, path)


def _draw_zones(axes: Axes, facts: dict[str, Any]) -> None:
    """MB/s on a track and in order, over the place on the disk."""
    name_of, unit = next((name, unit) for name, unit in UNITS.items() if facts["bytes"] >= unit)
    edges = [0.0]
    for zone in facts["zones"]:
        edges.append(edges[-1] + zone["bytes"] / unit)
    for name, look in (("MB/s on a track", {"color": NAVY, "ls": "-"}),
                       ("MB/s read in order", {"color": GREEN, "ls": "--"}),
                       ("MB/s written in order", {"color": RED, "ls": ":"})):
        axes.stairs([zone[name] for zone in facts["zones"]], edges, baseline=None, lw=1.6,
                    label=name.removeprefix("MB/s "), **look)
    axes.set_xlim(0, edges[-1])
    axes.set_ylim(0)
    zones = len(facts["zones"])
    axes.set_xlabel(f"place on the disk ({name_of}), {zones} zone{'s' if zones > 1 else ''}")
    axes.set_ylabel("MB/s")
    axes.legend(loc="lower left")


def _draw_curve(axes: Axes, disk: Disk, facts: dict[str, Any], is_near: bool) -> None:
    """The seek time by distance, to read and to write; on a scale of powers of ten short distances are seen."""
    points = [(distance, time) for distance, time in disk.seek_points if distance < disk.cylinders]
    if not points or points[-1][0] < disk.cylinders - 1:
        points.append((disk.cylinders - 1, disk.seek(disk.cylinders - 1)))
    along = _distances(disk) if is_near else [distance for distance, _ in points]
    for settle, look, label in ((0, {"color": NAVY, "ls": "-"}, "to read"),
                                (disk.write_settle, {"color": RED, "ls": "--"}, "to write")):
        axes.plot(along, [(disk.seek(distance) + settle) / 1e6 for distance in along], **look, label=label)
    axes.plot([distance for distance, _ in points], [time / 1e6 for _, time in points], ls="", marker="o", ms=3,
              color=NAVY)
    mean = facts["seek"]["mean to read"] / 1e6
    axes.axhline(mean, color="#777777", lw=0.9, ls="-.", label=f"mean to read, {mean:.3g} ms")
    if is_near:
        axes.axhline(disk.turn / 1e6, color="#777777", lw=0.9, ls=":", label=f"a rotation, {disk.turn / 1e6:.3g} ms")
        axes.set_xscale("log")
        axes.set_xlabel("cylinders (powers of ten)")
    else:
        unit = 1_000 if disk.cylinders > 10_000 else 1
        axes.xaxis.set_major_formatter(lambda distance, _: f"{distance / unit:g}")
        axes.set_xlabel("cylinders" if unit == 1 else "cylinders (thousands)")
        axes.set_ylabel("seek (ms)")
    axes.set_ylim(0)
    axes.legend(loc="upper left" if is_near else "lower right", fontsize=8)


def _distances(disk: Disk) -> list[int]:
    """Distances that stand evenly on a scale of powers of ten."""
    most = max(1, disk.cylinders - 1)
    return sorted({round(most ** (step / 120)) for step in range(121)})
