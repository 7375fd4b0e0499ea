"""A disk from a parameter file that may be faulty: what is wrong is said in a line."""

import tomllib
from collections import Counter
from typing import Any

from lab.disk import Disk
from lab.refusals import Refused, readable

LEAST = {"version": 1, "rotation_ns": 1, "sector_bytes": 16, "heads": 1, "head_switch_ns": 0, "write_settle_ns": 0}
ZONE_LEAST = {"first": 0, "last": 0, "sectors": 1}
ZONE_OTHERS = ("track_skew", "cylinder_skew", "spares", "cylinder_spares")
GREATEST = 10**12


def disk_of(path: str) -> Disk:
    """The disk of a parameter file. What is refused here the program refuses too, and it knows more faults."""
    readable(path)
    try:
        with open(path, "rb") as source:
            given = tomllib.load(source)
    except (tomllib.TOMLDecodeError, UnicodeDecodeError) as fault:
        raise Refused(f"{path}: no parameter file: {fault}") from None
    why = _fault(given)
    if why:
        raise Refused(f"{path}: no parameter file of a disk: {why}")
    return Disk(path)


def _fault(given: dict[str, Any]) -> str:
    """The first thing that a disk can't be made of, or nothing."""
    for key, least in LEAST.items():
        if not _is_number(given.get(key), least):
            return f"{key} isn't a whole number from {least} on"
    if not _are_lists(given.get("seek"), 2) or given["seek"][0][0] != 1:
        return "seek isn't a list of points [distance, time] from distance 1 on"
    if any(one[0] >= later[0] or one[1] > later[1] for one, later in zip(given["seek"], given["seek"][1:])):
        return "the points of seek don't rise"
    for key in ("defects", "grown"):
        if given.get(key, []) != [] and not _are_lists(given[key], 3):
            return f"{key} isn't a list of places [cylinder, head, slot]"
    zones = given.get("zone")
    if not isinstance(zones, list) or not zones or not all(isinstance(zone, dict) for zone in zones):
        return "there is no [[zone]]"
    begin = 0
    for number, zone in enumerate(zones):
        fault = _zone_fault(zone, begin, given["heads"])
        if fault:
            return f"zone {number}: {fault}"
        begin = zone["last"] + 1
    if given["seek"][-1][0] < begin - 1:
        return f"seek doesn't reach over {begin - 1} cylinders"
    return _places_fault(given)


def _zone_fault(zone: dict[str, Any], begin: int, heads: int) -> str:
    for key, least in ZONE_LEAST.items():
        if not _is_number(zone.get(key), least):
            return f"{key} isn't a whole number from {least} on"
    for key in ZONE_OTHERS:
        if not _is_number(zone.get(key, 0), 0):
            return f"{key} isn't a whole number"
    if zone["first"] != begin or zone["last"] < begin:
        return f"it isn't of the cylinders from {begin} on"
    if zone.get("spares", 0) >= zone["sectors"] or zone.get("cylinder_spares", 0) >= heads * zone["sectors"]:
        return "its spares leave no sector"
    return ""


def _places_fault(given: dict[str, Any]) -> str:
    """Whether a bad place lies beyond the disk, or there are more than spares for them."""
    by_cylinder = given["version"] == 2
    key = "cylinder_spares" if by_cylinder else "spares"
    counts: Counter[tuple[int, ...]] = Counter()
    for cylinder, head, slot in given.get("defects", []) + given.get("grown", []):
        zone = next((zone for zone in given["zone"] if cylinder <= zone["last"]), None)
        if zone is None or head >= given["heads"] or slot >= zone["sectors"]:
            return f"the bad place {cylinder}.{head}.{slot} isn't on it"
        where = (cylinder,) if by_cylinder else (cylinder, head)
        counts[where] += 1
        if counts[where] > zone.get(key, 0):
            return f"more bad places than spares on cylinder {cylinder}"
    return ""


def _is_number(value: Any, least: int) -> bool:
    return isinstance(value, int) and not isinstance(value, bool) and least <= value <= GREATEST


def _are_lists(value: Any, length: int) -> bool:
    if not isinstance(value, list) or not value:
        return False
    return all(isinstance(one, list) and len(one) == length and all(_is_number(number, 0) for number in one)
               for one in value)
