"""Figures as a page of text, and as lines of a table."""

from typing import Any, Iterator

from lab.accounts import HOWS

BARS = 40  # characters of the longest bar of a histogram
INSTANTS = ("first delivery", "last delivery", "completion", "seal")


def page_of(figures: dict[str, Any]) -> str:
    """The figures as a page of text: times in milliseconds, shares in percent."""
    fore, back = figures["foreground"], figures["background"]
    lines = [f"run          {_ms(figures['end'])}" + ("" if back else ", up to the last request"),
             f"foreground   {fore['requests']} requests, {fore['requests a second']:.2f} a second, "
             f"{fore['bytes']} bytes, {fore['MB/s']:.3f} MB/s"]
    lines += [f"response     {name:<18}{_ms(time)}" for name, time in figures["response"].items()]
    lines += _histogram(figures["histogram"])
    lines += [f"head's time  {name:<23}{share:7.2f} %" for name, share in figures["time"].items()
              if figures["spills"] or name != "rotational wait written"]
    if back:
        lines += [f"background   {back['bytes']} bytes, {back['MB/s']:.3f} MB/s"]
        lines += [f"             {back[f'bytes by {how}']} bytes by {how}, {back[f'MB/s by {how}']:.3f} MB/s"
                  for how in HOWS]
        lines += [f"             {back['gaps with a detour']:.2f} % of the gaps with a detour"]
    lines += _spills(figures["spills"]) if figures["spills"] else []
    for name, task in figures["tasks"].items():
        lines += _task(name, task, figures["end"])
    return "\n".join(lines) + "\n"


def _histogram(ranges: list[dict[str, int]]) -> list[str]:
    whole = sum(one["requests"] for one in ranges)
    most = max((one["requests"] for one in ranges), default=1)
    lines = []
    for one in ranges:
        bar = "#" * -(-one["requests"] * BARS // most)
        span = f"{one['from'] / 1e6:g} to {one['to'] / 1e6:g} ms"
        share = 100 * one["requests"] / whole
        lines.append(f"             {span:<22}{one['requests']:>8} {share:6.2f} % {bar}".rstrip())
    return lines


def _spills(spills: dict[str, Any]) -> list[str]:
    return [f"spills       {spills['spills']}, in {spills['gaps with a spill']:.2f} % of the gaps: "
            f"{spills['bytes']} bytes, {spills['MB/s']:.3f} MB/s",
            f"             {spills['sectors written']} sectors written, {spills['sectors left']} left"]


def _task(name: str, task: dict[str, Any], end: int) -> list[str]:
    state = "complete" if task["complete"] else "open"
    lines = [f"task {name}    {task['kind']}, {state}: {task['delivered']} of {task['blocks']} blocks delivered, "
             f"{task['aborted']} aborted, {task['left']} left, {task['blocks read again']} read again"]
    instants = [f"{what} {_ms(task[what])}" for what in INSTANTS if task[what] is not None]
    counts = [f"{task[what]} {what}" for what in ("unreadable sectors", "segments cleaned") if task[what]]
    left = " ".join(str(point["left"]) for point in task["left over time"])
    over_time = f"blocks left at each tenth of the run: {left}"
    return lines + [f"             {text}" for text in [*instants, *counts, over_time, *_outlook(task, end)]]


def _outlook(task: dict[str, Any], end: int) -> list[str]:
    """What the last tenth gave, and what would come of it, which is no forecast."""
    if not task["left"]:
        return []
    rate, at = task["blocks a second in the last tenth"], task["complete at that rate"]
    if at is None:
        return ["no fewer were left after the last tenth than before it: at that rate it would never be complete"]
    return [f"{rate:.2f} fewer a second in the last tenth: at that rate, which it needn't keep, complete after "
            f"{_ms(at)}, {at / end:.1f} times the run"]


def _ms(nanoseconds: float) -> str:
    return f"{nanoseconds / 1e6:.6f} ms"


def table_of(figures: dict[str, Any]) -> Iterator[tuple[str, str, Any]]:
    """The figures as lines of a table: group, name and value; nothing stands for what isn't there."""
    for group, found in figures.items():
        if group == "tasks":
            for name, task in found.items():
                yield from _rows(f"task {name}", task)
        elif group == "histogram":
            yield from ((group, f"from {one['from']} to {one['to']}", one["requests"]) for one in found)
        elif isinstance(found, dict):
            yield from _rows(group, found)
        elif found is not None:
            yield group, "", found


def _rows(group: str, found: dict[str, Any]) -> Iterator[tuple[str, str, Any]]:
    for name, value in found.items():
        if name == "left over time":
            yield from ((group, f"left at {point['at']}", point["left"]) for point in value)
        else:
            yield group, name, "" if value is None else value
