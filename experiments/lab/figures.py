"""The figures of a run, by group and name."""

from array import array
from fractions import Fraction
from typing import Any

from lab.accounts import (DETOURS, HOWS, IDLE_UNUSED, IDLE_USED, MOVES, TRANSFER, UNUSED, USED, WRITTEN, Account,
                          Bookkeeper)
from lab.disk import Disk
from lab.ending import Ending, ending_of
from lab.reading import Reports, run_rows
from lab.reports import Gap, Note, Spilled
from lab.tasks import Task, Tasks

PERCENTILES: dict[str, int | Fraction] = {"median": 50, "90th percentile": 90, "95th percentile": 95,
                                          "99th percentile": 99, "99.9th percentile": Fraction(999, 10)}
STEPS = 10  # into which a run is cut for what is left over time


def percentile(ascending: "array[int]", percent: int | Fraction) -> int:
    """The least of the values that so many percent of them don't exceed."""
    return ascending[-int(-len(ascending) * percent // 100) - 1]


def figures_of(disk: Disk, reports: Reports) -> dict[str, Any]:
    """All figures of a run, read once as a stream: response times are held, eight bytes a request, and a bit a block.

    Times are in nanoseconds, shares in percent of the whole run, rates in a second, megabytes are 10^6 bytes. Without a
    background report `background` is None and there are no tasks; without a text of spills `spills` is None."""
    ending = ending_of(reports.back) if reports.back is not None else Ending(0, {})
    instants = tenths(ending.end)
    keeper, tasks, responses = Bookkeeper(disk), Tasks(ending, instants), array("q")
    end, spilled = 0, None
    for row in run_rows(disk, reports):
        keeper.add(row)
        tasks.add(row)
        if isinstance(row, Gap):
            responses.append(row.served.finish - row.served.arrival)
        elif isinstance(row, Spilled):
            spilled = row
        elif isinstance(row, Note) and row.verb == "end":
            end = int(row.fields[0])
    account = keeper.accounts[0]
    ascending = array("q", sorted(responses))
    return {
        "end": end,
        "foreground": _foreground(disk, account),
        "response": _response(account, ascending),
        "histogram": histogram(ascending),
        "time": _shares(account),
        "background": _background(account) if reports.back is not None else None,
        "spills": _spills(account, spilled),
        "tasks": {name: task_figures(task, instants) for name, task in tasks.by_name.items()},
    }


def tenths(end: int) -> list[int]:
    """The instants at which it is told how much is left."""
    return [end * step // STEPS for step in range(STEPS + 1)]


def histogram(ascending: "array[int]") -> list[dict[str, int]]:
    """How many of the values, which ascend, lie in each of the ranges 1, 2, 5, 10, .. nanoseconds, from the first range
    that has one to the last. A range has its lower end and not its upper one."""
    ranges: list[dict[str, int]] = []
    at, low, factors = 0, 0, (1, 2, 5)
    step = 0
    while at < len(ascending):
        high = factors[step % 3] * 10 ** (step // 3)
        behind = at
        while behind < len(ascending) and ascending[behind] < high:
            behind += 1
        if ranges or behind > at:
            ranges.append({"from": low, "to": high, "requests": behind - at})
        at, low, step = behind, high, step + 1
    return ranges


def _foreground(disk: Disk, account: Account) -> dict[str, Any]:
    seconds = account.whole / 1e9 or 1.0
    bytes_ = account.sectors * disk.sector_bytes
    return {"requests": account.requests, "bytes": bytes_, "requests a second": account.requests / seconds,
            "MB/s": bytes_ / seconds / 1e6}


def _response(account: Account, ascending: "array[int]") -> dict[str, Any]:
    if not ascending:
        return {}
    found: dict[str, Any] = {"mean": account.responses / account.requests}
    found |= {name: percentile(ascending, percent) for name, percent in PERCENTILES.items()}
    return found | {"greatest": ascending[-1], "mean service": account.services / account.requests}


def _shares(account: Account) -> dict[str, Any]:
    return {"seek": account.percent(MOVES), "rotational wait used": account.percent(USED),
            "rotational wait written": account.percent(WRITTEN), "rotational wait unused": account.percent(UNUSED),
            "detour moves": account.percent(DETOURS), "transfer": account.percent(TRANSFER),
            "idle used": account.percent(IDLE_USED), "idle unused": account.percent(IDLE_UNUSED)}


def _background(account: Account) -> dict[str, Any]:
    found: dict[str, Any] = {f"bytes by {how}": account.got[how] for how in HOWS}
    found |= {f"MB/s by {how}": account.megabytes_a_second(how) for how in HOWS}
    found |= {"bytes": sum(account.got.values()), "MB/s": account.megabytes_a_second()}
    detours = 100 * account.detours / account.requests if account.requests else 0.0
    return found | {"gaps with a detour": detours}


def _spills(account: Account, spilled: Spilled | None) -> dict[str, Any] | None:
    if spilled is None:
        return None
    seconds = account.whole / 1e9 or 1.0
    gaps = 100 * account.spills / account.requests if account.requests else 0.0
    return {"spills": account.spills, "gaps with a spill": gaps, "bytes": account.puts,
            "MB/s": account.puts / seconds / 1e6, "sectors written": spilled.written, "sectors left": spilled.left}


def task_figures(task: Task, instants: list[int]) -> dict[str, Any]:
    """How a task fared, with what was left of it at these instants."""
    at_end = task.at_end
    found = {"kind": at_end.kind, "blocks": at_end.blocks, "delivered": at_end.delivered, "aborted": at_end.aborted,
             "left": at_end.left, "complete": at_end.complete, "first delivery": task.first, "last delivery": task.last,
             "completion": task.done, "seal": task.sealed, "blocks read again": task.again,
             "unreadable sectors": task.unreadable, "segments cleaned": task.segments}
    found["left over time"] = [{"at": at, "left": left} for at, left in zip(instants, task.over_time)]
    return found | _outlook(task, instants)


def _outlook(task: Task, instants: list[int]) -> dict[str, Any]:
    """How fast less was left in the last tenth, and when nothing would be left if that went on, which it needn't."""
    lasted = instants[-1] - instants[-2]
    fewer = task.over_time[-2] - task.over_time[-1]
    rate = fewer / lasted * 1e9 if lasted else 0.0
    left = task.at_end.left
    at = instants[-1] + left * lasted // fewer if left and fewer > 0 else None
    return {"blocks a second in the last tenth": rate, "complete at that rate": at}
