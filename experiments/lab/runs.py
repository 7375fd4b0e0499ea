"""What the runs of the studies share: a foreground on a disk, a script beside it, and the columns of a table."""

import os
from typing import NamedTuple

from lab.accounts import HOWS, IDLE_USED, PARTS, USED, Account, accounts
from lab.disk import Disk
from lab.mechanism import closed_arrivals
from lab.program import Runs, assert_closed, replay_both
from lab.reports import rows
from lab.scripts import write_script
from lab.study import EXPERIMENTS
from lab.tables import Line
from lab.workload import Mix, random_requests, write_trace

REQUESTS = 6_000  # of a run, 20 to 50 simulated seconds where the disk is never idle
BLOCK = 16  # sectors; 8 KB where a sector has 512 bytes


class Closed(NamedTuple):
    """A closed loop on a disk of `disks/`."""

    policy: str
    outstanding: int
    disk: str = "atlas10k"


def disk_named(name: str) -> Disk:
    """A disk of `disks/`."""
    return Disk(str(EXPERIMENTS / "disks" / f"{name}.toml"))


def closed_run(loop: Closed, disk: Disk, number: int, mix: Mix, script: list[str], folder: str) -> Runs:
    """Replays a closed loop of random requests with the script and without; the loop is checked on the report."""
    requests = random_requests(disk.sectors, number, mix, seed=1)
    trace = os.path.join(folder, "trace")
    write_trace(trace, closed_arrivals(disk, requests, loop.policy, loop.outstanding), requests)
    runs = replay_both(disk.path, trace, loop.policy, write_script(os.path.join(folder, "calls"), script), folder)
    assert_closed(runs.fore, loop.outstanding)
    return runs


def account_of(disk: Disk, runs: Runs) -> Account:
    """The account of a whole run."""
    return accounts(disk, rows(runs.fore, runs.back))[0]


def columns(account: Account) -> Line:
    """The columns that tables have in common; times in ms, shares in percent."""
    requests = account.requests or 1
    line: Line = {"response ms": account.responses / requests / 1e6, "service ms": account.services / requests / 1e6}
    line |= {f"{name} %": account.percent(part) for part, name in enumerate(PARTS)}
    line |= {"free %": account.percent(USED, IDLE_USED), "MB/s": account.megabytes_a_second()}
    line |= {f"{how} MB/s": account.megabytes_a_second(how) for how in HOWS}
    return line | {"gaps with a detour %": 100 * account.detours / requests}


