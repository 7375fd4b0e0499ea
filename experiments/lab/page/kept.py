"""The rows of a run, or of a stretch of it, as the page keeps them."""

from dataclasses import dataclass
from typing import Any, Iterable, Iterator

from lab.disk import Disk, Track
from lab.ending import Ending, ending_of
from lab.figures import task_figures, tenths
from lab.page.columns import Table
from lab.reading import Reports, run_rows
from lab.refusals import WrongInput
from lab.reports import Gap, Got, Idle, Note, ReportError, Row, Spill, Spilled, Wrote
from lab.tasks import Task, Tasks
from lab.texts import numbered_lines

GREATEST = 4_000_000  # rows of one page
CONTENTS = 100_000  # characters of contents that a page keeps
READ, IDLE, DETOUR, PROMOTED = 1, 2, 4, 8  # flags of an act
KINDS = {"act": 0, "gap": 1, "idle": 2, "ride": 3, "note": 4}  # of the rows of a background report


class TooLong(WrongInput):
    """A run with more rows than a page can hold."""

    def __init__(self, begin: int, instant: int, end: int) -> None:
        super().__init__(f"a page holds {GREATEST} rows, and the run has more: choose a stretch of its "
                         f"{end / 1e6:.6f} ms, such as --from {begin / 1e6:.6f} --to {instant / 1e6:.6f}")


class Ends:
    """The last two fields of a report's lines, which rows leave out: how much can't be read, and the contents."""

    def __init__(self, path: str | None) -> None:
        self._lines: Iterator[tuple[int, str]] = numbered_lines(path) if path else iter(())
        self.contents: list[str] = []
        self.left_out = False
        self._held = 0

    def of(self, line: int) -> int:
        """How much of this line can't be read; its contents are kept. Lines are asked for in their order."""
        for number, text in self._lines:
            if number != line:
                continue
            if text.endswith(" 0 -\n"):
                self.contents.append("-")
                return 0
            _, bad, contents = text.rsplit(None, 2)
            self._keep(contents)
            return int(bad)
        raise ReportError(f"line {line} is gone")

    def _keep(self, contents: str) -> None:
        self._held += len(contents) - 1
        self.left_out = self._held > CONTENTS
        self.contents.append("-" if self.left_out else contents)

    def kept(self) -> list[str]:
        """The contents of all lines that were asked for; none where they are nothing or too many."""
        return [] if self.left_out or all(text == "-" for text in self.contents) else self.contents


@dataclass
class Known:
    """What is known of a task: its number in the tables, how much was in before them, and what is expected next."""

    task: Task
    number: int
    before: int = 0
    next_block: int = 0
    next_sector: int = 0

    @property
    def is_backup(self) -> bool:
        """Whether writes make its blocks wanted again."""
        return self.task.at_end.kind == "backup"


@dataclass
class Last:
    """What stands in the row before, from which the next one is counted."""

    end: int = 0  # of a request or an idle stay
    instant: int = 0  # of any row
    target: int = 0
    number: int = 0  # of a request


class Kept:
    """The rows between two instants (None: to the end), each as its difference to what is expected after the last.

    An act is a gap with its request, or an idle stay; the rows of its blocks follow it."""

    def __init__(self, disk: Disk, reports: Reports, begin: int, end: int | None) -> None:
        self.disk, self.begin, self.end = disk, begin, end
        self.kinds = Table("kind")
        self.acts = Table("flags", "number", "sector", "length", "queued", "lead", "wait", "pass", "source", "target",
                          "leave", "bad")
        self.detours = Table("by")
        self.gots = Table("task", "again", "fewer", "number", "sector", "length", "begin", "pass", "bad")
        self.overwritten = Table("task", "blocks", "act")  # by writes, which are done then
        self.spills = Table("track", "begin", "pass", "act")
        self.puts = Table("spill", "put", "sector", "length", "begin", "pass")
        self.notes: list[str] = []
        self.later: list[int] = []  # arrivals of requests that are served after the stretch
        self.ending = ending_of(reports.back) if reports.back is not None else Ending(0, {})
        self.tasks = Tasks(self.ending, tenths(self.ending.end))
        self.ends = {"fore": Ends(reports.fore), "back": Ends(reports.back), "spill": Ends(reports.spill)}
        self.first_lines = {"fore": 0, "back": 0, "spill": 0}
        self.first: int | None = None  # the instant at which the kept rows begin
        self._known = {name: Known(task, number) for number, (name, task) in enumerate(self.tasks.by_name.items())}
        self._backups = [known for known in self._known.values() if known.is_backup]
        self._open = begin <= 0  # whether the present act is kept
        self._requests = 0
        self._last = Last()

    @property
    def rows(self) -> int:
        """How many lines of the reports were kept."""
        return self._requests + len(self.spills) + len(self.puts) + (len(self.kinds) if self.first_lines["back"] else 0)

    @property
    def last_instant(self) -> int:
        """Where the kept rows end."""
        return self._last.end

    def add(self, row: Row) -> None:
        """Counts the row, and keeps it if it belongs to the stretch."""
        if isinstance(row, Got):
            self._add_got(row)
        elif isinstance(row, Spill | Wrote | Spilled):
            self._add_spilled(row)
        else:
            self._count(row)
            if isinstance(row, Note):
                self._add_note(row)
            else:
                self._add_act(row)

    def _count(self, row: Gap | Idle | Note) -> None:
        """Counts a row for the tasks, of which a write that is done by now may have overwritten blocks."""
        left = [known.task.left for known in self._backups]
        self.tasks.add(row)
        for known, before in zip(self._backups, left):
            more = known.task.left - before
            if more and self._open:
                self.overwritten.add((known.number, more, len(self.acts) - 1))
            elif self.first is None:
                known.before -= more

    def _add_act(self, row: Gap | Idle) -> None:
        """Keeps an act if it belongs to the stretch."""
        now, end = (row.now, row.served.finish) if isinstance(row, Gap) else (row.begin, row.end)
        self._open = end > self.begin and (self.end is None or now < self.end)
        if self._open:
            self._begin(now, row.line)
            if isinstance(row, Gap):
                self._add_gap(row)
            else:
                self._add_idle(row)
        elif isinstance(row, Gap) and self.first is not None:
            self.later.append(row.served.arrival)

    def _begin(self, now: int, line: int) -> None:
        if self.first is None:
            self.first = self._last.end = self._last.instant = now
            self.first_lines["back"] = self.first_lines["back"] or line
        if now < self._last.end:
            raise ReportError(f"what begins at {now} begins before what stands above it has ended, at {self._last.end}")
        if self.rows >= GREATEST:
            raise TooLong(self.begin, now, self.ending.end)

    def _add_gap(self, gap: Gap) -> None:
        served, last = gap.served, self._last
        if served.start != gap.now:
            raise ReportError(f"request {served.name} starts at {served.start} and its gap at {gap.now}")
        self.first_lines["fore"] = self.first_lines["fore"] or served.line
        self._requests += 1
        promoted = served.name.startswith("P")
        number = int(served.name[1:] if promoted else served.name)
        flags = READ * served.is_read + DETOUR * (gap.by is not None) + PROMOTED * promoted
        source, target = self._track(gap.source), self._track(gap.target)
        self.kinds.add((KINDS["act"],))
        self.acts.add((flags, number - last.number - 1, served.sector, served.length, gap.now - served.arrival,
                       gap.now - last.end, gap.deadline - gap.now, served.finish - served.media, source - last.target,
                       target, gap.leave - gap.now, self.ends["fore"].of(served.line)))
        if gap.by is not None:
            self.detours.add((self._track(gap.by),))
        last.end, last.instant, last.target, last.number = served.finish, gap.now, target, number

    def _add_idle(self, idle: Idle) -> None:
        track, last = self._track(idle.track), self._last
        self.kinds.add((KINDS["act"],))
        self.acts.add((IDLE, 0, 0, 0, 0, idle.begin - last.end, idle.end - idle.begin, 0, track - last.target, track, 0,
                       0))
        last.end, last.instant, last.target = idle.end, idle.begin, track

    def _add_got(self, got: Got) -> None:
        known = self._known.get(got.task)
        if known is None:
            self.tasks.add(got)  # which refuses it
            return
        task = known.task
        again, left = task.again, task.left if known.is_backup else 0
        self.tasks.add(got)
        again = task.again - again
        fewer = left - task.left if known.is_backup else 1 - again
        if self._open:
            self.kinds.add((KINDS[got.how],))
            self.gots.add((known.number, again, fewer, got.number - known.next_block, got.sector - known.next_sector,
                           got.length, got.begin - self._last.instant, got.end - got.begin,
                           self.ends["back"].of(got.line)))
            known.next_block, known.next_sector = got.number + 1, got.sector + got.length
            self._last.instant = got.end
        elif self.first is None:
            known.before += fewer

    def _add_spilled(self, row: Spill | Wrote | Spilled) -> None:
        if isinstance(row, Spilled) or not self._open:
            return
        self.ends["spill"].of(row.line)
        if isinstance(row, Spill):
            self.first_lines["spill"] = self.first_lines["spill"] or row.line
            self.spills.add((self._track(row.track), row.begin, row.end - row.begin, len(self.acts) - 1))
        else:
            self.puts.add((len(self.spills) - 1, row.put, row.sector, row.length, row.begin, row.end - row.begin))

    def _add_note(self, note: Note) -> None:
        if self._open and note.line:
            self.first_lines["back"] = self.first_lines["back"] or note.line
            self.kinds.add((KINDS["note"],))
            self.notes.append(" ".join([note.verb, *note.fields]))

    def _track(self, track: Track) -> int:
        return track[0] * self.disk.heads + track[1]

    def tables(self) -> dict[str, Table]:
        """All tables, by the names that the page knows them by."""
        later, last = Table("arrival"), 0
        for arrival in sorted(arrival for arrival in self.later if arrival < self.last_instant):
            later.add((arrival - last,))
            last = arrival
        return {"kinds": self.kinds, "acts": self.acts, "detours": self.detours, "gots": self.gots, "later": later,
                "overwritten": self.overwritten, "spills": self.spills, "puts": self.puts}

    def texts(self) -> dict[str, list[str]]:
        """All lists of texts; contents are those of the requests, the blocks and the lines of the text of spills."""
        return {"notes": self.notes, **{name: ends.kept() for name, ends in self.ends.items()}}

    def about_tasks(self) -> list[dict[str, Any]]:
        """How each task fared in the whole run, and how much of it was in before the page's first row; in the order in
        which the tables number them."""
        return [{"name": name, "before": known.before, "figures": task_figures(known.task, self.tasks.instants)}
                for name, known in self._known.items()]


def kept_of(disk: Disk, reports: Reports, begin: int, end: int | None) -> Kept:
    """The rows of a stretch. The whole run is read, as a task's figures are those of its whole run."""
    kept = Kept(disk, reports, begin, end)
    rows: Iterable[Row] = run_rows(disk, reports)
    for row in rows:
        kept.add(row)
    return kept
