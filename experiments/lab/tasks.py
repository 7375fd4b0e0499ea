"""What each background task of a run did, added up row by row."""

from dataclasses import dataclass, field
from typing import Mapping

from lab.ending import Ending, TaskEnd
from lab.images import Image
from lab.reports import Gap, Got, Idle, Note, ReportError, Row, Served


@dataclass
class Task:
    """What a background task did; instants in nanoseconds, None where it never came to that."""

    at_end: TaskEnd
    readings: int = 0
    sectors: int = 0  # of all readings
    again: int = 0  # readings of a block that had been read before
    unreadable: int = 0  # sectors found so
    segments: int = 0  # cleaned
    first: int | None = None  # the end of the first delivery
    last: int | None = None
    sealed: int | None = None
    done: int | None = None  # the first completion
    over_time: list[int] = field(default_factory=list)  # blocks left at the instants of `Tasks`
    _seen: bytearray = field(default_factory=bytearray, repr=False)  # one bit a block: delivered before
    _image: Image | None = None  # of a backup

    def __post_init__(self) -> None:
        self._image = Image() if self.at_end.kind == "backup" else None

    @property
    def left(self) -> int:
        """The blocks that aren't in now, of those that are registered at the end and not aborted then."""
        delivered = self.readings - self.again if self._image is None else self._image.blocks
        return self.at_end.blocks - self.at_end.aborted - delivered

    def add(self, got: Got) -> None:
        """Counts a delivery."""
        self.first = got.end if self.first is None else self.first
        self.last = got.end
        self.readings += 1
        self.sectors += got.length
        byte, bit = got.number // 8, 1 << got.number % 8
        if byte >= len(self._seen):
            self._seen.extend(bytes(byte + 1 - len(self._seen) + len(self._seen) // 2))
        self.again += self._seen[byte] & bit > 0
        self._seen[byte] |= bit
        if self._image is not None:
            self._image.take(got.sector, got.length)

    def overwrite(self, write: Served) -> None:
        """A write of the foreground makes blocks of a backup wanted again, until it is sealed."""
        if self._image is not None and self.sealed is None:
            self._image.overwrite(write.sector, write.length)

    def note(self, note: Note) -> None:
        """Counts a row about the task that is no delivery."""
        if note.verb == "bad":
            self.unreadable += 1
        elif note.verb == "seg":
            self.segments += 1
        elif note.verb == "seal":
            self.sealed = int(note.fields[1])
        elif note.verb == "done" and self.done is None:
            self.done = int(note.fields[1])


class Tasks:
    """All tasks of a run by name, and how much of each is left at some instants, which ascend (nanoseconds)."""

    def __init__(self, ending: Ending, instants: list[int]) -> None:
        self.by_name = {name: Task(at_end) for name, at_end in ending.tasks.items()}
        self.instants = instants
        self._noted = 0  # how many of the instants have passed
        self._write: Served | None = None  # one that isn't done yet

    def begin_with(self, delivered: Mapping[str, int]) -> None:
        """Counts so many deliveries of each task, which isn't a backup, before all rows."""
        for name, blocks in delivered.items():
            self._task(name).readings = blocks

    def add(self, row: Row) -> None:
        """Counts a row. A write is done after the deliveries of its own gap, and before all that follows."""
        if isinstance(row, Got):
            self._pass(row.end)
            self._task(row.task).add(row)
        elif isinstance(row, Gap | Idle) or isinstance(row, Note) and row.verb in ("task", "end"):
            self._finish_write()
            self._write = row.served if isinstance(row, Gap) and not row.served.is_read else None
            if isinstance(row, Note) and row.verb == "end":
                self._end()
        elif isinstance(row, Note):
            self._task(row.fields[0]).note(row)

    def _task(self, name: str) -> Task:
        if name not in self.by_name:
            raise ReportError(f"the background report tells of a task {name}, but not how it stands at the end")
        return self.by_name[name]

    def _finish_write(self) -> None:
        write = self._write
        if write is not None:
            self._pass(write.finish)
            for task in self.by_name.values():
                task.overwrite(write)

    def _pass(self, now: int) -> None:
        """Notes what is left at the instants before this one."""
        while self._noted < len(self.instants) and self.instants[self._noted] < now:
            self._note_left()

    def _note_left(self) -> None:
        self._noted += 1
        for task in self.by_name.values():
            task.over_time.append(task.left)

    def stop(self) -> None:
        """Notes the last instants, behind which no row is counted."""
        while self._noted < len(self.instants):
            self._note_left()

    def _end(self) -> None:
        """Refuses a report whose rows don't add up to what it says at its end."""
        self.stop()
        for name, task in self.by_name.items():
            if task.left != task.at_end.left:
                raise ReportError(f"the background report's rows leave {task.left} blocks of task {name}, but its line "
                                  f"at the end says {task.at_end.left}")
