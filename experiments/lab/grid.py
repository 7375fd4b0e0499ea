"""A grid: what a file says of disks, traces, policies and tasks, and all combinations of it."""

import os
import re
import tomllib
from dataclasses import dataclass
from itertools import product
from pathlib import Path
from typing import Any, Callable, Iterable, NamedTuple

from lab.refusals import Refused, readable

POLICIES = ("fcfs", "clook", "sstf", "sptf")
KINDS = ("plain", "backup", "scrub")
FILES = ("params", "trace", "calls")
WHOLE_DISK = "all"
MOST_RUNS = 10_000


class Choice(NamedTuple):
    """A value of a key, and what it is called in tables and names of runs."""

    label: str
    value: Any


@dataclass(frozen=True)
class Key:
    """What is chosen: a key of the file, or one of a task's with the task's name before it."""

    name: str
    choices: list[Choice]

    @property
    def is_varied(self) -> bool:
        """Whether there is more than one choice."""
        return len(self.choices) > 1

    @property
    def is_number(self) -> bool:
        """Whether all choices are numbers."""
        return all(isinstance(choice.value, (int, float)) for choice in self.choices)


Combination = dict[str, Choice]  # by the name of the key


@dataclass(frozen=True)
class Grid:
    """A grid: its keys in their order, its tasks' names, and its combinations by the names of their runs."""

    path: str
    keys: list[Key]
    tasks: list[str]
    combinations: dict[str, Combination]

    @property
    def name(self) -> str:
        """The grid file's name without its ending."""
        return Path(self.path).stem

    @property
    def files(self) -> list[str]:
        """The grid file and all files that it names: what a run needs where it is made."""
        named = [choice.value for key in self.keys if key.name in FILES for choice in key.choices]
        return [os.path.normpath(path) for path in dict.fromkeys((self.path, *named))]

    @property
    def varied(self) -> list[Key]:
        """The keys with more than one choice."""
        return [key for key in self.keys if key.is_varied]


class Reader:
    """Reads a table of the file key by key, and refuses what isn't of the form that is due."""

    def __init__(self, table: dict[str, Any], where: str) -> None:
        self._table = table
        self._where = where
        self._known: set[str] = set()

    def key(self, name: str, read: Callable[[Any], Choice | None], due: str, *default: Any) -> Key | None:
        """The choices of a key, in a list or one alone; None where it is left out and needs none."""
        self._known.add(name)
        if name not in self._table and not default:
            raise Refused(f"{self._where}{name} is missing: {due}")
        given = self._table.get(name, *default)
        if given is None:
            return None
        return Key(name, self._choices(name, given, read, due))

    def _choices(self, name: str, given: Any, read: Callable[[Any], Choice | None], due: str) -> list[Choice]:
        one = read(given)
        found: list[Choice | None] = [one]
        if one is None and isinstance(given, list):
            found = [read(value) for value in given]
        choices = [choice for choice in found if choice]
        if not found or len(choices) < len(found):
            raise Refused(f"{self._where}{name} is to be {due}, or a list of such")
        values = [choice.value for choice in choices]
        twice = next((choice.label for at, choice in enumerate(choices) if choice.value in values[:at]), None)
        if twice is not None:
            raise Refused(f"{self._where}{name} has {twice} twice")
        return _told_apart(choices)

    def end(self) -> None:
        """Refuses keys that weren't asked for."""
        for name in self._table:
            if name not in self._known:
                raise Refused(f"{self._where}{name} is no key here; there are {', '.join(sorted(self._known))}")


def read_grid(path: str) -> Grid:
    """The grid of a file; refuses it with the key that is wrong."""
    readable(path)
    with open(path, "rb") as source:
        try:
            given = tomllib.load(source)
        except (tomllib.TOMLDecodeError, UnicodeDecodeError) as fault:
            raise Refused(f"{path}: {fault}") from None
    try:
        return _grid(path, given)
    except Refused as fault:
        raise Refused(f"{path}: {fault}") from None


def _grid(path: str, given: dict[str, Any]) -> Grid:
    folder = Path(path).parent
    tasks = given.pop("task", [])
    if not isinstance(tasks, list) or not all(isinstance(task, dict) for task in tasks):
        raise Refused("task is to be a table [[task]] for each task")
    reader, file = Reader(given, ""), "a file's name, from the folder of the grid"
    keys = [reader.key("params", lambda it: _file(folder, it), file),
            reader.key("trace", lambda it: _file(folder, it), file),
            reader.key("policy", _policy, " or ".join(POLICIES)),
            reader.key("calls", lambda it: _file(folder, it), file, None),
            reader.key("until", _time, "a time in milliseconds", None),
            reader.key("device", lambda it: _number(it, 0, 10**15), "a device's number", None)]
    reader.end()
    if tasks and "calls" in given:
        raise Refused("either calls (scripts) or [[task]], not both")
    names = [_task_name(number, task, tasks) for number, task in enumerate(tasks, 1)]
    for name, task in zip(names, tasks):
        keys += _task_keys(name, task)
    kept = [key for key in keys if key]
    return Grid(path, kept, names, _combinations(kept))


def _task_name(number: int, task: dict[str, Any], tasks: list[dict[str, Any]]) -> str:
    name = task.pop("name", None)
    if not isinstance(name, str) or not re.fullmatch(r"[A-Za-z0-9_-]{1,32}", name):
        raise Refused(f"task {number}: name is to be 1 to 32 letters, digits, _ and -")
    if any(other.get("name") == name for other in tasks[number:]):
        raise Refused(f"two tasks are named {name}")
    return name


def _task_keys(name: str, task: dict[str, Any]) -> Iterable[Key | None]:
    """The keys of a task, which are varied as those of the file."""
    reader = Reader(task, f"task {name}: ")
    keys = [reader.key("kind", lambda it: _one_of(it, KINDS), " or ".join(KINDS)),
            reader.key("range", _range, f'[first sector, number of sectors] or "{WHOLE_DISK}"', WHOLE_DISK),
            reader.key("block", lambda it: _number(it, 1, 2_048), "1 to 2048 sectors"),
            reader.key("weight", lambda it: _number(it, 1, 1_000), "1 to 1000", 1)]
    reader.end()
    return [Key(f"{name}.{key.name}", key.choices) for key in keys if key]


def _file(folder: Path, given: Any) -> Choice | None:
    if not isinstance(given, str):
        return None
    path = folder / given
    if not path.is_file():
        raise Refused(f"there is no file {path}")
    return Choice(re.sub(r"[^A-Za-z0-9._-]+", "_", path.stem).lstrip(".-") or "file", str(path))


def _policy(given: Any) -> Choice | None:
    return _one_of(given, POLICIES)


def _one_of(given: Any, words: Iterable[str]) -> Choice | None:
    return Choice(given, given) if isinstance(given, str) and given in words else None


def _number(given: Any, least: int, most: int) -> Choice | None:
    is_one = isinstance(given, int) and not isinstance(given, bool) and least <= given <= most
    return Choice(str(given), given) if is_one else None


def _time(given: Any) -> Choice | None:
    is_one = isinstance(given, (int, float)) and not isinstance(given, bool) and 0 <= given <= 10**9
    return Choice(f"{given:.6f}".rstrip("0").rstrip("."), given) if is_one else None


def _range(given: Any) -> Choice | None:
    if given == WHOLE_DISK:
        return Choice(WHOLE_DISK, None)
    numbers = isinstance(given, list) and len(given) == 2 and all(_number(it, 0, 10**15) for it in given)
    return Choice(f"{given[0]}+{given[1]}", tuple(given)) if numbers and given[1] > 0 else None


def _told_apart(choices: list[Choice]) -> list[Choice]:
    """The choices with labels that differ: equal ones, as of files in two folders, get their numbers."""
    labels = [choice.label for choice in choices]
    return [choice if labels.count(choice.label) == 1 else Choice(f"{choice.label}_{number}", choice.value)
            for number, choice in enumerate(choices, 1)]


def _combinations(keys: list[Key]) -> dict[str, Combination]:
    """All combinations; a run's name has the labels of what is varied."""
    number = 1
    for key in keys:
        number *= len(key.choices)
    if number > MOST_RUNS:
        raise Refused(f"{number} combinations; {MOST_RUNS} at most")
    found: dict[str, Combination] = {}
    for choices in product(*(key.choices for key in keys)):
        name = "-".join(choice.label for key, choice in zip(keys, choices) if key.is_varied) or "run"
        if name in found:
            raise Refused(f"two combinations would be named {name}: name files so that they are told apart")
        found[name] = {key.name: choice for key, choice in zip(keys, choices)}
    return found
