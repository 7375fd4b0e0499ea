"""Tables as text: a line of names, and a line of values between tabs for each row."""

from pathlib import Path
from typing import Any, Iterable, Iterator

Line = dict[str, Any]
NOTHING = "-"  # in a column that a line hasn't


def text_of(value: Any) -> str:
    """Numbers with three digits behind the point, all else as it is."""
    return f"{value:.3f}" if isinstance(value, float) else str(value)


def write_lines(lines: Iterable[Line]) -> Iterator[str]:
    """The table's lines of text; its columns are those of all lines."""
    kept = list(lines)
    names = list(dict.fromkeys(name for line in kept for name in line))
    if names:
        yield "\t".join(names) + "\n"
    for line in kept:
        yield "\t".join(text_of(line.get(name, NOTHING)) for name in names) + "\n"


def write_table(path: Path, lines: Iterable[Line]) -> None:
    """Writes a table."""
    with open(path, "w") as out:
        out.writelines(write_lines(lines))


def lines_of(rows: list[str]) -> list[Line]:
    """The lines of a table's rows of text, values as they are written; refuses a row of another width."""
    names = rows[0].split("\t") if rows else []
    found = []
    for row in rows[1:]:
        values = row.split("\t")
        if len(values) != len(names):
            raise ValueError(f"a row of {len(values)} values in a table of {len(names)} columns")
        found.append(dict(zip(names, values)))
    return found


def read_table(path: Path) -> list[Line]:
    """Reads a table; what can be a number is one."""
    rows = path.read_text().splitlines()
    return [{name: _value(text) for name, text in line.items()} for line in lines_of(rows)]


def _value(text: str) -> int | float | str:
    for kind in (int, float):
        try:
            value: int | float = kind(text)
            return value
        except ValueError:
            pass
    return text
