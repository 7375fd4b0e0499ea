"""Tables of whole numbers, packed column by column so that a row takes few bytes."""

import sys
from array import array
from typing import Any


class Table:
    """Rows of whole numbers below 2^63; `add` takes a row, with a number for each column."""

    def __init__(self, *names: str) -> None:
        self.names = names
        self._numbers = array("q")  # row after row
        self.add = self._numbers.extend

    def __len__(self) -> int:
        return len(self._numbers) // len(self.names)

    def packed(self) -> tuple[dict[str, Any], bytes]:
        """What the page has to know to unpack the table, and its columns one after another.

        A column has as many bytes a number as its greatest takes: first the lowest bytes of all numbers, then the
        next, and so on, as bytes of one kind beside each other can be packed well."""
        widths, parts = [], []
        for place, name in enumerate(self.names):
            column = self._numbers[place::len(self.names)]
            width = _width(column)
            widths.append([name, width])
            octets = column.tobytes()
            at = range(width) if sys.byteorder == "little" else range(7, 7 - width, -1)
            parts += [octets[octet::8] for octet in at]
        return {"rows": len(self), "columns": widths}, b"".join(parts)


def _width(column: "array[int]") -> int:
    """How many bytes the numbers take, with their signs."""
    greatest = max(max(column, default=0), -1 - min(column, default=0))
    return greatest.bit_length() // 8 + 1
