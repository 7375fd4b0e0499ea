"""Which blocks of a backup are in, as deliveries and writes leave them."""

from typing import Iterator

PAGE = 15  # a page has 2 to this power bits


class Bits:
    """A set of whole numbers; a bit for each number of the pages that have one."""

    def __init__(self) -> None:
        self._pages: dict[int, bytearray] = {}

    def add(self, number: int) -> None:
        """Puts the number in."""
        page = self._pages.get(number >> PAGE)
        if page is None:
            page = self._pages[number >> PAGE] = bytearray(1 << PAGE - 3)
        page[number % (1 << PAGE) >> 3] |= 1 << (number & 7)

    def drop(self, number: int) -> None:
        """Takes the number out, which is in."""
        self._pages[number >> PAGE][number % (1 << PAGE) >> 3] &= ~(1 << (number & 7))

    def within(self, begin: int, end: int) -> Iterator[int]:
        """Its numbers from `begin` on that are less than `end`, ascending."""
        for at in range(begin >> PAGE, (end - 1 >> PAGE) + 1):
            page = self._pages.get(at)
            if page is not None:
                first = at << PAGE
                low, high = max(begin - first, 0) >> 3, (min(end - first, 1 << PAGE) + 7) >> 3
                bits = int.from_bytes(page[low:high], "little")
                while bits:
                    number = first + (low << 3) + (bits & -bits).bit_length() - 1
                    bits &= bits - 1
                    if begin <= number < end:
                        yield number


class Image:
    """The blocks of a backup that are in; they don't overlap."""

    def __init__(self) -> None:
        self.blocks = 0
        self._firsts, self._lasts = Bits(), Bits()
        self._longest = 1

    def take(self, sector: int, length: int) -> None:
        """A block is delivered that isn't in."""
        self._firsts.add(sector)
        self._lasts.add(sector + length - 1)
        self._longest = max(self._longest, length)
        self.blocks += 1

    def overwrite(self, sector: int, length: int) -> None:
        """Blocks that share a sector with the range are wanted again."""
        end, reach = sector + length, self._longest
        firsts = list(self._firsts.within(max(0, sector - reach + 1), end))
        for first in firsts:
            last = next(self._lasts.within(first, first + reach))
            if last >= sector:
                self._firsts.drop(first)
                self._lasts.drop(last)
                self.blocks -= 1
