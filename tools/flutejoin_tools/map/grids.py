"""The cells of pictures: each is a run of symbols, or of objects, and counts them by kind."""
from __future__ import annotations

import array
from typing import Callable, Iterable, Iterator, Optional, Sequence

from flutejoin_tools.common.gaps import (
    CONFLICTING,
    HELD,
    MISFIT,
    MISSING,
    NO_INFORMATION,
    PARTIAL,
    WHOLE,
    State,
)
from flutejoin_tools.formats.partition import Partition

NAMES = ("held", "missing", "conflicting", "misfit")
OBJECT_NAMES = ("whole", "partial", "conflicting", "no information")

# How many are of each kind
Counts = Sequence[int]


def counted(number: int, what: str) -> str:
    """A number of things, in words: 1 block, 2 blocks."""
    return f"{number} {what}{'' if number == 1 else 's'}"


def partition_words(partition: Partition) -> str:
    """An object's lengths and blocks, in words."""
    length, symbol, _ = partition.numbers
    if not length:
        return "empty: 0 bytes, and no symbol"
    small = f" or {partition.small}" if partition.larger else ""
    of = f" of {partition.size(0)}{small}" if partition.blocks > 1 else ""
    sizes = f"{counted(partition.symbols, 'symbol')} of {counted(symbol, 'byte')}"
    return f"{counted(length, 'byte')}, {sizes}, {counted(partition.blocks, 'block')}{of}"


class Grid:
    """Rows of cells: a cell is a run of symbols, and a row one block or several.

    It counts the symbols that are held, missing, conflicting or misfits, for each cell and in all.
    """

    names = NAMES

    def __init__(
        self, partition: Partition, most_rows: int, columns_of: Callable[[int], int]
    ) -> None:
        self.partition = partition
        self.group = 1
        if partition.blocks > most_rows:
            self.group = -(-partition.blocks // (most_rows // 2))
        self.rows = -(-partition.blocks // self.group)
        edges = (min(row * self.group, partition.blocks) for row in range(self.rows + 1))
        self.begins = [*map(partition.start, edges)]
        longest = partition.start(min(self.group, partition.blocks))
        self.run = max(1, -(-longest // columns_of(self.rows)))
        self.columns = -(-longest // self.run)
        self.counts = [0, 0, 0, 0]
        self.counts[HELD] = partition.symbols
        self.cells = {
            reason: array.array("Q", bytes(8 * self.rows * self.columns))
            for reason in (MISSING, CONFLICTING, MISFIT)
        }

    def is_fine(self) -> bool:
        """Whether each row is a block, and each cell a symbol."""
        return self.group == 1 and self.run == 1

    def begin(self, row: int) -> int:
        """The place of the first symbol of a row; after the last row, the number of symbols."""
        return self.begins[row]

    def add(self, block: int, first: int, last: int, reason: int) -> bool:
        """Adds a gap. Returns False if the object has no such symbols."""
        if block >= self.partition.blocks or not first <= last < self.partition.size(block):
            return False
        row = block // self.group
        at = self.partition.start(block) - self.begin(row)
        self.count(row, at + first, at + last, reason)
        return True

    def miss(self, first: int, last: int) -> bool:
        """Adds missing symbols, by the places of the first and the last in the object. Returns
        False if it has no such symbols."""
        if not first <= last < self.partition.symbols:
            return False
        row = self.partition.id_at(first)[0] // self.group
        while first <= last:
            begin, end = self.begin(row), self.begin(row + 1)
            self.count(row, first - begin, min(last, end - 1) - begin, MISSING)
            row, first = row + 1, end
        return True

    def count(self, row: int, first: int, last: int, reason: int) -> None:
        """Counts symbols of a row, by their places in it."""
        cells, base = self.cells[reason], row * self.columns
        for column in range(first // self.run, last // self.run + 1):
            begin, end = column * self.run, (column + 1) * self.run
            cells[base + column] += min(last, end - 1) - max(first, begin) + 1
        self.counts[reason] += last - first + 1
        self.counts[HELD] -= last - first + 1

    def miss_all(self) -> None:
        if self.partition.symbols:
            self.miss(0, self.partition.symbols - 1)

    def row_cells(self, row: int) -> Iterator[Counts]:
        """Yields the counts by kind of each cell of a row."""
        size = self.begin(row + 1) - self.begin(row)
        for column in range(-(-size // self.run)):
            at = row * self.columns + column
            other = [self.cells[reason][at] for reason in (MISSING, CONFLICTING, MISFIT)]
            yield (min(self.run, size - column * self.run) - sum(other), *other)

    def row_runs(self, row: int) -> Iterator[tuple[int, int, Counts]]:
        """Yields runs of neighbouring cells of a single kind, and every other cell by itself.

        Of each it yields its first column, the column after its last, and its counts.
        """
        begin = column = 0
        one: Counts = ()
        kind: Optional[list[bool]] = None
        for column, counts in enumerate(self.row_cells(row)):
            pure = sum(count > 0 for count in counts) == 1
            if pure and kind == [count > 0 for count in counts]:
                one = tuple(a + b for a, b in zip(one, counts))
                continue
            if one:
                yield begin, column, one
            begin, one, kind = column, counts, [count > 0 for count in counts] if pure else None
        if one:
            yield begin, column + 1, one

    def places(self, row: int, begin: int, end: int) -> tuple[int, int]:
        """The places of the first and the last symbol of cells of a row."""
        first = self.begin(row) + begin * self.run
        return first, min(self.begin(row) + end * self.run, self.begin(row + 1)) - 1

    def range_words(self, row: int, begin: int, end: int) -> str:
        """Which symbols the cells of a row are, as text."""
        first, last = map(self.partition.id_at, self.places(row, begin, end))
        if first == last:
            return "%d/%d" % first
        if first[0] == last[0]:
            return "%d/%d-%d" % (*first, last[1])
        return "%d/%d to %d/%d" % (*first, *last)

    def label(self, row: int) -> int:
        """The label of a row: its first block."""
        return row * self.group

    def scale_words(self) -> str:
        """What a row and a cell stand for, in words."""
        row = "a row is a block" if self.group == 1 else f"a row is {self.group} blocks"
        return f"{row}, a cell is {'a symbol' if self.run == 1 else f'{self.run} symbols'}"

    def words(self, counts: Iterable[int] | None = None, is_short: bool = False) -> str:
        """How many are of each kind, in all or in these counts, as text."""
        of = list(zip(self.names, self.counts if counts is None else counts))
        return ", ".join(f"{name} {count}" for name, count in of if count or not is_short)


class Overview(Grid):
    """Rows of cells that are each an object, or a run of objects: an overview."""

    names = OBJECT_NAMES
    ROW = 64  # objects in a row, at most

    def __init__(
        self, objects: int, most_rows: int, columns_of: Callable[[int], int]
    ) -> None:
        super().__init__(Partition(objects, 1, self.ROW), most_rows, columns_of)
        self.place = 0  # of the next object
        self.ends: dict[int, list[str]] = {}  # the first and the last object of each cell

    def take(self, key: str, state: State) -> bool:
        """Adds the next object. Returns False if it is one too many."""
        if self.place == self.partition.symbols:
            return False
        block, number = self.partition.id_at(self.place)
        if kind := self.kind(state):
            self.add(block, number, number, kind)
        row = block // self.group
        cell = row * self.columns + (self.place - self.begin(row)) // self.run
        self.ends.setdefault(cell, [key, key])[1] = key
        self.place += 1
        return True

    @staticmethod
    def kind(state: State) -> int:
        """The kind that is drawn for an object of this state."""
        if state.words in (WHOLE, NO_INFORMATION):
            return HELD if state.words == WHOLE else MISFIT
        return MISSING if state.words == PARTIAL and not state.disputed else CONFLICTING

    def range_words(self, row: int, begin: int, end: int) -> str:
        """The objects that some cells of a row stand for, by their names."""
        cells = range(row * self.columns + begin, row * self.columns + end)
        known = [self.ends[cell] for cell in cells if cell in self.ends]
        first, last = (known[0][0], known[-1][1]) if known else ("", "")
        return first if first == last else f"{first} to {last}"

    def label(self, row: int) -> int:
        return self.begin(row)

    def scale_words(self) -> str:
        """What a cell stands for, in words."""
        return "a cell is an object" if self.run == 1 else f"a cell is {self.run} objects"


def scales(grids: Iterable[Grid | None]) -> str:
    """What the rows and cells are, as text, if that is the same for all grids; otherwise empty."""
    words = {grid.scale_words() for grid in grids if grid and grid.rows}
    return words.pop() if len(words) == 1 else ""
