"""Which symbols of objects are there: as bits, and as sums of those that were delivered."""
from __future__ import annotations

import functools
import struct
from typing import FrozenSet, Iterable, Iterator, NamedTuple, Optional, Tuple

from flutejoin_tools.common.gaps import Numbers
from flutejoin_tools.formats.entries import INFORMATION, SYMBOL, information_of
from flutejoin_tools.formats.packets import packed
from flutejoin_tools.formats.partition import Partition, fault_of, ones_in
from flutejoin_tools.formats.records import Buffer
from flutejoin_tools.journals.sums import (
    DISPUTED,
    IN_CONFLICT,
    NO_INFORMATION,
    SUM,
    SYMBOL_ID,
    Sums,
    sum_of,
)

# An entry of an object in a journal: its kind, and the bytes after the object's number
Entry = Tuple[int, bytes]


NO_NUMBERS: FrozenSet[Numbers] = frozenset()


@functools.lru_cache(maxsize=1024)
def together(numbers: FrozenSet[Numbers], more: Numbers) -> FrozenSet[Numbers]:
    """The numbers and more. Most objects of a session have the same, which are kept once."""
    return numbers | {more}


@functools.lru_cache(maxsize=1024)
def alone(more: bytes) -> FrozenSet[Numbers]:
    """The transmission information in an entry."""
    return together(NO_NUMBERS, information_of(more))


class Symbols:
    """The symbols of an object, a bit for each, by their source blocks; and what is told of its
    transmission information."""

    __slots__ = "blocks", "numbers"

    def __init__(self) -> None:
        self.blocks: dict[int, int] = {}
        self.numbers: FrozenSet[Numbers] = NO_NUMBERS

    def add(self, kind: int, more: Buffer) -> None:
        """Adds an entry. One in conflict counts: one of its values may be right."""
        if kind == INFORMATION:
            if self.numbers:
                self.numbers = together(self.numbers, information_of(more))
            else:
                self.numbers = alone(bytes(more))
        elif len(more) >= 4:
            block = more[0] << 8 | more[1]
            self.blocks[block] = self.blocks.get(block, 0) | 1 << (more[2] << 8 | more[3])

    def unite(self, other: Symbols) -> None:
        """Adds the symbols and the numbers of another."""
        if not self.numbers:
            self.numbers = other.numbers
        elif other.numbers != self.numbers:
            self.numbers |= other.numbers
        for block, bits in other.blocks.items():
            self.blocks[block] = self.blocks.get(block, 0) | bits

    def beside(self, other: Optional[Symbols]) -> Symbols:
        """Both together, as a further one; without another it is returned itself."""
        if other is None:
            return self
        found = Symbols()
        found.unite(other)
        found.unite(self)
        return found

    def without(self, other: Symbols) -> Symbols:
        """Its symbols that another lacks."""
        found = Symbols()
        for block, bits in self.blocks.items():
            left = bits & ~other.blocks.get(block, 0)
            if left:
                found.blocks[block] = left
        return found

    def count(self) -> int:
        """How many symbols are there."""
        return sum(ones_in(bits) for bits in self.blocks.values())

    def held(self, partition: Partition) -> int:
        """How many of the symbols of an object that is cut so are there."""
        return partition.symbols - sum(
            last - first + 1 for first, last in self.missing(partition)
        )

    def missing(self, partition: Partition) -> Iterator[tuple[int, int]]:
        """Yields the runs of missing symbols, by the places of the first and the last. Blocks of
        which nothing is there are not looked at one by one: there may be 65,536 of them."""
        begin = 0
        for block in sorted(self.blocks):
            if block >= partition.blocks:
                break
            start, size = partition.start(block), partition.size(block)
            if begin < start:
                yield begin, start - 1
            for first, last in self.runs_missing(partition, block):
                yield start + first, start + last
            begin = start + size
        if begin < partition.symbols:
            yield begin, partition.symbols - 1

    def runs_missing(self, partition: Partition, block: int) -> Iterator[tuple[int, int]]:
        """Yields the runs of missing symbols of a block, by their numbers in it."""
        return runs(~self.blocks.get(block, 0) & (1 << partition.size(block)) - 1)

    def may_be_whole(self, numbers: Iterable[Numbers]) -> bool:
        """Whether no symbol is missing, by any transmission information that is told."""
        return any(
            not fault_of(*each) and next(self.missing(Partition(*each)), None) is None
            for each in self.numbers.union(numbers)
        )


def runs(bits: int) -> Iterator[tuple[int, int]]:
    """Yields the runs of ones in a number, the lowest first, by their first and last places."""
    place = 0
    while bits:
        zeros = (bits & -bits).bit_length() - 1
        bits >>= zeros
        ones = (~bits & bits + 1).bit_length() - 1
        yield place + zeros, place + zeros + ones - 1
        bits >>= ones
        place += zeros + ones


def ranges(missing: Iterable[tuple[int, int]], partition: Partition) -> Iterator[tuple[int, int]]:
    """Yields the bytes of runs of symbols: the first, and the one after the last."""
    length, size, _ = partition.numbers
    begin = end = -1
    for first, last in missing:
        if first * size != end and end >= 0:
            yield begin, end
        begin = first * size if first * size != end else begin
        end = min(length, (last + 1) * size)
    if end >= 0:
        yield begin, end


class Contents(NamedTuple):
    """What was delivered of an object: its transmission information, and a sum of each symbol; of a
    last one that is shorter also as it is padded."""

    numbers: Numbers
    sums: bytes

    def compare(self, told: Sums) -> tuple[int, int]:
        """How many of the symbols that were told are of these contents, and how many are not.

        Those in conflict have no value.
        """
        own = packed(*self.numbers)
        every = [*struct.iter_unpack(f"{SYMBOL_ID}s{SUM}s", told.symbols)]
        valued = [each for each in every if each[1] != IN_CONFLICT]
        if told.information not in (own, NO_INFORMATION, DISPUTED):
            return 0, len(valued)
        partition = Partition(*self.numbers)
        same = sum(self.has_sum(partition, name, value) for name, value in valued)
        return same, len(valued) - same

    def has_sum(self, partition: Partition, name: bytes, value: bytes) -> bool:
        """Whether a symbol that has this sum was delivered."""
        place = partition.place(name)
        if place is None:
            return False
        is_padded = place == partition.symbols - 1 and self.sums[SUM * (place + 1) :] == value
        return is_padded or self.sums[SUM * place : SUM * (place + 1)] == value

    def has_all(self, told: Sums) -> bool:
        """Whether any of the symbols that were told are of these contents, and none are not."""
        same, differ = self.compare(told)
        return same > 0 and not differ

    def agrees(self, told: Sums) -> bool:
        """Whether more of the symbols that were told are of these contents than are not."""
        same, differ = self.compare(told)
        return same > differ

    def has(self, entries: Iterable[Entry]) -> bool:
        """Whether these entries of the same object are all of these contents."""
        partition = Partition(*self.numbers)
        return all(self.has_one(partition, kind, more) for kind, more in entries)

    def has_one(self, partition: Partition, kind: int, more: bytes) -> bool:
        """Whether an entry of the same object is of these contents."""
        if kind == INFORMATION:
            return information_of(more) == self.numbers
        if kind != SYMBOL:
            return False
        place = partition.place(more[:4])
        piece = None if place is None else partition.piece(place, more[6:])
        if place is None or piece is None:
            return False
        return self.sums[SUM * place : SUM * (place + 1)] == sum_of(bytes(piece))


def contents_of(path: str, numbers: Optional[Numbers]) -> Optional[Contents]:
    """The sums of an object in a file; None if its transmission information is unknown."""
    if numbers is None or fault_of(*numbers):
        return None
    length, symbol, _ = numbers
    sums = []
    with open(path, "rb") as file:
        for piece in iter(lambda: file.read(symbol), b"") if length else ():
            sums.append(sum_of(piece))
            if len(piece) < symbol:
                sums.append(sum_of(piece.ljust(symbol, b"\0")))
    return Contents(numbers, b"".join(sums))
