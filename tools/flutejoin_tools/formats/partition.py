"""How an object is cut into source blocks and symbols (RFC 5052, section 9.1)."""
from __future__ import annotations

import sys
from typing import Union

Buffer = Union[bytes, memoryview]


def ones_in(bits: int) -> int:
    """How many symbols are there, of a number that has a bit for each."""
    if sys.version_info >= (3, 10):
        return bits.bit_count()
    return bin(bits).count("1")


class Partition:
    """The source blocks of an object.

    The first `larger` of them have one symbol more than the others.
    """

    def __init__(self, length: int, symbol: int, block: int) -> None:
        self.numbers = length, symbol, block
        self.symbols = -(-length // symbol) if length else 0
        self.blocks = -(-self.symbols // block) if length else 0
        self.small, self.larger = divmod(self.symbols, self.blocks) if length else (0, 0)

    def start(self, block: int) -> int:
        """How many symbols the blocks before this one have."""
        return block * self.small + min(block, self.larger)

    def size(self, block: int) -> int:
        """How many symbols a block has."""
        return self.small + (block < self.larger)

    def place(self, symbol: bytes) -> int | None:
        """The place of a symbol in the object, by its block and number; None if it has none."""
        block, number = symbol[0] << 8 | symbol[1], symbol[2] << 8 | symbol[3]
        if block >= self.blocks or number >= self.size(block):
            return None
        return self.start(block) + number

    def piece(self, place: int, value: Buffer) -> Buffer | None:
        """The bytes of the object that a symbol at this place is; None if the value does not fit.

        Only the last symbol may be shorter, or padded.
        """
        length, size, _ = self.numbers
        last = min(size, length - place * size)
        return value[:last] if len(value) in (size, last) else None

    def id_at(self, place: int) -> tuple[int, int]:
        """The block and the symbol's number in it, of the symbol with this place in the object."""
        edge = self.start(self.larger)
        if place < edge:
            return divmod(place, self.small + 1)
        block, number = divmod(place - edge, self.small)
        return block + self.larger, number


def fault_of(length: int, symbol: int, block: int) -> str | None:
    """Why transmission information is not valid, by flutejoin's name for the fault, or None.

    The numbers are the transfer length, the symbol length and the block length.
    """
    if not length:
        return None
    if not symbol or not block:
        return "BlockLength" if symbol else "SymbolLength"
    partition = Partition(length, symbol, block)
    if partition.blocks > 65536:
        return "TooManyBlocks"
    return "BlockTooLong" if partition.size(0) > 65536 else None
