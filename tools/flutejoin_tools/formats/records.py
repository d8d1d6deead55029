"""Reads datagram files: records, each a length in two bytes and a datagram."""
from __future__ import annotations

import struct
from typing import BinaryIO, Deque, Iterator, Optional, Tuple, Union

HEADER = b"FLDG\0\1"
LENGTH = struct.Struct(">H")
MOST = 1 << 24  # records of a datagram file, or entries of a journal, that flutejoin reads at most
PIECE = 1 << 20  # bytes that are read at once

Buffer = Union[bytes, bytearray, memoryview]
Looked = Deque[Tuple[int, int]]  # places of pieces of a file, and how many records begin in each


class ReadFault(Exception):
    """What is wrong in a file, by flutejoin's name for it."""


class Cut(Exception):
    """A file ends where more bytes are needed."""


def ends(data: Buffer, place: int = 0) -> Iterator[int]:
    """Yields where each record ends whose length is in these bytes; the last may end after them."""
    last = len(data) - LENGTH.size
    while place <= last:
        place += LENGTH.size + (data[place] << 8 | data[place + 1])
        yield place


def whole_records(data: Buffer) -> tuple[int, int]:
    """Where the last whole record in these bytes ends, and how many whole records there are."""
    whole = records = 0
    for end in ends(data):
        if end > len(data):
            break
        whole, records = end, records + 1
    return whole, records


def last_whole(
    file: BinaryIO, size: int, place: int, looked: Optional[Looked] = None
) -> tuple[int, int]:
    """Where the last whole record ends, from `place` on, and how many whole records there are.

    `size` is that of the file. The place of each piece that is read, and the number of its records,
    are added to `looked`.
    """
    records, begin = 0, place
    while place + LENGTH.size <= size:
        file.seek(place)
        at, count = place, 0
        for end in ends(file.read(PIECE)):
            begin, place, count = place, at + end, count + 1
        if not count:
            break  # the file became shorter
        if looked is not None:
            looked.append((at, count))
        records += count
    return (place, records) if place <= size else (begin, records - 1)


class Reader:
    """Iterates over the datagrams of a datagram file, or the entries of a journal.

    `count` is how many whole ones were read, and `end` where the last of these ends. Raises
    ReadFault or Cut.
    """

    magic: bytes = HEADER[:4]
    versions: Tuple[int, ...] = (1,)

    def __init__(self, file: BinaryIO) -> None:
        self.file, self.place, self.count, self.end, self.version = file, 0, 0, 0, 0

    def take(self, size: int) -> bytes:
        """Reads so many bytes. Raises Cut if the file ends before."""
        data = self.file.read(size)
        self.place += len(data)
        if len(data) < size:
            raise Cut
        return data

    def number(self, size: int) -> int:
        """Reads a number of so many bytes."""
        return int.from_bytes(self.take(size), "big")

    def begin(self) -> None:
        """Reads the header; its first four bytes are known to be right."""
        self.take(4)
        self.version = self.number(2)
        if self.version not in self.versions:
            raise ReadFault("Version")
        self.end = self.place


class Records(Reader):
    """The datagrams of a datagram file."""

    def __iter__(self) -> Iterator[bytes]:
        self.begin()
        rest = b""
        while piece := self.file.read(PIECE):
            data, at = rest + piece, 0
            for end in ends(data):
                if self.count == MOST:
                    raise ReadFault("TooMany")
                if end > len(data):
                    break
                self.count += 1
                self.end += end - at
                yield data[at + LENGTH.size : end]
                at = end
            rest = data[at:]
        if rest:
            raise ReadFault("TooMany") if self.count == MOST else Cut()
