"""Where the entries of some addresses are in a journal, so that only that much of it is read.

A journal has no index. A pass over it looks at one entry of each 64 KiB if all of these are as long
and of one object, and notes some thousand places. What stands between two places is a journal too,
with the front and the end of one.
"""
from __future__ import annotations

import bisect
import os
from typing import BinaryIO, Callable, Iterator, NamedTuple, Sequence, Tuple

from flutejoin_tools.formats.entries import (
    END,
    HEADER,
    INFORMATION_CONFLICT,
    SYMBOL,
    SYMBOL_CONFLICT,
)
from flutejoin_tools.formats.records import Cut, ReadFault
from flutejoin_tools.journals.holdings import (
    KEY,
    LENGTH,
    LONGEST,
    PIECE,
    SENDER,
    SIZES,
    SYMBOL_ID,
)

MOST_ALIKE = 1 << 16  # bytes of entries of which only the first is looked at
PARTS = 1 << 11  # of a journal, of which it is noted what they have; fewer of a short one
MOST_PARTS = 1 << 17  # that are known, of all journals: some 250 bytes each

BEHIND = b"\xff" * SYMBOL_ID + b"\xff"  # what no symbol of an object comes behind
# Addresses from one to another, both among them: an object, and behind it a symbol
Range = Tuple[bytes, bytes]


class Stretch(NamedTuple):
    """Consecutive entries of one object, of the same kind and length."""

    kind: int
    raw: bytes  # the object
    first: bytes  # symbol; empty for transmission information
    last: bytes
    entries: int
    begin: int  # in the file
    end: int


def stretches(file: BinaryIO) -> Iterator[Stretch]:
    """Yields the entries of a journal. Raises ReadFault or Cut."""
    head = file.read(len(HEADER))
    if head[:4] != HEADER[:4]:
        raise ReadFault("Magic" if len(head) >= 4 else "Cut")
    if head[4:] not in (b"\0\1", b"\0\2"):
        raise ReadFault("Version")
    unnamed = bytes(SENDER if head[4:] == b"\0\1" else 0)  # the sender of version 1
    front = 1 + KEY - len(unnamed)
    data, at, place = b"", 0, len(HEADER)
    while True:
        if len(data) - at < LONGEST:
            place, data, at = place + at, data[at:] + file.read(PIECE), 0
        symbol = at + front
        kind = data[at] if at < len(data) else None
        if kind == END:
            return
        if kind is None or kind == SYMBOL and symbol + SYMBOL_ID + LENGTH > len(data):
            raise Cut
        count = 1
        if kind == SYMBOL:
            size = front + SYMBOL_ID + LENGTH + int.from_bytes(data[symbol + 4 : symbol + 6], "big")
            count = alike(data, at, front, size)
        elif kind in SIZES:
            size = front + SIZES[kind]
        else:
            raise ReadFault("Kind")
        begin, at = at, at + count * size
        if at > len(data):
            raise Cut
        raw, first, last = unnamed + data[begin + 1 : symbol], b"", b""
        if kind in (SYMBOL, SYMBOL_CONFLICT):
            first, last = (data[it : it + SYMBOL_ID] for it in (symbol, at - size + front))
        yield Stretch(kind, raw, first, last, count, place + begin, place + at)


def alike(data: bytes, at: int, front: int, size: int) -> int:
    """How many symbols from a place on have the length and the object of the first."""
    count = max(1, min(len(data) - at, MOST_ALIKE) // size)
    length = front + SYMBOL_ID
    for place in at, at + length, at + length + 1:
        column = data[place : at + count * size : size]
        count = len(column) - len(column.lstrip(column[:1]))
    # Entries are in order: what stands between two of an object is of that object.
    while count > 1 and not data.startswith(data[at : at + front], at + (count - 1) * size):
        count //= 2
    return count


def ranges_of(path: str) -> list[Range]:
    """The addresses of a journal. As `stretches`."""
    with open(path, "rb", buffering=0) as file:
        return [(each.raw + each.first, each.raw + each.last) for each in stretches(file)]


class Index:
    """What stands in parts of a journal: the first and the last address, where it begins, and how
    many entries are before it."""

    def __init__(self, size: int = 0) -> None:
        self.apart = max(MOST_ALIKE, size // PARTS)
        self.head = HEADER
        self.firsts: list[bytes] = []
        self.lasts: list[bytes] = []
        self.places: list[int] = []
        self.counts: list[int] = []
        self.end, self.count = len(HEADER), 0
        self.has_conflict = False

    def add(self, each: Stretch) -> None:
        first, last = each.raw + each.first, each.raw + each.last
        is_same = bool(self.lasts) and self.lasts[-1].startswith(each.raw)
        least = self.apart if is_same else self.apart // 2
        if not self.places or each.begin >= self.places[-1] + least:
            self.firsts.append(first)
            self.lasts.append(b"")
            self.places.append(each.begin)
            self.counts.append(self.count)
        self.lasts[-1], self.end = last, each.end
        self.count += each.entries
        conflicts = INFORMATION_CONFLICT, SYMBOL_CONFLICT
        self.has_conflict = self.has_conflict or each.kind in conflicts

    def part(self, low: bytes, high: bytes) -> tuple[int, int]:
        """Between which places the journal may have addresses, from one to another."""
        begin, end = (bisect.bisect_right(self.firsts, it) for it in (low, high))
        return begin - (begin > 0 and self.lasts[begin - 1] >= low), end

    def near(self, ranges: Sequence[Range], with_objects: bool) -> list[tuple[int, int]]:
        """The parts that may have some addresses, which are in order; with objects also one of each
        object that is there."""
        if not self.firsts or ranges[-1][1] < self.firsts[0] or ranges[0][0] > self.lasts[-1]:
            return []
        parts = [self.part(low, high) for low, high in ranges]
        for raw in {low[:KEY] for low, _ in ranges} if with_objects else ():
            begin, end = self.part(raw, raw + BEHIND)
            parts.append((begin, min(begin + 1, end)))
        found: list[tuple[int, int]] = []
        for begin, end in sorted(parts):
            if found and begin <= found[-1][1]:
                begin, end = found[-1][0], max(end, found.pop()[1])
            if begin < end:
                found.append((begin, end))
        return found


class Near(NamedTuple):
    """What of a journal may have some addresses."""

    path: str
    places: Index
    parts: list[tuple[int, int]]  # between which places

    def end(self, number: int) -> int:
        of = self.places
        return of.places[number] if number < len(of.places) else of.end

    def pieces(self) -> Iterator[bytes]:
        """Yields it as a journal."""
        of, count = self.places, 0
        yield of.head
        with open(self.path, "rb", buffering=0) as file:
            for begin, end in self.parts:
                at = file.seek(of.places[begin])
                while at < self.end(end):
                    piece = file.read(min(PIECE, self.end(end) - at))
                    if not piece:
                        raise Cut
                    at += len(piece)
                    yield piece
                behind = of.counts[end] if end < len(of.counts) else of.count
                count += behind - of.counts[begin]
        yield bytes([END]) + count.to_bytes(8, "big")


class Indexes:
    """The places in journals that were looked through, known by what the system calls a file."""

    def __init__(self, tend: Callable[[], None] = lambda: None) -> None:
        self.tend = tend
        self.known: dict[tuple[int, int, int], Index] = {}
        self.parts = 0  # of all that is known

    def of(self, path: str) -> Index:
        """The places in a journal. Raises OSError, ReadFault or Cut."""
        name = named(path)
        if name in self.known:
            self.known[name] = self.known.pop(name)  # it is the last to be forgotten
        else:
            for _ in self.look(path):
                self.tend()
        return self.known[name]

    def look(self, path: str) -> Iterator[None]:
        """Looks through a journal, in small steps, and forgets what was not asked for longest."""
        name = named(path)
        index = Index(name[1])
        with open(path, "rb", buffering=0) as file:
            index.head = file.read(len(HEADER))
            file.seek(0)
            for number, each in enumerate(stretches(file)):
                index.add(each)
                if number % 256 == 0:
                    yield
        self.known[name] = index
        self.parts += len(index.places)
        while self.parts > MOST_PARTS and len(self.known) > 1:
            self.parts -= len(self.known.pop(next(iter(self.known))).places)


def named(path: str) -> tuple[int, int, int]:
    found = os.stat(path)
    return found.st_ino, found.st_size, found.st_mtime_ns
