"""The entries of a damaged journal that are in doubt no more than those of a whole one.

A wrong byte leaves out the entry that has it, or the two that it may be in. Where the lengths are
wrong the next entries are searched for: they have to follow one another in order.
"""
from __future__ import annotations

import mmap
import re
from typing import BinaryIO, Iterator, NamedTuple, Optional

from flutejoin_tools.formats.entries import (
    END,
    FDT_INSTANCE,
    FILE,
    HEADER,
    INFORMATION,
    INFORMATION_CONFLICT,
    SYMBOL,
    SYMBOL_CONFLICT,
    information_of,
)
from flutejoin_tools.formats.partition import fault_of

SENDER, TSI, NUMBER = 16, 6, 14  # bytes of the fields of an object
CHAIN = 4  # entries that have to follow one another where entries begin again
# Places where entries may begin again that are looked at: so many, and one for so many bytes
TRIES, TRIES_EACH = 1 << 18, 32
ENDING = 9  # bytes of the end of a journal
# The bytes after an object's number, of entries that are no symbols
REST = {INFORMATION: 12, INFORMATION_CONFLICT: 0, SYMBOL_CONFLICT: 4}
SYMBOL_ID, LENGTH = 4, 2  # bytes


class Entry(NamedTuple):
    """An entry that is valid by itself: where it is, and its address, which has to rise."""

    begin: int
    end: int
    kind: int
    address: bytes


class Salvage:
    """The entries of a damaged journal that are kept, in a file."""

    def __init__(self, file: BinaryIO) -> None:
        self.data = mmap.mmap(file.fileno(), 0, access=mmap.ACCESS_READ)
        self.tries = 0  # that are left; below 0 if there were too few
        version = self.data[4] << 8 | self.data[5]
        self.key = (SENDER if version == 2 else 0) + TSI + 1 + NUMBER
        self.tag = self.key - NUMBER  # its place in an entry, after the kind
        before_tag = self.tag - 1
        self.likely = re.compile(rb"(?s)(?=[\x01-\x04].{%d}[\x00\x01])" % before_tag)

    def close(self) -> None:
        self.data.close()

    def entry(self, at: int) -> Optional[Entry]:
        """The entry that begins here, if its fields are valid."""
        data, number = self.data, at + 1 + self.key
        if number > len(data):
            return None
        kind, tag = data[at], data[at + self.tag]
        value = int.from_bytes(data[number - NUMBER : number], "big")
        if not (value < 1 << 20 if tag == FDT_INSTANCE else tag == FILE and value):
            return None
        end = number + REST.get(kind, 0)
        if kind == SYMBOL:
            place = number + SYMBOL_ID
            size = int.from_bytes(data[place : place + LENGTH], "big")
            end = place + LENGTH + size if size else len(data) + 1
        elif kind not in REST:
            return None
        if end > len(data):
            return None
        if kind == INFORMATION and fault_of(*information_of(data[number:end])):
            return None
        has_symbol = kind in (SYMBOL, SYMBOL_CONFLICT)
        return Entry(at, end, kind, data[at + 1 : number + SYMBOL_ID * has_symbol])

    def is_end(self, at: int) -> bool:
        return at + ENDING == len(self.data) and self.data[at] == END

    def follow(self, at: int, after: bytes, count: int = CHAIN) -> bool:
        """Whether so many entries follow from here, or all up to the end, in order."""
        for _ in range(count):
            if self.is_end(at):
                return True
            found = self.entry(at)
            if found is None or found.address <= after:
                return False
            at, after = found.end, found.address
        return True

    def search(self, at: int, after: bytes) -> Optional[int]:
        """Where entries begin again, from here on; None if they do not."""
        for found in self.likely.finditer(self.data, at):
            self.tries -= 1
            if self.tries < 0:
                return None
            if self.follow(found.start(), after):
                return found.start()
        return None

    def kept(self) -> Iterator[Entry]:
        """Yields the entries that are kept."""
        self.tries = TRIES + len(self.data) // TRIES_EACH
        at: Optional[int] = len(HEADER)
        last: Optional[Entry] = None  # which is kept unless what follows says otherwise
        before = b""  # the address before it
        while at is not None and not self.is_end(at):
            found = self.entry(at)
            if found is None:
                if last and last.kind == SYMBOL:  # whose length may be the wrong byte
                    at, last = last.begin, None
                elif last:
                    yield last
                    before, last = last.address, None
                at = self.search(at + 1, before)
                continue
            after = last.address if last else before
            if found.address > after:
                if last:
                    yield last
                at, last, before = found.end, found, after
                continue
            is_last_wrong = last is not None and self.follow(at, before)
            is_this_wrong = self.follow(found.end, after)
            if is_this_wrong and not is_last_wrong:
                at = found.end
            elif is_last_wrong and not is_this_wrong:
                last = None
            else:  # it may be either
                last = None
                at = self.search(found.end if is_this_wrong else at + 1, before)
        if last:
            yield last

    def runs(self) -> Iterator[tuple[int, int, int]]:
        """Yields where entries that follow one another begin and end, and how many they are."""
        begin = end = count = 0
        for entry in self.kept():
            if count and entry.begin != end:
                yield begin, end, count
                count = 0
            begin, end, count = begin if count else entry.begin, entry.end, count + 1
        if count:
            yield begin, end, count
