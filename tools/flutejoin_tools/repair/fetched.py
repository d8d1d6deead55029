"""Symbols that were fetched: cut out of a file's bytes, compared by its MD5, and as datagrams.

Until its file is found right a symbol is in a file without a name.
"""
from __future__ import annotations

import io
import math
import struct
from typing import IO, BinaryIO, Dict, Iterable, Iterator, List, Optional, Sequence, Tuple

from flutejoin_tools.common.gaps import Numbers
from flutejoin_tools.fdt.content import Sums
from flutejoin_tools.fdt.fdt import File
from flutejoin_tools.formats.entries import SYMBOL
from flutejoin_tools.formats.packets import PAYLOAD_ID
from flutejoin_tools.formats.records import HEADER, LENGTH
from flutejoin_tools.journals.holdings import Key, entries
from flutejoin_tools.journals.resolving import Budget
from flutejoin_tools.repair.lacking import Lack, ranges_of
from flutejoin_tools.repair.ranges import Range

MOST_DECODED = 1 << 28  # bytes that a file is decoded to, if its length is not known
MOST_WORK = 1 << 36  # bytes that are decoded in all
# The first two bytes of a header with TSI and TOI of 32 bits each, and of 48 and 112
NARROW, WIDE = b"\x10\xa0", b"\x10\xf0"
END_NARROW = 1 << 32  # TSIs and TOIs below this have a narrow header
EXT_FTI = b"\x40\x04"  # how that extension begins: its type, and its length of 4 words
FTI = struct.Struct(">HIHHI")


def front_of(key: Key, numbers: Numbers) -> bytes:
    """A packet of an object up to the FEC Payload ID, as docs/FORMATS.md has it.

    It has EXT_FTI. If a number has no room in 32 bits, both have wider fields.
    """
    is_narrow = max(key.tsi, key.number) < END_NARROW
    tsi, toi = (4, 4) if is_narrow else (6, 14)
    words = (8 + tsi + toi + 16) // 4
    first = (NARROW if is_narrow else WIDE) + bytes([words, 0]) + bytes(4)
    length, symbol, block = numbers
    information = FTI.pack(length >> 32, length & 0xFFFFFFFF, 0, symbol, block)
    ids = key.tsi.to_bytes(tsi, "big") + key.number.to_bytes(toi, "big")
    return first + ids + EXT_FTI + information


class Fetched:
    """What was fetched of one file, in one turn."""

    def __init__(self, lack: Lack, file: File, spool: IO[bytes]) -> None:
        """Symbols go to the end of this file, which others use too."""
        assert lack.numbers
        self.lack, self.file, self.spool = lack, file, spool
        self.length, self.size, _ = lack.numbers
        self.wanted = set(lack.places())
        self.at: Dict[int, int] = {}  # where each symbol is in the spool
        self.rest, self.end = b"", 0  # bytes of a symbol that is not whole, and where they end
        spool.seek(0, io.SEEK_END)

    def still(self, asked: Iterable[Range]) -> List[Range]:
        """What of these ranges is still missing."""
        places = (
            place
            for first, last in asked
            for place in range(first // self.size, last // self.size + 1)
            if place in self.wanted
        )
        return [*ranges_of(places, self.lack)]

    def take(self, first: int, data: bytes) -> None:
        """Takes bytes of the file, of which the first one has this place."""
        if first != self.end:
            self.rest = b""
        at, data, self.end = first - len(self.rest), self.rest + data, first + len(data)
        begin = -at % self.size  # where a symbol begins
        place = (at + begin) // self.size
        while at + begin < self.length:
            end = min((place + 1) * self.size, self.length) - at
            if end > len(data):
                break
            self.add_symbol(place, data[begin:end])
            begin, place = end, place + 1
        self.rest = data[begin:] if place in self.wanted else b""

    def add_symbol(self, place: int, symbol: bytes) -> None:
        """Takes a symbol of the object, if it is missing."""
        if place in self.wanted:
            self.wanted.discard(place)
            self.at[place] = self.spool.tell()
            self.spool.write(symbol)

    def hold(self, more: bytes) -> None:
        """Takes a symbol that a journal has, if it is in the object."""
        partition = self.lack.partition()
        place = partition.place(more)
        value = partition.piece(place, more[6:]) if place is not None else None
        if place is not None and value is not None and place not in self.at:
            self.spool.seek(0, io.SEEK_END)
            self.at[place] = self.spool.tell()
            self.spool.write(value)

    def symbols(self) -> Iterator[Tuple[int, bytes]]:
        """Yields the symbols by their places, in order."""
        for place in sorted(self.at):
            self.spool.seek(self.at[place])
            yield place, self.spool.read(min(self.size, self.length - place * self.size))

    def datagrams(self) -> Iterator[bytes]:
        """Yields a datagram for each symbol that came."""
        partition = self.lack.partition()
        front = front_of(self.lack.key, partition.numbers)
        for place, symbol in self.symbols():
            yield front + PAYLOAD_ID.pack(*partition.id_at(place)) + symbol


class Whole:
    """An object as the journal would have it with what was fetched: its MD5."""

    def __init__(self, fetched: Fetched, budget: Budget) -> None:
        file = fetched.file
        assert file.md5
        most = math.inf if file.length is None else file.length
        encodings = [file.encoding] if file.encoding else []
        self.sums = Sums([file.md5], encodings, int(min(most, MOST_DECODED)), budget)
        self.partition, self.rest = fetched.lack.partition(), fetched.symbols()
        self.next: Optional[Tuple[int, bytes]] = next(self.rest, None)
        self.place = 0

    def update(self, place: int, data: bytes) -> None:
        """Adds a symbol, if it is the next one."""
        if place == self.place:
            self.place += 1
            self.sums.update(data)

    def fill(self, end: int) -> None:
        """Takes what was fetched before this place."""
        while self.next and self.next[0] < end:
            self.update(*self.next)
            self.next = next(self.rest, None)

    def hold(self, more: bytes) -> None:
        """Takes a symbol of the journal, in its order."""
        place = self.partition.place(more)
        value = self.partition.piece(place, more[6:]) if place is not None else None
        if place is not None and value is not None:
            self.fill(place)
            self.update(place, bytes(value))

    def is_right(self) -> bool:
        """Whether it is whole, and has its MD5."""
        self.fill(self.partition.symbols)
        return self.place == self.partition.symbols and self.sums.is_right()


def wrong_ones(journal: str, fetched: Sequence[Fetched]) -> List[Fetched]:
    """The fetched files whose MD5 their object would not have, with what the journal has of it.

    Nothing of these objects is missing any more, so what came of them is another file's.
    """
    budget = Budget(MOST_WORK)
    wanted = {file.lack.key.raw(): file for file in fetched if file.file.md5}
    wrong: List[Fetched] = []

    def finish(raw: bytes, whole: Optional[Whole]) -> None:
        of = wanted.pop(raw, None)
        if of and not (whole or Whole(of, budget)).is_right():
            wrong.append(of)

    last, whole = b"", None
    with open(journal, "rb", buffering=0) as file:
        for kind, raw, more in entries(file):
            if raw != last:
                finish(last, whole)
                last, whole = raw, None
                if raw in wanted:
                    whole = Whole(wanted[raw], budget)
            if whole and kind == SYMBOL:
                whole.hold(bytes(more))
    finish(last, whole)
    for raw in [*wanted]:
        finish(raw, None)
    return wrong


def write(out: BinaryIO, fetched: Sequence[Fetched]) -> None:
    """Writes a datagram file of these symbols."""
    out.write(HEADER)
    for file in fetched:
        for datagram in file.datagrams():
            out.write(LENGTH.pack(len(datagram)))
            out.write(datagram)
