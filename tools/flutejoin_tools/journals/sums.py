"""Sums of what a journal has of each object: by them two sides agree before a symbol is sent.

The sum of a symbol is the first 8 bytes of the SHA-256 of its value, as `flutejoin show --sums`
prints it: 8 bytes for 1,400. A file of sums has for each object 37 bytes that name it as a journal
does, 12 of transmission information, 4 of a number N, and N times the 4 bytes of a symbol's block
and number and the 8 of its sum, in the order of a journal.
"""
from __future__ import annotations

import hashlib
import itertools
import re
import struct
from typing import BinaryIO, Iterable, Iterator, NamedTuple, Tuple, cast

from flutejoin_tools.formats.entries import FDT_INSTANCE, FILE
from flutejoin_tools.formats.partition import Buffer
from flutejoin_tools.formats.records import Cut, ReadFault
from flutejoin_tools.journals.holdings import KEY, NUMBERS, Choice, Key, key_of
from flutejoin_tools.journals.merged import Found, merged

SYMBOL_ID, SUM, COUNT = 4, 8, 4  # bytes
EACH = SYMBOL_ID + SUM  # bytes of a symbol
IN_CONFLICT = bytes(SUM)  # in place of the sum of a symbol of which two values came
# In place of transmission information: there is none, or it is in conflict
NO_INFORMATION, DISPUTED = bytes(NUMBERS), b"\xff" * NUMBERS
MOST_SYMBOLS = 1 << 24  # of an object, as a journal has at most
# A line of `flutejoin show --sums`: about transmission information, or a symbol
LINE = re.compile(
    rb"(?:source ([0-9a-f]{32}) )?session (\d{1,15}) object (fdt )?(\d{1,34}) "
    rb"(?:info length (\d{1,15}) symbol (\d{1,5}) block (\d{1,10})|(info conflict)"
    rb"|symbol (\d{1,5})/(\d{1,5}) (?:length \d{1,5} sum ([0-9a-f]{16})|conflict))\n"
)
LAST_LINE = re.compile(rb"entries \d+\n")


class Sums(NamedTuple):
    """What is held of an object."""

    information: bytes  # as in a journal, or NO_INFORMATION or DISPUTED
    symbols: bytes  # EACH bytes for each symbol, in order

    @classmethod
    def of(cls, information: bytes, by_symbol: dict[bytes, bytes]) -> Sums:
        """The sums of some symbols, put in order."""
        return cls(information, b"".join(map(b"".join, sorted(by_symbol.items()))))

    def by_symbol(self) -> dict[bytes, bytes]:
        """The sum of each symbol, by its block and number as in a journal."""
        found = struct.iter_unpack(f"{SYMBOL_ID}s{SUM}s", self.symbols)
        return dict(cast("Iterator[tuple[bytes, bytes]]", found))

    def symbol_count(self) -> int:
        return len(self.symbols) // EACH

    def with_more(self, more: Sums) -> Sums:
        """These sums, and of what has none here that of `more`."""
        has_own = self.information != NO_INFORMATION
        information = self.information if has_own else more.information
        return Sums.of(information, {**more.by_symbol(), **self.by_symbol()})


NOTHING = Sums(NO_INFORMATION, b"")
# An object, and what is held of it
Item = Tuple[Key, Sums]


def sum_of(value: Buffer) -> bytes:
    """The sum of a symbol's value."""
    return hashlib.sha256(value).digest()[:SUM]


def sums_of(journal: str, choice: Choice = lambda _: True) -> Iterator[Item]:
    """Yields what a journal has of each chosen object. Raises OSError, records.ReadFault or Cut."""
    for key, _, found in merged([journal], choice):
        yield key, summed(found)


def summed(found: Iterable[Found]) -> Sums:
    """The sums of what one journal has of an object."""
    information, symbols = NO_INFORMATION, bytearray()
    for each in found:
        ((_, value),) = each.values
        if each.symbol:
            symbols += each.symbol + (sum_of(value) if value else IN_CONFLICT)
        else:
            information = value or DISPUTED
    return Sums(information, bytes(symbols))


def read_lines(lines: Iterable[bytes]) -> Iterator[Item]:
    """Yields what `flutejoin show --sums` prints of each object.

    Raises records.ReadFault at a line that it does not print, and Cut if its last line is missing.
    """
    for key, of in itertools.groupby(entries_in(lines), lambda entry: entry[0]):
        information, symbols = NO_INFORMATION, bytearray()
        for _, symbol, value in of:
            if symbol:
                symbols += symbol + value
            else:
                information = value
        yield key, Sums(information, bytes(symbols))


def entries_in(lines: Iterable[bytes]) -> Iterator[tuple[Key, bytes, bytes]]:
    """Yields the entries of such lines, of which a last one has their number."""
    for number, line in enumerate(lines, 1):
        found = LINE.fullmatch(line)
        if LAST_LINE.fullmatch(line):
            return
        if not found:
            raise ReadFault(f"line {number} is none of flutejoin show --sums")
        yield entry_in(found)
    raise Cut


def entry_in(found: re.Match[bytes]) -> tuple[Key, bytes, bytes]:
    """An entry in a line of `show --sums`: its object, its symbol (empty for transmission
    information), and the sum or the information."""
    source, tsi, is_fdt, number, length, size, block, is_disputed, sbn, esi, value = found.groups()
    tag = FDT_INSTANCE if is_fdt else FILE
    key = Key(bytes.fromhex((source or b"00" * 16).decode()), int(tsi), tag, int(number))
    if is_disputed:
        return key, b"", DISPUTED
    if length:
        high, low = divmod(int(length), 1 << 32)
        return key, b"", struct.pack(">HIHI", high, low, int(size), int(block))
    sum_told = bytes.fromhex(value.decode()) if value else IN_CONFLICT
    return key, struct.pack(">HH", int(sbn), int(esi)), sum_told


def write(out: BinaryIO, items: Iterable[Item]) -> None:
    """Writes a file of sums."""
    for key, sums in items:
        out.write(key.raw() + sums.information + struct.pack(">I", sums.symbol_count()))
        out.write(sums.symbols)


def read(file: BinaryIO) -> Iterator[Item]:
    """Yields what is in a file of sums. Raises records.ReadFault if it is none, and Cut."""
    while head := file.read(KEY + NUMBERS + COUNT):
        if len(head) < KEY + NUMBERS + COUNT:
            raise Cut
        size = EACH * int.from_bytes(head[-COUNT:], "big")
        if size > EACH * MOST_SYMBOLS:
            raise ReadFault("is no file of sums")
        symbols = file.read(size)
        if len(symbols) < size:
            raise Cut
        yield key_of(head[:KEY]), Sums(head[KEY:-COUNT], symbols)
