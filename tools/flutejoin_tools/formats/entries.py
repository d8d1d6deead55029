"""The entries of journals, read as flutejoin reads them (docs/FORMATS.md)."""
from __future__ import annotations

import struct
from typing import BinaryIO, Iterator, NamedTuple, Union

from flutejoin_tools.formats.partition import fault_of
from flutejoin_tools.formats.records import MOST, Buffer, ReadFault, Reader, Records

# How an entry begins.
INFORMATION, INFORMATION_CONFLICT, SYMBOL, SYMBOL_CONFLICT, END = 1, 2, 3, 4, 0xFF
HEADER = b"FLJN\0\2"  # of version 2
FDT_INSTANCE, FILE = 0, 1
ZERO = bytes(16)  # the sender of each entry of version 1


class Address(NamedTuple):
    """The address of an entry. Addresses rise in a journal."""

    source: bytes  # 16 bytes: zeros in version 1
    tsi: int
    tag: int
    number: int  # an FDT Instance ID, or a TOI
    symbol: bytes  # block and symbol, of 2 bytes each; empty for transmission information


class Entry(NamedTuple):
    """An entry of a journal."""

    address: Address
    kind: int
    value: bytes  # of a symbol without conflict


def information_of(value: Buffer) -> tuple[int, int, int]:
    """The transfer length, symbol length and block length."""
    high, low, symbol, block = struct.unpack(">HIHI", value)
    return high << 32 | low, symbol, block


class Entries(Reader):
    """The entries of a journal. It raises the first fault, with flutejoin's name for it."""

    magic, versions = HEADER[:4], (1, 2)

    def __iter__(self) -> Iterator[Entry]:
        self.begin()
        last = None
        while (kind := self.number(1)) != END:
            entry = self.entry(kind)
            if last is not None and entry.address <= last:
                raise ReadFault("Order")
            last = entry.address
            entry = entry._replace(value=self.value(kind))
            self.count += 1
            self.end = self.place
            yield entry
        if self.number(8) != self.count:
            raise ReadFault("Count")
        if self.file.read(1):
            raise ReadFault("Trailing")

    def entry(self, kind: int) -> Entry:
        """Reads an entry up to its value. Raises ReadFault if a field is not valid."""
        if not INFORMATION <= kind <= SYMBOL_CONFLICT:
            raise ReadFault("Kind")
        if self.count == MOST:
            raise ReadFault("TooMany")
        source = self.take(len(ZERO)) if self.version == 2 else ZERO
        tsi, tag, number = self.number(6), self.number(1), self.number(14)
        if not (number < 1 << 20 if tag == FDT_INSTANCE else tag == FILE and 0 < number < 1 << 112):
            raise ReadFault("Key")
        symbol = self.take(4) if kind in (SYMBOL, SYMBOL_CONFLICT) else b""
        return Entry(Address(source, tsi, tag, number, symbol), kind, b"")

    def value(self, kind: int) -> bytes:
        """Reads the rest of an entry of this kind: the bytes of a symbol, or none. Raises
        ReadFault."""
        if kind == INFORMATION:
            fault = fault_of(*information_of(self.take(12)))
            if fault:
                raise ReadFault(f"Information {fault}")
        if kind != SYMBOL:
            return b""
        size = self.number(2)
        if not size:
            raise ReadFault("EmptySymbol")
        return self.take(size)


def reader_of(file: BinaryIO) -> Union[Records, Entries]:
    """Returns a reader of a datagram file or a journal, chosen by the first four bytes.

    Raises ReadFault if the file is neither.
    """
    magic = file.read(4)
    file.seek(0)
    if magic == Records.magic:
        return Records(file)
    if magic == Entries.magic:
        return Entries(file)
    raise ReadFault("is neither a datagram file nor a journal")
