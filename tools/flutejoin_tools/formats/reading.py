"""Reads packets and entries of journals as flutejoin does: by its library where the package for
Python is installed, and else by `packets.parsed` and `entries.Entries`, which give the same.

Headers are read by `packets` alone: the library says nothing of forms that flutejoin refuses.
"""
from __future__ import annotations

import functools
from typing import TYPE_CHECKING, BinaryIO, Callable, Iterable, Iterator, Optional

from flutejoin_tools.formats.entries import (
    END,
    FDT_INSTANCE,
    FILE,
    HEADER,
    INFORMATION,
    INFORMATION_CONFLICT,
    SYMBOL,
    SYMBOL_CONFLICT,
    Address,
    Entries,
    Entry,
)
from flutejoin_tools.formats.packets import PAYLOAD_ID, Packet, packed, parsed
from flutejoin_tools.formats.records import Buffer

if TYPE_CHECKING:
    import flutejoin

SMALLEST = bytes.fromhex("10100300 00000000 00000001")  # a packet of TSI 0 and TOI 1
EMPTY = HEADER + bytes([END]) + bytes(8)  # the journal of nothing
# Bytes of a journal that the library reads: they are in memory meanwhile, and 104 for each entry
MOST_HELD = 1 << 24
KINDS = {
    "information": INFORMATION,
    "information conflict": INFORMATION_CONFLICT,
    "symbol": SYMBOL,
    "symbol conflict": SYMBOL_CONFLICT,
}


@functools.lru_cache(maxsize=None)
def reader() -> Callable[[Buffer], Optional[Packet]]:
    """What reads a packet here."""
    try:
        by_library(SMALLEST)
    except (ImportError, AttributeError):  # there is none, or an older one
        return parsed
    return by_library


def packet_of(payload: Buffer) -> Optional[Packet]:
    """The contents of a datagram, or None if flutejoin refuses it."""
    return reader()(payload)


def by_library(payload: Buffer) -> Optional[Packet]:
    """A packet as the library reads it; None if it refuses the datagram."""
    import flutejoin

    try:
        tsi, toi, instance, information, symbol = flutejoin.read(payload)
    except flutejoin.Refused:
        return None
    lengths = packed(*information) if information else None
    if symbol is None:
        return Packet(tsi, toi, instance, lengths, b"", b"")
    return Packet(tsi, toi, instance, lengths, PAYLOAD_ID.pack(*symbol[:2]), symbol.data)


@functools.lru_cache(maxsize=None)
def has_entries() -> bool:
    """Whether there is a library that gives entries."""
    try:
        import flutejoin

        return not [*flutejoin.entries(EMPTY)]
    except (ImportError, AttributeError):
        return False


def entries_of(own: Entries) -> Iterator[Entry]:
    """The entries of a journal, of which nothing was read yet. Raises ReadFault or Cut after those
    before a fault."""
    listed = listed_in(own.file) if has_entries() else None
    return iter(own) if listed is None else listed


def listed_in(file: BinaryIO) -> Optional[Iterator[Entry]]:
    """The entries of a journal by the library, or None if it is long. It is None too if the journal
    has a fault, since the library gives nothing then."""
    import flutejoin

    data = file.read(MOST_HELD + 1)
    file.seek(0)
    if len(data) > MOST_HELD:
        return None
    try:
        return own_entries(flutejoin.entries(data))
    except flutejoin.Fault:
        return None


def own_entries(listed: Iterable[flutejoin.Entry]) -> Iterator[Entry]:
    """Yields the library's entries as those of `entries`."""
    last: Optional[flutejoin.Object] = None
    source, tag, number = b"", FILE, 0
    for of, kind, _, symbol in listed:
        if of is not last:
            last, source = of, of.sender.to_bytes(16, "big")
            is_file = of.instance is None
            tag, number = (FILE, of.toi) if is_file else (FDT_INSTANCE, of.instance or 0)
        place, data = b"", b""
        if symbol:
            place, data = PAYLOAD_ID.pack(symbol.sbn, symbol.esi), symbol.data
        yield Entry(Address(source, of.tsi, tag, number, place), KINDS[kind], data)
