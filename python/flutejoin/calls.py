"""The calls. Each works on bytes in memory, and keeps nothing.

Those of journals are methods of `Journal`. Here they take its bytes too, and raise InputFault also
if the first are no journal.
"""
from __future__ import annotations

from ctypes import byref
from typing import Iterator, Optional

from flutejoin.calling import LEAST_ROOM, Bytes, check, given, wide, words
from flutejoin.faults import BadArgument
from flutejoin.journal import AnyJournal, Joined, Journal, taken, words_of
from flutejoin.library import Answer, CountFields, OptionFields, PacketFields, library
from flutejoin.values import Compared, Entry, Held, Information, Object, Packet, Status, Symbol


def read(datagram: Bytes) -> Packet:
    """Reads a datagram as a packet of FLUTE version 2. Raises Refused, for the first reason."""
    data, size = words(datagram)
    fields, answer = PacketFields(), Answer()
    check(library().flutejoin_read(data, size, byref(fields), byref(answer)), answer)
    info, symbol = fields.info, fields.symbol
    return Packet(
        fields.tsi,
        fields.toi.number(),
        fields.instance.id if fields.instance.present else None,
        Information(info.length, info.symbol, info.block) if info.present else None,
        Symbol(symbol.sbn, symbol.esi, data[symbol.start : symbol.start + symbol.length])
        if symbol.present
        else None,
    )


def join(
    first: AnyJournal,
    second: Optional[AnyJournal] = None,
    *,
    sender: int = 0,
    any_size: bool = False,
) -> Joined:
    """The journal of all that one or two inputs contain, each a journal or a datagram file, whose
    datagrams this sender sent. If the first of two has no bytes, the other is the only one. Raises
    UnknownKind, InputFault, Full or OutOfMemory, or BadArgument if the sender is no address."""
    try:
        options = OptionFields(wide(sender), any_size)
    except ValueError as error:
        raise BadArgument("bad argument", 1) from error
    counts = CountFields()
    two = (b"", first) if second is None else (first, second)
    inputs = *words_of(two[0]), *words_of(two[1])
    arguments = *inputs, byref(options), byref(counts)
    journal = given(library().flutejoin_join, arguments, LEAST_ROOM + 2 * (inputs[1] + inputs[3]))
    return Joined(taken(journal), counts.datagrams, counts.refused, counts.entries)


def entries(journal: AnyJournal) -> Iterator[Entry]:
    """What a journal says: `Journal.entries`."""
    return taken(journal).entries()


def merge(first: AnyJournal, second: AnyJournal) -> Journal:
    """The journal of all that two journals contain: `Journal.merge`."""
    return taken(first).merge(second)


def minus(first: AnyJournal, second: AnyJournal) -> Journal:
    """The journal of what of the first a join would change the second by: `Journal.minus`."""
    return taken(first).minus(second)


def fill(journal: AnyJournal, lines: Bytes, *, only: bool = False) -> Journal:
    """The journal of what lines of `gap_lines` ask for of this one: `Journal.fill`."""
    return taken(journal).fill(lines, only=only)


def gap_lines(journal: AnyJournal, *, any_size: bool = False, as_json: bool = False) -> bytes:
    """The lines that the command `gaps` prints of a journal: `Journal.gap_lines`."""
    return taken(journal).gap_lines(any_size=any_size, as_json=as_json)


def gaps(journal: AnyJournal, *, any_size: bool = False) -> list[Held]:
    """How much a journal has of each object: `Journal.gaps`."""
    return taken(journal).gaps(any_size=any_size)


def compare_lines(first: AnyJournal, second: AnyJournal, *, as_json: bool = False) -> bytes:
    """The lines that the command `compare` prints of two journals: `Journal.compare_lines`."""
    return taken(first).compare_lines(second, as_json=as_json)


def compare(first: AnyJournal, second: AnyJournal) -> list[Compared]:
    """How two journals differ in each object that either has: `Journal.compare`."""
    return taken(first).compare(second)


def status(journal: AnyJournal, object: Object, *, any_size: bool = False) -> Status:
    """How much a journal has of an object: `Journal.status`."""
    return taken(journal).status(object, any_size=any_size)


def extract(journal: AnyJournal, object: Object, *, any_size: bool = False) -> bytes:
    """The bytes of an object that a journal makes whole: `Journal.extract`."""
    return taken(journal).extract(object, any_size=any_size)
