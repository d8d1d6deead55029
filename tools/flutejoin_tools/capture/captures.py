"""Reads packet captures, pcap and pcapng, while they grow or whole, also compressed by gzip.

A capture is a file, or comes through a pipe.
"""
from __future__ import annotations

import io
import struct
from typing import Callable, Iterator, NamedTuple, Optional, Tuple

from flutejoin_tools.capture.inputs import (
    CaptureFault,
    Damage,
    Empty,
    Ends,
    Inflated,
    Input,
    Stop,
    Stream,
    opened,
)

MOST_PACKET = 1 << 20  # bytes; a longer one is damage
MOST_INTERFACES = 1 << 16  # of a section
SECTION = b"\x0a\x0d\x0d\x0a"  # how pcapng begins
ORDERS = {  # how pcap begins
    b"\xd4\xc3\xb2\xa1": "<",
    b"\x4d\x3c\xb2\xa1": "<",
    b"\xa1\xb2\xc3\xd4": ">",
    b"\xa1\xb2\x3c\x4d": ">",
}
# How the modified pcap of old Linux begins, whose packets have more fields.
MODIFIED_ORDERS = {b"\x34\xcd\xb2\xa1": "<", b"\xa1\xb2\xcd\x34": ">"}
SECTION_ORDERS = {b"\x4d\x3c\x2b\x1a": "<", b"\x1a\x2b\x3c\x4d": ">"}
INTERFACE, OLD_PACKET, SIMPLE_PACKET, PACKET = 1, 2, 3, 6  # the blocks of pcapng that are read
RESOLUTION = 9  # the option of an interface with the units of its timestamps


class Record(NamedTuple):
    """What is around a packet in a capture, but for its times: many packets may have the same."""

    first: bytes  # before the times
    sizes: bytes  # behind them
    tail: bytes  # behind the packet


# Its link type, its bytes, whether it is cut short, its second, if that is known, and what is
# around it, if others of the same length may follow
Packet = Tuple[int, bytes, bool, Optional[int], Optional[Record]]
# Takes a packet
Take = Callable[[int, bytes, bool, Optional[int]], None]
# Takes packets that follow a packet and are like it, and returns how many
TakeMore = Callable[[Record, int, bytes, Stream], int]


class Interface(NamedTuple):
    """An interface of a section.

    `snap` is the most bytes of a packet that it captures, and `units` how many units of its
    timestamps a second has.
    """

    link: int
    snap: int
    units: int

    @classmethod
    def of(cls, order: str, body: bytes) -> Interface:
        """The interface that a block of a pcapng capture describes."""
        link, snap = struct.unpack_from(order + "HxxI", body)
        return cls(link, snap, units_of(order, body))


def units_of(order: str, body: bytes) -> int:
    """The units of a second in an interface block, or a million if it has no such option."""
    at = 8
    while at + 5 <= len(body):
        code, size = struct.unpack_from(order + "HH", body, at)
        if code == RESOLUTION and size == 1:
            return int((2 if body[at + 4] >> 7 else 10) ** (body[at + 4] & 0x7F))
        at += 4 + size + -size % 4
    return 1000000


def read(
    name: str,
    stop: Stop,
    tick: Callable[[], None],
    take: Take,
    take_more: TakeMore = lambda *_: 0,
    work: Callable[[], int] = lambda: 0,
) -> Optional[str]:
    """Passes each packet of a capture to `take`, up to its end or a signal, but for those that
    `take_more` took from the stream. `work` tells what packets took more than a small one.

    Returns a note on a capture that is whole, or None. Raises `CaptureFault` if the capture is
    damaged or cut short, and `OSError` if it cannot be read.
    """
    with opened(name) as file:
        try:
            source = Input(file, stop, tick)
            stream = Stream(source, is_regular=source.is_regular)
            inflated: Optional[Inflated] = None
            if source.is_gzip:
                compressed, before = io.BufferedReader(source, 1 << 18), work()
                inflated = Inflated(compressed, lambda: stream.count + work() - before)
                stream.source = inflated
            for link, frame, is_cut, when, record in packets(stream):
                take(link, frame, is_cut, when)
                if record and not inflated:
                    take_more(record, link, frame, stream)
        except Ends:
            if not stop.asked:
                raise
    if inflated and inflated.has_garbage:
        return "what gzip compressed is whole, and other bytes behind it are ignored"
    return None


def packets(stream: Stream) -> Iterator[Packet]:
    """Yields each packet: its link type, its bytes, whether it is cut short, and its second.

    The second is None if the capture does not give it. Between two packets somebody else may take
    some from the stream.
    """
    magic = stream.read(4)
    if magic == SECTION:
        yield from block_packets(stream)
        return
    if not magic:
        raise Empty
    if magic not in ORDERS and magic not in MODIFIED_ORDERS:
        raise CaptureFault("is no capture (pcap or pcapng, which gzip may have compressed)")
    order = ORDERS.get(magic) or MODIFIED_ORDERS[magic]
    link = struct.unpack(order + "16xI", taken(stream, 20, "its header"))[0] & 0xFFFF
    # Modified pcap has the interface and the protocol after the lengths.
    fields = struct.Struct(order + ("I4xII8x" if magic in MODIFIED_ORDERS else "I4xII"))
    next_bytes, size = stream.read, fields.size
    while head := next_bytes(size):
        if len(head) < size:
            raise Ends
        when, captured, original = fields.unpack(head)
        if captured > MOST_PACKET:
            raise Damage(f"a packet of {captured} bytes")
        frame = next_bytes(captured)
        if len(frame) < captured:
            raise Ends
        stream.count += 1
        record = Record(b"", head[8:], b"") if size == 16 and captured == original else None
        yield link, frame, captured < original, when, record


def taken(stream: Stream, size: int, what: str = "a packet") -> bytes:
    """Reads so many bytes. Raises Ends if the capture has fewer."""
    data = stream.read(size)
    if len(data) < size:
        raise Ends(what)
    return data


def block_packets(stream: Stream) -> Iterator[Packet]:
    """Yields the packets of a pcapng capture, of which four bytes were already read.

    It has sections, each with its own byte order and its own interfaces.
    """
    order, kind = "<", SECTION
    interfaces: list[Interface] = []
    while kind:
        size = taken(stream, 4) if len(kind) == 4 else taken(stream, 1 << 20)
        begun = 0
        stream.count += 1
        if kind == SECTION:
            named = SECTION_ORDERS.get(taken(stream, 4))
            if named is None:
                raise Damage("a section without an order of bytes")
            order, interfaces, begun = named, [], 4
        number, length = struct.unpack(order + "II", kind + size)
        is_read = number in (INTERFACE, OLD_PACKET, SIMPLE_PACKET, PACKET)
        if length % 4 or length < 12 + begun or is_read and length > MOST_PACKET + 65536:
            raise Damage(f"a block of {length} bytes")
        body = block_body(stream, length - 12 - begun, is_read)
        if taken(stream, 4) != size:
            raise Damage("a block of two lengths")
        try:
            if number == INTERFACE:
                if len(interfaces) >= MOST_INTERFACES:
                    raise Damage(f"more than {MOST_INTERFACES} interfaces")
                interfaces.append(Interface.of(order, body))
            elif is_read:
                link, frame, is_cut, when = block_packet(order, interfaces, number, body)
                record = None
                if number == PACKET and not is_cut:
                    tail = body[20 + len(frame) :] + size
                    record = Record(kind + size + body[:4], body[12:20], tail)
                yield link, frame, is_cut, when, record
        except (struct.error, IndexError):
            raise Damage("a block that is too short or of no interface") from None
        kind = stream.read(4)


def block_body(stream: Stream, length: int, is_read: bool) -> bytes:
    """The bytes of a block up to its second length; empty if the block is skipped."""
    if is_read:
        return taken(stream, length)
    while length:
        length -= len(taken(stream, min(length, 65536)))
    return b""


def block_packet(
    order: str, interfaces: list[Interface], number: int, body: bytes
) -> tuple[int, bytes, bool, Optional[int]]:
    """The packet of a block.

    A simple packet block belongs to the first interface, and gives neither a time nor the length at
    which the packet was cut.
    """
    if number == SIMPLE_PACKET:
        (original,) = struct.unpack_from(order + "I", body)
        of, start, when = interfaces[0], 4, None
        captured = min(original, of.snap or original)
    else:
        fields = order + ("I" if number == PACKET else "Hxx") + "IIII"
        interface, high, low, captured, original = struct.unpack_from(fields, body)
        of, start = interfaces[interface], 20
        when = (high << 32 | low) // of.units
    if captured > len(body) - start:
        raise Damage("a packet longer than its block")
    return of.link, body[start : start + captured], captured < original, when
