"""Records of a capture that have one form: many at once are divided, and their checksums tested."""
from __future__ import annotations

import functools
import struct
from typing import NamedTuple, Optional, Sequence, Tuple

from flutejoin_tools.capture.captures import Record
from flutejoin_tools.capture.checksums import in_lanes, multiples, sum_of, zeros
from flutejoin_tools.capture.datagrams import IP4_HEAD, IP6_HEAD, UDP, UDP_HEAD
from flutejoin_tools.capture.frames import IP, carried
from flutejoin_tools.formats.records import LENGTH

TIMES = 8  # bytes of a record that tell when
IP4_BYTES, IP6_BYTES, UDP_BYTES = 20, 40, 8  # of headers
CHECKSUM = 6  # where it is in the header of UDP
PIECE = 180  # bytes of a piece, at most


class Sums(NamedTuple):
    """Of the headers of packets, without what varies."""

    ip: int  # of the header of IPv4
    udp: int  # of what goes into the checksum of UDP and is in front of it


class Form(NamedTuple):
    """How records are divided that are as long as one, and have headers as long."""

    record: Record
    link: int
    size: int  # bytes of a record
    frame: int  # where the frame begins in it
    ip: int  # where the IP packet begins in the frame
    udp: int  # where the datagram begins
    end: int  # where it ends
    heads: str  # for `struct`: all up to the end of the header of FLUTE but the times, and the tail
    words: Tuple[int, ...]  # where the checksums are in that, and the identification of IPv4
    pieces: str  # for `struct`: the checksum of UDP, and the payload, in so many pieces
    parts: int  # how many

    def is_of_four(self) -> bool:
        return self.udp - self.ip == IP4_BYTES

    def addresses(self, frame: bytes) -> tuple[bytes, bytes]:
        """The addresses of the sender and the target, which are what an IP header ends with."""
        size = 4 if self.is_of_four() else 16
        return frame[self.udp - 2 * size : self.udp - size], frame[self.udp - size : self.udp]

    def frame_of(self, data: memoryview) -> Optional[bytes]:
        """The frame in bytes that are as many as a record, if they are one of this form."""
        first, sizes, tail = self.record
        end = self.size - len(tail)
        frame = bytes(data[self.frame : end])
        is_alike = data[: len(first)] == first and data[end:] == tail
        is_alike = is_alike and data[len(first) + TIMES : self.frame] == sizes
        return frame if is_alike and form_of(self.record, self.link, frame) == self else None

    def sums(self, frame: bytes) -> Sums:
        """Those of a frame of this form."""
        ip, pair = frame[self.ip : self.udp], frame[self.udp : self.udp + CHECKSUM]
        udp = sum_of(b"".join(self.addresses(frame)) + pair) + UDP + self.end - self.udp
        return Sums(sum_of(ip[:4] + ip[6:10] + ip[12:]), udp % 65535)


def form_of(record: Record, link: int, frame: bytes) -> Optional[Form]:
    """The form of a record, if it is of a kind that runs are made of: of a datagram with a header
    of FLUTE and more, in an IP packet without options or fragments that ends where it ends."""
    kind, ip, _ = carried(link, frame)
    is_four = frame[ip : ip + 1] == b"\x45"
    udp = ip + (IP4_BYTES if is_four else IP6_BYTES)
    if kind not in IP or len(frame) < udp + UDP_BYTES + 4:
        return None
    if is_four:
        _, length, _, place, protocol, _, _ = IP4_HEAD.unpack_from(frame, ip)
        is_whole = not place & 0x3FFF
    else:
        length, protocol, _, _ = IP6_HEAD.unpack_from(frame, ip)
        length, is_whole = length + IP6_BYTES, frame[ip] >> 4 == 6
    size, end = UDP_HEAD.unpack_from(frame, udp)[1], ip + length
    symbol = size - UDP_BYTES - 4 * frame[udp + UDP_BYTES + 2]
    if protocol != UDP or not is_whole or symbol < 1 or end != udp + size or end > len(frame):
        return None
    first, before = len(record.first), len(record.first) + TIMES + len(record.sizes)
    rest, tail = len(frame) - end, len(record.tail)
    head = len(record.sizes) + end - symbol
    heads = f"{first}s" * bool(first) + f"{TIMES}x{head}s{symbol + rest}x" + f"{tail}s" * bool(tail)
    at = first + len(record.sizes)
    words = (at + udp + CHECKSUM, *([at + ip + 4, at + ip + 10] if is_four else []))
    parts, pieces = in_pieces(size - CHECKSUM)
    pieces = f"{before + udp + CHECKSUM}x{pieces}{rest + tail}x"
    whole = before + len(frame) + tail
    return Form(record, link, whole, before, ip, udp, end, heads, words, pieces, parts)


def in_pieces(size: int) -> tuple[int, str]:
    """Into how many pieces of one even length so many bytes are cut, of which the last may be
    shorter, and these for `struct`."""
    parts = -(-size // PIECE)
    piece = -(-size // parts)
    piece += piece & 1
    return parts, f"{piece}s" * (parts - 1) + f"{size - (parts - 1) * piece}s"


@functools.lru_cache(maxsize=32)
def fields_of(form: str, count: int) -> struct.Struct:
    """The form of so many fields of one kind, one after another."""
    return struct.Struct(">" + form * count)


class Rows:
    """Bytes that are as many as so many records of a form."""

    def __init__(self, form: Form, data: memoryview, count: int) -> None:
        self.form, self.data, self.count = form, data, count
        heads = bytearray().join(fields_of(form.heads, count).unpack(data))
        width, none = len(heads) // count, bytes(count)
        # The words that vary, each as its high bytes and its low ones
        self.words = [(heads[at::width], heads[at + 1 :: width]) for at in form.words]
        for at in form.words:
            heads[at::width] = heads[at + 1 :: width] = none
        self.heads, self.width = bytes(heads), width
        self.pieces: Sequence[bytes] = ()

    def keys(self) -> Sequence[bytes]:
        """What packets of a flow have in common, for each row: one, if all have the same."""
        heads, width = self.heads, self.width
        if heads == heads[:width] * self.count:
            return [heads[:width]]
        return [heads[at : at + width] for at in range(0, len(heads), width)]

    def frame(self, at: int) -> Optional[bytes]:
        """The frame of a row, if it is of this form."""
        size = self.form.size
        return self.form.frame_of(self.data[at * size : (at + 1) * size])

    def right(self, sums: Sequence[Sums], count: int) -> int:
        """How many of the first so many rows are right, from the first on: their checksums, with
        the sums of each; one, if all have the same."""
        checksum, *others = self.words
        if others:
            total = in_lanes([each.ip for each in sums], 4, count)
            for high, low in others:
                lanes = bytearray(4 * count)
                lanes[2::4], lanes[3::4] = high[:count], low[:count]
                total += int.from_bytes(lanes, "big")
            count = multiples(total, 4, count)
        else:  # IPv6 demands a checksum of UDP
            count = min(count, [*zip(*checksum), (0, 0)].index((0, 0)))
        if count:
            pieces = fields_of(self.form.pieces, self.count).unpack(self.data)
            self.pieces = pieces[: count * self.form.parts]
            count = zeros(self.pieces, self.form.parts, [each.udp for each in sums[:count]])
        return count

    def records(self, count: int) -> bytearray:
        """The datagrams of the first rows, so many as are right, each behind its length: as in a
        datagram file."""
        records = bytearray().join(self.pieces[: count * self.form.parts])
        size = len(records) // count
        for at, byte in enumerate(LENGTH.pack(size - LENGTH.size)):
            records[at::size] = bytes([byte]) * count
        return records
