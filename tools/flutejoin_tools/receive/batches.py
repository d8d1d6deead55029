"""Receives datagrams in batches: many by one system call, on systems that have such a call.

Each datagram has a place of its own in one buffer, with its length before it: a record.
"""
from __future__ import annotations

import errno
import os
import socket
import struct
import sys
from typing import Callable, Iterable, Optional, Tuple

from flutejoin_tools.formats.packets import FIXED_ALL

try:
    import ctypes

    CALLS_SYSTEM = sys.platform == "linux"
except ImportError:  # a Python without it receives them one by one
    CALLS_SYSTEM = False

MOST = 32  # datagrams of one call, at most
ROOM = 1 << 16  # bytes of a datagram, one more than a record can hold
# The distance of two places, chosen so that they do not all fall into the same cache lines.
STRIDE = 2 + ROOM + 1470
DONT_WAIT = 0x40  # MSG_DONTWAIT of Linux

SCOPE = struct.Struct("@I")

# The sender's address (of IPv6 with the number of its link, which is 0 unless the address is of one
# link alone), the datagram's length, its first bytes, and where its record begins. If the datagram
# is short, its first bytes are followed by bytes of an earlier one.
Datagram = Tuple[bytes, int, Tuple[bytes, ...], int]


class Batch:
    """The datagrams that one call received from one socket."""

    def __init__(self, udp: socket.socket) -> None:
        self.udp, self.descriptor = udp, udp.fileno()
        self.buffer = bytearray(MOST * STRIDE)
        self.view = memoryview(self.buffer)
        self.places = [STRIDE * number for number in range(MOST)]
        self.heads = struct.Struct(f"2x{FIXED_ALL}s{STRIDE - 2 - FIXED_ALL}x").iter_unpack
        self.many = many_at_once(self)

    def receive(self, most: int) -> Iterable[Datagram]:
        """Receives datagrams that wait, at most `most` and at most MOST. There may be none."""
        if self.many is None:
            return self.one_by_one(min(most, MOST))
        return self.many(min(most, MOST))

    def together(self, senders: Iterable[bytes], lengths: list[int]) -> Iterable[Datagram]:
        """The datagrams in the buffer, by their senders and lengths."""
        heads = self.heads(self.view[: len(lengths) * STRIDE])
        return zip(senders, lengths, heads, self.places)

    def one_by_one(self, most: int) -> Iterable[Datagram]:
        """Receives by a call for each datagram."""
        senders, lengths = [], []
        for place in self.places[:most]:
            try:
                length, address = self.udp.recvfrom_into(self.view[place + 2 : place + 2 + ROOM])
            except BlockingIOError:
                break
            lengths.append(length)
            sender = socket.inet_pton(self.udp.family, address[0].partition("%")[0])
            senders.append(sender + b"".join(map(SCOPE.pack, address[3:])))
        return self.together(senders, lengths)


def many_at_once(batch: Batch) -> Optional[Callable[[int], Iterable[Datagram]]]:
    """Returns a function that receives by Linux's recvmmsg, or None if the system lacks it."""
    if not CALLS_SYSTEM:
        return None
    system = ctypes.CDLL(None, use_errno=True)
    if not hasattr(system, "recvmmsg"):
        return None
    call = system.recvmmsg

    class Piece(ctypes.Structure):
        """`struct iovec`: where a datagram goes, and how much room is there."""

        _fields_ = [("base", ctypes.c_void_p), ("length", ctypes.c_size_t)]

    class Message(ctypes.Structure):
        """`struct msghdr`: where the sender's address goes, and the pieces."""

        _fields_ = [
            ("name", ctypes.c_void_p),
            ("name_length", ctypes.c_uint),
            ("pieces", ctypes.c_void_p),
            ("piece_count", ctypes.c_size_t),
            ("control", ctypes.c_void_p),
            ("control_length", ctypes.c_size_t),
            ("flags", ctypes.c_int),
        ]

    class Received(ctypes.Structure):
        """`struct mmsghdr`: a message, and how long its datagram was."""

        _fields_ = [("message", Message), ("length", ctypes.c_uint)]

    name_room = 28  # struct sockaddr_in6
    names = bytearray(MOST * name_room)
    pieces, received = (Piece * MOST)(), (Received * MOST)()
    data = (ctypes.c_char * len(batch.buffer)).from_buffer(batch.buffer)
    name_data = (ctypes.c_char * len(names)).from_buffer(names)
    for number, place in enumerate(batch.places):
        pieces[number] = Piece(ctypes.addressof(data) + place + 2, ROOM)
        received[number].message = Message(
            ctypes.addressof(name_data) + number * name_room,
            name_room,
            ctypes.addressof(pieces[number]),
            1,
        )
    call.argtypes = [ctypes.c_int, ctypes.c_void_p, ctypes.c_uint, ctypes.c_int, ctypes.c_void_p]
    at = ctypes.addressof(received)
    words = memoryview(received).cast("B").cast("I")
    lengths = words[Received.length.offset // 4 :: ctypes.sizeof(Received) // 4]
    name_view = memoryview(names)
    # The address in struct sockaddr_in; in sockaddr_in6 with the number of its link
    place, size = (4, 4) if batch.udp.family == socket.AF_INET else (8, 20)
    address = struct.Struct(f"{place}x{size}s{name_room - place - size}x").iter_unpack
    # The buffers that the system writes into are kept alive until the call ends.
    kept = data, name_data, pieces, received

    def receive(most: int, _kept: object = kept) -> Iterable[Datagram]:
        """Receives by one call, and returns the datagrams."""
        count = call(batch.descriptor, at, most, DONT_WAIT, None)
        if count < 0:
            number = ctypes.get_errno()
            if number not in (errno.EAGAIN, errno.EINTR):
                raise OSError(number, os.strerror(number))
            return ()
        senders = [sender for (sender,) in address(name_view[: count * name_room])]
        return batch.together(senders, lengths[:count].tolist())

    return receive
