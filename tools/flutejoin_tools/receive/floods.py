"""Lets the system itself leave out unknown senders, while more comes than can be looked at.

A flood of made-up senders costs more to receive than to send. Once a receive buffer fills, a filter
of the socket (BPF) passes what known senders send, and of the others only a share.
"""
from __future__ import annotations

import socket
import struct
import sys
from typing import Callable, Iterable

try:
    import ctypes

    CAN_FILTER = sys.platform == "linux"
except ImportError:  # a Python without it filters nothing
    CAN_FILTER = False

SO_ATTACH_FILTER, SO_DETACH_FILTER, SO_MEMINFO = 26, 27, 55
MOST_KNOWN = 250  # senders that a filter passes: each costs the system a step for each datagram
# Parts of the receive buffer beyond which the share of short datagrams falls, if it fills further;
# beyond which that of long ones falls too, in any case; and below which both rise. The system tells
# what was taken from it only later.
FULL, TOO_FULL, FURTHER, EMPTY = 1 / 4, 3 / 4, 1 / 64, 1 / 32
# By what they fall and rise each time, and the least of both
FALLS, RISES, LEAST, LEAST_OF_LONG = 0.5, 1.25, 1 / 16384, 1 / 256
# Bytes of a long datagram, with UDP's header: most of a file are, and a flood of these costs its
# sender more.
LONG = 512
LEFT_OUT = "of senders that are not kept, in a flood"

# Instructions of a filter: what they do, where they go on, and a number (linux/filter.h)
STEP = struct.Struct("@HBBI")
LOAD, LOAD_BYTE, LOAD_LENGTH, SHIFT, XOR, XOR_X, KEEP, GO, IS, AT_LEAST, RETURN = (
    *(0x20, 0x30, 0x80, 0x74, 0xA4, 0xAC, 0x07, 0x05, 0x15, 0x35, 0x06),
)
IP, RANDOM = 0xFFF00000, 0xFFFFF000 + 56  # places: of the IP header, and of a random number
ALL, NONE = 0xFFFFFFFF, 0

# The sender's IPv4 address; that of IPv6 as the exclusive or of its words, also where it is an IPv4
# address (::ffff:a.b.c.d)
OF_IPV4 = [(LOAD, 0, 0, IP + 12)]
OF_IPV6 = [
    (LOAD_BYTE, 0, 0, IP), (SHIFT, 0, 0, 4), (IS, 0, 3, 4),
    (LOAD, 0, 0, IP + 12), (XOR, 0, 0, 0xFFFF), (GO, 0, 0, 10),
    (LOAD, 0, 0, IP + 8), (KEEP, 0, 0, 0), (LOAD, 0, 0, IP + 12), (XOR_X, 0, 0, 0), (KEEP, 0, 0, 0),
    (LOAD, 0, 0, IP + 16), (XOR_X, 0, 0, 0), (KEEP, 0, 0, 0), (LOAD, 0, 0, IP + 20),
    (XOR_X, 0, 0, 0),
]


def word_of(key: bytes) -> int:
    """What a filter compares of a sender, by the address that a socket gives."""
    word = 0
    for (part,) in struct.iter_unpack(">I", key[:16]):
        word ^= part
    return word


def program(family: int, known: Iterable[bytes], share: float, of_long: float) -> bytes:
    """A filter that passes these senders' datagrams, and a share of all others."""
    steps = list(OF_IPV6 if family == socket.AF_INET6 else OF_IPV4)
    for key in known:
        steps += [(IS, 0, 1, word_of(key)), (RETURN, 0, 0, ALL)]
    steps += [
        (LOAD_LENGTH, 0, 0, 0), (AT_LEAST, 3, 0, LONG),
        (LOAD, 0, 0, RANDOM), (AT_LEAST, 4, 0, int(share * ALL)), (RETURN, 0, 0, ALL),
        (LOAD, 0, 0, RANDOM), (AT_LEAST, 1, 0, int(of_long * ALL)), (RETURN, 0, 0, ALL),
        (RETURN, 0, 0, NONE),
    ]
    return b"".join(STEP.pack(*step) for step in steps)


def fullness(udp: socket.socket) -> float:
    """Which part of its receive buffer waits; 0 if the system does not tell that."""
    try:
        held, room = struct.unpack_from("@2I", udp.getsockopt(socket.SOL_SOCKET, SO_MEMINFO, 36))
    except (OSError, struct.error):
        return 0
    return float(held / room) if room else 0


class Flood:
    """What a socket passes while its receive buffer fills."""

    def __init__(
        self, udp: socket.socket, full: Callable[[socket.socket], float] = fullness
    ) -> None:
        self.udp, self.full = udp, full
        self.share = self.of_long = 1.0  # what is passed of the unknown, of short ones and of long
        self.before = 0.0  # how full it was
        self.has_filtered = False

    def tend(self, known: Callable[[int], Iterable[bytes]]) -> None:
        """Adapts the shares. `known` yields the senders to be passed, at most so many."""
        if not CAN_FILTER:
            return
        was_less = self.share < 1 or self.of_long < 1
        full = self.full(self.udp)
        if full > TOO_FULL:
            self.of_long = max(LEAST_OF_LONG, self.of_long * FALLS)
        if full > TOO_FULL or full > FULL and full > self.before + FURTHER:
            self.share = max(LEAST, self.share * FALLS)
        elif full < EMPTY:
            self.share = min(1.0, self.share * RISES)
            self.of_long = min(1.0, self.of_long * RISES)
        self.before = full
        if self.share < 1 or self.of_long < 1:
            self.attach(program(self.udp.family, known(MOST_KNOWN), self.share, self.of_long))
        elif was_less:
            self.detach()

    def attach(self, steps: bytes) -> None:
        """Gives the socket a filter; where the system has none, all is passed."""
        held = ctypes.create_string_buffer(steps)
        told = struct.pack("@HP", len(steps) // STEP.size, ctypes.addressof(held))
        try:
            self.udp.setsockopt(socket.SOL_SOCKET, SO_ATTACH_FILTER, told)
            self.has_filtered = True
        except OSError:  # a system without filters
            self.share = self.of_long = 1.0

    def detach(self) -> None:
        """Takes the filter from the socket, so that all is passed again."""
        try:
            self.udp.setsockopt(socket.SOL_SOCKET, SO_DETACH_FILTER, 0)
        except OSError:
            pass
