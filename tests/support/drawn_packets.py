"""Packets that are drawn: of FLUTE 2 with one symbol, in all widths of a header, and what becomes
of them on their way."""
from __future__ import annotations

import random
import struct
from typing import Iterator

LONGEST = 65535  # bytes of a datagram
# Bytes that mean something in a header: types and lengths of extensions, flags, versions
TELLING = bytes.fromhex("00 01 02 03 04 05 06 08 10 20 3F 40 41 7F 80 A0 B0 C0 C1 C2 F0 FF")


def number_of(draw: random.Random, size: int) -> bytes:
    """A number other than 0, in so many bytes, with few of them used at times."""
    used = draw.choice((1, size))
    return draw.randrange(1, 256**used).to_bytes(size, "big")


def extension(draw: random.Random) -> bytes:
    """One that flutejoin does not read."""
    if draw.random() < 0.5:
        words = draw.randrange(1, 4)
        return bytes([draw.choice((0, 1, 2, 63, 65, 127)), words]) + draw.randbytes(4 * words - 2)
    return bytes([draw.choice((128, 191, 194, 255))]) + draw.randbytes(3)


def packet(draw: random.Random) -> bytes:
    """One of which flutejoin refuses few."""
    cci, half = draw.randrange(4), draw.randrange(2)
    tsi_words, toi_words = draw.randrange(1 - half, 2), draw.randrange(1 - half, 4)
    tsi, size = draw.randbytes(4 * tsi_words + 2 * half), 4 * toi_words + 2 * half
    is_instance = draw.random() < 0.3
    toi = bytes(size) if is_instance else number_of(draw, size)
    extensions = [*extensions_of(draw, is_instance)]
    draw.shuffle(extensions)
    front = draw.randbytes(4 * cci + 4) + tsi + toi + b"".join(extensions)
    flags = tsi_words << 7 | toi_words << 5 | half << 4 | draw.randrange(4)
    head = bytes([0x10 | cci << 2 | draw.randrange(4), flags, 1 + len(front) // 4, 0]) + front
    return head + draw.choice((b"", draw.randbytes(4), draw.randbytes(draw.randrange(5, 44))))


def extensions_of(draw: random.Random, is_instance: bool) -> Iterator[bytes]:
    def is_odd() -> bool:
        return draw.randrange(20) == 0

    for _ in range(draw.randrange(3)):
        yield extension(draw)
    for _ in range(draw.randrange(2) + is_odd()):
        length = draw.choice((0, draw.randrange(1, 2000), draw.randrange(1 << 48)))
        numbers = draw.randrange(1 << 16), draw.randrange(1, 1 << 16), draw.randrange(1, 1 << 32)
        more = bytes(4 * is_odd())
        front = struct.pack(">BB6s", 64, 4 + len(more) // 4, length.to_bytes(6, "big"))
        yield front + struct.pack(">HHI", *numbers) + more
    for _ in range((is_instance and not is_odd()) + is_odd()):
        yield struct.pack(">I", 192 << 24 | (2 - is_odd()) << 20 | draw.randrange(1 << 20))
    for _ in range(is_odd() + is_odd()):
        yield bytes([193, is_odd()]) + draw.randbytes(2)


def mutated(draw: random.Random, datagram: bytes) -> bytes:
    """A datagram of which bytes may be others, some missing, and some behind it."""
    data = bytearray(datagram)
    for _ in range(draw.choice((0, 1, 1, 2, 3))):
        value = draw.choice(TELLING) if draw.randrange(2) else draw.randrange(256)
        data[draw.randrange(min(len(data), draw.choice((4, 24, 64, 64))))] = value
    if draw.randrange(6) == 0:
        del data[draw.randrange(len(data) + 1) :]
    if draw.randrange(12) == 0:
        data += draw.randbytes(draw.randrange(1, 9))
    if draw.randrange(200) == 0:
        data += bytes(LONGEST - len(data) + draw.randrange(2))
    return bytes(data)
