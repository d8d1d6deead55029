"""Journals that are drawn, of either version: of few objects, of some senders, with conflicts and
FDT Instances; and what is wrong in almost every other one of them."""
from __future__ import annotations

import random
from typing import Iterator, Sequence

from flutejoin_tools.formats.packets import packed
from flutejoin_tools.formats.records import LENGTH

SENDERS = bytes(16), bytes(10) + b"\xff\xff\n\0\0\1", b"\xff" * 16
# Transmission information: two that are valid, and one for each fault of it
NUMBERS = (90, 20, 64), (0, 0, 0), (9, 0, 1), (9, 1, 0), (1 << 40, 1, 1), (1 << 20, 1, 1 << 20)


def drawn_journal(draw: random.Random) -> bytes:
    """One that has a fault in 7 of 16 draws."""
    version = draw.choice((1, 2))
    senders = SENDERS if version == 2 else (b"",)
    names = {drawn_name(draw, senders) for _ in range(draw.randrange(1, 4))}
    held = [each for name in sorted(names) for each in drawn_entries(draw, name)]
    count, how = len(held), draw.randrange(16)
    if how == 0:
        draw.shuffle(held)
    elif how == 1:
        count += 1
    front, end = b"FLJN" + LENGTH.pack(version), b"\xff" + count.to_bytes(8, "big")
    data = bytearray(front + b"".join(held) + end)
    if how == 2:
        data += b"\0"
    elif how == 3:
        del data[draw.randrange(len(data)) :]
    elif how < 7:
        data[draw.randrange(min(len(data), draw.choice((6, 8, 64, 999))))] = draw.randrange(256)
    return bytes(data)


def drawn_name(draw: random.Random, senders: Sequence[bytes]) -> bytes:
    """The name of an object, which rarely is none."""
    is_odd = draw.randrange(60) == 0
    tag, number = draw.randrange(2), draw.choice((0, 1 << 20)) if is_odd else draw.randrange(1, 4)
    session = draw.choice(senders) + draw.randrange(3).to_bytes(6, "big")
    return session + bytes([tag]) + number.to_bytes(14, "big")


def drawn_entries(draw: random.Random, name: bytes) -> Iterator[bytes]:
    """Entries of an object, of which few are wrong."""
    numbers = draw.choice(NUMBERS if draw.randrange(12) == 0 else NUMBERS[:2])
    yield from draw.choice(((), (b"\1" + name + packed(*numbers),), (b"\2" + name,)))
    for symbol in sorted({draw.randrange(1 << 18) for _ in range(draw.randrange(5))}):
        place = name + symbol.to_bytes(4, "big")
        value = draw.randbytes(draw.randrange(1, 40) if draw.randrange(60) else 0)
        yield draw.choice((b"\3" + place + LENGTH.pack(len(value)) + value, b"\4" + place))
