"""Tests `join` of many inputs with few symbols each, compared with a join that is computed here,
address by address."""
from __future__ import annotations

import random
from typing import Optional

from tests.program.case import Case, joined

# The value at an address; `None` is a conflict
Values = dict[bytes, Optional[bytes]]
GROUPS = 60  # of inputs that are drawn
BLOCK, SYMBOL = 64, 4  # symbols of a block, bytes of a symbol


def key_of(toi: int) -> bytes:
    """The key of an object of session 7 of sender 0 (docs/FORMATS.md)."""
    return bytes(16) + (7).to_bytes(6, "big") + b"\1" + toi.to_bytes(14, "big")


def journal_of(values: Values) -> bytes:
    """The journal of these values. An address is an object and 0, or an object, 1, and a symbol's
    block and number, so that addresses sort in order."""
    entries = []
    for address, value in sorted(values.items()):
        key, symbol = address[:37], address[38:]
        kind = (3 if symbol else 1) + (value is None)
        bytes_of = b"" if value is None else value
        length = len(bytes_of).to_bytes(2, "big") if symbol and value is not None else b""
        entries.append(bytes([kind]) + key + symbol + length + bytes_of)
    return b"FLJN\0\2" + b"".join(entries) + b"\xff" + len(entries).to_bytes(8, "big")


def join(all_values: list[Values]) -> Values:
    """At each address the only value of all inputs, or a conflict."""
    both: Values = {}
    for values in all_values:
        for address, value in values.items():
            both[address] = value if both.get(address, value) == value else None
    return both


class Draw:
    """Draws what one of many inputs contains."""

    def __init__(self, draw: random.Random) -> None:
        self.draw = draw
        self.objects = draw.choice([1, 2, 5])
        self.symbols = draw.choice([5, 60, 300])
        self.share = draw.choice([0.02, 0.1, 0.3, 0.9])
        self.conflicts = draw.choice([0.0, 0.1, 0.5])

    def id_of(self, index: int) -> bytes:
        """The block and number of a symbol, by its place; the last has the greatest."""
        last = index == self.symbols - 1
        block, symbol = (65535, 65535) if last else divmod(index, BLOCK)
        return block.to_bytes(2, "big") + symbol.to_bytes(2, "big")

    def information(self) -> bytes:
        """Transmission information, in which two inputs may differ."""
        length = self.symbols * SYMBOL - (self.draw.random() < self.conflicts / 4)
        return length.to_bytes(6, "big") + SYMBOL.to_bytes(2, "big") + BLOCK.to_bytes(4, "big")

    def input(self) -> Values:
        """What an input has of the objects: few symbols of each."""
        values: Values = {}
        for toi in range(1, self.objects + 1):
            if self.draw.random() < 0.2:
                continue
            if self.draw.random() < 0.8:
                values[key_of(toi) + b"\0"] = self.information()
            for index in range(self.symbols):
                if self.draw.random() < self.share:
                    value = b"abce" if self.draw.random() < self.conflicts else b"abcd"
                    values[key_of(toi) + b"\1" + self.id_of(index)] = value
        return values


class Sparse(Case):
    def test_groups(self) -> None:
        draw = random.Random(5)
        for group in range(GROUPS):
            count = draw.choice([3, 8, 9, 12, 20, 40, 64])
            drawn = Draw(draw)
            inputs = [drawn.input() for _ in range(count)]
            names = [f"input{number}" for number in range(count)]
            for name, values in zip(names, inputs):
                self.write(name, journal_of(values))
            both = join(inputs)
            words = ["join", "-o", "got", *names]
            self.makes(f"group {group}", words, joined(0, len(both)), journal_of(both))
