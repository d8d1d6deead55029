"""Internet checksums (RFC 1071): sums of words of 16 bits in ones' complement, as numbers modulo
65,535. A long number is folded first, since dividing it takes longer."""
from __future__ import annotations

import functools
from typing import Sequence, Tuple

SHORT = 128  # bytes of a number that is divided as it is


@functools.lru_cache(maxsize=256)
def folds_of(size: int) -> Tuple[Tuple[int, int], ...]:
    """How a number of so many bytes is folded: by how many bits, and what of it stays.

    2^16 is 1 modulo 65,535, so a number's parts of whole words may be added.
    """
    found = []
    while size > SHORT:
        size = (size // 2 + 3) & ~1
        found.append((8 * size, (1 << 8 * size) - 1))
    return tuple(found)


def folded(number: int, size: int) -> int:
    """A number of so many bytes, modulo 65,535: at least it, and far less."""
    for bits, mask in folds_of(size):
        number = (number >> bits) + (number & mask)
    return number


def sum_of(data: bytes) -> int:
    """The sum of the words of these bytes, modulo 65,535. An odd one at the end is a high one."""
    size, number = len(data), int.from_bytes(data, "big")
    if size > SHORT:
        number = folded(number, size)
    return (number << 8 if size & 1 else number) % 65535


@functools.lru_cache(maxsize=32)
def repeated(number: int, width: int, count: int) -> int:
    """The number whose bytes are those of another, of this width, so many times."""
    return int.from_bytes(number.to_bytes(width, "big") * count, "big")


def in_lanes(numbers: Sequence[int], width: int, count: int) -> int:
    """So many numbers as one, each in so many bytes of its own: its lane. One number is in all."""
    if len(numbers) == 1:
        return repeated(numbers[0], width, count)
    lanes = {number: number.to_bytes(width, "big") for number in {*numbers}}
    return int.from_bytes(b"".join([lanes[number] for number in numbers]), "big")


def multiples(lanes: int, width: int, count: int) -> int:
    """In how many lanes, from the first on, 65,535 divides the number, which is less than its
    square there.

    If it does in all, it divides the whole, and no quotient reaches into the highest 16 bits of its
    lane. And if so, each quotient times 65,535 fits into its lane, so it is the number there.
    """
    quotient, rest = divmod(lanes, 65535)
    if not rest and not quotient & repeated(0xFFFF << 8 * width - 16, width, count):
        return count
    data = lanes.to_bytes(width * count, "big")
    for at in range(count):
        if int.from_bytes(data[at * width : (at + 1) * width], "big") % 65535:
            return at
    return count


def zeros(pieces: Sequence[bytes], parts: int, more: Sequence[int]) -> int:
    """Of how many rows, from the first on, the sum of the words and a number below 65,535 is 0
    modulo 65,535. A row is so many pieces, one after another: all of one even length, but for the
    last, which may be shorter. One number is that of all rows.

    The pieces of a row are added, but those of all rows at once: each row has a lane, with two
    bytes more for what is carried.
    """
    width, count = len(pieces[0]) + (len(pieces[0]) & 1) + 2, len(pieces) // parts
    total = in_lanes(more, width, count)
    for part in range(parts):
        column = pieces[part::parts]
        number = int.from_bytes(bytes(width - len(column[0])).join(column), "big")
        total += number << 8 if len(column[0]) & 1 else number
    return multiples(total, width, count)
