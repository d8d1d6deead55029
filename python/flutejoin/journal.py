"""Journals: what was received, as values."""
from __future__ import annotations

import dataclasses
import os
import struct
from ctypes import byref
from typing import Iterator, NamedTuple, Optional, Union

from flutejoin.calling import LEAST_ROOM, Bytes, Call, check, constant, fields_of, given
from flutejoin.calling import items_given, words
from flutejoin.library import Answer, HeldFields, library
from flutejoin.lines import compared_in, held_in
from flutejoin.values import Compared, Entry, Held, Information, Object, Status, Symbol

EMPTY = b"FLJN\0\2\xff" + bytes(8)  # the journal of nothing
# By their numbers (flutejoin.h)
STATUSES = {1: "no information", 2: "conflicting information", 3: "partial", 4: "whole"}
KINDS = {1: "information", 2: "information conflict", 3: "symbol", 4: "symbol conflict"}
# An entry as the library gives it: its object in six numbers, its kind, its transmission
# information in four and its symbol in five
FIELDS = struct.Struct("@5Q2I I4x 2IQH6x I2H2N")
# How many bytes of a journal an entry is reckoned to have, where room for entries is made
USUAL = 1024


@dataclasses.dataclass(frozen=True, init=False, repr=False)
class Journal:
    """What was received of objects. It is always a journal, of either version, and never changes.

    Two are equal if their bytes are: those of version 2 if they contain the same. Whatever is done
    with one may raise OutOfMemory.
    """

    _data: bytes

    def __init__(self, data: Bytes = EMPTY) -> None:
        """The journal of these bytes, or else that of nothing. Raises InputFault, with the number
        1, if they are none or have more than 16,777,216 entries."""
        held, size = words(data)
        answer = Answer()
        # What nobody asks for is read to its end, and not held
        check(library().flutejoin_fill(held, size, None, 0, 1, None, 0, byref(answer)), answer)
        object.__setattr__(self, "_data", held)

    @classmethod
    def read(cls, path: Union[str, os.PathLike[str]]) -> Journal:
        """The journal in a file. Raises OSError if that can't be read, or as `Journal()`."""
        with open(path, "rb") as file:
            return cls(file.read())

    def __bytes__(self) -> bytes:
        return self._data

    def __repr__(self) -> str:
        return f"<Journal of {len(self._data):,} bytes>"

    def entries(self) -> Iterator[Entry]:
        """What it says, in the order of objects' names, and of an object first its transmission
        information and then its symbols. While one goes through them, 104 bytes are held of each.
        """
        room = LEAST_ROOM // FIELDS.size + len(self._data) // USUAL
        call, size = library().flutejoin_entries, FIELDS.size
        return self._each(items_given(call, words(self._data), room, size))

    def _each(self, listed: bytearray) -> Iterator[Entry]:
        named: Optional[tuple[int, ...]] = None
        of = Object(0, 0, 0)
        for fields in FIELDS.iter_unpack(listed):
            if fields[:7] != named:
                named = fields[:7]
                of = object_of(*named)
            kind, has_information, block, length, size, has_symbol, sbn, esi = fields[7:15]
            start, count = fields[15:]
            yield Entry(
                of,
                KINDS[kind],
                Information(length, size, block) if has_information else None,
                Symbol(sbn, esi, self._data[start : start + count]) if has_symbol else None,
            )

    def merge(self, other: AnyJournal) -> Journal:
        """The journal of all that both contain. `|` is the same. Raises Full if that has too many
        entries, or InputFault with the number 2."""
        return of_two(library().flutejoin_merge, self, other)

    def __or__(self, other: Journal) -> Journal:
        if not isinstance(other, Journal):
            return NotImplemented
        return self.merge(other)

    def minus(self, other: AnyJournal) -> Journal:
        """The journal of what of this one a join would change the other by: that, merged with the
        other, is the same as both merged. `-` is the same. Raises InputFault with the number 2."""
        return of_two(library().flutejoin_minus, self, other)

    def __sub__(self, other: Journal) -> Journal:
        if not isinstance(other, Journal):
            return NotImplemented
        return self.minus(other)

    def fill(self, lines: Bytes, *, only: bool = False) -> Journal:
        """The journal of what the lines that `gap_lines` gives of another ask for of this one; with
        `only` just what they name as missing. Raises BadLine if `gap_lines` gives no such lines."""
        arguments = *words(self._data), *words(lines), int(only)
        return taken(given(library().flutejoin_fill, arguments, LEAST_ROOM + arguments[1]))

    def gap_lines(self, *, any_size: bool = False, as_json: bool = False) -> bytes:
        """The lines that the command `gaps` prints of it. Raises Full if it has more sessions,
        objects or symbols than that takes in; with `any_size` it takes in more."""
        arguments = *words(self._data), int(any_size), int(as_json)
        return given(library().flutejoin_gaps, arguments, LEAST_ROOM)

    def gaps(self, *, any_size: bool = False) -> list[Held]:
        """How much it has of each object, in the order of their names. Raises as `gap_lines`."""
        return held_in(self.gap_lines(any_size=any_size, as_json=True))

    def compare_lines(self, other: AnyJournal, *, as_json: bool = False) -> bytes:
        """The lines that the command `compare` prints of both. Raises InputFault with the number
        2."""
        arguments = *words(self._data), *words_of(other), int(as_json)
        return given(library().flutejoin_compare, arguments, LEAST_ROOM)

    def compare(self, other: AnyJournal) -> list[Compared]:
        """How both differ in each object that either has, in the order of their names. Raises
        InputFault with the number 2."""
        return compared_in(self.compare_lines(other, as_json=True))

    def status(self, object: Object, *, any_size: bool = False) -> Status:
        """How much it has of an object. Raises BadKey if no object has such a name, NoObject if it
        has nothing of that, or Full as `gap_lines`."""
        fields, answer = HeldFields(), Answer()
        named = byref(fields_of(object))
        arguments = *words(self._data), named, int(any_size), byref(fields)
        check(library().flutejoin_status(*arguments, byref(answer)), answer)
        told = STATUSES[fields.status]
        length = fields.length if told == "whole" else None
        return Status(told, length, fields.missing, fields.conflicting, fields.misfit)

    def extract(self, object: Object, *, any_size: bool = False) -> bytes:
        """The bytes of an object that it makes whole. Raises BadKey, NoObject or Full as `status`;
        NoInformation or ConflictingInformation; or NotWhole, with the first symbol that is wanted.
        """
        arguments = *words(self._data), byref(fields_of(object)), int(any_size)
        return given(library().flutejoin_extract, arguments, arguments[1])


class Joined(NamedTuple):
    """What was joined."""

    journal: Journal  # of all that the inputs contain
    datagrams: int  # how many the datagram files have
    refused: int  # how many of these are no packets, and contain nothing
    entries: int  # how many the journal has


def object_of(
    high: int, low: int, tsi: int, toi_high: int, toi_low: int, is_instance: int, instance: int
) -> Object:
    """The name of an object, by its numbers."""
    toi = toi_high << 64 | toi_low
    return Object(high << 64 | low, tsi, toi, instance if is_instance else None)


AnyJournal = Union[Journal, Bytes]


def taken(data: AnyJournal) -> Journal:
    """As a journal, with no look at the bytes: what is done with it raises InputFault, with the
    number 1, if they are none."""
    if isinstance(data, Journal):
        return data
    journal = object.__new__(Journal)
    object.__setattr__(journal, "_data", constant(data))
    return journal


def words_of(data: AnyJournal) -> tuple[bytes, int]:
    """The words for a journal, or for bytes."""
    return words(bytes(data) if isinstance(data, Journal) else data)


def of_two(call: Call, first: Journal, second: AnyJournal) -> Journal:
    arguments = *words_of(first), *words_of(second)
    # Only of version 1 may there be more
    return taken(given(call, arguments, LEAST_ROOM + arguments[1] + arguments[3]))
