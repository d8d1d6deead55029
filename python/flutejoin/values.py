"""What the calls take and return."""
from __future__ import annotations

from typing import NamedTuple, Optional


class Object(NamedTuple):
    """The name of an object. An FDT Instance has the TOI 0, and a number of its own."""

    sender: int  # the address as a number, below 2^128
    tsi: int
    toi: int
    instance: Optional[int] = None


class Information(NamedTuple):
    """The FEC Object Transmission Information of an object."""

    length: int  # the transfer length: how many bytes the object has
    symbol: int  # the encoding symbol length
    block: int  # the maximum source block length, in symbols


class Symbol(NamedTuple):
    """An encoding symbol."""

    sbn: int
    esi: int
    data: bytes


class Packet(NamedTuple):
    """What a datagram contains."""

    tsi: int
    toi: int
    instance: Optional[int]  # if the TOI is 0
    information: Optional[Information]
    symbol: Optional[Symbol]

    def object(self, sender: int) -> Object:
        """What the packet is of, if this sender sent it."""
        return Object(sender, self.tsi, self.toi, self.instance)


class Entry(NamedTuple):
    """What a journal says of the transmission information of an object, or of a symbol."""

    object: Object
    kind: str  # information, information conflict, symbol or symbol conflict
    information: Optional[Information]  # of the first kind
    symbol: Optional[Symbol]  # of the last two kinds; its data is empty in a conflict

    @property
    def is_conflict(self) -> bool:
        """Whether two different values came."""
        return self.kind.endswith("conflict")


class Gap(NamedTuple):
    """Symbols of a block that follow one another and are not held as one fitting value."""

    sbn: int
    first: int
    last: int  # among them
    reason: str  # missing, conflicting or misfit


class Held(NamedTuple):
    """How much is held of an object."""

    object: Object
    status: str  # whole, partial, no information or conflicting information
    length: Optional[int]  # the transfer length, of a whole object
    gaps: tuple[Gap, ...]

    @property
    def is_whole(self) -> bool:
        return self.status == "whole"

    def count(self, reason: str) -> int:
        """How many symbols are in gaps of this reason."""
        return sum(gap.last - gap.first + 1 for gap in self.gaps if gap.reason == reason)


class Status(NamedTuple):
    """How much is held of an object, in numbers."""

    status: str  # as that of Held
    length: Optional[int]  # the transfer length, of a whole object
    missing: int  # of a partial one, how many symbols are not held; else 0, as below
    conflicting: int  # how many have two values
    misfit: int  # how many have one value, of a length that does not fit

    @property
    def is_whole(self) -> bool:
        return self.status == "whole"


class Compared(NamedTuple):
    """How two journals differ in an object: how many symbols have the same value in both, have
    other values, or are only in the first or the second."""

    object: Object
    same: int
    differ: int
    first: int
    second: int
    information: str  # same, differ, first, second or none
