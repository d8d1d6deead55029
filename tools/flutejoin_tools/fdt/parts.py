"""Puts an FDT Instance together of its symbols, in the order in which they come."""
from __future__ import annotations

import itertools
from typing import Iterator, Optional

from flutejoin_tools.fdt import fdt
from flutejoin_tools.formats.packets import Packet, numbers_of
from flutejoin_tools.formats.partition import Partition

MOST_LOOKED = 1 << 12  # bytes by which it is told when one expires, before it is read


class Assembly:
    """One FDT Instance that is put together of the newest value of each of its symbols.

    So where its packets come in versions, of which each may lack some, it is made of what is
    nearest in time.
    """

    def __init__(self, information: bytes) -> None:
        self.partition = Partition(*numbers_of(information))
        self.symbols: dict[int, bytes] = {}
        self.datagrams: dict[int, bytes] = {}
        self.size = 0
        self.fresh: set[int] = set()  # symbols that changed since it was put together
        self.has_come = False  # something of it, since the last end
        self.came: Optional[float] = None  # when something of it came last, if that is known
        self.expiry: Optional[int] = None  # as far as it is known
        self.is_looked = False  # whether its first bytes were looked at since they changed

    def is_whole(self) -> bool:
        return len(self.symbols) == self.partition.symbols

    def take(self, packet: Packet, datagram: bytes) -> Iterator[bytes]:
        """Adds a packet. Yields the bytes of the version before, if this packet is of the next."""
        self.has_come = True
        place = self.partition.place(packet.payload_id)
        piece = None if place is None else self.partition.piece(place, packet.symbol)
        if place is None or piece is None or self.symbols.get(place) == piece:
            return
        if place in self.fresh and self.is_whole():
            yield self.content()
        self.size += len(piece) - len(self.symbols.get(place, b""))
        self.symbols[place] = bytes(piece)
        self.datagrams[place] = datagram
        self.fresh.add(place)
        self.is_looked = False

    def content(self) -> bytes:
        """The FDT Instance, once all of its symbols are there."""
        self.fresh.clear()
        return b"".join(self.symbols[place] for place in range(self.partition.symbols))

    def end(self) -> Iterator[bytes]:
        """Yields its bytes, if it is whole and something of it came since the last end."""
        if self.has_come and self.is_whole():
            yield self.content()
        self.has_come = False

    def expires(self) -> Optional[int]:
        """When it expires; None if its first bytes don't tell, or are not there."""
        if not self.is_looked:
            front, places = b"", itertools.count()
            while len(front) < MOST_LOOKED and (place := next(places)) in self.symbols:
                front += self.symbols[place]
            self.expiry, self.is_looked = fdt.likely_expiry(front), True
        return self.expiry

    def over_at(self) -> Optional[float]:
        """The later of when something of it came last and when it expires; None if neither is
        known."""
        return max((it for it in (self.came, self.expires()) if it is not None), default=None)
