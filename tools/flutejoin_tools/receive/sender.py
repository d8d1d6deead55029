"""One sender that flutejoin-receive keeps: hands its datagrams in blocks to the writer."""
from __future__ import annotations

import collections
import time
from typing import TYPE_CHECKING, Optional

from flutejoin_tools.fdt.hints import TOLD, Hint
from flutejoin_tools.formats.adapting import Adapting
from flutejoin_tools.formats.records import HEADER, LENGTH, MOST, Buffer
from flutejoin_tools.receive.growing import BEGIN, Block, Growing
from flutejoin_tools.receive.newcomers import Pace
from flutejoin_tools.receive.voice import note

if TYPE_CHECKING:
    from flutejoin_tools.receive.senders import Senders

WRITE_AT = 1 << 18  # bytes that wait for a file before they are handed to the writer in any case
ENOUGH = 1 << 16  # bytes of a sender after which a file of it may begin in any case

UNWRITTEN = "not written, after a fault"
TOO_SLOW = "not written, since the disk was slower than what came"


class Sender:
    """One sender: what it sent, and its files."""

    def __init__(self, growing: Growing, senders: Senders) -> None:
        self.growing, self.senders, self.writer = growing, senders, senders.writer
        # Where it is registered under its address
        self.keys: list[tuple[dict[bytes, Sender], bytes]] = []
        self.waiting = bytearray()
        self.begin_file()
        self.hint = Hint()
        self.adapting = Adapting()
        self.datagrams = self.bytes = 0  # of this run
        self.total = 0  # bytes of records that are handed over, those of earlier runs too
        self.pace = Pace(0)
        self.seen_at: Optional[float] = None  # in seconds since 1970
        self.left_out: collections.Counter[str] = collections.Counter()

    def begin_file(self) -> None:
        """Counts anew for the next file."""
        self.grown, self.records, self.handed = len(HEADER), 0, 0
        self.room = 0  # length up to which the file may grow before `make_room` is called again

    def make_room(self, size: int) -> None:
        """Makes room for a record: hands others to the writer, or begins another file.

        Each file gets at least one record, however short files are to be.
        """
        split = self.senders.split
        if self.grown + size > split and self.records or self.records >= MOST:
            self.begin()
        elif len(self.waiting) > WRITE_AT:
            self.hand_over()
        # A record has at least 2 bytes.
        most = min(WRITE_AT, 2 * (MOST - self.records))
        self.room = max(self.grown + size, min(split, self.grown + most))

    def add(self, datagram: Buffer) -> None:
        """Adds a record, as a session does with those of a batch."""
        size = LENGTH.size + len(datagram)
        if self.grown + size > self.room:
            self.make_room(size)
        self.waiting += LENGTH.pack(len(datagram))
        self.waiting += datagram
        self.grown += size
        self.records += 1

    def begin(self) -> None:
        """Begins another file."""
        self.hand_over()
        self.writer.give(self.growing, BEGIN)
        self.begin_file()

    def hand_over(self) -> None:
        """Hands the waiting records to the writer."""
        count = self.records - self.handed
        if not count:
            return
        waiting, self.waiting = self.waiting, bytearray()
        self.handed = self.records
        self.datagrams += count
        self.bytes += len(waiting) - 2 * count
        self.total += len(waiting)
        self.seen_at = time.time()
        if not self.writer.give(self.growing, Block(waiting, count)):
            self.leave_out(UNWRITTEN if self.growing.fault else TOO_SLOW, count)

    def sent(self) -> int:
        return self.total + len(self.waiting)

    def leave_out(self, cause: str, count: int) -> None:
        """Counts datagrams that are not kept, with the cause."""
        self.left_out[cause] += count
        self.senders.causes[cause] += count

    def look(self, datagram: Buffer) -> None:
        """Looks at a datagram that may be of an FDT Instance."""
        if self.hint.look(datagram):
            note(f"{self.growing.address} {TOLD}")
