"""Puts datagrams together that come in fragments."""
from __future__ import annotations

import collections
from typing import Callable, Tuple

MOST_FRAGMENTED = 256  # datagrams whose fragments are kept
MOST_FRAGMENTS = 256  # of one datagram
MOST_SECONDS = 30  # between two fragments of one datagram, as in Linux

CUT = "cut short by the capture (capture whole packets: tcpdump -s 0)"
LOST = "a fragment is lost"
DISAGREE = "fragments overlap or disagree"
TOO_MANY = f"more than {MOST_FRAGMENTS} fragments"

# Fragments of one datagram have the same source, target, identification, protocol and VLANs
Key = Tuple[bytes, bytes, int, int, Tuple[int, ...]]


class Fragmented:
    """A datagram that comes in fragments; `when` is the second of the first one."""

    def __init__(self, when: int | None) -> None:
        self.pieces: dict[int, bytes] = {}  # by their offsets
        self.held, self.is_done, self.when = 0, False, when
        self.end: int | None = None
        self.cause: str | None = None

    def is_repeat(self, offset: int, more: bool, data: bytes) -> bool:
        return self.pieces.get(offset) == data and (offset + len(data) == self.end) != more

    def is_over(self, when: int | None) -> bool:
        """Whether a fragment of this second is too late for this datagram. Times may be unknown."""
        if when is None or self.when is None:
            return False
        return abs(when - self.when) > MOST_SECONDS

    def fail(self, cause: str) -> None:
        """Gives a datagram up. Only the start of its first fragment is kept, for its port."""
        self.cause = cause
        self.pieces = {0: self.pieces[0][:256]} if 0 in self.pieces else {}

    def add(self, offset: int, more: bool, data: bytes) -> None:
        """Adds a fragment that is no repeat.

        Fragments do not overlap, so the datagram is whole once their lengths sum up to its own.
        """
        end = offset + len(data)
        is_wrong = not data or end > 65535 or (more and len(data) % 8)
        is_beyond = self.end is not None and (not more or end > self.end)
        for at, piece in self.pieces.items():
            is_beyond = is_beyond or offset < at + len(piece) and (at < end or not more)
        if is_wrong or is_beyond:
            self.fail(DISAGREE)
            return
        if len(self.pieces) >= MOST_FRAGMENTS:
            self.fail(TOO_MANY)
            return
        self.pieces[offset] = data
        self.held += len(data)
        self.end = self.end if more else end
        self.is_done = self.held == self.end


class Fragments:
    """The last datagrams that came in fragments.

    Whole ones stay in the list, since a capture may have a fragment twice.
    """

    def __init__(self, lose: Callable[[Key, bytes, str], None]) -> None:
        self.last: collections.OrderedDict[Key, Fragmented] = collections.OrderedDict()
        self.lose = lose

    def add(
        self, key: Key, offset: int, more: bool, data: bytes, is_whole: bool, when: int | None
    ) -> bytes | None:
        """Adds a fragment, and returns the datagram if that makes it whole."""
        datagram = self.last.get(key)
        if datagram and datagram.is_over(when):
            self.forget(key)
            datagram = None
        if datagram and (datagram.cause or datagram.is_repeat(offset, more, data)):
            return None
        if datagram and datagram.is_done:  # the identification is used again
            self.forget(key)
            datagram = None
        if datagram is None:
            datagram = self.last[key] = Fragmented(when)
            if len(self.last) > MOST_FRAGMENTED:
                self.forget(next(iter(self.last)))
        if is_whole:
            datagram.add(offset, more, data)
        else:
            datagram.pieces.setdefault(offset, data)
            datagram.fail(CUT)
        if not datagram.is_done:
            return None
        return b"".join(datagram.pieces[at] for at in sorted(datagram.pieces))

    def forget(self, key: Key) -> None:
        """Forgets a datagram. If it is not whole, it is counted as lost."""
        datagram = self.last.pop(key)
        if not datagram.is_done:
            self.lose(key, datagram.pieces.get(0, b""), datagram.cause or LOST)

    def finish(self) -> None:
        """At the end: forgets all."""
        while self.last:
            self.forget(next(iter(self.last)))
