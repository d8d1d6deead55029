"""Senders that have no place yet: what they sent waits in memory, which has a bound."""
from __future__ import annotations

from typing import TYPE_CHECKING, Iterable, Iterator, Optional

from flutejoin_tools.common.addresses import IPAddress
from flutejoin_tools.formats.records import LENGTH, Buffer

if TYPE_CHECKING:
    from flutejoin_tools.receive.sessions import Session

FEW = 16  # datagrams; a sender with fewer may be a made-up address
# Seconds after which what came of a sender with fewer is written, and those after which it is left
# out, if there was no place until then
LONG_WAIT, LONGEST_WAIT = 50, 60
MOST_NEWCOMERS = 4096  # that are remembered at a time
# Bytes that wait, with OF_EACH for a datagram: of the first FEW of each sender, and of all others
MOST_HELD = MOST_MORE = 12 << 20
OF_EACH = 128  # bytes that Python takes for a datagram
DECAY = 0.8  # what a byte counts a second later: so what counts is that of the last few seconds


class Pace:
    """How much a sender sent in the last seconds."""

    def __init__(self, total: int) -> None:
        self.recent, self.before = 0.0, total  # bytes, of which older ones count less

    def measure(self, total: int) -> None:
        """Takes once a second how many bytes were sent in all until now."""
        self.recent = self.recent * DECAY + total - self.before
        self.before = total


class Newcomer:
    """A sender without a place, and what waits of it."""

    def __init__(self, address: IPAddress, earlier: Optional[int], now: float) -> None:
        """`earlier` is how many bytes it sent before; None if it has no file."""
        self.address, self.since = address, now
        self.has_file, self.earlier = earlier is not None, earlier or 0
        self.held: list[tuple[Session, bytes]] = []
        self.count = self.bytes = 0  # of what it sent
        self.size = self.more = 0  # bytes that wait: of its first datagrams, and of the others
        self.pace = Pace(0)
        self.is_outdone = False  # less than it sent was kept of another

    def total(self) -> int:
        """The bytes that it ever sent."""
        return self.earlier + self.bytes

    def sent(self) -> tuple[int, int]:
        """What it sent since it is known: datagrams and bytes."""
        return self.count, self.bytes

    def lost(self) -> int:
        """How many of its datagrams are not held."""
        return self.count - len(self.held)

    def is_late(self, now: float) -> bool:
        return now - self.since >= LONGEST_WAIT

    def is_ready(self, now: float) -> bool:
        return self.count >= FEW or self.has_file or now - self.since >= LONG_WAIT


class Newcomers:
    """The senders without a place, by the addresses that sockets give."""

    def __init__(self) -> None:
        self.by_key: dict[bytes, Newcomer] = {}
        self.size = self.more = 0

    def hold(self, newcomer: Newcomer, session: Session, datagram: Buffer) -> bool:
        """Keeps a datagram in memory, if there is room; whether it did."""
        size, is_first = len(datagram) + OF_EACH, len(newcomer.held) < FEW
        newcomer.count += 1
        newcomer.bytes += len(datagram) + LENGTH.size
        if is_first:
            newcomer.size += size
            self.size += size
        elif self.more + size > MOST_MORE:
            return False
        else:
            newcomer.more += size
            self.more += size
        newcomer.held.append((session, bytes(datagram)))
        return True

    def measure(self) -> None:
        """Takes once a second how much each sent."""
        for newcomer in self.by_key.values():
            newcomer.pace.measure(newcomer.bytes)

    def are_many(self) -> bool:
        return len(self.by_key) > MOST_NEWCOMERS

    def remove(self, key: bytes) -> Newcomer:
        newcomer = self.by_key.pop(key)
        self.size -= newcomer.size
        self.more -= newcomer.more
        return newcomer

    def halve(self) -> Iterable[Newcomer]:
        """Removes those who sent fewest datagrams, and yields them.

        Of many made-up addresses each sends seldom.
        """
        sent = {key: it.sent() for key, it in self.by_key.items()}
        order = sorted(sent, key=lambda key: sent[key])
        for key in order[: (len(order) + 1) // 2]:
            yield self.remove(key)

    def lighten(self) -> Iterator[Session]:
        """If too many bytes wait, drops those of who sent fewest datagrams: yields the session of
        each. How much they sent is known still, so whoever sends on in a flood gets a place."""
        if self.size <= MOST_HELD:
            return
        order = sorted((it for it in self.by_key.values() if it.held), key=Newcomer.sent)
        for newcomer in order:
            if self.size <= MOST_HELD // 2:
                break
            for session, _ in newcomer.held:
                yield session
            self.size -= newcomer.size
            self.more -= newcomer.more
            newcomer.held, newcomer.size, newcomer.more = [], 0, 0


class RateLimit:
    """How many new senders of few bytes may get a file: `most` at once, then so many a minute."""

    def __init__(self, most: int, each_minute: float) -> None:
        self.most, self.each_second = most, each_minute / 60
        self.left, self.at = float(most), float("-inf")

    def has(self, now: float) -> bool:
        """Whether one more may get a file now."""
        if now > self.at:
            self.left = min(self.most, self.left + (now - self.at) * self.each_second)
            self.at = now
        return self.left >= 1

    def take(self, now: float) -> bool:
        """Whether one more may get a file now; then it is counted."""
        if not self.has(now):
            return False
        self.left -= 1
        return True
