"""The bytes of captures: of a file or a pipe, as far as they come, also compressed by gzip."""
from __future__ import annotations

import contextlib
import errno
import io
import os
import select
import signal
import stat
import sys
import time
import zlib
from typing import Any, BinaryIO, Callable, Optional

from flutejoin_tools.common.opening import open_at_once
from flutejoin_tools.common.signals import answer_stops

GRACE = 1.0  # seconds after a signal in which a capture in a pipe may send its last packets
TICK = 1.0  # seconds between two calls of `tick`
GZIP = b"\x1f\x8b"  # how a gzip member begins
# Work is counted in that of a small packet, or of so many bytes. What comes out of gzip may take so
# much, and then 1 for each so many bytes that go in: of a few MB gzip could make many GB, of which
# nothing is worth reading.
BYTES_OF_WORK = 1024
WORK, BYTES_IN = 1 << 18, 16
BUFFER = 1 << 20  # bytes of a capture that are read at once
INFLATED = 1 << 16  # bytes that come out of gzip at once


class CaptureFault(Exception):
    """What is wrong in a capture."""


class Ends(CaptureFault):
    """A capture ends within a packet."""

    def __init__(self, what: str = "a packet") -> None:
        super().__init__(f"ends within {what}; the packets before it were read")


class Empty(Ends):
    """A capture has no byte."""

    def __init__(self) -> None:
        CaptureFault.__init__(self, "is empty")


class Damage(CaptureFault):
    """The bytes of a capture are not those of any."""

    def __init__(self, what: str) -> None:
        super().__init__(f"is damaged ({what}); the packets before that were read")


class TooMuch(Damage):
    """More comes out of gzip than is worth reading."""

    def __init__(self) -> None:
        super().__init__("gzip: too much comes out of so few bytes")


class Stop:
    """How many signals asked for the end, and when the first came. A wait can include `wakes`."""

    def __init__(self) -> None:
        self.asked, self.since = 0, 0.0
        self.wakes, signal_pipe = os.pipe()
        os.set_blocking(signal_pipe, False)
        signal.set_wakeup_fd(signal_pipe, warn_on_full_buffer=False)
        answer_stops(self.ask)

    def ask(self, _number: int, _frame: object) -> None:
        """Takes a signal that asks for the end."""
        self.asked += 1
        self.since = self.since or time.monotonic()


class Input(io.RawIOBase):
    """The bytes of a file or pipe, up to its end or a signal.

    After a signal a pipe has a moment more: Ctrl-C also reaches the program that captures, which
    then sends its last packets. `tick` is called at most once a second, while bytes arrive and
    between them.
    """

    def __init__(self, file: BinaryIO, stop: Stop, tick: Callable[[], None]) -> None:
        self.file, self.stop, self.tick = file, stop, tick
        self.tick_at = time.monotonic() + TICK
        self.is_regular = stat.S_ISREG(os.fstat(file.fileno()).st_mode)  # nothing is waited for
        self.grace = 0 if self.is_regular else GRACE
        self.begin = b""
        while len(self.begin) < 2 and self.is_ready():
            piece = os.read(file.fileno(), 2 - len(self.begin))
            if not piece:
                break
            self.begin += piece
        self.is_gzip = self.begin == GZIP

    def readable(self) -> bool:
        return True

    def is_ready(self) -> bool:
        """Waits for bytes or the end of the file. Returns False once waiting is over."""
        is_quiet = False
        while not self.stop.asked:
            left = self.tick_at - time.monotonic()
            if left <= 0:
                self.tick()
                self.tick_at, left = time.monotonic() + TICK, TICK
            timeout = None if is_quiet else left
            ready = select.select([self.file, self.stop.wakes], [], [], timeout)[0]
            if self.file in ready and not self.stop.asked:
                return True
            is_quiet = not ready
            if is_quiet:
                self.tick()
        left = self.stop.since + self.grace - time.monotonic()
        if self.stop.asked != 1 or left <= 0:
            return False
        return bool(select.select([self.file], [], [], left)[0])

    def readinto(self, buffer: Any) -> int:
        """Reads what is there into a buffer, and returns how much; 0 at the end."""
        if self.begin:
            size = min(len(buffer), len(self.begin))
            buffer[:size], self.begin = self.begin[:size], self.begin[size:]
            return size
        return os.readv(self.file.fileno(), [buffer]) if self.is_ready() else 0


class Stream:
    """The bytes of an input, a buffer at a time. Those that are in the buffer may be looked at, and
    skipped, without a copy. `count` is that of the packets, and other blocks, that were read."""

    def __init__(self, source: io.RawIOBase, *, is_regular: bool = False) -> None:
        self.source, self.buffer = source, memoryview(bytearray(BUFFER))
        self.is_regular = is_regular
        self.at = self.end = self.count = 0

    def read(self, size: int) -> bytes:
        """So many bytes; fewer at the end of the input alone."""
        at, end = self.at, self.at + size
        if end <= self.end:
            self.at = end
            return bytes(self.buffer[at:end])
        found = bytearray()
        while len(found) < size and (self.at < self.end or self.fill()):
            piece = self.buffer[self.at : min(self.end, self.at + size - len(found))]
            found += piece
            self.at += len(piece)
        return bytes(found)

    def fill(self) -> int:
        """Reads the next buffer, and returns how many bytes it has; 0 at the end."""
        self.at, self.end = 0, self.source.readinto(self.buffer) or 0
        return self.end

    def view(self, wanted: int = 0) -> memoryview:
        """What is in the buffer, until the next call. Of a regular file as much as is wanted, if it
        has that: of others that might have to be waited for."""
        if self.end - self.at < wanted <= len(self.buffer) and self.is_regular:
            rest = bytes(self.buffer[self.at : self.end])
            self.buffer[: len(rest)] = rest
            more = self.source.readinto(self.buffer[len(rest) :]) or 0
            self.at, self.end = 0, len(rest) + more
        return self.buffer[self.at : self.end]

    def skip(self, size: int) -> None:
        """Takes bytes that `view` has."""
        self.at += size


class Inflated(io.RawIOBase):
    """The decompressed bytes of a gzip stream, one member after another (RFC 1952).

    Bytes after a member that begin no other one, as the zeros that fill a tape, are ignored, as
    gzip does. `came` counts the bytes that go in, `out` those that come out, and `members` those
    that ended; `work` tells what was done of these besides.
    """

    def __init__(
        self, stream: io.BufferedReader, work: Callable[[], int] = lambda: 0
    ) -> None:
        self.stream, self.work, self.member = stream, work, zlib.decompressobj(31)
        self.fault: Optional[Damage] = None
        self.has_garbage = False
        self.came = self.out = self.members = 0

    def readable(self) -> bool:
        return True

    def readinto(self, buffer: Any) -> int:
        """Decompresses into a buffer, and returns how much; 0 at the end."""
        while not self.fault:
            data = self.member.unused_data or self.member.unconsumed_tail
            data = data or self.more()
            if self.member.eof:
                data = self.next_member(data)
                if not data:
                    return 0
                self.member = zlib.decompressobj(31)
                self.members += 1
            inflated = self.inflate(data, min(INFLATED, len(buffer)))
            self.out += len(inflated)
            done = self.out // BYTES_OF_WORK + self.members + self.work()
            if done > WORK + self.came // BYTES_IN:
                raise TooMuch
            if inflated:
                buffer[: len(inflated)] = inflated
                return len(inflated)
            if not data and not self.member.eof and not self.stream.peek(1):
                raise Ends("what gzip compressed")
        raise self.fault

    def more(self) -> bytes:
        """Reads further bytes of the gzip stream."""
        data = self.stream.read1(65536)
        self.came += len(data)
        return data

    def next_member(self, data: bytes) -> bytes:
        """The first bytes of the next member, from `data` on; empty if there is none."""
        data = data.lstrip(b"\0")
        while len(data) < len(GZIP):
            more = self.more()
            if not more:
                break
            data = (data + more).lstrip(b"\0")
        if data.startswith(GZIP):
            return data
        self.has_garbage = bool(data)
        return b""

    def inflate(self, data: bytes, most: int) -> bytes:
        """Returns at most `most` bytes. After a fault it returns the bytes before it first."""
        before = self.member.copy()
        try:
            return self.member.decompress(data, most)
        except zlib.error as fault:
            self.fault = Damage(f"gzip: {fault}")
        inflated = bytearray()
        with contextlib.suppress(zlib.error):
            for at in range(len(data)):
                inflated += before.decompress(data[at : at + 1], most - len(inflated))
        return bytes(inflated)


def opened(name: str) -> BinaryIO:
    """Opens a capture. Opening a pipe does not wait for its writer; reading does."""
    if name != "-":
        file = open(name, "rb", buffering=0, opener=open_at_once)
        os.set_blocking(file.fileno(), True)
        return file
    if sys.stdin is None:
        raise OSError(errno.EBADF, os.strerror(errno.EBADF), "standard input")
    return open(0, "rb", buffering=0, closefd=False)
