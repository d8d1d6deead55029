"""Picks what joins of a station read: whole records of a datagram file, or some sessions of it."""
from __future__ import annotations

import collections
import contextlib
import errno
import os
from typing import Iterator, NamedTuple, Optional, Sequence

from flutejoin_tools.common.file_names import PARTIAL
from flutejoin_tools.common.program import PIECE, Program
from flutejoin_tools.formats.packets import header_of
from flutejoin_tools.formats.records import HEADER, LENGTH, Buffer, ends

MOST_SESSIONS = 64  # that one `flutejoin join` takes by their names
MOST_COUNTED = 1 << 16  # sessions that are counted at a time


class Fed(NamedTuple):
    """Whole records of a datagram file that a join reads from standard input."""

    path: str
    begin: int
    end: int

    def pieces(self) -> Iterator[bytes]:
        """Yields these records as a datagram file of their own, piece by piece."""
        yield HEADER
        yield from self.data()

    def data(self) -> Iterator[bytes]:
        """Yields the bytes of these records. Raises OSError if the file became shorter."""
        with open(self.path, "rb", buffering=0) as file:
            place = file.seek(self.begin)
            while place < self.end:
                piece = file.read(min(PIECE, self.end - place))
                if not piece:
                    raise OSError(errno.EIO, "became shorter", self.path)
                place += len(piece)
                yield piece

    def datagrams(self) -> Iterator[bytes]:
        """Yields the datagrams of these records."""
        rest = b""
        for piece in self.data():
            data, at = rest + piece, 0
            for end in ends(data):
                if end > len(data):
                    break
                yield data[at + LENGTH.size : end]
                at = end
            rest = data[at:]


def session_of(datagram: Buffer) -> Optional[int]:
    """The TSI of a datagram that is like FLUTE, or None."""
    header = header_of(datagram)
    return int.from_bytes(datagram[header.tsi : header.toi], "big") if header else None


def largest_sessions(program: Program, fed: Fed) -> list[int]:
    """The sessions that have most datagrams, as many as one join takes by their names.

    Those with few are forgotten while there are too many of them to be counted.
    """
    counts: collections.Counter[int] = collections.Counter()
    for datagram in program.tending(fed.datagrams()):
        tsi = session_of(datagram)
        if tsi is not None and (not program.sessions or tsi in program.sessions):
            counts[tsi] += 1
        if len(counts) > MOST_COUNTED:
            counts = collections.Counter({tsi: n - 1 for tsi, n in counts.items() if n > 1})
    return [tsi for tsi, _ in counts.most_common(MOST_SESSIONS)]


def write_others(program: Program, fed: Fed, sessions: Sequence[int], path: str) -> int:
    """Writes the datagrams of other sessions to a new file, and returns their number."""
    taken, others = frozenset(sessions), 0
    try:
        with open(path + PARTIAL, "xb") as file:
            file.write(HEADER)
            for datagram in program.tending(fed.datagrams()):
                if session_of(datagram) not in taken:
                    file.write(LENGTH.pack(len(datagram)) + datagram)
                    others += 1
        os.rename(path + PARTIAL, path)
    except BaseException:
        with contextlib.suppress(OSError):
            os.unlink(path + PARTIAL)
        raise
    return others
