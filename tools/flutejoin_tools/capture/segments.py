"""Splits datagrams that a capture on the sending host has in one piece.

With UDP segmentation offload (`UDP_SEGMENT`, GSO) a sender passes many datagrams of one length to
the system at once; the last may be shorter. A capture on that host sees them before they are split.
"""
from __future__ import annotations

import functools
from typing import NamedTuple

from flutejoin_tools.formats.adapting import form_of
from flutejoin_tools.formats.packets import EXT_FTI, PAYLOAD_ID, information_in, numbers_of

MOST_OF_FRAME = 1472  # bytes of a datagram that one Ethernet frame holds


class Told(NamedTuple):
    """The session in a header, the place of its TSI, and the greatest length of a datagram."""

    tsi: bytes
    place: int
    longest: int | None  # None if the symbol length (EXT_FTI) is missing


@functools.lru_cache(maxsize=1024)
def told_by(head: bytes) -> Told | None:
    """Reads these three from the header of a datagram; None if it is of no form of FLUTE."""
    form = form_of(head)
    if form is None:
        return None
    header, longest = form.header, None
    for kind, begin, end in form.extensions:
        if kind == EXT_FTI and end - begin == 16:
            _, symbol, _ = numbers_of(information_in(head, begin))
            longest = header.end + PAYLOAD_ID.size + symbol
    return Told(head[header.tsi : header.toi], header.tsi, longest)


def told_at(payload: bytes, start: int) -> Told | None:
    """Reads the same from the header that may begin at `start`; None if none does."""
    end = start + 4 * payload[start + 2] if start + 2 < len(payload) else start
    return told_by(payload[start:end]) if end <= len(payload) else None


def datagrams_in(payload: bytes) -> list[bytes] | None:
    """The datagrams in a captured payload without a right checksum.

    With EXT_FTI the length of a datagram is at most that of its header and one symbol. A longer
    payload is several datagrams, and is split if a datagram of the session begins at each place.
    Returns None if it may be several and can't be split.
    """
    told = told_at(payload, 0)
    if told is None:
        return [payload]  # no FLUTE packet, which a join refuses
    size = told.longest or MOST_OF_FRAME
    if len(payload) <= size:
        return None if may_be_several(payload, told) else [payload]
    starts = range(0, len(payload), size)
    if told.longest is None or not all(is_of_session(payload, told, start) for start in starts):
        return None
    return [payload[start : start + size] for start in starts]


def is_of_session(payload: bytes, told: Told, start: int) -> bool:
    """Whether a datagram of the same session may begin at `start`."""
    other = told_at(payload, start)
    return other is not None and other[:2] == told[:2]


def may_be_several(payload: bytes, told: Told) -> bool:
    """Whether parts of one length begin as datagrams of the same session."""
    at = payload.find(told.tsi, 2 * told.place + len(told.tsi))
    while at >= 0:
        size = at - told.place
        starts = range(size, len(payload), size)
        if all(is_of_session(payload, told, start) for start in starts):
            return True
        at = payload.find(told.tsi, at + 1)
    return False
