"""The fields of a FLUTE packet that the tools look at (RFC 5651, RFC 6726, RFC 5445)."""
from __future__ import annotations

import struct
from typing import Dict, Iterator, NamedTuple, Optional, Tuple, Union

from flutejoin_tools.formats.partition import fault_of
from flutejoin_tools.formats.records import Buffer

EXT_FTI, EXT_FDT, EXT_CENC = 64, 192, 193  # types of header extensions
READ = EXT_FTI, EXT_FDT, EXT_CENC
SYMBOL_AND_BLOCK = struct.Struct(">HI")
PAYLOAD_ID = struct.Struct(">HH")  # SBN and ESI
FIXED_ALL = 40  # the greatest length of the header without extensions, in bytes
# Where each extension that is read begins and ends
Places = Dict[int, Tuple[int, int]]


class Header(NamedTuple):
    """Where the fields of an LCT header begin, and where it ends."""

    tsi: int
    toi: int
    extensions: int
    end: int


class Packet(NamedTuple):
    """The contents of a packet, without those that concern its transport."""

    tsi: int
    toi: int
    instance: Optional[int]  # the FDT Instance ID, if the TOI is 0
    information: Optional[bytes]  # lengths of EXT_FTI: transfer (6 bytes), symbol (2), block (4)
    payload_id: bytes  # SBN and ESI, of 2 bytes each; empty if there is no symbol
    symbol: bytes


def fixed_fields(first: int, flags: int) -> tuple[int, int, int]:
    """Where TSI, TOI and extensions begin, by the first two bytes of a header."""
    half = 2 * (flags >> 4 & 1)
    tsi = 8 + 4 * (first >> 2 & 3)
    toi = tsi + 4 * (flags >> 7) + half
    return tsi, toi, toi + 4 * (flags >> 5 & 3) + half


# The place of the TOI by the last 12 bits of the first two bytes of a header of version 1
TOI_PLACES = [slice(*fixed_fields(place >> 8, place & 255)[1:]) for place in range(1 << 12)]
# A TOI 0 in each width
ZEROS = frozenset(bytes(size) for size in range(2, 15, 2))


def header_of(payload: Buffer) -> Optional[Header]:
    """The header of a packet that flutejoin would accept, or None.

    It has version 1, a TSI, a TOI, codepoint 0, and a length that covers its fields and lies within
    the datagram. Its extensions are not checked.
    """
    if len(payload) < 4 or payload[0] >> 4 != 1 or payload[3]:
        return None
    header = Header(*fixed_fields(payload[0], payload[1]), 4 * payload[2])
    if header.tsi == header.toi or header.toi == header.extensions:
        return None
    if not header.extensions <= header.end <= len(payload):
        return None
    return None if len(payload) - header.end in (1, 2, 3) else header


def extensions_of(payload: Buffer, header: Header) -> Iterator[tuple[int, int, int]]:
    """Yields the type of each header extension, and where it begins and ends.

    The last one ends where the header ends, unless a length is wrong.
    """
    place = header.extensions
    while place < header.end:
        words = 1 if payload[place] >= 128 else payload[place + 1]
        if not words:
            return
        yield payload[place], place, place + 4 * words
        place += 4 * words


def is_like_flute(payload: Buffer) -> bool:
    """Whether a datagram has a valid LCT header of a FLUTE packet.

    Extensions only need the right length (RFC 5651, section 5).
    """
    header = header_of(payload)
    if not header:
        return False
    end = header.extensions
    for _, _, end in extensions_of(payload, header):
        pass
    return end == header.end


def information_in(payload: Buffer, place: int) -> bytes:
    """The lengths in EXT_FTI, which begins at `place`. The 2 bytes between them are reserved."""
    return bytes(payload[place + 2 : place + 8]) + bytes(payload[place + 10 : place + 16])


def numbers_of(information: bytes) -> tuple[int, int, int]:
    """The transfer length, symbol length and block length."""
    length = int.from_bytes(information[:6], "big")
    symbol, block = SYMBOL_AND_BLOCK.unpack_from(information, 6)
    return length, symbol, block


def packed(length: int, symbol: int, block: int) -> bytes:
    """The lengths as `numbers_of` takes them, and as a journal has them."""
    return length.to_bytes(6, "big") + SYMBOL_AND_BLOCK.pack(symbol, block)


def opened(payload: Buffer) -> Union[str, Tuple[Header, Places]]:
    """The header of a packet and the extensions in it that flutejoin reads; or why `flutejoin join`
    refuses the datagram, by its name for it.

    docs/FORMATS.md has the list, of which the first that applies is the answer.
    """
    if not 4 <= len(payload) <= 65535:
        return "TooShort" if len(payload) < 4 else "TooLong"
    if payload[0] >> 4 != 1:
        return "LctVersion"
    header = Header(*fixed_fields(payload[0], payload[1]), 4 * payload[2])
    if not header.extensions <= header.end <= len(payload):
        return "HeaderLength" if header.end < header.extensions else "HeaderCut"
    if header.tsi == header.toi or header.toi == header.extensions:
        return "NoTsi" if header.tsi == header.toi else "NoToi"
    if payload[3]:
        return "Codepoint"
    found = list(extensions_of(payload, header))
    if (found[-1][2] if found else header.extensions) != header.end:
        return "ExtensionLength"
    read = {kind: (begin, end) for kind, begin, end in found if kind in READ}
    if len(read) < sum(kind in READ for kind, _, _ in found):
        return "Repeated"
    return refusal_by_extensions(payload, header, read) or (header, read)


def refusal_by_extensions(payload: Buffer, header: Header, read: Places) -> Optional[str]:
    """Why flutejoin refuses a packet by what its extensions contain; None if it does not."""
    if EXT_FTI in read:
        begin, end = read[EXT_FTI]
        if end - begin != 16:
            return "FtiLength"
        if fault_of(*numbers_of(information_in(payload, begin))):
            return "Information"
    if not any(payload[header.toi : header.extensions]):
        if EXT_FDT not in read:
            return "NoInstance"
        if payload[read[EXT_FDT][0] + 1] >> 4 != 2:
            return "FluteVersion"
    if EXT_CENC in read and payload[read[EXT_CENC][0] + 1]:
        return "ContentEncoded"
    return "PayloadIdCut" if 0 < len(payload) - header.end < 4 else None


def refusal_of(payload: Buffer) -> Optional[str]:
    """Why `flutejoin join` refuses a datagram; None if it does not."""
    found = opened(payload)
    return found if isinstance(found, str) else None


def parsed(payload: Buffer) -> Optional[Packet]:
    """The contents of a datagram, or None if flutejoin refuses it."""
    found = opened(payload)
    if isinstance(found, str):
        return None
    header, read = found
    toi = int.from_bytes(payload[header.toi : header.extensions], "big")
    instance = information = None
    if not toi:
        begin, end = read[EXT_FDT]
        instance = int.from_bytes(payload[begin + 1 : end], "big") & 0xFFFFF
    if EXT_FTI in read:
        information = information_in(payload, read[EXT_FTI][0])
    begin = header.end + PAYLOAD_ID.size
    has_symbol = len(payload) > begin
    return Packet(
        int.from_bytes(payload[header.tsi : header.toi], "big"),
        toi,
        instance,
        information,
        bytes(payload[header.end : begin]) if has_symbol else b"",
        bytes(payload[begin:]),
    )
