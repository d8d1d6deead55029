"""Writes datagrams of other forms of FLUTE as flutejoin reads them: FLUTE 2, a symbol in each.

Of a datagram exactly these fields change, and nothing of a symbol:

- EXT_FDT of an FDT Instance gets version 2 in the place of 1. Both name the Instance by the same 20
  bits (RFC 3926 and RFC 6726, section 3.4.1).
- EXT_CENC with ZLIB, DEFLATE or GZIP (section 3.4.3 of both) is left out, and HDR_LEN adjusted. A
  file's encoding is in the FDT (section 3.4.2), that of an FDT Instance in its first bytes.
- The fields SCT and ERT (RFC 3451, section 5.1) are left out, with their flags T and R, and HDR_LEN
  adjusted. RFC 5651 (section 5.1) reserves these bits, and has no such fields. So they are fields
  only if the session's EXT_FDT has version 1, which is carried by RFC 3451; or if, as long as its
  version is not known, the extensions are whole with these fields and not without.
- A packet of several symbols (RFC 5775, section 4.1) becomes a datagram for each, with the same
  header and rising encoding symbol IDs. The symbol length has to be known by this packet's EXT_FTI,
  or else by those of earlier ones of the object, which all have to agree. All these symbols have to
  be in one source block (RFC 5052, section 9.1), and only the object's last one may be shorter,
  with exactly its length.

What does not fit exactly, and what flutejoin would refuse in the other form too, stays as it came.
Packets that no such change makes FLUTE 2 of are left out, and counted by their cause.
"""
from __future__ import annotations

import collections
import functools
from typing import Dict, Iterator, NamedTuple, Optional, Sequence, Tuple, TypeVar

from flutejoin_tools.formats.packets import (
    EXT_CENC,
    EXT_FDT,
    EXT_FTI,
    FIXED_ALL,
    PAYLOAD_ID,
    READ,
    Header,
    extensions_of,
    fixed_fields,
    header_of,
    information_in,
    numbers_of,
    refusal_of,
)
from flutejoin_tools.formats.partition import Partition, fault_of
from flutejoin_tools.formats.records import Buffer

T = TypeVar("T")
U = TypeVar("U")
LONGEST = 65535  # bytes of a datagram
TIMES = 0x0C  # the flags T and R in the second byte of a header
CLOSES = 0x03  # the flags A and B
CODED = 1, 2, 3  # ZLIB, DEFLATE, GZIP
MOST = 1024  # headers, and objects, that are remembered of a sender
MOST_TIMES = 8  # how many times as long as a packet the datagrams may be that are written of it
EACH = 60  # seconds between two lines about a sender of whom everything is refused

VERSION, ENCODING, TIME, SEVERAL = "FLUTE 1", "EXT_CENC", "SCT or ERT", "several symbols a packet"
TOLD = {
    VERSION: "written as FLUTE 2",
    ENCODING: "written without, since the FDT tells how a file is encoded",
    TIME: "written without these fields of RFC 3451",
    SEVERAL: "written one in each",
}
# An object: its TSI, its TOI, and the FDT Instance ID if that is 0
Key = Tuple[int, int, int]
# FEC Encoding IDs that IANA has registered
FEC = {
    0: "No-Code",
    1: "Raptor",
    2: "Reed-Solomon over GF(2^m)",
    3: "LDPC Staircase",
    4: "LDPC Triangle",
    5: "Reed-Solomon over GF(2^8)",
    6: "RaptorQ",
    128: "Small Block, Large Block and Expandable",
    129: "Small Block Systematic",
    130: "Compact",
}
# The help of --as-received
WITHOUT_CHANGE = (
    "keep datagrams as they came, also those of other forms of FLUTE, and what flutejoin refuses"
)
SHORT = f"several symbols a packet, so short that they would take {MOST_TIMES} times its bytes"
CLOSE = "the end of a session or an object, told by a packet without TOI"


class Form(NamedTuple):
    """The header of a packet, with extensions that are whole."""

    header: Header
    extensions: list[tuple[int, int, int]]  # type, begin, end

    def place_of(self, kind: int) -> Optional[int]:
        """Where the first extension of this kind begins; None if there is none."""
        return next((begin for found, begin, _ in self.extensions if found == kind), None)


class Plan(NamedTuple):
    """How packets of one header are written as FLUTE 2, or why they are left out or refused."""

    cause: Optional[str] = None  # why they are left out
    refusal: Optional[str] = None  # why flutejoin refuses them
    head: Optional[bytes] = None  # the header that is written; None if it stays
    forms: Sequence[str] = ()  # of FLUTE, in which they came
    information: bytes = b""  # the lengths in EXT_FTI
    key: Optional[Key] = None  # the object, if there is no EXT_FTI


class Taken(NamedTuple):
    """What becomes of a datagram."""

    datagrams: Sequence[Buffer]  # that are written
    left_out: Optional[str] = None  # why none is
    refusal: Optional[str] = None  # why flutejoin will refuse it

    def is_flute(self) -> bool:
        return self.left_out is None and self.refusal is None


def whole_extensions(payload: Buffer, header: Header) -> Optional[list[tuple[int, int, int]]]:
    """The extensions of a header, if they end where it ends, and none is read twice."""
    if header.extensions > header.end:
        return None
    found = list(extensions_of(payload, header))
    kinds = [kind for kind, _, _ in found if kind in READ]
    is_whole = (found[-1][2] if found else header.extensions) == header.end
    return found if is_whole and len(set(kinds)) == len(kinds) else None


def form_of(head: Buffer) -> Optional[Form]:
    """The form of a packet that begins with these bytes; None if its header is no LCT header."""
    header = header_of(head)
    found = whole_extensions(head, header) if header else None
    return None if header is None or found is None else Form(header, found)


@functools.lru_cache(maxsize=256)
def partition_of(information: bytes) -> Optional[Partition]:
    """How an object is cut; None if it has no symbols, or the lengths are not valid."""
    numbers = numbers_of(information)
    return Partition(*numbers) if numbers[0] and not fault_of(*numbers) else None


def count_of(payload: Buffer, end: int, partition: Partition) -> int:
    """How many symbols are in a payload, if there are several that fit exactly; else 0.

    `end` is that of the header.
    """
    length, symbol, _ = partition.numbers
    size = len(payload) - end - PAYLOAD_ID.size
    if size <= symbol:
        return 0
    number, first = PAYLOAD_ID.unpack_from(payload, end)
    count = -(-size // symbol)
    if number >= partition.blocks or first + count > partition.size(number):
        return 0
    rest = size - (count - 1) * symbol
    if rest < symbol:
        is_last = partition.start(number) + first + count == partition.symbols
        if not is_last or rest != length - (partition.symbols - 1) * symbol:
            return 0
    return count


def symbols_of(payload: Buffer, end: int, symbol: int, count: int) -> Iterator[bytes]:
    """The symbols of a payload, each behind its payload ID."""
    number, first = PAYLOAD_ID.unpack_from(payload, end)
    begin = end + PAYLOAD_ID.size
    for at in range(count):
        place = begin + at * symbol
        yield PAYLOAD_ID.pack(number, first + at) + payload[place : place + symbol]


def times_of(payload: Buffer) -> int:
    """How many bytes SCT and ERT have, if the flags T and R stand for these fields."""
    return 4 * ((payload[1] >> 3 & 1) + (payload[1] >> 2 & 1))


def cause_of(head: bytes, refusal: str) -> Optional[str]:
    """Why packets with a whole header can't be FLUTE 2 in any form; None if that isn't certain.

    For these causes flutejoin refuses a packet whatever else it contains. They are few, since
    whoever can send may forge each.
    """
    header = Header(*fixed_fields(head[0], head[1]), len(head))
    behind = header._replace(extensions=header.extensions + times_of(head))
    found = whole_extensions(head, header) or whole_extensions(head, behind)
    if found is None and header.extensions != header.end:
        return None
    first, number = head[0], head[3]
    places = {kind: begin for kind, begin, _ in found or ()}
    if refusal == "LctVersion":
        # Of another protocol the rest would hardly be as in LCT.
        is_like_lct = not first & 15 and number in FEC and header.tsi < header.toi
        return f"LCT version {first >> 4}" if is_like_lct else None
    if refusal == "NoToi" and head[1] & CLOSES:
        return CLOSE
    if refusal == "Codepoint":
        # In ROUTE it numbers formats; the first bit of PSI marks source packets, which have no such
        # extensions (RFC 9223, section 2.1).
        is_route = first & 2 and not places.keys() & set(READ) and not 10 < number < 128
        if number not in FEC:
            return "ROUTE" if is_route else "an unknown FEC Encoding ID"
        return f"FEC Encoding ID {number} ({FEC[number]})" + (", or ROUTE" if is_route else "")
    if refusal == "FluteVersion":
        return f"FLUTE version {head[places[EXT_FDT] + 1] >> 4}"
    if refusal == "ContentEncoded":
        return "an unknown content encoding (EXT_CENC)"
    return None


class Adapting:
    """What one sender's datagrams tell of their form, and how they are written."""

    def __init__(self) -> None:
        self.plans: dict[bytes, Plan] = {}  # by header
        # Headers that stay, with the most bytes of a packet of one symbol
        self.plain: dict[bytes, int] = {}
        self.versions: dict[int, int] = {}  # of FLUTE, by TSI
        self.known: dict[Key, bytes] = {}  # the lengths in EXT_FTI; none if they differ
        self.without: dict[Key, bytes] = {}  # of those in `plain` the one without EXT_FTI
        self.accepted = 0
        self.forms: collections.Counter[str] = collections.Counter()
        self.refused: collections.Counter[str] = collections.Counter()
        self.told_forms: set[str] = set()
        self.told_at = float("-inf")

    def forget(self) -> None:
        """Forgets all that takes memory."""
        self.plans.clear()
        self.plain.clear()
        self.versions.clear()
        self.known.clear()
        self.without.clear()

    def is_plain(self, payload: bytes) -> bool:
        """Whether a datagram has one symbol behind a header that is known: a quick test."""
        end = 4 * payload[2] if len(payload) > 3 else 0
        return end + PAYLOAD_ID.size < len(payload) <= self.plain.get(payload[:end], 0)

    def take(self, payload: Buffer) -> Taken:
        """What is written of a datagram."""
        end = 4 * payload[2] if len(payload) > 3 else 0
        if not 4 <= end <= len(payload) <= LONGEST or 0 < len(payload) - end < PAYLOAD_ID.size:
            return self.refuse(payload, refusal_of(payload))
        head = bytes(payload[:end])
        plan = self.plans.get(head) or self.timed(head) or self.plan(head)
        if plan.cause:
            return Taken((), plan.cause)
        if plan.refusal:
            return self.refuse(payload, plan.refusal)
        self.accepted += 1
        self.forms.update(plan.forms)
        information = self.known.get(plan.key, b"") if plan.key else plan.information
        partition = partition_of(information) if information else None
        count = count_of(payload, end, partition) if partition else 0
        if count * end > MOST_TIMES * len(payload):
            return Taken((), SHORT)
        if partition and count:
            self.forms[SEVERAL] += 1
            symbols = symbols_of(payload, end, partition.numbers[1], count)
            return Taken([(plan.head or head) + symbol for symbol in symbols])
        return Taken((payload,) if plan.head is None else (plan.head + payload[end:],))

    def refuse(self, payload: Buffer, refusal: Optional[str]) -> Taken:
        """Counts a datagram that flutejoin will refuse, and hands it on as it came."""
        self.refused[str(refusal)] += 1
        return Taken((payload,), None, refusal)

    def plan(self, head: bytes) -> Plan:
        """Decides what is done with packets that have this header."""
        form = form_of(head)
        written, forms = rewritten(head, form) if form else (head, [])
        refusal = refusal_of(written)
        if refusal:
            plan = Plan(cause_of(written, refusal), refusal)
        else:
            assert form
            self.learn(head, form)
            place = form.place_of(EXT_FTI)
            information = b"" if place is None else information_in(head, place)
            key = key_of(head, form) if place is None else None
            plan = Plan(None, None, written if forms else None, forms, information, key)
        if not head[1] & TIMES:  # else each packet may have another header
            self.remember(head, plan)
        return plan

    def timed(self, head: bytes) -> Optional[Plan]:
        """The plan for a header that certainly has SCT or ERT; None for others."""
        tsi, toi, place = fixed_fields(head[0], head[1])
        times = times_of(head)
        if not times or place + times > len(head):
            return None
        first = bytes([head[0], head[1] & ~TIMES, head[2] - times // 4, head[3]])
        rest = first + head[4:place] + head[place + times :]
        version = self.versions.get(int.from_bytes(head[tsi:toi], "big"))
        if version is None:
            form = form_of(rest)
            version = version_of(rest, form) if form else None
            if version is None and form and form_of(head) is None:
                version = 1
        plan = (self.plans.get(rest) or self.plan(rest)) if version == 1 else None
        if plan is None or plan.refusal:
            return None
        return plan._replace(head=plan.head or rest, forms=[TIME, *plan.forms])

    def learn(self, head: bytes, form: Form) -> None:
        """Learns from the header of a packet that flutejoin accepts, as it is written."""
        version, tsi = version_of(head, form), tsi_of(head, form)
        if version and self.versions.get(tsi) != 1:
            self.versions[tsi] = version
            drop_oldest(self.versions)
        place = form.place_of(EXT_FTI)
        if place is None:
            return
        key, information = key_of(head, form), information_in(head, place)
        before = self.known.get(key)
        if before != information:
            self.known[key] = information if before is None else b""
            drop_oldest(self.known)
            self.plain.pop(self.without.pop(key, b""), None)

    def remember(self, head: bytes, plan: Plan) -> None:
        """Keeps the plan of a header, and how long its packets of one symbol are."""
        self.plans[head] = plan
        drop_oldest(self.plans)
        if plan.refusal or plan.head is not None or len(head) > FIXED_ALL:
            return
        information = plan.information
        if plan.key:
            information = self.known.get(plan.key, b"")
            self.plain.pop(self.without.pop(plan.key, b""), None)
            self.without[plan.key] = head
            if len(self.without) > MOST:
                self.plain.pop(self.without.pop(next(iter(self.without))), None)
        symbol = numbers_of(information)[1] if information else 0
        self.plain[head] = len(head) + PAYLOAD_ID.size + symbol if symbol else LONGEST
        drop_oldest(self.plain)

    def lines(self, now: float) -> Iterator[str]:
        """Yields what is to be told: each form once; and once a minute that all is refused."""
        for form in [form for form in self.forms if form not in self.told_forms]:
            self.told_forms.add(form)
            yield f"sends {form}: {TOLD[form]}"
        if self.refused and not self.accepted and now >= self.told_at + EACH:
            self.told_at = now
            counts = ", ".join(f"{count} {name}" for name, count in self.refused.items())
            yield f"sends nothing that flutejoin join accepts; it refuses {counts}"


def drop_oldest(table: Dict[T, U]) -> None:
    """Removes the entry that was added first, if there are too many."""
    if len(table) > MOST:
        del table[next(iter(table))]


def tsi_of(payload: Buffer, form: Form) -> int:
    """The TSI of a packet of this form."""
    return int.from_bytes(payload[form.header.tsi : form.header.toi], "big")


def is_instance(payload: Buffer, form: Form) -> bool:
    return not any(payload[form.header.toi : form.header.extensions])


def version_of(payload: Buffer, form: Form) -> Optional[int]:
    """The version of FLUTE in a packet of an FDT Instance."""
    ext_fdt = form.place_of(EXT_FDT) if is_instance(payload, form) else None
    return None if ext_fdt is None else payload[ext_fdt + 1] >> 4


def key_of(payload: Buffer, form: Form) -> Key:
    """The TSI, the TOI, and the FDT Instance ID."""
    toi = int.from_bytes(payload[form.header.toi : form.header.extensions], "big")
    ext_fdt = None if toi else form.place_of(EXT_FDT)
    number = payload[ext_fdt + 1 : ext_fdt + 4] if ext_fdt is not None else b""
    return tsi_of(payload, form), toi, int.from_bytes(number, "big") & 0xFFFFF


def rewritten(payload: Buffer, form: Form) -> tuple[bytes, list[str]]:
    """A header in the form that flutejoin reads, and the forms in which it came."""
    head, forms = bytearray(payload[: form.header.extensions]), []
    for kind, begin, end in form.extensions:
        if kind == EXT_CENC and payload[begin + 1] in CODED:
            forms.append(ENCODING)
            continue
        place = len(head)
        head += payload[begin:end]
        if kind == EXT_FDT and version_of(payload, form) == 1:
            head[place + 1] += 0x10
            forms.append(VERSION)
    head[2] = len(head) // 4
    return bytes(head), forms
