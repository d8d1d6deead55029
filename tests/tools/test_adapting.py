"""Tests how the tools write datagrams of other forms of FLUTE: rows of bytes, and random packets
that the program has to read as they were sent."""
from __future__ import annotations

import random
import struct
from typing import NamedTuple

from flutejoin_tools.formats.adapting import MOST, SHORT, Adapting
from flutejoin_tools.formats.packets import refusal_of
from tests.support import run
from tests.support.drawn_packets import extension, number_of

# A header with TSI 7 and TOI 1, or TOI 0, in 32 bits; the length is that without extensions
OBJECT = "10A0{:02X}00 00000000 00000007 00000001"
INSTANCE = "10A0{:02X}00 00000000 00000007 00000000"
TIMED = "10A{:X}{:02X}00 00000000 00000007 0000000{}"
FDT1, FDT2 = "C0100005", "C0200005"
GZIP = "C1030000"
# 21 bytes in symbols of 4 and blocks of at most 4: blocks of 3 and 3 symbols, the last of 1 byte
FTI = "40040000 00000015 00000004 00000004"
SCT, ERT = "00015F90", "000F4240"  # as an extension, SCT has one word
IN_TWO = "00010001"  # block 1, symbol 1


def of(text: str) -> bytes:
    return bytes.fromhex(text)


def packet(head: str, *rest: str) -> bytes:
    """A packet whose header ends before its Payload ID, the last but one part; the words of its
    extensions are counted."""
    words = 4 + sum(len(of(part)) // 4 for part in rest[:-2])
    return of(head.format(words) + " ".join(rest))


class Rows(run.Case):
    def taken(self, *packets: bytes) -> list[list[str]]:
        """What is written of each packet of one sender, in hexadecimal."""
        adapting = Adapting()
        taken = [adapting.take(packet) for packet in packets]
        return [[bytes(datagram).hex() for datagram in each.datagrams] for each in taken]

    def becomes(self, name: str, packets: list[bytes], *wanted: bytes) -> None:
        """The last one becomes these datagrams. The earlier ones are seen before."""
        datagrams = self.taken(*packets)[-1]
        self.holds(name, datagrams == [each.hex() for each in wanted], datagrams)

    def stays(self, name: str, *packets: bytes) -> None:
        self.becomes(name, [*packets], packets[-1])

    def is_left_out(self, cause: str, text: str) -> None:
        taken = Adapting().take(of(text))
        self.holds(cause, (taken.left_out, list(taken.datagrams)) == (cause, []), taken)
        done = self.program(["packet", of(text).hex()])
        self.holds(f"{cause}: the program refuses it", b"refused: " in done.err, done)

    def test_version(self) -> None:
        first = packet(INSTANCE, FDT1, FTI, "00000000", "3C3C3C3C")
        second = packet(INSTANCE, FDT2, FTI, "00000000", "3C3C3C3C")
        self.becomes("version 1", [first], second)
        self.stays("version 2", second)
        self.becomes("both", [second, first], second)
        self.stays("of a file", packet(OBJECT, FDT1, "00000000", "3C"))
        self.stays("twice", packet(INSTANCE, FDT1, FDT1, "00000000", "3C"))
        wrong = FTI.replace("00000004 00000004", "00000000 00000004")
        self.stays("with wrong lengths", packet(INSTANCE, FDT1, wrong, "00000000", "3C"))

    def test_encoding(self) -> None:
        plain = packet(OBJECT, FTI, "00000000", "61626364")
        for number in 1, 2, 3:
            coded = f"C1{number:02X}FFFF"
            first = packet(OBJECT, coded, FTI, "00000000", "61626364")
            last = packet(OBJECT, FTI, coded, "00000000", "61626364")
            self.becomes(f"{number} first", [first], plain)
            self.becomes(f"{number} last", [last], plain)
        self.stays("none", packet(OBJECT, "C1000000", FTI, "00000000", "61626364"))
        self.stays("twice", packet(OBJECT, GZIP, GZIP, "00000000", "61626364"))
        wanted = packet(INSTANCE, "02010000", FDT2, "FF000000", "00000000", "61")
        given = packet(INSTANCE, "02010000", FDT1, GZIP, "FF000000", "00000000", "61")
        self.becomes("among others, with version 1", [given], wanted)
        empty = of("10A00500 00000000 00000007 00000001 C1010000")
        self.becomes("no symbol", [empty], of("10A00400 00000000 00000007 00000001"))

    def test_times(self) -> None:
        first = packet(INSTANCE, FDT1, "00000000", "3C")
        second = packet(INSTANCE, FDT2, "00000000", "3C")
        plain = packet(OBJECT, FTI, "00000000", "61626364")
        rows = ("8", SCT, 9), ("4", ERT, 9), ("C", SCT + ERT, 10)
        for flags, fields, words in rows:
            front = TIMED.format(int(flags, 16), words, 1)
            timed = of(front + fields + FTI + "00000000 61626364")
            self.becomes(f"{flags} of FLUTE 1", [first, timed], plain)
            self.stays(f"{flags} of FLUTE 2", second, timed)
        # HEL 0 as an extension, so these fields are there
        timed = of(TIMED.format(8, 9, 1) + "00003A98" + FTI + "00000000 61626364")
        self.becomes("whole with the field alone", [timed], plain)
        self.stays("not so where FLUTE 2 is known", second, timed)
        self.becomes("FLUTE 1 later", [second, first, timed], plain)
        timed = of(TIMED.format(8, 9, 1) + SCT + FTI + "00000000 61626364")
        self.stays("whole with the field and without", timed)
        timed = of(TIMED.format(12, 7, 0) + SCT + ERT + FDT1 + "00000000 3C")
        self.becomes("an FDT Instance itself", [timed], second)
        self.stays("no room", of(TIMED.format(12, 5, 1) + SCT + "00000000 61"))
        other = "10A80900 00000000 00000008 00000001"
        self.stays("of another session", first, of(other + SCT + FTI + "00000000 61626364"))

    def test_symbols(self) -> None:
        three = "61626364 65666768 696A6B6C"
        each = [packet(OBJECT, FTI, f"0000{at:04X}", three.split()[at]) for at in range(3)]
        self.becomes("three", [packet(OBJECT, FTI, "00000000", three)], *each)
        self.becomes("two", [packet(OBJECT, FTI, "00000001", three[9:])], *each[1:])
        last = packet(OBJECT, FTI, IN_TWO, "61626364"), packet(OBJECT, FTI, "00010002", "65")
        self.becomes("the last", [packet(OBJECT, FTI, IN_TWO, "6162636465")], *last)
        padded = last[0], packet(OBJECT, FTI, "00010002", "65000000")
        self.becomes("the last, padded", [packet(OBJECT, FTI, IN_TWO, "6162636465000000")], *padded)
        self.stays("one", packet(OBJECT, FTI, "00000000", "61626364"))
        self.stays("a short one", packet(OBJECT, FTI, "00000000", "616263"))
        self.stays("a short one at the end", packet(OBJECT, FTI, "00000000", "6162636465"))
        self.stays("beyond the block", packet(OBJECT, FTI, "00000002", "6162636465666768"))
        self.stays("beyond the object", packet(OBJECT, FTI, "00020000", "6162636465666768"))
        self.stays("too long at the end", packet(OBJECT, FTI, IN_TWO, "616263646566"))
        self.stays("four in a block of three", packet(OBJECT, FTI, "00000000", three + three[:8]))
        coded = packet(OBJECT, GZIP, FTI, "00000000", three)
        self.becomes("without EXT_CENC", [coded], *each)
        parts = [(f"0000{at:04X}", part) for at, part in enumerate(three.split())]
        instance = [packet(INSTANCE, FDT2, FTI, *part) for part in parts]
        first = packet(INSTANCE, FDT1, FTI, "00000000", three)
        self.becomes("of an FDT Instance", [first], *instance)

    def test_many_short_ones(self) -> None:
        """What would take much more than the packet is left out, and nothing else."""
        front, each = OBJECT.format(8), "00000000" + "61" * 64
        for size, count in (1, 0), (4, 16), (64, 1):
            lengths = struct.pack(">BBHIHHI", 64, 4, 0, 2000, 0, size, 1000).hex()
            taken = Adapting().take(of(front + lengths + each))
            told = taken.left_out, len(taken.datagrams)
            wanted = (None if count else SHORT), count
            self.holds(f"symbols of {size} bytes", told == wanted, taken)

    def test_lengths_of_earlier_packets(self) -> None:
        parts = ("00000000", "61626364"), ("00000001", "65666768")
        several = packet(OBJECT, "00000000", "6162636465666768")
        each = [packet(OBJECT, *part) for part in parts]
        told = packet(OBJECT, FTI, "00010000", "61626364")
        self.stays("not known", several)
        self.becomes("known", [told, several], *each)
        self.becomes("known later", [several, told, several], *each)
        other = packet(OBJECT, FTI.replace("15", "16"), "00010000", "61626364")
        self.stays("differing", told, other, several)
        self.stays("differing, of whatever order", other, several, told, several)
        own = packet(OBJECT, FTI, "00000000", "6162636465666768")
        with_own = [packet(OBJECT, FTI, *part) for part in parts]
        self.becomes("its own ones hold", [told, other, own], *with_own)
        another = "10A00400 00000000 00000007 00000002 00000000 6162636465666768"
        self.stays("of another object", told, of(another))
        instance = packet(INSTANCE, FDT2, FTI, "00010000", "61626364")
        later = packet(INSTANCE, "C0200006", "00000000", "6162636465666768")
        self.stays("of another FDT Instance", instance, later)
        front, behind = "10A00800 00000000 00000007", FTI + "00000000 61"
        many = [of(f"{front} {toi:08X} {behind}") for toi in range(2, MOST + 2)]
        self.stays("known of no object any more", told, *many, several)

    def test_widths(self) -> None:
        """The greatest and the smallest fields: CCI 128, TSI 48 and TOI 112 bits; 16 and 16."""
        rows = (
            ("1CF0", "00" * 16 + "000000000007" + "00" * 13 + "01"),
            ("1010", "00000000 0007 0001"),
            ("1430", "00" * 8 + "0007" + "000000000001"),
            ("10F0", "00000000" + "000000000007" + "00" * 13 + "01"),
        )
        printed = b"session 7\nobject 1\ninfo none\nsymbol 0/0 length 1 61\n"
        for first, fixed in rows:
            words = len(of(fixed)) // 4 + 1
            plain = of(f"{first}{words:02X}00 {fixed} 00000000 61")
            coded = of(f"{first}{words + 1:02X}00 {fixed} {GZIP} 00000000 61")
            self.becomes(first, [coded], plain)
            self.same(f"{first}, read", self.made(["packet", plain.hex()]).out, printed)

    def test_cut(self) -> None:
        """A packet that is cut in its header stays; one that is cut behind is as one of FLUTE 2."""
        whole = packet(INSTANCE, FDT1, GZIP, FTI, "00000000", "61626364")
        written = packet(INSTANCE, FDT2, FTI, "00000000", "61626364")
        for length in range(len(whole)):
            cut, behind = whole[:length], length - 40
            is_changed = behind == 0 or behind >= 4
            self.becomes(f"{length} bytes", [cut], written[: 36 + behind] if is_changed else cut)

    def test_causes(self) -> None:
        fti = FTI + "00000000 61626364"
        names = {1: "Raptor", 6: "RaptorQ", 129: "Small Block Systematic"}
        for number, name in names.items():
            text = f"10A008{number:02X} 00000000 00000007 00000001"
            self.is_left_out(f"FEC Encoding ID {number} ({name})", text + fti)
        raptor = "FEC Encoding ID 1 (Raptor)"
        self.is_left_out(raptor, "10A80901 00000000 00000007 00000001" + SCT + fti)
        another = "an unknown FEC Encoding ID"
        self.is_left_out(another, "10A0084D 00000000 00000007 00000001" + fti)
        self.is_left_out("ROUTE", "12A00408 00000000 00000007 00000001 00000000 61")
        self.is_left_out(f"{raptor}, or ROUTE", "12A00401 00000000 00000007 00000001 00000000 61")
        front, symbol = "00000000 00000007 0000000", "00000000 61"
        self.is_left_out("FLUTE version 3", f"10A00500 {front}0 C0300001 {symbol}")
        unknown = "an unknown content encoding (EXT_CENC)"
        self.is_left_out(unknown, f"10A00500 {front}1 C1040000 {symbol}")
        self.is_left_out(unknown, f"10A00600 {front}0 C0100001 C1040000 {symbol}")
        self.is_left_out("LCT version 2", "20A00400 00000000 00000007 00000001 00000000 61")
        end = "the end of a session or an object, told by a packet without TOI"
        self.is_left_out(end, "10820300 00000000 00000007")

    def test_what_is_no_packet(self) -> None:
        for text in "", "00", "10A00400", "FF" * 60, "00" * 60, b"GET / HTTP/1.1\r\nHost: a".hex():
            self.stays(text or "nothing", of(text))


class Sent(NamedTuple):
    """A packet, and what the program prints of the datagrams that it is written as."""

    packet: bytes
    printed: list[str]
    session: int


def sent(draw: random.Random) -> Sent:
    """A packet of FLUTE 1 of random widths, with random extensions and several symbols."""
    cci, half = draw.randrange(4), draw.randrange(2)
    tsi_words = draw.randrange(1 - half, 2)
    toi_words = draw.randrange(1 - half, 4)
    tsi = number_of(draw, 4 * tsi_words + 2 * half)
    is_instance, times = draw.random() < 0.3, draw.randrange(4)
    size = 4 * toi_words + 2 * half
    toi = bytes(size) if is_instance else number_of(draw, size)
    symbol, block, length = draw.randrange(1, 40), draw.randrange(1, 12), draw.randrange(1, 2000)
    extensions = [extension(draw) for _ in range(draw.randrange(3))]
    extensions.append(struct.pack(">BBHIHHI", 64, 4, 0, length, 0xBEEF, symbol, block))
    name = str(int.from_bytes(toi, "big"))
    if is_instance:
        number = draw.randrange(1 << 20)
        extensions.append(struct.pack(">I", 192 << 24 | 1 << 20 | number))
        name = f"fdt {number}"
    if draw.random() < 0.5:
        extensions.append(bytes([193, draw.randrange(4), 0, 0]))
    draw.shuffle(extensions)
    fields = draw.randbytes(4 * (times >> 1) + 4 * (times & 1)) + b"".join(extensions)
    front = draw.randbytes(4 * cci + 4) + tsi + toi + fields
    flags = tsi_words << 7 | toi_words << 5 | half << 4 | times << 2 | draw.randrange(4)
    head = bytes([0x10 | cci << 2, flags, 1 + len(front) // 4, 0]) + front

    # Section 9.1 of RFC 5052
    symbols = -(-length // symbol)
    blocks = -(-symbols // block)
    sizes = [symbols // blocks + (at < symbols % blocks) for at in range(blocks)]
    sbn = draw.randrange(blocks)
    esi = draw.randrange(sizes[sbn])
    count = draw.randrange(1, min(sizes[sbn] - esi, 5) + 1)
    at = (sum(sizes[:sbn]) + esi) * symbol
    content = draw.randbytes(length)
    told = f"session {int.from_bytes(tsi, 'big')}\nobject {name}\n"
    told += f"info length {length} symbol {symbol} block {block}\n"
    printed = []
    for place in range(count):
        data = content[at + place * symbol : at + (place + 1) * symbol]
        printed.append(told + f"symbol {sbn}/{esi + place} length {len(data)} {data.hex()}\n")
    data = content[at : at + count * symbol]
    return Sent(head + struct.pack(">HH", sbn, esi) + data, printed, int.from_bytes(tsi, "big"))


class Drawn(run.Case):
    def view(self, datagram: bytes) -> str:
        """What `flutejoin packet` prints of a datagram."""
        done = self.program(["packet", datagram.hex()])
        return (done.err or done.out).decode()

    def test_packets(self) -> None:
        """The program reads what was sent, symbol for symbol."""
        draw, several, timed = random.Random(65), 0, 0
        for number in range(300):
            made, adapting = sent(draw), Adapting()
            # The session's FDT Instances have version 1.
            adapting.versions[made.session] = 1
            taken = adapting.take(made.packet)
            views = [self.view(bytes(datagram)) for datagram in taken.datagrams]
            self.holds(f"{number}", views == made.printed, f"{made}: {views}")
            several += len(views) > 1
            timed += made.packet[1] & 0x0C > 0
        self.holds("some have several symbols, or times", several > 50 < timed, (several, timed))

    def test_damage(self) -> None:
        """Of packets with wrong bytes, or cut: why the program refuses one is known, and what it
        takes as it came is not changed, but for several symbols."""
        draw, refused, changed = random.Random(66), 0, 0
        for number in range(600):
            packet = bytearray(sent(draw).packet)
            for _ in range(draw.randrange(4)):
                packet[draw.randrange(min(len(packet), 60))] = draw.randrange(256)
            packet = packet[: draw.randrange(len(packet)) if draw.random() < 0.2 else len(packet)]
            whole, view = bytes(packet), self.view(bytes(packet))
            reason = view.split()[2] if view.startswith("refused: ") else None
            self.holds(f"{number}: {reason}", refusal_of(whole) == reason, f"{whole.hex()} {view}")
            taken = Adapting().take(whole)
            refused += reason is not None
            if taken.left_out:
                self.holds(f"{number} is left out", reason and not taken.datagrams, taken)
            elif list(taken.datagrams) != [whole]:
                changed += 1
                views = [self.view(bytes(datagram)) for datagram in taken.datagrams]
                are_read = all(not view.startswith("refused") for view in views)
                self.holds(f"{number} is read", are_read, f"{whole.hex()} {views}")
            else:
                self.holds(f"{number} is as told", taken.refusal == reason, taken)
        self.holds("some are refused, some changed", refused > 50 < changed, (refused, changed))
