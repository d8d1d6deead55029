"""Compares the tools' own parsers, of packets and of journals (tools' `formats` and `journals`),
with the library: both take the same datagrams and journals, give the same of what they take, and
else name the same fault.

DRAWN (20,000) is how many packets are drawn, of which most have wrong bytes, are cut or too long;
of journals it is a twentieth of that. SEED (11) chooses which.
"""
from __future__ import annotations

import contextlib
import io
import os
import random
import sys
import unittest.mock
from typing import Callable, Iterator, Optional, Union

from flutejoin_tools.common.joining import session_of
from flutejoin_tools.fdt.instances import may_be_of_instance
from flutejoin_tools.formats import entries, packets, reading
from flutejoin_tools.formats.records import LENGTH, Cut, ReadFault
from flutejoin_tools.journals import holdings
from tests.library.case import EMPTY, Case
from tests.support.drawn_journals import drawn_journal
from tests.support.drawn_packets import mutated, packet
from tests.support.run import ROOT

import flutejoin

Reads = Callable[[entries.Entries], Iterator[entries.Entry]]
DRAWN = int(os.environ.get("DRAWN", "20000"))
SEED = int(os.environ.get("SEED", "11"))
# Why datagrams are refused (docs/FORMATS.md): by their headers, by the lengths of extensions, and
# by what these contain
OF_HEADERS = {
    *("TooShort", "LctVersion", "HeaderLength", "HeaderCut", "NoTsi", "NoToi", "Codepoint"),
    "PayloadIdCut",
}
OF_LENGTHS = {"ExtensionLength"}
OF_CONTENTS = {
    *("Repeated", "FtiLength", "Information", "NoInstance", "FluteVersion", "ContentEncoded"),
}
# The faults of journals, but for what is due to their size
OF_JOURNALS = {
    *("Cut", "Magic", "Version", "Kind", "Key", "Order", "EmptySymbol", "Count", "Trailing"),
    *(f"Information {it}" for it in ("SymbolLength", "BlockLength", "TooManyBlocks")),
    "Information BlockTooLong",
}
KINDS = {
    **{"information": b"\1", "information conflict": b"\2"},
    **{"symbol": b"\3", "symbol conflict": b"\4"},
}


class Compared(Case):
    def setUp(self) -> None:
        super().setUp()
        self.draw = random.Random(SEED)
        self.differences: list[object] = []

    def agree(self, given: bytes, what: str, found: object, wanted: object) -> None:
        """Notes that what was found differs from what is wanted."""
        if found != wanted and len(self.differences) < 5:
            self.differences.append((given.hex()[:400], what, found, wanted))


class Packets(Compared):
    def test_drawn(self) -> None:
        refusals, taken = set(), 0
        for _ in range(DRAWN):
            datagram = mutated(self.draw, packet(self.draw))
            wanted = reading.by_library(datagram)
            refusal = None if wanted else refusal_of(datagram)
            self.agree(datagram, "packet", packets.parsed(datagram), wanted)
            self.agree(datagram, "refusal", packets.refusal_of(datagram), refusal)
            if refusal:
                refusals.add(refusal)
            if wanted:
                taken += 1
                self.agree(datagram, "TSI", session_of(datagram), wanted.tsi)
                self.agree(datagram, "TOI 0", may_be_of_instance(datagram), wanted.toi == 0)
            if refusal != "TooLong":
                self.headers_agree(datagram, refusal)
        self.holds("they agree", not self.differences, self.differences)
        every = {"TooLong", *OF_HEADERS, *OF_LENGTHS, *OF_CONTENTS}
        self.holds("each refusal is drawn", refusals == every, refusals ^ every)
        self.holds("and packets", DRAWN // 4 < taken < DRAWN // 4 * 3, taken)

    def headers_agree(self, datagram: bytes, refusal: Optional[str]) -> None:
        """What looks at headers alone takes all packets. It passes over what extensions contain,
        and sees a part of an FEC Payload ID at once, which is the last refusal of all."""
        is_right = refusal not in OF_HEADERS and len(datagram) - 4 * datagram[2] not in (1, 2, 3)
        self.agree(datagram, "header", packets.header_of(datagram) is not None, is_right)
        is_like = is_right and refusal not in OF_LENGTHS
        self.agree(datagram, "like FLUTE", packets.is_like_flute(datagram), is_like)

    def test_reader(self) -> None:
        """The library is what reads, where it is there."""
        script = "from flutejoin_tools.formats import reading as it; "
        script += "print(it.reader().__name__, it.has_entries())"
        told = "by_library True", "parsed False"
        for library, names in zip((os.environ["FLUTEJOIN_LIBRARY"], "/no"), told):
            env = {"PYTHONPATH": f"{ROOT}/tools:{ROOT}/python", "FLUTEJOIN_LIBRARY": library}
            done = self.command([sys.executable, "-c", script], env=env)
            self.check(f"by {library}", done, 0, names)


def refusal_of(datagram: bytes) -> Optional[str]:
    """The library's, without its number, and the fault of transmission information."""
    try:
        flutejoin.read(datagram)
    except flutejoin.Refused as fault:
        return str(fault).split()[2]
    return None


class Journals(Compared):
    def test_drawn(self) -> None:
        faults, taken = set(), 0
        for _ in range(DRAWN // 20):
            journal = drawn_journal(self.draw)
            found = by_entries(journal)
            listed = by_library(journal)
            self.agree(journal, "by either", said_of(journal, reading.entries_of), said_of(journal))
            try:
                wanted = flutejoin.merge(journal, EMPTY)
            except flutejoin.InputFault as fault:
                told = str(fault).partition(": ")[2]
                faults.add(told)
                self.agree(journal, "fault", found, told)
                self.agree(journal, "fault of entries", listed, told)
                with contextlib.suppress(ReadFault, Cut):  # it is told no others
                    by_holdings(journal)
            else:
                taken += 1
                copied = io.BytesIO()
                holdings.copy(io.BytesIO(journal), lambda _: True, copied, ())
                self.agree(journal, "copy", copied.getvalue(), bytes(wanted))
                self.agree(journal, "entries", found, by_holdings(bytes(wanted), leaves_out=True))
                self.agree(journal, "what they say", listed, by_holdings(journal))
        self.holds("they agree", not self.differences, self.differences)
        self.holds("each fault is drawn", faults == OF_JOURNALS, faults ^ OF_JOURNALS)
        self.holds("and journals", DRAWN // 80 < taken < DRAWN // 80 * 3, taken)

    def test_long(self) -> None:
        """Of a long journal the entries are counted by the tools' own parser, which reads it."""
        journal = b"FLJN\0\1\2" + bytes(6) + b"\1" + bytes(13) + b"\1\xff" + bytes(7) + b"\1"
        for most, count in (len(journal), 0), (len(journal) - 1, 1):
            own = entries.Entries(io.BytesIO(journal))
            with unittest.mock.patch.object(reading, "MOST_HELD", most):
                found = [entry.kind for entry in reading.entries_of(own)]
            is_so = found == [entries.INFORMATION_CONFLICT] and own.count == count
            self.holds(f"at most {most}", is_so, (found, own.count))


def by_entries(journal: bytes) -> Union[str, list[bytes]]:
    """The entries of a journal, each in version 2 and without transmission information; or the
    fault."""
    if journal[:4] != entries.Entries.magic:
        return "Magic" if len(journal) >= 4 else "Cut"
    try:
        return [written(entry) for entry in entries.Entries(io.BytesIO(journal))]
    except ReadFault as fault:
        return str(fault)
    except Cut:
        return "Cut"


def said_of(journal: bytes, read: Reads = iter) -> list[object]:
    """What is read of a journal, and then the fault."""
    found: list[object] = []
    try:
        if journal[:4] == entries.Entries.magic:
            found.extend(read(entries.Entries(io.BytesIO(journal))))
    except (ReadFault, Cut) as fault:
        found.append(repr(fault))
    return found


def by_library(journal: bytes) -> Union[str, list[bytes]]:
    """The same as the library reads it, with transmission information."""
    try:
        return [spelled(entry) for entry in flutejoin.entries(journal)]
    except flutejoin.InputFault as fault:
        return str(fault).partition(": ")[2]


def spelled(entry: flutejoin.Entry) -> bytes:
    """The bytes of an entry of the library."""
    of, info, symbol = entry.object, entry.information, entry.symbol
    tag, number = (1, of.toi) if of.instance is None else (0, of.instance)
    name = holdings.Key(of.sender.to_bytes(16, "big"), of.tsi, tag, number).raw()
    more = packets.packed(*info) if info else b""
    if symbol:
        more = packets.PAYLOAD_ID.pack(symbol.sbn, symbol.esi)
        more += b"" if entry.is_conflict else LENGTH.pack(len(symbol.data)) + symbol.data
    return KINDS[entry.kind] + name + more


def written(entry: entries.Entry) -> bytes:
    """The bytes of an entry of the tools."""
    (source, tsi, tag, number, symbol), kind, value = entry
    name = holdings.Key(source, tsi, tag, number).raw()
    size = LENGTH.pack(len(value)) if kind == entries.SYMBOL else b""
    return bytes([kind]) + name + symbol + size + value


def by_holdings(journal: bytes, *, leaves_out: bool = False) -> list[bytes]:
    """Its entries, each in version 2; it leaves transmission information out of them."""
    return [
        bytes([kind]) + name + (b"" if leaves_out and kind == entries.INFORMATION else more)
        for kind, name, more in holdings.entries(io.BytesIO(journal))
    ]
