"""The values of the package for Python, worked out by hand."""
from __future__ import annotations

import ctypes
from typing import Callable, Optional, Union

import datagram_files
from tests.library.case import EMPTY, NUMBER, SENDER, Case

import flutejoin
from flutejoin import Fault, Journal, Object, calling
from flutejoin.library import library


class Values(Case):
    def setUp(self) -> None:
        super().setUp()
        self.write("file", b"hello")
        cut = "--symbol 4 --block 2"
        self.made(f"carousel -o sent --tsi 7 --toi 1 {cut} file")
        self.made(f"join -o whole --source {SENDER} sent")
        self.whole = self.read("whole")
        self.object = Object(NUMBER, 7, 1)

    def fault(self, call: Callable[..., object], *arguments: object) -> Optional[Fault]:
        """The fault that a call raises; None if it raises none."""
        try:
            call(*arguments)
        except Fault as fault:
            return fault
        return None

    def test_journals(self) -> None:
        (held,) = flutejoin.gaps(self.whole)
        self.holds("whole", held == (self.object, "whole", 5, ()), held)
        datagrams = [*datagram_files.read(str(self.path("sent")))]
        self.write("first", datagram_files.content(datagrams[:1]))
        self.made(f"join -o part --source {SENDER} first")
        part = self.read("part")
        (held,) = flutejoin.gaps(part)
        self.holds("a gap", held.gaps == ((0, 1, 1, "missing"),), held)
        self.holds("and how many", held.count("missing") == 1 and not held.is_whole, held)
        answer = flutejoin.fill(self.whole, flutejoin.gap_lines(part))
        self.same("filled", bytes(flutejoin.merge(part, answer)), self.whole)
        self.same("what it lacked", bytes(flutejoin.minus(self.whole, part)), bytes(answer))
        (found,) = flutejoin.compare(part, self.whole)
        self.holds("compared", found == (self.object, 1, 0, 0, 1, "same"), found)
        fault = self.fault(flutejoin.merge, part, b"FLJN")
        is_second = isinstance(fault, flutejoin.InputFault) and fault.number == 2
        self.holds("cut", is_second and str(fault) == "input 2: Cut", fault)
        fault = self.fault(flutejoin.fill, self.whole, b"x\n")
        is_first = isinstance(fault, flutejoin.BadLine) and fault.number == 1
        self.holds("no line", is_first and str(fault) == "bad line 1", fault)

    def test_joins(self) -> None:
        sent, whole = self.read("sent"), Journal(self.whole)
        found = flutejoin.join(sent, sender=NUMBER)
        self.holds("a datagram file", found == (whole, 2, 0, 3), found)
        found = flutejoin.join(self.whole, sent, sender=NUMBER)
        self.holds("and its journal", found == (whole, 2, 0, 3), found)
        groups: list[tuple[Union[Journal, bytes], ...]] = [
            (self.whole,),
            (whole,),
            (b"", self.whole),
            (Journal(), whole),
        ]
        for group in groups:
            found = flutejoin.join(*group)
            self.holds(f"of {len(group)}", found == (whole, 0, 0, 3), found)
        (held,) = flutejoin.gaps(flutejoin.join(sent).journal)
        self.holds("without a sender", held.object == self.object._replace(sender=0), held)
        refused = datagram_files.content([b"\x10"])
        self.holds("refused", flutejoin.join(refused) == (Journal(), 1, 1, 0), refused)
        for number, inputs in enumerate([(b"",), (self.whole, b"")], 1):
            fault = self.fault(flutejoin.join, *inputs)
            is_it = isinstance(fault, flutejoin.UnknownKind) and fault.number == number
            self.holds("neither", is_it and str(fault) == f"input {number}: unknown kind", fault)
        for inputs in (self.whole[:-1], sent[:-1]), (sent, b"FLJN"):
            fault = self.fault(flutejoin.join, *inputs)
            is_it = isinstance(fault, flutejoin.InputFault) and fault.number == 2
            self.holds("cut", is_it and str(fault) == "input 2: Cut", fault)
        for sender in -1, 2**128:
            fault = self.fault(lambda: flutejoin.join(sent, sender=sender))
            is_bad = isinstance(fault, flutejoin.BadArgument) and str(fault) == "bad argument"
            self.holds("no address", is_bad, fault)

    def test_sizes(self) -> None:
        """Of 65 sessions one is too many for a call that is not of any size."""
        head = bytes.fromhex("10A0040000000000")
        sent = [head + bytes([0, 0, 0, tsi, 0, 0, 0, 1, 0, 0, 0, 0, 7]) for tsi in range(65)]
        first, second = datagram_files.content(sent[:33]), datagram_files.content(sent[32:])
        found = flutejoin.join(first, second, any_size=True)
        self.holds("of any size", found[1:] == (66, 0, 65), found)
        lines = flutejoin.gap_lines(found.journal, any_size=True)
        self.holds("gaps", lines.count(b"no information") == 65, lines)
        named = Object(0, 64, 1)
        status = flutejoin.status(found.journal, named, any_size=True)
        self.holds("status", status.status == "no information", status)
        fault = self.fault(lambda: flutejoin.extract(found.journal, named, any_size=True))
        self.holds("extract", isinstance(fault, flutejoin.NoInformation), fault)
        self.is_full(flutejoin.join, first, second)
        self.is_full(flutejoin.gap_lines, found.journal)
        for call in flutejoin.status, flutejoin.extract:
            self.is_full(call, found.journal, named)
        most = flutejoin.join(first, datagram_files.content(sent[33:64]))
        self.holds("as many as are taken in", most[1:] == (64, 0, 64), most)

    def is_full(self, call: Callable[..., object], *arguments: object) -> None:
        fault = self.fault(call, *arguments)
        self.holds("full", isinstance(fault, flutejoin.Full) and str(fault) == "full", fault)

    def test_objects(self) -> None:
        """An object that is whole, in part, in conflict, or not there."""
        self.same("extracted", flutejoin.extract(self.whole, self.object), b"hello")
        named = ctypes.byref(calling.fields_of(self.object))
        arguments = *calling.words(self.whole), named, 0
        held = calling.given(library().flutejoin_extract, arguments, 2)
        self.same("first with too small a room", held, b"hello")
        found = flutejoin.status(self.whole, self.object)
        self.holds("whole", found == ("whole", 5, 0, 0, 0) and found.is_whole, found)
        name = f"--source {SENDER} --tsi 7 --toi 1"
        self.made(f"forget -o part {name} --symbol 0/1 whole")
        self.told("part", ("partial", None, 1, 0, 0), flutejoin.NotWhole, "not whole: 0/1")
        fault = self.fault(flutejoin.extract, self.read("part"), self.object)
        lacks = isinstance(fault, flutejoin.NotWhole) and fault.symbol == (0, 1)
        self.holds("the first that is wanted", lacks, fault)
        self.made(f"forget -o symbols {name} --info whole")
        told = "no information"
        self.told("symbols", (told, None, 0, 0, 0), flutejoin.NoInformation, told)
        self.made(f"info -o twice {name} --length 6 --symbol 4 --block 2 whole")
        told = "conflicting information"
        self.told("twice", (told, None, 0, 0, 0), flutejoin.ConflictingInformation, told)
        for call in flutejoin.status, flutejoin.extract:
            fault = self.fault(call, self.whole, self.object._replace(toi=2))
            self.holds("not there", isinstance(fault, flutejoin.NoObject), fault)

    def told(self, name: str, status: tuple[object, ...], kind: type[Fault], text: str) -> None:
        """A journal has this status of the object, and this fault."""
        found = flutejoin.status(self.read(name), self.object)
        self.holds(name, found == status, found)
        fault = self.fault(flutejoin.extract, self.read(name), self.object)
        self.holds(name, isinstance(fault, kind) and str(fault) == text, fault)

    def test_names(self) -> None:
        """Numbers at the edges of those that name an object."""
        most = Object(2**128 - 1, 2**48 - 1, 2**112 - 1)
        for named in (most, Object(0, 0, 0, 2**20 - 1), Object(0, 0, 1)):
            for call in flutejoin.status, flutejoin.extract:
                fault = self.fault(call, EMPTY, named)
                self.holds(f"{named}", isinstance(fault, flutejoin.NoObject), fault)
        wrong = (
            *(most._replace(sender=2**128), most._replace(tsi=2**48), most._replace(tsi=2**64)),
            *(most._replace(tsi=-1), most._replace(toi=2**112), most._replace(toi=0)),
            *(most._replace(instance=1), Object(0, 0, 0, 2**20), Object(0, 0, 0, 2**32)),
        )
        for named in wrong:
            for call in flutejoin.status, flutejoin.extract:
                fault = self.fault(call, EMPTY, named)
                is_bad = isinstance(fault, flutejoin.BadKey) and str(fault) == "bad key"
                self.holds(f"{named}", is_bad, fault)

    def test_packet(self) -> None:
        packet = flutejoin.read(next(datagram_files.read(str(self.path("sent")))))
        self.holds("its object", packet.object(NUMBER) == self.object, packet)
        self.holds("its information", packet.information == (5, 4, 2), packet)
        self.holds("its symbol", packet.symbol == (0, 0, b"hell"), packet)
        fault = self.fault(flutejoin.read, b"\x10")
        is_second = isinstance(fault, flutejoin.Refused) and fault.number == 2
        self.holds("refused", is_second and str(fault) == "refused: 2 TooShort", fault)
