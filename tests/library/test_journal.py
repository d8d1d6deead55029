"""Journals as the package for Python has them, worked out by hand."""
from __future__ import annotations

import concurrent.futures
import copy
import dataclasses
import pickle
from typing import Callable

import datagram_files
from tests.library.case import EMPTY, NUMBER, SENDER, Case
from tests.support.run import version2

import flutejoin
from flutejoin import Entry, Fault, Information, Journal, Object, Symbol, calling, faults
from flutejoin.library import library

# Entries of version 1, behind their kind: the TSI, the tag and the number of a file, and of an
# FDT Instance; a journal of both
FILE = "000000000007 01 0000000000000000000000000001"
INSTANCE = "000000000007 00 00000000000000000000000FFFFF"
OLD = f"""464C4A4E0001
01 {INSTANCE} 000000000005 0004 00000002
03 {INSTANCE} 00000001 0001 6F
02 {FILE}
04 {FILE} FFFF0000
03 {FILE} FFFFFFFE 0002 6869
FF 0000000000000005"""
A_FILE, AN_INSTANCE = Object(0, 7, 1), Object(0, 7, 0, 2**20 - 1)
SAID = [
    Entry(AN_INSTANCE, "information", Information(5, 4, 2), None),
    Entry(AN_INSTANCE, "symbol", None, Symbol(0, 1, b"o")),
    Entry(A_FILE, "information conflict", None, None),
    Entry(A_FILE, "symbol conflict", None, Symbol(65535, 0, b"")),
    Entry(A_FILE, "symbol", None, Symbol(65535, 65534, b"hi")),
]

# Functions that take a journal, or bytes
OF_JOURNALS = "read", "join", "entries", "merge", "minus", "fill", "gaps", "gap_lines", "compare"


class OfBytes(bytes):
    """A kind of bytes."""


class Journals(Case):
    def setUp(self) -> None:
        super().setUp()
        self.write("file", b"hello")
        self.made("carousel -o sent --tsi 7 --toi 1 --symbol 4 --block 2 file")
        datagrams = [*datagram_files.read(str(self.path("sent")))]
        for name, of in ("first", datagrams[:1]), ("second", datagrams[1:]):
            self.write("some", datagram_files.content(of))
            self.made(f"join -o {name} --source {SENDER} some")
        self.first = Journal.read(self.path("first"))
        self.second = Journal(self.read("second"))

    def raises(self, kind: type[Exception], call: Callable[..., object], *given: object) -> str:
        """The text of what a call raises."""
        try:
            call(*given)
        except kind as error:
            return str(error)
        return "nothing was raised"

    def test_bytes(self) -> None:
        data = self.read("first")
        other: object = data
        self.same("its bytes", bytes(self.first), data)
        self.holds("of an array", Journal(bytearray(data)) == self.first)
        self.holds("of a view", Journal(memoryview(data)) == self.first)
        self.holds("of nothing", Journal() == Journal(EMPTY) and not [*Journal().entries()])
        self.holds("not equal", self.first != self.second and self.first != other)
        self.holds("a key", {self.first: 1, self.second: 2}[Journal(data)] == 1)
        again = pickle.loads(pickle.dumps(self.first)), copy.copy(self.first)
        for journal in *again, copy.deepcopy(self.first):
            is_it = journal == self.first and hash(journal) == hash(self.first)
            self.holds("pickled or copied", is_it, journal)
        every_other = memoryview(b"".join(bytes([byte, 0]) for byte in data))[::2]
        self.holds("of a view with steps", Journal(every_other) == self.first)
        self.holds("of a kind of bytes", type(bytes(Journal(OfBytes(data)))) is bytes)
        self.holds("shown", repr(self.first) == f"<Journal of {len(data)} bytes>", self.first)

    def test_constant(self) -> None:
        """What it was made of may change, and it does not."""
        data = bytearray(self.read("first"))
        journal = Journal(data)
        data[-1] ^= 1
        self.holds("as it was", journal == self.first)
        told = self.raises(dataclasses.FrozenInstanceError, setattr, journal, "_data", b"")
        self.holds("frozen", told == "cannot assign to field '_data'", told)

    def test_wrong_bytes(self) -> None:
        data = self.read("first")
        faults = (b"", "Cut"), (data[:-1], "Cut"), (b"FLDG", "Magic"), (data + b"\0", "Trailing")
        for given, fault in faults:
            self.write("wrong", given)
            for make in lambda: Journal(given), lambda: Journal.read(self.path("wrong")):
                told = self.raises(flutejoin.InputFault, make)
                self.holds(f"{fault}", told == f"input 1: {fault}", told)
            told = self.raises(flutejoin.InputFault, flutejoin.entries, given)
            self.holds(f"entries: {fault}", told == f"input 1: {fault}", told)
            for call in self.first.merge, self.first.minus, self.first.compare:
                told = self.raises(flutejoin.InputFault, call, given)
                self.holds(f"the other: {fault}", told == f"input 2: {fault}", told)
        told = self.raises(OSError, Journal.read, self.path("missing"))
        self.holds("no such file", "No such file" in told, told)

    def test_no_bytes(self) -> None:
        """A number or a text is no bytes, also where `bytes` makes some of it."""
        calls = {name: getattr(flutejoin, name) for name in OF_JOURNALS}
        for other in 3, "FLJN", None, [70, 76]:
            for name, call in calls.items():
                is_second = name in ("merge", "minus", "compare", "fill")
                given = (self.first, other) if is_second else (other,)
                told = self.raises(TypeError, call, *given)
                self.holds(f"{name} {other!r}", "bytes-like" in told, told)

    def test_faults(self) -> None:
        """Another process can be told of them."""
        for number, kind in faults.KINDS.items():
            fault = kind("a text", number, 65537)
            for found in pickle.loads(pickle.dumps(fault)), copy.copy(fault):
                is_it = type(found) is kind and str(found) == "a text"
                is_it = is_it and (found.code, found.number) == (number, 65537)
                self.holds(f"{kind.__name__}", is_it, found)
        with concurrent.futures.ProcessPoolExecutor(1) as processes:
            told = self.raises(flutejoin.InputFault, processes.submit(Journal, b"FLJN").result)
        self.holds("of another process", told == "input 1: Cut", told)

    def test_threads(self) -> None:
        """Several call at once, and each gets its own answer."""
        both, wrong = self.first | self.second, self.read("first")[:-1]

        def found(turn: int) -> object:
            first, second = (self.first, self.second) if turn % 2 else (self.second, self.first)
            if turn % 5 == 0:
                return self.raises(flutejoin.InputFault, first.merge, wrong)
            return first | second, (first | second).gaps(), [*second.entries()]

        gaps = both.gaps()
        with concurrent.futures.ThreadPoolExecutor(8) as threads:
            for turn, told in enumerate(threads.map(found, range(2000))):
                entries = [*(self.second if turn % 2 else self.first).entries()]
                wanted = (both, gaps, entries) if turn % 5 else "input 2: Cut"
                if told != wanted:
                    self.holds(f"call {turn}", False, told)
        self.holds("all called", turn == 1999)

    def test_entries(self) -> None:
        self.file("old", OLD)
        self.file("new", version2("FF" * 16, OLD))
        for name, sender in ("old", 0), ("new", 2**128 - 1):
            journal = Journal.read(self.path(name))
            said = [each._replace(object=each.object._replace(sender=sender)) for each in SAID]
            found = [*journal.entries()]
            self.holds(f"{name}", found == said, found)
            self.holds(f"{name} by its bytes", [*flutejoin.entries(bytes(journal))] == said)
        conflicts = [each.is_conflict for each in SAID]
        self.holds("conflicts", conflicts == [False, False, True, True, False], conflicts)

    def test_most_room(self) -> None:
        """Of small symbols there are more than room is made for first."""
        head = bytes.fromhex("10A00400000000000000000700000001")
        datagrams = [head + esi.to_bytes(4, "big") + b"x" for esi in range(1000)]
        journal = flutejoin.join(datagram_files.content(datagrams)).journal
        found = [each.symbol for each in journal.entries()]
        self.holds("all", found == [Symbol(0, esi, b"x") for esi in range(1000)], len(found))

    def test_longer(self) -> None:
        """Of version 1 comes a journal that is longer, since each entry has a sender then."""
        names = [bytes(6) + b"\1" + toi.to_bytes(14, "big") for toi in range(1, 1001)]
        end = b"\xff" + (1000).to_bytes(8, "big")
        old = b"FLJN\0\1" + b"".join(b"\2" + name for name in names) + end
        new = b"FLJN\0\2" + b"".join(b"\2" + bytes(16) + name for name in names) + end
        calls: tuple[tuple[Callable[..., Journal], bytes], ...] = (
            *((flutejoin.merge, EMPTY), (flutejoin.minus, EMPTY), (flutejoin.fill, b"")),
        )
        for call, other in calls:
            self.same(f"{call.__name__}", bytes(call(old, other)), new)

    def test_no_room(self) -> None:
        """No bytes are a room too."""
        named = Object(NUMBER, 7, 1)
        told = self.raises(flutejoin.InputFault, flutejoin.extract, b"", named)
        self.holds("extract", told == "input 1: Cut", told)
        arguments = *calling.words(bytes(self.first)), 0, 0
        found = calling.given(library().flutejoin_gaps, arguments, 0)
        self.same("gaps", found, self.first.gap_lines())

    def test_two(self) -> None:
        both = self.first | self.second
        self.holds("merged", both == self.first.merge(self.second))
        self.holds("of bytes", both == self.first.merge(self.read("second")))
        self.holds("any order", both == self.second | self.first and both == both | both)
        more = self.second - self.first
        self.holds("what is new", more == self.second.minus(self.first) and more != self.second)
        self.holds("merged again", self.first | more == both and not [*(more - both).entries()])
        for other in bytes(self.second), 1, None:
            for name in "__or__", "__sub__":
                told = getattr(self.first, name)(other)
                self.holds(f"{name} {other!r:.9}", told is NotImplemented, told)
        (found,) = self.first.compare(self.second)
        self.holds("compared", found[1:] == (0, 0, 1, 1, "same"), found)

    def test_methods(self) -> None:
        """They do what the functions do, of a journal and of its bytes."""
        named, lines = Object(NUMBER, 7, 1), flutejoin.gap_lines(self.first)
        both = self.first | self.second
        calls: tuple[tuple[str, tuple[object, ...]], ...] = (
            *(("gaps", ()), ("gap_lines", ()), ("status", (named,)), ("extract", (named,))),
            *(("merge", (self.first,)), ("minus", (self.first,)), ("fill", (lines,))),
            *(("compare", (self.first,)), ("compare_lines", (self.first,))),
        )
        for name, more in calls:
            found = getattr(both, name)(*more)
            for journal in both, bytes(both):
                told = getattr(flutejoin, name)(journal, *more)
                self.holds(f"{name}", told == found, (told, found))
        self.holds("the file", both.extract(named) == b"hello")
        self.holds("how much", both.status(named).is_whole and both.gaps()[0].is_whole)
        filled = self.first | both.fill(lines)
        self.holds("filled", filled == both and both.fill(lines, only=True) == both - self.first)
        told = self.raises(Fault, both.fill, b"x\n")
        self.holds("no line", told == "bad line 1", told)
