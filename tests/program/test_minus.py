"""Tests of `minus`: what a join would change one journal by."""
from __future__ import annotations

import random
from typing import List, NamedTuple, Optional

from tests.program.case import (
    HEADER,
    HEADER2,
    HELLO_OF_ZERO,
    INFO,
    KEY,
    LAST,
    V4,
    WORLD_OF_V4,
    Case,
    ended,
)
from tests.support.run import ZERO, version2

FULL = {"to": "/dev/full"}
OTHER_LAST = f"03 {KEY} 0000 0001 0004 6F000000"
MISFIT = f"03 {KEY} 0000 0002 0001 78"
INFO_CONFLICT, LAST_CONFLICT = f"02 {KEY}", f"04 {KEY} 0000 0001"
PAIRS = 300  # of journals that are drawn
CUTS = 8  # pairs of which each input is cut at some bytes


class Minus(Case):
    def test_journals(self) -> None:
        self.journal("last", HEADER, LAST, ended(1))
        self.journal("differs", HEADER, OTHER_LAST, MISFIT, ended(2))
        self.journal("but_first", HEADER, INFO, LAST, ended(2))
        self.makes("a symbol", "minus -o got whole part", "entries 1", "last2")
        self.makes("another value", "minus -o got others whole", "entries 2", "differs2")
        self.makes("of equal values none", "minus -o got whole others", "entries 2", "but_first2")
        self.makes("all, to nothing", "minus -o got whole empty", "entries 3", "whole2")
        self.makes("nothing of nothing", "minus -o got empty whole", "entries 0", "empty2")
        self.makes("nothing of the same", "minus -o got whole whole2", "entries 0", "empty2")

    def test_conflicts(self) -> None:
        self.journal("info", HEADER, INFO, ended(1))
        self.journal("info_conflict", HEADER, INFO_CONFLICT, ended(1))
        self.journal("last_conflict", HEADER, LAST_CONFLICT, ended(1))
        self.makes("a value at a conflict", "minus -o got info conflict", "entries 0", "empty2")
        words = "minus -o got conflict info"
        self.makes("a conflict at a value", words, "entries 1", "info_conflict2")
        self.makes("both in conflict", "minus -o got conflict conflict2", "entries 0", "empty2")
        words = "minus -o got joined others"
        self.journal("of_joined", HEADER, INFO, LAST_CONFLICT, ended(2))
        self.makes("a symbol in conflict", words, "entries 2", "of_joined2")
        self.makes("no symbol at it", "minus -o got others joined", "entries 0", "empty2")

    def test_senders(self) -> None:
        self.senders()
        self.file("hello", HEADER2, HELLO_OF_ZERO, ended(3))
        self.file("of_v4", HEADER2, WORLD_OF_V4, ended(3))
        self.makes("of one of two senders", "minus -o got two hello", "entries 3", "of_v4")
        self.makes("of the same name", "minus -o got hello hello_v4", "entries 3", "hello")
        self.makes("in versions 1 and 2", "minus -o got two whole", "entries 3", "of_v4")

    def test_an_outbox(self) -> None:
        """A station sends what is new; the centre joins it, and nothing is sent twice."""
        self.write("centre", self.read("part2"))
        self.made("minus -o outbox whole centre")
        self.made("join -o centre centre outbox")
        self.same("the centre has it", "centre", "whole2")
        self.makes("nothing twice", "minus -o got whole centre", "entries 0", "empty2")

    def test_streams(self) -> None:
        self.journal("last", HEADER, LAST, ended(1))
        whole, part = self.path("whole"), self.path("part")
        out = self.read("last2")
        self.row("the first input", "minus -o - - part", 0, out, "entries 1", stdin=whole)
        self.row("the second", "minus -o - whole -", 0, out, "entries 1", stdin=part)
        self.row("a pipe", "minus -o - whole -", 0, out, "entries 1", stdin=self.read("part"))

    def test_inputs(self) -> None:
        into = "minus -o whole whole others"
        self.rows(
            ("into its input", into, 2, "", "output is an input"),
            ("into the other", "minus -o whole others whole", 2, "", "output is an input"),
            ("no first input", "minus -o got missing missing", 3, "", "cannot open input 1"),
            ("no second input", "minus -o got whole missing", 3, "", "cannot open input 2"),
            ("a bad journal", "minus -o got bad whole", 1, "", "input 1: Trailing"),
            ("a bad other", "minus -o got whole bad", 1, "", "input 2: Trailing"),
            ("a bad other behind all", "minus -o got empty bad", 1, "", "input 2: Trailing"),
            ("a datagram file", "minus -o got whole sent", 1, "", "input 2: Magic"),
            ("before its output", "minus -o no/got whole bad", 1, "", "input 2: Trailing"),
        )
        self.absent("no file after a fault", "got", "no")

    def test_outputs(self) -> None:
        self.rows(
            ("no folder", "minus -o no/got whole part", 3, "", "cannot create output"),
            ("a full output", "minus -o /dev/full whole part", 3, "", "cannot write"),
        )
        words = "minus -o got whole part"
        self.row("a full standard output", words, 3, "", "cannot write", **FULL)


class Place(NamedTuple):
    """An address, with the entries that a journal may have there; the last is a conflict."""

    entries: list[str]


def drawn_places(draw: random.Random) -> list[Place]:
    """Addresses of some objects in their order, of files and of instances, of two senders."""
    places = []
    for sender in ZERO, V4:
        for kind in "00", "01":
            key = f"000000000007 {kind} {draw.randrange(1, 4):028X}"
            infos = [f"01 {key} 000000000005 {size:04X} 00000002" for size in (4, 3)]
            places.append(Place([version2(sender, it) for it in (*infos, f"02 {key}")]))
            for symbol in range(draw.randrange(4)):
                at = f"{key} {draw.randrange(2) if not symbol else 1:04X} {symbol:04X}"
                values = [f"03 {at} {value}" for value in ("0001 61", "0001 62", "0002 6161")]
                places.append(Place([version2(sender, it) for it in (*values, f"04 {at}")]))
    return places


# An entry at each of some addresses, or none, by its number there
Held = List[Optional[int]]


def drawn(draw: random.Random, places: list[Place], like: Optional[Held] = None) -> Held:
    """A journal, which has many entries of another."""
    held: Held = []
    for at, place in enumerate(places):
        if like is not None and draw.random() < 0.5:
            held.append(like[at])
        else:
            held.append(draw.choice([None, *range(len(place.entries))]))
    return held


def entries_of(places: list[Place], held: Held) -> list[str]:
    return [place.entries[it] for place, it in zip(places, held) if it is not None]


def missing(places: list[Place], held: Held, other: Held) -> Held:
    """Those entries that a join would change the other journal by: the definition."""
    return [
        None if has in (it, len(place.entries) - 1) else it
        for place, it, has in zip(places, held, other)
    ]


class MinusDrawn(Case):
    """Random journals, compared with the definition, and joined."""

    def drawn_pair(self, number: int) -> tuple[list[Place], Held, Held]:
        """Writes two drawn journals, a and b, and returns what each holds at which places."""
        draw = random.Random(number)
        places = drawn_places(draw)
        first = drawn(draw, places)
        second = drawn(draw, places, first)
        for name, held in ("a", first), ("b", second):
            entries = entries_of(places, held)
            self.file(name, HEADER2, *entries, ended(len(entries)))
        return places, first, second

    def test_joins(self) -> None:
        less = 0
        for number in range(PAIRS):
            places, first, second = self.drawn_pair(number)
            wanted = entries_of(places, missing(places, first, second))
            self.row(f"{number}: what B lacks", "minus -o m a b", 0, f"entries {len(wanted)}")
            self.file("wanted", HEADER2, *wanted, ended(len(wanted)))
            self.same(f"{number}: these entries", "m", "wanted")
            less += len(wanted) < len(entries_of(places, first))
            self.made("join -o all b a")
            self.made("join -o enough b m")
            self.same(f"{number}: they are enough", "enough", "all")
            self.made("merge -o merged b m")
            self.same(f"{number}: merged", "merged", "all")
            self.row(f"{number}: nothing after", "minus -o none a enough", 0, "entries 0")
        self.holds("some have less than all", 0 < less < PAIRS, less)

    def test_cuts(self) -> None:
        """Wherever A or B is cut, it is told, though nothing is left to be written."""
        for number in range(CUTS):
            self.drawn_pair(number)
            for name, fault in ("a", "input 1: Cut"), ("b", "input 2: Cut"):
                whole = self.read(name)
                for size in random.Random(number).sample(range(len(whole)), 6):
                    self.write(name, whole[:size])
                    words = "minus -o left a b"
                    self.row(f"{number}: {name}, cut at {size}", words, 1, "", fault)
                self.write(name, whole)
        self.absent("no file of a cut input", "left")
