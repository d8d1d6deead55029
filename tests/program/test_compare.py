"""Tests of `compare`: how two journals differ, object by object."""
from __future__ import annotations

import random
import re
from typing import Dict, List, NamedTuple, Tuple

from tests.program.case import (
    HEADER,
    HEADER2,
    HELLO_OF_ZERO,
    INFO,
    KEY,
    LAST,
    V4,
    Case,
    ended,
    lines,
    made_by,
)
from tests.program.test_minus import drawn, drawn_places, entries_of

FULL = {"to": "/dev/full"}
DIFFER = "values differ"
OBJECT = "session 7 object 1"
SIDES = "same", "differ", "first", "second"
PAIRS = 300  # of journals that are drawn
CUTS = 8  # pairs of which each input is cut at some bytes
LINE = re.compile(r"((?:source \w+ )?session \d+) object (.*?) (info|symbol \d+/\d+) (.*)")


def sides_words(counts: Tuple[int, ...]) -> str:
    return " ".join(f"{word} {count}" for word, count in zip(SIDES, counts))


def compared(name: str, *counts: int, info: str) -> str:
    return f"{name} {sides_words(counts)} information {info}"


class Compare(Case):
    def test_objects(self) -> None:
        self.rows(
            ("the same", "compare whole whole", 0, compared(OBJECT, 2, 0, 0, 0, info="same")),
            ("a part", "compare whole part", 0, compared(OBJECT, 1, 0, 1, 0, info="same")),
            ("turned", "compare part whole", 0, compared(OBJECT, 1, 0, 0, 1, info="same")),
            ("other values", "compare whole others", 0, compared(OBJECT, 1, 1, 0, 1, info="first")),
            ("turned", "compare others whole", 0, compared(OBJECT, 1, 1, 1, 0, info="second")),
            ("with none", "compare whole empty", 0, compared(OBJECT, 0, 0, 2, 0, info="first")),
            ("of none", "compare empty whole", 0, compared(OBJECT, 0, 0, 0, 2, info="second")),
            ("no information", "compare symbol symbols", 0,
             compared(OBJECT, 1, 0, 0, 1, info="none")),
            ("no object", "compare empty empty", 0, ""),
        )

    def test_conflicts(self) -> None:
        self.journal("last_conflict", HEADER, f"04 {KEY} 0000 0001", ended(1))
        self.journal("last", HEADER, LAST, ended(1))
        self.journal("info", HEADER, INFO, ended(1))
        differ, same = (0, 1, 0, 0), (1, 0, 0, 0)
        self.rows(
            ("beside a value", "compare last_conflict last", 0,
             compared(OBJECT, *differ, info="none")),
            ("a value beside it", "compare last last_conflict", 0,
             compared(OBJECT, *differ, info="none")),
            ("in both", "compare last_conflict last_conflict", 0,
             compared(OBJECT, *same, info="none")),
            ("of information", "compare conflict info", 0,
             compared(OBJECT, *[0] * 4, info="differ")),
            ("of information in both", "compare conflict conflict", 0,
             compared(OBJECT, *[0] * 4, info="same")),
        )

    def test_check(self) -> None:
        self.journal("info", HEADER, INFO, ended(1))
        self.journal("other_info", HEADER, f"01 {KEY} 000000000005 0003 00000002", ended(1))
        self.rows(
            ("nothing", "compare --check whole part", 0, None),
            ("no journal has all", "compare --check empty others", 0, None),
            ("a symbol", "compare --check whole others", 1,
             compared(OBJECT, 1, 1, 0, 1, info="first"), DIFFER),
            ("information", "compare --check info other_info", 1,
             compared(OBJECT, *[0] * 4, info="differ"), DIFFER),
            ("of a session", "compare --check --summary whole others", 1, None, DIFFER),
            ("what is not chosen", "compare --check --toi 2 whole others", 0, ""),
        )
        self.row("writing first", "compare --check whole others", 3, "", "cannot write", **FULL)

    def test_choices(self) -> None:
        self.senders()
        self.file("hello", HEADER2, HELLO_OF_ZERO, ended(3))
        of_v4 = made_by(V4) + OBJECT
        hello, world = (compared(name, 2, 0, 0, 0, info="same") for name in (OBJECT, of_v4))
        lone = compared(of_v4, 0, 0, 2, 0, info="first")
        fdt = compared("session 7 object fdt 3", 0, 0, 1, 0, info="none")
        self.rows(
            ("all", "compare two two", 0, lines(hello, world)),
            ("one has less", "compare two hello", 0, lines(hello, lone)),
            ("of a sender", f"compare --source {V4} two hello", 0, lone),
            ("of another", "compare --source :: two hello", 0, hello),
            ("of a session", "compare --tsi 8 two hello", 0, ""),
            ("an instance", "compare --toi 0 --fdt 3 instance whole", 0, fdt),
        )

    def test_summary(self) -> None:
        self.senders()
        of_v4 = made_by(V4) + "session 7"
        none = sides_words((0, 0, 0, 0))
        self.rows(
            ("an object", "compare --summary whole others", 0,
             f"session 7 objects 1 {sides_words((1, 1, 0, 1))} information "
             f"{sides_words((0, 0, 1, 0))} none 0"),
            ("two sessions", "compare --summary two hello_both", 0, lines(
                f"session 7 objects 1 {sides_words((2, 0, 0, 0))} information "
                f"{sides_words((1, 0, 0, 0))} none 0",
                f"{of_v4} objects 1 {sides_words((0, 2, 0, 0))} information "
                f"{sides_words((1, 0, 0, 0))} none 0",
            )),
            ("no information", "compare --summary symbol symbol", 0,
             f"session 7 objects 1 {sides_words((1, 0, 0, 0))} information {none} none 1"),
            ("no object", "compare --summary empty empty", 0, ""),
        )

    def test_inputs(self) -> None:
        whole, part = self.path("whole"), self.path("part")
        told = compared(OBJECT, 1, 0, 1, 0, info="same")
        self.row("the first input", "compare - part", 0, told, stdin=whole)
        self.row("the second", "compare whole -", 0, told, stdin=part)
        self.row("a pipe", "compare whole -", 0, told, stdin=self.read("part"))
        self.rows(
            ("in versions 1 and 2", "compare whole2 part", 0, told),
            ("of any size", "compare --any-size whole part", 0, told),
            ("no first input", "compare missing missing", 3, "", "cannot open input 1"),
            ("no second input", "compare whole missing", 3, "", "cannot open input 2"),
            ("a bad journal", "compare bad whole", 1, "", "input 1: Trailing"),
            ("a bad other", "compare whole bad", 1, "", "input 2: Trailing"),
            ("a bad other behind all", "compare empty bad", 1, "", "input 2: Trailing"),
            ("a datagram file", "compare whole sent", 1, "", "input 2: Magic"),
            ("one input", "compare whole", 2, "", None),
            ("standard input twice", "compare - -", 2, "", "standard input twice"),
        )
        self.row("a full output", "compare whole part", 3, "", "cannot write", **FULL)


class Name(NamedTuple):
    """An object, in the order of keys."""

    session: Tuple[str, int]
    is_file: bool
    number: int
    shown: str


# What a journal has of objects: the text of each part by its name
Shown = Dict[Name, Dict[str, str]]


def side_of(first: str | None, second: str | None) -> str:
    """Which journal has what, in the words of `compare`."""
    if first is None:
        return "none" if second is None else "second"
    if second is None:
        return "first"
    return "same" if first == second else "differ"


class Told(NamedTuple):
    """What is told of an object."""

    name: Name
    counts: Tuple[int, ...]
    info: str


def told(first: Shown, second: Shown) -> List[Told]:
    """The definition, over what `show` prints of two journals."""
    rows = []
    for name in sorted({*first, *second}):
        one, other = first.get(name, {}), second.get(name, {})
        sides = [
            side_of(one.get(part), other.get(part)) for part in {*one, *other} if part != "info"
        ]
        counts = tuple(sides.count(side) for side in SIDES)
        rows.append(Told(name, counts, side_of(one.get("info"), other.get("info"))))
    return rows


def summed(rows: List[Told]) -> List[str]:
    """A line for each session."""
    of_sessions: Dict[str, List[Told]] = {}
    for row in rows:
        of_sessions.setdefault(row.name.shown.partition(" object")[0], []).append(row)
    summary = []
    for session, own in of_sessions.items():
        symbols = tuple(map(sum, zip(*(row.counts for row in own))))
        infos = [row.info for row in own]
        information = tuple(infos.count(side) for side in SIDES)
        summary.append(
            f"{session} objects {len(own)} {sides_words(symbols)} information "
            f"{sides_words(information)} none {infos.count('none')}"
        )
    return summary


class CompareDrawn(Case):
    """Random journals, compared with what `show` prints of them."""

    def drawn_pair(self, number: int) -> None:
        """Writes two drawn journals, a and b, that have much in common."""
        draw = random.Random(number)
        places = drawn_places(draw)
        first = drawn(draw, places)
        for name, held in ("a", first), ("b", drawn(draw, places, first)):
            entries = entries_of(places, held)
            self.file(name, HEADER2, *entries, ended(len(entries)))

    def shown(self, journal: str) -> Shown:
        """What `show` prints of a journal, by objects."""
        objects: Shown = {}
        for line in self.made(f"show {journal}").lines()[:-1]:
            found = LINE.fullmatch(line)
            assert found, line
            session, words, part, value = found.groups()
            sender, _, tsi = session.rpartition("session ")
            number = int(words.removeprefix("fdt "))
            of = (sender, int(tsi)), words.isdigit(), number, f"{session} object {words}"
            objects.setdefault(Name(*of), {})[part] = value
        return objects

    def test_lines(self) -> None:
        differing = 0
        for number in range(PAIRS):
            self.drawn_pair(number)
            rows = told(self.shown("a"), self.shown("b"))
            each = lines(*(compared(it.name.shown, *it.counts, info=it.info) for it in rows))
            summary = lines(*summed(rows))
            differs = any(it.counts[1] or it.info == "differ" for it in rows)
            self.row(f"{number}: each object", "compare a b", 0, each)
            self.row(f"{number}: each session", "compare --summary a b", 0, summary)
            fault = DIFFER if differs else ""
            self.row(f"{number}: checked", "compare --check a b", int(differs), each, fault)
            differing += differs
        self.holds("some differ", 0 < differing < PAIRS, differing)

    def test_peace(self) -> None:
        """Where nothing differs, a join has no conflict that neither had."""
        for number in range(PAIRS):
            self.drawn_pair(number)
            if self.program("compare --check a b").status:
                continue
            self.made("merge -o joined a b")
            had = {line for name in "ab" for line in self.made(f"show {name}").lines()[:-1]}
            joined = self.made("show joined").lines()[:-1]
            self.holds(f"{number}: what one had", sorted(had) == sorted(joined), joined)

    def test_cuts(self) -> None:
        """Wherever A or B is cut, it is told, and nothing is printed."""
        for number in range(CUTS):
            self.drawn_pair(number)
            for name, fault in ("a", "input 1: Cut"), ("b", "input 2: Cut"):
                whole = self.read(name)
                for size in random.Random(number).sample(range(len(whole)), 8):
                    self.write(name, whole[:size])
                    self.row(f"{number}: {name}, cut at {size}", "compare a b", 1, "", fault)
                self.write(name, whole)
