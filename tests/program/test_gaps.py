"""Tests of `gaps --check`, `--summary` and `--conflicts`."""
from __future__ import annotations

import random
import re
from typing import NamedTuple

from tests.program.case import (
    CONFLICTING,
    FIRST,
    HEADER,
    HEADER2,
    HELLO_OF_ZERO,
    INFO,
    KEY,
    LAST,
    PART,
    V4,
    V6,
    WHOLE,
    WORLD_OF_V4,
    Case,
    ended,
    lines,
    made_by,
)

FULL = {"to": "/dev/full"}
NOT_WHOLE = "not all objects are whole"
COUNTS = "objects", "whole", "partial", "missing", "conflicting", "misfit", "unknown"
GAP = "gap 0/1-1 missing"
JOINED = "session 7 object 1 partial missing 0 conflicting 1 misfit 0"
DRAWN = 300  # journals that are drawn


def summary(session: str, *counts: int) -> str:
    return " ".join([session, *(f"{name} {count}" for name, count in zip(COUNTS, counts))])


class GapsCheck(Case):
    def test_status(self) -> None:
        self.rows(
            ("all are whole", "gaps --check whole", 0, WHOLE),
            ("one is not", "gaps --check part", 1, PART + GAP, NOT_WHOLE),
            ("no information", "gaps --check symbol", 1, None, NOT_WHOLE),
            ("information in conflict", "gaps --check conflict", 1, CONFLICTING, NOT_WHOLE),
            ("no object", "gaps --check empty", 0, ""),
            ("none that is chosen", "gaps --check --toi 2 part", 0, ""),
            ("a bad journal", "gaps --check bad", 1, "", "input 1: Trailing"),
            ("a conflict", "gaps --check --conflicts joined", 1, None, NOT_WHOLE),
            ("no conflict", "gaps --check --conflicts part", 0, ""),
        )

    def test_full_output(self) -> None:
        self.row("it comes first", "gaps --check part", 3, "", "cannot write", **FULL)

    def test_sender(self) -> None:
        self.file("mixed", HEADER2, HELLO_OF_ZERO.rpartition(" 03 ")[0], WORLD_OF_V4, ended(5))
        self.rows(
            ("a sender whose object is whole", f"gaps --check --source {V4} mixed", 0, None),
            ("all", "gaps --check mixed", 1, None, NOT_WHOLE),
        )


class GapsSummary(Case):
    def test_one_object(self) -> None:
        self.rows(
            ("whole", "gaps --summary whole", 0, summary("session 7", 1, 1, 0, 0, 0, 0, 0)),
            ("a part", "gaps --summary part", 0, summary("session 7", 1, 0, 1, 1, 0, 0, 0)),
            ("no information", "gaps --summary symbol", 0, summary("session 7", 1, *[0] * 5, 1)),
            ("conflict", "gaps --summary conflict", 0, summary("session 7", 1, *[0] * 5, 1)),
            ("a symbol", "gaps --summary joined", 0, summary("session 7", 1, 0, 1, 0, 1, 0, 0)),
            ("no object", "gaps --summary empty", 0, ""),
            ("a bad journal", "gaps --summary bad", 1, "", "input 1: Trailing"),
        )

    def test_sessions(self) -> None:
        self.senders()
        of_v4, of_v6 = made_by(V4) + "session 7", made_by(V6) + "session 7"
        self.row(
            "of three senders",
            "gaps --summary three",
            0,
            lines(
                summary("session 7", 2, 1, 0, 0, 0, 0, 1),
                summary("session 8", 1, 0, 0, 0, 0, 0, 1),
                summary(of_v4, 2, 1, 1, 2, 0, 0, 0),
                summary(of_v6, 1, 0, 0, 0, 0, 0, 1),
            ),
        )
        chosen = "gaps --summary --check --tsi 7 --toi 1 --source 0a000001 three"
        self.row("one object", chosen, 0, summary(of_v4, 1, 1, 0, 0, 0, 0, 0))

    def test_conflicts(self) -> None:
        gap = "gap 0/1-1 conflicting"
        self.rows(
            ("a symbol", "gaps --conflicts joined", 0, lines(JOINED, gap)),
            ("information", "gaps --conflicts conflict", 0, CONFLICTING),
            ("none", "gaps --conflicts part", 0, ""),
            ("no information", "gaps --conflicts symbol", 0, ""),
            (
                "they are counted",
                "gaps --conflicts --summary joined",
                0,
                summary("session 7", 1, 0, 1, 0, 1, 0, 0),
            ),
            ("none is", "gaps --conflicts --summary whole", 0, ""),
        )

    def test_unplaced(self) -> None:
        """Conflicts of symbols that no gap has."""
        first, last = f"04 {KEY} 0000 0000", f"04 {KEY} 0000 0001"
        beyond = f"04 {KEY} 0000 0002 04 {KEY} 0001 0000"
        self.journal("without", HEADER, first, last, ended(2))
        self.journal("twice", HEADER, f"02 {KEY}", first, ended(2))
        self.journal("beyond", HEADER, INFO, FIRST, LAST, beyond, ended(5))
        self.journal("both", HEADER, INFO, FIRST, last, beyond, ended(5))
        name, gap = "session 7 object 1", "gap 0/1-1 conflicting"
        rows: tuple[tuple[str, str, list[str], list[int]], ...] = (
            ("without", f"{name} no information unplaced conflicting 2", [], [1, 0, 0, 0, 2, 0, 1]),
            ("twice", f"{CONFLICTING} unplaced conflicting 1", [], [1, 0, 0, 0, 1, 0, 1]),
            ("beyond", f"{WHOLE} unplaced conflicting 2", [], [1, 1, 0, 0, 2, 0, 0]),
            ("both", f"{JOINED} unplaced conflicting 2", [gap], [1, 0, 1, 0, 3, 0, 0]),
        )
        for journal, line, gaps, sums in rows:
            told, of_session = lines(line, *gaps), summary("session 7", *sums)
            self.rows(
                (f"{journal}: its line", f"gaps --conflicts {journal}", 0, told),
                (journal, f"gaps --check --conflicts {journal}", 1, told, NOT_WHOLE),
                (f"{journal}: sums", f"gaps --conflicts --summary {journal}", 0, of_session),
                (f"{journal}: all sums", f"gaps --summary {journal}", 0, of_session),
                (
                    *(f"{journal}: checked", f"gaps --check --conflicts --summary {journal}", 1),
                    *(of_session, NOT_WHOLE),
                ),
            )
        self.row("only with the option", "gaps beyond", 0, WHOLE)
        self.row("it is whole", "gaps --check beyond", 0, WHOLE)


class Object(NamedTuple):
    """What plain `gaps` prints of an object."""

    session: str
    line: str
    gaps: list[str]
    conflicts: int  # its symbols with two values

    @property
    def state(self) -> str:
        return re.sub(".*object (fdt )?[0-9]+ ", "", self.line)

    @property
    def is_conflict(self) -> bool:
        return self.conflicts > 0 or self.state == "conflicting information"

    @property
    def unplaced(self) -> str:
        """The end of its line, if it has conflicts that are in no gap."""
        placed = re.search("conflicting ([0-9]+)", self.state)
        count = self.conflicts - (int(placed[1]) if placed else 0)
        return f" unplaced conflicting {count}" if count else ""

    def counts(self) -> list[int]:
        """What the object adds to the numbers of its session's summary."""
        partial = self.state.startswith("partial")
        of_symbols = [int(number) for number in re.findall("[0-9]+", self.state)]
        whole = self.state.startswith("whole")
        kinds = [int(whole), int(partial)]
        missing, _, misfit = of_symbols if partial else [0, 0, 0]
        return [1, *kinds, missing, self.conflicts, misfit, 1 - sum(kinds)]


def objects_of(text: list[str], conflicts: list[int]) -> list[Object]:
    """The objects of these lines, each of which has so many conflicts."""
    found: list[Object] = []
    for line in text:
        if line.startswith("gap "):
            found[-1].gaps.append(line)
        else:
            count = conflicts[len(found)]
            found.append(Object(line.partition(" object ")[0], line, [], count))
    return found


def summed(objects: list[Object]) -> list[str]:
    """The lines of `gaps --summary` about these objects."""
    sessions: dict[str, list[int]] = {}
    for one in objects:
        before = sessions.setdefault(one.session, [0] * len(COUNTS))
        sessions[one.session] = [a + b for a, b in zip(before, one.counts())]
    return [summary(session, *counts) for session, counts in sessions.items()]


def drawn_object(draw: random.Random, key: str) -> list[str]:
    """Random entries of an object in blocks of 2 symbols of 4 bytes."""
    entries = []
    about = draw.choice(("one", "one", "one", "none", "conflict"))
    length = draw.randrange(1, 40)
    if about == "one":
        entries.append(f"01 {key} {length:012X} 0004 00000002")
    elif about == "conflict":
        entries.append(f"02 {key}")
    odds = draw.choice((0.0, 0.3, 1.0))  # the chance that a symbol has no fitting value
    for place in range(draw.choice((1, 10))):
        address = f"{key} {place // 2:04X} {place % 2:04X}"
        kind = "" if draw.random() >= odds else draw.choice(("left out", "conflict", "misfit"))
        if kind == "conflict":
            entries.append(f"04 {address}")
        elif kind == "misfit":
            entries.append(f"03 {address} 0001 FF")
        elif not kind:
            entries.append(f"03 {address} 0004 00010203")
    return entries


def drawn_journal(draw: random.Random) -> list[list[str]]:
    """The entries of each object."""
    objects = []
    for sender in sorted(draw.sample((0, 1, (0xFFFF << 32) + 0x0A000001), draw.randint(1, 2))):
        for session in sorted(draw.sample(range(1, 6), draw.randint(1, 3))):
            for number in sorted(draw.sample(range(1, 9), draw.randint(1, 4))):
                kind = draw.randrange(2)
                key = f"{sender:032X} {session:012X} 01 {2 * number + kind:028X}"
                objects.append(drawn_object(draw, key))
    return objects


class GapsDrawn(Case):
    """Random journals, compared with the lines that plain `gaps` prints for them."""

    def test_journals(self) -> None:
        wholes = 0
        for number in range(DRAWN):
            drawn = [entries for entries in drawn_journal(random.Random(number)) if entries]
            entries = [entry for of_object in drawn for entry in of_object]
            self.file("drawn", HEADER2, *entries, ended(len(entries)))
            conflicts = [sum(entry.startswith("04 ") for entry in each) for each in drawn]
            objects = objects_of(self.made("gaps drawn").lines(), conflicts)
            conflicting = [one for one in objects if one.is_conflict]
            whole = all(one.state.startswith("whole") for one in objects)
            wholes += whole
            self.same_runs(number, objects, conflicting, whole)
        name = "some drawn journals have only whole objects, and some not"
        self.holds(name, 0 < wholes < DRAWN, wholes)

    def same_runs(
        self, number: int, objects: list[Object], conflicting: list[Object], whole: bool
    ) -> None:
        """Checks what `gaps` prints of a drawn journal by each of its options."""
        faults = [(1, NOT_WHOLE), (0, "")]
        plain = [line for one in objects for line in (one.line, *one.gaps)]
        status, fault = faults[whole]
        self.row(f"{number}: check", "gaps --check drawn", status, lines(*plain), fault)
        both = "gaps --check --summary drawn"
        self.row(f"{number}: sums", both, status, lines(*summed(objects)), fault)
        of_symbols = [
            line
            for one in conflicting
            for line in (
                one.line + one.unplaced,
                *(gap for gap in one.gaps if gap.endswith(" conflicting")),
            )
        ]
        status, fault = faults[not conflicting]
        words = "gaps --check --conflicts drawn"
        self.row(f"{number}: conflicts", words, status, lines(*of_symbols), fault)
        words = "gaps --summary --conflicts drawn"
        self.row(f"{number}: their sums", words, 0, lines(*summed(conflicting)))
