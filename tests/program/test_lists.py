"""Tests of `forget --list`: objects of a list, of each journal and of random ones."""
from __future__ import annotations

import random

from tests.program.case import HEADER2, Case, ended, joined
from tests.program.test_filled import SHOWN
from tests.program.test_merge import left
from tests.program.test_minus import drawn, drawn_places, entries_of
from tests.support import run

PAIRS = 60  # of journals and lists that are drawn


class ForgetList(Case):
    """The entries of what lines begin with are left out of J, if the options select them."""

    def test_names(self) -> None:
        name = "session 7 object 1"
        for told, content in (
            ("a name", f"{name}\n"),
            ("a line of gaps", f"{name} partial missing 1 conflicting 0 misfit 0\n"),
            ("after others", f"# of today\n\nsession 6 object 1\n{name}\n"),
            ("with its gaps", f"{name} partial\ngap 0/0-0 missing\nbytes 0-3\n"),
            ("again", f"{name}\n{name} whole 5\n"),
            ("a sender among others", f"source {'0' * 31}1 session 7 object 1\n{name}\n"),
            ("498 bytes behind it", f"{name} {'x' * 493}\n"),
        ):
            self.write("keys", content)
            self.makes(told, "forget -f -o got --list keys whole", left(3, 0), "empty2")
            self.row(
                f"{told}, of standard input", "forget -o got --list - whole", 0, left(3, 0),
                stdin=content.encode(),
            )
        for told, content in (
            ("no line", ""),
            ("another session", "session 8 object 1\n"),
            ("a name that goes on", "session 7 object 10\n"),
            ("an FDT Instance", "session 7 object fdt 1\n"),
            ("another sender", f"source {'0' * 31}1 session 7 object 1\n"),
        ):
            self.write("keys", content)
            self.makes(told, "forget -f -o got --list keys whole", left(0, 3), "whole2")

    def test_options(self) -> None:
        self.write("keys", "session 7 object 1\n")
        self.row("a symbol", "forget -o got --list keys --symbol 0/0 whole", 0, left(1, 2))
        self.row("of both", "forget -o got --list keys --symbol 0/0 got", 0, left(0, 2))
        self.row("nothing is in conflict", "forget -o got --list keys --conflicts whole", 0,
                 left(0, 3))
        self.row("of another session", "forget -o got --list keys --tsi 8 whole", 0, left(0, 3))

    def test_lines(self) -> None:
        """The first line that names no object is told."""
        right = "session 7 object 1\n"
        for told, content, number in (
            ("a word", right + "object 1\n", 2),
            ("no space", "session 7 object 1x\n", 1),
            ("a zero in front", "\n" + right + "session 07 object 1\n", 3),
            ("two spaces", "session 7  object 1\n", 1),
            ("a carriage return", right + "session 7 object 2\r\n", 2),
            ("the TOI 0", "session 7 object 0\n", 1),
            ("a TOI of 113 bits", f"session 7 object {1 << 112}\n", 1),
            ("a TSI of 49 bits", f"session {1 << 48} object 1\n", 1),
            ("an Instance of 21 bits", f"session 7 object fdt {1 << 20}\n", 1),
            ("no line feed", right + "session 7 object 1", 2),
            ("513 bytes", "session 7 object 1 " + "x" * 494 + "\n", 1),
            ("a comment of 513 bytes", "#" * 513 + "\n", 1),
        ):
            self.write("keys", content)
            self.row(told, "forget -o got --list keys bad", 1, "", f"list: line {number}")
        self.write("keys", right)
        self.rows(
            ("a bad journal", "forget -o got --list keys bad", 1, "", "input 1: Trailing"),
            ("no list", "forget -o got --list missing whole", 3, "", "cannot open input 2"),
            ("a folder", "forget -o got --list . whole", 3, "", "cannot open input 2"),
            ("no journal before it", "forget -o got --list missing nowhere", 3, "",
             "cannot open input 1"),
            ("OUT is the list", "forget -o keys --list keys whole", 2, "", "output is an input"),
        )
        self.absent("no file after them", "got")
        self.same("the list stays", "keys", right.encode())
        self.write("got", self.read("whole2"))
        self.row("in place", "forget -o got --list keys got", 0, left(3, 0))


class ForgetDrawn(Case):
    """Random journals: what is left, and that it commutes with a join."""

    def held(self, name: str, entries: list[str]) -> None:
        self.file(name, HEADER2, *entries, ended(len(entries)))

    def test_joins(self) -> None:
        some = 0
        for number in range(PAIRS):
            draw = random.Random(number)
            places = drawn_places(draw)
            first = drawn(draw, places)
            second = drawn(draw, places, first)
            for name, held in ("a", first), ("b", second):
                self.held(name, entries_of(places, held))
            self.made("join -o all a b")
            objects = sorted({
                run.match_of(SHOWN, line)[1] for line in self.made("show all").lines()[:-1]
            })
            named = [it for it in objects if draw.random() < 0.5]
            draw.shuffle(named)
            self.write("keys", "".join(f"{it}\n" for it in named))
            for name in "a", "b", "all":
                shown = self.made(f"show {name}").lines()[:-1]
                kept = [line for line in shown if run.match_of(SHOWN, line)[1] not in named]
                words = f"forget -o {name}.left --list keys {name}"
                self.row(f"{number}: {name}", words, 0, left(len(shown) - len(kept), len(kept)))
                is_left = self.made(f"show {name}.left").lines()[:-1]
                self.holds(f"{number}: {name}, the others as they were", is_left == kept, is_left)
                some += 0 < len(kept) < len(shown)
            self.made("join -o late a.left b.left")
            self.same(f"{number}: before a join or after it", "late", "all.left")
        self.holds("many lists name some", some > PAIRS, some)

    def test_many(self) -> None:
        """A list of 100,000 names, in any order, is one pass over the journal."""
        names = [f"session 7 object {toi}\n" for toi in range(1, 100_001)]
        random.Random(1).shuffle(names)
        self.write("keys", "".join(names))
        self.row("many", "forget -o got --list keys whole", 0, left(3, 0))
        self.row("it is empty", "join -o got2 got", 0, joined(0, 0))
