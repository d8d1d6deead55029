"""Tests of `--list` of `show`, `gaps` and `extract --all`: only objects of a list count."""
from __future__ import annotations

import os
import random

from tests.program.case import (
    CONFLICTING,
    FIRST_LINE,
    HEADER,
    HEADER2,
    INFO_LINE,
    LAST_LINE,
    PART,
    SECOND,
    V4,
    WHOLE,
    Case,
    conflicts,
    ended,
    lines,
    made_by,
)
from tests.program.test_filled import SHOWN
from tests.program.test_minus import drawn, drawn_places, entries_of
from tests.support import run
from tests.support.run import ZERO, version2

JOURNALS = 40  # that are drawn
ENTRIES = lines(INFO_LINE, FIRST_LINE, LAST_LINE, "entries 3")
NONE = "entries 0\n"
NAME = "session 7 object 1\n"
NOT_WHOLE = "not all objects are whole"
STYLES = (
    *("", "--check", "--summary", "--conflicts", "--ranges", "--json", "--check --summary"),
    *("--check --conflicts", "--summary --conflicts --json", "--ranges --json --any-size"),
    *("--conflicts --ranges", "--tsi 7", f"--source {V4.lower()}", "--toi 1 --check"),
)


class Listed(Case):
    """The commands on a journal of an object, and a list."""

    def listed(self, told: str, content: str, is_named: bool) -> None:
        """Checks each command with this list, as a file and as standard input."""
        shown = ENTRIES if is_named else NONE
        kept = lines(WHOLE) if is_named else ""
        written = kept + f"written {int(is_named)}\n"
        self.write("keys", content)
        ways: tuple[tuple[str, dict[str, bytes]], ...] = (
            ("keys", {}),
            ("-", {"stdin": content.encode()}),
        )
        for keys, how in ways:
            for words, out in (("show", shown), ("gaps", kept), ("extract --all -o got", written)):
                line = f"{words} --list {keys} whole"
                self.row(f"{told}: {line}", line, 0, out, **how)
            self.files(f"{told}: {keys}", ["0" * 32 + "-7-1"] if is_named else [])

    def files(self, told: str, names: list[str]) -> None:
        """Checks which files the folder has, and removes it."""
        has = sorted(os.listdir(self.path("got")))
        self.holds(f"{told}: these files", has == names, has)
        for name in has:
            self.remove(f"got/{name}")
        self.path("got").rmdir()

    def test_names(self) -> None:
        for told, content in (
            ("a name", NAME),
            ("a line of gaps", f"{WHOLE}\n"),
            ("after others", f"# of today\n\nsession 6 object 1\n{NAME}"),
            ("with its gaps", f"{PART}gap 0/0-0 missing\nbytes 0-3\n"),
            ("again", f"{NAME}{NAME}"),
            ("a sender among others", f"source {V4.lower()} {NAME}{NAME}"),
        ):
            self.listed(told, content, True)
        for told, content in (
            ("no line", ""),
            ("another session", "session 8 object 1\n"),
            ("a name that goes on", "session 7 object 10\n"),
            ("an FDT Instance", "session 7 object fdt 1\n"),
            ("another sender", f"source {V4.lower()} {NAME}"),
        ):
            self.listed(told, content, False)

    def test_one_of_several(self) -> None:
        """Objects of other senders, and FDT Instances, have names of their own."""
        self.senders()
        for told, keys, kept in (
            ("the sender zero", NAME, [WHOLE]),
            ("another", made_by(V4) + NAME, [made_by(V4) + WHOLE]),
            ("both", made_by(V4) + NAME + NAME, [WHOLE, made_by(V4) + WHOLE]),
        ):
            self.write("keys", keys)
            self.row(told, "gaps --list keys two", 0, lines(*kept))
        self.write("keys", "session 7 object fdt 3\n")
        words = "show --list keys instance"
        self.row("an instance", words, 0,
                 lines("session 7 object fdt 3 symbol 0/0 length 1 3c", "entries 1"))
        self.row("no file", "show --list keys whole", 0, NONE)

    def test_options(self) -> None:
        self.write("keys", NAME)
        self.rows(
            ("of a session", "show --list keys --tsi 7 whole", 0, ENTRIES),
            ("of another", "show --list keys --tsi 8 whole", 0, NONE),
            ("no conflict", "show --list keys --conflicts whole", 0, NONE),
            ("of another sender", f"gaps --list keys --source {V4.lower()} whole", 0, ""),
            ("of an instance", "gaps --list keys --toi 0 --fdt 1 whole", 0, ""),
            ("of a session that is not read", "extract --all -o got --list keys --tsi 8 whole", 0,
             "written 0"),
        )
        self.files("of another session", [])

    def test_check(self) -> None:
        """Only the objects of the list are checked."""
        self.file("both", HEADER2, *(version2(ZERO, it) for it in (conflicts(SECOND),)), ended(1))
        self.made("join -o all whole both")
        second = CONFLICTING.replace("object 1", "object 2")
        self.write("keys", NAME)
        self.write("other", "session 7 object 2\n")
        self.rows(
            ("all", "gaps --check all", 1, lines(WHOLE, second), NOT_WHOLE),
            ("one", "gaps --check --list keys all", 0, WHOLE),
            ("the other", "gaps --check --list other all", 1, second, NOT_WHOLE),
            ("none", "gaps --check --list /dev/null all", 0, ""),
        )

    def test_words(self) -> None:
        self.write("keys", NAME)
        for words in "show", "gaps", "gaps --summary", "extract --all -o got":
            self.rows(
                (f"{words}: both standard input", f"{words} --list - -", 2, "",
                 "standard input twice"),
                (f"{words}: two lists", f"{words} --list keys --list keys whole", 2, "", None),
                (f"{words}: a wrong number before", f"{words} --list - --tsi x -", 2, "",
                 "bad number: --tsi"),
                (f"{words}: a wrong sender before", f"{words} --list - --source x -", 2, "",
                 "bad source"),
            )
            self.row(f"{words}: a journal of standard input", f"{words} --list keys -", 0, None,
                     stdin=self.path("whole"))
        self.files("of the last", ["0" * 32 + "-7-1"])
        words = "extract -o got --tsi 7 --toi 1 --list keys whole"
        self.row("of one object", words, 2, "", "bad option: --list")
        self.absent("no file after it", "got")


class ListFaults(Case):
    """The faults of a list, in their order with those of the journal and the output."""

    def each(self, told: str, more: str, status: int, fault: str) -> None:
        """Checks that each command with a list fails so."""
        for words in "show", "gaps", "gaps --check --json", "extract --all -o got":
            self.row(f"{told}: {words}", f"{words} {more}", status, "", fault)
        self.absent(f"{told}: no folder", "got", "got.partial")

    def test_lines(self) -> None:
        for told, content, number in (
            ("a word", f"{NAME}object 1\n", 2),
            ("a zero in front", f"\n{NAME}session 07 object 1\n", 3),
            ("a carriage return", "session 7 object 2\r\n", 1),
            ("the TOI 0", "session 7 object 0\n", 1),
            ("no line feed", NAME + NAME[:-1], 2),
            ("513 bytes", f"session 7 object 1 {'x' * 494}\n", 1),
        ):
            self.write("keys", content)
            for journal in "whole", "bad", "nothing":
                self.each(f"{told}, {journal}", f"--list keys {journal}", 1,
                          f"list: line {number}")

    def test_order(self) -> None:
        self.write("keys", NAME)
        self.write("wrong", "object\n")
        self.path("folder").mkdir()
        self.each("no list", "--list missing whole", 3, "cannot open input 2")
        self.each("a folder", "--list folder whole", 3, "cannot open input 2")
        self.each("no journal before it", "--list missing nowhere", 3, "cannot open input 1")
        self.each("a list that cannot be read", "--list /proc/self/mem whole", 3, "input 2: Read")
        self.each("it is read before the journal", "--list wrong bad", 1, "list: line 1")
        self.row("a bad journal", "show --list keys bad", 1, lines(INFO_LINE), "input 1: Trailing")
        self.row("of which nothing is listed", "show --list /dev/null bad", 1, "",
                 "input 1: Trailing")
        for words in "gaps", "extract --all -o got":
            self.row(f"{words}: a bad journal", f"{words} --list keys bad", 1, None,
                     "input 1: Trailing")
        self.write("got", "here")
        words = "extract --all -o got --list"
        self.row("the list before the folder", f"{words} wrong whole", 1, "", "list: line 1")
        self.row("the folder is there", f"{words} keys whole", 3, "", "cannot create output")
        self.same("it stays", "got", b"here")
        full = {"to": "/dev/full"}
        for words in "show", "gaps":
            self.row(f"{words}: a full output", f"{words} --list keys whole", 3, "",
                     "cannot write", **full)


class ListedDrawn(Case):
    """Random journals: what is printed of a list is what is printed once all else is forgotten."""

    def test_journals(self) -> None:
        some = 0
        for number in range(JOURNALS):
            draw = random.Random(number)
            places = drawn_places(draw)
            entries = entries_of(places, drawn(draw, places))
            self.file("all", HEADER2, *entries, ended(len(entries)))
            objects = sorted({
                run.match_of(SHOWN, line)[1] for line in self.made("show all").lines()[:-1]
            })
            named = [it for it in objects if draw.random() < 0.5]
            others = [it for it in objects if it not in named]
            some += 0 < len(named) < len(objects)
            draw.shuffle(named)
            unknown = ["session 9 object 1", "session 7 object fdt 77"]
            self.write("keys", "".join(f"{it}\n" for it in [*named, *unknown]))
            self.write("others", "".join(f"{it}\n" for it in others))
            self.made("forget -o left --list others all")
            for style in "", "--sums", "--json", "--conflicts", "--sums --json":
                wanted = self.made(f"show {style} left").out
                self.row(f"{number}: show {style}", f"show {style} --list keys all", 0, wanted)
            for style in STYLES:
                ran = self.program(f"gaps {style} left")
                self.row(f"{number}: gaps {style}", f"gaps {style} --list keys all", ran.status,
                         ran.out, ran.err)
            self.same_folders(number, "--any-size" if number % 2 else "")
        self.holds("many lists name some", some > JOURNALS // 2, some)

    def same_folders(self, number: int, more: str) -> None:
        """Checks that `extract --all --list` writes what it would of a journal of these objects."""
        wanted = self.made(f"extract --all -o wanted {more} left").out
        self.row(f"{number}: extract --all", f"extract --all -o got {more} --list keys all", 0,
                 wanted)
        has, wants = (
            {it.name: it.read_bytes() for it in self.path(name).iterdir()}
            for name in ("got", "wanted")
        )
        self.holds(f"{number}: the same files", has == wants, has)
        for folder in "got", "wanted":
            for name in os.listdir(self.path(folder)):
                self.remove(f"{folder}/{name}")
            self.path(folder).rmdir()

    def test_many(self) -> None:
        """A list of 100,000 names, in any order, is one pass over the journal."""
        names = [f"session 7 object {toi}\n" for toi in range(1, 100_001)]
        random.Random(1).shuffle(names)
        self.write("keys", "".join(names))
        self.row("many", "show --list keys whole", 0, ENTRIES)
        self.journal("third", HEADER, conflicts(f"000000000007 01 {100_001:028X}"), ended(1))
        self.row("one more", "show --list keys third", 0, NONE)
