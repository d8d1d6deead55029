"""Tests of `fill`: what of a journal another lacks, by what `gaps` prints of that."""
from __future__ import annotations

from tests.program.case import (
    CONFLICTING,
    FIRST,
    HEADER,
    INFO,
    KEY,
    LAST,
    PART,
    SECOND,
    WHOLE,
    Case,
    conflicts,
    ended,
    lines,
)

FULL = {"to": "/dev/full"}
OBJECT = "session 7 object 1"
NO_INFORMATION = f"{OBJECT} no information"
GAP = "gap 0/1-1 missing"
WANTED = PART + GAP  # what `part` lacks of `whole`
MANY = 20_000  # gap lines


class Fill(Case):
    def setUp(self) -> None:
        super().setUp()
        self.journal("info", HEADER, INFO, ended(1))
        self.journal("last", HEADER, LAST, ended(1))

    def answers(
        self, name: str, listed: str, journal: str, entries: int, wanted: str, words: str = ""
    ) -> None:
        """Checks what is answered to these lines."""
        self.write("lines", listed)
        words = f"fill -o got --gaps lines {words} {journal}"
        self.makes(name, words, f"entries {entries}", wanted)

    def test_statuses(self) -> None:
        """Of an object in each status, and of one that is not listed."""
        for name, listed, journal, entries, wanted in (
            ("whole", lines(WHOLE), "whole", 0, "empty2"),
            ("partial", lines(WANTED), "whole", 1, "last2"),
            ("partial, of what it has", lines(WANTED), "part", 0, "empty2"),
            ("no information", lines(NO_INFORMATION), "whole", 3, "whole2"),
            ("conflicting information", lines(CONFLICTING), "whole", 2, "symbols2"),
            ("not listed", lines("session 7 object 2 whole 5"), "whole", 3, "whole2"),
            ("nothing is", "", "whole", 3, "whole2"),
            ("nothing of nothing", "", "empty", 0, "empty2"),
            ("of nothing", lines(WANTED), "empty", 0, "empty2"),
        ):
            self.answers(name, listed, journal, entries, wanted)

    def test_only(self) -> None:
        for name, listed, journal, entries, wanted in (
            ("whole", lines(WHOLE), "whole", 0, "empty2"),
            ("partial", lines(WANTED), "whole", 1, "last2"),
            ("no information", lines(NO_INFORMATION), "whole", 1, "info2"),
            ("conflicting information", lines(CONFLICTING), "whole", 0, "empty2"),
            ("not listed", "", "whole", 0, "empty2"),
        ):
            self.answers(f"only: {name}", listed, journal, entries, wanted, "--only")

    def test_conflicts(self) -> None:
        """Symbols that conflict or do not fit are not missing; a conflict may be the answer."""
        self.journal("last_conflict", HEADER, f"04 {KEY} 0000 0001", ended(1))
        self.journal("info_conflict", HEADER, conflicts(KEY), ended(1))
        partial = f"{OBJECT} partial missing 0 conflicting 1 misfit 1"
        listed = lines(partial, "gap 0/0-0 conflicting", "gap 0/1-1 misfit")
        self.answers("they are not missing", listed, "whole", 0, "empty2")
        self.answers("a conflict", lines(WANTED), "joined", 1, "last_conflict2")
        self.answers("of information", lines(NO_INFORMATION), "conflict", 1, "info_conflict2")

    def test_ends_of_gaps(self) -> None:
        """Both ends of a gap are asked for, and nothing beside it."""
        at = [f"{block:04X} {esi:04X}" for block in (0, 1) for esi in range(6)]
        symbols = [f"03 {KEY} {it} 0001 61" for it in at]
        self.journal("symbols", HEADER, *symbols, ended(12))
        self.journal("some", HEADER, *symbols[2:5], symbols[6], *symbols[11:], ended(5))
        partial = f"{OBJECT} partial missing 5 conflicting 0 misfit 0"
        gaps = "gap 0/2-4 missing", "gap 1/0-0 missing", "gap 1/5-9 missing"
        for words in "", "--only":
            self.answers(f"gaps {words}", lines(partial, *gaps), "symbols", 5, "some2", words)

    def test_of_journals(self) -> None:
        """What `gaps` prints of a journal is taken as it is."""
        for name, entries, wanted in (
            ("part", 1, "last2"),
            ("whole", 0, "empty2"),
            ("symbols", 3, "whole2"),
            ("conflict", 2, "symbols2"),
            ("empty", 3, "whole2"),
        ):
            listed = self.made(f"gaps {name}").out
            words = "fill -o got --gaps - whole"
            self.makes(f"of {name}", words, f"entries {entries}", wanted, stdin=listed)

    def test_selected(self) -> None:
        """Objects that were not selected are not listed, so they are answered whole."""
        self.journal("both", HEADER, INFO, FIRST, INFO.replace(KEY, SECOND), ended(3))
        self.journal("second", HEADER, INFO.replace(KEY, SECOND), ended(1))
        self.write("lines", self.made("gaps --toi 1 both").out)
        self.makes("another object", "fill -o got --gaps lines both", "entries 1", "second2")

    def test_options(self) -> None:
        self.write("lines", lines(WANTED))
        of = "--gaps lines whole"
        self.makes("--any-size", f"fill -o got --any-size {of}", "entries 1", "last2")
        self.rows(
            ("no lines", "fill -o got whole", 2, "", "missing option: --gaps"),
            ("standard input twice", "fill -o x --gaps - -", 2, "", "standard input twice"),
        )
        twice = "the argument '--gaps <LINES>' cannot be used multiple times"
        self.refused_by_parser("two lists", f"fill -o got --gaps lines {of}", twice)
        told = "unexpected argument '--tsi' found"
        self.refused_by_parser("an option", f"fill -o got --tsi 7 {of}", told)

    def test_streams(self) -> None:
        self.write("lines", lines(WANTED))
        whole, listed = self.path("whole"), self.path("lines")
        out, words = self.read("last2"), "fill -o - --gaps"
        self.row("the journal", f"{words} lines -", 0, out, "entries 1", stdin=whole)
        self.row("the lines", f"{words} - whole", 0, out, "entries 1", stdin=listed)
        self.row("a pipe", f"{words} - whole", 0, out, "entries 1", stdin=self.read("lines"))
        answer = "flutejoin gaps part | flutejoin fill -o - --gaps - whole"
        done = self.shell(f"{answer} | flutejoin join -o all part -")
        self.check("from a centre to a station and back", done, 0, None, None)
        self.same("the centre has it", "all", "whole2")

    def test_inputs(self) -> None:
        self.write("lines", lines(WANTED))
        self.write("copy", self.read("lines"))
        of = "--gaps lines"
        self.rows(
            ("into its journal", f"fill -o whole {of} whole", 2, "", "output is an input"),
            ("into its lines", f"fill -o lines {of} whole", 2, "", "output is an input"),
            ("by another name", f"fill -o ./lines {of} whole", 2, "", "output is an input"),
            ("into datagrams", f"fill -o sent {of} whole", 2, "", "output is a datagram file"),
            ("no journal", f"fill -o got {of} missing", 3, "", "cannot open input 1"),
            ("no lines", "fill -o got --gaps missing whole", 3, "", "cannot open input 2"),
            ("a folder of lines", "fill -o got --gaps . whole", 3, "", "cannot open input 2"),
            ("a bad journal", f"fill -o got {of} bad", 1, "", "input 1: Trailing"),
            ("datagrams", f"fill -o got {of} sent", 1, "", "input 1: Magic"),
            ("before its output", f"fill -o no/got {of} bad", 1, "", "input 1: Trailing"),
            ("no output", f"fill -o no/got {of} whole", 3, "", "cannot create output"),
            ("a full output", f"fill -o /dev/full {of} whole", 3, "", "cannot write"),
        )
        self.absent("no file after a fault", "got", "no")
        self.same("the lines stay", "lines", "copy")
        self.row("a full report", f"fill -o got {of} whole", 3, "", "cannot write", **FULL)
        self.row("forced", f"fill -f -o ./lines {of} whole", 0, "entries 1")
        self.same("over its lines", "lines", "last2")


class FillLines(Case):
    """Lines are taken exactly as `gaps` prints them, in its order."""

    def refused(self, name: str, number: int, *listed: str, end: str = "\n") -> None:
        """Checks that `fill` refuses the line of this number."""
        self.write("lines", "\n".join(listed) + end)
        words = "fill -o got --gaps lines whole"
        self.row(name, words, 1, "", f"bad line {number}")

    def taken(self, name: str, *listed: str) -> None:
        """Checks that `fill` takes these lines."""
        self.write("lines", lines(*listed))
        self.row(name, "fill -o got --gaps lines empty", 0, "entries 0")

    def test_forms(self) -> None:
        partial = f"{OBJECT} partial missing 1 conflicting 0 misfit 0"
        for name, line in (
            ("a zero in front", f"{OBJECT} whole 05"),
            ("a sign", f"{OBJECT} whole +5"),
            ("two spaces", f"{OBJECT} whole  5"),
            ("a space behind", f"{OBJECT} whole 5 "),
            ("a space in front", f" {OBJECT} whole 5"),
            ("a carriage return", f"{OBJECT} whole 5\r"),
            ("no number", f"{OBJECT} whole"),
            ("another word", f"{OBJECT} entire 5"),
            ("an empty line", ""),
            ("a comment", "# whole"),
            ("a length of 65 bits", f"{OBJECT} whole {1 << 64}"),
            ("a count of 65 bits", partial.replace("missing 1", f"missing {1 << 64}")),
            ("a session of 49 bits", f"session {1 << 48} object 1 whole 5"),
            ("object 0", "session 7 object 0 whole 5"),
            ("an object of 113 bits", f"session 7 object {1 << 112} whole 5"),
            ("an instance of 21 bits", f"session 7 object fdt {1 << 20} whole 5"),
            ("a gaps line with the sender 0", f"source {'0' * 32} {OBJECT} whole 5"),
            ("a sender in capitals", f"source {'0' * 31}A {OBJECT} whole 5"),
            ("a sender of 31 digits", f"source {'0' * 30}a {OBJECT} whole 5"),
            ("unplaced", f"{OBJECT} no information unplaced conflicting 2"),
            ("a summary", "session 7 objects 1 whole 1 partial 0 missing 0 conflicting 0"),
            ("what show prints", f"{OBJECT} info length 5 symbol 4 block 2"),
            ("bytes", f"{OBJECT} whole 5\0"),
            ("no line of 513 bytes", "x" * 513),
        ):
            self.refused(name, 1, line)
            self.refused(f"{name}, behind another", 3, "session 6 object 1 whole 5",
                         "session 6 object 2 whole 5", line)
        for name, gap in (
            ("another reason", "gap 0/1-1 lost"),
            ("no reason", "gap 0/1-1"),
            ("no last one", "gap 0/1 missing"),
            ("last before first", "gap 0/2-1 missing"),
            ("a block of 17 bits", "gap 65536/1-1 missing"),
            ("a symbol of 17 bits", "gap 0/1-65536 missing"),
            ("a zero in front of a gap", "gap 0/01-1 missing"),
            ("bytes of an object", "bytes 0-4"),
        ):
            self.refused(name, 2, partial, gap)

    def test_ends(self) -> None:
        self.refused("no line feed", 1, WHOLE, end="")
        self.refused("none behind a line", 2, WHOLE, "session 7 object 2 whole 5", end="")
        self.refused("none behind a gap", 2, *WANTED.split("\n"), end="")
        self.refused("no end of a long line", 1, "x" * 5_000_000, end="")

    def test_order(self) -> None:
        partial = f"{OBJECT} partial missing 1 conflicting 0 misfit 0"
        second = "session 7 object 2 whole 5"
        instance = "session 7 object fdt 3 whole 5"
        of_sender = f"source {'0' * 31}1 session 1 object 1 whole 5"
        self.taken("in order", instance, WHOLE, second, "session 8 object 1 whole 5", of_sender)
        for name, first, then in (
            ("twice", WHOLE, WHOLE),
            ("another status", WHOLE, NO_INFORMATION),
            ("turned", second, WHOLE),
            ("an instance behind a file", WHOLE, instance),
            ("a session", "session 8 object 1 whole 5", WHOLE),
            ("a sender", of_sender, WHOLE),
        ):
            self.refused(name, 2, first, then)
        gaps = "gap 0/1-1 missing", "gap 0/2-2 conflicting", "gap 0/5-7 missing", "gap 1/0-3 misfit"
        self.taken("gaps in order", partial, *gaps, second)
        self.refused("an object behind gaps", 6, partial, *gaps, WHOLE)
        for name, first, then in (
            ("a gap twice", gaps[0], gaps[0]),
            ("gaps turned", gaps[2], gaps[1]),
            ("blocks turned", gaps[3], gaps[2]),
            ("one that begins where one ends", gaps[2], "gap 0/7-9 missing"),
            ("one in another", gaps[2], "gap 0/6-6 misfit"),
        ):
            self.refused(name, 3, partial, first, then)
        self.refused("a gap first", 1, GAP)
        for status in WHOLE, NO_INFORMATION, CONFLICTING:
            self.refused(f"a gap behind {status}", 2, status, GAP)

    def test_after_all(self) -> None:
        """A line at fault is told, though the journal has ended; the journal's fault too."""
        turned = "session 9 object 1 whole 5", "session 8 object 1 whole 5"
        self.write("lines", lines(WHOLE, *turned))
        words = "fill -o got --gaps lines"
        self.rows(
            ("behind the journal", f"{words} whole", 1, "", "bad line 3"),
            ("behind an empty one", f"{words} empty", 1, "", "bad line 3"),
        )
        self.write("lines", lines(WHOLE))
        self.row("a journal behind the lines", f"{words} bad", 1, "", "input 1: Trailing")
        self.absent("no file after a fault", "got")

    def test_many(self) -> None:
        """Gap lines far beyond what is held."""
        partial = f"{OBJECT} partial missing {MANY} conflicting 0 misfit 0"
        gaps = []
        for number in range(MANY):
            block, symbol = number >> 12, 2 * (number & 0xFFF)
            gaps.append(f"gap {block}/{symbol}-{symbol} missing")
        self.write("lines", lines(partial, *gaps))
        self.row("many lines", "fill -o got --gaps lines whole", 0, "entries 1")
        self.write("more", self.read("lines") + b"gap 0/0-0 missing\n")
        words = "fill -o got2 --gaps more whole"
        self.row("one too many", words, 1, "", f"bad line {MANY + 2}")
