"""Tests of `merge`, `forget` and `carousel`."""
from __future__ import annotations

from tests.program.case import CUT, NAME, PART, Case, joined, lines

FULL = {"to": "/dev/full"}


def left(forgotten: int, entries: int) -> str:
    return lines(f"forgotten {forgotten}", f"entries {entries}")


class Merge(Case):
    def test_journals(self) -> None:
        self.makes("two journals", "merge -o got whole others", "entries 4", "joined2")
        self.makes("an empty journal", "merge -o got empty whole", "entries 3", "whole2")
        self.makes("with itself", "merge -o got whole whole", "entries 3", "whole2")
        self.row("over another journal", "merge -o got whole others", 0, "entries 4")
        self.same("the other journal is gone", "got", "joined2")

    def test_inputs(self) -> None:
        into = "merge -o whole whole others"
        self.rows(
            ("into an input of version 1", into, 2, "", "output is an input"),
            ("no first input", "merge -o got missing missing", 3, "", "cannot open input 1"),
            ("no second input", "merge -o got whole missing", 3, "", "cannot open input 2"),
            ("a bad journal", "merge -o got whole bad", 1, "", "input 2: Trailing"),
        )
        self.absent("no file after a fault", "got")

    def test_outputs(self) -> None:
        first = "merge -o no/got bad bad"
        self.rows(
            ("the output before the inputs are read", first, 3, "", "cannot create output"),
            ("a full output", "merge -o /dev/full whole others", 3, "", "cannot write"),
        )
        words = "merge -o got whole others"
        self.row("a full standard output", words, 3, "", "cannot write", **FULL)


class Forget(Case):
    """The result has the entries that are left in the lines of `show`, and is no join."""

    def test_nothing(self) -> None:
        words = "forget -o got --conflicts whole"
        self.makes("nothing is in conflict", words, left(0, 3), "whole2")
        words = "forget -o got --info --symbol 0/0 whole"
        self.rows(
            ("what is information and a symbol", words, 0, left(0, 3)),
            ("another object", "forget -o got --tsi 7 --toi 2 whole", 0, left(0, 3)),
            ("another sender", "forget -o got --source 0a000001 whole", 0, left(0, 3)),
        )

    def test_conflict(self) -> None:
        words = "forget -o got --conflicts conflict"
        self.makes("a conflict", words, left(1, 0), "empty2")
        self.row("it comes back with the next input", "join -o got2 got whole", 0, joined(0, 3))
        self.same("as that has it", "got2", "whole2")

    def test_information_and_symbols(self) -> None:
        words = "forget -o got --info whole"
        self.makes("information", words, left(1, 2), "symbols2")
        done = self.program("show got")
        self.holds("no information is left", done.status == 0 and b"info" not in done.out, done)
        self.row("a symbol", "forget -o got --symbol 0/0 whole", 0, left(1, 2))
        self.row("the gap that is left of it", "gaps got", 0, PART + "gap 0/0-0 missing")

    def test_objects(self) -> None:
        words = "forget -o got --tsi 8 --tsi 7 --toi 1 whole"
        self.makes("an object of one of two sessions", words, left(3, 0), "empty2")
        self.row("the sender zero", "forget -o got --source :: whole", 0, left(3, 0))
        self.row("an FDT Instance", "forget -o got --toi 0 --fdt 3 instance", 0, left(1, 0))

    def test_in_place(self) -> None:
        self.write("got", self.read("whole2"))
        self.row("in place", "forget -o got --symbol 0/0 got", 0, left(1, 2))
        self.row("again", "forget -o got --symbol 0/0 got", 0, left(0, 2))

    def test_words(self) -> None:
        both = "forget -o got --source nobody --symbol x whole"
        self.rows(
            ("nothing", "forget -o got whole", 2, "", "missing option: what to forget"),
            ("no block", "forget -o got --symbol 0 whole", 2, "", "bad number: --symbol"),
            ("range", "forget -o got --symbol 0/65536 whole", 2, "", "bad number: --symbol"),
            ("an FDT Instance without the TOI 0", "forget -o got --fdt 3 whole", 2, "", "bad key"),
            ("of a file", "forget -o got --toi 1 --fdt 3 whole", 2, "", "bad key"),
            ("a wrong symbol before a wrong sender", both, 2, "", "bad number: --symbol"),
            ("two lists", "forget -o got --list a --list b whole", 2, "", None),
            ("both standard input", "forget -o got --list - -", 2, "", "standard input twice"),
        )
        self.absent("no file after a fault", "got")

    def test_faults(self) -> None:
        no = "forget -o no/got --conflicts"
        missing = "forget -o got --conflicts missing"
        full = "forget -o /dev/full --conflicts whole"
        self.rows(
            ("a bad journal", "forget -o got --conflicts bad", 1, "", "input 1: Trailing"),
            ("a bad journal before its output", f"{no} bad", 1, "", "input 1: Trailing"),
            ("no folder", f"{no} whole", 3, "", "cannot create output"),
            ("no journal", missing, 3, "", "cannot open input 1"),
            ("a full output", full, 3, "", "cannot write"),
        )
        self.absent("no file after them", "got")
        words = "forget -o got --conflicts whole"
        self.row("a full standard output", words, 3, "", "cannot write", **FULL)


class Carousel(Case):
    def test_datagrams(self) -> None:
        self.makes("a file", f"carousel -o got {NAME} {CUT} content", "datagrams 2", "sent")
        words = f"carousel -f -o got {NAME} --symbol 0 --block 0 nothing"
        self.row("no content", words, 0, "datagrams 1")

    def test_faults(self) -> None:
        of = "carousel -o got"
        mem = f"{of} {NAME} {CUT} /proc/self/mem"
        symbol = f"{of} {NAME} --symbol 0 --block 2 content"
        tsi = f"{of} --tsi 4294967296 --toi 1 {CUT} content"
        toi = f"{of} --tsi 7 --toi 4294967296 {CUT} content"
        self.rows(
            ("bad information", symbol, 1, "", "bad information: SymbolLength"),
            ("a session of many bits", tsi, 1, "", "cannot send: Tsi"),
            ("an object of many bits", toi, 1, "", "cannot send: Toi"),
            ("no file", f"{of} {NAME} {CUT} missing", 3, "", "cannot open input 1"),
            ("a file that cannot be read", mem, 3, "", "input 1: Read"),
            ("a full output", f"carousel -o /dev/full {NAME} {CUT} content", 3, "", "cannot write"),
        )
        self.absent("no file after a fault", "got")

    def test_instance_0(self) -> None:
        of = "--tsi 7 --toi 0 --fdt"
        words = f"carousel -o got {of} 0 {CUT} content"
        self.row("the FDT Instance 0", words, 0, "datagrams 2")
        self.made("join -o alike got")
        self.row("its gaps", "gaps alike", 0, "session 7 object fdt 0 whole 5")
        self.row("it is extracted", f"extract -o object {of} 0 alike", 0, "bytes 5")
        self.same("its content", "object", "content")
        self.row("another", f"extract -o other {of} 1 alike", 1, "", "no object")
        self.absent("no file of another", "other")
