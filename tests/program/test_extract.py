"""Tests of `extract` and `info`."""
from __future__ import annotations

from tests.program.case import (
    CONFLICT_LINE,
    FIELDS,
    FIRST_LINE,
    INFO_LINE,
    LAST_LINE,
    NAME,
    Case,
    lines,
)

FULL = {"to": "/dev/full"}


class Extract(Case):
    def test_object(self) -> None:
        self.makes("an object", f"extract -o got {NAME} whole", "bytes 5", b"hello")

    def test_no_object(self) -> None:
        fdt = "extract -o got --tsi 7 --toi 0 --fdt 3 instance"
        self.rows(
            ("a part", f"extract -o got {NAME} part", 1, "", "not whole: 0/1"),
            ("another object", "extract -o got --tsi 7 --toi 2 whole", 1, "", "no object"),
            ("no information", f"extract -o got {NAME} symbol", 1, "", "no information"),
            ("an FDT Instance", fdt, 1, "", "no information"),
            ("a conflict", f"extract -o got {NAME} conflict", 1, "", "conflicting information"),
            ("no input", f"extract -o got {NAME} missing", 3, "", "cannot open input 1"),
        )
        self.absent("no file after a fault", "got")

    def test_order_of_faults(self) -> None:
        number = "extract -o got --tsi x --toi 0 missing"
        key = "extract -o got --tsi 7 --toi 0 missing"
        self.rows(
            ("the object before the output", f"extract -o no/got {NAME} part", 1, "",
             "not whole: 0/1"),
            ("the first bad number", number, 2, "", "bad number: --tsi"),
            ("the key before the input", key, 2, "", "bad key"),
        )
        self.absent("no file after them", "got")

    def test_outputs(self) -> None:
        self.rows(
            ("no folder", f"extract -o no/got {NAME} whole", 3, "", "cannot create output"),
            ("a full output", f"extract -o /dev/full {NAME} whole", 3, "", "cannot write"),
        )
        words = f"extract -o got {NAME} whole"
        self.row("a full standard output", words, 3, "", "cannot write", **FULL)


class Info(Case):
    def test_information(self) -> None:
        words = f"info -o got {NAME} {FIELDS} symbols"
        self.makes("information", words, "entries 3", "whole2")
        words = f"info -o got {NAME} --length 5 --symbol 4 --block 3 whole"
        self.row("other information", words, 0, "entries 3")
        shown = lines(CONFLICT_LINE, FIRST_LINE, LAST_LINE, "entries 3")
        self.row("a conflict", "show got", 0, shown)

    def test_lengths(self) -> None:
        for length, symbol, block in (
            (5_000_000_001, 10_000, 60_000),
            (140_737_488_355_327, 65_535, 65_535),
            (4_294_967_297, 4_097, 65_537),
        ):
            fields = f"--length {length} --symbol {symbol} --block {block}"
            self.row(f"length {length}", f"info -o got {NAME} {fields} empty", 0, "entries 1")
            line = f"session 7 object 1 info length {length} symbol {symbol} block {block}"
            self.row(f"information of length {length}", "show got", 0, lines(line, "entries 1"))

    def test_faults(self) -> None:
        symbol = f"info -o got {NAME} --length 5 --symbol 0 --block 2 missing"
        number = "info -o got --tsi 7 --toi 0 --length x --symbol 0 --block 2 missing"
        self.rows(
            ("before the input", symbol, 1, "", "bad information: SymbolLength"),
            ("numbers before the key", number, 2, "", "bad number: --length"),
            ("a bad journal", f"info -o got {NAME} {FIELDS} bad", 1, "", "input 1: Trailing"),
        )
        self.absent("no file after a fault", "got")

    def test_outputs(self) -> None:
        self.rows(
            ("a full output", f"info -o /dev/full {NAME} {FIELDS} symbols", 3, "", "cannot write"),
            ("no folder", f"info -o no/got {NAME} {FIELDS} whole", 3, "", "cannot create output"),
        )

    def test_limits(self) -> None:
        self.write("kept", "before")
        words = f"info -o kept --tsi 64 --toi 1 {FIELDS} many"
        self.row("one session too many", words, 1, "", "full")
        self.same("the output that was there", "kept", b"before")
        words = f"info -o kept --tsi 63 --toi 1 {FIELDS} many"
        self.row("the last session", words, 0, "entries 64")
        self.same("information where it is in conflict", "kept", "many2")


class InfoList(Case):
    """FEC OTI of many objects, in lines as `show` prints them."""

    def setUp(self) -> None:
        super().setUp()
        self.list = f"# twice\n\n{INFO_LINE}\n{INFO_LINE}\n"
        self.write("lines", self.list)

    def test_lists(self) -> None:
        self.makes("a list", "info -o got --list lines symbols", "entries 3", "whole2")
        shown = [line for line in self.made("show whole").lines() if " info length " in line]
        self.write("shown", lines(*shown))
        self.makes("what is shown", "info -o got --list shown symbols", "entries 3", "whole2")
        words = "info -o got --list nothing symbols"
        self.makes("an empty list", words, "entries 2", "symbols2")

    def test_streams(self) -> None:
        words = "info -o got --list - symbols"
        self.makes("from standard input", words, "entries 3", "whole2", stdin=self.path("lines"))
        words = "info -o got --list lines -"
        journal = self.path("symbols")
        self.makes("its journal from there", words, "entries 3", "whole2", stdin=journal)
        words = "info -o - --list lines symbols"
        self.row("to standard output", words, 0, self.read("whole2"), "entries 3")
        words = "info -o got3 --list - -"
        both = self.path("lines")
        self.row("both from standard input", words, 2, "", "standard input twice", stdin=both)
        self.absent("no file after it", "got3")

    def test_over_its_journal(self) -> None:
        self.write("over", self.read("symbols"))
        self.row("over its journal", "info -o over --list lines over", 0, "entries 3")
        self.same("the journal that was written over", "over", "whole2")

    def test_lines_at_fault(self) -> None:
        self.write("short", INFO_LINE)
        self.write("crlf", f"{INFO_LINE}\r\n")
        self.write("zeros", self.list + INFO_LINE.replace("7", "07") + "\n")
        self.write("invalid", self.list + INFO_LINE.replace("symbol 4", "symbol 0") + "\n")
        of = "info -o got --list"
        self.rows(
            ("without the last line feed", f"{of} short symbols", 1, "", "list: line 1"),
            ("carriage returns", f"{of} crlf symbols", 1, "", "list: line 1"),
            ("before the journal is read", f"{of} zeros bad", 1, "", "list: line 5"),
            ("numbers not valid", f"{of} invalid symbols", 1, "", "list: line 5: SymbolLength"),
        )
        self.absent("no file after a fault of a list", "got")

    def test_faults(self) -> None:
        self.write("beyond", "session 64 object 1 info length 5 symbol 4 block 2\n")
        of = "info -o got --list"
        full = "info -o /dev/full --list lines symbols"
        self.rows(
            ("a bad journal", f"{of} lines bad", 1, "", "input 1: Trailing"),
            ("no journal", f"{of} missing missing", 3, "", "cannot open input 1"),
            ("no list", f"{of} missing symbols", 3, "", "cannot open input 2"),
            ("a folder for a list", f"{of} . symbols", 3, "", "cannot open input 2"),
            ("one session too many", f"{of} beyond many", 1, "", "full"),
            ("a full output", full, 3, "", "cannot write"),
        )
        self.absent("no file after a fault", "got")
