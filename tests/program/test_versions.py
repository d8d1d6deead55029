"""Tests of journals of version 2, and of several senders in one."""
from __future__ import annotations

from tests.program.case import (
    CONFLICTING,
    FIELDS,
    FIRST_LINE,
    HEADER,
    HEADER2,
    INFO,
    INFO_LINE,
    KEY,
    LAST_LINE,
    NAME,
    SECOND,
    SESSION_8,
    THIRD,
    V4,
    V6,
    WHOLE,
    WORLD_OF_V4,
    Case,
    conflicts,
    ended,
    joined,
    lines,
    made_by,
)
from tests.support.run import ZERO, version2

OF_V4, OF_V6 = made_by(V4), made_by(V6)
WORLD_LINES = (
    f"{OF_V4}{INFO_LINE}",
    f"{OF_V4}session 7 object 1 symbol 0/0 length 4 776f726c",
    f"{OF_V4}session 7 object 1 symbol 0/1 length 1 64",
)
BY_HAND = """
    464C4A4E 0002
    01 00000000000000000000000000000000
        000000000007 01 0000000000000000000000000001 000000000005 0004 00000002
    03 00000000000000000000000000000000
        000000000007 01 0000000000000000000000000001 0000 0000 0004 68656C6C
    03 00000000000000000000000000000000
        000000000007 01 0000000000000000000000000001 0000 0001 0001 6F
    FF 0000000000000003"""


class BothVersions(Case):
    """Journals of both versions give the same output, and a journal of version 2 is written again
    byte for byte."""

    def test_by_hand(self) -> None:
        self.file("by_hand", BY_HAND)
        self.same("a journal of version 2, by hand", "by_hand", "whole2")

    def test_lines(self) -> None:
        for old in self.old():
            for command in "show", "gaps":
                wanted = self.program(f"{command} {old}")
                self.check(f"{command} of {old}", wanted, 0, None)
                name = f"{command} of {old} in version 2"
                self.row(name, f"{command} {old}2", 0, wanted.out)
        shown = lines(INFO_LINE, FIRST_LINE, LAST_LINE, "entries 3")
        self.row("show of standard input", "show -", 0, shown, stdin=self.path("whole2"))

    def old(self) -> tuple[str, ...]:
        first = "whole", "empty", "conflict", "symbol", "part"
        return *first, "instance", "others", "symbols", "many"

    def test_joined_and_merged(self) -> None:
        for old in self.old():
            new = f"{old}2"
            for inputs in old, new, f"{new} {old}":
                self.makes(f"join of {inputs}", f"join -o got {inputs}", None, new)
            for inputs in f"{old} {old}", f"{new} {new}", f"{old} {new}", f"{new} {old}":
                self.makes(f"merge of {inputs}", f"merge -o got {inputs}", None, new)

    def test_extract_and_info(self) -> None:
        self.makes("extract", f"extract -f -o got {NAME} whole2", "bytes 5", "content")
        self.row("a part", f"extract -o got8 {NAME} part2", 1, "", "not whole: 0/1")
        self.makes("info", f"info -o got {NAME} {FIELDS} symbols2", "entries 3", "whole2")


class Senders(Case):
    """10.0.0.1 and an IPv6 address send different objects in sessions of the same TSI."""

    def setUp(self) -> None:
        super().setUp()
        self.senders()

    def test_one(self) -> None:
        self.row("show", "show world", 0, lines(*WORLD_LINES, "entries 3"))
        self.row("gaps", "gaps world", 0, OF_V4 + WHOLE)

    def test_each_kind_of_entry(self) -> None:
        fdt_3 = "000000000007 00 0000000000000000000000000003"
        entries = (
            f"03 {fdt_3} 0000 0000 0001 3C {conflicts(KEY)}",
            f"01 {SECOND} 000000000005 0004 00000002 03 {SECOND} 0000 0000 0004 68656C6C",
            f"04 {THIRD} 0000 0001",
        )
        self.file("states", HEADER2, version2(V4, " ".join(entries)), ended(5))
        shown = (
            "session 7 object fdt 3 symbol 0/0 length 1 3c",
            "session 7 object 1 info conflict",
            "session 7 object 2 info length 5 symbol 4 block 2",
            "session 7 object 2 symbol 0/0 length 4 68656c6c",
            "session 7 object 3 symbol 0/1 conflict",
        )
        self.row("show", "show states", 0, lines(*map(OF_V4.__add__, shown), "entries 5"))
        states = (
            f"{OF_V4}session 7 object fdt 3 no information",
            f"{OF_V4}{CONFLICTING}",
            f"{OF_V4}session 7 object 2 partial missing 1 conflicting 0 misfit 0",
            "gap 0/1-1 missing",
            f"{OF_V4}session 7 object 3 no information",
        )
        self.row("gaps", "gaps states", 0, lines(*states))

    def test_order(self) -> None:
        """Entries are ordered by sender, and then by TSI."""
        self.row("gaps of two", "gaps two", 0, lines(WHOLE, OF_V4 + WHOLE))
        states = (
            WHOLE,
            "session 7 object 3 conflicting information",
            "session 8 object 1 conflicting information",
            OF_V4 + WHOLE,
            f"{OF_V4}session 7 object 2 partial missing 2 conflicting 0 misfit 0",
            "gap 0/0-1 missing",
            OF_V6 + CONFLICTING,
        )
        self.row("gaps of three", "gaps three", 0, lines(*states))
        shown = (
            *(INFO_LINE, FIRST_LINE, LAST_LINE),
            "session 7 object 3 info conflict",
            "session 8 object 1 info conflict",
            *WORLD_LINES,
            f"{OF_V4}session 7 object 2 info length 5 symbol 4 block 2",
            f"{OF_V6}session 7 object 1 info conflict",
            "entries 10",
        )
        self.row("show of three", "show three", 0, lines(*shown))

    def test_inputs_of_both_versions(self) -> None:
        for inputs in (
            *("whole world", "world whole", "whole2 world", "world whole2"),
            *("two whole", "world two", "two two"),
        ):
            self.makes(f"merge of {inputs}", f"merge -o got {inputs}", "entries 6", "two")
            self.makes(f"join of {inputs}", f"join -o got {inputs}", joined(0, 6), "two")

    def test_datagrams_too(self) -> None:
        for inputs in "sent world", "world sent", "two sent":
            self.makes(f"join of {inputs}", f"join -o got {inputs}", joined(2, 6), "two")
        words = "join -o got sent world sent whole world three"
        self.makes("join of all kinds", words, joined(4, 10), "three")

    def test_two_senders(self) -> None:
        """Two senders with one TSI."""
        self.write("reversed", "olleh")
        words = f"carousel -o reversed_sent {NAME} --symbol 4 --block 2 reversed"
        self.row("the second sender", words, 0, "datagrams 2")
        self.made("join -o of_first --source 0a000001 sent")
        self.made("join -o of_second --source 0a000002 reversed_sent")
        self.row("merge", "merge -o of_both of_first of_second", 0, "entries 6")
        second = made_by("00000000000000000000FFFF0A000002")
        self.row("no conflict", "gaps of_both", 0, lines(OF_V4 + WHOLE, second + WHOLE))
        for sender, wanted in ("0a000001", "content"), ("0a000002", "reversed"):
            words = f"extract -f -o got --source {sender} {NAME} of_both"
            self.makes(f"extract of {sender}", words, "bytes 5", wanted)
        words = f"extract -o got8 {NAME} of_both"
        self.row("the sender zero, which sent nothing", words, 1, "", "no object")
        self.absent("no file of it", "got8")

    def test_limit_counts_sessions_of_all_senders(self) -> None:
        words = f"info -o got8 --source 0a000001 --tsi 63 --toi 1 {FIELDS} many"
        self.row("info of one too many", words, 1, "", "full")
        self.row("join of one too many", "join -o got8 many world", 1, "", "full")
        self.absent("no file of it", "got8")


class Faults(Case):
    """Faults of version 2."""

    def fault(self, name: str, text: str, *before: str) -> None:
        """Checks a fault of a journal: its name, its bytes and the lines before it."""
        self.file("bad", text)
        self.row(name, "show bad", 1, lines(*before), f"input 1: {name}")

    def test_faults(self) -> None:
        def v4(entries: str) -> str:
            return version2(V4, entries)

        self.fault("Version", v4(f"464C4A4E0003 {INFO} {ended(1)}"))
        self.fault("Version", "464C4A4E0000 FF 0000000000000000")
        self.fault("Kind", f"{HEADER2} {v4(INFO)} 05 {V4} {KEY}", OF_V4 + INFO_LINE)
        zero = conflicts("000000000007 01 0000000000000000000000000000")
        self.fault("Key", f"{HEADER2} {v4(zero)} {ended(1)}")
        info = v4(f"01 {KEY} 000000000005 0004 00000000")
        self.fault("Information BlockLength", f"{HEADER2} {info} {ended(1)}")
        empty = v4(f"03 {KEY} 0000 0000 0000")
        self.fault("EmptySymbol", f"{HEADER2} {empty} {ended(1)}")
        self.fault("Count", f"{HEADER2} {WORLD_OF_V4} {ended(4)}", *WORLD_LINES)
        self.fault("Trailing", f"{HEADER2} {v4(INFO)} {ended(1)} 00", OF_V4 + INFO_LINE)
        cut = f"{HEADER2} {v4(INFO)} 03 00000000000000000000FFFF0A0000"
        self.fault("Cut", cut, OF_V4 + INFO_LINE)

    def test_order(self) -> None:
        seventh, eighth = conflicts(KEY), conflicts(SESSION_8)
        line = "session 7 object 1 info conflict"
        end = ended(2)
        above = f"{HEADER2} {version2(V4, seventh)} {version2(ZERO, eighth)} {end}"
        self.fault("Order", above, OF_V4 + line)
        above = f"{HEADER2} {version2(V6, seventh)} {version2(V4, eighth)} {end}"
        self.fault("Order", above, OF_V6 + line)
        self.fault("Order", f"{HEADER2} {version2(V4, f'{seventh} {INFO}')} {end}", OF_V4 + line)
        later = f"{HEADER2} {version2(V4, f'{eighth} {seventh}')} {end}"
        self.fault("Order", later, f"{OF_V4}session 8 object 1 info conflict")

    def test_version_says_what_an_entry_has(self) -> None:
        self.fault("Cut", f"{HEADER2} {conflicts(KEY)} {ended(1)}")
        line = "session 0 object fdt 0 info conflict"
        self.fault("Kind", f"{HEADER} 02 {ZERO} {KEY} {ended(1)}", line)

    def each_command(self, name: str, err: str) -> None:
        """Each command that reads a journal reports this fault of `bad`, and makes nothing."""
        for words in (
            *("show bad", "gaps bad", f"extract -o got8 {NAME} bad"),
            *(f"info -o got8 {NAME} {FIELDS} bad", "join -o got8 bad", "merge -o got8 bad whole"),
        ):
            self.row(f"{name}: {words}", words, 1, "", err)
        self.absent(f"nothing is made: {name}", "got8", "got8.partial")

    def test_each_command(self) -> None:
        self.file("bad", "464C4A4E0003 FF 0000000000000000")
        self.each_command("an empty journal of version 3", "input 1: Version")
        self.file("bad", version2(V4, f"464C4A4E0003 {INFO} {ended(1)}"))
        self.each_command("a journal of version 3", "input 1: Version")
        self.senders()
        for length in 6, 7, 8, 22, 23:
            self.write("bad", self.read("world")[:length])
            self.each_command(f"version 2 cut behind {length} bytes", "input 1: Cut")

    def test_versions_of_datagram_files(self) -> None:
        self.senders()
        for version in "0002", "0003", "0000":
            self.file("bad", f"464C4447 {version} 0003 10A000")
            self.row(f"version {version}", "join -o got8 bad", 1, "", "input 1: Version")
            words = "join -o got8 world bad"
            self.row(f"version {version} beside a journal", words, 1, "", "input 2: Version")
        self.absent("nothing is made", "got8", "got8.partial")
