"""Tests of --source, the sender of the objects that a command is about."""
from __future__ import annotations

from tests.program.case import (
    CONFLICTING,
    FIELDS,
    FIRST,
    HEADER2,
    HELLO_OF_ZERO,
    INFO,
    LAST,
    NAME,
    SYMBOL,
    V4,
    V6,
    WHOLE,
    Case,
    ended,
    joined,
    lines,
    made_by,
)
from tests.support.run import ZERO, version2

OF_V4 = made_by(V4)
MIXED = "00000000000000000000FfFf0a000001"
# The forms in which 10.0.0.1 may be written
SAME = V4, V4.lower(), MIXED, "0A000001", "0a000001", "10.0.0.1"
# Texts that are no addresses
BAD = (
    *("", "A", "0", "0A00001", "0A0000010", "0A00", "0" * 16, V4[:-1], f"{V4}0", f"{V4}00"),
    *("0G000001", "0g000001", f"{V4[:-1]}G", "-", "+A000001", " A000001", "0A00001 ", "0A 00001"),
    *("0x0A0000", "0x0A000001", "10.0.0.256", "10.0.0.01", "10.0.0", "10.0.0.1.1", "10.0.0.1/8"),
    *(" 10.0.0.1", "1::2::3", "2001:db8::12345", "1:2:3:4:5:6:7", "1:2:3:4:5:6:7:8:9"),
    *("fe80::1%1", "[::1]", "::10.0.0.256"),
)
# An address in text, and its digits by Python's ipaddress
ADDRESSES = {
    "10.0.0.1": V4,
    "::ffff:10.0.0.1": V4,
    "::FFFF:a00:1": V4,
    "2001:db8::1": V6,
    "2001:DB8:0:0:0:0:0:1": V6,
    "255.255.255.255": "00000000000000000000FFFFFFFFFFFF",
    "0.0.0.0": "00000000000000000000FFFF00000000",
    "::1": "00000000000000000000000000000001",
    "::": ZERO,
    "1:2:3:4:5:6:7:8": "00010002000300040005000600070008",
    "64:ff9b::192.0.2.33": "0064FF9B0000000000000000C0000221",
    "1:2:3:4:5:6:1.2.3.4": "00010002000300040005000601020304",
    "1::": "00010000000000000000000000000000",
}


def both_ways(source: str) -> tuple[str, str]:
    return f"--source {source}", f"--source={source}"


class Sources(Case):
    def setUp(self) -> None:
        super().setUp()
        self.senders()


class ExtractOf(Sources):
    def test_sender(self) -> None:
        for source in SAME:
            for option in both_ways(source):
                words = f"extract -f -o got {option} {NAME} three"
                self.makes(option, words, "bytes 5", "world_content")

    def test_zero(self) -> None:
        for option in "", f"--source {ZERO}", "--source ::":
            words = f"extract -f -o got {option} {NAME} three"
            self.makes(f"the sender zero, '{option}'", words, "bytes 5", "content")
        words = f"extract -f -o got --source {ZERO} {NAME} whole"
        self.makes("from an old journal", words, "bytes 5", "content")

    def test_others(self) -> None:
        of, v4 = "extract -o got8", "extract -o got8 --source 0a000001"
        none = 1, "", "no object"
        two = "--tsi 7 --toi 2 three"
        self.rows(
            ("the sender zero has it not", f"{of} {NAME} world", *none),
            ("another sender alone has it", f"{of} {two}", *none),
            ("a part of another sender", f"{v4} {two}", 1, "", "not whole: 0/0"),
            ("the sender zero alone has it", f"{v4} --tsi 7 --toi 3 three", *none),
            ("the sender zero alone has its session", f"{v4} --tsi 8 --toi 1 three", *none),
            ("no such sender", f"{of} --source 0a000002 {NAME} three", *none),
            ("0.0.0.0 is not the sender zero", f"{of} --source 00000000 {NAME} three", *none),
            ("nor by its dots", f"{of} --source 0.0.0.0 {NAME} three", *none),
            ("of an old journal", f"{v4} {NAME} whole", *none),
        )
        for v6 in V6, V6.lower(), "20010dB8" + V6[8:], "2001:db8::1", "2001:0DB8:0:0::0:0:1":
            words = f"{of} --source {v6} {NAME} three"
            self.row(f"IPv6, {v6}", words, 1, "", "conflicting information")
        self.absent("nothing is made", "got8", "got8.partial")


class InfoOf(Sources):
    def setUp(self) -> None:
        super().setUp()
        symbols, info = version2(ZERO, f"{FIRST} {LAST}"), version2(V4, INFO)
        self.file("informed", HEADER2, symbols, info, ended(3))
        self.file("informed_both", HEADER2, HELLO_OF_ZERO, info, ended(4))

    def test_sender(self) -> None:
        for source in SAME:
            for option in both_ways(source):
                words = f"info -o got {option} {NAME} {FIELDS} symbols"
                self.makes(option, words, "entries 3", "informed")
        words = f"info -o got --source 0a000001 {NAME} {FIELDS} symbols2"
        self.makes("in version 2", words, "entries 3", "informed")

    def test_zero(self) -> None:
        words = f"info -o got --source {ZERO} {NAME} {FIELDS} symbols"
        self.makes("the sender zero", words, "entries 3", "whole2")
        words = f"info -o got {NAME} {FIELDS} informed"
        self.makes("beside another sender", words, "entries 4", "informed_both")
        words = f"info -o got --source 00000000 --tsi 7 --toi 0 --fdt 3 {FIELDS} empty"
        self.row("an FDT Instance of 0.0.0.0", words, 0, "entries 1")
        of = made_by("00000000000000000000FFFF00000000")
        line = f"{of}session 7 object fdt 3 info length 5 symbol 4 block 2"
        self.row("its information", "show got", 0, lines(line, "entries 1"))

    def test_conflict(self) -> None:
        fields = "--length 5 --symbol 4 --block 3"
        words = f"info -o got --source 0a000001 {NAME} {fields} two"
        self.row("in conflict with that of one sender", words, 0, "entries 6")
        self.row("not with the other's", "gaps got", 0, lines(WHOLE, OF_V4 + CONFLICTING))


class JoinOf(Sources):
    """--source is the sender of each datagram file, and of no journal."""

    def test_sender(self) -> None:
        for source in V4, V4.lower(), "0A000001", "0a000001":
            for option in both_ways(source):
                self.makes(option, f"join -o got {option} sent", joined(2, 3), "hello_v4")
        words = f"join -o got --source {V4} sent sent"
        self.makes("two datagram files", words, joined(4, 3), "hello_v4")
        words = f"join -o got --source {ZERO} sent"
        self.makes("the sender zero", words, joined(2, 3), "whole2")

    def test_addresses(self) -> None:
        for address, digits in ADDRESSES.items():
            self.file("wanted", HEADER2, version2(digits, f"{INFO} {FIRST} {LAST}"), ended(3))
            words = f"join -o got --source {address} sent"
            self.makes(address, words, joined(2, 3), "wanted")

    def test_journals_have_their_own(self) -> None:
        for inputs in (
            *("sent whole", "whole sent", "whole2 sent", "sent whole2 sent"),
            *("hello_both sent", "hello_v4 whole"),
        ):
            self.makes(inputs, f"join -o got --source 0a000001 {inputs}", None, "hello_both")
        words = "join -o got --source 0a000001 whole"
        self.makes("a journal alone", words, joined(0, 3), "whole2")


class BadSources(Sources):
    """A wrong address is reported after wrong numbers and before other faults; nothing is made."""

    def setUp(self) -> None:
        super().setUp()
        self.write("kept", "before")

    def nothing_made(self) -> None:
        self.same("the output that was there", "kept", b"before")
        self.absent("nothing is made", "kept.partial", "got8", "got8.partial")

    def test_addresses(self) -> None:
        info = ["info", "-o"]
        for out, source in ((out, source) for source in BAD for out in ("kept", "got8")):
            apart, joint = ["--source", source], [f"--source={source}"]
            for words in (
                ["extract", "-o", out, *apart, *NAME.split(), "three"],
                ["extract", "-o", out, *joint, *"--tsi 7 --toi 0 missing".split()],
                [*info, out, *apart, *f"{NAME} {FIELDS} three".split()],
                ["join", "-o", out, *apart, "sent", "three"],
                ["join", "-o", out, *joint, "missing"],
                [
                    *(*info, out, *joint),
                    *"--tsi 7 --toi 1 --fdt 3 --length 5 --symbol 0 --block 2 missing".split(),
                ],
            ):
                self.row(" ".join(words), words, 2, "", "bad source")
        self.nothing_made()

    def test_order(self) -> None:
        of, key = "-o got8 --source 0A000001", "--tsi 7 --toi 0"
        many = " ".join(map(str, range(1, 66)))
        number = "extract -o kept --source 0 --tsi x --toi 0 missing"
        good = f"join -o kept --source 0A000001 {many}"
        self.rows(
            ("a bad key of extract", f"extract {of} {key} missing", 2, "", "bad key"),
            ("a bad key of info", f"info {of} {key} {FIELDS} missing", 2, "", "bad key"),
            ("a bad number before both", number, 2, "", "bad number: --tsi"),
            ("before too many inputs", f"join -o kept --source 0 {many}", 2, "", "bad source"),
            ("too many inputs with a good source", good, 2, "", "too many inputs"),
        )
        self.nothing_made()

    def test_bad_numbers_first(self) -> None:
        key = {"tsi": "7", "toi": "0", "fdt": "3"}
        fields = {"length": "5", "symbol": "4", "block": "2"}
        for command, numbers in ("info", {**key, **fields}), ("extract", key):
            for bad in numbers:
                of = {**numbers, bad: "x"}
                options = " ".join(f"--{name} {value}" for name, value in of.items())
                wanted = 2, "", f"bad number: --{bad}"
                before = f"{command} -o kept --source 0 {options} missing"
                self.row(f"{command}, --{bad} before a source", before, *wanted)
                behind = f"{command} -o kept {options} --source=-A000001 missing"
                self.row(f"{command}, --{bad}, a source behind it", behind, *wanted)
        self.nothing_made()

    def test_hyphens(self) -> None:
        """A value that begins with a hyphen needs `=` before it; otherwise it is another option."""
        for source in "-A000001", "-0A00001", "-0A000001", "--", "-h":
            words = f"extract -o kept --source={source} {NAME} three"
            self.row(f"extract, {source}", words, 2, "", "bad source")
            words = f"join -o kept --source={source} sent three"
            self.row(f"join, {source}", words, 2, "", "bad source")
        info = f"info -o kept {NAME} --length"
        fields = "--symbol 4 --block 2 three"
        none = "a value is required for '--source <ADDRESS>' but none was supplied"
        for name, words, text in (
            ("a source", f"extract -o kept --source -A000001 {NAME} three", unexpected("-A")),
            ("no source", f"extract -o kept --source -- {NAME} three", none),
            ("a length", f"{info} -5 {fields}", unexpected("-5")),
            ("a session", "join -o kept --tsi -1 sent", unexpected("-1")),
        ):
            self.refused_by_parser(f"{name} that is an option", words, text)
        self.row("a length behind its option", f"{info}=-5 {fields}", 2, "", "bad number: --length")
        words = "join -o kept --tsi=-1 sent"
        self.row("a session behind its option", words, 2, "", "bad number: --tsi")
        self.nothing_made()

    def test_commands_without_it(self) -> None:
        carousel = f"-o kept {NAME} --symbol 4 --block 2 content"
        of = {"merge": "-o kept three three", "packet": SYMBOL, "carousel": carousel}
        for command, words in of.items():
            text = unexpected("--source")
            source = "--source 0A000001"
            self.refused_by_parser(f"behind {command}", f"{command} {words} {source}", text)
            self.refused_by_parser(f"in {command}", f"{command} {source} {words}", text)
        self.nothing_made()

    def test_twice_or_without_a_value(self) -> None:
        source = "--source 0A000001"
        for name, words in (
            ("extract", f"extract -o kept {source} {NAME} {source} three"),
            ("info", f"info -o kept {source} {NAME} {FIELDS} --source 0A000002 three"),
            ("join", f"join -o kept {source} --source 0A000002 sent"),
        ):
            text = "the argument '--source <ADDRESS>' cannot be used multiple times"
            self.refused_by_parser(f"{name} with two sources", words, text)
        words = f"extract -o kept {NAME} three --source"
        text = "a value is required for '--source <ADDRESS>' but none was supplied"
        self.refused_by_parser("a source without a value", words, text)
        self.nothing_made()


def unexpected(word: str) -> str:
    return f"unexpected argument '{word}' found"
