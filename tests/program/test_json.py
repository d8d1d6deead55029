"""Tests of `show --sums`, and of `--json` of `show` and `packet`, each against the plain lines."""
from __future__ import annotations

import hashlib
import json
import random
import re
from typing import Any, Dict, List

from tests.program.case import CONFLICT_LINE, HEADER2, INFO_LINE, SYMBOL, V6, Case, ended, lines
from tests.program.test_minus import drawn, drawn_places, entries_of
from tests.support import run
from tests.support.run import version2

JOURNALS = 60  # that are drawn
# The greatest number in each field, in a journal and in a datagram
MOST = "FFFFFFFFFFFF 01 FFFFFFFFFFFFFFFFFFFFFFFFFFFF"
GREATEST = f"01 {MOST} FFFF00000000 FFFF 00010000", f"03 {MOST} FFFF FFFF 0001 61"
GREATEST_DATAGRAM = "".join(
    ("10F00B0000000000", "FF" * 20, "4004FFFF000000000000FFFF00010000", "FFFFFFFF61")
)
DATAGRAMS = {
    "a symbol": SYMBOL,
    "information": "10A0080000000000000000070000000140040000000000050000000400000002",
    "both": "10A00800000000000000000700000001400400000000000500000004000000020000000068656C6C",
    "an FDT Instance": "10A00500000000000000000700000000C0200003000000003C",
    "the greatest numbers": GREATEST_DATAGRAM,
}
NAME = re.compile(r"(?:source (\w+) )?session (\d+) object (fdt )?(\d+) (.*)")
INFO = re.compile(r"info length (\d+) symbol (\d+) block (\d+)")
VALUE = re.compile(r"symbol (\d+)/(\d+) (?:length (\d+) (?:sum )?(\w+)|conflict)")

Values = Dict[str, Any]


def object_of(instance: str | None, number: str) -> Values:
    return {"fdt": int(number)} if instance else {"toi": number}


def information_of(words: str) -> Values | None:
    """The numbers of information, if that is what the words tell."""
    told = INFO.fullmatch(words)
    return dict(zip(("length", "symbol", "block"), map(int, told.groups()))) if told else None


def symbol_of(words: str, bytes_name: str | None) -> Values:
    """A symbol, and its bytes or their sum by this name."""
    sbn, esi, length, value = run.match_of(VALUE, words).groups()
    told: Values = {"sbn": int(sbn), "esi": int(esi)}
    if not length:
        return {**told, "conflict": True}
    named = {bytes_name: value} if bytes_name else {}
    return {**told, "length": int(length), **named}


def values_of(line: str, bytes_name: str | None = None) -> Values:
    """What a line of `show` tells."""
    if line.startswith("entries "):
        return {"entries": int(line[8:])}
    source, tsi, instance, number, words = run.match_of(NAME, line).groups()
    told: Values = {"source": source} if source else {}
    told.update(tsi=int(tsi), **object_of(instance, number))
    if words == "info conflict":
        return {**told, "info": "conflict"}
    if words.startswith("info"):
        return {**told, "info": information_of(words)}
    return {**told, "symbol": symbol_of(words, bytes_name)}


def packet_values(told: List[str]) -> List[Values]:
    """What the four lines of `packet` tell."""
    tsi, number, info, symbol = told
    name = run.match_of(r"object (fdt )?(\d+)", number)
    return [
        {"tsi": int(tsi[len("session "):])},
        object_of(*name.groups()),
        {"info": information_of(info)},
        {"symbol": None if symbol == "symbol none" else symbol_of(symbol, "bytes")},
    ]


def summed(line: str) -> str:
    """A line of `show` with a sum in place of its bytes."""
    words, length, content = run.match_of(r"(.*?)( length \d+ )?(\w+)", line).groups()
    if not length or " symbol " not in f" {words}":
        return line
    return f"{words}{length}sum {hashlib.sha256(bytes.fromhex(content)).hexdigest()[:16]}"


class JsonCase(Case):
    def setUp(self) -> None:
        super().setUp()
        self.file("greatest", HEADER2, *(version2(V6, it) for it in GREATEST), ended(2))

    def drawn_journals(self) -> None:
        """Journals of files and instances of two senders, with symbols of up to 65,535 bytes."""
        draw = random.Random(64)
        for number in range(JOURNALS):
            places = drawn_places(draw)
            held = entries_of(places, drawn(draw, places))
            self.file(f"drawn{number}", HEADER2, *held, ended(len(held)))
        key = f"000000000007 01 {2 ** 111:028X}"
        sizes = 1, 55, 56, 63, 64, 65, 1400, 65_535  # about the ends of blocks of SHA-256
        symbols = [
            version2(V6, f"03 {key} 0000 {at:04X} {size:04X} {draw.randbytes(size).hex()}")
            for at, size in enumerate(sizes)
        ]
        self.file("long", HEADER2, *symbols, ended(len(symbols)))

    def shown(self, words: str) -> List[str]:
        return self.made(f"show {words}").out.decode("ascii").splitlines()

    def each(self) -> List[str]:
        """The names of the journals of the test, which are written."""
        self.drawn_journals()
        return ["whole", "instance", "joined", "empty", "greatest", "long"] + [
            f"drawn{number}" for number in range(JOURNALS)
        ]

    def objects(self, name: str, told: bytes) -> List[Values]:
        """The objects of JSON of some lines, which are ASCII without spaces."""
        text = told.decode("ascii")
        self.holds(f"{name}: lines", text.endswith("\n") and " " not in text, text[:200])
        return [json.loads(line) for line in text.splitlines()]


class ShowSums(JsonCase):
    def test_lines(self) -> None:
        sums = [hashlib.sha256(it).hexdigest()[:16] for it in (b"hell", b"o")]
        self.rows(
            ("a whole object", "show --sums whole", 0, lines(
                INFO_LINE,
                f"session 7 object 1 symbol 0/0 length 4 sum {sums[0]}",
                f"session 7 object 1 symbol 0/1 length 1 sum {sums[1]}",
                "entries 3",
            )),
            ("a conflict", "show --sums conflict", 0, lines(CONFLICT_LINE, "entries 1")),
            ("nothing of it", "show --sums --toi 2 whole", 0, "entries 0"),
            ("a fault", "show --sums bad", 1, lines(INFO_LINE), "input 1: Trailing"),
            ("no such option", "show --sums=8 whole", 2, "", None),
        )

    def test_drawn(self) -> None:
        symbols = 0
        for journal in self.each():
            plain, told = self.shown(journal), self.shown(f"--sums {journal}")
            self.holds(f"sums of {journal}", told == [summed(line) for line in plain], told[:3])
            symbols += sum(" sum " in line for line in told)
        self.holds("there are symbols", symbols > 100, symbols)

    def test_what_differs(self) -> None:
        """Two journals have the lines of the symbols that they have alike, and no others."""
        for name in "whole", "others":
            self.shell(f"flutejoin show --sums {name} | grep sum | LC_ALL=C sort > of_{name}")
        done = self.shell("LC_ALL=C comm -12 of_whole of_others")
        self.check("one symbol", done, 0, None)
        self.holds("it is the first", done.out.count(b"\n") == 1 and b" 0/0 " in done.out, done.out)


class Json(JsonCase):
    def test_show(self) -> None:
        info = {"length": 5, "symbol": 4, "block": 2}
        wanted = [
            {"tsi": 7, "toi": "1", "info": info},
            {"tsi": 7, "toi": "1", "symbol": {"sbn": 0, "esi": 0, "length": 4}},
            {"tsi": 7, "toi": "1", "symbol": {"sbn": 0, "esi": 1, "conflict": True}},
            {"tsi": 7, "toi": "1", "symbol": {"sbn": 0, "esi": 2, "length": 1}},
            {"entries": 4},
        ]
        told = [json.dumps(it, separators=(",", ":")) for it in wanted]
        self.rows(
            ("a journal", "show --json joined", 0, lines(*told)),
            ("an empty journal", "show --json empty", 0, '{"entries":0}'),
            ("a fault", "show --json bad", 1, lines(told[0]), "input 1: Trailing"),
        )
        self.row("a full output", "show --json whole", 3, "", "cannot write", to="/dev/full")

    def test_a_name_of_112_bits_is_a_string(self) -> None:
        told = self.objects("the greatest", self.made("show --json greatest").out)
        self.holds("the name", told[0]["toi"] == str(2 ** 112 - 1), told[0])
        self.holds("the session", told[0]["tsi"] == 2 ** 48 - 1, told[0])
        self.holds("the sender", told[0]["source"] == V6.lower(), told[0])

    def test_drawn(self) -> None:
        for journal in self.each():
            for words, bytes_name, plain in ("", None, ""), ("--sums ", "sum", "--sums "):
                told = self.objects(journal, self.made(f"show --json {words}{journal}").out)
                wanted = [values_of(line, bytes_name) for line in self.shown(plain + journal)]
                self.holds(f"show --json {words}{journal}", told == wanted, told[:2])
        chosen = self.objects("chosen", self.made("show --json --toi 0 --fdt 3 instance").out)
        self.holds("an FDT Instance by its number", chosen[0]["fdt"] == 3, chosen)

    def test_packet(self) -> None:
        for name, datagram in DATAGRAMS.items():
            plain = self.made(f"packet {datagram}").out.decode().splitlines()
            told = self.objects(name, self.made(f"packet --json {datagram}").out)
            self.holds(name, told == packet_values(plain), told)
        self.rows(
            ("refused", "packet --json 00", 1, "", "refused: 2 TooShort"),
            ("no digits", "packet --json zz", 1, "", "bad hex"),
        )
        self.row("a full output", f"packet --json {SYMBOL}", 3, "", "cannot write", to="/dev/full")

    def test_packet_in_bytes(self) -> None:
        symbol = '{"symbol":{"sbn":0,"esi":0,"length":4,"bytes":"68656c6c"}}'
        wanted = lines('{"tsi":7}', '{"toi":"1"}', '{"info":null}', symbol)
        self.row("a symbol", f"packet --json {SYMBOL}", 0, wanted)
