"""Tests what flutejoin-map draws, as a page and as text: its counts and its cells are those that
the program prints (maps.py)."""
from __future__ import annotations

import os
import re
import sys
from typing import Any

from tests.support import run
from tests.support.run import ROOT, TESTS, Run

MAPS = TESTS / "map" / "maps.py"
LEGEND = "# held  . missing  ! conflicting  ? misfit  1 to 9 of several symbols: tenths missing\n\n"
V4, V6 = "0a000001", "20010db8000000000000000000000001"


class Case(run.Case):
    def map(self, words: run.Words, **how: Any) -> Run:
        return self.tool("flutejoin-map", words, **how)

    def map_row(self, name: str, words: run.Words, *wanted: Any, **how: Any) -> Run:
        done = self.map(words, **how)
        self.check(name, done, *wanted)
        return done

    def python(self, *words: object) -> Run:
        done = self.command([sys.executable, *words])
        self.assertEqual(done.status, 0, done)
        return done

    def draws(self, name: str, *journals: str) -> None:
        """The page and the text of all objects show what `flutejoin gaps` prints of each
        journal and of all of them joined."""
        self.map_row(name, ["-o", "page.svg", *journals], 0)
        self.write("text", self.map_row(f"{name}, text", ["--text", *journals], 0, None).out)
        words = [sys.executable, MAPS, "page.svg", "text", *journals]
        self.check(f"{name}: drawn", self.command(words), 0, None, None)
        self.absent(f"{name}, no file beside", "page.svg.partial")

    def sent(self, name: str, of: str, symbol: int, block: int, size: int) -> None:
        """Makes a datagram file of an object of so many bytes, which are also in `file`."""
        content = "".join(f"{number:07}\n" for number in range(0, size, 8))
        self.write("file", content[:size])
        self.carousel(name, of, symbol, block, "file")

    def carousel(self, name: str, of: str, symbol: int, block: int, file: str) -> None:
        self.made(f"carousel -o {name} --tsi 7 {of} --symbol {symbol} --block {block} {file}")

    def station(self, name: str, sent: str, percent: int, seed: int, source: str = "") -> None:
        """Makes the journal of a station that lost so many percent."""
        self.python(ROOT / "examples" / "lose.py", sent, "received", percent, seed)
        options = ["--source", source] if source else []
        self.made(["join", "-o", name, *options, "received"])


class Blocks(Case):
    def test_one_block(self) -> None:
        self.sent("one", "--toi 1", 1000, 64, 40_000)
        self.station("one1", "one", 30, 1)
        self.station("one2", "one", 40, 2)
        self.draws("one block", "one1", "one2")
        self.draws("one block, one station", "one1")

    def test_one_symbol(self) -> None:
        self.sent("tiny", "--toi 1", 1000, 64, 1)
        self.made("join -o tiny1 tiny")
        self.draws("one symbol", "tiny1")
        wanted = (
            f"What is missing: tiny1\n{LEGEND}"
            "session 7 object 1: 1 byte, 1 symbol of 1000 bytes, 1 block\n"
            "a row is a block, a cell is a symbol\n\n"
            "tiny1: whole: held 1, missing 0, conflicting 0, misfit 0\n"
            "      0 |#|\n"
        )
        self.map_row("one symbol as text", "--text tiny1", 0, wanted)

    def test_60_blocks(self) -> None:
        """60 blocks of 64 symbols, with losses at three stations."""
        self.sent("sixty", "--toi 5", 100, 64, 384_000)
        for number in 1, 2, 3:
            self.station(f"sixty{number}", "sixty", 12 * number, number)
        self.draws("60 blocks", "sixty1", "sixty2", "sixty3")
        text = self.map("--text sixty1").out.decode()
        rows = [line for line in text.splitlines() if line.endswith("|")]
        self.holds("a row for each block", len(rows) == 60, len(rows))
        cells = text.count("#") + text.count(".")
        self.holds("a cell for each symbol", cells == 3842, cells)  # two are in the legend

    def test_many_blocks(self) -> None:
        """10,000 blocks of 4 or 3 symbols, and few blocks of many symbols."""
        self.sent("many", "--toi 6", 1, 4, 39_990)
        self.station("many1", "many", 10, 1)
        self.station("many2", "many", 60, 2)
        self.draws("10,000 blocks", "many1", "many2")
        self.sent("long", "--toi 6", 1, 20_000, 60_001)
        self.station("long1", "long", 5, 3)
        self.draws("long blocks", "long1")
        size = len(self.read("page.svg"))
        self.holds("a page of some megabytes at most", size < 4_000_000, size)


class Objects(Case):
    def setUp(self) -> None:
        super().setUp()
        self.sent("right", "--toi 1", 1000, 16, 40_000)
        self.station("right1", "right", 30, 1)

    def test_conflicts_and_misfits(self) -> None:
        """Values with other bytes, values with other lengths, and symbols that are cut."""
        self.write("file2", self.read("file").translate(bytes.maketrans(b"01234", b"56789")))
        self.carousel("wrong", "--toi 1", 1000, 16, "file2")
        self.python(MAPS, "cut", "right", "short")
        self.station("wrong1", "wrong", 80, 2)
        self.station("short1", "short", 70, 3)
        self.made("join -o conflict1 right1 wrong1")
        self.draws("conflicts", "conflict1", "right1")
        self.draws("conflicts of stations", "right1", "wrong1")
        self.draws("misfits", "short1")
        every = "right1", "wrong1", "short1", "conflict1"
        self.draws("all of them", *every)
        text = self.map(["--text", *every])
        self.check("conflicts are drawn", text, 0, re.compile(r"\|[#.?]*!"))
        self.check("misfits are drawn", text, 0, re.compile(r"\|[#.!]*\?"))

    def test_instance_and_empty_object(self) -> None:
        self.sent("fdt", "--toi 0 --fdt 3", 100, 8, 2500)
        self.station("fdt1", "fdt", 30, 1)
        self.sent("empty", "--toi 2", 100, 8, 0)
        self.made("join -o empty1 empty")
        self.draws("FDT Instance", "fdt1", "right1")
        self.draws("empty object", "empty1")
        lines = self.map("--text empty1").lines()
        wanted = "session 7 object 2: empty: 0 bytes, and no symbol"
        self.holds("it is told in words", wanted in lines, lines)
        # One of several objects
        self.station("from_a", "right", 30, 1, V4)
        self.made("join -o mixed right1 fdt1 from_a empty1")
        for key in (
            *("--toi 1", "--toi 0 --fdt 3", "--toi 2", f"--toi 1 --source {V4}"),
            "--toi 1 --source 00000000000000000000FFFF0A000001",
        ):
            done = self.map_row(key, f"--text --tsi 7 {key} mixed", 0, None)
            heads = [it for it in done.lines() if it.startswith(("session", "source"))]
            self.holds(f"{key} alone", len(heads) == 1, heads)
        for name, key in ("in none", "--toi 3"), ("of no sender", "--toi 1 --source 0a000002"):
            words = f"--text --tsi 7 {key} mixed"
            self.map_row(f"an object {name}", words, 1, "", "flutejoin-map: no object")

    def test_two_senders(self) -> None:
        """Two senders with one TSI."""
        self.station("from_a", "right", 30, 1, V4)
        self.station("from_b", "right", 30, 2, V6)
        self.draws("two senders", "from_a", "from_b")
        text = self.map("--text from_a from_b").out.decode()
        for source, address in (f"{'0' * 20}ffff{V4}", "10.0.0.1"), (V6, "2001:db8::1"):
            head = f"\nsource {source} session 7 object 1 (sender {address}): "
            self.holds(f"the address {address}", head in text, text)

    def test_no_information(self) -> None:
        self.python(MAPS, "forget", "right", "without")
        self.station("without1", "without", 40, 4)
        self.draws("no information", "without1")
        wanted = (
            f"What is missing: without1\n{LEGEND}"
            "session 7 object 1: no packet told its length, so its blocks are not known; "
            "flutejoin info adds it\n\n"
            "without1: no information\n"
        )
        self.map_row("no information in words", "--text without1", 0, wanted)
        self.station("without2", "without", 40, 5)
        fields = "--length 40000 --symbol 1000 --block 16"
        self.made(f"info -o known --tsi 7 --toi 1 {fields} without2")
        self.draws("information of another station", "without1", "known")

    def test_states(self) -> None:
        self.write("no_bytes", "")
        self.carousel("other", "--toi 1", 999, 16, "no_bytes")
        self.station("other1", "other", 30, 1)
        self.draws("conflicting information", "right1", "other1")
        self.made("join -o whole1 right")
        self.draws("whole", "whole1", "right1")
        self.write("nothing", b"FLDG\0\1")
        self.made("join -o nothing1 nothing")
        self.map_row("no object", "-o page.svg nothing1", 0)
        page = self.read("page.svg")
        self.holds("it is said", b"The journals tell of no object" in page, page[:500])

    def test_many_objects(self) -> None:
        self.python(MAPS, "objects", "right", "objects")
        self.made("join -o objects1 objects")
        done = self.map_row("many objects", "--text objects1 right1", 0, None)
        rest = "40 more objects are not drawn, 0 of them whole; --tsi and --toi name one"
        self.holds("the rest is counted", done.lines()[-1] == rest, done.lines()[-1])


class Stations(Case):
    def setUp(self) -> None:
        super().setUp()
        self.sent("one", "--toi 1", 1000, 64, 40_000)
        self.station("one1", "one", 30, 1)
        self.station("one2", "one", 40, 2)

    def test_64_stations(self) -> None:
        """64 stations whose names contain special characters of XML and terminals."""
        names = [f"st<&\"{number}>'" for number in range(1, 65)]
        for number, name in enumerate(names):
            self.path(name).symlink_to(f"one{number % 2 + 1}")
        self.draws("64 stations", *names)
        self.map_row("more than 64", ["-o", "page.svg", *names, "one1"], 2, "", None)

    def test_names(self) -> None:
        name = "a\033[31m\nb"
        self.path(name).symlink_to("one1")
        done = self.map_row("a name with controls", ["--text", name], 0, None)
        self.holds("not printed", done.lines()[0] == "What is missing: a?[31m?b", done.lines()[:1])
        self.path("-o").symlink_to("one1")
        self.map_row("a name that begins with a hyphen", "--text -- -o", 0, None)
        no_text = b"x\xff"
        os.symlink(b"one1", os.fsencode(self.folder) + b"/" + no_text)
        self.map_row("a name that is no text", ["-o", "page.svg", no_text, "one2"], 2, None, None)
