"""Tests of `gaps --ranges`: the bytes of objects that are not held."""
from __future__ import annotations

import random
import re
from typing import Dict, Iterator, List, NamedTuple, Optional, Tuple

from tests.program.case import (
    CONFLICTING,
    HEADER,
    HEADER2,
    HELLO_OF_ZERO,
    INFO,
    KEY,
    LAST,
    PART,
    SECOND,
    V4,
    WHOLE,
    Case,
    ended,
    lines,
    made_by,
)
from tests.support import run

FULL = {"to": "/dev/full"}
NOT_WHOLE = "not all objects are whole"
OBJECT = "session 7 object 1"
JOURNALS = 300  # that are drawn
LINE = re.compile(r"((?:source \w+ )?session \d+ object (?:fdt )?\d+) (.*)")
NUMBERS = re.compile(r"info length (\d+) symbol (\d+) block (\d+)")
SYMBOL = re.compile(r"symbol (\d+)/(\d+) (?:length (\d+) \w*|(conflict))")


def partial(missing: int, conflicting: int = 0, misfit: int = 0, name: str = OBJECT) -> str:
    return f"{name} partial missing {missing} conflicting {conflicting} misfit {misfit}"


class Ranges(Case):
    def test_objects(self) -> None:
        self.journal("none", HEADER, INFO, ended(1))
        self.journal("first_lacks", HEADER, INFO, LAST, ended(2))
        self.journal("of_no_byte", HEADER, f"01 {KEY} 000000000000 0004 00000002", ended(1))
        self.rows(
            ("the last symbol", "gaps --ranges part", 0, PART + "bytes 4-4"),
            ("the first", "gaps --ranges first_lacks", 0, lines(partial(1), "bytes 0-3")),
            ("all", "gaps --ranges none", 0, lines(partial(2), "bytes 0-4")),
            ("nothing", "gaps --ranges whole", 0, WHOLE),
            ("an object of no byte", "gaps --ranges of_no_byte", 0, f"{OBJECT} whole 0"),
            ("no information", "gaps --ranges symbol", 0, f"{OBJECT} no information"),
            ("two values of it", "gaps --ranges conflict", 0, CONFLICTING),
            ("no object", "gaps --ranges empty", 0, ""),
            ("a bad journal", "gaps --ranges bad", 1, "", "input 1: Trailing"),
            ("checked", "gaps --ranges --check part", 1, PART + "bytes 4-4", NOT_WHOLE),
            ("whole and checked", "gaps --ranges --check whole", 0, WHOLE),
        )
        self.row("a sum has none", "gaps --ranges --summary part", 0,
                 "session 7 objects 1 whole 0 partial 1 missing 1 conflicting 0 misfit 0 unknown 0")
        self.row("it comes first", "gaps --ranges part", 3, "", "cannot write", **FULL)

    def test_blocks_and_reasons(self) -> None:
        """75 bytes in two blocks of 4 symbols of 10 bytes: 0/2, 0/3 and 1/0, and the last."""
        tens = "00" * 10
        held = [f"03 {KEY} {sbn:04X} {esi:04X} 000A {tens}" for sbn, esi in
                ((0, 0), (0, 1), (1, 1), (1, 2))]
        conflict = f"04 {KEY} 0001 0000"
        misfit = f"03 {KEY} 0001 0003 0001 FF"
        info = f"01 {KEY} 00000000004B 000A 00000004"
        self.journal("scattered", HEADER, info, *held[:2], conflict, *held[2:], misfit, ended(7))
        self.journal("conflicts", HEADER, info, *held[:2], f"04 {KEY} 0000 0003", conflict,
                     *held[2:], f"04 {KEY} 0001 0003", ended(8))
        self.rows(
            ("over the end of a block", "gaps --ranges scattered", 0,
             lines(partial(2, 1, 1), "bytes 20-49", "bytes 70-74")),
            ("its conflicts", "gaps --ranges --conflicts scattered", 0,
             lines(partial(2, 1, 1), "bytes 40-49")),
            ("conflicts of two blocks", "gaps --ranges --conflicts conflicts", 0,
             lines(partial(1, 3, 0), "bytes 30-49", "bytes 70-74")),
            ("and what is missing before", "gaps --ranges conflicts", 0,
             lines(partial(1, 3, 0), "bytes 20-49", "bytes 70-74")),
        )

    def test_objects_are_apart(self) -> None:
        """The last range of an object and the first of the next."""
        second = f"01 {SECOND} 000000000005 0004 00000002"
        self.journal("two_parts", HEADER, INFO, LAST, second, ended(3))
        self.file("senders", HEADER2, HELLO_OF_ZERO.rpartition(" 03 ")[0],
                  f"01 {V4} {KEY} 000000000005 0004 00000002", ended(3))
        other = "session 7 object 2"
        self.rows(
            ("two objects", "gaps --ranges two_parts", 0,
             lines(partial(1), "bytes 0-3", partial(2, name=other), "bytes 0-4")),
            ("the second alone", "gaps --ranges --toi 2 two_parts", 0,
             lines(partial(2, name=other), "bytes 0-4")),
            ("of two senders", "gaps --ranges senders", 0,
             lines(partial(1), "bytes 4-4", partial(2, name=made_by(V4) + OBJECT), "bytes 0-4")),
        )

    def test_greatest_lengths(self) -> None:
        """The longest object of the longest symbols, and the most symbols."""
        cases = (
            ("bytes", (1 << 32) * 65535, 65535, 65536),
            ("short", (1 << 32) * 65535 - 65534, 65535, 65536),
            ("symbols", 1 << 32, 1, 65536),
        )
        for name, length, symbol, block in cases:
            info = f"01 {KEY} {length:012X} {symbol:04X} {block:08X}"
            self.journal(name, HEADER, info, ended(1))
            self.row(name, f"gaps --ranges {name}", 0,
                     lines(partial(-(-length // symbol)), f"bytes 0-{length - 1}"))


# ---- a model over the lines of `show`


class Held(NamedTuple):
    """What `show` prints of an object."""

    information: List[Optional[Tuple[int, int, int]]]  # no numbers if they are in conflict
    symbols: Dict[Tuple[int, int], Optional[int]]  # the length of each; none if in conflict


def held_of(text: List[str]) -> Dict[str, Held]:
    """What lines of `show` hold of each object."""
    objects: Dict[str, Held] = {}
    for line in text:
        found = LINE.fullmatch(line)
        if not found:
            continue
        held = objects.setdefault(found[1], Held([], {}))
        numbers, symbol = NUMBERS.fullmatch(found[2]), SYMBOL.fullmatch(found[2])
        if symbol:
            held.symbols[int(symbol[1]), int(symbol[2])] = int(symbol[3]) if symbol[3] else None
        elif numbers:
            held.information.append((int(numbers[1]), int(numbers[2]), int(numbers[3])))
        else:
            held.information.append(None)
    return objects


def listing(length: int, symbol: int, block: int) -> List[Tuple[int, int]]:
    """The symbols of an object, block after block (RFC 5052, section 9.1)."""
    if not length:
        return []
    symbols = -(-length // symbol)
    blocks = -(-symbols // block)
    small, larger = divmod(symbols, blocks)
    return [(sbn, esi) for sbn in range(blocks) for esi in range(small + (sbn < larger))]


def wanted_bytes(held: Held, conflicts: bool) -> Iterator[int]:
    """The place of each byte of a symbol that is wanted, or only of those in conflict."""
    if len(held.information) != 1 or held.information[0] is None:
        return
    length, symbol, block = held.information[0]
    ids = listing(length, symbol, block)
    for place, one in enumerate(ids):
        ends = min((place + 1) * symbol, length)
        fits = {symbol, ends - place * symbol} if place + 1 == len(ids) else {symbol}
        is_conflict = one in held.symbols and held.symbols[one] is None
        if is_conflict or not conflicts and held.symbols.get(one) not in fits:
            yield from range(place * symbol, ends)


def ranges_of(places: Iterator[int]) -> List[str]:
    """The runs of consecutive places, as the lines of ranges have them."""
    runs: List[List[int]] = []
    for place in places:
        if runs and runs[-1][1] + 1 == place:
            runs[-1][1] = place
        else:
            runs.append([place, place])
    return [f"bytes {first}-{last}" for first, last in runs]


def drawn_object(draw: random.Random, key: str) -> List[str]:
    """Random entries of an object in up to 12 blocks, the last symbol of which may be short."""
    entries = []
    about = draw.choice(("one", "one", "one", "one", "none", "conflict"))
    symbol = draw.randrange(1, 6)
    block = draw.randrange(1, 5)
    symbols = draw.choice((0, 1, *[draw.randrange(1, 13)] * 4))
    length = max(0, symbols * symbol - draw.randrange(symbol))
    if about == "one":
        entries.append(f"01 {key} {length:012X} {symbol:04X} {block:08X}")
    elif about == "conflict":
        entries.append(f"02 {key}")
    odds = draw.choice((0.0, 0.2, 0.5, 0.5, 1.0))  # the chance that a symbol has no fitting value
    ids = listing(length, symbol, block)
    beyond = [(sbn, block) for sbn, _ in ids] + [(len(ids), 0)]
    for sbn, esi in sorted({*ids, *draw.sample(beyond, draw.randrange(len(beyond) + 1))}):
        address = f"{key} {sbn:04X} {esi:04X}"
        kind = "" if draw.random() >= odds else draw.choice(("left out", "conflict", "misfit"))
        size = symbol
        if ids[-1:] == [(sbn, esi)] and draw.random() < 0.5:
            size = length - (len(ids) - 1) * symbol
        if kind == "misfit":
            size += 1
        if kind == "conflict":
            entries.append(f"04 {address}")
        elif kind != "left out":
            entries.append(f"03 {address} {size:04X} {'AB' * size}")
    return entries


def drawn_journal(draw: random.Random) -> List[str]:
    """The entries of a drawn journal."""
    entries = []
    for sender in sorted(draw.sample((0, 1, (0xFFFF << 32) + 0x0A000001), draw.randint(1, 2))):
        for session in sorted(draw.sample(range(1, 6), draw.randint(1, 2))):
            for number in sorted(draw.sample(range(1, 9), draw.randint(1, 4))):
                kind = draw.randrange(2)
                key = f"{sender:032X} {session:012X} {kind:02X} {number:028X}"
                entries += drawn_object(draw, key)
    # An object of no entries is in no journal, and an FDT Instance comes before the files.
    return sorted(entries, key=lambda entry: (entry[3:80], entry[:2] > "02", entry[80:]))


class RangesDrawn(Case):
    """Random journals: the lines of objects are those of plain `gaps`, the ranges a model's."""

    def test_journals(self) -> None:
        ranges = 0
        for number in range(JOURNALS):
            entries = drawn_journal(random.Random(number))
            self.file("drawn", HEADER2, *entries, ended(len(entries)))
            held = held_of(self.made("show drawn").lines())
            for style in "", " --conflicts":
                wanted: List[str] = []
                for line in self.made(f"gaps{style} drawn").lines():
                    if line.startswith("gap "):
                        continue
                    wanted.append(line)
                    name = run.search_of(LINE, line)[1]
                    wanted += ranges_of(wanted_bytes(held[name], bool(style)))
                ranges += sum(line.startswith("bytes ") for line in wanted)
                self.row(f"{number}{style}", f"gaps --ranges{style} drawn", 0, lines(*wanted))
        self.holds("there are many ranges", ranges > 4 * JOURNALS, ranges)
