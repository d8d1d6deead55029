#!/usr/bin/env python3
"""Compares what flutejoin-map drew with what flutejoin prints.

It also makes datagram files for these tests.

  maps.py PAGE TEXT JOURNAL...   compares the panels and cells of both with flutejoin gaps
  maps.py cut IN OUT             each datagram without its last byte
  maps.py forget IN OUT          each datagram without its transmission information
  maps.py objects IN OUT         212 objects, each with one datagram of IN
"""
from __future__ import annotations

import os
import re
import struct
import subprocess
import sys
import xml.etree.ElementTree as ElementTree
from typing import Iterator, List, Tuple

sys.dont_write_bytecode = True
sys.path.append(os.path.join(os.path.dirname(os.path.realpath(__file__)), "../../examples"))
import datagram_files

NAMES = "held", "missing", "conflicting", "misfit"
OBJECT = r"(.*object (?:fdt )?\d+) "
STATE = re.compile(OBJECT + "(whole|partial|no information|conflicting information).*")
ENTRY = re.compile(OBJECT + "(info|symbol) (.*)")
SVG = "{http://www.w3.org/2000/svg}"
BAR = re.compile(r"M([0-9.]+) ([0-9.]+)H([0-9.]+)V([0-9.]+)H\1Z")


def match_of(pattern: str | re.Pattern[str], text: str | None) -> re.Match[str]:
    """The match of a whole text, which is there."""
    found = re.fullmatch(pattern, text or "")
    assert found, (pattern, text)
    return found


def run(*words: str) -> list[str]:
    """The lines that a command of flutejoin prints."""
    told = subprocess.run(["flutejoin", *words], check=True, capture_output=True, text=True)
    return told.stdout.splitlines()


Numbers = Tuple[int, int, int]  # transfer length, symbol length, block length
Symbol = Tuple[int, int]  # its block and its number there
Panel = Tuple[str, List[Symbol], List[str]]  # its title, its symbols and their kinds


def place_in(text: str) -> Symbol:
    """The place that BLOCK/NUMBER names."""
    block, number = map(int, text.split("/"))
    return block, number


def title_of(element: ElementTree.Element) -> str:
    """The title of an element, which has one."""
    text = element.findtext(f"{SVG}title")
    assert text is not None
    return text


class Journal:
    """What flutejoin prints of a journal.

    For each object these are its state, its FEC OTI, the kinds of its symbols by its gaps, and its
    symbols.
    """

    def __init__(self, path: str) -> None:
        self.states: dict[str, str] = {}
        self.gaps: dict[str, list[tuple[int, int, str]]] = {}
        self.infos: dict[str, Numbers] = {}
        self.symbols: dict[str, dict[Symbol, int | None]] = {}
        key = ""
        for line in run("gaps", path):
            if line.startswith("gap "):
                place, kind = line.split()[1:]
                block, first, last = (int(number) for number in re.split("[/-]", place))
                self.gaps[key] += [(block, number, kind) for number in range(first, last + 1)]
            else:
                key, state = match_of(STATE, line).groups()
                self.states[key], self.gaps[key], self.symbols[key] = state, [], {}
        for line in run("show", path)[:-1]:
            key, what, rest = match_of(ENTRY, line).groups()
            words = rest.split()
            if what == "info" and words[0] == "length":
                self.infos[key] = int(words[1]), int(words[3]), int(words[5])
            elif what == "symbol":
                size = None if words[1] == "conflict" else int(words[2])
                self.symbols[key][place_in(words[0])] = size

    def kinds(self, key: str, info: Numbers) -> list[str]:
        """The kind of each symbol in the order of the object."""
        listing = listing_of(info)
        if key in self.infos:
            gaps = {(block, number): kind for block, number, kind in self.gaps[key]}
            assert len(gaps) == len(self.gaps[key]) and gaps.keys() <= set(listing)
            return [gaps.get(symbol, "held") for symbol in listing]
        length, size, _ = info
        kinds = []
        for place, symbol in enumerate(listing):
            if symbol not in self.symbols.get(key, {}):
                kinds.append("missing")
            elif self.symbols[key][symbol] is None:
                kinds.append("conflicting")
            else:
                wanted = min(size, length - place * size)
                kinds.append("held" if self.symbols[key][symbol] == wanted else "misfit")
        return kinds


def listing_of(info: Numbers) -> list[Symbol]:
    """The symbols of an object (RFC 5052, section 9.1)."""
    length, size, most = info
    if not length:
        return []
    symbols = (length + size - 1) // size
    blocks = (symbols + most - 1) // most
    small, larger = divmod(symbols, blocks)
    return [
        (block, number) for block in range(blocks) for number in range(small + (block < larger))
    ]


def counts(kinds: list[str]) -> str:
    return ", ".join(f"{name} {kinds.count(name)}" for name in NAMES)


def expected(paths: list[str]) -> Iterator[tuple[str, list[Panel]]]:
    """Yields the panels of each object: their words, the symbols and their kinds."""
    journals = [(path, Journal(path)) for path in paths]
    if len(paths) > 1:
        run("join", "-o", "joined", *paths)
        last = Journal("joined")
        # If the panels do not fit in one line, that of all journals is the first.
        place = len(journals) if len(journals) < 4 else 0
        journals.insert(place, (f"all {len(paths)} joined", last))
    else:
        last = journals[0][1]
    for key in last.states:
        panels: list[Panel] = []
        for name, journal in journals:
            info = journal.infos.get(key) or last.infos.get(key)
            words = journal.states.get(key, "nothing of this object")
            if not info or words == "conflicting information":
                panels.append((f"{name}: {words}", [], []))
                continue
            kinds = journal.kinds(key, info)
            if words == "no information":
                state = "whole" if kinds.count("held") == len(kinds) else "partial"
                words = f"{state}, with the transmission information of other journals"
            panels.append((f"{name}: {words}: {counts(kinds)}", listing_of(info), kinds))
        yield key, panels


def compare(one: object, other: object, what: str) -> None:
    """Ends the script with a message if two values differ."""
    if one != other:
        sys.exit(f"{what}: drawn is {one!r}, and told is {other!r}")


def see_page(page: str, wanted: list[tuple[str, list[Panel]]]) -> None:
    """Compares a drawn page with the panels that each object should have, by the lines of gaps."""
    root = ElementTree.parse(page).getroot()
    compare(root.tag, f"{SVG}svg", "the page")
    groups = root.findall(f"{SVG}g")
    drawn = [(group.get("aria-label", ""), group.findall(f"{SVG}g")) for group in groups]
    keys = [re.sub(r" \(sender .*", "", key) for key, _ in drawn]
    compare(keys, [key for key, _ in wanted], "the objects")
    for (key, panels), (_, told) in zip(drawn, wanted):
        titles = [title_of(panel) for panel in panels]
        compare(titles, [words for words, _, _ in told], key)
        for panel, (words, listing, kinds) in zip(panels, told):
            texts = [text.text or "" for text in panel.findall(f"{SVG}text")]
            legend = ", ".join(text for text in texts if text.split()[0] in NAMES)
            # A title has the counts, as "held 3, missing 2", only if there are cells to count.
            wanted_legend = counts(kinds) if ": held " in words else ""
            compare(legend, wanted_legend, f"{words}: its legend")
            see_cells(panel.findall(f"{SVG}g"), listing, kinds, words)
            see_edges(panel, words)


def see_cells(
    cells: list[ElementTree.Element], listing: list[Symbol], kinds: list[str], words: str
) -> None:
    """Checks that the runs of cells follow one another, and contain the symbols that they name."""
    places, at = {symbol: place for place, symbol in enumerate(listing)}, 0
    for cell in cells:
        title = title_of(cell)
        found = match_of(r"(\d+/\d+)(?:(-\d+| to \d+/\d+))?: (.*)", title)
        one, other, told = found.groups()
        first = place_in(one)
        if not other:
            last = first
        elif other[0] == "-":
            last = first[0], int(other[1:])
        else:
            last = place_in(other[4:])
        compare(places[first], at, f"{words}: {title}")
        at = places[last] + 1
        part = kinds[places[first] : at]
        has = ", ".join(f"{name} {part.count(name)}" for name in NAMES if name in part)
        compare(told, has, f"{words}: {title}")
        compare(len(cell.findall(f"{SVG}path")), len(set(part)), f"{words}: {title}: its colours")
    compare(at, len(kinds), f"{words}: all symbols")


def see_edges(panel: ElementTree.Element, words: str) -> None:
    """Checks that each bar begins with the very number by which its neighbour ends.

    The lines between cells must be at these edges.
    """
    before: tuple[str, str, str, str] | None = None
    ends: set[str] = set()
    for cell in panel.findall(f"{SVG}g"):
        bars = [match_of(BAR, bar.get("d")).groups() for bar in cell.findall(f"{SVG}path")]
        sides = [(bar[0], bar[2]) for bar in bars]
        compare(sides, [sides[0]] * len(bars), f"{words}: bars one above the other")
        tops, bottoms = [bar[1] for bar in bars[1:]], [bar[3] for bar in bars[:-1]]
        compare(tops, bottoms, f"{words}: bars that meet")
        left, top, right, bottom = bars[0][0], bars[0][1], bars[0][2], bars[-1][3]
        if before and before[1] == top:
            compare((left, bottom), (before[2], before[3]), f"{words}: cells that meet")
            ends.add(left)
        before = left, top, right, bottom
    for lines in panel.findall(f"{SVG}path"):
        between = set(re.findall(r"M([0-9.]+) ", lines.get("d", "")))
        compare(ends - between, set(), f"{words}: cells without a line between them")


def sign(part: list[str]) -> str:
    """The sign of a cell."""
    for kind, char in ("conflicting", "!"), ("misfit", "?"):
        if kind in part:
            return char
    if len(set(part)) > 1:
        return str(min(9, max(1, round(10 * part.count("missing") / len(part)))))
    return {"held": "#", "missing": "."}[part[0]]


def see_text(text: list[str], wanted: list[tuple[str, list[Panel]]]) -> None:
    """Compares what was drawn with characters with the panels that each object should have."""
    lines = iter(text[2:])
    scale = re.compile(r"a row is (?:a block|(\d+) blocks), a cell is (?:a symbol|(\d+) symbols)")
    for key, panels in wanted:
        compare(next(lines), "", key)
        title = re.compile(re.escape(key) + r"(?: \(sender [^)]*\))?: ")
        compare(title.match(next(lines)) is not None, True, key)
        of_all = None
        for words, listing, kinds in panels:
            line = next(lines)
            if scale.fullmatch(line):
                of_all = scale.fullmatch(line)
                line = next(lines)
            compare(line, "", words)
            compare(next(lines), words, key)
            if not kinds:
                continue
            numbers = (of_all or match_of(scale, next(lines))).groups()
            group, size = (int(number or 1) for number in numbers)
            rows: dict[int, list[str]] = {}
            for (block, _), kind in zip(listing, kinds):
                rows.setdefault(block // group, []).append(kind)
            for row, part in rows.items():
                begins = range(0, len(part), size)
                cells = "".join(sign(part[begin : begin + size]) for begin in begins)
                compare(next(lines), f"{row * group:>7} |{cells}|", words)
    compare(list(lines), [], "the rest")


def main() -> None:
    mode, first, *rest = sys.argv[1:]
    if mode == "cut":
        datagram_files.write(rest[0], [datagram[:-1] for datagram in datagram_files.read(first)])
    elif mode == "forget":
        forgotten = [
            datagram[:2] + b"\4" + datagram[3:16] + datagram[32:]
            for datagram in datagram_files.read(first)
        ]
        datagram_files.write(rest[0], forgotten)
    elif mode == "objects":
        datagram = next(datagram_files.read(first))
        numbers = [struct.pack(">I", number) for number in range(1001, 1213)]
        sent = [datagram[:12] + number + datagram[16:] for number in numbers]
        datagram_files.write(rest[0], sent)
    else:
        wanted = list(expected(rest))
        see_page(mode, wanted)
        see_text(open(first).read().splitlines(), wanted)


main()
