"""Tests of `fill` with random journals, beside its definition."""
from __future__ import annotations

import random
import re
from typing import Dict, List, NamedTuple, Sequence

from tests.program.case import HEADER2, Case, ended
from tests.program.test_minus import Held, Place, drawn, drawn_places, entries_of

PAIRS = 300  # of journals that are drawn
SPLITS = 100  # drawn ways to split datagrams among a centre and three stations
SHOWN = re.compile(r"(.*? object (?:fdt )?\d+) (info|symbol) (?:(\d+)/(\d+) )?.*")
TOLD = re.compile(r"(.*? object (?:fdt )?\d+) (whole|partial|no information|conflicting info)")
RUN = re.compile(r"gap (\d+)/(\d+)-(\d+) (\w+)")


class Object(NamedTuple):
    """How much is held of an object, and its gaps of what is missing."""

    status: str
    gaps: List[Sequence[int]]


def told(listed: Sequence[str]) -> Dict[str, Object]:
    """The objects that lines of `gaps` tell of."""
    objects: Dict[str, Object] = {}
    name = ""
    for line in listed:
        run = RUN.fullmatch(line)
        if run is None:
            found = TOLD.match(line)
            assert found, line
            name = found[1]
            objects[name] = Object(found[2], [])
        elif run[4] == "missing":
            objects[name].gaps.append([int(run[part]) for part in (1, 2, 3)])
    return objects


def is_asked(objects: Dict[str, Object], shown: str, only: bool) -> bool:
    """Whether the entry of a line of `show` is asked for: the definition."""
    found = SHOWN.fullmatch(shown)
    assert found, shown
    is_info = found[2] == "info"
    it = objects.get(found[1])
    if it is None:
        return not only
    if it.status == "whole":
        return False
    if it.status == "partial":
        return not is_info and any(
            int(found[3]) == block and first <= int(found[4]) <= last
            for block, first, last in it.gaps
        )
    if it.status == "no information":
        return is_info or not only
    return not is_info and not only


class FillDrawn(Case):
    """Random journals, compared with the definition, and joined."""

    def held(self, name: str, places: List[Place], held: Held) -> List[str]:
        """Writes a journal that holds this at these places, and returns its entries."""
        entries = entries_of(places, held)
        self.file(name, HEADER2, *entries, ended(len(entries)))
        return entries

    def test_definition(self) -> None:
        less = enough = 0
        for number in range(PAIRS):
            draw = random.Random(number)
            places = drawn_places(draw)
            asker = drawn(draw, places)
            station = drawn(draw, places, asker)
            self.held("asker", places, asker)
            entries = self.held("station", places, station)
            listed = self.made("gaps asker").out
            objects = told(listed.decode().splitlines())
            shown = self.made("show station").lines()[:-1]
            left: List[bool] = []
            for only in False, True:
                left = [is_asked(objects, line, only) for line in shown]
                wanted = [entry for entry, asked in zip(entries, left) if asked]
                words = f"fill -o answer {'--only' if only else ''} --gaps - station"
                name = f"{number}, {'only' if only else 'all'}"
                self.row(name, words, 0, f"entries {len(wanted)}", stdin=listed)
                self.file("wanted", HEADER2, *wanted, ended(len(wanted)))
                self.same(f"{name}: these entries", "answer", "wanted")
                less += len(wanted) < len(entries)
                if self.has_the_rest(places, asker, station, left):
                    enough += 1
                    self.made("join -o all asker station")
                    self.made("join -o filled asker answer")
                    self.same(f"{name}: it is enough", "filled", "all")
        self.holds("some answers have less than all", PAIRS / 4 < less, less)
        self.holds("some askers have the rest", PAIRS / 8 < enough, enough)

    def has_the_rest(
        self, places: List[Place], asker: Held, station: Held, asked: List[bool]
    ) -> bool:
        """Whether the asker has the value of each entry that is not asked for."""
        of_entries = iter(asked)
        for place, has, it in zip(places, asker, station):
            if it is None or next(of_entries):
                continue
            if has not in (it, len(place.entries) - 1):
                return False
        return True

    def test_splits(self) -> None:
        """Three stations answer in turn what a centre lacks of some files."""
        saved = 0
        for number in range(SPLITS):
            draw = random.Random(number)
            sent = []
            for toi in range(1, draw.randrange(2, 5)):
                self.write("content", bytes(draw.randrange(256) for _ in range(draw.randrange(60))))
                block = draw.randrange(1, 5)
                of = f"--tsi 7 --toi {toi} --symbol 4 --block {block} content"
                self.made(f"carousel -f -o sent {of}")
                sent += self.records(self.read("sent"))
            names = "centre", "station1", "station2", "station3"
            for name in names:
                kept = [record for record in sent if draw.random() < 0.5]
                self.write("kept", b"FLDG\x00\x01" + b"".join(kept))
                self.made(f"join -o {name} kept")
            self.made("join -o all centre station1 station2 station3")
            self.write("first", self.made("gaps centre").out)
            self.write("at_once", self.read("centre"))
            for name in names[1:]:
                self.write("lines", self.made("gaps centre").out)
                self.made(f"fill -o answer --gaps lines {name}")
                self.made("join -o centre centre answer")
                self.made(f"fill -o all_at_once --gaps first {name}")
                self.made("join -o at_once at_once all_at_once")
                saved += len(self.read("answer")) < len(self.read(name))
            self.same(f"{number}: asked one after another", "centre", "all")
            self.same(f"{number}: asked at once", "at_once", "all")
        self.holds("answers are shorter than journals", saved > SPLITS, saved)

    def records(self, file: bytes) -> List[bytes]:
        """The records of a datagram file."""
        records, at = [], 6
        while at < len(file):
            end = at + 2 + int.from_bytes(file[at : at + 2], "big")
            records.append(file[at:end])
            at = end
        return records

    def test_cuts(self) -> None:
        """Wherever an input is cut, it is told, or the lines before it are whole."""
        for number in range(6):
            draw = random.Random(number)
            places = drawn_places(draw)
            asker = drawn(draw, places)
            self.held("asker", places, asker)
            self.held("station", places, drawn(draw, places, asker))
            journal, listed = self.read("station"), self.made("gaps asker").out
            self.write("lines", listed)
            for size in draw.sample(range(len(journal)), 6):
                self.write("station", journal[:size])
                words = "fill -o left --gaps lines station"
                self.row(f"{number}: a journal cut at {size}", words, 1, "", "input 1: Cut")
            self.write("station", journal)
            for size in draw.sample(range(len(listed)), min(12, len(listed))):
                self.write("lines", listed[:size])
                before = listed[:size]
                words = "fill -o got --gaps lines station"
                if before.endswith(b"\n") or not before:
                    self.row(f"{number}: whole lines, {size}", words, 0, None)
                else:
                    fault = f"bad line {before.count(10) + 1}"
                    self.row(f"{number}: lines cut at {size}", words, 1, "", fault)
        self.absent("no file of a cut journal", "left")
