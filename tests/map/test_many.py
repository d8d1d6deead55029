"""Tests what flutejoin-map draws of many objects and stations, and of many gaps.

A script replaces the program, and prints what a test puts into files.
"""
from __future__ import annotations

import itertools
import os
import random
import re
import subprocess
import sys
import tempfile
import tracemalloc
import unittest
import xml.etree.ElementTree as ElementTree
from typing import Callable, Generator, Iterable, Iterator, Sequence

from flutejoin_tools.common import gaps as common_gaps
from flutejoin_tools.common.faults import Fault
from flutejoin_tools.common.program import Command, Program
from flutejoin_tools.formats.partition import Partition
from flutejoin_tools.map import survey as map_survey
from flutejoin_tools.map.grids import Grid
from flutejoin_tools.map.pictures import Panel
from tests.support.run import ROOT

NEEDS_PROGRAM = False
TOOLS = ROOT / "tools"
LONGEST = 600  # seconds; only what hangs takes so long
SVG = "{http://www.w3.org/2000/svg}"
PARTIAL = "partial missing 1 conflicting 0 misfit 0\ngap 0/1-1 missing"
# It knows gaps of a journal, with --ranges too, of the objects of a list, and show.
PROGRAM = """#!/bin/sh
for last; do :; done
command=$1 kind=gaps list=
while [ $# -gt 1 ]; do
    case $1 in --ranges) kind=ranges ;; --list) list=$2 ;; esac
    shift
done
case $command-$last in
    gaps--) cat > /dev/null; last=joined ;;
    show-*) kind=show ;;
esac
[ "$list" ] || exec cat "$last.$kind"
{ cat "$list"; echo end; cat "$last.$kind"; } | awk '
    $0 == "end" { is_journal = 1; next }
    !is_journal { chosen[$0] = 1; next }
    /^session/ { is_chosen = $1 " " $2 " " $3 " " $4 in chosen }
    is_chosen'
"""
LENGTH, SYMBOL, BLOCK = 400, 10, 8  # of its objects


class Printing(Program):
    """Prints what a function makes of the words of its last command."""

    def __init__(self, printed: Callable[[Sequence[str]], Iterable[str]]) -> None:
        super().__init__("flutejoin")
        self.printed = printed

    def lines(self, *commands: Command) -> Generator[bytes, None, None]:
        return (f"{line}\n".encode() for line in self.printed(commands[-1].words))


def surveyed(
    printed: Callable[[Sequence[str]], Iterable[str]], is_text: bool = True
) -> map_survey.Survey:
    """A survey of one journal, of which a made-up program prints these lines."""
    told = common_gaps.Gaps(Printing(printed))
    return map_survey.Survey(told, ["journal"], {}, None, is_text)


def title_of(element: ElementTree.Element) -> str:
    text = element.findtext(f"{SVG}title")
    assert text is not None
    return text


def grid_of(panel: Panel) -> Grid:
    assert panel.grid
    return panel.grid


def runs_of_missing(missing: list[bool]) -> Iterator[tuple[int, int]]:
    """The first and the last place of each longest run of missing symbols."""
    for is_missing, run in itertools.groupby(range(len(missing)), missing.__getitem__):
        places = [*run]
        if is_missing:
            yield places[0], places[-1]


def ranges(told: str) -> str:
    """Lines of gaps as those of the ranges of bytes."""

    def of(gap: re.Match[str]) -> str:
        block, first, last = (int(number) for number in gap.groups())
        return f"bytes {(block * BLOCK + first) * SYMBOL}-{(block * BLOCK + last + 1) * SYMBOL - 1}"

    return re.sub(r"(?m)^gap (\d+)/(\d+)-(\d+) .*$", of, told)


class Pictures(unittest.TestCase):
    def setUp(self) -> None:
        folder = tempfile.TemporaryDirectory()
        self.addCleanup(folder.cleanup)
        self.folder = folder.name
        self.made("program", PROGRAM)
        os.chmod(os.path.join(self.folder, "program"), 0o755)

    def made(self, name: str, text: str) -> None:
        """Writes a file that the made-up program prints."""
        with open(os.path.join(self.folder, name), "w") as file:
            file.write(text)

    def journal(self, name: str, states: dict[int, str]) -> None:
        """Writes what the program would print of a journal: objects' states, with gaps."""
        self.made(name, "")
        told = "".join(f"session 7 object {toi} {state}\n" for toi, state in states.items())
        self.made(f"{name}.gaps", told)
        self.made(f"{name}.ranges", ranges(told))
        info = f"info length {LENGTH} symbol {SYMBOL} block {BLOCK}"
        self.made(f"{name}.show", "".join(f"session 7 object {toi} {info}\n" for toi in states))

    def map(self, *words: str) -> str:
        """Runs flutejoin-map with the made-up program, and returns what it prints."""
        command = [sys.executable, os.path.join(TOOLS, "flutejoin-map"), "--flutejoin", "./program"]
        ran = subprocess.run(
            [*command, *words], cwd=self.folder, capture_output=True, text=True, timeout=LONGEST
        )
        self.assertEqual((ran.returncode, ran.stderr), (0, ""))
        return ran.stdout

    def page(self, *words: str) -> ElementTree.Element:
        return ElementTree.fromstring(self.map("-o", "-", *words))

    def titles(self, page: ElementTree.Element) -> list[str]:
        return [group.get("aria-label", "") for group in page.findall(f"{SVG}g")]

    def many(self) -> dict[int, str]:
        """4,000 objects, of which 20 are partial, 2 in conflict and 3 without FEC OTI."""
        states = dict.fromkeys(range(1, 4001), "whole 400")
        for toi in range(100, 2100, 100):
            states[toi] = "partial missing 2 conflicting 0 misfit 0\ngap 1/2-3 missing"
        states[2222] = "partial missing 0 conflicting 1 misfit 0\ngap 4/7-7 conflicting"
        states[2223] = "conflicting information"
        states.update(dict.fromkeys((3333, 3334, 4000), "no information"))
        return states

    def test_many_objects_have_an_overview(self) -> None:
        self.journal("many", self.many())
        text = self.map("--text", "many").splitlines()
        signs = "# whole  . partial  ! conflicting  ? no information"
        self.assertEqual(text[3], f"4000 objects: {signs}")
        self.assertEqual(text[4], "a cell is an object")
        kinds = "whole 3975, partial 20, conflicting 2, no information 3"
        self.assertEqual(text[6], f"many: overview: {kinds}")
        cells = "".join(line[9:].rstrip("|") for line in text[7:70])
        self.assertEqual(len(cells), 4000)
        at = {sign: [i + 1 for i in range(4000) if cells[i] == sign] for sign in "!?."}
        partial = [*range(100, 2100, 100)]
        self.assertEqual(at, {"!": [2222, 2223], "?": [3333, 3334, 4000], ".": partial})
        drawn = [int(line.split()[3].rstrip(":")) for line in text if line.startswith("session 7")]
        self.assertEqual(drawn, sorted([*partial, 2222, 2223, 3333, 3334, 4000]))
        rest = "3975 more objects are not drawn, 3975 of them whole; --tsi and --toi name one"
        self.assertEqual(text[-1], rest)

    def test_the_overview_of_a_page(self) -> None:
        self.journal("many", self.many())
        page = self.page("many")
        self.assertEqual(self.titles(page)[:2], ["4000 objects", "session 7 object 100"])
        words = [title_of(cell) for cell in page.findall(f"{SVG}g/{SVG}g")[0].findall(f"{SVG}g")]
        self.assertIn("session 7 object 100: partial 1", words)
        self.assertIn("session 7 object 2222 to session 7 object 2223: conflicting 2", words)
        counts = [int(number) for told in words for number in re.findall(r" (\d+)(?:,|$)", told)]
        self.assertEqual(sum(counts), 4000)

    def test_a_page_is_no_higher_than_programs_show(self) -> None:
        states = dict.fromkeys(range(1, 501), PARTIAL)
        states.update(dict.fromkeys(range(200, 220), "whole 400"))
        self.journal("high", states)
        page = self.page("high")
        self.assertLess(int(page.get("height", "")), 32768)
        drawn = self.titles(page)
        # Whole objects are left out first.
        self.assertEqual(drawn, [f"session 7 object {n}" for n in self.first(len(drawn), states)])
        rest = f"{500 - len(drawn)} more objects are not drawn, 20 of them whole"
        note = page.findall(f"{SVG}text")[-1].text
        self.assertEqual(note, f"{rest}; --tsi and --toi name one")
        text = self.map("--text", "high")
        self.assertEqual(text.count("\nsession 7 object "), 500)

    @staticmethod
    def first(count: int, states: dict[int, str]) -> list[int]:
        return [toi for toi in states if states[toi].startswith("partial")][:count]

    def test_all_joined_is_first_of_many_stations(self) -> None:
        states = {1: PARTIAL, 2: "whole 400"}
        names = [f"station{number}" for number in range(64)]
        for name in [*names, "joined"]:
            self.journal(name, states)
        for count in (2, 3, 4, 64):
            panels = self.page(*names[:count]).findall(f"{SVG}g")[0].findall(f"{SVG}g")
            told = [title_of(panel).split(":")[0] for panel in panels]
            joined = f"all {count} joined"
            stations = names[:count]
            wanted = [*stations, joined] if count < 4 else [joined, *stations]
            self.assertEqual(told, wanted)

    def test_gaps_are_not_kept(self) -> None:
        """Of an object of 65,536 blocks of 16 symbols, of which one is missing each."""
        told = "session 7 object 1 partial missing %d conflicting %d misfit 0"
        lines = [f"gap {block}/3-3 missing" for block in range(1, 65536)]
        of_bytes = [f"bytes {16 * block + 3}-{16 * block + 3}" for block in range(65536)]

        def printed(words: Sequence[str]) -> Iterator[str]:
            if words[0] == "show":
                yield "session 7 object 1 info length 1048576 symbol 1 block 16"
                return
            yield told % (65536 - more, more)
            if "--ranges" in words:
                yield from of_bytes
            else:
                yield "gap 0/3-3 conflicting"
                yield from lines

        tracemalloc.start()
        self.addCleanup(tracemalloc.stop)
        for more in (0, 1):
            tracemalloc.reset_peak()
            before = tracemalloc.get_traced_memory()[0]
            survey = surveyed(printed, is_text=False)
            grid = grid_of(survey.panels["session 7 object 1"][0])
            self.assertEqual(grid.counts[1:3], [65536 - more, more])
            self.assertLess(tracemalloc.get_traced_memory()[1] - before, 300000)

    def test_states_are_not_kept(self) -> None:
        """Objects beyond those that are drawn take no memory."""

        def printed(_words: Sequence[str]) -> Iterator[str]:
            for number in range(50_000):
                words = "no information" if number % 2 else "whole 400"
                yield f"session 7 object {number} {words}"

        tracemalloc.start()
        self.addCleanup(tracemalloc.stop)
        survey = surveyed(printed)
        overview = grid_of(next(survey.drawings()).panels[0])
        self.assertEqual(overview.counts, [25_000, 0, 0, 25_000])
        first = overview.range_words(0, 0, 1)
        self.assertEqual(first, f"session 7 object 0 to session 7 object {overview.run - 1}")
        self.assertEqual(survey.left, (50_000 - len(survey.keys), 25_000))
        self.assertLess(tracemalloc.get_traced_memory()[1], 3_000_000)

    def test_the_gaps_of_a_page_have_a_bound(self) -> None:
        bound = map_survey.MOST_GAPS
        self.addCleanup(setattr, map_survey, "MOST_GAPS", bound)
        map_survey.MOST_GAPS = 10
        asked: list[str] = []

        def printed(words: Sequence[str]) -> Iterator[str]:
            chosen = [9, 4, 1, 2]
            if "--list" in words:
                names = self.listed(words)
                asked.extend(names)
                chosen = [number for number in chosen if f"session 7 object {number}" in names]
            for number in chosen:
                name = f"session 7 object {number}"
                if words[0] == "show":
                    yield f"{name} info length 400 symbol 10 block 8"
                    continue
                yield f"{name} partial missing {number} conflicting 0 misfit 0"
                for place in range(0, 2 * number, 2):
                    yield f"bytes {10 * place}-{10 * place + 9}"

        survey = surveyed(printed)
        drawn = ["session 7 object 9", "session 7 object 1"]
        self.assertEqual(list(survey.keys), drawn)
        self.assertEqual(asked, drawn)
        self.assertEqual(survey.left, (2, 0))
        self.assertEqual(len(list(survey.drawings())), 3)
        map_survey.MOST_GAPS = 0  # the first object is drawn in any case
        survey = surveyed(printed)
        self.assertEqual(list(survey.keys), ["session 7 object 9"])

    @staticmethod
    def listed(words: Sequence[str]) -> list[str]:
        with open(words[[*words].index("--list") + 1]) as file:
            return file.read().splitlines()

    def test_lines_that_do_not_fit(self) -> None:
        """An object that has no such bytes, or symbols, has changed."""
        name = "session 7 object 1"
        for conflicts, told in (
            (0, "bytes 5-9"), (0, "bytes 0-4"), (0, "bytes 10-409"), (0, "bytes 20-9"),
            (1, "gap 5/0-0 missing"), (1, "gap 0/0-8 missing"), (1, "gap 0/2-1 missing"),
        ):

            def printed(words: Sequence[str]) -> Iterator[str]:
                if words[0] == "show":
                    yield f"{name} info length 400 symbol 10 block 8"
                    return
                yield f"{name} partial missing 1 conflicting {conflicts} misfit 0"
                if told.startswith("bytes") == ("--ranges" in words):
                    yield told

            with self.subTest(told), self.assertRaises(Fault) as raised:
                surveyed(printed)
            self.assertEqual(str(raised.exception), "journal: changed while it was read")

    def test_ranges_are_gaps(self) -> None:
        """Cells of drawn partitions, by ranges of missing bytes and by gaps."""
        draw = random.Random(66)
        for _ in range(60):
            symbol, block = draw.randint(1, 9), draw.randint(1, 40)
            partition = Partition(draw.randint(1, 3000), symbol, block)
            rows, columns = draw.randint(2, 64), draw.randint(1, 64)
            left, right = (Grid(partition, rows, lambda _: columns) for _ in range(2))
            share = draw.choice((0.02, 0.5, 0.98))
            missing = [draw.random() < share for _ in range(partition.symbols)]
            for first, last in runs_of_missing(missing):
                self.assertTrue(left.miss(first, last))
            for at in (place for place, is_missing in enumerate(missing) if is_missing):
                number, symbol = partition.id_at(at)
                self.assertTrue(right.add(number, symbol, symbol, common_gaps.MISSING))
            self.assertEqual((left.counts, left.cells), (right.counts, right.cells))

    def test_gaps_of_what_is_not_drawn_are_passed_over(self) -> None:
        """A datagram of 37 bytes makes 65,536 gaps: so many lines must not slow the rest."""
        gap = "".join(f"gap {block}/0-0 missing\n" for block in range(65536))
        hostile = f"partial missing 65536 conflicting 0 misfit 0\n{gap}"[:-1]
        states = {1: "whole 400", **{toi: hostile for toi in range(2, 8)}}
        self.journal("hostile", states)
        text = self.map("--text", "--tsi", "7", "--toi", "1", "hostile").splitlines()
        self.assertIn("hostile: whole: held 40, missing 0, conflicting 0, misfit 0", text)
