"""Tests of `--json` of `gaps` and `compare`: each line has the values of the plain line."""
from __future__ import annotations

import json
import random
import re
from typing import Any, Dict, List

from tests.program.case import HEADER, HEADER2, KEY, V4, Case, conflicts, ended, lines
from tests.program.test_ranges import drawn_journal
from tests.support.run import version2

FULL = {"to": "/dev/full"}
JOURNALS = 100  # that are drawn
NOT_WHOLE = "not all objects are whole"
DIFFER = "values differ"
NAME = re.compile(
    r"(?:source (?P<source>[0-9a-f]{32}) )?session (?P<tsi>\d+)"
    r"(?: object (?P<fdt>fdt )?(?P<number>\d+))?(?P<rest>(?: .*)?)"
)
WORDS = re.compile(r"([a-z]+) (\d+)")
STYLES = (
    "", "--ranges", "--conflicts", "--conflicts --ranges", "--summary", "--summary --conflicts",
    "--summary --ranges", "--check --summary",
)


def numbers(text: str) -> Dict[str, Any]:
    return {name: int(number) for name, number in WORDS.findall(text)}


def status_of(text: str) -> Dict[str, Any]:
    """The members of what a line of `gaps` says behind an object's name."""
    told, _, unplaced = text.partition(" unplaced conflicting ")
    behind = {"unplaced": int(unplaced)} if unplaced else {}
    if told in ("no information", "conflicting information"):
        return {"status": told, **behind}
    word, _, rest = told.partition(" ")
    if word == "whole":
        return {"status": word, "length": int(rest), **behind}
    return {"status": word, **numbers(rest), **behind}


def compared(text: str) -> Dict[str, Any]:
    """The numbers of a line of `compare`, and its information."""
    symbols, _, information = text.partition(" information ")
    counts = numbers(information)
    return {**numbers(symbols), "information": counts or information}


def members(line: str) -> Dict[str, Any]:
    """The members of the object of JSON that has the values of this line, in their order."""
    gap = re.fullmatch(r"gap (\d+)/(\d+)-(\d+) ([a-z]+)", line)
    if gap:
        sbn, first, last = map(int, gap.groups()[:3])
        return {"sbn": sbn, "first": first, "last": last, "reason": gap[4]}
    extent = re.fullmatch(r"bytes (\d+)-(\d+)", line)
    if extent:
        return {"first": int(extent[1]), "last": int(extent[2])}
    found = NAME.fullmatch(line)
    if not found:
        raise ValueError(line)
    name: Dict[str, Any] = {"source": found["source"]} if found["source"] else {}
    name["tsi"] = int(found["tsi"])
    rest = found["rest"].strip()
    if found["fdt"]:
        name["fdt"] = int(found["number"])
    elif found["number"]:
        name["toi"] = found["number"]
    if " information " in f" {rest}" and "same " in rest:
        return {**name, **compared(rest)}
    return {**name, **(status_of(rest) if found["number"] else numbers(rest))}


def in_json(text: List[str]) -> str:
    return lines(*(json.dumps(members(line), separators=(",", ":")) for line in text))


class GapsForms(Case):
    def test_objects(self) -> None:
        toi = (1 << 112) - 1
        largest = f"{(1 << 48) - 1:012X} 01 {toi:028X}"
        self.journal("greatest", HEADER, conflicts(largest), ended(1))
        self.file("of_v4", HEADER2, version2(V4, conflicts(KEY)), ended(1))
        self.rows(
            ("whole", "gaps --json whole", 0,
             '{"tsi":7,"toi":"1","status":"whole","length":5}'),
            ("a part", "gaps --json part", 0, lines(
                '{"tsi":7,"toi":"1","status":"partial","missing":1,"conflicting":0,"misfit":0}',
                '{"sbn":0,"first":1,"last":1,"reason":"missing"}')),
            ("its bytes", "gaps --json --ranges part", 0, lines(
                '{"tsi":7,"toi":"1","status":"partial","missing":1,"conflicting":0,"misfit":0}',
                '{"first":4,"last":4}')),
            ("a conflict", "gaps --json joined", 0, lines(
                '{"tsi":7,"toi":"1","status":"partial","missing":0,"conflicting":1,"misfit":0}',
                '{"sbn":0,"first":1,"last":1,"reason":"conflicting"}')),
            ("no information", "gaps --json symbol", 0,
             '{"tsi":7,"toi":"1","status":"no information"}'),
            ("two values", "gaps --json conflict", 0,
             '{"tsi":7,"toi":"1","status":"conflicting information"}'),
            ("an FDT Instance", "gaps --json instance", 0,
             '{"tsi":7,"fdt":3,"status":"no information"}'),
            ("a sender", "gaps --json of_v4", 0,
             '{"source":"00000000000000000000ffff0a000001","tsi":7,"toi":"1",'
             '"status":"conflicting information"}'),
            ("the greatest numbers", "gaps --json greatest", 0,
             f'{{"tsi":281474976710655,"toi":"{toi}","status":"conflicting information"}}'),
            ("no object", "gaps --json empty", 0, ""),
            ("a session", "gaps --json --summary part", 0,
             '{"tsi":7,"objects":1,"whole":0,"partial":1,"missing":1,"conflicting":0,'
             '"misfit":0,"unknown":0}'),
            ("checked", "gaps --json --check part", 1, None, NOT_WHOLE),
            ("a bad journal", "gaps --json bad", 1, "", "input 1: Trailing"),
        )
        self.row("a full disk", "gaps --json whole", 3, "", "cannot write", **FULL)

    def test_unplaced(self) -> None:
        symbol = f"04 {KEY} 0000 0000"
        self.journal("without", HEADER, symbol, ended(1))
        self.row("in no gap", "gaps --json --conflicts without", 0,
                 '{"tsi":7,"toi":"1","status":"no information","unplaced":1}')

    def test_drawn(self) -> None:
        """Random journals, in each style."""
        objects = 0
        for number in range(JOURNALS):
            entries = drawn_journal(random.Random(number))
            self.file("drawn", HEADER2, *entries, ended(len(entries)))
            for style in STYLES:
                plain = self.made(f"gaps {style.replace('--check ', '')} drawn").lines()
                status, fault = 0, ""
                if "--check" in style:
                    whole = all(" partial 0 " in line and line.endswith(" unknown 0")
                                for line in plain)
                    status, fault = (0, "") if whole else (1, NOT_WHOLE)
                objects += len(plain)
                words = f"gaps --json {style} drawn"
                self.row(f"{number}: {style}", words, status, in_json(plain), fault)
        self.holds("there are many lines", objects > 20 * JOURNALS, objects)


class CompareForms(Case):
    def test_objects(self) -> None:
        self.rows(
            ("the same", "compare --json whole whole", 0,
             '{"tsi":7,"toi":"1","same":2,"differ":0,"first":0,"second":0,"information":"same"}'),
            ("others", "compare --json whole others", 0,
             '{"tsi":7,"toi":"1","same":1,"differ":1,"first":0,"second":1,"information":"first"}'),
            ("turned", "compare --json others whole", 0,
             '{"tsi":7,"toi":"1","same":1,"differ":1,"first":1,"second":0,"information":"second"}'),
            ("two values", "compare --json conflict whole", 0,
             '{"tsi":7,"toi":"1","same":0,"differ":0,"first":0,"second":2,"information":"differ"}'),
            ("no information", "compare --json symbol symbols", 0,
             '{"tsi":7,"toi":"1","same":1,"differ":0,"first":0,"second":1,"information":"none"}'),
            ("a session", "compare --json --summary whole others", 0,
             '{"tsi":7,"objects":1,"same":1,"differ":1,"first":0,"second":1,"information":'
             '{"same":0,"differ":0,"first":1,"second":0,"none":0}}'),
            ("no object", "compare --json empty empty", 0, ""),
            ("checked", "compare --json --check whole others", 1, None, DIFFER),
        )
        self.row("a full disk", "compare --json whole whole", 3, "", "cannot write", **FULL)

    def test_drawn(self) -> None:
        """Random pairs of journals."""
        objects = 0
        for number in range(JOURNALS):
            draw = random.Random(number)
            for name in "first", "second":
                entries = drawn_journal(draw)
                self.file(name, HEADER2, *entries, ended(len(entries)))
            for style in "", "--summary ":
                plain = self.made(f"compare {style}first second").lines()
                objects += len(plain)
                self.row(f"{number}: {style}", f"compare --json {style}first second", 0,
                         in_json(plain))
        self.holds("there are many lines", objects > 5 * JOURNALS, objects)
