"""Decides by sums what another side has, and what is wanted of it, before a symbol is sent.

The rule is that of `generations`: an object belongs to the generation with which most of
its symbols agree, if more agree than differ, else it begins another one; by sums of values it is
decided as by the values. So a centre that has the sums of what it keeps, and is told those of a
station, asks for nothing that it has, and still sees another file under a TOI that it has whole:

    held = Held()                                  # of one sender; it lives as long as the centre
    for number, path in generations.kept().items():
        held.read(number, sums_of(path))
    wants = Wants.of(held, items)                  # (Key, Sums): what one journal of a station has
    wants.lines()                                  # for `flutejoin fill --only --gaps -` there
    taken = wants.take(answer, generations, join)  # as Generations.take; held is brought up to date

What a station tells has to be all that it has of an object, not only what is new there: the more it
tells, the surer is what agrees (Sums.with_more puts together what came at several times). Its own
numbers of generations mean nothing here: each of its journals has Wants of its own, one after
another, and then those of its folder `aside`, Wants.of_aside. A symbol of an answer is taken only
if it was wanted and has the sum that was told, so what a station changes meanwhile, or tells
wrongly, spoils nothing. Transmission information is in the sums themselves, and is not asked for.

What was delivered may be let go: the journals forget it, and its sums stay, so nothing of it is
wanted, and another file under its TOI is still seen. If an FDT Instance describes a file of that
TOI that was not delivered, `Held.forget` it: the two may share symbols. Of an object that has all
generations the one that was delivered first goes, as Taken.gone tells.
"""
from __future__ import annotations

import collections
import heapq
import itertools
from typing import Dict, Iterable, Iterator, NamedTuple, Set, Tuple

from flutejoin_tools.common.program import Answer
from flutejoin_tools.gather.generations import Generations, Join, Named, Split, Taken
from flutejoin_tools.gather.others import add_entry
from flutejoin_tools.gather.rows import (
    ASIDE,
    DIFFER,
    FIRST,
    NONE,
    SAME,
    SECOND,
    Chosen,
    Row,
    choose,
)
from flutejoin_tools.journals.holdings import Key
from flutejoin_tools.journals.merged import Entry, entries_of
from flutejoin_tools.journals.sums import (
    DISPUTED,
    IN_CONFLICT,
    NOTHING,
    NO_INFORMATION,
    Item,
    Sums,
    sum_of,
)

# Symbols, by their blocks and numbers as in a journal, with their sums
Symbols = Dict[bytes, bytes]


class Wanted(NamedTuple):
    """Where an object of another side belongs, and what of it is wanted."""

    key: Key
    chosen: Chosen
    begins: bool  # whether it is another generation of an object that is held
    is_full: bool  # whether there is no room for another generation
    information: bytes  # that the generation lacks; else NO_INFORMATION
    missing: Symbols  # that the generation lacks
    others: Symbols  # of which it has other values: they go aside

    def is_empty(self) -> bool:
        return not (self.missing or self.others) and self.information == NO_INFORMATION

    def is_answered(self, came: Symbols) -> bool:
        """Whether anything came, or nothing was asked for."""
        return bool(came) or not (self.missing or self.others)

    def informed(self, raw: bytes) -> Iterator[Entry]:
        """Yields the transmission information that the generation lacks, unless it is disputed."""
        if self.information not in (NO_INFORMATION, DISPUTED):
            yield raw, b"", 0, self.information

    def sum_of(self, symbol: bytes) -> bytes:
        """The sum that was told of a symbol; empty if it is not wanted."""
        return self.missing.get(symbol, b"") or self.others.get(symbol, b"")

    def lines(self) -> Iterator[str]:
        """Yields the lines of `flutejoin gaps` by which the symbols are asked for."""
        symbols = sorted([*self.missing, *self.others])
        if not symbols:
            return
        yield f"{self.key.text()} partial missing {len(symbols)} conflicting 0 misfit 0\n"
        for block, first, last in runs_of(symbols):
            yield f"gap {block}/{first}-{last} missing\n"


class Held:
    """What the generations of a sender have of each object, as sums: 12 bytes for a symbol."""

    def __init__(self) -> None:
        self.sums: dict[Key, dict[int, Sums]] = collections.defaultdict(dict)
        self.delivered: dict[Key, list[int]] = {}  # generations, in the order of their delivery
        self.gone: dict[Key, set[int]] = collections.defaultdict(set)  # of which only sums are kept
        self.aside: dict[Key, Set[Tuple[bytes, bytes]]] = collections.defaultdict(set)

    def read(self, number: int, items: Iterable[Item]) -> None:
        """Adds what a generation has."""
        for key, sums in items:
            self.sums[key][number] = self.sums[key].get(number, NOTHING).with_more(sums)

    def read_aside(self, items: Iterable[Item]) -> None:
        """Adds values that are kept aside: nobody has to send them again."""
        for key, sums in items:
            self.aside[key].update(sums.by_symbol().items())

    def deliver(self, key: Key, number: int) -> None:
        """Notes that the file of a generation was delivered."""
        if number not in self.delivered.setdefault(key, []):
            self.delivered[key].append(number)

    def let_go(self, key: Key, number: int) -> None:
        """Notes that the journals have forgotten an object of a generation, which was delivered."""
        self.deliver(key, number)
        self.gone[key].add(number)

    def forget(self, key: Key, number: int) -> None:
        """Drops the sums of an object of a generation: it is asked for again once it is told."""
        self.sums[key].pop(number, None)
        self.gone[key].discard(number)
        self.delivered[key] = [each for each in self.delivered.get(key, ()) if each != number]

    def decide(self, key: Key, told: Sums) -> Wanted:
        """To which generation an object of another side belongs, and what of it is wanted."""
        mine, of = told.by_symbol(), self.sums[key]
        rows = {number: row_of(key, sums, told, mine) for number, sums in of.items()}
        chosen = choose(rows, self.delivered.get(key, ()))
        if chosen.number in self.gone[key] and not chosen.replaces:
            return Wanted(key, chosen, False, False, NO_INFORMATION, {}, {})
        has = NOTHING if chosen.replaces else of.get(chosen.number, NOTHING)
        missing, others = self.parted(key, chosen.number, has.by_symbol(), mine)
        is_informed = has.information != NO_INFORMATION or chosen.number == ASIDE
        information = NO_INFORMATION if is_informed else told.information
        is_full = chosen.number == ASIDE
        begins = bool(of) and chosen.number not in of and not is_full
        return Wanted(key, chosen, begins, is_full, information, missing, others)

    def decide_aside(self, key: Key, told: Sums) -> Wanted:
        """What is wanted of values that another side keeps aside: those that are not held."""
        of = [sums.by_symbol() for sums in self.sums[key].values()]
        others = {
            symbol: value
            for symbol, value in told.by_symbol().items()
            if value != IN_CONFLICT and (symbol, value) not in self.aside[key]
            if all(each.get(symbol) != value for each in of)
        }
        return Wanted(key, Chosen(ASIDE), False, False, NO_INFORMATION, {}, others)

    def parted(
        self, key: Key, number: int, has: Symbols, mine: Symbols
    ) -> tuple[Symbols, Symbols]:
        """The symbols that a generation lacks, and those of which it has other values."""
        missing, others = {}, {}
        for symbol, value in mine.items():
            if value == IN_CONFLICT or has.get(symbol) == value:
                continue
            if symbol not in has and number != ASIDE:
                missing[symbol] = value
            elif (symbol, value) not in self.aside[key]:
                others[symbol] = value
        return missing, others

    def take(self, wanted: Wanted, came: Symbols) -> None:
        """Adds what came of an object, if anything did."""
        key, number = wanted.key, wanted.chosen.number
        if not wanted.is_answered(came):
            return
        if wanted.chosen.replaces:
            self.forget(key, number)
        self.aside[key].update(each for each in came.items() if each[0] in wanted.others)
        if number != ASIDE:
            more = {symbol: value for symbol, value in came.items() if symbol in wanted.missing}
            self.read(number, [(key, Sums.of(wanted.information, more))])


class Wants:
    """What is wanted of one journal of another side."""

    def __init__(self, held: Held, every: Iterable[Wanted]) -> None:
        self.held = held
        self.by_raw = {each.key.raw(): each for each in every if not each.is_empty()}
        self.strange = 0  # symbols that came, and were not wanted, or not as they were told
        self.came: dict[bytes, Symbols] = {}  # by objects, the sums of the symbols that were taken

    @classmethod
    def of(cls, held: Held, told: Iterable[Item]) -> Wants:
        """`told` is what the journal has."""
        return cls(held, (held.decide(key, sums) for key, sums in told))

    @classmethod
    def of_aside(cls, held: Held, told: Iterable[Item]) -> Wants:
        """`told` is what a journal of values has that the other side keeps aside."""
        return cls(held, (held.decide_aside(key, sums) for key, sums in told))

    def lines(self) -> Iterator[str]:
        """Yields the LINES of `fill --only` that pick what is wanted; none if nothing is."""
        for raw in sorted(self.by_raw):
            yield from self.by_raw[raw].lines()

    def take(self, answer: str, generations: Generations, join: Join) -> Taken:
        """Brings the symbols of an answer, a journal, to where they belong, and then to the disk.

        If it fails, that may be repeated: what is held changes only if it succeeds. Raises OSError,
        and records.ReadFault or Cut if a journal is damaged.
        """
        came: dict[bytes, Symbols] = {raw: {} for raw in self.by_raw}
        parts = self.split(answer, Split(generations.path_of(1)), came)
        every = [(self.by_raw[raw], symbols) for raw, symbols in came.items()]
        replaced: dict[int, set[Key]] = collections.defaultdict(set)
        for wanted, symbols in every:
            if wanted.chosen.replaces and wanted.is_answered(symbols):
                replaced[wanted.chosen.number].add(wanted.key)
        taken = generations.bring_parts(parts, replaced, join, told_of(every))
        if taken.answer.status == 0:
            self.came = came
            for wanted, symbols in every:
                self.held.take(wanted, symbols)
        return taken

    def split(self, answer: str, parts: Split, came: dict[bytes, Symbols]) -> Split:
        """Writes what is wanted of an answer to a journal for each generation."""
        self.strange = 0
        try:
            for raw, symbol, _, value in heapq.merge(self.informed(), self.symbols_in(answer)):
                wanted = self.by_raw[raw]
                number = ASIDE if symbol in wanted.others else wanted.chosen.number
                add_entry(parts.copy_of(number), raw, symbol, value)
                if symbol:
                    came[raw][symbol] = wanted.sum_of(symbol)
            parts.finish()
        except BaseException:
            parts.remove()
            raise
        return parts

    def informed(self) -> Iterator[Entry]:
        """Yields the transmission information of objects of which no symbol was asked for."""
        for raw, wanted in sorted(self.by_raw.items()):
            if wanted.is_answered({}):
                yield from wanted.informed(raw)

    def symbols_in(self, answer: str) -> Iterator[Entry]:
        """Yields the symbols of an answer that were wanted, and are as they were told, and before
        them the transmission information of their object."""
        last = b""
        for entry in entries_of(answer, 1, lambda _: True):
            raw, symbol, _, value = entry
            wanted = self.by_raw.get(raw)
            if wanted and symbol and value and wanted.sum_of(symbol) == sum_of(value):
                if raw != last:
                    yield from wanted.informed(raw)
                last = raw
                yield entry
            elif symbol:
                self.strange += 1


def row_of(key: Key, held: Sums, told: Sums, mine: Symbols) -> Row:
    """How what is told of an object compares with what a generation has of it."""
    of = held.by_symbol()
    same, both = len(of.items() & mine.items()), len(of.keys() & mine.keys())
    has = held.information != NO_INFORMATION, told.information != NO_INFORMATION
    information = {(True, False): FIRST, (False, True): SECOND, (False, False): NONE}.get(has, SAME)
    if all(has) and held.information != told.information:
        information = DIFFER
    return Row(key, same, both - same, len(of) - both, len(mine) - both, information)


def told_of(every: Iterable[tuple[Wanted, Symbols]]) -> Taken:
    """What is to be told of what came."""
    others, begun, full, gone = 0, Named(), Named(), Named()
    for wanted, symbols in every:
        if not wanted.is_full:
            others += sum(symbol in wanted.others for symbol in symbols)
        kinds = (
            (begun, wanted.begins),
            (full, wanted.is_full),
            (gone, wanted.chosen.replaces),
        )
        for named, is_one in kinds:
            if is_one and wanted.is_answered(symbols):
                named.add(wanted.key)
    return Taken(Answer(0, ""), "", others, begun, full, gone)


def runs_of(symbols: Iterable[bytes]) -> Iterator[tuple[int, int, int]]:
    """Yields consecutive symbols as a gap: their block, and the first and the last of them."""
    numbers = (divmod(int.from_bytes(symbol, "big"), 1 << 16) for symbol in symbols)
    for _, run in itertools.groupby(
        enumerate(numbers), lambda of: (of[1][0], of[1][1] - of[0])
    ):
        of_run = [number for _, number in run]
        yield of_run[0][0], of_run[0][1], of_run[-1][1]
