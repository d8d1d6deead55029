"""Compares what is new of an object with what is kept of it, and decides where it goes."""
from __future__ import annotations

import itertools
import re
from typing import Container, Iterable, Iterator, NamedTuple, Optional, Sequence

from flutejoin_tools.common.texts import shown
from flutejoin_tools.formats.records import ReadFault
from flutejoin_tools.journals.holdings import Key
from flutejoin_tools.journals.states import key_of

MOST_GENERATIONS = 8  # of an object
ASIDE = 0  # the number of what goes aside
LINE = re.compile(
    rb"(.{1,140}) same (\d+) differ (\d+) first (\d+) second (\d+) information ([a-z]+)\n"
)
# Of an object in which nothing differs
FITS = re.compile(
    rb"(?:source [0-9a-f]{32} )?session \d+ object (?:fdt )?\d+ same \d+ differ 0 first \d+"
    rb" second \d+ information (?:same|first|second|none)\n"
)

# How the transmission information of two journals compares
SAME, DIFFER, FIRST, SECOND, NONE = "same", "differ", "first", "second", "none"


class Row(NamedTuple):
    """How two journals compare in an object: in how many symbols they agree or differ, and how
    many one of them has alone."""

    key: Key
    same: int
    differ: int
    first: int
    second: int
    information: str

    def is_in_first(self) -> bool:
        of_first = self.same + self.differ + self.first
        return of_first > 0 or self.information in (SAME, DIFFER, FIRST)

    def is_in_second(self) -> bool:
        of_second = self.same + self.differ + self.second
        return of_second > 0 or self.information in (SAME, DIFFER, SECOND)

    def agrees(self) -> bool:
        """Whether the second may be joined into the first, without the symbols that differ."""
        if self.information == DIFFER:
            return False
        return not self.differ or self.same > self.differ


def row_in(line: bytes) -> Row:
    """The row in a line of `flutejoin compare`. Raises ReadFault if it is none."""
    found = LINE.fullmatch(line)
    if not found:
        told = shown(line[:80].decode(errors="replace").strip())
        raise ReadFault(f"flutejoin tells a line that is not known here: {told}")
    same, differ, first, second = (int(found[at]) for at in range(2, 6))
    return Row(key_of(found[1].decode()), same, differ, first, second, found[6].decode())


def may_matter(line: bytes) -> bool:
    """Whether what a line tells may have another end than that the object is joined, whole, into
    the only generation that is kept, the first. Most lines don't matter, and are many."""
    return not FITS.fullmatch(line)


def compared(every: Sequence[Iterable[bytes]], without: Container[Key]) -> Iterator[list[Row]]:
    """Yields of each object of a journal how it compares with each journal that is kept.

    `every` are the lines of `flutejoin compare` of each kept journal and this one, which have the
    objects of this one in the same order.
    """
    new = (filter(Row.is_in_second, map(row_in, lines)) for lines in every)
    for rows in itertools.zip_longest(*new):
        if None in rows or any(row.key != rows[0].key for row in rows):
            raise ReadFault("changed while it was compared")
        if rows[0].key not in without:
            yield [*rows]


def united(rows: Iterable[tuple[int, Row]]) -> dict[int, Row]:
    """How each generation compares, by rows of its journals. What several have counts as often."""
    found: dict[int, Row] = {}
    for number, row in rows:
        one = found.get(number)
        if one is None:
            found[number] = row
            continue
        same, differ = one.same + row.same, one.differ + row.differ
        second = max(0, one.second - row.same - row.differ)
        rank = (NONE, SECOND, FIRST, SAME, DIFFER)
        information = max(one.information, row.information, key=rank.index)
        found[number] = Row(row.key, same, differ, one.first + row.first, second, information)
    return found


class Chosen(NamedTuple):
    """Where an object goes."""

    number: int  # of a generation; ASIDE if there is no room for another one
    replaces: bool = False  # whether it first forgets the object, which was delivered


def choose(
    rows: dict[int, Row], delivered: Iterable[int] = (), last: Optional[int] = None
) -> Chosen:
    """The generation with which most symbols of an object agree, of several the one that had some
    of it `last`; else the first that has none of it; else the first of these whose file was
    delivered."""
    held = {number: row for number, row in rows.items() if row.is_in_first()}
    fitting = [(-row.same, number != last, number) for number, row in held.items() if row.agrees()]
    if fitting:
        return Chosen(min(fitting)[2])
    for number in range(1, MOST_GENERATIONS + 1):
        if number not in held:
            return Chosen(number)
    return next((Chosen(number, True) for number in delivered if number in held), Chosen(ASIDE))
