"""Leaves objects out of which a journal has next to nothing, where they are so many that to tell
their gaps would take minutes: a datagram can begin one of 65,536 source blocks."""
from __future__ import annotations

import functools
import tempfile
from typing import IO, Callable, Iterable, Iterator, NamedTuple, Optional

from flutejoin_tools.common import gaps
from flutejoin_tools.common.gaps import Numbers
from flutejoin_tools.common.program import Command, argument
from flutejoin_tools.common.texts import shown
from flutejoin_tools.formats.partition import Partition, fault_of
from flutejoin_tools.formats.records import Cut, ReadFault
from flutejoin_tools.journals import holdings
from flutejoin_tools.journals.holdings import Key

SPARSE = 200  # source blocks for each symbol that is there, where next to nothing is
MOST_BLOCKS = 20_000_000  # of such objects together, in all journals


class Thinned(NamedTuple):
    """A journal without objects that are left out, in a file without a name."""

    file: IO[bytes]
    left: int  # how many these are


@functools.lru_cache(maxsize=256)
def blocks_of(numbers: Optional[Numbers]) -> int:
    """The source blocks of an object; 0 if its information is missing or not valid."""
    return 0 if not numbers or fault_of(*numbers) else Partition(*numbers).blocks


def sparse_blocks(numbers: Optional[Numbers], symbols: int) -> int:
    """The source blocks of an object of which next to nothing is there; 0 of another one."""
    blocks = blocks_of(numbers)
    return blocks if blocks > SPARSE * symbols else 0


class Thinning:
    """What is left out of the journals of a run."""

    def __init__(self, is_wanted: Callable[[Key], bool]) -> None:
        """`is_wanted` tells which objects are never left out."""
        self.is_wanted, self.blocks = is_wanted, 0

    def thin(self, journal: str) -> Optional[Thinned]:
        """A copy of a journal without what is left out; None if that is nothing, or if flutejoin
        will find the journal at fault. Raises OSError."""
        try:
            left_out = self.left_out(journal)
            return self.copy(journal, left_out) if any(left_out) else None
        except (ReadFault, Cut):
            return None

    def left_out(self, journal: str) -> bytearray:
        """Of each object of a journal whether it is left out, in their order."""
        found = bytearray()
        with open(journal, "rb", buffering=0) as file:
            for key, held in holdings.holdings(file, lambda _: True):
                found.append(self.is_left(key, held.information, held.symbols))
        return found

    def is_left(self, key: Key, numbers: Optional[Numbers], symbols: int) -> bool:
        """Whether an object of which so many symbols are there is left out."""
        blocks = sparse_blocks(numbers, symbols)
        if blocks > MOST_BLOCKS - self.blocks and not self.is_wanted(key):
            return True
        self.blocks += blocks
        return False

    @staticmethod
    def copy(journal: str, left_out: bytearray) -> Thinned:
        """Copies a journal without the objects that are left out, to a temporary file."""
        rest, last, is_left = iter(left_out), b"", 1
        out = tempfile.TemporaryFile()
        copied = holdings.Copy(out)
        with open(journal, "rb", buffering=0) as file:
            for kind, raw, more in holdings.entries(file):
                if raw != last:
                    last, is_left = raw, next(rest, 1)
                if not is_left:
                    copied.add(kind, raw, more)
        copied.finish()
        out.flush()
        return Thinned(out, sum(left_out))


def thin(
    of: gaps.Gaps, journals: Iterable[str], is_wanted: Callable[[Key], bool]
) -> Iterator[str]:
    """Has copies of those of these journals read that have too much, and yields what is left out.

    Raises OSError, and Fault if such a journal is at fault.
    """
    thinning = Thinning(is_wanted)
    for journal in dict.fromkeys(journals):
        thinned = thinning.thin(journal)
        if thinned:
            words = [*gaps.CHECK, argument(journal)]
            for _ in of.program.lines(Command(words, [shown(journal)])):
                pass
            of.read_instead(journal, thinned.file)
            several = "s are" if thinned.left > 1 else " is"
            told = f"{thinned.left} object{several} left out, of which it has "
            told += f"one symbol in {SPARSE} source blocks or less"
            yield f"{shown(journal)}: {told}: they have too many gaps"
