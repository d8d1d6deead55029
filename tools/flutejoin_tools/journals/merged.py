"""What several journals have at each address of some objects, in the order of a journal."""
from __future__ import annotations

import heapq
import itertools
from typing import Iterator, List, NamedTuple, Sequence, Tuple

from flutejoin_tools.formats.entries import INFORMATION, INFORMATION_CONFLICT, SYMBOL
from flutejoin_tools.journals import holdings
from flutejoin_tools.journals.holdings import Choice, Key, key_of

# An entry of a journal: the object, the symbol (empty for transmission information), the number
# of the journal, and the value (empty if it is in conflict)
Entry = Tuple[bytes, bytes, int, bytes]
# The values that journals have at an address, each with the number of its journal
Values = List[Tuple[int, bytes]]


class Found(NamedTuple):
    """What the journals have at an address: of a symbol, or of transmission information."""

    symbol: bytes  # its block and number; empty for transmission information
    values: Values

    def has_conflict(self) -> bool:
        """Whether a journal has no value here since two came."""
        return not all(value for _, value in self.values)

    def values_alone(self) -> list[bytes]:
        """The values without the numbers of their journals."""
        return [value for _, value in self.values]

    def distinct(self) -> list[bytes]:
        """The values that came, each once."""
        return list(dict.fromkeys(value for _, value in self.values if value))


def entries_of(path: str, number: int, choice: Choice) -> Iterator[Entry]:
    """Yields the entries of the chosen objects in a journal."""
    with open(path, "rb", buffering=0) as file:
        last, is_chosen = b"", False
        for kind, raw, more in holdings.entries(file):
            if raw != last:
                last, is_chosen = raw, choice(key_of(raw))
            if not is_chosen:
                continue
            if kind in (INFORMATION, INFORMATION_CONFLICT):
                yield raw, b"", number, bytes(more)
            else:
                value = bytes(more[6:]) if kind == SYMBOL else b""
                yield raw, bytes(more[:4]), number, value


def merged(paths: Sequence[str], choice: Choice) -> Iterator[tuple[Key, bytes, Iterator[Found]]]:
    """Yields the chosen objects: each as a key and as bytes, with what is found of it."""
    streams = [entries_of(path, number, choice) for number, path in enumerate(paths)]
    every = streams[0] if len(streams) == 1 else heapq.merge(*streams)
    for raw, of in itertools.groupby(every, lambda entry: entry[0]):
        yield key_of(raw), raw, founds(of)


def founds(entries: Iterator[Entry]) -> Iterator[Found]:
    """Groups entries in the order of a journal by their address."""
    for symbol, of in itertools.groupby(entries, lambda entry: entry[1]):
        yield Found(symbol, [(number, value) for _, _, number, value in of])
