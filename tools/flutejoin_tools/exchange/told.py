"""What one station told that it has: of each of its journals a file of sums, and a mark.

The mark is that of the last answer which was taken whole, so the next request asks for what is new
since. Each file is replaced in one step, and taking an answer twice changes nothing.
"""
from __future__ import annotations

import heapq
import itertools
import os
import re
from typing import BinaryIO, Callable, Container, Iterable, Iterator, NamedTuple, Optional

from flutejoin_tools.centre.symbols import Symbols, together
from flutejoin_tools.common.file_names import PARTIAL
from flutejoin_tools.common.outputs import replace_text
from flutejoin_tools.common.shelves import begin_file, bring_to_disk, remove
from flutejoin_tools.exchange.exchange import ASIDE, KEPT, MARK, Change, read_changes
from flutejoin_tools.formats.entries import information_of
from flutejoin_tools.formats.records import Cut, ReadFault
from flutejoin_tools.journals.holdings import Key
from flutejoin_tools.journals.sums import DISPUTED, EACH, NO_INFORMATION, Sums

NAME = re.compile(r"([0-9a-f]{16})\.([0-9a-f]{32})\.(kept|aside)", re.ASCII)


class Journal(NamedTuple):
    """A journal of a station, as an answer names it."""

    id: str
    source: bytes
    kind: str  # KEPT, or ASIDE if it has other values of symbols

    def name(self) -> str:
        return f"{self.id}.{self.source.hex()}.{self.kind}"


class Told:
    """The folder in which a centre keeps what one station told."""

    def __init__(self, folder: str) -> None:
        self.folder = folder
        self.symbols: dict[Key, Symbols] = {}  # that it has, of objects that are not delivered
        os.makedirs(folder, exist_ok=True)
        for name in os.listdir(folder):
            if name.endswith(PARTIAL):
                remove(self.path(name))

    def path(self, name: str) -> str:
        return os.path.join(self.folder, name)

    def mark(self) -> Optional[str]:
        """The mark of the last answer that was taken; None if there is none."""
        try:
            with open(self.path("mark"), encoding="ascii") as file:
                found = re.fullmatch(MARK, file.read(64))
        except (OSError, ValueError):
            return None
        return found[1] if found and found[1] != "none" else None

    def put_mark(self, mark: Optional[str]) -> None:
        """Keeps the mark of an answer, whose sums are on the disk before, for the next request."""
        if mark is None:
            remove(self.path("mark"))
            return
        replace_text(self.path("mark"), mark)
        bring_to_disk(self.path("mark"))

    def serial(self) -> int:
        """Up to which serial number the station knows what was delivered."""
        try:
            with open(self.path("serial"), encoding="ascii") as file:
                return int(file.read(20))
        except (OSError, ValueError):
            return 0

    def put_serial(self, serial: int) -> None:
        """Keeps that number; if it is lost, the station is told once more what was delivered."""
        replace_text(self.path("serial"), str(serial))

    def journals(self) -> list[Journal]:
        """The journals that were told of: of most symbols first, of other values last."""
        found = [match for name in os.listdir(self.folder) if (match := NAME.fullmatch(name))]
        every = [Journal(match[1], bytes.fromhex(match[2]), match[3]) for match in found]
        sizes = {each: os.path.getsize(self.path(each.name())) for each in every}
        return sorted(every, key=lambda each: (each.kind == ASIDE, -sizes[each], each))

    def items(self, journal: Journal) -> Iterator[Change]:
        """Yields what is known of a journal. Raises OSError, ReadFault and Cut."""
        path = self.path(journal.name())
        if os.path.exists(path):
            with open(path, "rb") as file:
                yield from read_changes(file, os.path.getsize(path), journal.source)

    def read(self) -> None:
        """Reads which symbols it has. What is damaged is forgotten, and is told anew."""
        self.symbols.clear()
        for journal in self.journals():
            try:
                for each in self.items(journal):
                    self.unite(journal, each)
            except (ReadFault, Cut):
                remove(self.path(journal.name()))
                self.put_mark(None)

    def unite(self, journal: Journal, change: Change) -> None:
        """Adds the symbols of a change to those that the station has of its object."""
        if journal.kind == KEPT and change.total:
            symbols = symbols_of(change.sums)
            self.symbols.setdefault(change.key, Symbols()).unite(symbols)

    def take(
        self,
        journal: Journal,
        file: BinaryIO,
        size: int,
        is_settled: Callable[[Change], bool],
    ) -> set[Key]:
        """Takes changes of a journal, without what is settled, and returns of which objects."""
        changed: set[Key] = set()

        def new() -> Iterator[Change]:
            for each in read_changes(file, size, journal.source):
                changed.add(each.key)
                yield each

        def left() -> Iterator[Change]:
            for each in united(self.items(journal), new(), changed, is_settled):
                if each.key in changed:
                    self.unite(journal, each)
                yield each

        self.replace(journal, left())
        return changed

    def replace(self, journal: Journal, items: Iterable[Change]) -> None:
        """Replaces what is known of a journal, in one step."""
        path, count = self.path(journal.name()), 0
        try:
            with begin_file(path + PARTIAL) as out:
                for each in items:
                    each.write(out)
                    count += 1
            if count:
                os.rename(path + PARTIAL, path)
                bring_to_disk(path)
            else:
                remove(path)
        finally:
            remove(path + PARTIAL)

    def drop(self, journal: Journal, keys: Container[Key]) -> None:
        """Forgets some objects of a journal, which are delivered or let go."""
        left = (each for each in self.items(journal) if each.key not in keys)
        self.replace(journal, left)

    def forget(self, keys: Container[Key]) -> None:
        """Forgets some objects."""
        for journal in self.journals():
            if any(each.key in keys for each in self.items(journal)):
                self.drop(journal, keys)
        self.hide([key for key in self.symbols if key in keys])

    def hide(self, keys: Iterable[Key]) -> None:
        """No longer says which symbols of some objects it has."""
        for key in keys:
            self.symbols.pop(key, None)

    def leave(self, numbers: Container[str]) -> None:
        """Forgets the journals that are gone at the station."""
        for each in self.journals():
            if each.id in numbers:
                remove(self.path(each.name()))

    def clear(self) -> None:
        """Forgets everything: it is told anew."""
        self.symbols.clear()
        for each in self.journals():
            remove(self.path(each.name()))


def united(
    old: Iterator[Change],
    new: Iterator[Change],
    changed: Container[Key],
    is_settled: Callable[[Change], bool],
) -> Iterator[Change]:
    """Yields what is known after changes. What is gone is left out, and what is settled of them."""
    every = heapq.merge(old, new, key=lambda each: each.key)
    for key, of in itertools.groupby(every, lambda each: each.key):
        one, *more = of
        for each in more:
            one = one.with_more(each)
        is_gone = not one.total and one.sums.information == NO_INFORMATION
        if not is_gone and not (key in changed and is_settled(one)):
            yield one._replace(is_whole=True)


def symbols_of(sums: Sums) -> Symbols:
    """Which symbols there are sums of."""
    found, of = Symbols(), sums.symbols
    if sums.information not in (NO_INFORMATION, DISPUTED):
        found.numbers = together(found.numbers, information_of(sums.information))
    for at in range(0, len(of), EACH):
        block, number = of[at] << 8 | of[at + 1], of[at + 2] << 8 | of[at + 3]
        found.blocks[block] = found.blocks.get(block, 0) | 1 << number
    return found
