"""What a centre got of the stations that it asks, and is not delivered: journals of generations,
common to all of them, and sums of what these have."""
from __future__ import annotations

import errno
import os
from typing import AbstractSet, Iterator, Optional

from flutejoin_tools.centre.pending import ENDING, Pending
from flutejoin_tools.centre.symbols import Symbols, together
from flutejoin_tools.common import file_names
from flutejoin_tools.common.file_names import address_in
from flutejoin_tools.common.log import Log
from flutejoin_tools.common.program import FULL, Answer, Failed, Program
from flutejoin_tools.exchange.agreeing import Held, Wants
from flutejoin_tools.fdt.names import stem_of
from flutejoin_tools.formats.entries import information_of
from flutejoin_tools.gather.gathering import Gathering, told_of
from flutejoin_tools.gather.generations import Taken
from flutejoin_tools.gather.rows import ASIDE
from flutejoin_tools.journals.holdings import Key, key_of
from flutejoin_tools.journals.sums import DISPUTED, NO_INFORMATION, sums_of


class Gathered:
    """The folder of these journals."""

    def __init__(self, folder: str, program: Program, report: Log) -> None:
        self.program, self.report = program, report
        self.pending = Pending(folder, program, report)
        self.held = Held()

    def read(self, keys: Optional[AbstractSet[Key]] = None) -> None:
        """Reads anew what the journals have of some objects, or of all.

        Raises OSError, and records.ReadFault or Cut.
        """
        for key in [*self.held.sums, *self.held.aside]:
            if keys is None or key in keys:
                self.held.sums.pop(key, None)
                self.held.aside.pop(key, None)
        if keys is not None and keys.isdisjoint(self.pending.objects):
            return
        for number, path in self.journals():
            items = sums_of(path, (lambda _: True) if keys is None else keys.__contains__)
            if number == ASIDE:
                self.held.read_aside(items)
            else:
                self.held.read(number, items)

    def journals(self) -> Iterator[tuple[int, str]]:
        """Yields the journals with the number of their generation, or ASIDE."""
        folder = self.pending.folder
        addresses = {address_in(name) for name in os.listdir(folder) if name.endswith(ENDING)}
        gathering = self.gathering()
        for address in addresses - {None}:
            kept = gathering.generations(file_names.stem(str(address))).kept()
            yield from kept.items()
        aside = os.path.join(folder, "aside")
        for name in sorted(os.listdir(aside)) if os.path.isdir(aside) else ():
            if name.endswith(ENDING):
                yield ASIDE, os.path.join(aside, name)

    def gathering(self) -> Gathering:
        """What joins into the journals, as `flutejoin-gather` does."""
        return Gathering(self.pending.folder, self.program, self.report)

    def take(self, source: bytes, wants: Wants, answer: str) -> dict[Key, Symbols]:
        """Joins what was wanted of an answer, a journal, and returns what came.

        It is on the disk then. Raises Failed, OSError, and records.ReadFault or Cut.
        """
        gathering, stem = self.gathering(), stem_of(source)
        taken = self.taken(gathering, source, wants, answer)
        if taken.answer.told == FULL and os.path.exists(taken.path):
            gathering.put_away(stem, taken.path)
            taken = self.taken(gathering, source, wants, answer)
        if taken.answer.status == 1:
            raise Failed(taken.answer)
        if taken.answer.status:
            raise OSError(errno.EIO, taken.answer.told, self.pending.folder)
        for line in told_of(taken, stem):
            self.report.warn(line)
        came = dict(came_of(wants))
        for key, symbols in came.items():
            self.pending.objects[key] = symbols.beside(self.pending.objects.get(key))
        return came

    def taken(self, gathering: Gathering, source: bytes, wants: Wants, answer: str) -> Taken:
        """Joins what was wanted of an answer. Returns what came, and what is to be told of it."""

        def join(out: str, part: str) -> Answer:
            return self.program.join(source, out, [*filter(os.path.exists, [out]), part])

        return wants.take(answer, gathering.generations(stem_of(source)), join)


def came_of(wants: Wants) -> Iterator[tuple[Key, Symbols]]:
    """Yields what came of each object that was wanted."""
    for raw, of in wants.came.items():
        wanted, symbols = wants.by_raw[raw], Symbols()
        if not wanted.is_answered(of):
            continue
        if wanted.information not in (NO_INFORMATION, DISPUTED):
            symbols.numbers = together(symbols.numbers, information_of(wanted.information))
        for symbol in of:
            block, number = int.from_bytes(symbol[:2], "big"), int.from_bytes(symbol[2:], "big")
            symbols.blocks[block] = symbols.blocks.get(block, 0) | 1 << number
        yield key_of(raw), symbols
