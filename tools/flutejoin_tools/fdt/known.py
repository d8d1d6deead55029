"""Transmission information that only FDT Instances have, as a journal beside the others.

Of an object whose packets lack it nobody can tell what is missing. So who asks joins this journal
with those that are kept: `flutejoin join -o - */10.0.0.1.journal | flutejoin gaps -`. It is never
joined into them, so a forged FDT Instance changes nothing that is kept.
"""
from __future__ import annotations

import os
from typing import Iterable, Iterator, Tuple

from flutejoin_tools.common.file_names import PARTIAL
from flutejoin_tools.common.gaps import Numbers
from flutejoin_tools.fdt import fdt
from flutejoin_tools.formats.entries import FILE, INFORMATION, information_of
from flutejoin_tools.formats.partition import fault_of
from flutejoin_tools.formats.records import Cut, ReadFault
from flutejoin_tools.journals import holdings
from flutejoin_tools.journals.holdings import Copy, Key, key_of

MOST_KNOWN = 1 << 16  # objects of one sender


class Known:
    """The journal of one sender, in a folder of documents."""

    def __init__(self, path: str, source: bytes) -> None:
        self.path, self.source = path, source
        self.numbers: dict[Key, Numbers] = {}
        self.texts: set[int] = set()  # hashes of the documents that were read
        self.has_changed = False
        try:
            self.read()
        except (OSError, ReadFault, Cut):
            self.numbers.clear()

    def read(self) -> None:
        """Reads the journal of transmission information that is there."""
        with open(self.path, "rb", buffering=0) as file:
            for kind, raw, more in holdings.entries(file):
                if kind == INFORMATION:
                    self.numbers[key_of(raw)] = information_of(more)

    def add(self, tsi: int, xml: bytes, told: Iterable[Tuple[int, Numbers]]) -> None:
        """Adds what a document tells. Of several the one that came last counts."""
        if hash(xml) in self.texts:
            return
        if len(self.texts) >= MOST_KNOWN:
            self.texts.clear()
        self.texts.add(hash(xml))
        for toi, numbers in told:
            key = Key(self.source, tsi, FILE, toi)
            if self.numbers.get(key) != numbers:
                self.numbers.pop(key, None)
                self.numbers[key] = numbers
                self.has_changed = True
        while len(self.numbers) > MOST_KNOWN:
            del self.numbers[next(iter(self.numbers))]

    def leave_out(self, keys: Iterable[Key]) -> None:
        """Drops objects whose packets have transmission information: these count."""
        for key in keys:
            self.has_changed |= self.numbers.pop(key, None) is not None

    def write(self) -> None:
        """Replaces the journal, if it changed. It can be made again: nothing waits for the disk."""
        if not self.has_changed:
            return
        self.has_changed = False
        os.makedirs(os.path.dirname(self.path), exist_ok=True)
        with open(self.path + PARTIAL, "wb") as out:
            copy = Copy(out)
            for key in sorted(self.numbers):
                copy.inform(key, self.numbers[key])
            copy.finish()
        os.rename(self.path + PARTIAL, self.path)


def told_in(journals: Iterable[str]) -> dict[str, Numbers]:
    """What such journals have, by objects as flutejoin names them; of several the first counts.

    A journal that is damaged counts for nothing: it is made again.
    """
    found: dict[str, Numbers] = {}
    for path in journals:
        for key, numbers in Known(path, b"").numbers.items():
            found.setdefault(key.text(), numbers)
    return found


def told_by(instance: fdt.Instance) -> Iterator[tuple[int, Numbers]]:
    """The transmission information that an FDT Instance has, by TOI."""
    for toi, file in instance.files.items():
        numbers = file.information()
        if numbers and file.fec == fdt.NO_CODE and not fault_of(*numbers):
            yield toi, numbers
