"""Keeps values aside that differ from what is kept: a file's MD5 may show that they were sent."""
from __future__ import annotations

import os
from typing import Callable

from flutejoin_tools.common.file_names import PARTIAL
from flutejoin_tools.common.shelves import begin_file, bring_to_disk
from flutejoin_tools.formats.entries import INFORMATION, SYMBOL
from flutejoin_tools.journals import holdings
from flutejoin_tools.journals.holdings import Copy
from flutejoin_tools.journals.merged import merged

MOST_OTHERS = 8  # values of a symbol that are kept aside
MOST_OTHER_BYTES = 1 << 26  # of one journal of these


class Others:
    """Values that differ from what is kept: journals of a sender, each with another value of a
    symbol."""

    def __init__(self, path_of: Callable[[int], str]) -> None:
        self.path_of = path_of
        self.dropped = 0  # values for which there was no room

    def has(self, new: str) -> bool:
        """Whether each value of a journal is kept already."""
        paths = [self.path_of(number) for number in range(1, MOST_OTHERS + 1)]
        journals = [*filter(os.path.exists, paths), new]
        last = len(journals) - 1
        for _, _, of in merged(journals, lambda _: True):
            for each in of:
                kept = {value for number, value in each.values if number != last}
                if any(number == last and value not in kept for number, value in each.values):
                    return False
        return True

    def take(self, new: str) -> None:
        """Adds the values of a journal, each to the first journal that has no other one."""
        rest = new
        for number in range(1, MOST_OTHERS + 1):
            path = self.path_of(number)
            if os.path.exists(path) and os.path.getsize(path) > MOST_OTHER_BYTES:
                break
            left, count = self.add(path, rest)
            if rest != new:
                os.unlink(rest)
            rest = left
            if not count:
                os.unlink(rest)
                return
        with open(rest, "rb", buffering=0) as file:
            self.dropped += sum(1 for _ in holdings.entries(file))
        if rest != new:
            os.unlink(rest)

    @staticmethod
    def add(path: str, new: str) -> tuple[str, int]:
        """Joins what does not differ. Returns a journal of the rest, and its entries."""
        left = f"{path}.left{PARTIAL}"
        journals = [*filter(os.path.exists, (path,)), new]
        with begin_file(path + PARTIAL) as out, begin_file(left) as others:
            kept, rest = Copy(out), Copy(others)
            for _, raw, of in merged(journals, lambda _: True):
                for each in of:
                    values = each.distinct()
                    for copy, value in zip((kept, rest), values):
                        add_entry(copy, raw, each.symbol, value)
            kept.finish()
            rest.finish()
        os.rename(path + PARTIAL, path)
        bring_to_disk(path)
        return left, rest.count


def add_entry(copy: Copy, raw: bytes, symbol: bytes, value: bytes) -> None:
    """Adds a value of a symbol, or transmission information, if there is no symbol."""
    if symbol:
        copy.add(SYMBOL, raw, symbol + len(value).to_bytes(2, "big") + value)
    else:
        copy.add(INFORMATION, raw, value)
