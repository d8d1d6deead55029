"""Keeps what a centre has beside its files to a bound: `most` of its settings."""
from __future__ import annotations

import os
from typing import Iterator

from flutejoin_tools.centre.delivering import Deliverer
from flutejoin_tools.centre.house import KEPT, House, names_in
from flutejoin_tools.common.disk import blocks_of
from flutejoin_tools.common.service_log import ServiceLog
from flutejoin_tools.common.shelves import remove
from flutejoin_tools.journals.holdings import Key
from flutejoin_tools.station.room import below

EACH = 60  # seconds between two looks
ENTRY = 40  # bytes of a symbol's entry in a journal, beside the symbol
SYMBOL = 1400  # bytes of a symbol, where that is unknown


class Bound:
    """What goes first: journals of what was delivered, those that would go soonest; then what is
    set aside, the oldest; then what waits of the objects of which nothing came for longest.

    What was delivered, and that it was, stays, as does what is on its way.
    """

    def __init__(self, deliverer: Deliverer, house: House, report: ServiceLog) -> None:
        self.deliverer, self.house, self.report = deliverer, house, report
        self.next, self.bytes, self.is_over = float("-inf"), 0, False

    def keep_at_times(self) -> None:
        """Keeps to the bound, if there is one, once in so many seconds."""
        now, most = self.deliverer.clock(), self.deliverer.settings.most
        if most is not None and now >= self.next:
            self.next = now + EACH
            self.keep(most)

    def keep(self, most: int) -> None:
        """Lets go of what is over the bound, and tells it. Raises OSError."""
        self.bytes = sum(size for _, size in self.held(self.deliverer.folder))
        if self.bytes <= most:
            self.is_over = False
            return
        wanted, gone = below(self.bytes, most), []
        for what, paths in ("kept", self.soonest()), ("aside", self.oldest()):
            count = self.remove(paths, wanted)
            if count:
                gone.append(f"{count} journals of {what}")
        keys = self.silent(wanted)
        if keys:
            self.house.let_go(keys)
            gone.append(f"what waited of {len(keys)} objects of which nothing came for longest")
            self.bytes = sum(size for _, size in self.held(self.deliverer.folder))
        if gone:
            self.report.warn(f"more is kept than {most} bytes: let go of {', '.join(gone)}")
        if self.bytes > most and not self.is_over:
            self.report.warn(f"more is kept than {most} bytes, of which nothing can be let go")
        self.is_over = self.bytes > most

    def held(self, folder: str) -> Iterator[tuple[str, int]]:
        """The files of a folder, and the bytes of their blocks; not those that are delivered."""
        for at, folders, names in os.walk(folder):
            files = self.deliverer.settings.files
            folders[:] = [it for it in folders if os.path.join(at, it) != files]
            for name in names:
                try:
                    found = os.lstat(os.path.join(at, name))
                except FileNotFoundError:
                    continue
                yield os.path.join(at, name), blocks_of(found)

    def soonest(self) -> list[str]:
        """Journals of what was delivered: their names begin with the time at which they go."""
        names = [it for it in names_in(self.deliverer.at("kept")) if KEPT.fullmatch(it)]
        names.sort(key=lambda it: [*map(int, it.split(".")[:2])])
        return [self.deliverer.at("kept", name) for name in names]

    def oldest(self) -> list[str]:
        """What was set aside, the oldest first."""
        folder = self.deliverer.at("aside")
        paths = [path for path, _ in self.held(folder)]
        return sorted(paths, key=lambda it: os.lstat(it).st_mtime_ns)

    def remove(self, paths: list[str], wanted: int) -> int:
        """Removes files, the first ones first, until so many bytes are left; returns how many."""
        count = 0
        for path in paths:
            if self.bytes <= wanted:
                break
            self.bytes -= blocks_of(os.lstat(path))
            remove(path)
            count += 1
        return count

    def silent(self, wanted: int) -> frozenset[Key]:
        """The objects that go, so that about so many bytes are left."""
        chosen, left = set(), self.bytes
        for key in self.deliverer.ledger.longest_silent():
            if left <= wanted:
                break
            left -= self.size_of(key)
            chosen.add(key)
        return frozenset(chosen)

    def size_of(self, key: Key) -> int:
        """About how many bytes of journals an object takes, at all stations."""
        numbers = self.deliverer.described.numbers(key)
        size = max((symbol for _, symbol, _ in numbers), default=SYMBOL) + ENTRY
        every = [it.pending.objects for it in self.deliverer.arrivals]
        waiting = [objects[key] for objects in every if key in objects]
        return size * sum(it.count() for it in waiting)
