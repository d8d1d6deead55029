"""What a station has on the disk, by sender, and what it removes so that it keeps to a bound."""
from __future__ import annotations

import collections
import heapq
import os
import time
from typing import Iterable, Iterator, NamedTuple, Optional

from flutejoin_tools.common.disk import blocks_of
from flutejoin_tools.common.file_names import PARTIAL
from flutejoin_tools.common.log import Log
from flutejoin_tools.common.shelves import NAME as TIMED
from flutejoin_tools.common.shelves import Shelf, entries_of, remove
from flutejoin_tools.fdt.stems import NAME as DOCUMENT
from flutejoin_tools.station.incoming import SHARE, sender_in

LOOK_EACH = 10  # seconds between two looks at the disk
MOST_SENDERS = 1 << 14  # that are kept with a bound, since each file also takes an inode
MOST_TOLD = 256  # senders in the status
SPARE = 16  # part of the bound that is made free at a time
GOING = "going"  # the folder of files that are removed at the next look


class Held:
    """What one sender has: paths of files, bytes of blocks, and when it sent last."""

    def __init__(self) -> None:
        self.paths: list[str] = []
        self.bytes = self.seen = 0

    def add(self, path: str, found: os.stat_result) -> None:
        self.paths.append(path)
        self.bytes += blocks_of(found)
        self.seen = max(self.seen, found.st_mtime_ns)


class Removed(NamedTuple):
    """How much was removed in this run."""

    senders: int = 0
    bytes: int = 0


class Count(NamedTuple):
    """The files of a folder."""

    files: int
    bytes: int


def below(value: int, most: int) -> int:
    """How much may stay of a value: some is made free at a time, if it is beyond its bound."""
    return most if value <= most else most - most // SPARE


def stem_of(name: str) -> Optional[str]:
    """The stem in a name in any folder of a station; None if it is not of a sender."""
    of = DOCUMENT.fullmatch(name)
    sender = sender_in(f"{of[1]}.fldg" if of else name)
    return sender.stem() if sender else None


class Room:
    """The disk that a folder takes.

    With a bound, the datagram files that are kept raw go first, then what was set aside, and then
    the senders: those with fewest bytes, and of about as many the one that was silent longest. The
    one that has most stays.
    """

    def __init__(
        self, folder: str, most: Optional[int], shelves: Iterable[Shelf], report: Log
    ) -> None:
        self.folder, self.most, self.report = folder, most, report
        self.shelves = list(shelves)
        self.held: dict[str, Held] = {}  # by stem
        self.counts: dict[str, Count] = {}  # by the name of a folder
        self.bytes, self.look_at = 0, float("-inf")
        self.removed = Removed()
        self.is_over = False

    def look(self) -> None:
        """Notes what is on the disk."""
        held: dict[str, Held] = collections.defaultdict(Held)
        counts: dict[str, list[int]] = collections.defaultdict(lambda: [0, 0])
        self.bytes = 0
        for path, found in self.walk(self.folder):
            folder, name = os.path.split(path)
            stem = stem_of(name)
            self.bytes += blocks_of(found)
            counts[os.path.basename(folder)][0] += 1
            counts[os.path.basename(folder)][1] += found.st_size
            if stem is not None:
                held[stem].add(path, found)
        self.held = dict(held)
        self.counts = {folder: Count(*count) for folder, count in counts.items()}

    def count(self, folder: str) -> Count:
        """How many files a folder had at the last look, and their bytes."""
        return self.counts.get(folder, Count(0, 0))

    def walk(self, folder: str) -> Iterator[tuple[str, os.stat_result]]:
        for at, _, names in os.walk(folder):
            for name in names:
                if name.endswith(PARTIAL):  # it takes the place of others, or goes
                    continue
                path = os.path.join(at, name)
                try:
                    yield path, os.lstat(path)
                except OSError:
                    pass

    def keep_at_times(self) -> None:
        """Looks every few seconds, less often if that takes long, and removes what is too much."""
        began = time.monotonic()
        if began < self.look_at:
            return
        self.clear()
        self.look()
        if self.most is not None:
            self.keep(self.most)
        now = time.monotonic()
        self.look_at = now + max(LOOK_EACH, SHARE * (now - began))

    def clear(self) -> None:
        going = os.path.join(self.folder, GOING)
        if os.path.isdir(going):
            for name in os.listdir(going):
                remove(os.path.join(going, name))

    def keep(self, most: int) -> None:
        """Removes what is over the bound, and reports it."""
        if self.bytes <= most and len(self.held) <= MOST_SENDERS:
            return
        gone, many = [], below(len(self.held), MOST_SENDERS)
        wanted = below(self.bytes, most)
        for shelf in self.shelves:
            size = shelf.size()
            count = shelf.trim(max(0, size - max(0, self.bytes - wanted)))
            if count:
                gone.append(f"{count} files of {shelf.path}")
                self.look()
        stems = self.remove_senders(wanted, many)
        if stems:
            named = ", ".join(stems[:3]) + ", .." * (len(stems) > 3)
            gone.append(f"all of {len(stems)} senders with few bytes ({named})")
        if gone:
            self.report.warn(f"more is kept than {most} bytes: removed {', '.join(gone)}")
        if self.bytes > most and not self.is_over:
            self.report.warn(f"more is kept than {most} bytes, of the sender that has most")
        self.is_over = self.bytes > most

    def remove_senders(self, wanted: int, many: int) -> list[str]:
        """Removes senders until the others have so many bytes and are so many.

        Returns their stems.
        """
        gone: list[str] = []
        for stem in self.order():
            if self.bytes <= wanted and len(self.held) <= many:
                break
            held = self.held.pop(stem)
            for path in held.paths:
                self.let_go(path)
            self.bytes -= held.bytes
            self.removed = Removed(self.removed.senders + 1, self.removed.bytes + held.bytes)
            gone.append(stem)
        return gone

    def order(self) -> list[str]:
        """The senders that may go, the first one first."""
        stems = sorted(self.held, key=lambda it: (self.held[it].bytes, self.held[it].seen))
        return sorted(
            stems[:-1], key=lambda it: (self.held[it].bytes.bit_length(), self.held[it].seen)
        )

    def let_go(self, path: str) -> None:
        """Removes a file. A receiver may have it open, and would write it anew if it were gone."""
        if os.path.dirname(path) != os.path.join(self.folder, "in"):
            remove(path)
            return
        going = os.path.join(self.folder, GOING)
        os.makedirs(going, exist_ok=True)
        try:
            os.replace(path, os.path.join(going, os.path.basename(path)))
        except FileNotFoundError:
            pass

    def journals(self) -> tuple[dict[str, dict[str, object]], int]:
        """The journals of the senders that have most, by their names, and how many others are."""
        most = heapq.nlargest(MOST_TOLD, self.held, key=lambda stem: self.held[stem].bytes)
        counts: collections.Counter[str] = collections.Counter()
        for path in sorted(path for stem in most for path in self.held[stem].paths):
            folder, name = os.path.split(path)
            if os.path.basename(folder) == "journals" and name.endswith(".journal"):
                of = TIMED.fullmatch(name)
                counts[of[1] if of else name.removesuffix(".journal")] += entries_of(path) or 0
        told: dict[str, dict[str, object]] = {of: {"entries": n} for of, n in counts.items()}
        return told, len(self.held) - len(most)
