"""The folder that a station, or whoever carries for it, fills: journals, and FDT Instances in fdt.

Journals are moved away, under the lock that flutejoin-gather and flutejoin-station take, so what
is written there next is only what is new. FDT Instances are read where they are, and are removed
once they are kept, unless the folder is a station's own.
"""
from __future__ import annotations

import collections
import contextlib
import fcntl
import os
import time
from typing import Iterator, NamedTuple, Optional

from flutejoin_tools.centre.pending import ENDING
from flutejoin_tools.common import file_names
from flutejoin_tools.common.file_names import address_in
from flutejoin_tools.common.shelves import Shelf, bring_to_disk, changed_at, move
from flutejoin_tools.fdt.instances import Document, Folder, datagrams_in, document_of
from flutejoin_tools.fdt.stems import NAME, REST, source_of

MOST_AT_ONCE = 512  # documents that are kept by one call
UNFINISHED = 60  # seconds in which a document may still be written


class Station(NamedTuple):
    """A station: its name, and the folder that is filled for it."""

    name: str
    folder: str
    is_own: bool = False  # whether the folder is the station's, and its documents stay
    journals: str = ""  # the folder of journals in it; empty if they are in the folder itself
    is_quiet: bool = False  # whether nothing need come of it
    ask: tuple[str, ...] = ()  # the command that asks it; empty if it is not asked

    def path(self) -> str:
        """The folder in which the station's journals come."""
        return os.path.join(self.folder, self.journals) if self.journals else self.folder


class Inbox:
    """What came of one station."""

    def __init__(self, station: Station, taken: str) -> None:
        """`taken` is the folder to which journals are moved."""
        self.station, self.taken = station, Shelf(taken)
        self.seen: dict[str, tuple[int, int, int]] = {}  # documents that were read
        self.left: list[str] = []  # what is no FDT Instance, since the last call
        self.changed: Optional[tuple[int, ...]] = None  # when the folders were, at the last look

    def has_news(self) -> bool:
        """Whether its folders changed since the last call, by their times: a quick look."""
        times = tuple(map(changed_at, (self.station.path(), self.documents_path())))
        has_changed, self.changed = times != self.changed, times
        return has_changed

    def documents_path(self) -> str:
        """The folder in which the station's FDT Instances come."""
        return os.path.join(self.station.folder, "fdt")

    def take(self) -> list[str]:
        """Moves what is there, and returns the paths of all that waits, the oldest first.

        Raises OSError.
        """
        os.makedirs(self.taken.path, exist_ok=True)
        with self.locked() as is_locked:
            for path in self.journals() if is_locked else ():
                stem = os.path.basename(path).partition(ENDING)[0]
                address = address_in(os.path.basename(path))
                kept = self.taken.next(file_names.stem(str(address)) if address else stem, ENDING)
                move(path, kept)
        return [os.path.join(self.taken.path, name[0]) for name in self.taken.names()]

    def journals(self) -> list[str]:
        """The journals that came, and are not taken yet."""
        folder = self.station.path()
        found = [name for name in os.listdir(folder) if name.endswith(ENDING)]
        paths = sorted(os.path.join(folder, name) for name in found)
        return [path for path in paths if os.path.isfile(path) and not os.path.islink(path)]

    @contextlib.contextmanager
    def locked(self) -> Iterator[bool]:
        """A context in which nobody else joins in the folder; False if somebody does.

        A station's own journals appear whole, and nobody writes them again.
        """
        folder = os.open(self.station.path(), os.O_RDONLY | os.O_DIRECTORY)
        try:
            try:
                if not self.station.is_own:
                    fcntl.flock(folder, fcntl.LOCK_EX | fcntl.LOCK_NB)
                yield True
            except BlockingIOError:
                self.changed = None  # it is looked at again
                yield False
        finally:
            os.close(folder)

    def take_documents(self, kept: Folder) -> int:
        """Keeps the FDT Instances that are new, and returns how many files were read."""
        folder = self.documents_path()
        try:
            names = sorted(os.listdir(folder))
        except FileNotFoundError:
            return 0
        new = [name for name in names if self.is_new(os.path.join(folder, name))]
        for begin in range(0, len(new), MOST_AT_ONCE):
            self.keep(folder, new[begin : begin + MOST_AT_ONCE], kept)
        for known in kept.known.values():
            known.write()
        return len(new)

    def is_new(self, path: str) -> bool:
        """Whether a document, or the datagrams of some, is there as it was never read."""
        if not (NAME.fullmatch(os.path.basename(path)) or path.endswith(REST)):
            return False
        try:
            return self.seen.get(path) != mark_of(path)
        except FileNotFoundError:
            return False

    def keep(self, folder: str, names: list[str], kept: Folder) -> None:
        """Keeps what some files of a folder of FDT Instances have."""
        found: dict[str, dict[str, Document]] = collections.defaultdict(dict)
        marks, newest = {}, 0.0
        for name in names:
            path, of = os.path.join(folder, name), NAME.fullmatch(name)
            with contextlib.suppress(FileNotFoundError):
                marks[path] = mark_of(path)
                when = min(time.time(), os.stat(path).st_mtime)
                newest = max(newest, when)
                if not of:
                    self.keep_rest(path, name[: -len(REST)], kept, when)
                    continue
                document = self.document(path, int(of[2]), int(of[3]))
                if document and source_of(of[1]) is not None:
                    found[of[1]][document.name(of[1])] = document
                elif time.time() > when + UNFINISHED:
                    self.left.append(path)
                else:
                    del marks[path]  # it is read again
        for stem, documents in found.items():
            kept.assembler(stem)
            kept.keep(stem, documents, newest)
        self.finish(marks)

    def finish(self, marks: dict[str, tuple[int, int, int]]) -> None:
        """After documents are kept: removes them, unless they changed meanwhile."""
        for path, mark in marks.items():
            if self.station.is_own or path.endswith(REST):
                self.seen[path] = mark
                continue
            with contextlib.suppress(FileNotFoundError):
                if mark_of(path) == mark:
                    os.unlink(path)

    @staticmethod
    def document(path: str, tsi: int, number: int) -> Document | None:
        """The FDT Instance in a file; None if it is none."""
        if os.path.islink(path):
            return None
        with open(path, "rb") as file:
            return document_of(tsi, number, file.read())

    @staticmethod
    def keep_rest(path: str, stem: str, kept: Folder, when: float) -> None:
        """Takes what a station has of FDT Instances that it has in part: another may have more."""
        if source_of(stem) is not None:
            kept.take(stem, datagrams_in(path), when)


def put_aside(path: str, aside: str, name: str) -> str:
    """Moves a journal at fault of what has this name away, and returns where it is."""
    os.makedirs(aside, exist_ok=True)
    to = Shelf(aside).next(name, ENDING)
    move(path, to)
    bring_to_disk(to)
    return to


def mark_of(path: str) -> tuple[int, int, int]:
    """What tells whether a file is as it was: its inode, length and time."""
    found = os.lstat(path)
    return found.st_ino, found.st_size, found.st_mtime_ns
