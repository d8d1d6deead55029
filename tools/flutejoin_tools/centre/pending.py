"""What a station brought of objects that are not delivered: journals, and which symbols they have.

Journals are joined by what agrees (`gathering`), so that a sender that uses a TOI again
spoils nothing. What was delivered and comes again is left out: each of its symbols has the sum of
one that was delivered.
"""
from __future__ import annotations

import errno
import itertools
import os
import shutil
from typing import AbstractSet, BinaryIO, Callable, Container, Iterable, Iterator, NamedTuple
from typing import Optional

from flutejoin_tools.centre.symbols import Contents, Symbols
from flutejoin_tools.common.file_names import PARTIAL
from flutejoin_tools.common.log import Log
from flutejoin_tools.common.program import Program
from flutejoin_tools.common.shelves import begin_file, bring_to_disk, entries_of, remove
from flutejoin_tools.formats.entries import FILE, HEADER, INFORMATION_CONFLICT, SYMBOL_CONFLICT
from flutejoin_tools.formats.partition import Partition
from flutejoin_tools.formats.records import ReadFault
from flutejoin_tools.gather.gathering import Gathering
from flutejoin_tools.gather.generations import Contents as Found
from flutejoin_tools.gather.layers import Piece
from flutejoin_tools.journals import holdings
from flutejoin_tools.journals.holdings import Copy, Key, key_of
from flutejoin_tools.journals.sums import Sums, sums_of

ENDING = ".journal"
# The contents of an object that were delivered, with their serial numbers
ContentsOf = Callable[[Key], "list[tuple[int, Contents]]"]


class Came(NamedTuple):
    """What a journal has of files: new symbols of objects, and what was delivered already."""

    objects: dict[Key, Symbols]
    again: dict[int, float]  # the share of an object's symbols, by serial numbers
    disputed: set[Key]  # of the objects those in which something is in conflict
    has_instances: bool  # whether FDT Instances are there too


def objects_in(file: BinaryIO) -> Iterator[tuple[bytes, Iterator[tuple[int, bytes, memoryview]]]]:
    """Yields the files in a journal, and the entries of each."""
    for raw, entries in itertools.groupby(holdings.entries(file), lambda entry: entry[1]):
        if raw[holdings.TAG] == FILE:
            yield raw, entries


class Sieve:
    """Finds the objects of a journal that were not delivered."""

    def __init__(self, contents_of: ContentsOf) -> None:
        self.contents_of = contents_of
        self.came = Came({}, {}, set(), False)
        self.key, self.symbols = Key(b"", 0, FILE, 0), Symbols()
        # Of the object's delivered contents those that have all of its entries so far
        self.left: list[tuple[int, Contents, Partition]] = []

    def begin(self, raw: bytes) -> Symbols:
        """Begins an object, and returns its symbols, to which its entries are to be added."""
        if self.left:
            self.end()
        self.key, self.symbols = key_of(raw), Symbols()
        delivered = self.contents_of(self.key)
        if delivered:
            self.left = [(serial, it, Partition(*it.numbers)) for serial, it in delivered]
        else:
            self.came.objects[self.key] = self.symbols
        return self.symbols

    def compare(self, kind: int, value: bytes) -> None:
        """Compares an entry with what was delivered of its object."""
        self.left = [of for of in self.left if of[1].has_one(of[2], kind, value)]
        if not self.left:
            self.came.objects[self.key] = self.symbols

    def end(self) -> None:
        """Ends an object: notes how much of what was delivered of it came again."""
        for serial, _, partition in self.left:
            self.came.again[serial] = share_of(self.symbols, partition)
        self.left = []


def share_of(symbols: Symbols, partition: Partition) -> float:
    """How much of an object is there, in percent, rounded down to tenths."""
    if not partition.symbols:
        return 100.0
    return 1000 * symbols.held(partition) // partition.symbols / 10


def sift(path: str, contents_of: ContentsOf) -> Came:
    """What of a journal was not delivered. Raises OSError, ReadFault and Cut."""
    sieve, last, has_instances = Sieve(contents_of), b"", False
    symbols: Optional[Symbols] = None  # of the object, unless it is an FDT Instance
    with open(path, "rb", buffering=0) as file:
        for kind, raw, more in holdings.entries(file):
            if raw != last:
                last = raw
                symbols = sieve.begin(raw) if raw[holdings.TAG] == FILE else None
                has_instances = has_instances or not symbols
            if not symbols:
                continue
            symbols.add(kind, more)
            if sieve.left:
                sieve.compare(kind, bytes(more))
            if kind in (INFORMATION_CONFLICT, SYMBOL_CONFLICT):
                sieve.came.disputed.add(sieve.key)  # nothing in conflict was delivered
    sieve.end()
    return sieve.came._replace(has_instances=has_instances)


def journals_in(folder: str) -> list[str]:
    """The paths of the journals that wait in a folder, and of other values of symbols."""
    folders = folder, os.path.join(folder, "aside")
    return [
        os.path.join(each, name)
        for each in folders
        if os.path.isdir(each)
        for name in sorted(os.listdir(each))
        if name.endswith(ENDING)
    ]


def copies(journals: Iterable[str], keys: Container[Key], folder: str) -> list[str]:
    """Writes to a folder what each journal has of some objects, a journal each, if anything."""
    made = []
    for path in journals:
        out_path = os.path.join(folder, f"{len(os.listdir(folder))}{ENDING}")
        if write_some(path, keys, out_path):
            made.append(out_path)
        else:
            os.unlink(out_path)
    return made


def links(journals: Iterable[str], folder: str) -> list[str]:
    """Gives journals further names in a folder: none is ever written in place. Where the file
    system has no such names, they are copied."""
    made = []
    for path in journals:
        made.append(os.path.join(folder, f"{len(os.listdir(folder))}{ENDING}"))
        try:
            os.link(path, made[-1])
        except OSError:
            shutil.copyfile(path, made[-1])
    return made


class Pending:
    """The journals of one station."""

    def __init__(self, folder: str, program: Program, report: Log) -> None:
        self.folder, self.program, self.report = folder, program, report
        self.objects: dict[Key, Symbols] = {}
        self.known: dict[Key, list[Sums]] = {}  # what the journals have of some, until they change
        os.makedirs(folder, exist_ok=True)
        for name in os.listdir(folder):
            if name.endswith(PARTIAL):
                os.unlink(os.path.join(folder, name))

    def journals(self) -> list[str]:
        """The paths of the journals that wait."""
        return journals_in(self.folder)

    def read(self) -> None:
        """Reads which symbols the journals have."""
        self.objects.clear()
        self.known.clear()
        for path in self.journals():
            with open(path, "rb", buffering=0) as file:
                for raw, entries in objects_in(file):
                    symbols = self.objects.setdefault(key_of(raw), Symbols())
                    for kind, _, more in entries:
                        symbols.add(kind, bytes(more[:12]))

    def sums(self, keys: AbstractSet[Key]) -> dict[Key, list[Sums]]:
        """What each journal has of some objects, as sums. Raises OSError, and records.ReadFault or
        Cut."""
        wanted = (self.objects.keys() & keys) - self.known.keys()
        new: dict[Key, list[Sums]] = {}
        for path in self.journals() if wanted else ():
            for key, sums in sums_of(path, wanted.__contains__):
                new.setdefault(key, []).append(sums)
        self.known.update(new)
        return {key: self.known[key] for key in keys if key in self.known}

    def take(self, path: str, contents_of: ContentsOf) -> Came:
        """Joins what a journal has that was not delivered, and returns what that is.

        It is on the disk then. Raises Failed, OSError, and records.ReadFault or Cut.
        """
        self.known.clear()
        new = os.path.join(self.folder, f"new{PARTIAL}")
        try:
            # Its own copy: who brought the journal may write it once more.
            with open(path, "rb") as file, begin_file(new) as out:
                shutil.copyfileobj(file, out, holdings.PIECE)
            came = sift(new, contents_of)
            if came.objects:
                self.join(new, came)
        finally:
            remove(new)
        for key, symbols in came.objects.items():
            self.objects[key] = symbols.beside(self.objects.get(key))
        return came

    def join(self, new: str, came: Came) -> None:
        """Joins what came of a journal."""
        if came.again or came.has_instances:
            write_some(new, came.objects, new + PARTIAL)
            os.rename(new + PARTIAL, new)
        gathering = Gathering(self.folder, self.program, self.report)
        try:
            piece = Piece(new, frozenset(), Found(came.disputed, set()))
            gathering.gather_files(piece, {key.source for key in came.objects})
        finally:
            gathering.end()

    def copy(self, keys: AbstractSet[Key], folder: str) -> list[str]:
        """Brings to a folder a copy of what each journal has of some objects, if anything."""
        if self.objects.keys() <= keys:
            return links(self.journals(), folder)
        return copies(self.journals(), keys, folder)

    def remove(self, keys: Container[Key], contents_of: ContentsOf) -> None:
        """Takes what was delivered of some objects out of the journals.

        Their other contents stay. Each journal is replaced in one step.
        """
        left: dict[Key, Symbols] = {}
        self.known.clear()
        for path in self.journals():
            came = sift(path, lambda key: contents_of(key) if key in keys else [])
            if came.again:
                write_some(path, came.objects, path + PARTIAL)
                self.replace(path, len(came.objects))
            for key, symbols in came.objects.items():
                left[key] = symbols.beside(left.get(key))
        self.objects = left

    def forget(self, keys: AbstractSet[Key]) -> None:
        """Takes some objects out of the journals, whatever they are: by one run of flutejoin for
        each journal that has any. Raises OSError, and records.ReadFault or Cut."""
        gone = self.objects.keys() & keys
        if not gone:
            return
        journals = self.journals()
        if len(gone) == len(self.objects):
            for path in journals:
                os.unlink(path)
        else:
            self.forget_listed([it for it in journals if len(journals) == 1 or has(it, gone)], gone)
        for key in gone:
            del self.objects[key]
            self.known.pop(key, None)

    def forget_listed(self, journals: Iterable[str], keys: Iterable[Key]) -> None:
        """Has flutejoin forget objects in each journal, and removes one that is empty then."""
        lines = os.path.join(self.folder, f"list{PARTIAL}")
        try:
            with begin_file(lines) as out:
                out.writelines(f"{key.text()}\n".encode() for key in sorted(keys))
            for path in journals:
                words = ["forget", "--any-size", "-o", path, "--list", lines, path]
                answer = self.program.run(words)
                if answer.status == 1:
                    raise ReadFault(answer.told)
                if answer.status:
                    raise OSError(errno.EIO, answer.told, path)
                if not entries_of(path):
                    os.unlink(path)
        finally:
            remove(lines)

    @staticmethod
    def replace(path: str, count: int) -> None:
        """Puts what is left in the place of a journal, or removes that if nothing is."""
        if not count:
            os.unlink(path)
            os.unlink(path + PARTIAL)
            return
        descriptor = os.open(path + PARTIAL, os.O_RDONLY)
        try:
            os.fsync(descriptor)
        finally:
            os.close(descriptor)
        os.rename(path + PARTIAL, path)
        bring_to_disk(path)


def chosen(file: BinaryIO, keys: Container[Key]) -> Iterator[tuple[int, bytes, memoryview]]:
    """The entries of some objects in a journal."""
    last, is_chosen = b"", False
    for kind, raw, more in holdings.entries(file):
        if raw != last:
            last, is_chosen = raw, key_of(raw) in keys
        if is_chosen:
            yield kind, raw, more


def write_some(journal: str, keys: Container[Key], path: str) -> int:
    """Writes what a journal has of some objects to another, and returns how many entries."""
    with open(journal, "rb", buffering=0) as file, begin_file(path) as out:
        copy = Copy(out)
        for kind, raw, more in chosen(file, keys):
            copy.add(kind, raw, more)
        copy.finish()
    return copy.count


def has(journal: str, keys: Container[Key]) -> bool:
    """Whether a journal has any of some objects."""
    with open(journal, "rb", buffering=0) as file:
        return next(chosen(file, keys), None) is not None


def only(journal: str, keys: Container[Key]) -> Optional[str]:
    """Writes beside a journal what it has of some objects; None if it has nothing."""
    path = f"{journal}.kept"
    return path if write_some(journal, keys, path) else None


def empty_in(folder: str) -> str:
    """Makes a journal with nothing in it: of objects of no byte there may be no packet."""
    path = os.path.join(folder, "empty.journal")
    with open(path, "wb") as file:
        file.write(HEADER + b"\xff" + bytes(8))
    return path
