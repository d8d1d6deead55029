"""Looks up which FDT Instances describe an object, in a folder of documents that grows."""
from __future__ import annotations

import contextlib
import io
import os
from typing import Iterator, NamedTuple, Optional

from flutejoin_tools.common.gaps import Numbers
from flutejoin_tools.fdt import fdt
from flutejoin_tools.fdt.instances import Found, documents_in
from flutejoin_tools.formats.entries import FILE
from flutejoin_tools.formats.partition import fault_of
from flutejoin_tools.journals.holdings import Key

MOST_DESCRIPTIONS = 256  # of an object, those of the newest documents


class Description(NamedTuple):
    """A description of a file, and the newest document that has it."""

    rank: tuple[int, int]
    file: fdt.File
    document: Found


class Known(NamedTuple):
    """A document, as it was when it was read."""

    mark: tuple[int, int]
    expires: Optional[int]
    keys: frozenset[Key]


class Described:
    """The descriptions of all objects, by the documents in a folder."""

    def __init__(self, folder: str) -> None:
        self.folder = folder
        self.documents: dict[str, Known] = {}  # by their paths
        self.by_object: dict[Key, list[Description]] = {}

    def look(self) -> set[Key]:
        """Reads what is new in the folder, and returns the objects that it describes."""
        found: set[Key] = set()
        if not os.path.isdir(self.folder):
            return found
        seen = set()
        for each in documents_in(self.folder, lambda *_: True):
            seen.add(each.path)
            with contextlib.suppress(OSError):
                found |= self.read(each)
        for path in self.documents.keys() - seen:
            self.drop(path)
        return found

    def read(self, found: Found) -> frozenset[Key]:
        """Reads a document, unless it is known. One that is no FDT Instance describes nothing."""
        status = os.stat(found.path)
        mark, known = (status.st_ino, status.st_size), self.documents.get(found.path)
        if known and known.mark == mark:
            return frozenset()
        with open(found.path, "rb") as file:
            data = file.read(fdt.MOST_BYTES + 1)
        try:
            read = fdt.read_from(io.BytesIO(data), found.number, "", fdt.XmlBudget())
        except (fdt.Refused, fdt.Spent):
            self.documents[found.path] = Known(mark, None, frozenset())
            return frozenset()
        if known:
            self.drop(found.path)
        keys = {Key(found.source, found.tsi, FILE, toi): it for toi, it in read.files.items()}
        for key, listed in keys.items():
            self.add(key, Description(read.rank(), listed, found))
        self.documents[found.path] = Known(mark, read.expires, frozenset(keys))
        return self.documents[found.path].keys

    def add(self, key: Key, new: Description) -> None:
        """Adds a description. Of equal ones the newest stays; of too many the oldest goes."""
        every = self.by_object.setdefault(key, [])
        same = next((each for each in every if each.file == new.file), None)
        if same is not None and same.rank >= new.rank:
            return
        if same is not None:
            every.remove(same)
        every.append(new)
        every.sort(key=lambda each: each.rank, reverse=True)
        del every[MOST_DESCRIPTIONS:]

    def drop(self, path: str) -> None:
        """Forgets a document, and the descriptions that no newer one has."""
        known = self.documents.pop(path)
        for key in known.keys:
            left = [each for each in self.by_object.get(key, ()) if each.document.path != path]
            if left:
                self.by_object[key] = left
            else:
                self.by_object.pop(key, None)

    def documents_of(self, keys: set[Key]) -> Iterator[Found]:
        """The documents that describe some objects, each once, the newest first."""
        found = {
            each.document.path: each
            for key in keys
            for each in self.by_object.get(key, ())
        }
        for each in sorted(found.values(), key=lambda it: it.rank, reverse=True):
            yield each.document

    def file(self, key: Key) -> Optional[fdt.File]:
        """The newest description of an object."""
        return next((each.file for each in self.by_object.get(key, ())), None)

    def numbers(self, key: Key) -> list[Numbers]:
        """The transmission information that descriptions of an object have."""
        every = (each.file.information() for each in self.by_object.get(key, ()))
        return [each for each in every if each and not fault_of(*each)]

    def expires(self, key: Key) -> Optional[int]:
        """When the last description of an object expires; None if that is unknown."""
        known = [self.documents.get(each.document.path) for each in self.by_object.get(key, ())]
        return max((it.expires for it in known if it and it.expires is not None), default=None)
