"""What a station told by its last answers: sums of each journal, and which FDT Instances.

Each answer has a mark, a folder of that name, and the next request names it: so only what is new
since then is told. It can all be made again: without it, everything is told once more.
"""
from __future__ import annotations

import contextlib
import hashlib
import json
import os
import re
import secrets
import shutil
import tempfile
import time
from typing import Any, Iterable, Iterator, List, Optional

from flutejoin_tools.common.file_names import PARTIAL
from flutejoin_tools.common.shelves import size_of
from flutejoin_tools.formats.entries import information_of
from flutejoin_tools.journals import sums
from flutejoin_tools.journals.holdings import Key
from flutejoin_tools.journals.sums import NO_INFORMATION

MOST_MARKS = 8  # the newest ones: a centre asks by the last that it has, and there may be several
NAME = re.compile(r"[0-9a-f]{32}", re.ASCII)
INDEX = "index.json"
PIECE = 1 << 20  # bytes that are read at once
SHARE = 4  # an answer begins so many times later than the one before took

# What tells whether a file is the one that was told of: numbers, as its inode and length; of a
# journal also the digest of its sums
Identity = List[Any]


class Mark:
    """What was told by one answer, and those before it."""

    def __init__(self, folder: Optional[str], name: Optional[str] = None) -> None:
        self.folder, self.name = folder, name
        self.journals: dict[str, Identity] = {}
        self.documents: dict[str, Identity] = {}
        self.made_at = self.took = 0.0  # when, and the seconds of a processor that it took

    def path(self, journal: str) -> str:
        """The file of what was told of a journal."""
        return os.path.join(self.folder or "", f"{journal}.sums")

    def items(self, journal: str) -> Iterator[sums.Item]:
        """Yields what was told of a journal; nothing if it never was."""
        if journal in self.journals:
            with open(self.path(journal), "rb") as file:
                yield from sums.read(file)

    def size(self, journal: str) -> int:
        """The bytes of what was told of a journal."""
        return size_of(self.path(journal)) if journal in self.journals else 0

    def objects(self, journal: str, most: int) -> set[Key]:
        """The objects of a journal that have at most so many bytes, as far as it is known."""
        found: set[Key] = set()
        for key, of in self.items(journal):
            is_known = of.information not in (NO_INFORMATION, sums.DISPUTED)
            if not is_known or information_of(of.information)[0] <= most:
                found.add(key)
        return found

    def read(self) -> bool:
        """Reads it. Returns whether it is there, and whole."""
        try:
            with open(os.path.join(self.folder or "", INDEX), encoding="utf-8") as file:
                told = json.load(file)
            self.journals, self.documents = dict(told["journals"]), dict(told["documents"])
            self.made_at, self.took = map(float, told.get("made", (0, 0)))
            return True
        except (OSError, ValueError, KeyError, TypeError):
            return False

    def is_of(self, journal: str, identity: Identity) -> bool:
        """Whether a journal is the one that was told of."""
        return self.journals.get(journal, [])[: len(identity)] == identity

    def rest(self) -> float:
        """For how many seconds the next answer is not made, so that answers take a share alone."""
        return self.made_at + SHARE * self.took - time.time()

    def check(self, journal: str) -> None:
        """Forgets what was told of a journal if its sums are damaged."""
        known = self.journals.get(journal)
        if known and known[-1] != digest_of(self.path(journal)):
            del self.journals[journal]

    def add(self, journal: str, identity: Identity, items: Iterable[sums.Item]) -> None:
        """Notes what is told of a journal."""
        with open(self.path(journal), "xb") as file:
            sums.write(file, items)
        self.journals[journal] = [*identity, digest_of(self.path(journal))]

    def keep(self, journal: str, old: Mark) -> None:
        """Takes over what was told before."""
        try:
            os.link(old.path(journal), self.path(journal))
        except OSError:  # another disk, or a file system without hard links
            shutil.copyfile(old.path(journal), self.path(journal))
        self.journals[journal] = old.journals[journal]

    def write(self) -> None:
        """Writes the index: which journals and documents were told of."""
        made = time.time(), time.process_time()
        told: dict[str, Any] = {"made": made, "journals": self.journals}
        told["documents"] = self.documents
        with open(os.path.join(self.folder or "", INDEX), "w", encoding="utf-8") as file:
            json.dump(told, file)


def digest_of(path: str) -> str:
    digest = hashlib.sha256()
    with contextlib.suppress(FileNotFoundError), open(path, "rb") as file:
        while piece := file.read(PIECE):
            digest.update(piece)
    return digest.hexdigest()


class Marks:
    """The folder of marks. If it can't be written, nothing is remembered."""

    def __init__(self, folder: str) -> None:
        self.folder = folder

    def of(self, name: Optional[str]) -> Mark:
        """What was told until a mark; nothing if that is unknown."""
        if name and NAME.fullmatch(name):
            found = Mark(os.path.join(self.folder, name), name)
            if found.read():
                with contextlib.suppress(OSError):
                    os.utime(os.path.join(self.folder, name))  # it is in use
                return found
        return Mark(None)

    @contextlib.contextmanager
    def begin(self) -> Iterator[Mark]:
        """A mark that is being made: `keep` it at the end."""
        name: Optional[str] = secrets.token_hex(16)
        path = os.path.join(self.folder, f"{name}{PARTIAL}")
        try:
            os.makedirs(self.folder, mode=0o700, exist_ok=True)
            self.trim()
            os.mkdir(path)
        except OSError:
            name, path = None, tempfile.mkdtemp(prefix="flutejoin-answer.")
        try:
            yield Mark(path, name)
        finally:
            shutil.rmtree(path, ignore_errors=True)

    def keep(self, made: Mark) -> Optional[str]:
        """Gives a mark its name, and returns that; None if it can't be kept."""
        if not made.name or not made.folder:
            return None
        try:
            made.write()
            os.rename(made.folder, os.path.join(self.folder, made.name))
        except OSError:
            return None
        return made.name

    def trim(self) -> None:
        """Removes the oldest marks, and what killed runs left a while ago."""
        with os.scandir(self.folder) as entries:
            found = sorted(((it.stat().st_mtime_ns, it.path) for it in entries), reverse=True)
        for _, path in found[MOST_MARKS:]:
            shutil.rmtree(path, ignore_errors=True)
