"""Finds what a station has, and whether it is new since a mark, by names, lengths and times.
"""
from __future__ import annotations

import hashlib
import os
import re
from typing import Iterator, NamedTuple

from flutejoin_tools.common.addresses import sender_bytes
from flutejoin_tools.common.file_names import address_in
from flutejoin_tools.exchange.exchange import ASIDE, KEPT, MOST_DOCUMENT
from flutejoin_tools.exchange.marks import Mark
from flutejoin_tools.fdt.stems import NAME as DOCUMENT
from flutejoin_tools.fdt.stems import REST
from flutejoin_tools.formats.entries import FILE
from flutejoin_tools.journals.holdings import Key

FOLDERS = {"journals": KEPT, "recent": KEPT, "aside": ASIDE}
DOCUMENTS = "fdt"
OTHERS = re.compile(r".+\.v\d{1,2}\.journal", re.ASCII)  # in aside: what is no damaged journal
ENDING = ".journal"
DAY = 86400  # after which one that is still received is told of again


class Journal(NamedTuple):
    """A journal of one sender."""

    id: str
    path: str
    source: bytes
    kind: str

    def has(self, key: Key) -> bool:
        return key.tag == FILE and key.source == self.source

    def size(self) -> int:
        return os.path.getsize(self.path) if os.path.exists(self.path) else 0

    def identity(self) -> list[int]:
        """Numbers that change if the journal is replaced."""
        found = os.stat(self.path)
        return [found.st_ino, found.st_size, found.st_mtime_ns]


def journals_in(folder: str) -> Iterator[Journal]:
    """Yields the journals of a station."""
    for part, kind in FOLDERS.items():
        at = os.path.join(folder, part)
        for name in sorted(os.listdir(at)) if os.path.isdir(at) else ():
            path, address = os.path.join(at, name), address_in(name)
            if address is None or not name.endswith(ENDING):
                continue
            if kind == ASIDE and not OTHERS.fullmatch(name):
                continue
            if os.path.isfile(path) and not os.path.islink(path):
                number = hashlib.sha256(f"{part}/{name}".encode()).hexdigest()[:16]
                yield Journal(number, path, sender_bytes(str(address)), kind)


def documents_since(old: Mark, folder: str) -> Iterator[tuple[int, str, list[int], bool]]:
    """Yields the FDT Instances of a station, the newest first: when each changed, its name, what
    identifies it, and whether it is to be told since a mark. Those that are too long are not."""
    folder = os.path.join(folder, DOCUMENTS)
    names = os.listdir(folder) if os.path.isdir(folder) else []
    names = [name for name in names if DOCUMENT.fullmatch(name) or name.endswith(REST)]
    found = sorted(((mtime_of(os.path.join(folder, name)), name) for name in names))
    for when, name in reversed(found):
        identity, known = identity_of(os.path.join(folder, name), when), old.documents.get(name)
        is_told = bool(known and known[:2] == identity[:2] and when < known[2] + DAY * 10**9)
        if is_told or identity[1] <= MOST_DOCUMENT:
            yield when, name, identity, not is_told


def has_news(old: Mark, folder: str) -> bool:
    """Whether a station has something that was not told until a mark."""
    try:
        now = {each.id: each.identity() for each in journals_in(folder)}
    except FileNotFoundError:  # one is joined into another one now
        return True
    is_same = now.keys() == old.journals.keys() and all(map(old.is_of, now, now.values()))
    return not is_same or any(is_new for _, _, _, is_new in documents_since(old, folder))


def mtime_of(path: str) -> int:
    try:
        return os.stat(path).st_mtime_ns
    except FileNotFoundError:
        return 0


def identity_of(path: str, when: int) -> list[int]:
    """Numbers that change if a document is replaced or renewed."""
    try:
        found = os.lstat(path)
    except FileNotFoundError:
        return [0, 0, when]
    return [found.st_ino, found.st_size, when]
