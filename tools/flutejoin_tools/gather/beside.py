"""What stands beside the journals that a user names: further generations, other values, documents.

A station and flutejoin-gather keep them so (docs/OPERATING.md); all are candidates, since the MD5
of a file decides which values were sent.
"""
from __future__ import annotations

import os
from typing import Iterable, Iterator, NamedTuple

from flutejoin_tools.common import file_names
from flutejoin_tools.common.file_names import address_in
from flutejoin_tools.gather.generations import kept_in
from flutejoin_tools.gather.others import MOST_OTHERS

ASIDE, DOCUMENTS = "aside", "fdt"


class Beside(NamedTuple):
    journals: list[str]
    folders: list[str]  # of documents


def beside(journals: Iterable[str]) -> Beside:
    """What stands beside these journals, without them."""
    named = [*journals]
    known = {os.path.realpath(path) for path in named}
    found = Beside([], [])
    for path in named:
        folder = os.path.dirname(path) or "."
        for each in siblings(path, folder):
            if os.path.realpath(each) not in known and os.path.isfile(each):
                known.add(os.path.realpath(each))
                found.journals.append(each)
        for each in os.path.join(folder, DOCUMENTS), os.path.join(folder, os.pardir, DOCUMENTS):
            if os.path.realpath(each) not in known and os.path.isdir(each):
                known.add(os.path.realpath(each))
                found.folders.append(each)
    return found


def known_beside(journals: Iterable[str]) -> Iterator[str]:
    """The journals of transmission information in folders of documents, of all senders."""
    for folder in beside(journals).folders:
        for name in sorted(os.listdir(folder)):
            if name.endswith(".journal") and address_in(name):
                yield os.path.join(folder, name)


def is_aside(path: str) -> bool:
    """Whether a journal has values that differ from what is kept."""
    return os.path.basename(os.path.dirname(os.path.abspath(path))) == ASIDE


def is_of_documents(path: str) -> bool:
    """Whether a journal is that of a folder of documents (`known`)."""
    return os.path.basename(os.path.dirname(os.path.abspath(path))) == DOCUMENTS


def siblings(path: str, folder: str) -> Iterator[str]:
    """The paths of other journals of the same sender, by its name."""
    address = address_in(os.path.basename(path)) if path.endswith(".journal") else None
    if address is None:
        return
    stem = file_names.stem(str(address))
    for paths in kept_in(folder, stem).values():
        yield from paths
    for at in os.path.join(folder, ASIDE), os.path.join(folder, os.pardir, ASIDE):
        for number in range(1, MOST_OTHERS + 1):
            yield os.path.join(at, f"{stem}.v{number}.journal")
