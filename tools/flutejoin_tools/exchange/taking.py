"""Takes the answers of a station that a centre asked: first looks at all of one, then keeps it."""
from __future__ import annotations

import io
import os
import time
from typing import Callable, Container, NamedTuple, Optional

from flutejoin_tools.common.outputs import replace_file
from flutejoin_tools.exchange.exchange import (
    MOST_JOURNALS,
    NONE,
    Change,
    Part,
    Refused,
    parts_of,
    read_changes,
)
from flutejoin_tools.exchange.told import Journal, Told
from flutejoin_tools.fdt import fdt
from flutejoin_tools.fdt.instances import document_of
from flutejoin_tools.fdt.names import stem_of
from flutejoin_tools.fdt.stems import REST
from flutejoin_tools.formats.entries import FILE
from flutejoin_tools.formats.records import HEADER
from flutejoin_tools.journals.holdings import Key

MOST_PARTS = 1 << 17  # of an answer
PIECE = 1 << 20  # bytes that are read at once
OF_NEW = {"since", "status", "document", "rest", "journal", "gone", "mark", "end"}
OF_VALUES = {"values", "end"}
NEWS = "document", "rest", "journal", "gone"


class Placed(NamedTuple):
    """A part of an answer, and where in it its bytes are."""

    part: Part
    place: int


def read_parts(path: str, kinds: Container[str]) -> list[Placed]:
    """The parts of an answer, which has these kinds of them alone. Raises Refused and OSError."""
    found: list[Placed] = []
    with open(path, "rb") as file:
        for part in parts_of(file):
            if part.kind == "wait":
                continue
            if part.kind not in kinds or len(found) >= MOST_PARTS:
                raise Refused(f"the answer has what was not asked for: {part.kind}")
            found.append(Placed(part, file.tell()))
    return found


def waits_first(path: str) -> bool:
    """Whether an answer waited before it began."""
    with open(path, "rb") as file:
        return next(parts_of(file)).kind == "wait"


class Answer:
    """An answer that tells what is new."""

    def __init__(self, path: str, mark: Optional[str]) -> None:
        """Looks at all of it; it was asked for by a mark.

        Raises Refused, ReadFault, Cut and OSError.
        """
        self.path, self.parts = path, read_parts(path, OF_NEW)
        self.is_held = waits_first(path)  # whether the station answers once something is new
        self.has_news = any(it.part.kind in NEWS for it in self.parts)
        self.since, self.mark = self.one("since"), self.one("mark")
        if self.since not in (NONE, mark) or self.parts[0].part.kind != "since":
            raise Refused("the answer is to another request")
        self.journals = [journal_of(it.part) for it in self.parts if it.part.kind == "journal"]
        names = {it.id for it in self.journals}
        if len(names) < len(self.journals) or len(names) > MOST_JOURNALS:
            raise Refused("the answer has a journal twice, or too many")
        with open(path, "rb") as file:
            for part, place in self.parts:
                if part.kind == "journal":
                    file.seek(place)
                    for _ in read_changes(file, part.size, bytes.fromhex(part.words[1])):
                        pass

    def one(self, kind: str) -> str:
        """The word of a part that is there once."""
        found = [it.part.words[0] for it in self.parts if it.part.kind == kind]
        if len(found) != 1:
            raise Refused(f"the answer has {len(found)} lines of {kind}")
        return found[0]

    def data(self, of: Placed) -> bytes:
        """The bytes of a part."""
        with open(self.path, "rb") as file:
            file.seek(of.place)
            return file.read(of.part.size)

    def of_kind(self, kind: str) -> list[Placed]:
        return [each for each in self.parts if each.part.kind == kind]

    def keep_status(self, folder: str) -> None:
        """Writes the station's status, if the answer has it."""
        for each in self.of_kind("status"):
            replace_file(os.path.join(folder, "status.json"), self.data(each))

    def keep_documents(self, folder: str, since: float) -> set[Key]:
        """Writes FDT Instances to a folder, from where a centre takes them.

        Those that expired and came last before a time are left out: returns what they describe.
        """
        os.makedirs(folder, exist_ok=True)
        over: set[Key] = set()
        for each in self.of_kind("document"):
            source, tsi, number, when = each.part.words[:4]
            document = document_of(int(tsi), int(number), self.data(each))
            if document is None or int(tsi) >= 1 << 48 or int(number) >= 1 << 20:
                continue
            read = fdt.read_from(io.BytesIO(document.xml), int(number), "", fdt.XmlBudget())
            if max(int(when), read.expires or 0) < since:
                session = bytes.fromhex(source), int(tsi), FILE
                over.update(Key(*session, toi) for toi in read.files)
                continue
            path = os.path.join(folder, document.name(stem_of(bytes.fromhex(source))))
            replace_file(path, document.xml, min(time.time(), int(when)))
        for each in self.of_kind("rest"):
            data = self.data(each)
            if data.startswith(HEADER):
                stem = stem_of(bytes.fromhex(each.part.words[0]))
                replace_file(os.path.join(folder, stem + REST), data)
        return over

    def keep_journals(
        self, told: Told, is_settled: Callable[[Change], bool], tend: Callable[[], None]
    ) -> set[Key]:
        """Keeps what is told of journals, and returns of which objects anything changed."""
        changed: set[Key] = set()
        told.leave({it.part.words[0] for it in self.of_kind("gone")})
        if self.since == NONE:
            told.clear()
        with open(self.path, "rb") as file:
            for each in self.of_kind("journal"):
                tend()
                file.seek(each.place)
                if each.part.size:
                    journal = journal_of(each.part)
                    changed |= told.take(journal, file, each.part.size, is_settled)
        told.put_mark(None if self.mark == NONE else self.mark)
        return changed


def journal_of(part: Part) -> Journal:
    """The journal that a part of an answer names."""
    return Journal(part.words[0], bytes.fromhex(part.words[1]), part.words[2])


def values_in(path: str) -> list[Placed]:
    """The journals of an answer to what was wanted. Raises Refused and OSError."""
    return [each for each in read_parts(path, OF_VALUES) if each.part.kind == "values"]


def copy_part(path: str, of: Placed, to: str) -> None:
    """Writes the bytes of a part to a file of their own."""
    with open(path, "rb") as file, open(to, "wb") as out:
        file.seek(of.place)
        left = of.part.size
        while left:
            piece = file.read(min(PIECE, left))
            if not piece:
                raise Refused("the answer is cut")
            out.write(piece)
            left -= len(piece)
