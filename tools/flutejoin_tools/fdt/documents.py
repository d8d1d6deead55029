"""FDT Instances of journals, put together as bytes, and read in the order of their age.

They are put together here, and not by flutejoin, since it brings each file to the disk that it
extracts, and what anybody sends may be many Instances. What is wrong with them does no harm: the
MD5 of a file decides whether its description counts.
"""
from __future__ import annotations

import collections
import contextlib
import hashlib
import io
from typing import (
    Callable,
    Container,
    Dict,
    Iterator,
    List,
    NamedTuple,
    Optional,
    Protocol,
    Sequence,
    Tuple,
)

from flutejoin_tools.common import gaps
from flutejoin_tools.fdt import fdt
from flutejoin_tools.fdt.instances import Document as Whole
from flutejoin_tools.fdt.instances import InstanceAssembler, digest_of, documents_in, rests_in
from flutejoin_tools.fdt.parts import MOST_LOOKED
from flutejoin_tools.formats.entries import FDT_INSTANCE, information_of
from flutejoin_tools.formats.partition import Buffer, Partition, fault_of
from flutejoin_tools.journals.holdings import Choice, Key
from flutejoin_tools.journals.merged import Found, merged
from flutejoin_tools.journals.resolving import Budget, Resolving, Sink, Wanted
from flutejoin_tools.journals.states import State

MOST_DOCUMENTS = 1 << 16  # whose places are kept
MOST_UNREAD = 1 << 16  # states of Instances that are not whole
MOST_DISPUTED = 1 << 12  # of these, that are put together of several journals
MOST_HASHED = 1 << 28  # bytes of all ways to put disputed Instances together


class Text(Sink):
    """The bytes of an FDT Instance, as far as one may be read."""

    def __init__(self, budget: fdt.XmlBudget, parts: Sequence[Buffer] = (), size: int = 0) -> None:
        self.budget, self.parts, self.size = budget, [*parts], size

    def update(self, data: Buffer) -> None:
        if self.size <= fdt.MOST_BYTES:
            self.parts.append(data)
            self.size += len(data)

    def copy(self) -> Text:
        return Text(self.budget, self.parts, self.size)

    def is_right(self) -> bool:
        """Whether it is the XML of an FDT Instance: else it is mixed of several."""
        try:
            fdt.read_from(io.BytesIO(b"".join(self.parts)), None, "", self.budget)
        except (fdt.Refused, fdt.Spent):
            return False
        return True


class Assembly:
    """Puts an FDT Instance together of what one journal has of it."""

    def __init__(self) -> None:
        self.text, self.words = Text(fdt.XmlBudget()), gaps.NO_INFORMATION
        self.partition: Optional[Partition] = None
        self.right = self.disputed = self.misfits = 0

    def take(self, found: Found) -> None:
        """Adds what the journal has at the next address."""
        ((_, value),) = found.values
        if not found.symbol:
            if not value:
                self.words = gaps.CONFLICTING_INFORMATION
            elif not fault_of(*information_of(value)):
                self.partition = Partition(*information_of(value))
            return
        place = self.partition.place(found.symbol) if self.partition else None
        if self.partition is None or place is None:
            return
        piece = self.partition.piece(place, value) if value else None
        if piece is None:
            self.disputed += not value
            self.misfits += bool(value)
        else:
            self.right += 1
            self.text.update(piece)

    def state(self) -> State:
        """How much of the FDT Instance the journal has, as `flutejoin gaps` would print it."""
        if self.partition is None:
            return State(self.words, 0, 0, self.words == gaps.CONFLICTING_INFORMATION)
        if self.right == self.partition.symbols:
            return State(gaps.WHOLE)
        wanted = self.partition.symbols - self.right
        is_disputed = self.disputed + self.misfits > 0
        return State(gaps.PARTIAL, wanted, self.disputed, is_disputed)


class Document(NamedTuple):
    """An FDT Instance that is whole, and where its bytes are."""

    rank: tuple[int, int]  # as far as its first bytes tell
    key: Key
    name: str
    place: int
    size: int
    path: str  # of a document in a folder; else empty


# The texts and paths of documents, by their objects and digests; they differ in Expires alone
Kept = Dict[Tuple[Key, str], List[Tuple[bytes, str]]]


class Wanting(Protocol):
    """What tells whether a session is wanted."""

    def has(self, key: Key) -> bool: ...


def put_document(found: Kept, source: bytes, document: Whole) -> None:
    """Adds a document to `found`, among those that differ from it in Expires alone."""
    key = Key(source, document.tsi, FDT_INSTANCE, document.number)
    found.setdefault((key, digest_of(document.xml)), []).append((document.xml, ""))


class Documents:
    """The FDT Instances that are whole, in a file."""

    def __init__(self, path: str, journals: Sequence[str], choice: Choice) -> None:
        """Their bytes go to a new file, `path`. Of the journals those objects are read that the
        function `choice` accepts."""
        self.file = open(path, "w+b")
        self.journals = journals
        self.choice: Choice = lambda key: key.tag == FDT_INSTANCE and choice(key)
        self.known: list[Document] = []
        self.unread: dict[Key, State] = {}
        self.digests: set[tuple[Key, str]] = set()  # of documents that are known
        self.left = 0  # how many there was no room for

    def read(self, journal: str) -> None:
        """Takes the FDT Instances of the journal of all, and notes which are not whole."""
        for key, _, found in merged([journal], self.choice):
            assembly = Assembly()
            for each in found:
                if len(each.values) == 1:
                    assembly.take(each)
            state = assembly.state()
            if state.is_whole():
                self.add(key, str(key.number), assembly.text)
            elif len(self.unread) < MOST_UNREAD:
                self.unread[key] = state
            else:
                self.left += 1

    def add(self, key: Key, name: str, text: Text, path: str = "") -> None:
        """Writes a document behind the others. Of too many the oldest are dropped."""
        place, looked = self.file.seek(0, io.SEEK_END), b""
        if len(self.digests) < 2 * MOST_DOCUMENTS:
            self.digests.add((key, digest_of(b"".join(text.parts))))
        for part in text.parts:
            self.file.write(part)
            looked += part[: MOST_LOOKED - len(looked)]
        rank = fdt.likely_rank(looked, key.number)
        self.known.append(Document(rank, key, name, place, text.size, path))
        if len(self.known) == 2 * MOST_DOCUMENTS:
            self.known.sort(reverse=True)
            self.left += MOST_DOCUMENTS
            del self.known[MOST_DOCUMENTS:]

    def read_folders(
        self, folders: Sequence[str], sources: Container[bytes], wanted: Wanting
    ) -> None:
        """Takes the documents of these senders in folders, and what is whole of several parts."""
        found: Kept = {}
        assemblers: dict[bytes, InstanceAssembler] = {}

        def is_wanted(source: bytes, tsi: int) -> bool:
            return source in sources and wanted.has(Key(source, tsi, FDT_INSTANCE, 0))

        for folder in folders:
            for each in documents_in(folder, is_wanted):
                key = Key(each.source, each.tsi, FDT_INSTANCE, each.number)
                with contextlib.suppress(OSError), open(each.path, "rb") as file:
                    found.setdefault((key, each.digest), []).append((file.read(), each.path))
            for source, datagrams in rests_in(folder):
                if source not in sources:
                    continue
                assembler = assemblers.setdefault(source, InstanceAssembler())
                for datagram in datagrams:
                    self.take_whole(found, source, assembler, datagram)
        for source, assembler in assemblers.items():
            for document in assembler.finish():
                put_document(found, source, document)
        self.add_found(found)

    @staticmethod
    def take_whole(
        found: Kept, source: bytes, assembler: InstanceAssembler, datagram: bytes
    ) -> None:
        """Adds to `found` the documents that are whole with this datagram."""
        for document in assembler.take(datagram):
            put_document(found, source, document)

    def add_found(self, found: Kept) -> None:
        """Adds documents, each once. Those of one ID that differ are named by their bytes too."""
        counts = collections.Counter(key for key, _ in found)
        counts.update(document.key for document in self.known)
        for (key, digest), texts in found.items():
            if (key, digest) in self.digests or not self.choice(key):
                continue
            self.digests.add((key, digest))
            xml, path = max(texts, key=lambda of: fdt.likely_rank(of[0][:MOST_LOOKED], key.number))
            name = str(key.number) if counts[key] == 1 else f"{key.number}-{digest[:8]}"
            self.add(key, name, Text(fdt.XmlBudget(), [xml], len(xml)), path)
            self.unread.pop(key, None)

    def resolve(self, others: Sequence[str], name_of: Callable[[str], str]) -> None:
        """Puts Instances in conflict together of what single journals and other files have.

        Each way that gives XML is taken.
        """
        disputed = [key for key, state in self.unread.items() if state.is_disputed]
        disputed = disputed[-MOST_DISPUTED:]
        if not disputed or len(self.journals) == 1 and not others:
            return
        budget = fdt.XmlBudget()
        wanted = {key: Wanted(lambda: Text(budget), ()) for key in disputed}
        resolving = Resolving(self.journals, wanted, Budget(MOST_HASHED))
        resolving.compare(others)
        seen = set()
        ways = [resolving.by_journal] + [resolving.by_combination] * bool(others)
        for key, found in (each for way in ways for each in way()):
            for way, text in found:
                assert isinstance(text, Text)
                digest = hashlib.sha256(b"".join(text.parts)).digest()
                if (key, digest) in seen or not text.is_right():
                    continue
                seen.add((key, digest))
                journal = name_of(self.journals[way.order[0]]) if way.order else "combined"
                self.add(key, f"{key.number} of {journal}", text)
                self.unread.pop(key, None)

    def newest_first(self) -> Iterator[tuple[Document, io.BytesIO]]:
        """Yields each document with its bytes."""
        for document in sorted(self.known, key=lambda it: it.rank, reverse=True):
            self.file.seek(document.place)
            yield document, io.BytesIO(self.file.read(document.size))

    def close(self) -> None:
        self.file.close()
