"""FDT Instances as documents: put together of datagrams, and kept as files that are named by their
bytes.

They stay apart from journals, since a sender may renew one under its FDT Instance ID, and one that
is started anew uses its IDs again: in a journal both would be in conflict. As files named by what
they say none contradicts another, and folders of several stations are united by copying. What is
wrong in them does no harm, since each file is checked against its own MD5.
"""
from __future__ import annotations

import contextlib
import hashlib
import io
import os
import re
from typing import Callable, Iterable, Iterator, NamedTuple, Optional, Sequence, Tuple

from flutejoin_tools.common.file_names import PARTIAL
from flutejoin_tools.common.gaps import Numbers
from flutejoin_tools.common.places import bring_to_disk as sync_all
from flutejoin_tools.fdt import fdt
from flutejoin_tools.fdt.known import Known, told_by
from flutejoin_tools.fdt.parts import Assembly
from flutejoin_tools.fdt.stems import NAME, REST, source_of
from flutejoin_tools.formats.packets import TOI_PLACES, ZEROS, numbers_of
from flutejoin_tools.formats.reading import packet_of
from flutejoin_tools.formats.records import HEADER, LENGTH, Buffer, Cut, ReadFault, Records

MOST_OPEN = 1 << 11  # FDT Instances that are put together at a time, of one sender
MOST_OPEN_BYTES = 1 << 23  # bytes of their symbols
MOST_NEW = 1 << 13  # documents of one sender that are written at a time: anybody may make them up
MOST_SYNCED = 16  # files that are brought to the disk one by one
MOST_KEPT = 1 << 15  # documents of one sender that are kept, those that came last
WEEK = 7 * 86400  # seconds
# Of an FDT Instance (RFC 6726, section 3.4.2), and of Cache-Control in it
EXPIRY = re.compile(rb"""(\bExpires(?:\s*=\s*["']|>)\s*)\d{1,10}""")
FIRST = "user.flutejoin.first"  # the extended attribute that has when a document was first received


def may_be_of_instance(payload: Buffer) -> bool:
    """Whether a datagram has TOI 0, if it is a FLUTE packet: a quick test."""
    if len(payload) < 2:
        return False
    return bytes(payload[TOI_PLACES[(payload[0] & 15) << 8 | payload[1]]]) in ZEROS


def digest_of(xml: bytes) -> str:
    """By what a document is named: the same for those that differ in Expires alone."""
    return hashlib.sha256(EXPIRY.sub(rb"\1", xml)).hexdigest()[:16]


class Document(NamedTuple):
    """An FDT Instance that is whole: its session, its ID, its XML, and what this tells."""

    tsi: int
    number: int
    xml: bytes
    told: Tuple[Tuple[int, Numbers], ...]  # transmission information of objects, by TOI

    def name(self, stem: str) -> str:
        """The file's name, for a sender whose names begin with this stem."""
        return f"{stem}-{self.tsi}-{self.number}-{digest_of(self.xml)}.xml"


def document_of(tsi: int, number: int, data: bytes) -> Optional[Document]:
    """The document of an FDT Instance of these bytes, decoded if it was compressed; None if it is
    none."""
    try:
        read = fdt.read_from(io.BytesIO(data), None, "", fdt.XmlBudget())
        xml = b"".join(fdt.pieces(io.BytesIO(data)))
    except (fdt.Refused, fdt.Spent):
        return None
    return Document(tsi, number, xml, tuple(told_by(read)))


class InstanceAssembler:
    """The FDT Instances of one sender, while they are put together."""

    def __init__(self) -> None:
        # By session, ID and transmission information: a sender may use an ID again
        self.open: dict[tuple[int, int, bytes], Assembly] = {}
        self.last: dict[tuple[int, int], bytes] = {}  # transmission information that came last
        self.size = 0

    def take(self, datagram: bytes, when: Optional[float] = None) -> Iterator[Document]:
        """Adds a datagram, and yields the documents that are whole before it.

        `when` it came is unknown of what a run before left.
        """
        packet = packet_of(datagram)
        if packet is None or packet.instance is None or not packet.symbol:
            return
        instance = packet.tsi, packet.instance
        information = packet.information or self.last.get(instance)
        if information is None or numbers_of(information)[0] > fdt.MOST_BYTES:
            return
        self.last[instance] = information
        key = (*instance, information)
        assembly = self.open.pop(key, None) or Assembly(information)
        self.open[key] = assembly  # it is the newest now
        assembly.came = when
        before = assembly.size
        for data in assembly.take(packet, datagram):
            yield from documents(*instance, data)
        self.size += assembly.size - before
        yield from self.make_room()

    def make_room(self) -> Iterator[Document]:
        """Ends the oldest, since whoever can send chooses how many there are."""
        while len(self.open) > MOST_OPEN or self.size > MOST_OPEN_BYTES and len(self.open) > 1:
            key = next(iter(self.open))
            for data in self.drop(key).end():
                yield from documents(*key[:2], data)

    def finish(self) -> Iterator[Document]:
        """Yields the documents that are whole now."""
        for (tsi, number, _), assembly in self.open.items():
            for data in assembly.end():
                yield from documents(tsi, number, data)

    def let_go(self, since: float) -> None:
        """Drops those that expired, and came last, before a time.

        One of which neither is known came before those that follow it: it goes once one of them
        goes.
        """
        has_gone = False
        for key in reversed([*self.open]):
            over_at = self.open[key].over_at()
            is_over = has_gone if over_at is None else over_at < since
            if is_over:
                has_gone = True
                self.drop(key)

    def drop(self, key: tuple[int, int, bytes]) -> Assembly:
        """Forgets an Instance that is open, and returns what came of it."""
        assembly = self.open.pop(key)
        self.size -= assembly.size
        if self.last.get(key[:2]) == key[2]:  # that of another one of its ID stays
            del self.last[key[:2]]
        return assembly

    def rest(self) -> Iterator[bytes]:
        """Yields the datagrams of those that are not whole."""
        for assembly in self.open.values():
            if not assembly.is_whole():
                yield from assembly.datagrams.values()


def documents(tsi: int, number: int, data: bytes) -> Iterator[Document]:
    """Yields the document in bytes, if they are the XML of an FDT Instance."""
    document = document_of(tsi, number, data)
    if document:
        yield document


class Folder:
    """The folder `fdt`: the documents of senders, and of what is not whole the datagrams."""

    def __init__(self, path: str, sessions: Sequence[int] = (), seconds: float = WEEK) -> None:
        """Of these sessions alone, if any are named. What is not whole is kept for so many seconds
        after it expired, and came last."""
        self.path, self.sessions, self.seconds = path, sessions, seconds
        self.assemblers: dict[str, InstanceAssembler] = {}
        self.counts: dict[str, int] = {}  # documents of a sender
        self.known: dict[str, Known] = {}
        self.left = 0  # documents that were left out

    def assembler(self, stem: str) -> InstanceAssembler:
        """What is open of a sender. After a restart it is what the run before left."""
        if stem not in self.assemblers:
            self.assemblers[stem] = assembler = InstanceAssembler()
            for datagram in datagrams_in(os.path.join(self.path, stem + REST)):
                for _ in assembler.take(datagram):
                    pass
        return self.assemblers[stem]

    def known_of(self, stem: str) -> Known:
        """The journal of transmission information that only the FDT Instances of a sender have."""
        if stem not in self.known:
            path = os.path.join(self.path, stem + ".journal")
            self.known[stem] = Known(path, source_of(stem) or bytes(16))
        return self.known[stem]

    def take(self, stem: str, datagrams: Iterable[Buffer], when: float) -> int:
        """Keeps the FDT Instances of these datagrams of a sender, and returns how many are new.

        They are whole and on the disk when it returns.
        """
        found: dict[str, Document] = {}
        assembler = self.assembler(stem)
        of_instances = (bytes(it) for it in datagrams if may_be_of_instance(it))
        has_come = False
        for datagram in of_instances:
            has_come = True
            for document in assembler.take(datagram, when):
                found[document.name(stem)] = document
        if not has_come:
            return 0
        for document in assembler.finish():
            found[document.name(stem)] = document
        return self.keep(stem, found, when)

    def keep(self, stem: str, found: dict[str, Document], when: float) -> int:
        """Writes documents of a sender that are new or newer, and removes its oldest beyond a
        number. Returns how many are new."""
        os.makedirs(self.path, exist_ok=True)
        new, changed = 0, []
        for name, document in found.items():
            if self.sessions and document.tsi not in self.sessions:
                continue
            is_known = os.path.lexists(os.path.join(self.path, name))
            if not is_known and new >= MOST_NEW:
                self.left += 1
                continue
            new += not is_known
            if self.has_changed(name, document.xml, when):
                changed.append(os.path.join(self.path, name))
            self.known_of(stem).add(document.tsi, document.xml, document.told)
        self.bring_to_disk(changed)
        self.assemblers[stem].let_go(when - self.seconds)
        self.put_rest(stem)
        self.counts[stem] = self.counts.get(stem, MOST_KEPT) + new
        if self.counts[stem] > MOST_KEPT:
            self.trim(stem)
        return new

    def has_changed(self, name: str, xml: bytes, when: float) -> bool:
        """Writes a document beside its place, or notes that it came again, unchanged.

        One that differs in Expires alone has the same name, and takes the place of the other.
        """
        path = os.path.join(self.path, name)
        first = b"%d" % when
        try:
            with open(path, "rb") as file:
                is_same = file.read(len(xml) + 1) == xml
            if is_same:
                os.utime(path, (when, when))
                return False
            first = first_received(path) or first
        except FileNotFoundError:
            pass
        with open(path + PARTIAL, "wb") as file:
            file.write(xml)
            file.flush()
            with contextlib.suppress(OSError, AttributeError):
                os.setxattr(file.fileno(), FIRST, first)
        os.utime(path + PARTIAL, (when, when))
        return True

    def bring_to_disk(self, changed: list[str]) -> None:
        """Gives documents their names once they are on the disk: many of them by one call."""
        folder = os.open(self.path, os.O_RDONLY | os.O_DIRECTORY)
        try:
            if len(changed) > MOST_SYNCED:
                sync_all(folder)
            for path in changed:
                if len(changed) <= MOST_SYNCED:
                    bring_to_disk(path + PARTIAL)
                os.rename(path + PARTIAL, path)
            os.fsync(folder)
        finally:
            os.close(folder)

    def put_rest(self, stem: str) -> None:
        """Keeps the datagrams of those that are not whole, for the next run and for others."""
        path = os.path.join(self.path, stem + REST)
        rest = b"".join(LENGTH.pack(len(it)) + it for it in self.assemblers[stem].rest())
        if not rest:
            with contextlib.suppress(FileNotFoundError):
                os.unlink(path)
            return
        with contextlib.suppress(OSError), open(path, "rb") as file:
            if file.read() == HEADER + rest:
                return
        with open(path + PARTIAL, "wb") as file:
            file.write(HEADER + rest)
            file.flush()
            os.fsync(file.fileno())
        os.rename(path + PARTIAL, path)
        bring_to_disk(self.path)

    def trim(self, stem: str) -> None:
        """Removes the documents of a sender that came last the longest ago, if they are many."""
        paths = [
            os.path.join(self.path, name)
            for name in os.listdir(self.path)
            if (match := NAME.fullmatch(name)) and match[1] == stem
        ]
        self.counts[stem] = len(paths)
        if len(paths) > MOST_KEPT:
            paths.sort(key=lambda path: os.stat(path).st_mtime)
            for path in paths[: len(paths) - MOST_KEPT + MOST_KEPT // 16]:
                os.unlink(path)
                self.counts[stem] -= 1

    def forget(self, stems: Iterable[str]) -> None:
        """Drops what is open of all senders but these: of the others nothing more is to be read."""
        for stem in (self.assemblers.keys() | self.known.keys()) - set(stems):
            self.assemblers.pop(stem, None)
            self.known.pop(stem, None)


def first_received(path: str) -> bytes:
    """When a document was first received, in seconds since 1970; empty if that is unknown."""
    try:
        return os.getxattr(path, FIRST)
    except (OSError, AttributeError):
        return b""


def datagrams_in(path: str) -> Iterator[bytes]:
    """The datagrams of a datagram file, as far as it is there and whole."""
    try:
        with open(path, "rb") as file:
            yield from Records(file)
    except (OSError, ReadFault, Cut):
        return


def bring_to_disk(path: str) -> None:
    """Has the system bring a file's bytes to the disk."""
    descriptor = os.open(path, os.O_RDONLY)
    try:
        os.fsync(descriptor)
    finally:
        os.close(descriptor)


class Found(NamedTuple):
    """A document in a folder, by its name."""

    path: str
    source: bytes
    tsi: int
    number: int
    digest: str


def documents_in(folder: str, choice: Callable[[bytes, int], bool]) -> Iterator[Found]:
    """Yields the documents in a folder, of the sessions that are chosen."""
    for name in sorted(os.listdir(folder)):
        match = NAME.fullmatch(name)
        source = source_of(match[1]) if match else None
        if match and source is not None and choice(source, int(match[2])):
            yield Found(os.path.join(folder, name), source, int(match[2]), int(match[3]), match[4])


def rests_in(folder: str) -> Iterator[tuple[bytes, Iterator[bytes]]]:
    """Yields each sender of whom a folder has FDT Instances in part, and their datagrams."""
    for name in sorted(os.listdir(folder)):
        source = source_of(name[: -len(REST)]) if name.endswith(REST) else None
        if source is not None:
            yield source, datagrams_in(os.path.join(folder, name))
