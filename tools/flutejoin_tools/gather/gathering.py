"""Joins datagram files and journals into a folder by what agrees (`generations`)."""
from __future__ import annotations

import collections
import contextlib
import functools
import os
import time
from typing import AbstractSet, Iterator, Optional

from flutejoin_tools.common import gaps
from flutejoin_tools.common.file_names import PARTIAL, name_of
from flutejoin_tools.common.joining import Fed
from flutejoin_tools.common.log import Log
from flutejoin_tools.common.opening import opened
from flutejoin_tools.common.program import FULL, Answer, Failed, Program
from flutejoin_tools.common.shelves import Shelf, begin_file, entries_of, remove
from flutejoin_tools.fdt.documents import Assembly
from flutejoin_tools.fdt.instances import WEEK, Document, Folder, document_of
from flutejoin_tools.fdt.names import stem_of
from flutejoin_tools.fdt.stems import NAME as DOCUMENT
from flutejoin_tools.fdt.stems import source_of
from flutejoin_tools.formats.entries import FILE, Entries
from flutejoin_tools.formats.records import HEADER, ReadFault, Records
from flutejoin_tools.gather.delivered import NAME, Delivered
from flutejoin_tools.gather.generations import Generations, Taken, generation
from flutejoin_tools.gather.layers import Piece, pieces_of
from flutejoin_tools.gather.others import Others
from flutejoin_tools.gather.rows import MOST_GENERATIONS
from flutejoin_tools.journals import holdings
from flutejoin_tools.journals.holdings import SENDER, TAG, Copy
from flutejoin_tools.journals.merged import merged

IPV4 = bytes(10) + b"\xff\xff"  # in front of the address of an IPv4 sender


def told_of(taken: Taken, stem: str) -> Iterator[str]:
    """Yields lines about what did not agree."""
    if taken.others:
        several = "s" if taken.others > 1 else ""
        yield f"{stem}: {taken.others} symbol{several} came with other values, kept aside"
    for of, told in (
        (taken.begun, "came with other contents, kept apart"),
        (taken.full, "came with ever other contents, kept aside"),
        (taken.gone, "came with ever other contents: what was delivered first of them goes"),
    ):
        if of.count:
            several = "s" if of.count > 1 else ""
            named = ", ".join(f"session {key.tsi} object {key.number}" for key in of.some)
            more = ", .." * (of.count > len(of.some))
            yield f"{stem}: {of.count} object{several} {told} ({named}{more})"


class Gathering:
    """A folder of journals: it gathers datagram files, journals and FDT Instances."""

    def __init__(
        self,
        folder: str,
        program: Program,
        report: Log,
        source: Optional[bytes] = None,
        one: Optional[bytes] = None,
        delivered: Optional[str] = None,
        seconds: float = WEEK,
    ) -> None:
        """FDT Instances that are not whole are kept for so many seconds after they expired."""
        self.folder, self.program, self.report = folder, program, report
        self.source, self.one = source, one
        self.delivered = Delivered(delivered or os.path.join(folder, NAME), program)
        self.documents = Folder(os.path.join(folder, "fdt"), seconds=seconds)
        self.made: set[str] = set()  # temporary files
        self.stems: set[str] = set()

    def temporary(self, name: str) -> str:
        """The path of a file that this run makes."""
        path = os.path.join(self.folder, f"{name}{PARTIAL}")
        self.made.add(path)
        return path

    def end(self) -> None:
        for known in self.documents.known.values():
            known.write()
        for path in self.made:
            remove(path)

    def generations(self, stem: str) -> Generations:
        return Generations(
            lambda number: os.path.join(self.folder, generation(stem, number)),
            lambda path: self.put_aside(stem, path),
            self.program.compare,
            self.delivered.generations,
        )

    def put_aside(self, stem: str, path: str) -> None:
        aside = os.path.join(self.folder, "aside")
        os.makedirs(aside, exist_ok=True)
        others = Others(lambda number: os.path.join(aside, f"{stem}.v{number}.journal"))
        others.take(path)
        if others.dropped:
            told = f"{others.dropped} values are left out, as too many differ"
            self.report.fault(1, f"{stem}: {told}")

    def take(self, path: str) -> None:
        """Takes an input. Raises Failed, OSError, and records.ReadFault or Cut."""
        of = DOCUMENT.fullmatch(os.path.basename(path))
        if of:
            self.gather_document(path, of[1], int(of[2]), int(of[3]))
            return
        with opened(path) as file:
            magic = file.read(4)
        if magic == Records.magic:
            self.gather_datagrams(path)
        elif magic == Entries.magic:
            self.gather_journal(path)
        else:
            raise ReadFault("is neither a datagram file nor a journal")

    def gather_document(self, path: str, stem: str, tsi: int, number: int) -> None:
        source = source_of(stem)
        with open(path, "rb") as file:
            document = document_of(tsi, number, file.read())
        if source is None or document is None:
            raise ReadFault("is no FDT Instance")
        when = min(time.time(), os.stat(path).st_mtime)
        self.keep_documents(self.one or source, [document], when)

    def keep_documents(self, source: bytes, documents: list[Document], when: float) -> None:
        stem = stem_of(source)
        self.documents.assembler(stem)
        self.documents.keep(stem, {it.name(stem): it for it in documents}, when)

    def gather_datagrams(self, path: str) -> None:
        """Gathers the FDT Instances and the files of a datagram file."""
        named = name_of(os.path.basename(path))
        source = self.one or self.source or (sender_bytes(named.address.packed) if named else None)
        if source is None:
            raise ReadFault("its name has no sender: --source gives it")
        with open(path, "rb") as file:
            reader = Records(file)
            for _ in reader:
                pass
        fed, new = Fed(path, len(HEADER), reader.end), self.temporary(f"{stem_of(source)}.new")
        when = min(time.time(), os.stat(path).st_mtime)
        self.documents.take(stem_of(source), fed.datagrams(), when)
        self.checked(self.join_datagrams(source, new, path))

        join = functools.partial(self.join_layer, source)
        known = self.documents.known_of(stem_of(source)).numbers
        for piece in pieces_of(new, join, fed.datagrams, known):
            self.bring(source, piece)

    def join_layer(self, source: bytes, out: str, layer: str) -> Answer:
        self.made.add(out)
        return self.join_datagrams(source, out, layer)

    def join_datagrams(self, source: bytes, out: str, path: str) -> Answer:
        return self.program.join(source, out, [path], without_fdt=True)

    @staticmethod
    def checked(answer: Answer) -> None:
        if answer.status:
            raise Failed(answer)

    def gather_journal(self, path: str) -> None:
        """Gathers the files of a journal, of each sender apart, and its FDT Instances."""
        self.checked(self.program.run([*gaps.CHECK, argument(path)]))
        self.gather_instances(path)
        self.bring_files(path)

    def gather_files(self, piece: Piece, sources: AbstractSet[bytes]) -> None:
        """Gathers the files of a journal that has files of these senders, and no FDT Instance.
        Raises as `take`."""
        self.checked(self.program.run([*gaps.CHECK, argument(piece.path)]))
        if len(sources) > 1 or self.one:
            self.bring_files(piece.path)
        else:
            for source in sources:
                self.bring(source, piece)

    def bring_files(self, path: str) -> None:
        for source, of_one in self.by_source(path):
            self.bring(source, Piece(of_one))

    def gather_instances(self, path: str) -> None:
        """Keeps the FDT Instances that a journal has whole."""
        found: dict[bytes, list[Document]] = collections.defaultdict(list)
        for key, _, of in merged([path], lambda key: key.tag != FILE):
            assembly = Assembly()
            for each in of:
                assembly.take(each)
            if not assembly.state().is_whole():
                continue
            document = document_of(key.tsi, key.number, b"".join(assembly.text.parts))
            if document:
                found[self.one or key.source].append(document)
        for source, documents in found.items():
            self.keep_documents(source, documents, min(time.time(), os.stat(path).st_mtime))

    def by_source(self, path: str) -> Iterator[tuple[bytes, str]]:
        """Yields journals of the files of each sender in a journal."""
        with open(path, "rb", buffering=0) as file, contextlib.ExitStack() as stack:
            before: Optional[bytes] = None
            copy: Optional[Copy] = None
            for kind, raw, more in holdings.entries(file):
                if raw[TAG] != FILE:
                    continue
                if raw[:SENDER] != before:
                    if copy and before is not None:
                        yield from self.finished(copy, before)
                    before = raw[:SENDER]
                    new = self.temporary(f"{stem_of(self.one or before)}.new")
                    copy = Copy(stack.enter_context(begin_file(new)))
                assert copy
                copy.add(kind, (self.one or before) + raw[SENDER:], more)
            if copy and before is not None:
                yield from self.finished(copy, before)

    def finished(self, copy: Copy, source: bytes) -> Iterator[tuple[bytes, str]]:
        copy.finish()
        copy.out.close()
        yield self.one or source, copy.out.name

    def bring(self, source: bytes, piece: Piece) -> None:
        """Joins files of a sender by what agrees, and puts away a journal that is full."""
        stem = stem_of(source)

        def join(out: str, part: str) -> Answer:
            return self.program.join(source, out, [*filter(os.path.exists, [out]), part])

        known = self.documents.known_of(stem)
        of = piece.path, join, piece.without, known.numbers, piece.found
        taken = self.generations(stem).take(*of)
        for _ in range(MOST_GENERATIONS):
            if taken.answer.told != FULL or not os.path.exists(taken.path):
                break
            self.put_away(stem, taken.path)
            taken = self.generations(stem).take(*of)
        self.checked(taken.answer)
        self.stems.add(stem)
        known.leave_out(taken.informed)
        for line in told_of(taken, stem):
            self.report.warn(line)

    def put_away(self, stem: str, path: str) -> None:
        """Keeps a journal that can't grow any more under another name, and lets another begin."""
        kept = Shelf(self.folder).take(path, stem)
        self.report.warn(f"{path}: {FULL}: it is kept as {kept}, and another is begun")

    def lines(self, folder: str) -> Iterator[str]:
        """Yields a line for each journal that a sender has."""
        for stem in sorted(self.stems):
            for path in self.generations(stem).kept().values():
                name = os.path.join(folder, os.path.basename(path))
                yield f"{name}: entries {entries_of(path)}"


def sender_bytes(packed: bytes) -> bytes:
    return packed if len(packed) == SENDER else IPV4 + packed


def argument(path: str) -> str:
    return f"./{path}" if path.startswith("-") else path
