"""Makes named files of journals by a few runs of flutejoin, whatever the number of files, and one
for each object of 64 KiB to 8 MiB that is to be decoded."""
from __future__ import annotations

import contextlib
import itertools
import os
from typing import Container, Iterable, Iterator, NamedTuple, Optional, Sequence

from flutejoin_tools.common import gaps
from flutejoin_tools.common.faults import Fault
from flutejoin_tools.common.gaps import CHECK, GAPS
from flutejoin_tools.common.places import Scratch
from flutejoin_tools.common.program import ALL, Command, Failed, Program, argument
from flutejoin_tools.common.shell import MOST_INPUTS
from flutejoin_tools.common.texts import shown
from flutejoin_tools.fdt.documents import Documents
from flutejoin_tools.files.catalogue import Catalogue
from flutejoin_tools.files.session import Session
from flutejoin_tools.files.ways import Ways
from flutejoin_tools.formats.entries import FILE, SYMBOL
from flutejoin_tools.formats.partition import Partition
from flutejoin_tools.formats.records import Cut, ReadFault
from flutejoin_tools.journals import holdings
from flutejoin_tools.journals.holdings import NOTHING, Key
from flutejoin_tools.journals.merged import merged
from flutejoin_tools.journals.resolving import Way
from flutejoin_tools.journals.sparse import Thinning
from flutejoin_tools.journals.states import State, key_of

# Bytes of an encoded object for which a run of its own is worth it, and that such a run may hold in
# memory: to standard output flutejoin writes an object once it has all of it
LEAST_APART, MOST_APART = 1 << 16, 1 << 23
MOST_GAPS = 1 << 20  # of objects that nothing describes, if only a list is wanted


class Wanted(NamedTuple):
    """The sessions that are taken: of one sender or all, with these TSIs or all."""

    source: Optional[bytes]
    tsis: Sequence[int]

    def has(self, key: Key) -> bool:
        is_tsi = not self.tsis or key.tsi in self.tsis
        return is_tsi and self.source in (None, key.source)

    def sessions(self) -> list[str]:
        """The options by which flutejoin takes these sessions alone."""
        return [word for tsi in self.tsis for word in ("--tsi", str(tsi))]

    def words(self) -> list[str]:
        """The options by which flutejoin takes this sender and these sessions alone."""
        source = [] if self.source is None else ["--source", self.source.hex()]
        return source + self.sessions()


class Delivery:
    """The objects of journals, the FDT Instances that describe them, and the runs of flutejoin."""

    def __init__(
        self,
        program: Program,
        journals: list[str],
        wanted: Wanted,
        scratch: Scratch,
        catalogue: Catalogue,
        folders: Sequence[str] = (),
    ) -> None:
        """`folders` have FDT Instances as documents."""
        self.program, self.journals, self.wanted = program, journals, wanted
        self.scratch, self.catalogue, self.folders = scratch, catalogue, folders

    def read(self, handed_in: Iterable[str], others: Sequence[str]) -> None:
        """Reads what the journals hold, and the FDT Instances.

        `others`, datagram files and journals, may contain values of symbols in conflict.
        """
        self.join()
        with self.named_faults():
            self.read_instances(others)
            self.read_handed_in(handed_in)
            self.catalogue.finish_reading()
            with open(self.journal, "rb", buffering=0) as file:
                choice = self.catalogue.is_shown
                self.catalogue.hold(
                    holdings.holdings(file, lambda key: self.wanted.has(key) and choice(key))
                )
            self.catalogue.tell(Session.disagreements, "such files")

    def join(self) -> None:
        """Joins the journals, if there are several or only some sessions are wanted.

        Else flutejoin reads the journal once, to report its faults.
        """
        if len(self.journals) == 1 and not self.wanted.tsis:
            (self.journal,) = self.journals
            self.name = shown(self.journal)
            self.run([*CHECK, argument(self.journal)], [self.name])
            return
        self.journal, self.name = self.scratch.at("journal"), ALL
        words = ["join", "--any-size", *self.wanted.sessions(), "-o", self.journal]
        rest = self.journals
        before: list[str] = []
        while rest:
            now, rest = rest[: MOST_INPUTS - 1], rest[MOST_INPUTS - 1 :]
            names = [*[ALL] * len(before), *map(shown, now)]
            self.run([*words, *before, *map(argument, now)], names)
            before = [self.journal]

    def run(self, words: list[str], names: list[str]) -> None:
        """Runs flutejoin for its faults. `names` are those of its inputs, for the messages."""
        for _ in self.program.lines(Command(words, names)):
            pass

    @contextlib.contextmanager
    def named_faults(self) -> Iterator[None]:
        """A context in which faults of journals are those of the journal of all."""
        try:
            yield
        except ReadFault as fault:
            raise Fault(1, f"{self.name}: {fault}") from None
        except Cut:
            raise Fault(1, f"{self.name}: Cut") from None

    def read_instances(self, others: Sequence[str]) -> None:
        """Reads the FDT Instances that are whole, the newest first."""
        documents = Documents(self.scratch.at("fdt"), self.journals, self.wanted.has)
        with contextlib.closing(documents):
            documents.read(self.journal)
            documents.resolve(others, shown)
            if self.folders:
                documents.read_folders(self.folders, self.sources(), self.wanted)
            self.catalogue.left += documents.left
            for document, file in documents.newest_first():
                key = document.key
                session = self.catalogue.of(key)
                session.paths[document.name] = document.path
                self.catalogue.read(session, file, key.number, document.name)
        for key, state in documents.unread.items():
            self.catalogue.of(key).unread[key.number] = state
        self.scratch.remove("fdt")

    def read_handed_in(self, paths: Iterable[str]) -> None:
        """Reads the FDT Instances that the user gave as files."""
        for path in paths:
            sessions = self.sessions()
            if len(sessions) != 1:
                raise Fault(2, f"--fdt is of one session, and there are {len(sessions)}: name it")
            with open(path, "rb") as file:
                self.catalogue.read(self.catalogue.session(*sessions[0]), file, None, shown(path))

    def sources(self) -> set[bytes]:
        """The senders of which the journal has anything."""
        with open(self.journal, "rb", buffering=0) as file:
            return {raw[: holdings.SENDER] for _, raw, _ in holdings.entries(file)}

    def sessions(self) -> list[tuple[bytes, int]]:
        """The sessions of which the journal has anything; of many only some."""
        with open(self.journal, "rb", buffering=0) as file:
            keys = (holdings.key_of(raw) for _, raw, _ in holdings.entries(file))
            every = ((key.source, key.tsi) for key in keys if self.wanted.has(key))
            different = (session for session, _ in itertools.groupby(every))
            return list(itertools.islice(different, MOST_INPUTS))

    def describe(self, is_shown: holdings.Choice) -> str:
        """Copies described objects to a journal, with information that only the FDT has."""
        path = self.scratch.at("described")
        every = (each for session in self.catalogue for each in sorted(session.added()))
        added = (each for each in every if is_shown(each[0]))
        with self.named_faults(), open(path, "wb") as out:
            with open(self.journal, "rb", buffering=0) as file:
                holdings.copy(file, is_shown, out, added)
        return path

    def look(self) -> None:
        """Reads from flutejoin whether each object is whole, and writes no object.

        A few datagrams of objects that nothing describes can make millions of gaps. Then only
        described objects are looked at.
        """
        shown_keys, sparse = self.catalogue.describes, self.sparse()
        if sum(session.gaps_of_strays() for session in self.catalogue) <= MOST_GAPS:
            shown_keys = self.catalogue.has
        journal = self.describe(lambda key: key not in sparse and shown_keys(key))
        for line in self.program.lines(Command([*GAPS, "--ranges", journal], [self.name])):
            if not line.startswith(b"bytes "):
                self.take(*self.state_in(line))

    def sparse(self) -> Container[Key]:
        """Described objects of which next to nothing is held, and which are too many for flutejoin
        to look at each. Their states are noted by what is held: none of them is whole."""
        thinning, found = Thinning(lambda key: False), set()
        for session in self.catalogue:
            for toi in session.files:
                held, numbers = session.held.get(toi, NOTHING), session.information(toi)
                if not held.symbols or held.is_disputed or not numbers:
                    continue
                if thinning.is_left(session.key(toi), numbers, held.symbols):
                    wanted = Partition(*numbers).symbols - held.symbols
                    session.states[toi] = State(gaps.PARTIAL, wanted)
                    found.add(session.key(toi))
        return found

    def extract_all(self) -> None:
        """Has flutejoin write the whole objects that are described, and reads the others' state.

        Those whose file is there already are left out. An object that is to be decoded goes through
        a run's standard output, if its size is fit: else the disk would be waited for twice.
        """

        sparse = self.sparse()

        def is_wanted(key: Key) -> bool:
            is_new = self.catalogue.describes(key) and key not in sparse
            return is_new and key.number not in self.catalogue.of(key).outcomes

        apart = {key for key in self.encoded() if is_wanted(key)}
        apart = {*self.extract_apart(apart)} if apart else apart
        others = self.describe(lambda key: key not in apart and is_wanted(key))
        for key, state in self.extract(others, "objects"):
            self.take(key, state)
        for key in apart:
            self.take(key, State(gaps.WHOLE))
            self.move(key, "encoded", key)
        for name in "described", "encoded", "encoded.journal":
            self.scratch.remove(name)

    def move(self, key: Key, folder: str, to: Key) -> None:
        """Moves an object to those that were extracted first, which may have another number."""
        source = os.path.join(self.scratch.at(folder), key.file_name())
        os.rename(source, os.path.join(self.scratch.at("objects"), to.file_name()))

    def encoded(self) -> Iterator[Key]:
        """The objects of a fit size that are to be decoded, and may be whole."""
        for session in self.catalogue:
            for toi in filter(session.is_encoded, session.files):
                held, numbers = session.held.get(toi, NOTHING), session.information(toi)
                is_fit = numbers is not None and LEAST_APART <= numbers[0] <= MOST_APART
                if is_fit and not held.is_disputed and held.symbols == session.symbols(toi):
                    yield session.key(toi)

    def extract_apart(self, wanted: Container[Key]) -> Iterator[Key]:
        """Extracts each of these objects by a run of its own, without syncing it, and yields those
        that are whole."""
        journal = self.scratch.at("encoded.journal")
        os.mkdir(self.scratch.at("encoded"))
        added = dict(each for session in self.catalogue for each in session.added())
        with self.named_faults(), open(journal, "wb") as out:
            with open(self.journal, "rb", buffering=0) as file:
                for key in holdings.copies(file, wanted.__contains__, out, added):
                    path = os.path.join(self.scratch.at("encoded"), key.file_name())
                    words = ["extract", "--any-size", "-o", "-", *gaps.options(key.text())]
                    with open(path, "wb") as made:
                        answer = self.program.run([*words, argument(journal)], out=made)
                    if answer.status > 1:
                        raise Failed(answer, [self.name])
                    if not answer.status:
                        yield key

    def extract(self, journal: str, folder: str) -> Iterator[tuple[Key, State]]:
        """Extracts all whole objects, and yields the state that flutejoin prints of each object."""
        words = ["extract", "--all", "--any-size", "-o", self.scratch.at(folder), argument(journal)]
        for line in self.program.lines(Command(words, [self.name])):
            if not line.startswith(b"written "):
                yield self.state_in(line)

    def look_apart(self, others: Sequence[str]) -> None:
        """For a list: as `resolve`, and writes no object."""
        ways = self.ways(others)
        with self.named_faults():
            for key, number, way in ways.numbered():
                ways.note(key, number, way)
                self.catalogue.of(key).states[number] = State(gaps.WHOLE)
            ways.share()

    def resolve(self, others: Sequence[str]) -> set[Key]:
        """Completes objects about which journals differ, where the MD5 shows what was sent.

        `others`, datagram files and journals, may contain values of symbols in conflict. Returns
        which objects were completed. Of the rest it is noted what the journals that agree have.
        """
        ways = self.ways(others)
        with self.named_faults():
            completed = self.complete_all(ways)
            ways.share()
        return completed

    def ways(self, others: Sequence[str]) -> Ways:
        """Finds the ways to put objects together about which journals differ."""
        ways = Ways(self.catalogue, self.journals)
        with self.named_faults():
            ways.look(others)
        return ways

    def complete_all(self, ways: Ways) -> set[Key]:
        """Has flutejoin write each object that was found, also several of one TOI."""
        rounds: list[dict[Key, tuple[int, Way]]] = []  # in each at most one of a TOI
        for key, number, way in ways.numbered():
            free = next((each for each in rounds if key not in each), None)
            if free is None:
                free = {}
                rounds.append(free)
            free[key] = number, way
        completed: set[Key] = set()
        for at, found in enumerate(rounds):
            if at:
                self.scratch.remove("resolved")
                self.scratch.remove("resolved.journal")
            completed |= self.complete(found, ways)
        return completed

    def complete(self, found: dict[Key, tuple[int, Way]], ways: Ways) -> set[Key]:
        """Has flutejoin write the objects that are put together in these ways.

        The numbers are those of the objects in the catalogue.
        """
        completed = set()
        made = self.scratch.at("resolved.journal")
        with open(made, "wb") as out:
            copied = holdings.Copy(out)
            for key, raw, entries in merged(self.journals, found.__contains__):
                _, way = found[key]
                copied.inform(key, way.partition.numbers)
                for each in entries:
                    value = way.value(each) if each.symbol else b""
                    if value:
                        size = len(value).to_bytes(2, "big")
                        copied.add(SYMBOL, raw, each.symbol + size + value)
            copied.finish()
        for key, state in list(self.extract(made, "resolved")):
            if state.is_whole():
                kept = key._replace(number=found[key][0])
                self.take(kept, state)
                ways.note(key, *found[key])
                self.move(key, "resolved", kept)
                completed.add(kept)
        return completed

    def take(self, key: Key, state: State) -> None:
        """Notes the state of an object, if it is a file that is wanted."""
        if key.tag == FILE and self.wanted.has(key):
            self.catalogue.of(key).states[key.number] = state

    @staticmethod
    def state_in(line: bytes) -> tuple[Key, State]:
        """The object and the state in a line of `flutejoin extract --all`."""
        told = gaps.state_of(line)
        return key_of(told[1].decode()), State.of(told)
