"""What is missing of the files of journals, as flutejoin tells it, and where these files lie."""
from __future__ import annotations

import re
from typing import (
    BinaryIO,
    Container,
    Dict,
    Iterable,
    Iterator,
    List,
    NamedTuple,
    Optional,
    Set,
    Tuple,
)

from flutejoin_tools.common import gaps
from flutejoin_tools.common.faults import Fault
from flutejoin_tools.common.gaps import Numbers
from flutejoin_tools.common.log import Log
from flutejoin_tools.common.program import Command
from flutejoin_tools.fdt import fdt
from flutejoin_tools.files.catalogue import Catalogue
from flutejoin_tools.files.delivery import Delivery
from flutejoin_tools.files.session import Described, Session
from flutejoin_tools.formats.entries import INFORMATION, INFORMATION_CONFLICT
from flutejoin_tools.formats.partition import Partition
from flutejoin_tools.journals.holdings import NOTHING, Key, entries
from flutejoin_tools.journals.states import MISSING, State, key_of
from flutejoin_tools.repair.locations import Places, read_from, urls_of
from flutejoin_tools.repair.origins import Origins, Url, first_refusal
from flutejoin_tools.repair.ranges import Range

RANGES = [*gaps.GAPS, "--ranges"]
BYTES = re.compile(rb"bytes (\d+)-(\d+)\n")
MOST_SYMBOLS = 1 << 20  # of a run; what is missing beside these is left to the next one
MOST_DESCRIPTIONS = 4  # of a file, by which it is asked for in turn
NO_PLACES = Places({}, [])
DISPUTED = "in conflict, or of a wrong length"
LEFT = "left to another run"


class Source(NamedTuple):
    """A description of a file by which it may be asked for, and the URLs where it lies."""

    file: fdt.File
    urls: List[Url]
    refusal: str  # why the first of the other URLs is not asked; empty if there is none


class Lack:
    """A file of which something is missing."""

    def __init__(self, key: Key, name: str, state: State) -> None:
        self.key, self.name, self.state = key, name, state
        self.numbers: Optional[Numbers] = None
        self.ranges: List[Range] = []  # of missing bytes, without those in dispute
        self.sources: List[Source] = []
        self.why = ""  # why it is left; empty while it is not
        self.is_part = False  # whether more is missing, for which there was no room

    def can_be_whole(self) -> bool:
        """Whether it is whole once its ranges came."""
        return not self.is_part and not self.state.is_disputed

    def symbols(self) -> int:
        """How many symbols are missing."""
        size = self.numbers[1] if self.numbers else 1
        return sum(last // size - first // size + 1 for first, last in self.ranges)

    def partition(self) -> Partition:
        assert self.numbers
        return Partition(*self.numbers)

    def places(self) -> Iterator[int]:
        """The places in the object of its missing symbols, in order."""
        size = self.numbers[1] if self.numbers else 1
        for first, last in self.ranges:
            yield from range(first // size, last // size + 1)


class Located(Catalogue):
    """The files of journals, with the places where FDT Instances say that they lie."""

    def __init__(self, report: Log, has_limits: bool = True) -> None:
        super().__init__(report, has_limits)
        self.places: Dict[Tuple[bytes, int, str], Places] = {}
        self.texts = 0

    def instance_of(
        self, session: Session, file: BinaryIO, number: Optional[int], name: str
    ) -> fdt.Instance:
        """Reads an FDT Instance, and where it says that its files lie."""
        instance, places = read_from(file, number, name, self.xml)
        self.texts += sum(sum(map(len, each)) for each in places.of_files.values())
        if self.texts <= fdt.MOST_KEPT:
            self.places[session.source, session.tsi, name] = places
        return instance

    def leave_out_others(self, keys: Container[Key]) -> None:
        """Forgets the descriptions of other objects than these."""
        for session in self:
            for toi in [toi for toi in session.files if session.key(toi) not in keys]:
                del session.files[toi]
                session.others.pop(toi, None)

    def source(self, session: Session, toi: int, of: Described, origins: Origins) -> Source:
        """Where a description says that a file lies."""
        places = self.places.get((session.source, session.tsi, of.instance), NO_PLACES)
        folders = (f"{str(base).rstrip('/')}/" for base in origins.bases)
        bases = [*places.bases, *folders]
        texts = urls_of(of.file.location, places.of_files.get(toi, ()), bases)
        urls, refusal = first_refusal([*texts], origins)
        return Source(of.file, urls, refusal or "")


class Lacking:
    """What is missing of the files that a catalogue describes."""

    def __init__(
        self, delivery: Delivery, catalogue: Located, origins: Origins, by_symbols: bool
    ) -> None:
        """By symbols the bases are asked, and not where the files lie."""
        self.delivery, self.catalogue, self.origins = delivery, catalogue, origins
        self.by_symbols = by_symbols
        self.lacks: Dict[Key, Lack] = {}
        self.has_more = False  # whether there was no room for all that is missing
        self.symbols = 0

    def read(self) -> str:
        """Finds what is missing. Returns a journal that has the described objects alone."""
        sparse = self.delivery.sparse()
        journal = self.delivery.describe(
            lambda key: key not in sparse and self.catalogue.describes(key)
        )
        disputed: Set[Key] = set()
        current: Optional[Lack] = None
        command = Command([*RANGES, journal], [self.delivery.name])
        for line in self.delivery.program.lines(command):
            byte_range = BYTES.fullmatch(line)
            if not byte_range:
                current = self.begin(line, disputed)
            elif current:
                self.add(current, int(byte_range[1]), int(byte_range[2]))
        if disputed:
            self.take_out(journal, disputed)
        every = [(session, toi) for session in self.catalogue for toi in session.files]
        # What nobody sent yet may be made up: the largest of it comes last.
        every.sort(key=lambda of: (numbers_of(*of) or (0,))[0])
        for session, toi in every:
            self.complete(session, toi)
        return journal

    def begin(self, line: bytes, disputed: Set[Key]) -> Optional[Lack]:
        """The object that a line is of, if something of it is missing."""
        told = gaps.state_of(line)
        key, state = key_of(told[1].decode()), State.of(told)
        session = self.catalogue.of(key)
        session.states[key.number] = state
        if state.is_whole() or key.number not in session.files:
            return None
        lack = self.lacks[key] = Lack(key, session.files[key.number].file.location, state)
        lack.numbers = numbers_of(session, key.number) if state.words == gaps.PARTIAL else None
        if state.is_disputed and state.words == gaps.PARTIAL:
            disputed.add(key)
        return lack

    def add(self, lack: Lack, first: int, last: int) -> None:
        """Adds a range of missing bytes, as far as this run has room for its symbols."""
        if not lack.numbers or last >= lack.numbers[0] or first > last:
            raise Fault(3, f"flutejoin tells a range that is none: {first}-{last}")
        size = lack.numbers[1]
        room = MOST_SYMBOLS - self.symbols
        if last // size - first // size >= room:
            self.has_more = lack.is_part = True
            last = min(last, (first // size + room) * size - 1)
        if first <= last:
            self.symbols += last // size - first // size + 1
            lack.ranges.append((first, last))

    def take_out(self, journal: str, disputed: Set[Key]) -> None:
        """Takes symbols out that the journal has in conflict, or with a value of a wrong length.

        No further value ends a conflict.
        """
        found: Dict[Key, Set[int]] = {key: set() for key in disputed}
        raw_keys = {key.raw(): key for key in disputed}
        with open(journal, "rb", buffering=0) as file:
            for kind, raw, more in entries(file):
                key = raw_keys.get(raw)
                if key and kind not in (INFORMATION, INFORMATION_CONFLICT):
                    place = self.lacks[key].partition().place(bytes(more[:4]))
                    if place is not None:
                        found[key].add(place)
        for key, places in found.items():
            lack = self.lacks[key]
            lack.ranges = [*ranges_of((it for it in lack.places() if it not in places), lack)]

    def complete(self, session: Session, toi: int) -> None:
        """Adds where a file lies; and the file, if nothing of it is held."""
        key = session.key(toi)
        state = session.state(toi)
        if state.is_whole():
            return
        if key not in self.lacks:
            lack = self.lacks[key] = Lack(key, session.files[toi].file.location, state)
            lack.numbers = numbers_of(session, toi)
            if lack.numbers and lack.numbers[0]:
                self.add(lack, 0, lack.numbers[0] - 1)
        lack = self.lacks[key]
        lack.sources = self.sources(session, toi)
        lack.why = self.why_not(session, toi, lack)

    def sources(self, session: Session, toi: int) -> List[Source]:
        """The descriptions by which a file may be asked for: if one has an MD5, only such."""
        usable = session.usable(toi)
        if session.md5s(toi):
            usable = [each for each in usable if each.file.md5]
        if self.by_symbols:
            urls = self.origins.bases
            every = [Source(each.file, urls, "") for each in usable if each.file.location]
        else:
            every = [self.catalogue.source(session, toi, each, self.origins) for each in usable]
        return every[:MOST_DESCRIPTIONS]

    @staticmethod
    def why_not(session: Session, toi: int, lack: Lack) -> str:
        """Why nothing of a file is asked for; empty if it is."""
        if session.is_left_alone(toi):
            return session.files[toi].left_alone()
        if not lack.numbers:
            told = lack.state.words
            return gaps.NO_INFORMATION if told == MISSING.words else told
        if not lack.ranges:
            return LEFT if lack.is_part else f"{lack.state.wanted} symbols are {DISPUTED}"
        if any(source.urls for source in lack.sources):
            return ""
        refusal = next((each.refusal for each in lack.sources if each.refusal), "")
        return refusal or "no FDT Instance says where it lies"

    def still(self, lack: Lack) -> str:
        """Why something is missing of a file, of which all came that was asked for."""
        return f"some symbols are {DISPUTED}" if lack.state.is_disputed else LEFT

    def replaced(self, lacks: Iterable[Lack], complete: Set[Key]) -> Iterator[Key]:
        """Yields the files whose name a newer file of the session has that is whole, or `complete`.

        FLUTE sends a new version of a file under a new TOI.
        """
        newest: Dict[Tuple[bytes, int, str], Tuple[int, int]] = {}
        for session in self.catalogue:
            for toi, each in session.files.items():
                if session.state(toi).is_whole() or session.key(toi) in complete:
                    name = session.source, session.tsi, each.file.location
                    newest[name] = max(each.rank, newest.get(name, each.rank))
        for lack in lacks:
            mine = self.catalogue.of(lack.key).files[lack.key.number]
            name = lack.key.source, lack.key.tsi, mine.file.location
            if name in newest and newest[name] > mine.rank:
                yield lack.key

    def notes(self) -> Iterator[str]:
        """Yields what may be missing, though no file that is described lacks it."""
        if not self.catalogue.sessions:
            yield "the journal tells of no object"
        for session in self.catalogue:
            newest = session.newest
            if newest is None:
                yield f"{session.title()}: no FDT Instance is whole: its files are not known"
            elif any(map(session.may_be_newest(newest), session.unread.items())):
                yield f"{session.title()}: a newer FDT Instance is not whole"
        if self.has_more:
            yield f"more than {MOST_SYMBOLS:,} symbols are missing: the rest is left to another run"


def numbers_of(session: Session, toi: int) -> Optional[Numbers]:
    """The transmission information by which flutejoin tells what is missing; None without any."""
    held = session.held.get(toi, NOTHING).information
    return held or next(iter(session.numbers_in_fdt(toi)), None)


def ranges_of(places: Iterable[int], lack: Lack) -> Iterator[Range]:
    """Yields the bytes of symbols at these rising places, as ranges that are as long as may be."""
    assert lack.numbers
    length, size, _ = lack.numbers
    begin = end = -1
    for place in places:
        if place != end:
            if end >= 0:
                yield begin * size, min(end * size, length) - 1
            begin = place
        end = place + 1
    if end >= 0:
        yield begin * size, min(end * size, length) - 1
