"""Further generations of a journal's objects: what is missing of each, and by which description.

A TOI that came with other contents has several journals (`generations`), and FDT
Instances that describe it one way or another. What is missing of a generation is asked for by the
descriptions with an MD5 whose lengths fit it, and counts if the MD5 is that of the whole of it. A
description whose file one of the journals has whole is not asked for, nor an older one of the same
name. Of such an object all symbols are written, so that flutejoin-gather finds where it agrees.
"""
from __future__ import annotations

import io
import os
from typing import Dict, Iterable, Iterator, List, NamedTuple, Sequence, Set, Tuple

from flutejoin_tools.common import gaps
from flutejoin_tools.common.file_names import STANDARD_OUTPUT
from flutejoin_tools.common.gaps import Numbers
from flutejoin_tools.common.log import Log
from flutejoin_tools.common.places import Scratch, scratch_folder
from flutejoin_tools.common.program import Program
from flutejoin_tools.common.shelves import NAME
from flutejoin_tools.fdt.fdt import File
from flutejoin_tools.files.delivery import Delivery
from flutejoin_tools.files.session import Described
from flutejoin_tools.formats.entries import SYMBOL
from flutejoin_tools.formats.partition import fault_of
from flutejoin_tools.gather.beside import beside, is_aside
from flutejoin_tools.journals import holdings
from flutejoin_tools.journals.holdings import Key, entries
from flutejoin_tools.journals.states import State
from flutejoin_tools.repair.fetched import Fetched, wrong_ones
from flutejoin_tools.repair.lacking import LEFT, MOST_DESCRIPTIONS, Lack, Lacking, Located
from flutejoin_tools.repair.origins import Origins
from flutejoin_tools.repair.repairing import Repair

NO_MD5 = "came with several contents, and no FDT Instance has an MD5 of it"
OTHERS = "no FDT Instance with an MD5 fits what came"


def generations_beside(journal: str) -> List[str]:
    """The journals of further generations beside one, by its name."""
    every = (path for path in beside([journal]).journals if not is_aside(path))
    return [path for path in every if not NAME.fullmatch(os.path.basename(path))]


def fits(file: File, numbers: Numbers) -> bool:
    """Whether a description may be of an object with this transmission information."""
    told = file.information()
    if told and not fault_of(*told):
        return told == numbers
    return file.transfer_length() in (None, numbers[0])


class Again(Delivery):
    """The objects of a generation, by descriptions that were read already."""

    def __init__(self, program: Program, journal: str, scratch: Scratch, further: Further) -> None:
        catalogue = Located(Log("", STANDARD_OUTPUT))
        super().__init__(program, [journal], further.wanted, scratch, catalogue)
        self.further, self.located = further, catalogue

    def read_instances(self, others: Sequence[str]) -> None:
        """Takes the descriptions that the first reading has of these objects."""
        self.located.places = self.further.catalogue.places
        for session in self.further.catalogue:
            mine = self.located.session(session.source, session.tsi)
            for toi in session.files:
                if session.key(toi) in self.further.several:
                    mine.describe(toi, session.described(toi))


class Generation(NamedTuple):
    """A journal, and the transmission information of its objects of which there are several."""

    path: str
    numbers: Dict[Key, Numbers]


class Further:
    """The generations of the objects of a catalogue, of which the first one was read."""

    def __init__(self, first: Delivery, catalogue: Located, paths: Sequence[str]) -> None:
        self.program, self.wanted, self.catalogue = first.program, first.wanted, catalogue
        self.several: Set[Key] = set()  # objects of which a further generation has anything
        self.notes: List[str] = []
        further = [self.generation(path) for path in paths]
        self.several.update(key for each in further for key in each.numbers)
        self.further = [each for each in further if each.numbers]
        self.missing: Dict[Key, List[Described]] = {}
        if self.several:
            self.find_missing([self.generation(first.journal), *self.further])

    def generation(self, path: str) -> Generation:
        """A generation: its journal, and the transmission information of its objects."""
        found: Dict[Key, Numbers] = {}
        with open(path, "rb", buffering=0) as file:
            for key, held in holdings.holdings(file, self.is_described):
                told = self.catalogue.of(key).numbers_in_fdt(key.number)
                numbers = held.information or next(iter(told), None)
                if numbers and not held.is_disputed and not fault_of(*numbers):
                    found[key] = numbers
        return Generation(path, found)

    def is_described(self, key: Key) -> bool:
        return self.wanted.has(key) and self.catalogue.describes(key)

    def find_missing(self, every: Sequence[Generation]) -> None:
        """Finds the descriptions whose file no generation has whole."""
        there: Dict[Key, Set[bytes]] = {key: set() for key in self.several}
        for generation in every:
            for key, md5 in self.whole_ones(generation):
                there[key].add(md5)
        for key in self.several:
            described = self.described(key)
            held = [each for each in described if each.file.md5 in there[key]]
            self.missing[key] = [
                each
                for each in described
                if each not in held and not any(is_newer(other, each) for other in held)
            ]

    def described(self, key: Key) -> List[Described]:
        """The descriptions of an object that an MD5 decides about, the newest first."""
        usable = self.catalogue.of(key).usable(key.number)
        return [each for each in usable if each.file.md5][:MOST_DESCRIPTIONS]

    def whole_ones(self, generation: Generation) -> Iterator[Tuple[Key, bytes]]:
        """Yields the MD5s that whole objects of a generation have, of those that are described."""
        for turn in range(MOST_DESCRIPTIONS):
            whole: List[Fetched] = []
            for key, numbers in generation.numbers.items():
                described = self.described(key) if key in self.several else []
                if turn < len(described) and fits(described[turn].file, numbers):
                    lack = Lack(key, "", State(gaps.WHOLE))
                    lack.numbers = numbers
                    whole.append(Fetched(lack, described[turn].file, io.BytesIO()))
            wrong = wrong_ones(generation.path, whole) if whole else []
            for each in whole:
                if each not in wrong and each.file.md5:
                    yield each.lack.key, each.file.md5

    def choose(self, lacking: Lacking) -> None:
        """Leaves of what is missing of a generation what an MD5 can decide about."""
        for key in self.several & lacking.lacks.keys():
            lack, missing = lacking.lacks[key], [each.file for each in self.missing[key]]
            if not missing and self.described(key):
                del lacking.lacks[key]
                self.catalogue.of(key).states[key.number] = State(gaps.WHOLE)
                continue
            lack.sources = [
                source
                for source in lack.sources
                if source.file in missing and lack.numbers and fits(source.file, lack.numbers)
            ]
            if not lack.sources:
                lack.why = OTHERS if missing else NO_MD5

    def ask(self, run: Repair, lacking: Lacking, origins: Origins, journal: str) -> None:
        """Asks for what is missing of further generations, after the first one was asked for.

        `lacking` is of that, and gets what became of the others; `journal` has its objects.
        """
        self.take(run, lacking, journal)
        for generation in self.further:
            mine = self.ask_one(generation, run, origins, lacking.by_symbols)
            for key, lack in mine.lacks.items():
                if key in run.complete and run.right[key].lack is lack:
                    lacking.lacks[key] = lack
                lacking.lacks.setdefault(key, lack)
        self.note_left(run)

    def ask_one(
        self, generation: Generation, run: Repair, origins: Origins, by_symbols: bool
    ) -> Lacking:
        """Asks for what one generation lacks."""
        kept = self.program.kept
        with scratch_folder() as scratch:
            self.program.kept = (*kept, scratch.folder)
            try:
                delivery = Again(self.program, generation.path, scratch, self)
                delivery.read((), [])
                delivery.located.leave_out_others(generation.numbers)
                mine = Lacking(delivery, delivery.located, origins, by_symbols)
                journal = mine.read()
                self.choose(mine)
                lacks = [it for it in mine.lacks.values() if not it.why]
                run.run([it for it in lacks if it.key not in run.complete], journal)
                self.take(run, mine, journal)
            finally:
                self.program.kept = kept
        return mine

    def take(self, run: Repair, lacking: Lacking, journal: str) -> None:
        """After a generation was asked for: drops what no MD5 shows, and completes the others."""
        mine = [key for key in self.several & run.right.keys() if key in lacking.lacks]
        mine = [key for key in mine if run.right[key].lack is lacking.lacks[key]]
        for key in mine:
            if key not in run.complete:
                del run.right[key]
                lacking.lacks[key].why = lacking.lacks[key].why or LEFT
        fill(journal, [run.right[key] for key in mine if key in run.complete])

    def note_left(self, run: Repair) -> None:
        """Notes which files of a TOI still lack something."""
        for key in sorted(self.several & run.complete):
            came = run.right[key].file
            one = next(each for each in self.missing[key] if each.file == came)
            rest = [each for each in self.missing[key] if each is not one]
            if any(not is_newer(one, each) for each in rest):
                self.notes.append(f"{key.text()}: other contents of it are {LEFT}")


def is_newer(one: Described, other: Described) -> bool:
    """Whether a description takes another one's place: it is newer, and has its name."""
    return one.rank > other.rank and one.file.location == other.file.location


def fill(journal: str, every: Iterable[Fetched]) -> None:
    """Adds to what was fetched of objects what the journal has of them."""
    wanted = {fetched.lack.key.raw(): fetched for fetched in every}
    if not wanted:
        return
    with open(journal, "rb", buffering=0) as file:
        for kind, raw, more in entries(file):
            fetched = wanted.get(raw)
            if fetched and kind == SYMBOL:
                fetched.hold(bytes(more))
