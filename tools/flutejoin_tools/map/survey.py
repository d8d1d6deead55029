"""Finds what journals contain of the objects that are drawn: each by itself, and all together."""
from __future__ import annotations

import ipaddress
from typing import Callable, Iterator, Mapping, NamedTuple

from flutejoin_tools.common import gaps
from flutejoin_tools.common.faults import Fault
from flutejoin_tools.common.gaps import MISSING, Numbers
from flutejoin_tools.common.texts import shown
from flutejoin_tools.formats.partition import Partition
from flutejoin_tools.map import pictures
from flutejoin_tools.map.filling import Filling
from flutejoin_tools.map.grids import Grid, Overview, partition_words

MOST_PANELS = 520  # of a page
MOST_GAPS = 1000000  # lines of gaps of all objects that are drawn, unless it is one
NOTHING = "nothing of this object"
OF_OTHERS = ", with the transmission information of other journals"
OF_FDT = ", with the transmission information of the FDT"


class Waiting(NamedTuple):
    """A panel that waits for another journal's transmission information."""

    key: str
    place: int
    is_held: bool  # whether the journal has anything of the object


class Survey:
    """The panels of the objects that are drawn.

    The states of all objects are read first, and again for an overview. Gaps are read only for
    objects that are drawn. All are counted as they come, so memory does not grow with them.
    """

    def __init__(
        self,
        program: gaps.Gaps,
        journals: list[str],
        told: Mapping[str, Numbers],
        wanted: str | None,
        is_text: bool,
    ) -> None:
        """`told` is what FDT Instances tell; it counts where no journal has it from packets."""
        self.program, self.journals, self.is_text = program, journals, is_text
        self.count = len(journals) + (len(journals) > 1)
        self.objects = self.whole = 0  # how many there are
        self.known = self.lacking(told) if told else {}
        if self.known:
            program.know(self.known.items())
        self.all = self.read(wanted)
        if wanted is not None and not self.all:
            raise Fault(1, "no object")
        self.keys = self.chosen()
        drawn = sum(self.all[key].words == gaps.WHOLE for key in self.keys)
        self.left = pictures.Left(self.objects - len(self.keys), self.whole - drawn)
        # Of objects about which all journals agree
        self.partitions = {
            key: Partition(*self.known[key]) for key in self.keys if key in self.known
        }
        self.panels: dict[str, list[pictures.Panel]] = {key: [] for key in self.keys}
        for journal, waiting in [(journal, self.look(journal)) for journal in journals]:
            self.complete(journal, waiting)
        if len(journals) > 1:
            self.look_at_all()

    def lacking(self, told: Mapping[str, Numbers]) -> dict[str, Numbers]:
        """What is told of the objects of which no journal has transmission information, of the
        senders that the journals have."""
        known, senders = {**told}, set()
        for key, state in self.program.states(self.journals):
            senders.add(sender_of(key))
            if state.words != gaps.NO_INFORMATION:
                known.pop(key, None)
        return {key: numbers for key, numbers in known.items() if sender_of(key) in senders}

    def read(self, wanted: str | None) -> dict[str, gaps.State]:
        """The states of all objects; if they are too many, of those not whole, up to a number.

        So memory does not grow with the number of objects, which are counted.
        """
        most = self.most()
        found: dict[str, gaps.State] = {}
        for key, state in self.program.states(self.journals):
            if wanted not in (None, key):
                continue
            self.objects += 1
            self.whole += state.words == gaps.WHOLE
            if self.objects == most + 1:
                found = {key: state for key, state in found.items() if state.words != gaps.WHOLE}
            if self.objects <= most or len(found) < most and state.words != gaps.WHOLE:
                found[key] = state
        return found

    def most(self) -> int:
        """How many objects are drawn at most."""
        return max(1, MOST_PANELS // self.count)

    def chosen(self) -> dict[str, None]:
        """The objects that are drawn: as many as have room with their gaps.

        The gaps before the last of them are all read, so those of others have a bound too.
        """
        chosen: dict[str, None] = {}
        left = skipped = MOST_GAPS
        for key, state in self.all.items():
            if not chosen or state.gaps <= left:
                chosen[key] = None
                left -= state.gaps
            else:
                skipped -= state.gaps
            if skipped < 0:
                break
        return chosen

    def look(self, journal: str) -> list[Waiting]:
        """Draws a journal by itself.

        Returns the panels that wait for other journals' information.
        """
        states = self.all
        if len(self.journals) > 1:
            every = self.program.states([journal])
            states = {key: state for key, state in every if key in self.keys}
        name, waiting = shown(journal), []
        grids = self.grids([journal], name, states, self.partitions_of(journal, states))
        for key in self.keys:
            words = self.words_of(key, states, grids.get(key))
            if key not in grids and words in (NOTHING, gaps.NO_INFORMATION):
                waiting.append(Waiting(key, len(self.panels[key]), key in states))
            self.panels[key].append(pictures.Panel(name, words, grids.get(key), False))
        return waiting

    def words_of(self, key: str, states: dict[str, gaps.State], grid: Grid | None) -> str:
        """What a journal has of an object."""
        if key not in states:
            return NOTHING
        if key not in self.known:
            return states[key].words
        is_whole = states[key].words == gaps.WHOLE
        if grid and not is_whole and grid.counts[MISSING] == grid.partition.symbols:
            return NOTHING
        return states[key].words + OF_FDT

    def look_at_all(self) -> None:
        """Draws all journals joined: as the first panel, if the panels do not fit in one line."""
        name = self.name_of_all()
        grids = self.grids(self.journals, name, self.all, self.partitions)
        for key in self.keys:
            words = self.all[key].words + OF_FDT * (key in self.known)
            panel = pictures.Panel(name, words, grids.get(key), True)
            is_last = self.count <= pictures.per_line(self.count)
            self.panels[key].insert(len(self.panels[key]) if is_last else 0, panel)

    def name_of_all(self) -> str:
        count = len(self.journals)
        return f"all {count} joined" if count > 1 else shown(self.journals[0])

    def partitions_of(self, journal: str, states: dict[str, gaps.State]) -> dict[str, Partition]:
        """The partitions of objects by a journal's transmission information.

        If all journals agree on an object, only the first is asked.
        """
        own = [key for key in self.keys if key in states and states[key].has_information()]
        asked = {key for key in own if key not in self.partitions}
        found = self.program.information(journal, asked) if asked else {}
        partitions = {key: Partition(*numbers) for key, numbers in found.items()}
        self.partitions.update(
            (key, partition)
            for key, partition in partitions.items()
            if self.all[key].has_information()
        )
        return {key: partitions.get(key) or self.partitions[key] for key in own}

    def grids(
        self,
        journals: list[str],
        name: str,
        states: dict[str, gaps.State],
        partitions: dict[str, Partition],
    ) -> dict[str, Grid]:
        """The grids of these journals together, for objects with transmission information."""
        wanted = [key for key in self.keys if key in states and states[key].has_information()]
        filling = Filling(name, self.grid, {key: partitions[key] for key in wanted})
        for key in wanted:
            if states[key].words == gaps.WHOLE:
                filling.begin(key, states[key])
        partial = [key for key in wanted if key not in filling.made]
        filling.fill(self.program, lambda more: self.program.commands(journals, more), partial)
        return {key: filling.grid_of(key) for key in wanted}

    def complete(self, journal: str, waiting: list[Waiting]) -> None:
        """Draws objects without transmission information by that of other journals."""
        waiting = [one for one in waiting if one.key in self.partitions]
        for key, place, is_held in waiting:
            if not is_held:
                grid = self.grid(self.partitions[key])
                grid.miss_all()
                self.panels[key][place] = pictures.Panel(shown(journal), NOTHING, grid, False)
        held = [one for one in waiting if one.is_held]
        name = shown(journal)
        filling = Filling(name, self.grid, {one.key: self.partitions[one.key] for one in held})
        if held:
            filling.fill_with(self.program, journal)
        for key, place, _ in held:
            grid = filling.grid_of(key)
            words = gaps.WHOLE if grid.counts[0] == grid.partition.symbols else gaps.PARTIAL
            words += OF_OTHERS
            self.panels[key][place] = pictures.Panel(name, words, grid, False)

    def grid(self, partition: Partition) -> Grid:
        """An empty grid for an object of this partition."""
        return Grid(partition, *self.shape(self.count, len(self.keys)))

    def shape(self, panels: int, objects: int) -> tuple[int, Callable[[int], int]]:
        """How many rows a panel has at most, and how many columns for so many rows."""
        if self.is_text:
            return pictures.TEXT_ROWS, lambda rows: pictures.TEXT_COLUMNS
        return pictures.shape(panels, objects)

    def drawings(self) -> Iterator[pictures.Drawing]:
        """Yields what is drawn: before the objects an overview, if some objects are left out."""
        if self.left.objects:
            grid = Overview(self.objects, *self.shape(1, 1))
            for key, state in self.program.states(self.journals):
                if not grid.take(key, state):
                    raise Fault(3, f"{self.name_of_all()}: changed while it was read")
            words = pictures.kinds_words(grid.names) if self.is_text else ""
            panel = pictures.Panel(self.name_of_all(), "overview", grid, len(self.journals) > 1)
            yield pictures.Drawing(f"{self.objects} objects", words, [panel])
        for key in self.keys:
            is_whole = self.all[key].words == gaps.WHOLE
            yield pictures.Drawing(title_of(key), self.words(key), self.panels[key], is_whole)

    def words(self, key: str) -> str:
        """How an object is cut into blocks, or why that is not known."""
        words = self.all[key].words
        if words == gaps.NO_INFORMATION:
            return "no packet told its length, so its blocks are not known; flutejoin info adds it"
        if words == gaps.CONFLICTING_INFORMATION:
            return (
                "two lengths, of the object, its symbols or its blocks, came; "
                "each journal is drawn with its own"
            )
        return partition_words(self.partitions[key])


def sender_of(key: str) -> str:
    """The words of a key that name its sender; none if that is 0."""
    return key.partition("session ")[0]


def title_of(key: str) -> str:
    """The name of an object, with the sender's address in its usual form."""
    words = key.split()
    if words[0] != "source":
        return key
    address = ipaddress.IPv6Address(int(words[1], 16))
    return f"{key} (sender {address.ipv4_mapped or address})"
