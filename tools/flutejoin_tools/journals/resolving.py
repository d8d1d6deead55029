"""Puts an object together in several ways, where journals and datagram files differ about it.

A journal keeps no value of a symbol that came with two. The journals of single stations may have
one each, and datagram files have both. Of the journals each is believed first in turn, and then
those that differ least from it (`by_journal`); or all combinations of values are tried
(`by_combination`). Which way is right is seen at the end: by the MD5, or in an FDT Instance by its
XML.
"""
from __future__ import annotations

import collections
import os
from typing import (
    Callable,
    Container,
    Iterable,
    Iterator,
    Mapping,
    NamedTuple,
    Optional,
    Sequence,
    Tuple,
)

from flutejoin_tools.common.addresses import sender_bytes
from flutejoin_tools.common.faults import Fault
from flutejoin_tools.common.file_names import name_of
from flutejoin_tools.common.gaps import Numbers
from flutejoin_tools.common.opening import opened
from flutejoin_tools.common.texts import shown
from flutejoin_tools.formats import entries, records
from flutejoin_tools.formats.partition import Buffer, Partition, fault_of
from flutejoin_tools.formats.reading import entries_of, packet_of
from flutejoin_tools.journals.holdings import Key
from flutejoin_tools.journals.merged import Found, Values, merged

MOST_VALUES = 8  # of a symbol that are looked at
MOST_INFORMATION = 32  # kinds of transmission information of an object that are tried
MOST_TRIED = 1 << 10  # combinations of the values of an object
MOST_KEPT = 1 << 24  # bytes of values that are held in memory
COST = 200  # of them for a symbol
STATE_COST = 4096  # of a state, beside that of its bytes
MOST_LEADS = 32  # journals that are believed first
MOST_COMPARED = 1 << 12  # symbols of an object by which journals are compared

Order = Tuple[int, ...]  # the numbers of journals: the first that has a fitting value is believed


class Sink:
    """Takes the bytes of an object in order. It is copied where ways part."""

    def update(self, data: Buffer) -> None:
        raise NotImplementedError

    def copy(self) -> Sink:
        raise NotImplementedError

    def is_right(self) -> bool:
        """Whether its bytes are those that were sent, as far as can be seen."""
        raise NotImplementedError

    def age(self) -> int:
        """Of several that are right the one of the least age counts."""
        return 0


class Budget:
    """What a run may spend."""

    def __init__(self, left: int) -> None:
        self.left = left

    def spend(self, count: int) -> bool:
        """Whether so much was left."""
        self.left -= count
        return self.left >= 0


class Way(NamedTuple):
    """How an object was put together: by which lengths, and which values it has."""

    partition: Partition
    order: Order
    chosen: dict[bytes, bytes]  # the values of symbols that have several

    def value(self, found: Found) -> bytes:
        """The value that a symbol has."""
        if found.symbol in self.chosen:
            return self.chosen[found.symbol]
        place = self.partition.place(found.symbol)
        fitting = fitting_of(self.partition, place, found.values)
        return first_of(self.order, fitting) if fitting else b""


class State(NamedTuple):
    """The bytes so far, of the journals that are believed first or of chosen values."""

    sink: Sink
    orders: tuple[Order, ...]
    chosen: tuple[tuple[bytes, bytes], ...]


def fitting_of(partition: Partition, place: Optional[int], values: Values) -> Values:
    """Those of the values that have the length of the symbol at a place."""
    if place is None:
        return []
    return [of for of in values if of[1] and partition.piece(place, of[1]) is not None]


def first_of(order: Order, values: Values) -> bytes:
    """The value of the journal that comes first in this order."""
    by_journal = dict(values)
    return next((by_journal[number] for number in order if number in by_journal), values[0][1])


class Wanted:
    """An object that is to be put together, and what differs about it."""

    def __init__(self, sink: Callable[[], Sink], numbers: Iterable[Numbers]) -> None:
        self.sink = sink
        self.partitions: list[Partition] = []
        self.informed: collections.defaultdict[Numbers, set[int]] = collections.defaultdict(set)
        self.values: dict[bytes, list[bytes]] = {}  # of symbols in conflict, where they are kept
        self.counts: collections.Counter[int] = collections.Counter()  # symbols of each journal
        # Symbols of two journals
        self.differing: collections.Counter[tuple[int, int]] = collections.Counter()
        self.disputed = 0  # symbols
        self.has_disputed_information = False
        self.combinations = 1
        self.is_too_much = False  # to be held in memory
        self.is_spent = False  # the budget, before all combinations were tried
        for each in numbers:
            self.inform(each)

    def inform(self, numbers: Numbers) -> None:
        is_known = any(partition.numbers == numbers for partition in self.partitions)
        if not is_known and len(self.partitions) < MOST_INFORMATION and not fault_of(*numbers):
            self.partitions.append(Partition(*numbers))

    def fits(self, symbol: bytes, value: bytes) -> bool:
        """Whether a value has the length that a symbol should have, by any partition."""
        places = ((partition, partition.place(symbol)) for partition in self.partitions)
        return any(place is not None and of.piece(place, value) is not None for of, place in places)

    def compare(self, found: Found) -> bool:
        """Compares what the journals have at an address. Returns whether it is in doubt."""
        distinct = found.distinct()
        if not found.symbol:
            self.has_disputed_information |= found.has_conflict() or len(distinct) > 1
            for number, value in found.values:
                if value:
                    self.inform(entries.information_of(value))
                    self.informed[entries.information_of(value)].add(number)
            return False
        self.counts.update(number for number, value in found.values if value)
        if self.partitions:
            if all(partition.place(found.symbol) is None for partition in self.partitions):
                return False
            distinct = [value for value in distinct if self.fits(found.symbol, value)]
        if len(distinct) == 1 and not found.has_conflict():
            return False
        self.disputed += 1
        if len(distinct) > 1 and self.disputed <= MOST_COMPARED:
            for at, (one, value) in enumerate(found.values):
                for other, another in found.values[at + 1 :]:
                    if value != another:
                        self.differing[one, other] += 1
                        self.differing[other, one] += 1
        return True

    def keep(self, found: Found, kept: Budget) -> None:
        """Keeps the values of a symbol in conflict."""
        if self.is_too_much or not kept.spend(COST):
            self.give_up()
            return
        self.values[found.symbol] = []
        for value in found.distinct():
            self.take(found.symbol, value, kept)

    def give_up(self) -> None:
        self.is_too_much = True
        self.values = {}

    def take(self, symbol: bytes, value: bytes, kept: Budget) -> None:
        """Adds a value of a symbol in conflict, if it has the right length."""
        found = self.values.get(symbol)
        if found is None or len(found) >= MOST_VALUES or value in found:
            return
        if self.fits(symbol, value):
            found.append(value)
            self.combinations = self.combinations // max(1, len(found) - 1) * len(found)
            if self.combinations > MOST_TRIED or not kept.spend(len(value)):
                self.give_up()

    def orders(self) -> tuple[Order, ...]:
        """Each journal in turn, and after it the others: those first that differ least from it.

        Of many journals those that have most are first. One is enough if they do not differ.
        """
        leads = sorted(self.counts, key=lambda number: (-self.counts[number], number))
        return tuple(
            (lead, *sorted(
                (other for other in self.counts if other != lead),
                key=lambda other: (self.differing[lead, other], -self.counts[other], other),
            ))
            for lead in leads[: MOST_LEADS if self.differing else 1]
        )

    def differs(self) -> bool:
        return self.disputed > 0 or self.has_disputed_information

    def words(self) -> str:
        """What differs about it."""
        symbols = f"{self.disputed} conflicting symbol{'s' if self.disputed > 1 else ''}"
        words = [symbols] * bool(self.disputed)
        return " and ".join(words + ["lengths"] * (len(self.partitions) > 1 or not words))

    def why_not(self) -> str:
        """Why no combination of values was chosen."""
        if self.is_too_much:
            return f"more than {MOST_TRIED:,} combinations are too many"
        if self.is_spent:
            return "with those of other objects its combinations are too many"
        without = sum(not values for values in self.values.values())
        if without:
            return f"no value of {without} of {len(self.values)} conflicting symbols was found"
        return "no combination has its MD5"


class Branch:
    """The ways to put an object together that have the same transmission information."""

    def __init__(
        self, partition: Partition, informed: Container[int], state: State, budget: Budget
    ) -> None:
        """`informed` are the journals that have this information."""
        self.partition, self.informed, self.states = partition, informed, [state]
        self.budget, self.taken = budget, 0

    def take(self, found: Found, others: Sequence[bytes]) -> None:
        """Takes the next symbol; `others` are values of it that no journal has."""
        place = self.partition.place(found.symbol)
        if place is None or not self.states:
            return
        fitting = fitting_of(self.partition, place, found.values)
        fitting += fitting_of(self.partition, place, [(-1, value) for value in others])
        values = list(dict.fromkeys(value for _, value in fitting))
        is_other = bool(values) and fitting[0][0] < 0  # no journal has a value
        is_next = place == self.taken and values
        if not is_next or not self.budget.spend(len(values[0]) * len(self.states)):
            self.states = []
            return
        self.taken += 1
        if len(values) > 1 or is_other:
            self.part(found.symbol, fitting, values)
            if not self.budget.spend(STATE_COST * len(self.states)):
                self.states = []
            return
        piece = self.partition.piece(place, values[0])
        assert piece is not None  # as it is fitting
        for state in self.states:
            state.sink.update(piece)

    def part(self, symbol: bytes, fitting: Values, values: list[bytes]) -> None:
        """Parts each state by the values that this symbol may have; too many end the branch."""
        place, states = self.taken - 1, []
        if len(self.states) * len(values) > MOST_TRIED and not self.states[0].orders:
            self.states = []
            return
        pieces = {value: self.partition.piece(place, value) for value in values}
        for state in self.states:
            ways: dict[bytes, list[Order]] = {}
            for order in state.orders:
                ways.setdefault(first_of(order, fitting), []).append(order)
            taken = [*ways] if state.orders else values
            for value in taken:
                sink = state.sink if value is taken[-1] else state.sink.copy()
                piece = pieces[value]
                assert piece is not None  # as it is fitting
                sink.update(piece)
                chosen = state.chosen if state.orders else (*state.chosen, (symbol, value))
                states.append(State(sink, tuple(ways.get(value, ())), chosen))
        self.states = states

    def ends(self) -> Iterator[tuple[Way, Sink]]:
        """The ways that reached the end of the object."""
        if self.taken == self.partition.symbols:
            for sink, orders, chosen in self.states:
                own = [order for order in orders if order[0] in self.informed]
                yield Way(self.partition, (own or [*orders, ()])[0], dict(chosen)), sink


class Resolving:
    """Objects about which journals differ."""

    def __init__(
        self, journals: Sequence[str], wanted: dict[Key, Wanted], budget: Budget
    ) -> None:
        self.journals, self.wanted, self.budget = journals, wanted, budget
        self.kept = Budget(MOST_KEPT)
        self.done: set[Key] = set()  # objects of which no further way is looked for

    def compare(self, others: Sequence[str]) -> None:
        """Reads in what the journals differ.

        If there are others, datagram files and journals, the values that these have of symbols in
        conflict are kept. Raises Fault.
        """
        for key, _, found in merged(self.journals, self.wanted.__contains__):
            of = self.wanted[key]
            for each in found:
                if of.compare(each) and others:
                    of.keep(each, self.kept)
        for path in others:
            self.look_in(path)

    def look_in(self, path: str) -> None:
        """Keeps the values of symbols in conflict that a file has. Raises Fault."""
        try:
            with opened(path) as file:
                reader = entries.reader_of(file)
                if isinstance(reader, entries.Entries):
                    self.look_in_journal(entries_of(reader))
                else:
                    self.look_in_datagrams(reader, path)
        except records.ReadFault as fault:
            raise Fault(1, f"{shown(path)}: {fault}") from None
        except records.Cut:
            raise Fault(1, f"{shown(path)}: Cut") from None

    def look_in_journal(self, reader: Iterable[entries.Entry]) -> None:
        for (source, tsi, tag, number, symbol), kind, value in reader:
            wanted = self.wanted.get(Key(source, tsi, tag, number))
            if wanted and symbol and value:
                wanted.take(symbol, value, self.kept)

    def look_in_datagrams(self, reader: Iterable[bytes], path: str) -> None:
        of = name_of(os.path.basename(path))
        source = sender_bytes(str(of.address)) if of else None
        by_object: dict[tuple[int, int, int], list[Wanted]] = {}
        for key, wanted in self.wanted.items():
            if source in (None, key.source):
                by_object.setdefault((key.tsi, key.tag, key.number), []).append(wanted)
        for payload in reader:
            packet = packet_of(payload)
            if not packet:
                continue
            tag = entries.FILE if packet.toi else entries.FDT_INSTANCE
            number = packet.toi or packet.instance or 0
            for wanted in by_object.get((packet.tsi, tag, number), ()):
                if packet.information:
                    wanted.inform(entries.information_of(packet.information))
                if packet.symbol:
                    wanted.take(packet.payload_id, packet.symbol, self.kept)

    def is_open(self, key: Key) -> bool:
        return key in self.wanted and key not in self.done

    def by_journal(self) -> Iterator[tuple[Key, list[tuple[Way, Sink]]]]:
        """Yields the ways in which each object is whole if one journal is believed first."""
        for key, _, found in merged(self.journals, self.is_open):
            yield key, self.ways(self.wanted[key], self.wanted[key].orders(), {}, found)

    def by_combination(self) -> Iterator[tuple[Key, list[tuple[Way, Sink]]]]:
        """Yields the combinations of values in which each object is whole."""
        for key, _, found in merged(self.journals, self.is_open):
            wanted = self.wanted[key]
            is_tried = not wanted.is_too_much
            ends = self.ways(wanted, (), wanted.values, found) if is_tried else []
            wanted.is_spent = self.budget.left < 0
            yield key, ends

    def ways(
        self,
        wanted: Wanted,
        orders: tuple[Order, ...],
        values: Mapping[bytes, Sequence[bytes]],
        found: Iterator[Found],
    ) -> list[tuple[Way, Sink]]:
        """The ways by these orders, or by all combinations of the values that symbols have here and
        in the journals."""
        branches = [
            Branch(
                partition,
                wanted.informed[partition.numbers],
                State(wanted.sink(), orders, ()),
                self.budget,
            )
            for partition in wanted.partitions
        ]
        for each in found:
            others = values.get(each.symbol, ())
            for branch in branches if each.symbol else ():
                branch.take(each, others)
        return [end for branch in branches for end in branch.ends()]
