"""What journals that agree about an object have of it, where others differ: its generations."""
from __future__ import annotations

from typing import Collection, Counter, Iterator, NamedTuple, Tuple

from flutejoin_tools.common.gaps import PARTIAL, Numbers
from flutejoin_tools.formats.partition import Partition
from flutejoin_tools.journals.holdings import Key
from flutejoin_tools.journals.merged import Found, merged
from flutejoin_tools.journals.resolving import MOST_COMPARED, MOST_LEADS, Resolving, Wanted
from flutejoin_tools.journals.states import State

# In how many symbols each two journals agree
Same = Counter[Tuple[int, int]]


class Share(NamedTuple):
    """What some journals have of an object."""

    journals: tuple[int, ...]  # their numbers; those that have most are first
    numbers: Numbers  # its transmission information
    state: State


class Counting:
    """Counts the symbols that journals have of an object."""

    def __init__(self, journals: tuple[int, ...], partition: Partition) -> None:
        self.journals, self.partition = journals, partition
        self.held = self.disputed = 0

    def take(self, found: Found) -> None:
        """Counts a symbol, by what these journals have of it."""
        place = self.partition.place(found.symbol)
        of = {value for number, value in found.values if number in self.journals}
        if place is None or not of:
            return
        (value, *others) = of
        if others or not value:
            self.disputed += 1
        elif self.partition.piece(place, value) is not None:
            self.held += 1

    def share(self) -> Share:
        """What was counted, as a share of the object."""
        wanted = self.partition.symbols - self.held
        state = State(PARTIAL, wanted, self.disputed, self.disputed > 0)
        return Share(self.journals, self.partition.numbers, state)


def shares(
    resolving: Resolving, keys: Collection[Key], without: Collection[int]
) -> Iterator[tuple[Key, list[Share]]]:
    """Yields of each of these objects what journals that agree have of it, `without` some of them.

    Journals agree if more of its symbols are equal than differ. Of such groups of journals the
    greatest are taken: none is a part of another one.
    """
    agreeing = {
        key: same_in(found, resolving.wanted[key]) for key, found in chosen(resolving, keys)
    }
    for key, found in chosen(resolving, keys):
        wanted = resolving.wanted[key]
        groups = groups_of(wanted, agreeing[key], without)
        counts = [
            Counting(group, partition)
            for group in groups
            for partition in wanted.partitions
            if not wanted.informed.get(partition.numbers, {*group}).isdisjoint(group)
        ]
        for each in found:
            for count in counts if each.symbol else ():
                count.take(each)
        yield key, [count.share() for count in counts]


def chosen(resolving: Resolving, keys: Collection[Key]) -> Iterator[tuple[Key, Iterator[Found]]]:
    """Yields these objects with what all journals have of them."""
    for key, _, found in merged(resolving.journals, keys.__contains__):
        yield key, found


def same_in(found: Iterator[Found], wanted: Wanted) -> Same:
    """In how many symbols two journals agree that differ in others."""
    same: Same = Counter()
    for number, each in enumerate(found):
        values = each.values if number < MOST_COMPARED else []
        for at, (one, value) in enumerate(values):
            for other, another in values[at + 1 :]:
                if value == another and wanted.differing[one, other]:
                    same[one, other] += 1
                    same[other, one] += 1
    return same


def groups_of(
    wanted: Wanted, same: Same, without: Collection[int]
) -> list[tuple[int, ...]]:
    """The journals that agree with each; none of these groups is a part of another one."""
    leads = [number for number in sorted(wanted.counts) if number not in without][:MOST_LEADS]
    groups = {
        frozenset(other for other in leads if agree(wanted, same, lead, other)) for lead in leads
    }
    greatest = [each for each in groups if not any(each < other for other in groups)]
    by_count = (sorted(each, key=lambda number: -wanted.counts[number]) for each in greatest)
    return sorted(tuple(each) for each in by_count)


def agree(wanted: Wanted, same: Same, one: int, other: int) -> bool:
    """Whether two journals have more symbols of an object in common than differing ones, and not
    different transmission information."""
    differing = wanted.differing[one, other]
    if differing and same[one, other] <= differing:
        return False
    told = [{one, other} & of for of in wanted.informed.values()]
    return one == other or not ({one} in told and {other} in told)
