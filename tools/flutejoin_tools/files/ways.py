"""Finds the files that objects are about which journals differ: by MD5, or what agrees."""
from __future__ import annotations

import collections
import os
from typing import Callable, Iterable, Iterator, Sequence

from flutejoin_tools.common.gaps import Numbers
from flutejoin_tools.fdt.content import Sums
from flutejoin_tools.files.catalogue import Catalogue
from flutejoin_tools.files.session import Described, Session
from flutejoin_tools.formats.partition import Partition
from flutejoin_tools.gather.beside import is_aside
from flutejoin_tools.journals.holdings import NOTHING, Key
from flutejoin_tools.journals.resolving import Budget, Resolving, Sink, Wanted, Way
from flutejoin_tools.journals.shares import Share, shares
from flutejoin_tools.journals.states import State

MOST_HASHED = 1 << 30  # bytes of all ways to put objects together, or some times those of journals
MOST_DECODED = 1 << 26  # bytes of an object that is decoded in several ways
BY_MD5, BY_LENGTH = "by its MD5", "by its length"


class Ways:
    """How objects were put together.

    A TOI may have several files: each that was found, and each that is held in part, has a number
    of its own in the catalogue.
    """

    def __init__(self, catalogue: Catalogue, journals: Sequence[str]) -> None:
        self.catalogue = catalogue
        doubtful = [
            (session, toi)
            for session in catalogue
            for toi in session.files
            if session.is_in_doubt(toi) or self.may_have_more(session, toi, journals)
        ]
        budget = Budget(max(MOST_HASHED, 4 * sum(map(os.path.getsize, journals))))
        wanted = {session.key(toi): differing(session, toi, budget) for session, toi in doubtful}
        self.resolving = Resolving(journals, wanted, budget)
        # By the place of the description, the newest first
        # Of each object the ways by which it has an MD5, by their ages
        self.right_ways: dict[Key, dict[int, Way]] = collections.defaultdict(dict)
        self.by_length: dict[Key, list[Share]] = {}  # of objects that no description gives an MD5
        self.aside = [at for at, path in enumerate(journals) if is_aside(path)]

    @staticmethod
    def may_have_more(session: Session, toi: int, journals: Sequence[str]) -> bool:
        """Whether a TOI may have come with contents that another description has."""
        has_symbols = session.held.get(toi, NOTHING).symbols > 0
        return has_symbols and len(journals) > 1 and len(session.md5s(toi)) > 1

    def md5s(self, key: Key) -> list[bytes]:
        return self.catalogue.of(key).md5s(key.number)

    def look(self, others: Sequence[str]) -> None:
        """Looks for the ways by which objects are as a description says.

        If there are others, datagram files and journals, combinations of the values that these have
        are tried too.
        """
        wanted = self.resolving.wanted
        if not wanted:
            return
        without = {key for key in wanted if not self.md5s(key)}
        self.resolving.done.update(without)
        self.resolving.compare(others)
        for way_of in [self.resolving.by_journal] + [self.resolving.by_combination] * bool(others):
            for key, ends in way_of():
                self.take(key, ends)
        for key, disputed in wanted.items():
            session = self.catalogue.of(key)
            is_found = self.right_ways[key] or session.is_verified(key.number) or key in without
            if others and disputed.differs() and not is_found:
                session.unresolved[key.number] = disputed.why_not()
        self.by_length = dict(shares(self.resolving, without, self.aside))

    def take(self, key: Key, ends: Iterable[tuple[Way, Sink]]) -> None:
        """Notes for each description of an object the first way whose bytes have its MD5."""
        for way, sums in ends:
            if sums.is_right():
                self.right_ways[key].setdefault(sums.age(), way)
        if len(self.right_ways[key]) == len(self.md5s(key)):
            self.resolving.done.add(key)

    def numbered(self) -> Iterator[tuple[Key, int, Way]]:
        """Yields each object that was found, and its number in the catalogue."""
        for key, by_age in self.right_ways.items():
            session, number = self.catalogue.of(key), key.number
            md5s = session.md5s(number)
            own = session.files[number].file.md5 if session.is_verified(number) else None
            for age, way in sorted(by_age.items()):
                if md5s[age] == own:
                    continue
                yield key, place(session, number, has_md5(md5s[age]), own is None), way
                own = own or md5s[age]
        for key, every in self.by_length.items():
            yield from self.of_lengths(key, every)

    def of_lengths(self, key: Key, every: list[Share]) -> Iterator[tuple[Key, int, Way]]:
        """Yields what is whole of an object without an MD5, if one description has its length.

        Each length that is described is a file of its own then.
        """
        session, number = self.catalogue.of(key), key.number
        told = collections.Counter(each.file.transfer_length() for each in session.usable(number))
        came = collections.Counter(each.numbers[0] for each in every)
        certain = [it for it in every if told[it.numbers[0]] == came[it.numbers[0]] == 1]
        for at, share in enumerate(certain):
            toi = place(session, number, has_length(share.numbers[0]), at == 0)
            session.states[toi], session.proved[toi] = share.state, share.numbers
            if not share.state.wanted:
                yield key, toi, Way(Partition(*share.numbers), share.journals, {})
        for each in session.described(number)[1:] if certain else ():
            session.apart(number, lambda other: other is each)

    def note(self, key: Key, number: int, way: Way) -> None:
        """Notes how an object was put together."""
        session, disputed = self.catalogue.of(key), self.resolving.wanted[key]
        session.proved[number] = way.partition.numbers
        if disputed.differs():
            by = BY_MD5 if key in self.right_ways and self.right_ways[key] else BY_LENGTH
            session.resolved[number] = f"{disputed.words()}, {by}"

    def share(self) -> None:
        """Notes of the files that were not found what journals have that agree."""
        left = {
            key: disputed
            for key, disputed in self.resolving.wanted.items()
            if disputed.differing and key not in self.by_length
        }
        for key, every in shares(self.resolving, left, self.aside):
            leads = {way.order[0] for way in self.right_ways[key].values() if way.order}
            others = [
                (each.numbers, each.state)
                for each in every
                if each.state.wanted and leads.isdisjoint(each.journals)
            ]
            share(self.catalogue.of(key), key.number, bool(self.right_ways[key]), others)


def differing(session: Session, toi: int, budget: Budget) -> Wanted:
    """What is wanted of an object about which journals differ: bytes with one of its MD5s."""
    md5s, described = session.md5s(toi), session.usable(toi)
    encodings = sorted({each.file.encoding for each in described if each.file.encoding})
    return Wanted(lambda: Sums(md5s, encodings, MOST_DECODED, budget), session.lengths(toi))


def has_md5(md5: bytes) -> Callable[[Described], bool]:
    return lambda each: each.file.md5 == md5


def has_length(length: int) -> Callable[[Described], bool]:
    return lambda each: each.file.transfer_length() == length


def place(
    session: Session, toi: int, is_one: Callable[[Described], bool], is_first: bool
) -> int:
    """The number of a file of a TOI by its descriptions: the first one has that of the TOI."""
    if not is_first:
        return session.apart(toi, is_one)
    session.describe(toi, sorted(session.described(toi), key=lambda each: not is_one(each)))
    return toi


def share(session: Session, toi: int, is_found: bool, left: list[tuple[Numbers, State]]) -> None:
    """Notes what is held of the files of a TOI that were not found, each with its information.

    Which is which nobody can tell but by that: the last one is taken as the newest.
    """
    own = session.files[toi].file.md5 if is_found or session.is_verified(toi) else None
    for md5 in [md5 for md5 in session.md5s(toi) if md5 != own]:
        if not left:
            return
        told = [it.file.information() for it in session.described(toi) if it.file.md5 == md5]
        numbers, state = next((each for each in left[::-1] if each[0] in told), left[-1])
        left.remove((numbers, state))
        number = place(session, toi, has_md5(md5), own is None)
        own = own or md5
        session.states[number], session.proved[number] = state, numbers
