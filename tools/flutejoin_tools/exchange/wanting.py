"""What a centre wants of a station, by what that told: decided before a symbol is sent."""
from __future__ import annotations

from typing import TYPE_CHECKING, Callable, Container, Iterable, Iterator, NamedTuple, Optional

from flutejoin_tools.centre.arrivals import brought
from flutejoin_tools.exchange.agreeing import Held, Wanted, Wants
from flutejoin_tools.exchange.exchange import ASIDE, MOST_AGAIN, Change, Want
from flutejoin_tools.exchange.told import Journal, Told
from flutejoin_tools.formats.entries import information_of
from flutejoin_tools.formats.partition import Partition, fault_of
from flutejoin_tools.formats.records import Cut, ReadFault
from flutejoin_tools.journals.holdings import Key
from flutejoin_tools.journals.sums import DISPUTED, NO_INFORMATION, Sums

if TYPE_CHECKING:
    from flutejoin_tools.centre.delivering import Deliverer

MOST_ASKED = 1 << 24  # bytes of symbols that are asked for at once, so that little comes twice
MOST_SYMBOLS = 1 << 16  # that are asked for at once
MOST_JOURNALS = 64  # of which each is read once by the station
ENTRY, LONGEST, SYMBOL = 44, 65_579, 1_500  # bytes: beside a symbol, an entry, an unknown symbol
ALWAYS = 256  # symbols that may be as long as any
HEAD = 1 << 20  # bytes of an answer beside its symbols, and of what ssh may write itself
MOST_REFUSED = 1 << 16  # objects


class Asked(NamedTuple):
    """What is asked for of the journals of a station."""

    journals: dict[Journal, list[Wanted]]
    symbols: int
    most: int  # bytes that the answer may have

    def request(self) -> Want:
        """The request for it."""
        lines: dict[str, list[str]] = {}
        for journal, every in self.journals.items():
            of = [line for each in sorted(every) for line in each.lines()]
            if of:
                lines[journal.id] = of
        return Want(lines)


class Wanting:
    """Decides what is wanted of one station."""

    def __init__(self, told: Told, held: Held, deliverer: Deliverer, name: str) -> None:
        self.told, self.held, self.deliverer, self.name = told, held, deliverer, name
        self.settled: dict[tuple[str, Key], int] = {}  # of what is told nothing more is wanted
        self.refused: dict[tuple[str, Key], set[bytes]] = {}  # symbols with sums that did not come
        self.again: set[Key] = set()  # objects of which not all is known that is there
        self.shares: dict[int, dict[str, float]] = {}  # of what was delivered, by serial numbers

    def forget(self, keys: Container[Key]) -> bool:
        """Decides anew about some objects. Returns whether there are any."""
        found = [each for each in self.settled if each[1] in keys]
        for at in found:
            del self.settled[at]
        return bool(found)

    def is_delivered(self, change: Change) -> bool:
        """Whether all of what is told of an object was delivered. Its share is noted then."""
        if change.key not in self.deliverer.done or not change.sums.symbols:
            return False
        for serial, contents in self.deliverer.ledger.contents(change.key):
            if contents.has_all(change.sums):
                symbols = Partition(*contents.numbers).symbols
                share = 1000 * change.total // symbols / 10 if symbols else 100.0
                self.shares[serial] = {self.name: min(100.0, share)}
                return True
        return False

    def is_over(self, change: Change) -> bool:
        """Whether nothing of an object is wanted, since its files are delivered."""
        if change.key not in self.deliverer.done or self.deliverer.is_open(change.key):
            return False
        known = self.deliverer.ledger.contents(change.key)
        if known:
            return any(contents.agrees(change.sums) for _, contents in known)
        # Their sums are forgotten. Of a file without MD5 only its bytes tell whether it is another.
        return all(it.file.md5 for it in self.deliverer.described.by_object.get(change.key, ()))

    def decide(self, journal: Journal, change: Change) -> Optional[Wanted]:
        """What of an object is wanted; None if nothing is."""
        if self.is_over(change):
            return None
        if not change.is_complete():
            if len(self.again) < MOST_AGAIN:
                self.again.add(change.key)
            return None
        decide = self.held.decide_aside if journal.kind == ASIDE else self.held.decide
        wanted = self.without_brought(decide(change.key, change.sums), change.sums)
        refused = self.refused.get((journal.id, change.key), set())
        if refused:
            wanted = chosen_of(wanted, lambda name, value: name + value not in refused)
        return None if wanted.is_empty() else wanted

    def without_brought(self, wanted: Wanted, told: Sums) -> Wanted:
        """What is wanted, without the symbols that other stations brought by themselves: those of
        journals of which nothing differs from what is told."""
        mine = told.by_symbol()
        here: set[bytes] = set()
        for sums in brought(self.deliverer.arrivals, {wanted.key}).get(wanted.key, ()):
            brought_symbols = sums.by_symbol()
            same = (mine.get(name, value) == value for name, value in brought_symbols.items())
            if all(same) and sums.information in (told.information, NO_INFORMATION):
                here |= brought_symbols.keys()
        missing = {name: value for name, value in wanted.missing.items() if name not in here}
        return wanted._replace(missing=missing)

    def ask(self, most: int) -> Asked:
        """What is to be asked for now, of about so many bytes. Raises OSError."""
        brought(self.deliverer.arrivals, self.told.symbols.keys())  # reads all at once
        asked, bytes_left, symbols_left, room = Asked({}, 0, 0), most, MOST_SYMBOLS, 0
        count = 0
        taken: set[Key] = set()
        for journal in self.told.journals():
            for wanted, size in self.wanted_of(journal, taken):
                most_symbols = max(1, min(symbols_left, bytes_left // (size + ENTRY)))
                part = part_of(wanted, most_symbols)
                number = len(part.missing) + len(part.others)
                asked.journals.setdefault(journal, []).append(part)
                taken.add(wanted.key)
                count, room = count + number, room + number * (size + ENTRY)
                bytes_left -= number * (size + ENTRY)
                symbols_left -= number
                if bytes_left <= 0 or symbols_left <= 0:
                    break
            if bytes_left <= 0 or symbols_left <= 0 or len(asked.journals) >= MOST_JOURNALS:
                break
        limit = max(4 * room, min(count, ALWAYS) * LONGEST) + HEAD
        return asked._replace(symbols=count, most=limit)

    def wanted_of(self, journal: Journal, taken: set[Key]) -> Iterator[tuple[Wanted, int]]:
        """Yields what is wanted of a journal, and how long a symbol likely is.

        An object that is asked for of another journal waits until that is answered.
        """
        gone = set()
        for change in self.known(journal):
            at = journal.id, change.key
            if change.key in taken or self.settled.get(at) == hash(change.sums):
                continue
            if self.is_delivered(change):
                gone.add(change.key)
                continue
            wanted = self.decide(journal, change)
            if wanted:
                yield wanted, size_of(change)
            elif change.is_complete():
                self.settled[at] = hash(change.sums)
        if gone:
            self.told.drop(journal, gone)
            self.told.hide(gone)

    def known(self, journal: Journal) -> Iterator[Change]:
        """Yields what was told of a journal; if its file is damaged, all is asked for anew."""
        try:
            yield from self.told.items(journal)
        except (ReadFault, Cut):  # it is told anew
            self.told.put_mark(None)
            self.told.replace(journal, ())

    def wants(self, journal: Journal, asked: Iterable[Wanted]) -> Wants:
        """What is wanted of an answer, as it is decided now: something may have come meanwhile."""
        keys = {each.key for each in asked}
        changes = [each for each in self.known(journal) if each.key in keys]
        found = (
            self.decide(journal, each) for each in changes if not self.is_delivered(each)
        )
        return Wants(self.held, (each for each in found if each))

    def refuse(self, journal: Journal, asked: Iterable[Wanted], wants: Wants) -> None:
        """Asks no more for what did not come of a journal, as it is told now."""
        for each in asked:
            came = wants.came.get(each.key.raw())
            every = {**each.missing, **each.others} if came is not None else {}
            lacking = {name + value for name, value in every.items() if name not in (came or ())}
            if lacking and len(self.refused) < MOST_REFUSED:
                self.refused.setdefault((journal.id, each.key), set()).update(lacking)


def chosen_of(wanted: Wanted, choice: Callable[[bytes, bytes], bool]) -> Wanted:
    """Some of the symbols that are wanted, chosen by their names and sums."""
    missing = {name: value for name, value in wanted.missing.items() if choice(name, value)}
    others = {name: value for name, value in wanted.others.items() if choice(name, value)}
    return wanted._replace(missing=missing, others=others)


def part_of(wanted: Wanted, most: int) -> Wanted:
    """At most so many symbols of what is wanted of an object, the first ones."""
    if len(wanted.missing) + len(wanted.others) <= most:
        return wanted
    names = {*sorted([*wanted.missing, *wanted.others])[:most]}
    return chosen_of(wanted, lambda name, _: name in names)


def size_of(change: Change) -> int:
    """How long a symbol of an object likely is."""
    known = change.sums.information
    if known in (NO_INFORMATION, DISPUTED):
        return SYMBOL
    numbers = information_of(known)
    return SYMBOL if fault_of(*numbers) else max(1, min(numbers[1], numbers[0]))
