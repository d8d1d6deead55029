"""Delivers the files of stations: takes what came, and makes a file of each object that is whole.

What is in the folder:
  files/            the files, by their names
  delivered.jsonl   a line for each file that was delivered
  pending/STATION   journals of what is not delivered yet; gathered/: of all that are asked
  asked/STATION     what a station that is asked told
  kept/             journals of what was delivered, until --keep is over
  fdt/, aside/      FDT Instances, of all stations; journals at fault
  ledger.db         which files were delivered, and with which bytes
  taken, ready, round, work   what is on its way
"""
from __future__ import annotations

import contextlib
import errno
import os
import shutil
import time
from functools import partial
from typing import Callable, Container, Iterable, Iterator, Optional

from flutejoin_tools.centre.arrivals import Arrival, shares
from flutejoin_tools.centre.inbox import Inbox, Station, put_aside
from flutejoin_tools.centre.ledger import Ledger
from flutejoin_tools.centre.past import Past
from flutejoin_tools.centre.pending import Pending, empty_in
from flutejoin_tools.centre.rounds import Made, Once, Outcome, is_full, make
from flutejoin_tools.centre.settings import Settings
from flutejoin_tools.centre.shipping import Shipping
from flutejoin_tools.centre.symbols import Contents, Symbols
from flutejoin_tools.common import gaps
from flutejoin_tools.common.faults import Fault
from flutejoin_tools.common.places import Scratch
from flutejoin_tools.common.program import Failed, Program
from flutejoin_tools.common.service_log import ServiceLog
from flutejoin_tools.common.shelves import remove
from flutejoin_tools.exchange.gathered import Gathered
from flutejoin_tools.exchange.told import Told
from flutejoin_tools.fdt.described import Described
from flutejoin_tools.files.session import APART
from flutejoin_tools.formats.entries import FILE
from flutejoin_tools.formats.records import Cut, ReadFault
from flutejoin_tools.gather.gathering import Gathering
from flutejoin_tools.journals.holdings import Key

MOST_AT_ONCE = 1 << 12  # objects that a round looks at


class Deliverer:
    """Delivers what stations bring, to one folder."""

    def __init__(
        self,
        settings: Settings,
        program: str,
        report: ServiceLog,
        clock: Callable[[], float] = time.time,
        tend: Callable[[], None] = lambda: None,
    ) -> None:
        """Opens the folder of the settings, which is there. Raises OSError."""
        self.settings, self.folder = settings, settings.folder
        self.report, self.clock = report, clock
        # A round is waited for, so its runs are not behind other work.
        self.program, self.foreground = Program(program, tend), Program(program)
        self.ledger = Ledger(self.at("ledger.db"))
        self.shipping = Shipping(self.folder, settings.files, self.ledger, report)
        self.described = Described(self.at("fdt"))
        self.past = Past(self.at("kept"), settings.keep, self.program, self.ledger, self.described)
        self.documents = Gathering(self.folder, self.program, report, seconds=settings.keep)
        self.gathered: Optional[Gathered] = None
        self.arrivals = [self.arrival(station) for station in settings.stations]
        if any(each.told for each in self.arrivals):
            self.gathered = Gathered(self.at("gathered"), self.program, report)
        self.once = Once(report)
        self.touched: set[Key] = set()  # objects that may have become whole
        self.dirty: set[Key] = set()  # objects of which something changed, for who shows them
        self.union: dict[Key, Symbols] = {}  # the symbols that any station has
        self.done: dict[Key, set[Optional[str]]] = {}  # the described MD5s that were delivered
        self.wrong: dict[Key, str] = {}  # why a whole object is not delivered
        self.left: set[Key] = set()  # what was delivered, and could not be taken away
        self.opened: set[Key] = set()  # objects that are described anew, for who asks for them
        self.is_begun = False

    def at(self, *names: str) -> str:
        return os.path.join(self.folder, *names)

    def arrival(self, station: Station) -> Arrival:
        inbox = Inbox(station, self.at("taken", station.name))
        pending = Pending(self.at("pending", station.name), self.program, self.report)
        if not station.ask:
            return Arrival(station, inbox, pending)
        os.makedirs(station.folder, exist_ok=True)
        return Arrival(station, inbox, pending, Told(os.path.join(station.folder, "told")))

    def pendings(self) -> list[Pending]:
        """What came of stations: of each that brings it, and of all that are asked."""
        found = [each.pending for each in self.arrivals]
        return found + ([self.gathered.pending] if self.gathered else [])

    def begin(self) -> None:
        """Takes up what a run before left. What waits is looked at once more."""
        self.shipping.resume()
        for name in "round", "work":
            shutil.rmtree(self.at(name), ignore_errors=True)
        self.read_done()
        self.touched |= self.described.look()
        for each in self.arrivals:
            each.came_at = self.ledger.came_at(each.station.name)
            if each.told:
                each.told.read()
                self.dirty |= each.told.symbols.keys()
                self.opened |= each.told.symbols.keys()
        for pending in self.pendings():
            pending.read()
            delivered = pending.objects.keys() & self.done.keys()
            if delivered:  # a kill may have come before they were taken away
                pending.remove(delivered, self.contents)
            self.touched |= pending.objects.keys()
            for key, symbols in pending.objects.items():
                self.union[key] = symbols.beside(self.union.get(key))
        if self.gathered:
            self.gathered.read()
        self.dirty |= self.touched
        self.is_begun = True

    def read_done(self, keys: Optional[set[Key]] = None) -> None:
        """Reads which files were delivered, or those of some objects."""
        for key in [*self.done] if keys is None else keys:
            self.done.pop(key, None)
        for key, described in self.ledger.described(keys):
            self.done.setdefault(key, set()).add(described)

    def work(self) -> int:
        """Takes what came, delivers what is whole, and returns how many files.

        A journal of what waits that is damaged is set aside, and the others are delivered. Raises
        OSError and Fault.
        """
        try:
            return self.work_once()
        except (ReadFault, Cut, Fault) as fault:
            if isinstance(fault, Fault) and fault.status != 1:
                raise
            if not self.set_damaged_aside():
                raise Fault(3, named(fault)) from None
        return self.work_once()

    def set_damaged_aside(self) -> bool:
        """Sets journals of what waits aside that flutejoin refuses. Returns whether any was."""
        found = False
        for pending in self.pendings():
            for path in pending.journals():
                answer = self.program.run([*gaps.CHECK, path])
                if answer.status == 1:
                    name = os.path.basename(pending.folder)
                    kept = put_aside(path, self.at("aside"), name)
                    told = f"{path} is damaged: {answer.told}; it is kept as {kept}"
                    self.report.fault(1, told)
                    found = True
        if found:
            self.union.clear()
            self.is_begun = False
        return found

    def work_once(self) -> int:
        if not self.is_begun:
            self.begin()
        self.shipping.place()
        self.shipping.tell()
        faults: list[OSError] = []
        for each in self.arrivals:
            try:
                self.take_away(each.pending, self.left)
                self.take(each)
            except OSError as fault:  # what others brought may be delivered
                faults.append(fault)
        if self.gathered:
            self.take_away(self.gathered.pending, self.left)
        new = self.described.look()
        for changed in self.touched, self.dirty, self.opened:
            changed.update(new)
        count = self.deliver()
        if faults:
            raise faults[0]
        self.left.clear()
        return count

    def contents(self, key: Key) -> list[tuple[int, Contents]]:
        """The contents of an object that were delivered, with their serial numbers."""
        return self.ledger.contents(key) if key in self.done else []

    def take(self, arrival: Arrival) -> None:
        """Takes what came of a station. If its folder can't be read, that is told."""
        what, paths, count = f"station {arrival.station.name}", [], 0
        full: Optional[OSError] = None
        try:
            try:
                paths = arrival.inbox.take()
            except OSError as fault:
                full = fault if is_full(fault) else None
                if not full:
                    raise
            count = arrival.inbox.take_documents(self.documents.documents)
        except OSError as fault:
            self.report.fails(what, f"{what}: {fault.filename}: {fault.strerror}")
            return
        self.report.works(what)
        for path in arrival.inbox.left:
            self.once.warn(f"{path}: is no FDT Instance, and is left as it is")
        arrival.inbox.left.clear()
        if paths or count:
            self.come(arrival)
        for path in paths:
            self.take_journal(arrival, path)
        if full:
            raise full

    def come(self, arrival: Arrival) -> None:
        """Notes that something came of a station."""
        arrival.came_at = self.clock()
        self.ledger.come(arrival.station.name, arrival.came_at)

    def take_journal(self, arrival: Arrival, path: str) -> None:
        """Joins a journal with what waits. One at fault is set aside."""
        name = arrival.station.name
        try:
            came = arrival.pending.take(path, self.contents)
            if came.has_instances:
                self.documents.gather_instances(path)
        except (ReadFault, Cut, Failed) as fault:
            if isinstance(fault, Failed) and fault.answer.status != 1:
                raise OSError(errno.EIO, str(fault), path) from None
            kept = put_aside(path, self.at("aside"), name)
            self.report.fault(1, f"station {name}: {named(fault)}; it is kept as {kept}")
            return
        shares = {it: {name: share} for it, share in came.again.items()}
        self.ledger.see_again(self.clock(), shares)
        self.note(came.objects)
        remove(path)

    def note(self, came: dict[Key, Symbols]) -> None:
        """Notes which symbols of objects came."""
        self.ledger.wait(came, self.clock())
        self.touched |= came.keys()
        self.dirty |= came.keys()
        for key, symbols in came.items():
            self.union[key] = symbols.beside(self.union.get(key))

    def deliver(self) -> int:
        """Makes files of what may be whole."""
        ready = sorted(key for key in self.touched if self.may_be_whole(key))
        count = 0
        faults: list[Exception] = []
        for begin in range(0, len(ready), MOST_AT_ONCE):
            count += self.rounds(ready[begin : begin + MOST_AT_ONCE], faults)
        if faults:
            raise faults[0]
        self.touched.clear()
        return count

    def rounds(self, keys: list[Key], faults: list[Exception]) -> int:
        """Delivers those of some objects that are whole: fewer at a time where the disk has no room
        for all, and those that it has room for."""
        try:
            return self.round(frozenset(keys))
        except (OSError, Fault) as fault:
            if not is_full(fault):
                raise
            if len(keys) == 1:
                faults.append(fault)
                return 0
        half = len(keys) // 2
        return self.rounds(keys[:half], faults) + self.rounds(keys[half:], faults)

    def may_be_whole(self, key: Key) -> bool:
        """Whether an object is described, not delivered yet, and no symbol of it is missing."""
        if key not in self.described.by_object or self.is_done(key):
            return False
        symbols = self.union.get(key, Symbols())
        return symbols.may_be_whole(self.described.numbers(key)) or self.may_share(key)

    def may_share(self, key: Key) -> bool:
        """Whether symbols that an object lacks may be those of a version that was delivered."""
        if key not in self.done or key not in self.union:
            return False
        described = self.described.by_object.get(key, ())
        md5s = {each.file.md5.hex() for each in described if each.file.md5}
        is_whole = self.union[key].may_be_whole(self.described.numbers(key))
        return not is_whole and bool(md5s - self.done[key])

    def is_done(self, key: Key) -> bool:
        """Whether there is nothing to make of an object, and nothing to take away."""
        return not self.is_open(key) and (key not in self.union or self.ledger.has_sums(key))

    def is_open(self, key: Key) -> bool:
        """Whether a file of this object may still be delivered."""
        if key not in self.done:
            return True
        described = self.described.by_object.get(key, ())
        md5s = {each.file.md5.hex() if each.file.md5 else None for each in described}
        if key not in self.union:
            md5s.discard(None)
        return None in md5s or bool(md5s - self.done[key])

    def round(self, keys: frozenset[Key]) -> int:
        """Delivers those of some objects that are whole, and returns how many files."""
        folder = self.at("round")
        shutil.rmtree(folder, ignore_errors=True)
        os.makedirs(folder)
        journals = [it for each in self.pendings() for it in each.copy(keys, folder)]
        journals += self.past.copy(frozenset(filter(self.may_share, keys)), folder)
        journals = journals or [empty_in(folder)]
        documents = [*self.described.documents_of(set(keys))]
        with self.scratch_folder() as scratch:
            self.foreground.kept = (scratch.folder,)
            outcome = make(self.foreground, journals, scratch, documents, self.once)
            self.note_wrong(keys, outcome)
            count = self.shipping.ship(outcome, partial(shares, self.arrivals), self.clock())
        self.let_go_of(keys, outcome, journals)
        shutil.rmtree(folder, ignore_errors=True)
        return count

    @contextlib.contextmanager
    def scratch_folder(self) -> Iterator[Scratch]:
        scratch = Scratch(self.at("work"))
        try:
            yield scratch
        finally:
            scratch.end()

    def note_wrong(self, keys: Container[Key], outcome: Outcome) -> None:
        for key in [it for it in self.wrong if it in keys]:
            del self.wrong[key]
        for (source, tsi, toi), told in outcome.wrong.items():
            key = Key(source, tsi, FILE, toi)
            self.wrong[key] = told
            file = self.described.file(key)
            self.once.warn(f"{file.location if file else key.text()}: not delivered: {told}")

    def let_go_of(self, keys: frozenset[Key], outcome: Outcome, journals: list[str]) -> None:
        """Takes what was delivered out of what waits, and keeps it apart."""
        made = {key_of(it) for it in outcome.made}
        self.dirty |= keys & self.union.keys()
        for it in outcome.made:
            md5 = it.described()
            self.done.setdefault(key_of(it), set()).add(md5.hex() if md5 else None)
        if not made:
            return
        try:
            is_all = made >= keys & self.union.keys()
            self.past.keep(made, journals, self.clock(), is_all)
            self.report.works("kept")
        except OSError as fault:  # what was delivered need not be kept
            if not is_full(fault):
                raise
            told = f"not all that was delivered is kept: {fault.filename}: {fault.strerror}"
            self.report.fails("kept", told)
        self.left |= made
        plain = made - {key_of(it) for it in outcome.made if not it.is_plain}
        for pending in self.pendings():
            pending.forget(plain)
            self.take_away(pending, made - plain)
        self.left -= made
        self.unite(made)
        self.ledger.end_waiting(made - self.union.keys())

    def take_away(self, pending: Pending, keys: set[Key]) -> None:
        """Takes what was delivered out of what waits of a station, or of those that are asked."""
        if any(key in pending.objects for key in keys):
            pending.remove(keys, self.contents)

    def unite(self, keys: Iterable[Key]) -> None:
        """Puts together anew which symbols any station has of some objects."""
        found = {*keys}
        for key in found:
            self.dirty.add(key)
            self.union.pop(key, None)
            for pending in self.pendings():
                if key in pending.objects:
                    self.union[key] = pending.objects[key].beside(self.union.get(key))
        if self.gathered:
            self.gathered.read(found)

    def forget(self, keys: frozenset[Key]) -> None:
        """Lets go of what waits of some objects."""
        for pending in self.pendings():
            pending.forget(keys)
        for each in self.arrivals:
            if each.told:
                each.told.forget(keys)


def key_of(made: Made) -> Key:
    key = made.ready.session.key(made.ready.toi)
    return key._replace(number=key.number % APART)


def named(fault: Exception) -> str:
    return "a journal is cut" if isinstance(fault, Cut) else f"a journal is at fault: {fault}"
